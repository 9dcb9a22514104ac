"""The command `rt` of the kit as a module, `RT`: what it does to a crate is what is meant here too."""
import importlib.machinery
import importlib.util
import os
import shutil
import sys


def kit():
    file = os.path.realpath(shutil.which("rt"))
    sys.path.insert(0, os.path.dirname(file))
    loader = importlib.machinery.SourceFileLoader("rt", file)
    spec = importlib.util.spec_from_loader("rt", loader)
    module = importlib.util.module_from_spec(spec)
    sys.dont_write_bytecode = True
    loader.exec_module(module)
    return module


RT = kit()
