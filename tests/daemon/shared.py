"""What the parts share: the mark of a part, and the files that the daemon reads."""
import contextlib
import json
import os
import tempfile
from dataclasses import dataclass
from typing import Callable, ClassVar

import checks
from checks import place_of
from common import put

FIRST = [("192.0.2.0/24", 24, 64496), ("198.51.100.0/24", 26, 64497), ("2001:db8::/32", 48, 64498)]
SECOND = [("192.0.2.0/24", 25, 64496), ("2001:db8::/32", 48, 64498)]

EXCEPTIONS = {"slurmVersion": 1, "validationOutputFilters": {"prefixFilters": [], "bgpsecFilters": []}, "locallyAddedAssertions": {"prefixAssertions": [], "bgpsecAssertions": []}}
SLURM = json.dumps(EXCEPTIONS)


class Skipped(Exception):
    """A part that cannot run here, and why."""


@dataclass
class Part:
    """A part: a function of a module here, and the option without which it cannot run."""

    # all parts, in the order of their lines
    every: ClassVar[list] = []

    play: Callable
    needs: str | None

    def __post_init__(self):
        code = self.play.__code__
        self.module, self.name = os.path.basename(code.co_filename).removesuffix(".py"), self.play.__name__
        self.label, self.place = f"{self.module}/{self.name}", place_of([(code.co_filename, code.co_firstlineno)])
        Part.every.append(self)

    def is_called(self, name):
        return name in (self.module, self.name, self.label)


def part(play=None, *, needs=None):
    """Marks a function as a part. It runs in a process and a folder of its own, with the options of the script."""
    if play is None:
        return lambda it: part(it, needs=needs)
    Part(play, needs)
    return play


@contextlib.contextmanager
def playing(name):
    """A part of this name, in a folder of its own that has list.json. An exception that ends it is a failure."""
    checks.begin(name)
    with tempfile.TemporaryDirectory() as folder:
        os.chdir(folder)
        put("list.json", text_of(FIRST))
        try:
            yield
        except Exception as fault:
            checks.raised(fault)
        finally:
            os.chdir("/")


def text_of(records):
    """A payload list of these records."""
    return json.dumps([{"prefix": prefix, "maxLength": most, "asn": asn} for prefix, most, asn in records])


def entry_of(prefix, most, asn, **more):
    """An entry of a validator's export."""
    return {"asn": f"AS{asn}", "prefix": prefix, "maxLength": most, "ta": "x", **more}
