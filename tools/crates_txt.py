"""Reads crates.txt for the scripts of tools/ and tests/: the names of the crates, in its order, their layers, and what kind each is."""
import os
import re

TOP = os.path.realpath(f"{os.path.dirname(os.path.abspath(__file__))}/..")


def lines():
    with open(f"{TOP}/crates.txt", encoding="utf-8") as it:
        return it.read().splitlines()


def heads():
    """What precedes the colon of each line: the name of a crate, and then perhaps `staticlib`."""
    rows = [line.split("#")[0] for line in lines()]
    return [row.split(":")[0].split() for row in rows if ":" in row]


def layers():
    """The crates of each layer, by its name, lowest first. A comment line begins a layer: `# NAME: what it holds`."""
    found, names = {}, []
    for line in lines():
        if layer := re.match(r"# ([\w ]+): ", line):
            names = found.setdefault(layer[1], [])
        elif ":" in line.split("#")[0]:
            names.append(re.match(r"\w+", line)[0])
    return found


def misplaced():
    """A text for each crate that another names above its own line, or that is in no layer."""
    names, found = named(), []
    for at, line in enumerate(line.split("#")[0] for line in lines() if ":" in line.split("#")[0]):
        later = {*line.partition(":")[2].split()} & {*names[at:]}
        found += [f"crates.txt: {names[at]} is above {it}, which it names" for it in sorted(later)]
    layered = [name for those in layers().values() for name in those]
    return found + [f"crates.txt: {name} is in no layer" for name in names if name not in layered]


def named():
    """All crates, lowest first."""
    return [head[0] for head in heads()]


def is_static(name):
    """Whether a crate is a static library, which no other crate can use."""
    return [name, "staticlib"] in heads()


def examples():
    """The crates of examples and of scripts, the programs that are examples too, and the crate of the values which these share."""
    return [it for it in named() if it.endswith(("_tests", "_scripts")) or it.startswith("example_") or it == "test_values"]


def libraries():
    """The crates that have definitions or contracts: all but the examples."""
    return [it for it in named() if it not in examples()]
