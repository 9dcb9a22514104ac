#!/usr/bin/env python3
"""Local exceptions at random (RFC 8416), read and applied beside Python's own working out of them.

usage: tests/exceptions.py TESTS [--seed N] [--seconds S]

TESTS is the program of crates/export_tests, whose test `slurm_cases::outcomes` tells what comes of each SLURM file in a file of cases
and of the payload list beside it. Prefixes are drawn from a small tree, so that filters cover records, one another, and nothing. It exits
with 1 where an outcome is another, and tells the texts; the seed makes them again."""
import argparse
import json
import os
import random
import subprocess
import sys
import tempfile
import time

from exports import Chance, Refused, deep, is_whole, members, number, prefix_of, written

ARRAYS = ["prefixFilters", "bgpsecFilters", "prefixAssertions", "bgpsecAssertions"]
OBJECTS = ["validationOutputFilters", "locallyAddedAssertions"]
SAMPLES = os.path.realpath(f"{os.path.dirname(os.path.abspath(__file__))}/../samples")


# ---- an independent working out (RFC 8416 sections 3.2 to 3.4)


def unless(well, fault, what):
    if not well:
        raise Refused(f"fault {fault}: {what} (fault {fault})")


def is_of(value, keys):
    return isinstance(value, dict) and sorted(value) == sorted(keys)


def objects_in(value):
    """The objects of a value, at any depth."""
    if isinstance(value, dict):
        yield value
    for it in value.values() if isinstance(value, dict) else value if isinstance(value, list) else ():
        yield from objects_in(it)


def arrays_of(text):
    """The four arrays of a file."""
    try:
        file = json.loads(text.decode("utf-8"), parse_int=number, parse_constant=lambda it: int(it), object_pairs_hook=members)
    except ValueError:
        file = None
        unless(False, 1, "not JSON")
    unless(deep(file) <= 127, 1, "not JSON")
    unless(not any(it.doubled for it in objects_in(file)), 8, "a name is repeated in an object")
    unless(is_of(file, ["slurmVersion", *OBJECTS]), 2, "the file is not an object of exactly its members")
    unless(is_whole(file["slurmVersion"]) and file["slurmVersion"] == 1, 3, "slurmVersion is not 1")
    for name, keys in zip(OBJECTS, (ARRAYS[:2], ARRAYS[2:])):
        unless(is_of(file[name], keys), 2, f"{name} is not an object of exactly its members")
    found = {**file[OBJECTS[0]], **file[OBJECTS[1]]}
    for name in ARRAYS:
        unless(isinstance(found[name], list), 4, f"{name} is not an array")
    return [found[name] for name in ARRAYS]


def misshapen(entry, keys, either):
    """Why an entry of these keys is none, up to its AS. A filter needs either of two keys; an assertion needs its AS."""
    if not isinstance(entry, dict):
        return "not an object"
    if set(entry) - set(keys):
        return "a key that is not known"
    if either and not {*either} & set(entry):
        return f"neither {either[0]} nor {either[1]}"
    if ("asn" in entry or not either) and not (is_whole(entry.get("asn")) and entry["asn"] < 1 << 32):
        return "asn is not an AS number"
    return None


def why_not(entry, keys, either=()):
    """Why an entry on prefixes is none, up to its prefix."""
    if why := misshapen(entry, keys, either):
        return why
    if type(entry.get("comment", "")) is not str:
        return "comment is not a string"
    if ("prefix" in entry or not either) and prefix_of(entry.get("prefix")) is None:
        return "prefix is not a prefix"
    return None


def filter_of(entry):
    return why_not(entry, ["prefix", "asn", "comment"], ("prefix", "asn")), entry


def assertion_of(entry):
    why, record = why_not(entry, ["asn", "prefix", "maxPrefixLength", "comment"]), None
    if not why:
        width, bits, length = prefix_of(entry["prefix"])
        longest = entry.get("maxPrefixLength", length)
        if is_whole(longest) and length <= longest <= width:
            record = width, bits, length, longest, entry["asn"]
        else:
            why = "maxPrefixLength is not a maximum length of the prefix"
    return why, record


def no_key(entry, keys, either=()):
    """Why an entry on BGPsec is none."""
    if why := misshapen(entry, keys, either):
        return why
    for key in ("comment", "SKI", "routerPublicKey"):
        needed = not either and key != "comment"
        if (key in entry or needed) and type(entry.get(key)) is not str:
            return f"{key} is not a string"
    return None


def key_filter_of(entry):
    return no_key(entry, ["SKI", "asn", "comment"], ("SKI", "asn")), None


def key_assertion_of(entry):
    return no_key(entry, ["asn", "SKI", "routerPublicKey", "comment"]), None


def values_of(text):
    """The filters and the assertions of a file, and how many of its entries are not applied."""
    values = []
    for name, array, read in zip(ARRAYS, arrays_of(text), (filter_of, key_filter_of, assertion_of, key_assertion_of)):
        for index, entry in enumerate(array):
            why, value = read(entry)
            unless(not why, 5, f"{name}[{index}]: {why}")
            values.append((name, value))
    filters, assertions = [it for name, it in values if name == ARRAYS[0]], {it for name, it in values if name == ARRAYS[2]}
    return filters, assertions, [sum(name == array for name, _ in values) for array in (ARRAYS[1], ARRAYS[3])]


def matches(entry, record):
    """Whether a filter matches a record (RFC 8416 section 3.3.1)."""
    width, bits, length, _, asn = record
    if "prefix" in entry:
        of, base, above = prefix_of(entry["prefix"])
        if of != width or above > length or bits >> (width - above) != base >> (width - above):
            return False
    return entry.get("asn", asn) == asn


def outcome(text, records):
    """What must come of a set with the exceptions of a text."""
    try:
        filters, assertions, ignored = values_of(text)
    except Refused as fault:
        return str(fault)
    left = {it for it in records if not any(matches(entry, it) for entry in filters)} | assertions
    return f"{ignored[0]} {ignored[1]} [{','.join(map(written, sorted(left)))}]"


# ---- cases at random


class Maker(Chance):
    """Makes files and sets by chance."""

    def record(self):
        """A record of a small tree of prefixes."""
        chance = self.chance
        width, base, first = chance.choice([(32, 0x0A000000, 8), (32, 0xC0000200, 24), (128, 0x20010DB8 << 96, 32)])
        length = first + chance.randrange(5)
        bits = base | (chance.getrandbits(length - first) << (width - length) if length > first else 0)
        return width, bits, length, min(width, length + chance.choice([0, 0, 1, 8])), chance.choice([64496, 64497, 64498, 1])

    def text(self, record):
        """The text of a record's prefix."""
        return written(record).split('"prefix":"')[1].removesuffix('"}')

    def other(self):
        return self.chance.choice([None, True, -1, 1.0, 1 << 32, 1 << 64, "", "64496", "192.0.2.1/24", "192.0.2.0/33", [], {}, 33])

    def entry(self, keys):
        """An entry of some of these keys, spoiled at times."""
        record, found = self.record(), {}
        known = {"prefix": self.text(record), "asn": record[4], "comment": "x", "maxPrefixLength": record[3], "SKI": "Zm9v", "routerPublicKey": "YmFy"}
        for key, share in keys.items():
            if self.chance.random() < share:
                found[key] = known[key]
        if self.rarely() and found:
            found[self.chance.choice(sorted(found))] = self.other()
        if self.rarely(0.01):
            found["more"] = 1
        return self.other() if self.rarely(0.01) else found

    def file(self):
        """A SLURM file, spoiled at times."""
        chance = self.chance
        count = lambda: range(chance.choice([0, 1, 2, 5]))
        half = chance.choice([{"prefix": 1, "asn": 0.4, "comment": 0.3}, {"prefix": 0.3, "asn": 1, "comment": 0.3}])
        key_half = chance.choice([{"SKI": 1, "asn": 0.4, "comment": 0.3}, {"SKI": 0.3, "asn": 1, "comment": 0.3}])
        arrays = {
            "prefixFilters": [self.entry(half) for _ in count()],
            "bgpsecFilters": [self.entry(key_half) for _ in count()],
            "prefixAssertions": [self.entry({"asn": 1, "prefix": 1, "maxPrefixLength": 0.5, "comment": 0.3}) for _ in count()],
            "bgpsecAssertions": [self.entry({"asn": 1, "SKI": 1, "routerPublicKey": 1, "comment": 0.3}) for _ in count()],
        }
        file = {"slurmVersion": 1, OBJECTS[0]: {it: arrays[it] for it in ARRAYS[:2]}, OBJECTS[1]: {it: arrays[it] for it in ARRAYS[2:]}}
        if self.rarely(0.1):
            place = chance.choice([file, file[OBJECTS[0]], file[OBJECTS[1]]])
            key = chance.choice([*place, "more"])
            if chance.random() < 0.3:
                place.pop(key, None)
            else:
                place[key] = self.other()
        text = json.dumps(file, indent=chance.choice([None, 1])).encode()
        if self.rarely(0.02):
            key = chance.choice([b'"asn"', b'"slurmVersion"', b'"prefixFilters"', b'"comment"'])
            text = text.replace(key, key + b": 1, " + key, 1)
        if self.rarely(0.02):
            at = chance.randrange(len(text))
            text = chance.choice([text[:at], text[:at] + b"\xff" + text[at:], text + b"1"])
        return text


def outcomes(program, folder, cases):
    """What the program prints of these cases, each of one file."""
    return outcomes_of(program, folder, [([text], list_of(records)) for text, records in cases])


def outcomes_of(program, folder, cases):
    """What the program prints of these cases, each of one or two files, and of a payload list."""
    with open(f"{folder}/exceptions.cases", "w", encoding="ascii") as it:
        it.writelines(f"{','.join(text.hex() for text in texts)} {listed.encode().hex()}\n" for texts, listed in cases)
    done = subprocess.run([program, "slurm_cases::outcomes"], cwd=folder, stdin=subprocess.DEVNULL, capture_output=True, text=True, timeout=300)
    return done.stdout.split("\n"), done.returncode


def list_of(records):
    return f"[{','.join(map(written, sorted(records)))}]"


def differs(found, status, cases):
    """Tells the first case of which something else came, if there is one."""
    for (text, records), answer in zip(cases, found):
        wanted = outcome(text, records)
        # (tests/file_rows.py compares the fault in words)
        if answer.partition(" | ")[0] != wanted:
            print(f"{text!r}\n  on {list_of(records)}\n  gives {answer}\n  in place of {wanted}")
            return True
    if status or len(found) < len(cases):
        print(f"the program ended with status {status} after {len(found)} of {len(cases)} lines")
    return bool(status) or len(found) < len(cases)


def sample(program, folder):
    """Tells where the example of RFC 8416 section 3.5 gives another list than the one beside it."""
    def read(name):
        with open(f"{SAMPLES}/{name}", "rb") as it:
            return it.read()
    records = {(*prefix_of(it["prefix"]), it["maxLength"], it["asn"]) for it in json.loads(read("before-slurm.json"))}
    found, status = outcomes(program, folder, [(read("slurm.json"), records)])
    wanted = f"3 1 {read('after-slurm.json').decode().strip()}"
    if status or found[0] != wanted:
        print(f"samples/slurm.json gives {found[0]}\n  in place of {wanted}")
    return bool(status) or found[0] != wanted


def main():
    words = argparse.ArgumentParser()
    words.add_argument("program")
    words.add_argument("--seed", type=int, default=1)
    words.add_argument("--seconds", type=float, default=5)
    given = words.parse_args()
    sys.setrecursionlimit(10_000)
    maker, program = Maker(random.Random(given.seed)), os.path.abspath(given.program)
    end, tried, taken = time.time() + given.seconds, 0, 0
    with tempfile.TemporaryDirectory() as folder:
        if sample(program, folder):
            return 1
        while time.time() < end:
            cases = [(maker.file(), {maker.record() for _ in range(maker.chance.randrange(20))}) for _ in range(500)]
            found, status = outcomes(program, folder, cases)
            if differs(found, status, cases):
                print(f"seed {given.seed}")
                return 1
            tried, taken = tried + len(cases), taken + sum(not it.startswith("fault") for it in found[: len(cases)])
    print(f"{tried} files of exceptions, {taken} taken")
    return 0


if __name__ == "__main__":
    sys.exit(main())
