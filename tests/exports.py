#!/usr/bin/env python3
"""Exports of validators at random, read beside Python's own reading of them.

usage: tests/exports.py TESTS [--seed N] [--seconds S]

TESTS is the program of crates/export_tests, whose test `export_cases::outcomes` tells what comes of each text in a file. The texts have
the shapes that validators write, with members in any order, doubled, missing, deeper, and of other kinds; numbers on both sides of each
limit; spoiled prefixes, times and bytes. What must come of a text is worked out here, with Python's json, from the rules of
docs/FORMATS.md. It exits with 1 where an outcome is another, and tells the text; the seed makes it again."""
import argparse
import collections
import datetime
import json
import os
import random
import re
import subprocess
import sys
import tempfile
import time

NOW = 1_700_000_000
GROUP = r"[0-9A-Fa-f]{1,4}"
OCTET = r"(?:0|[1-9]\d?|1\d\d|2[0-4]\d|25[0-5])"
LENGTH = re.compile(r"0|[1-9]\d{0,2}")
PLAIN, MIXED = range(2)
WHAT = ["it is not an object", "asn is not an AS number", "prefix is not a prefix", "maxLength is not from the prefix length to 32 (IPv4) or 128 (IPv6)", "expires is not a whole number of seconds"]
COUNTED = ["aspas", "bgpsec_keys", "routerKeys"]


class Refused(Exception):
    """The outcome is this fault."""


# ---- an independent reading


def deep(value):
    """How deep arrays and objects nest in a value."""
    inner = value.values() if isinstance(value, dict) else value if isinstance(value, list) else ()
    return 1 + max(map(deep, inner), default=0) if isinstance(value, (dict, list)) else 0


def number(digits):
    """A numeral without fraction and exponent: a whole number from 0 to 2^64 - 1, or another."""
    return int(digits) if not digits.startswith("-") and int(digits) < 1 << 64 else float(digits)


class Members(dict):
    """An object, in which the last of a name's members counts, and the names that are repeated in it."""

    doubled = frozenset()


def members(pairs):
    found = Members(pairs)
    if len(found) < len(pairs):
        found.doubled = {name for name, count in collections.Counter(name for name, _ in pairs).items() if count > 1}
    return found


def value_of(text):
    """The value of a JSON text, of whose doubled keys the last counts."""
    try:
        value = json.loads(text.decode("utf-8"), parse_int=number, parse_constant=lambda it: int(it), object_pairs_hook=members)
    except ValueError:
        raise Refused("fault 1: not JSON (fault 1)") from None
    if deep(value) > 127:
        raise Refused("fault 1: not JSON (fault 1)")
    return value


def is_whole(value):
    return type(value) is int


def address_of(text, notation):
    """The width and the number of an address, or None. In mixed notation the last 32 bits of an IPv6 address may be in dotted decimal."""
    if re.fullmatch(rf"{OCTET}(?:\.{OCTET}){{3}}", text):
        return 32, sum(int(it) << 8 * (3 - at) for at, it in enumerate(text.split(".")))
    mixed = re.fullmatch(rf"(.*:)({OCTET}(?:\.{OCTET}){{3}})", text)
    if mixed and notation == MIXED:
        tail = address_of(mixed[2], PLAIN)[1]
        text = f"{mixed[1]}{tail >> 16:x}:{tail & 65535:x}"
    before, gap, behind = text.partition("::")
    groups = [part.split(":") if part else [] for part in (before, behind)]
    if not all(re.fullmatch(GROUP, it) for part in groups for it in part):
        return None
    missing = 8 - sum(map(len, groups))
    if (missing < 1) if gap else (missing != 0):
        return None
    numbers = [int(it, 16) for it in groups[0]] + missing * [0] + [int(it, 16) for it in groups[1]]
    return 128, sum(it << 16 * (7 - at) for at, it in enumerate(numbers))


def prefix_of(text, notation=MIXED):
    """The width, the address and the length that a text says, or None."""
    if type(text) is not str or text.count("/") != 1:
        return None
    address, length = text.split("/")
    found = address_of(address, notation)
    if found is None or not LENGTH.fullmatch(length):
        return None
    (width, bits), length = found, int(length)
    if length > width or bits & ((1 << (width - length)) - 1):
        return None
    return width, bits, length


def asn_of(value):
    if type(value) is str and re.fullmatch(r"(?:AS)?(?:0|[1-9][0-9]*)", value):
        value = int(value.removeprefix("AS"))
    return value if is_whole(value) and value < 1 << 32 else None


def entry_of(entry, index, notation=MIXED):
    """What an entry lists: its record, and its expiry or None."""
    prefix = prefix_of(entry.get("prefix"), notation) if isinstance(entry, dict) else None
    wrong = [
        not isinstance(entry, dict),
        isinstance(entry, dict) and asn_of(entry.get("asn")) is None,
        prefix is None,
        prefix is not None and not (is_whole(entry.get("maxLength")) and prefix[2] <= entry["maxLength"] <= prefix[0]),
        isinstance(entry, dict) and "expires" in entry and not is_whole(entry["expires"]),
    ]
    if any(wrong):
        raise Refused(f"fault 3: entry {index} of roas cannot be read: {WHAT[wrong.index(True)]} (fault 3)")
    return (*prefix, entry["maxLength"], asn_of(entry["asn"])), entry.get("expires")


def listed(entry):
    """The record of a payload list's entry."""
    if not isinstance(entry, dict) or sorted(entry) != ["asn", "maxLength", "prefix"] or type(entry["asn"]) is str:
        raise Refused("")
    return entry_of(entry, 0, PLAIN)


def second_of(text):
    """The seconds to the moment that a text says, or None."""
    if type(text) is not str or not re.fullmatch(r"[0-9]{4}-[0-9]{2}-[0-9]{2}T[0-9]{2}:[0-9]{2}:[0-9]{2}Z", text, re.A) or text < "1970":
        return None
    try:
        moment = datetime.datetime.strptime(text, "%Y-%m-%dT%H:%M:%SZ")
    except ValueError:
        return None
    return None if text[17:19] > "59" else int((moment - datetime.datetime(1970, 1, 1)).total_seconds())


def built_of(value):
    metadata = value.get("metadata") if isinstance(value, dict) else None
    if not isinstance(metadata, dict):
        return None
    return metadata["generated"] if is_whole(metadata.get("generated")) else second_of(metadata.get("buildtime"))


def read_objects(value):
    """The objects of an export of which names are read, with these names."""
    yield value, {"roas", "metadata", *COUNTED}
    yield value.get("metadata"), {"generated", "buildtime"}
    for it in value["roas"] if isinstance(value.get("roas"), list) else []:
        yield it, {"asn", "prefix", "maxLength", "expires"}


def judge_names(value):
    """Refuses an export of the object form in which a name that is read is repeated in its object."""
    if isinstance(value, dict) and any(isinstance(it, dict) and it.doubled & names for it, names in read_objects(value)):
        raise Refused("fault 6: a name that is read is repeated in an object (fault 6)")


def ignored_of(value):
    """How many ASPAs and how many router keys are not served."""
    arrays = [value.get(name) if isinstance(value, dict) else None for name in COUNTED]
    aspas, *keys = [len(it) if isinstance(it, list) else 0 for it in arrays]
    return f"{aspas} {sum(keys)}"


def entries_of(value):
    if isinstance(value, list):
        try:
            return [listed(it) for it in value]
        except Refused:
            value = {}
    roas = value.get("roas") if isinstance(value, dict) else None
    if not isinstance(roas, list):
        raise Refused("fault 2: neither a payload list nor an object with an array roas (fault 2)")
    return [entry_of(it, index) for index, it in enumerate(roas)]


def written(record):
    """A record as a payload list has it (RFC 5952)."""
    width, bits, length, longest, asn = record
    if width == 32:
        text = ".".join(str(bits >> 8 * at & 255) for at in (3, 2, 1, 0))
    else:
        text = ":".join(f"{bits >> 16 * at & 65535:x}" for at in range(7, -1, -1))
        runs = sorted(re.finditer(r"(?:\b0(?::0\b)+)", text), key=lambda it: (-len(it[0]), it.start()))
        if runs:
            text = f"{text[: runs[0].start()].removesuffix(':')}::{text[runs[0].end() :].removeprefix(':')}"
    return f'{{"asn":{asn},"maxLength":{longest},"prefix":"{text}/{length}"}}'


def outcome(now, text):
    """What must come of a text."""
    try:
        value = value_of(text)
        judge_names(value)
        entries = entries_of(value)
    except Refused as fault:
        return str(fault)
    current = {record for record, expires in entries if expires is None or expires > now}
    built = built_of(value)
    expired = sum(not (expires is None or expires > now) for _, expires in entries)
    until = min((expires for _, expires in entries if expires is not None and expires > now), default="-")
    lasts = [max((1 << 64) - 1 if expires is None else expires - 1 for it, expires in entries if it == record) for record in sorted(current)]
    listed = ",".join(map(written, sorted(current)))
    return f"{expired} {'-' if built is None else built} {until} {ignored_of(value)} [{listed}] [{''.join(f'{it},' for it in lasts)}]"


# ---- cases at random


class Chance:
    """What is made by chance."""

    def __init__(self, chance):
        self.chance = chance

    def rarely(self, share=0.04):
        return self.chance.random() < share


class Maker(Chance):
    """Makes texts by chance."""

    def other(self, depth=0):
        """A value of another kind."""
        one = self.chance.choice
        if depth < 3 and self.rarely(0.3):
            return {one(["a", "asn", "prefix"]): self.other(depth + 1)} if self.rarely(0.5) else [self.other(depth + 1), 1]
        return one([None, True, False, -1, 1.5, 24.0, 1 << 64, (1 << 64) - 1, (1 << 32), (1 << 32) - 1, 0, "", "AS", "AS-1", "AS064496", "as1", "AS 1", "64496 ", "\u00e9", "a\"\\\n", [], {}])

    def prefix(self):
        """A text of a prefix, spoiled at times."""
        one, chance = self.chance.choice, self.chance
        if chance.random() < 0.6:
            length = chance.randrange(33)
            bits = chance.getrandbits(32) >> (32 - length) << (32 - length) if length else 0
            text = ".".join(str(bits >> 8 * at & 255) for at in (3, 2, 1, 0)) + f"/{length}"
        else:
            length = one([0, 16, 29, 32, 48, 64, 127, 128])
            bits = chance.getrandbits(128) & chance.getrandbits(128) & chance.getrandbits(128) & chance.getrandbits(128) >> 1 if length else 0
            bits = bits >> (128 - length) << (128 - length)
            groups = [f"{bits >> 16 * at & 65535:{one(['x', 'X', '04x'])}}" for at in range(7, -1, -1)]
            tail = ".".join(str(bits >> 8 * at & 255) for at in (3, 2, 1, 0)) if self.rarely(0.2) else ""
            text = ":".join(groups[:6] if tail else groups)
            zeros = [it for it in re.finditer(r"\b0+(?::0+\b)*", text)]
            if zeros and chance.random() < 0.7:
                run = one(zeros)
                text = f"{text[: run.start()].removesuffix(':')}::{text[run.end() :].removeprefix(':')}"
            if tail:
                text += tail if text.endswith("::") else f":{tail}"
            text += f"/{length}"
        if self.rarely():
            at = chance.randrange(len(text) + 1)
            text = text[:at] + one(["", "0", "1", "/", ":", ".", " ", "g", "9"]) + text[at + one([0, 1]) :]
        return text, length

    def entry(self):
        """An entry, as pairs."""
        one, chance = self.chance.choice, self.chance
        asn = one([0, 1, 64496, 64497, (1 << 32) - 1, chance.getrandbits(32)])
        prefix, length = self.prefix()
        longest = one(6 * [length] + 3 * [length + chance.randrange(9)] + [32, 24, 128, length - 1, 33, 129])
        pairs = [("asn", one([asn, asn, str(asn), f"AS{asn}"])), ("prefix", prefix), ("maxLength", max(0, longest))]
        if chance.random() < 0.5:
            pairs.append(("expires", one([NOW - 1, NOW, NOW + 1, NOW + 3600, 0, (1 << 64) - 1])))
        if chance.random() < 0.5:
            pairs.append(("ta", one(["ripe", "arin", ""])))
        while self.rarely():
            at = chance.randrange(len(pairs))
            pairs[at] = (pairs[at][0], self.other())
        if self.rarely():
            pairs.append((one(["asn", "expires", "prefix", "maxLength", "more"]), one([self.other(), 24, asn, prefix])))
        if self.rarely(0.02):
            pairs.pop(chance.randrange(len(pairs)))
        chance.shuffle(pairs)
        return pairs

    def text_of(self, value):
        """The JSON text of a value, whose objects are lists of pairs in a tuple, with blanks at times."""
        blank = self.chance.choice(["", "", "", " ", "\n\t"])
        if isinstance(value, tuple):
            return "{" + ",".join(f"{blank}{json.dumps(key)}:{blank}{self.text_of(it)}" for key, it in value) + blank + "}"
        if isinstance(value, list):
            return "[" + ",".join(blank + self.text_of(it) for it in value) + blank + "]"
        if isinstance(value, dict):
            return self.text_of(tuple(value.items()))
        return json.dumps(value, ensure_ascii=self.chance.random() < 0.5)

    def metadata(self):
        one = self.chance.choice
        time = one(["2023-11-14T22:13:20Z", "1970-01-01T00:00:00Z", "9999-12-31T23:59:59Z", "1969-12-31T23:59:59Z", "2024-02-29T00:00:00Z", "2023-02-29T00:00:00Z", "2023-11-14T22:13:60Z", "2023-11-14 22:13:20Z", "2023-11-14T22:13:20", "today"])
        pairs = [("generated", one([1_700_000_000, 0, (1 << 64) - 1, -1, 1.5, "1"])), ("buildtime", one([time, time, 5])), ("counts", {"vrps": 3, "of": [1, {"a": "b"}]})]
        self.chance.shuffle(pairs)
        return tuple(pairs[: self.chance.randrange(4)])

    def text(self):
        """A text."""
        chance = self.chance
        entries = [tuple(self.entry()) for _ in range(chance.choice([0, 1, 2, 3, 8]))]
        if self.rarely() and entries:
            entries[chance.randrange(len(entries))] = self.other()
        if chance.random() < 0.15:
            plain = [tuple(it for it in entry if it[0] in ("asn", "prefix", "maxLength") and type(it[1]) is not str or it[0] == "prefix") for entry in entries if isinstance(entry, tuple)]
            text = self.text_of(plain)
        else:
            pairs = [("roas", self.other() if self.rarely(0.03) else entries)]
            if chance.random() < 0.6:
                pairs.append(("metadata", self.other() if self.rarely(0.1) else self.metadata()))
            for name in COUNTED:
                if chance.random() < 0.3:
                    pairs.append((name, self.other() if self.rarely(0.1) else [{"asn": 1, "pubkey": "x"}, self.other(), [2]][: chance.randrange(4)]))
            if self.rarely(0.02):
                pairs.append((chance.choice(COUNTED), [1]))
            if self.rarely(0.03):
                pairs.append(("roas", [tuple(self.entry())]))
            if self.rarely(0.03):
                depth = chance.choice([15, 16, 17, 18, 125, 126, 127, 200])
                pairs.append(("deep", json.loads(depth * "[" + depth * "]")))
            chance.shuffle(pairs)
            text = self.text_of(tuple(pairs))
        found = text.encode("utf-8")
        if self.rarely(0.06) and found:
            at = chance.randrange(len(found))
            found = chance.choice([found[:at], found[:at] + b"\xff" + found[at:], found + b"1", found[:at] + found[at + 1 :], b"\xef\xbb\xbf" + found, found[:at] + b"," + found[at:]])
        return found


def outcomes(program, folder, cases):
    """What the program tells of these cases."""
    with open(f"{folder}/exports.cases", "w", encoding="ascii") as it:
        it.writelines(f"{now} {text.hex()}\n" for now, text in cases)
    done = subprocess.run([program, "export_cases::outcomes"], cwd=folder, stdin=subprocess.DEVNULL, capture_output=True, text=True, timeout=300)
    return done.stdout.split("\n"), done.returncode


def main():
    words = argparse.ArgumentParser()
    words.add_argument("program")
    words.add_argument("--seed", type=int, default=1)
    words.add_argument("--seconds", type=float, default=5)
    given = words.parse_args()
    sys.setrecursionlimit(10_000)
    maker, program = Maker(random.Random(given.seed)), os.path.abspath(given.program)
    end, tried, kinds = time.time() + given.seconds, 0, {}
    with tempfile.TemporaryDirectory() as folder:
        while time.time() < end:
            cases = [(maker.chance.choice([NOW, NOW, 0, NOW + 10**6]), maker.text()) for _ in range(500)]
            found, status = outcomes(program, folder, cases)
            for (now, text), answer in zip(cases, found):
                wanted = outcome(now, text)
                kinds[wanted[:7] if wanted.startswith("fault") else "taken"] = kinds.get(wanted[:7] if wanted.startswith("fault") else "taken", 0) + 1
                # (tests/file_rows.py compares the fault in words)
                if answer.partition(" | ")[0] != wanted:
                    print(f"seed {given.seed}, at {now}: {text!r}\n  gives {answer}\n  in place of {wanted}")
                    return 1
            if status or len(found) < len(cases):
                print(f"seed {given.seed}: the program ended with status {status} after {len(found)} of {len(cases)} lines")
                return 1
            tried += len(cases)
    print(f"{tried} exports: " + ", ".join(f"{count} {kind}" for kind, count in sorted(kinds.items())))
    return 0


if __name__ == "__main__":
    sys.exit(main())
