#!/usr/bin/env python3
"""Measures the library for C beside rtrlib, in one run.

usage: bench/c_library.py LIBRPKIRTR_A [--records N] [--routes N] [--runs N]

N records (500,000 unless said otherwise) are put into an index in ascending order, received by a router as the answer of a cache, and added
to rtrlib's table one by one. Then N routes (200,000) are judged: half of them are of records, with other lengths and ASes among them. Each is
a process of its own, and they alternate. The best of five runs is printed, as rows for docs/FIGURES.md: processor seconds to fill and of the
longest call, bytes held a record, and states a second. It takes gcc, and rtrlib with its headers (Debian: librtr-dev)."""
import argparse
import os
import random
import struct
import subprocess
import sys
import tempfile

from measure import answer, records

HERE = os.path.dirname(os.path.abspath(__file__))
MODES = {"index": "index", "router": "router", "rtrlib": "rtrlib 0.8, `pfx_table`"}


def octets(address, family):
    return address.to_bytes(4 if family == 4 else 16, "big").ljust(16, b"\0")


def packed_record(record):
    family, address, length, longest, asn = record
    return octets(address, family) + struct.pack("<IBBBB", asn, family, length, longest, 0)


def packed_routes(found, count):
    """Routes: half of them of records, the others anywhere."""
    rolled, routes = random.Random(7), []
    for number in range(count):
        if number % 2:
            family, address, length, longest, asn = rolled.choice(found)
            routes.append((family, address, rolled.randint(length, longest), rolled.choice([asn, asn, 64496])))
        else:
            family, bits = rolled.choice([(4, 32), (6, 128)])
            length = rolled.randint(8, 24 if family == 4 else 48)
            routes.append((family, rolled.getrandbits(length) << (bits - length), length, rolled.randrange(1, 2**32)))
    return b"".join(octets(address, family) + struct.pack("<IBBBB", origin, family, length, 1, 0) for family, address, length, origin in routes)


def main():
    parser = argparse.ArgumentParser()
    parser.add_argument("library")
    parser.add_argument("--records", type=int, default=500_000)
    parser.add_argument("--routes", type=int, default=200_000)
    parser.add_argument("--runs", type=int, default=5)
    words = parser.parse_args()
    found = sorted(set(records(words.records)))
    with tempfile.TemporaryDirectory() as folder:
        program = f"{folder}/c_library"
        subprocess.run(["gcc", "-O2", f"-I{HERE}/../include", "-o", program, f"{HERE}/c_library.c", words.library, "-lrtr"], check=True)
        files = {"records": b"".join(map(packed_record, found)), "routes": packed_routes(found, words.routes), "answer": answer(found)}
        for name, content in files.items():
            with open(f"{folder}/{name}", "wb") as it:
                it.write(content)
        told = {mode: [] for mode in MODES}
        for _ in range(words.runs):
            for mode in MODES:
                line = subprocess.run([program, mode, *(f"{folder}/{name}" for name in files)], stdout=subprocess.PIPE, text=True, check=True).stdout
                told[mode].append([float(it) for it in line.split()])
    print("| | fill | longest call | bytes a record | states a second |\n|---|---|---|---|---|")
    for mode, rows in told.items():
        fill, longest, judge = (min(row[at] for row in rows) for at in range(3))
        longest = f"{longest:.3f} s" if mode != "rtrlib" else ""
        print(f"| {MODES[mode]} | {fill:.3f} s | {longest} | {rows[0][3] / len(found):.1f} | {words.routes / judge:,.0f} |")
    states = {mode: rows[0][4:] for mode, rows in told.items()}
    if len({tuple(it) for it in states.values()}) != 1:
        print(f"the states differ: {states}", file=sys.stderr)
        return 1
    return 0


if __name__ == "__main__":
    sys.exit(main())
