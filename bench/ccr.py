#!/usr/bin/env python3
"""Measures how long a list of VRPs takes to read as a canonical cache representation and as an export in JSON, as rpki-client writes both.

usage: bench/ccr.py LIST_TIMES [--records N] [--runs N]

LIST_TIMES is the program list_times. Each list has N records (700,000 unless said otherwise). It is read once and then six times by a process of its
own, and a fifth of the difference of their processor times is the time of one reading. The best of five runs is printed, as rows for
docs/FIGURES.md, with the load of the machine."""
import argparse
import json
import os
import resource
import subprocess
import sys
import tempfile
import time

TOP = os.path.realpath(f"{os.path.dirname(os.path.abspath(__file__))}/..")
sys.path.insert(0, f"{TOP}/tests/lib")
from ccr_file import representation
from measure import records, text_of

MORE = 5
LATER = int(time.time()) + 86_400


def export(found):
    roas = [{"asn": it[4], "prefix": text_of(it), "maxLength": it[3], "ta": "ripe", "expires": LATER} for it in found]
    return json.dumps({"metadata": {"generated": 1}, "roas": roas}).encode()


def spent(program, form, times, path):
    """The processor seconds of a process that reads the list this often."""
    before = resource.getrusage(resource.RUSAGE_CHILDREN)
    with open(path, "rb") as it:
        said = subprocess.run([program, form, str(times)], stdin=it, capture_output=True, check=True, timeout=600).stdout
    after = resource.getrusage(resource.RUSAGE_CHILDREN)
    return after.ru_utime + after.ru_stime - before.ru_utime - before.ru_stime, said.split()


def main():
    parser = argparse.ArgumentParser(usage=__doc__)
    parser.add_argument("program")
    parser.add_argument("--records", type=int, default=700_000)
    parser.add_argument("--runs", type=int, default=5)
    options = parser.parse_args()
    found = records(options.records)
    rows = (("ccr", representation(found, LATER)), ("ccr-set", None), ("export", export(found)))
    best, size = {}, {}
    with tempfile.TemporaryDirectory() as folder:
        path = None
        for form, octets in rows:
            if octets is not None:
                path, size[form] = f"{folder}/{form}", len(octets)
                with open(path, "wb") as it:
                    it.write(octets)
            for _ in range(options.runs):
                once, said = spent(options.program, form, 1, path)
                often, _ = spent(options.program, form, 1 + MORE, path)
                if said != [str(options.records).encode()]:
                    raise SystemExit(f"{form}: {said} of {options.records} records")
                best[form] = min(best.get(form, 60.0), (often - once) / MORE)
    load = " ".join(f"{it:.1f}" for it in os.getloadavg())
    print(f"{options.records} records of {len({it[4] for it in found})} ASes, best of {options.runs}, load {load}")
    print(f"| a representation of {size['ccr'] / 1e6:.1f} MB | {best['ccr']:.3f} s |")
    print(f"| the same, and the set of its VRPs | {best['ccr-set']:.3f} s |")
    print(f"| an export of {size['export'] / 1e6:.1f} MB, as a set | {best['export']:.3f} s |")
    print(f"{best['ccr'] / best['export']:.2f} of the export's time, {best['ccr-set'] / best['export']:.2f} with the set")


if __name__ == "__main__":
    main()
