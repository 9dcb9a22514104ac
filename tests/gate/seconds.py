#!/usr/bin/env python3
"""Tells what the proofs, tests and wrong bodies of each crate took, in seconds of one processor.

usage: tests/gate/seconds.py PID FILE

It looks each second at what the process PID has started, as long as that runs. When it is ended by SIGTERM it prints a table of the crates, and then what
stands in FILE: a line 'SECONDS NAME' for each further step."""
import os
import signal
import sys
import time
from collections import defaultdict

KINDS = "proof", "tests", "named wrong bodies", "other wrong bodies"
TICKS = os.sysconf("SC_CLK_TCK")


def read(path):
    try:
        with open(path, errors="replace") as it:
            return it.read()
    except OSError:
        return ""


class Process:
    """A process as it stands now: whose child it is, its words, and the ticks that it and the children that have ended took."""

    def __init__(self, pid):
        fields = read(f"/proc/{pid}/stat").rpartition(")")[2].split()
        self.pid, self.parent = pid, int(fields[1]) if fields else 0
        self.ticks = sum(map(int, fields[11:15])) if fields else 0
        self.words = read(f"/proc/{pid}/cmdline").split("\0")

    def is_prover(self):
        return self.words[0].endswith("/rattle") and "--crate-name" in self.words

    def crate(self):
        return self.words[self.words.index("--crate-name") + 1]

    def kind(self, above):
        """What a prover does: it stands in a temporary folder where it tries a wrong body."""
        try:
            folder = os.path.basename(os.readlink(f"/proc/{self.pid}/cwd"))
        except OSError:
            folder = ""
        if any(it.endswith("wrong_bodies.py") for it in above.words):
            return KINDS[3]
        return KINDS[2] if folder.startswith("rt-edit-") else KINDS[1] if "--test" in self.words else KINDS[0]


class Table:
    """What was seen of each prover: its crate, what it did, and the most ticks."""

    def __init__(self):
        self.seen, self.ticks = {}, defaultdict(int)

    def look(self, top):
        all = {it: Process(it) for it in map(int, filter(str.isdigit, os.listdir("/proc")))}
        now = defaultdict(int)
        for it in all.values():
            # (a prover's own children do a part of its work)
            chain = self.chain(all, it)
            provers = [one for one in chain if one.is_prover()]
            if top not in (one.pid for one in chain) or not provers:
                continue
            first = provers[-1]
            above = all.get(first.parent, first)
            self.seen.setdefault(first.pid, (first.crate(), first.kind(above)))
            now[first.pid] += it.ticks
        for pid, ticks in now.items():
            self.ticks[pid] = max(self.ticks[pid], ticks)

    @staticmethod
    def chain(all, it):
        """A process and those above it."""
        chain = []
        while it and it not in chain:
            chain.append(it)
            it = all.get(it.parent)
        return chain

    def rows(self):
        """Each crate with its seconds of each kind, that which took most first."""
        rows = defaultdict(lambda: dict.fromkeys(KINDS, 0.0))
        for pid, (crate, kind) in self.seen.items():
            rows[crate][kind] += self.ticks[pid] / TICKS
        return sorted(rows.items(), key=lambda it: -sum(it[1].values()))

    def __str__(self):
        rows = self.rows()
        rows.append(("all crates", {kind: sum(row[kind] for _, row in rows) for kind in KINDS}))
        lines = ["seconds of one processor:", f"{'':20}" + "".join(f"{it:>20}" for it in KINDS)]
        return "\n".join(lines + [f"{name:20}" + "".join(f"{row[it]:20.0f}" for it in KINDS) for name, row in rows])


def main(top, file):
    table, began = Table(), time.time()

    def end(*_):
        print(table)
        print("seconds:")
        for line in read(file).splitlines():
            seconds, _, name = line.partition(" ")
            print(f"{name:20}{seconds:>20}")
        print(f"{'in all':20}{time.time() - began:20.0f}", flush=True)
        sys.exit(0)

    signal.signal(signal.SIGTERM, end)
    while os.path.isdir(f"/proc/{top}"):
        table.look(top)
        time.sleep(1)


if __name__ == "__main__":
    main(int(sys.argv[1]), sys.argv[2])
