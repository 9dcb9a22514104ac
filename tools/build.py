#!/usr/bin/env python3
"""Proves and builds a program, `rpkirtr` or the one that is named, and tells on standard error what it is at.

usage: tools/build.py [rpkirtr | rpkirtrd | rpkiobject]

Its libraries are proved side by side, each as soon as those below it stand, and then the program. What stands already is taken as it
is. It tells how long a crate took last time: that is kept in its out/, and tools/took.txt has what it took where these figures were last
written. The status is 0 exactly where the program was built.

A library is built as `rt lib` builds it. That command itself is not called for each: it lets no other run into the crates below its own,
so that two libraries above a third would wait for each other."""
import os
import re
import subprocess
import sys
import tempfile
import time
from concurrent.futures import FIRST_COMPLETED, ThreadPoolExecutor, wait

from kit import RT

TOP = os.path.realpath(f"{os.path.dirname(os.path.abspath(__file__))}/..")

# The programs, with the words that each is run with, as no command only builds one, and what it answers then.
PROGRAMS = {"rpkirtr": ([], "rpkirtr: bad words"), "rpkirtrd": (["--version"], "rpkirtrd "), "rpkiobject": ([], "rpkiobject: bad words")}
TOOK = f"{TOP}/tools/took.txt"

# How many seconds pass at most without a word.
PATIENCE = 30

# What a check says of what it refuses.
REFUSED = re.compile(r": error: |^error|: not proved|: no proof: |^rt: ")

# Which part of the longest chain another one has at least that must not wait for it.
NEAR = 0.8


def tell(text):
    print(f"build: {text}", file=sys.stderr, flush=True)


def why(lines):
    """The lines that say what was not proved, or else the last ones."""
    return [it for it in lines if REFUSED.search(it)][:20] or lines[-20:]


def seconds_kept(path):
    """The seconds in a file, by the name in front of them."""
    if not os.path.isfile(path):
        return {}
    with open(path, encoding="utf-8") as it:
        return {name: int(seconds) for name, seconds in map(str.split, it)}


def prove_library(crate, jobs):
    """Proves a library. Returns whether it stands, and what was said."""
    with tempfile.TemporaryFile("w+", errors="replace") as crate.out:
        status = crate.build_rlib(["--jobs", str(jobs)], anew=False)
        crate.out.seek(0)
        return status == 0, crate.out.read()


def build_program(crate, jobs):
    """Proves the program over its libraries, and builds it. Returns whether that went well, and what was said."""
    own, answer = PROGRAMS[crate.name]
    words = ["rt", "run", "--jobs", str(jobs), "--", *own]
    ran = subprocess.run(words, cwd=crate.folder, stdin=subprocess.DEVNULL, stdout=subprocess.PIPE, stderr=subprocess.STDOUT, errors="replace")
    return answer in ran.stdout, ran.stdout


class Build:
    """The crates that are to be proved, which of them are left, which are at work since when, and which stand."""

    def __init__(self, crates):
        self.crates, self.cores, self.began = crates, RT.processors(), time.time()
        self.left, self.since, self.stand = sorted(crates, key=self.chain, reverse=True), {}, set()
        self.took = seconds_kept(TOOK)

    def chain(self, crate):
        """The lines of code of the longest chain of crates from this one up to the program."""
        return crate.count(rb"\n") + max((self.chain(it) for it in self.crates if crate in it.deps), default=0)

    def next(self, wanted, running, memory):
        """One of these crates that can be proved now beside those, as far as memory goes, or None: first that with the longest chain."""
        room = memory - sum(RT.need(it) for it in running)
        ready = [it for it in self.left if it in wanted and self.stand.issuperset(it.deps)]
        return next((it for it in ready if not running or (len(running) < self.cores and RT.need(it) <= room)), None)

    def jobs(self, crate, running):
        """The jobs for a crate beside those that run: those on the longest chain, which all others wait for in the end, share the processors, and
        any other has one. A further job shortens a chain, and takes more of the processors in all."""
        longest = max(map(self.chain, [crate, *running]))
        heads = [it for it in [crate, *running, *self.left] if self.stand.issuperset(it.deps) and self.chain(it) >= NEAR * longest]
        return max(1, self.cores // len(set(heads))) if crate in heads else 1

    def last_time(self, crate):
        """How long a crate took last time, as the end of a line."""
        seconds = {**self.took, **seconds_kept(f"{crate.folder}/out/took")}.get(crate.name)
        return "" if seconds is None else f", which took {seconds} s last time"

    def begin(self, crate):
        self.left.remove(crate)
        self.since[crate] = time.time()
        if crate.is_program or not crate.is_built():
            tell(f"proving {crate.name}, {len(self.crates) - len(self.left)} of {len(self.crates)}{self.last_time(crate)}")

    def wait(self, running):
        """Those of the running that have ended. As long as none has, it tells from time to time which are at work."""
        while not (done := wait(running, timeout=PATIENCE, return_when=FIRST_COMPLETED).done):
            tell("still at " + ", ".join(f"{it.name} ({time.time() - self.since[it]:.0f} s)" for it, _ in running.values()))
        return done

    def end(self, crate, stands, said):
        """Tells whether the crate stands, and returns it."""
        took = round(time.time() - self.since.pop(crate))
        if stands:
            self.stand.add(crate)
            if took > 1:
                with open(f"{crate.folder}/out/took", "w", encoding="utf-8") as it:
                    it.write(f"{crate.name} {took}\n")
            tell(f"{crate.name} stands after {time.time() - self.began:.0f} s")
        else:
            print("\n".join(why(said.splitlines())), file=sys.stderr)
            tell(f"{crate.name} could not be proved or built")
        return stands

    def run(self, wanted):
        """Proves these libraries, or builds the program. Returns whether all stand."""
        well, running, memory = True, {}, RT.free()
        with ThreadPoolExecutor(self.cores) as pool:
            while running or (well and self.next(wanted, [], memory)):
                while well and (crate := self.next(wanted, [it for it, _ in running.values()], memory)):
                    jobs = self.jobs(crate, [it for it, _ in running.values()])
                    self.begin(crate)
                    running[pool.submit(build_program if crate.is_program else prove_library, crate, jobs)] = crate, jobs
                for it in self.wait(running):
                    well = self.end(running.pop(it)[0], *it.result()) and well
        return well


def main(words):
    name = words[0] if words else "rpkirtr"
    if len(words) > 1 or name not in PROGRAMS:
        print("usage: tools/build.py [rpkirtr | rpkirtrd | rpkiobject]", file=sys.stderr)
        return 1
    RT.rtlib.guarded()
    build = Build(RT.rtlib.crates_below(f"{TOP}/crates/{name}"))
    tell(f"proving and building {name}, {len(build.crates)} crates; on four cores this takes some minutes the first time")
    held = RT.rtlib.lock(build.crates)
    for it in build.crates:
        RT.rtlib.stop_on_links(it.folder)
    well = build.run(build.crates[:-1])
    # (the program is built by a command that works in these folders alone too)
    for it in held:
        os.close(it)
    return 0 if well and build.run(build.crates[-1:]) else 1


if __name__ == "__main__":
    sys.exit(main(sys.argv[1:]))
