#!/usr/bin/env python3
"""Tells which functions of a crate take how long to prove, from nothing and on one processor, those that take most first.

usage: tools/profile.py NAME [--test] [--most N]

With --test it proves the crate's tests. The libraries below must have been built: `rt ci NAME` or `./build` leaves them. A line has the seconds
between the end of the proof before it and the end of this one, so the work that the two share is counted once. `begin` is what passes before the
first proof ends: the crate's texts and those of its libraries are read there."""
import re
import subprocess
import sys
import time

from kit import RT

DONE = re.compile(r"checked (\S+), \d+ of \d+$")


def profile(crate, tests):
    """Each proof with the seconds that it took, in the order of the run, and the last line of the run."""
    words = [RT.rtlib.RATTLE, "check", *crate.words(["--jobs", "1"], tests=tests, keeps=False), "--progress"]
    found, began, last, line = [], time.time(), "begin", ""
    with subprocess.Popen(words, cwd=crate.folder, stdin=subprocess.DEVNULL, stdout=subprocess.PIPE, stderr=subprocess.STDOUT, text=True) as ran:
        for line in ran.stdout:
            done = DONE.search(line)
            if done:
                now = time.time()
                found.append((now - began, done[1]))
                began = now
    return found, time.time() - began, line.strip()


def main(words):
    most = int(words[words.index("--most") + 1]) if "--most" in words else 40
    tests = "--test" in words
    crates = {it.name: it for it in RT.rtlib.crates_below(RT.os.getcwd())}
    if not words or words[0] not in crates:
        print("usage: tools/profile.py NAME [--test] [--most N], at the top of the repository", file=sys.stderr)
        return 2
    RT.rtlib.guarded()
    found, end, last = profile(crates[words[0]], tests)
    for seconds, name in sorted(found, reverse=True)[:most]:
        print(f"{seconds:8.1f}  {name}")
    print(f"{sum(it for it, _ in found) + end:8.1f}  in all, {len(found)} proofs; {end:.1f} behind the last; {last[:80]}")
    return 0


if __name__ == "__main__":
    sys.exit(main(sys.argv[1:]))
