#!/usr/bin/env python3
"""The daemon over sockets of this machine: what it serves, what it follows, what it refuses, and a soak.

usage: tests/daemon.py PROGRAM [PART..] [--seconds N] [--seed N] [--shim FILE] [--rpkirtr PROGRAM] [--routes N]

The parts are functions of the modules in tests/daemon. Without names all of them run, else those whose module (`files`), name
(`large_file`) or both (`files/large_file`) is given. They run at once, each in a process and a folder of its own with its own daemons, and
the seconds of each are printed. A part waits for a line of the daemon's log or for bytes of a connection, never for a time. A failure names
the part, the file and the line, and shows the last lines of the log.

The soak changes the list for --seconds, with what --seed draws. --shim names what tests/lib/refusing.c was compiled to: each request for memory
of a daemon is then refused in turn. --rpkirtr names the other program: the states of --routes random routes are then compared with its
command `route`. The last line says how many parts passed, failed and were skipped. The exit status is 0 if none failed; 1 if one did, none
passed, or two parts have one name; and 2 if a name is unknown, or a part that was named needs an option that is missing."""
import argparse
import multiprocessing.connection
import os
import random
import sys
import time

sys.path.insert(0, f"{os.path.dirname(os.path.abspath(__file__))}/lib")
import checks
import daemon
from common import clashes, load_modules
from daemon.shared import Part, Skipped, playing


def play(part, given):
    """Runs a part in a folder of its own. It returns how many comparisons failed, or why the part was skipped."""
    with playing(part.label):
        try:
            part.play(given)
        except Skipped as why:
            return str(why)
    if not checks.compared and not checks.failures:
        checks.fail("nothing was compared", part.place)
    return len(checks.failures)


def send(part, given, pipe):
    """Runs a part, and sends its seconds, how many comparisons it made, and what came of it."""
    began = time.monotonic()
    outcome = play(part, given)
    pipe.send((time.monotonic() - began, len(checks.compared), outcome))


def start(part, given):
    """Starts the process of a part. It returns the process, and the end of a pipe at which the outcome comes."""
    here, there = multiprocessing.Pipe(duplex=False)
    process = multiprocessing.get_context("fork").Process(target=send, args=(part, given, there))
    process.start()
    there.close()
    return process, here


def report(part, process, pipe):
    """Prints the line of a part that has ended, and returns 'passed', 'failed' or 'skipped'."""
    try:
        seconds, compared, outcome = pipe.recv()
    except EOFError:
        process.join()
        print(f"FAILED {part.label}, {part.place}: its process ended with status {process.exitcode}", flush=True)
        return "failed"
    if isinstance(outcome, str):
        print(f"{part.label}: skipped: {outcome}", flush=True)
        return "skipped"
    print(f"{part.label}: {seconds:.1f} s, {compared} compared, {outcome} failed", flush=True)
    return "failed" if outcome else "passed"


def run(chosen, given, skipped):
    """Runs parts at once, and counts what came of them, with those that were skipped before. It returns the exit status."""
    counts = {"passed": 0, "failed": 0, "skipped": skipped}
    running = {pipe: (part, process) for part in chosen for process, pipe in [start(part, given)]}
    while running:
        for pipe in multiprocessing.connection.wait(running):
            part, process = running.pop(pipe)
            counts[report(part, process, pipe)] += 1
    print(", ".join(f"{count} {word}" for word, count in counts.items()))
    return 1 if counts["failed"] or not counts["passed"] else 0


def words_of(arguments):
    words = argparse.ArgumentParser()
    words.add_argument("program", type=os.path.abspath)
    words.add_argument("parts", nargs="*")
    words.add_argument("--seconds", type=float, default=20)
    words.add_argument("--seed", type=int, default=random.randrange(2**32))
    words.add_argument("--shim", type=os.path.abspath)
    words.add_argument("--rpkirtr", type=os.path.abspath)
    words.add_argument("--routes", type=int, default=300)
    return words.parse_intermixed_args(arguments)


def refused(*lines):
    print(*lines, sep="\n", file=sys.stderr)
    return 2


def main(arguments):
    load_modules(daemon)
    given, every = words_of(arguments), Part.every
    if clashing := clashes(every, lambda it: it.name):
        print(*clashing, sep="\n")
        return 1
    if unknown := [name for name in given.parts if not any(it.is_called(name) for it in every)]:
        return refused(f"no part and no module is called {', '.join(unknown)}; the parts are:", *sorted(f"  {it.label}" for it in every))
    if not os.access(given.program, os.X_OK):
        return refused(f"{given.program} is no program")
    chosen = [it for it in every if not given.parts or any(it.is_called(name) for name in given.parts)]
    without = [it for it in chosen if it.needs and not getattr(given, it.needs)]
    if without and given.parts:
        return refused(*(f"{it.label} needs --{it.needs}" for it in without))
    for it in without:
        print(f"{it.label}: skipped: it needs --{it.needs}")
    return run([it for it in chosen if it not in without], given, len(without))


if __name__ == "__main__":
    sys.exit(main(sys.argv[1:]))
