#!/usr/bin/env python3
"""Runs the cases of the commands: each has words, and the status, output and errors that must come of them.

usage: tests/commands.py PROGRAM [NAME]..

The cases stand in tests/cases, in a module for each command. Without names all of them run, else those whose command (`answer`), name
(`a-reset-query`) or both (`answer/a-reset-query`) is given. Each runs in a folder of its own, which has its files and no others. Status,
output and errors are compared whole, and a failure is told with the file and the line of its case. The last line says how many ran and
how many failed. The exit status is 0 where none failed, 1 where one did or two cases have one name, and 2 where a name is unknown."""
import os
import shlex
import subprocess
import sys
import tempfile
from concurrent.futures import ThreadPoolExecutor

sys.path.insert(0, f"{os.path.dirname(os.path.abspath(__file__))}/lib")
import cases
from cases.shared import FULL, Case
from common import clashes, load_modules

SECONDS = 60


def write(folder, files):
    for name, content in files.items():
        path = os.path.join(folder, name)
        if isinstance(content, dict):
            os.mkdir(path)
            write(path, content)
        else:
            with open(path, "wb") as it:
                it.write(content.encode() if isinstance(content, str) else content)


def text(stream):
    return FULL if stream is None else stream.decode(errors="backslashreplace")


def run(program, case):
    """The status, the output and the errors of a case."""
    with tempfile.TemporaryDirectory() as folder, open("/dev/full", "wb") as full:
        write(folder, case.files)
        out, err = (full if it is FULL else subprocess.PIPE for it in (case.output, case.errors))
        words = [program, *case.words]
        try:
            done = subprocess.run(words, cwd=folder, stdin=subprocess.DEVNULL, stdout=out, stderr=err, timeout=SECONDS)
        except subprocess.TimeoutExpired:
            return f"none after {SECONDS} seconds", case.output, case.errors
    return done.returncode, text(done.stdout), text(done.stderr)


def excerpt(stream, at):
    """The part of a text around this place, as Python spells it."""
    start, end = max(0, at - 200), at + 200
    return f"{'..' if start else ''}{stream[start:end]!r}{'..' if stream[end:] else ''}"


def failure(case, found):
    """What is told of a case that gave this, and nothing where all is as it must be."""
    status, *streams = found
    differing = [f"status {status} in place of {case.status}"] if status != case.status else []
    parts = []
    for name, came, expected in zip(("output", "errors"), streams, (case.output, case.errors)):
        if came != expected:
            at = len(os.path.commonprefix([came, expected]))
            differing.append(f"differing {name}")
            parts += [f"    {name}:", f"        expected {excerpt(expected, at)}", f"        found    {excerpt(came, at)}"]
    if not differing:
        return ""
    words = shlex.join(case.words)[:300].encode(errors="backslashreplace").decode()
    return "\n".join([f"{case.place}: {case.label}: {', '.join(differing)}", f"    words: {words}", *parts])


def main(program, *names):
    load_modules(cases)
    every = Case.every
    if clashing := clashes(every, lambda it: it.label):
        print(*clashing, sep="\n")
        return 1
    if unknown := [name for name in names if not any(it.is_called(name) for it in every)]:
        print(f"no case and no command is called {', '.join(unknown)}", file=sys.stderr)
        return 2
    chosen = [it for it in every if not names or any(it.is_called(name) for name in names)]
    program = os.path.abspath(program)
    with ThreadPoolExecutor() as pool:
        failures = [it for it in pool.map(lambda case: failure(case, run(program, case)), chosen) if it]
    print(*failures, f"{len(chosen)} ran, {len(failures)} failed", sep="\n")
    return 1 if failures else 0


if __name__ == "__main__":
    if len(sys.argv) < 2:
        print(__doc__, file=sys.stderr)
        sys.exit(2)
    sys.exit(main(*sys.argv[1:]))
