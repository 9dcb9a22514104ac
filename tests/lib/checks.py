"""What the parts of a script compare. A failure names the part, the file and the line, and shows the last lines of the daemon's log."""
import itertools
import os
import sys
import threading
import traceback

import log

TOP = os.path.realpath(f"{os.path.dirname(os.path.abspath(__file__))}/../..")

# The part that this process plays, what it compared, and what failed.
part, compared, failures = "", [], []
printing = threading.Lock()


def begin(name):
    """Begins a part."""
    global part
    part = name
    compared.clear()
    failures.clear()


def expect(what, found, wanted):
    """Compares what was found with what is wanted."""
    compared.append(what)
    if found != wanted:
        fail(f"{what}: {found} in place of {wanted}", caller())


def fail(message, place, daemon=None):
    """Prints a failure with the log of a daemon, else of the one that this thread started last, and counts it."""
    failures.append(message)
    lines = [f"FAILED {part}, {place}: {message}"[:2000], *(f"    {it[:400]}" for it in log.last_lines(daemon))]
    with printing:
        print("\n".join(lines), flush=True)


def raised(fault):
    """Prints the exception that ended a part, and counts it. Its place is the innermost line outside the shared modules."""
    shared = {f"{TOP}/tests/lib/{it}.py" for it in ("checks", "common", "log", "rtr", "web")}
    frames = [(it.filename, it.lineno) for it in traceback.extract_tb(fault.__traceback__) if it.filename.startswith(f"{TOP}/tests/")]
    while len(frames) > 1 and frames[-1][0] in shared:
        frames.pop()
    message = "".join(traceback.format_exception_only(fault)).strip()
    fail(message, place_of(reversed(frames)), getattr(fault, "daemon", None))


def caller():
    """The line that called this module, and the lines of its file that led there."""
    frame = sys._getframe()
    while frame.f_code.co_filename == __file__:
        frame = frame.f_back
    lines = []
    while frame and frame.f_code.co_name != "<module>":
        lines.append((frame.f_code.co_filename, frame.f_lineno))
        frame = frame.f_back
    return place_of(lines)


def place_of(frames):
    """The first of these lines, and those of the same file that called it, from the inside outwards."""
    (file, line), *callers = frames
    above = [str(it) for other, it in itertools.takewhile(lambda it: it[0] == file, callers)]
    return f"{os.path.relpath(file, TOP)}:{line}" + (f" (called at line {', '.join(above)})" if above else "")
