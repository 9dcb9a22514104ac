#!/usr/bin/env python3
"""Checks the names of types, functions and modules.

usage: tests/gate/names.py

The status is 1 if a name that was replaced is in the sources, definitions or proofs of its crate again, or if two libraries declare one public
type name for different things. Each finding is one line. Comments and texts in quotes are not looked at."""
import collections
import glob
import os
import re
import sys

TOP = os.path.realpath(f"{os.path.dirname(os.path.abspath(__file__))}/../..")
sys.path.insert(0, f"{TOP}/tools")

import crates_txt  # noqa: E402

LIBRARIES = crates_txt.libraries()

# The names that were replaced, by crate, each with the name in its place.
REPLACED = {
    "rtr_daemon": {
        "Gate": "Listener", "Gates": "Listeners", "end_rests": "resume_all", "has_room": "clear_full", "Guest": "ClientEntry",
        "Guests": "ClientTable", "guests": "clients", "Followed": "WatchedFile", "is_aged": "set_old", "Offering": "WatchedPoint",
        "News": "PollResult", "Issue": "PublishReport", "Ledger": "Statistics", "ledger": "statistics", "BothWays": "TrafficTotals",
        "Seen": "ClientCounters", "Journal": "EventLog", "tell": "log", "Ports": "Sockets", "End": "StopReason", "Accepted": "AcceptResult",
        "world": "env", "surroundings": "environment", "arrivals": "accepting", "looking": "polling", "following": "watched_file",
        "telling": "status", "counting": "set_changes", "is_owed": "is_pending", "owe": "set_pending",
    },
    "rpkirtrd": {
        "Line": "Connection", "Host": "System", "HostFault": "SocketFault", "Call": "HttpReady", "Desk": "StatusEndpoint", "DESK": "STATUS_TOKEN",
        "Teller": "Snapshot", "Shelf": "VersionCache", "shelf": "version_cache", "Journal": "EventLog", "tell": "log", "Ports": "Sockets",
        "world": "env", "Asked": "Command",
    },
    "status_server": {
        "Told": "StatusSource", "told": "source", "Visitor": "HttpConnection", "Visitors": "HttpConnections", "Visit": "HttpProgress",
        "Visits": "Connections", "Place": "Entry", "AdmitFault": "HttpAdmitFault", "has_line": "has_token",
    },
    "status_pages": {"Told": "FileMetric", "Traffic": "TotalTraffic", "PduCounts": "PdusByType"},
    "session_names": {"VersionNames": "SessionIds", "IsLater": "AllSerialsLater"},
    "event_log": {
        "VersionNames": "SessionIds", "LogForm": "LogFormat", "Departure": "ClientClosed", "Event": "LogEvent", "Told": "LogValue",
        "told_value": "log_value", "told_pair": "log_pair", "told_char": "log_char", "TellsEvent": "LogsEvent",
    },
    "rpkirtrd_cli": {
        "Asked": "Command", "Matter": "OptionGroup", "Choice": "OptionSpec", "Kind": "OptionKind", "WordsFault": "OptionFault",
        "Served": "SourcePaths", "log_form": "log_format",
    },
    "rtr_server": {"Carried": "ByteCounts", "Pdus": "PdusByKind", "Moved": "Progress"},
    "exports": {
        "Seen": "Scalar", "Found": "RawEntry", "Parts": "ExportMembers", "ExportUntil": "TimedExport", "Gathered": "EntryRecords",
        "Listed": "ExportEntry", "see": "read_value", "seen": "scalar",
    },
    "slurm": {"EntryFault": "SlurmEntryFault"},
    "rpkirtr_c": {"Service": "ServedCache", "Status": "CallStatus"},
    "rpkirtr_cli": {"Order": "Command", "WordsFault": "CommandFault", "NoOrder": "Invalid", "Form": "CommandSpec"},
}

# The public type names that two libraries may declare, with the reason.
SHARED = {
    "Command": "the parsed command line of each program",
    "Ignored": "how much of an export, and of a file of local exceptions, is not served",
}

# Comments, texts in quotes, and characters in quotes.
PASSED = {
    ".rt": re.compile(r"""//[^\n]*|"(?:[^"\\]|\\.)*"|b?'(?:[^'\\\n]|\\.)'""", re.S),
    ".antt": re.compile(r"""(?m)^ *--[^\n]*|"(?:[^"\\\n]|\\.)*\"""", re.S),
}
WORD = re.compile(r"[A-Za-z_][A-Za-z0-9_]*")
PUBLIC = re.compile(r"(?m)^pub (?:struct|enum|trait|type) (\w+)")


def read(path):
    with open(path, encoding="utf-8") as it:
        return it.read()


def files(crate):
    """The sources, definitions and proofs of a crate."""
    top = f"{TOP}/crates/{crate}"
    found = glob.glob(f"{top}/src/**/*.rt", recursive=True)
    for folder in ("specs", "proofs"):
        found += glob.glob(f"{top}/{folder}/**/*.antt", recursive=True)
    return sorted(found)


def code(path):
    """The text of a file, with blanks for what is passed over, so that places stay."""
    blank = lambda it: re.sub(r"[^\n]", " ", it.group(0))
    return PASSED[os.path.splitext(path)[1]].sub(blank, read(path))


def is_foreign(crate, text, place):
    """Whether the word at a place belongs to a path into another crate, as in `Rattle.rtr_ends.specs.Seen`, or to a list of its names."""
    line = text[text.rfind("\n", 0, place) + 1 : place]
    listed = re.search(r"Rattle\.(\w+)\.[\w.]*\{[^}]*$", line)
    return re.search(r"Rattle\.[\w.]*\.?$", line) is not None or (listed is not None and listed.group(1) != crate)


def replaced(crate):
    """Findings: replaced names of a crate that are there again."""
    for path in files(crate):
        text = code(path)
        for found in WORD.finditer(text):
            name = found.group(0)
            if name in REPLACED[crate] and not is_foreign(crate, text, found.start()):
                line = text.count("\n", 0, found.start()) + 1
                yield f"{os.path.relpath(path, TOP)}:{line}: {name} is now {REPLACED[crate][name]}"


def declared_twice():
    """Findings: public type names of two libraries that are not in the table."""
    crates = collections.defaultdict(set)
    for crate in LIBRARIES:
        for path in glob.glob(f"{TOP}/crates/{crate}/src/**/*.rt", recursive=True):
            for name in PUBLIC.findall(code(path)):
                crates[name].add(crate)
    for name in sorted(crates):
        if len(crates[name]) > 1 and name not in SHARED:
            yield f"{name}: declared by {' and '.join(sorted(crates[name]))}"


def main():
    found = [f"{crate}: crates.txt has no such crate" for crate in REPLACED if crate not in LIBRARIES]
    for crate in REPLACED:
        found += replaced(crate)
    found += declared_twice()
    print("\n".join(found), file=sys.stderr, end="\n" if found else "")
    return 1 if found else 0


if __name__ == "__main__":
    sys.exit(main())
