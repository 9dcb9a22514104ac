#!/usr/bin/env python3
"""The example of a router client that stays, over TCP: it follows a daemon whose file changes, that restarts, and that is away.

usage: tests/example_router_tcp.py CLIENT RPKIRTRD [SHIM] [--changes N]

The parts run one after another, each in a folder of its own with its own port. A part waits for lines of the client, never for a time. A
cache in Python speaks version 0 alone. StayRTR and FORT are caches too, if they are installed. SHIM is what tests/lib/hurrying.c was compiled to:
data then expire, by a clock that runs fast. N is how many changes of each cache are followed (6 unless said otherwise). The last line says
how many parts passed and failed; the exit status is 0 if none failed."""
import argparse
import contextlib
import json
import os
import queue
import random
import re
import shutil
import socket
import subprocess
import sys
import threading

sys.path.insert(0, f"{os.path.dirname(os.path.abspath(__file__))}/lib")
import checks
from checks import expect
from common import PATIENCE, free_port, put, received
from daemon.shared import FIRST, SECOND, entry_of, playing, text_of
from log import running
from rtr import END, HEADER, cache_response, error_report, pdu, prefix_pdu

# Seconds of the daemon: it looks at its files each second, and a router tries again after one.
TIMES = ("--check", "1", "--retry", "1", "--refresh", "2")
UNSUPPORTED_VERSION = 4

# Records of which each change draws some.
POOL = [(f"10.{place}.0.0/16", 16 + place % 9, 64496 + place) for place in range(50)]


# What the repository of tests/lib/signed.py gives.
FORT = [("192.0.2.0/24", 24, 64496), ("198.51.100.0/24", 26, 64497), ("2001:db8::/32", 48, 64497)]


def lines_of(sign, records):
    """The client's lines of these records."""
    return {f"{sign} {prefix}-{most} AS{asn}" for prefix, most, asn in records}


class Client:
    """The client in the background, and the lines that it prints."""

    def __init__(self, program, port, *words, **env):
        self.ran = subprocess.Popen([program, f"127.0.0.1:{port}", *words], stdout=subprocess.PIPE, text=True, env={**os.environ, **env})
        self.lines = queue.Queue()
        self.records, self.session = set(), None
        threading.Thread(target=self.follow, daemon=True).start()

    def follow(self):
        for line in self.ran.stdout:
            self.lines.put(line.rstrip("\n"))

    def line(self):
        """The next line. It changes the records that follow from the lines so far."""
        line = self.lines.get(timeout=PATIENCE)
        if line.startswith("+ "):
            expect(f"{line} is new", line[2:] in self.records, False)
            self.records.add(line[2:])
        elif line.startswith("- "):
            expect(f"{line} was there", line[2:] in self.records, True)
            self.records.remove(line[2:])
        return line

    def until(self, pattern):
        """The lines up to the first one of this pattern, and the match of that."""
        before = set()
        while not (found := re.fullmatch(pattern, line := self.line())):
            before.add(line)
        return before, found

    def commit(self, records):
        """Waits for a commit of these records. It returns the lines before it, without those of commits that changed nothing."""
        wanted, before = {it[2:] for it in lines_of("+", records)}, set()
        while self.records != wanted or not before:
            more, found = self.until(r"serial (\d+) session (\d+) records (\d+)")
            before |= more
            expect("the count of a commit", int(found[3]), len(self.records))
            self.session = int(found[2])
        return before


@contextlib.contextmanager
def client_of(program, port, *words, **env):
    """A client that is killed at the end of the block."""
    it = Client(program, port, *words, **env)
    try:
        yield it
    finally:
        it.ran.kill()
        it.ran.wait()


def daemon_at(program, port, session):
    return running(program, "--vrps", "list.json", "--listen", f"127.0.0.1:{port}", "--session", str(session), *TIMES)


def changes(client, rpkirtrd, _):
    """Two changes of the file. The client ends after as many commits as it was given."""
    port = free_port()
    with daemon_at(rpkirtrd, port, 4660) as daemon:
        daemon.listens()
        with client_of(client, port) as it:
            expect("the first commit", it.commit(FIRST), lines_of("+", FIRST))
            expect("the session", it.session, 4660)
            put("list.json", text_of(SECOND))
            gone, come = lines_of("-", set(FIRST) - set(SECOND)), lines_of("+", set(SECOND) - set(FIRST))
            expect("the second commit", it.commit(SECOND), gone | come)
            put("list.json", text_of([]))
            expect("a commit of no records", it.commit([]), lines_of("-", SECOND))
        put("list.json", text_of(FIRST))
        with client_of(client, port, "1") as it:
            it.until(r"serial \d+ session 4660 records \d")
            expect("the status after one commit", it.ran.wait(PATIENCE), 0)


def restarts(client, rpkirtrd, _):
    """A cache that is away and comes again with another list, and one that comes with another session."""
    port = free_port()
    with client_of(client, port) as it:
        it.until("ended: .*refused.*")
        with daemon_at(rpkirtrd, port, 4660):
            expect("the first commit", it.commit(FIRST), lines_of("+", FIRST))
        it.until("ended: (the cache closed the connection|.*reset.*)")
        it.until("ended: .*refused.*")
        it.until("ended: .*refused.*")
        put("list.json", text_of(SECOND))
        expect("the records while the cache is away", len(it.records), len(FIRST))
        with daemon_at(rpkirtrd, port, 4660):
            before = {line for line in it.commit(SECOND) if line[:2] in ("+ ", "- ")}
            gone, come = lines_of("-", set(FIRST) - set(SECOND)), lines_of("+", set(SECOND) - set(FIRST))
            expect("the commit of a cache that is back", before, gone | come)
        with daemon_at(rpkirtrd, port, 4661):
            before, _ = it.until("dropped records 2")
            expect("another session", before >= lines_of("-", SECOND), True)
            it.until("ended: the cache sent an Error Report of code 0")
            expect("the commit of another session", it.commit(SECOND), lines_of("+", SECOND))
            expect("its session", it.session, 4661)


def expiry(client, rpkirtrd, shim):
    """A cache that is away until its data expire: ten minutes, in three seconds of a clock that runs fast."""
    port = free_port()
    with client_of(client, port, LD_PRELOAD=shim, HURRY="200") as it:
        with running(rpkirtrd, "--vrps", "list.json", "--listen", f"127.0.0.1:{port}", "--retry", "60", "--refresh", "60", "--expire", "600"):
            it.commit(FIRST)
        it.until("ended: (the cache closed the connection|.*reset.*)")
        before, _ = it.until("expired records 3")
        expect("the records that expired", before >= lines_of("-", FIRST), True)
        with daemon_at(rpkirtrd, port, 4660):
            it.commit(FIRST)


def serve_version_0(listener):
    """A cache of version 0 alone: it refuses the first connection, and answers the second."""
    for _ in range(2):
        peer, _ = listener.accept()
        with peer:
            query = received(peer, HEADER.size)
            if query[0] != 0:
                peer.sendall(error_report(UNSUPPORTED_VERSION, query, version=0))
            else:
                peer.sendall(cache_response(9, 0) + prefix_pdu(bytes([192, 0, 2, 0]), 24, 24, 64496, 0) + pdu(0, END, 9, bytes([0, 0, 0, 7])))
            peer.recv(1)


def version_0(client, *_):
    """A cache that speaks version 0 alone is asked in that version at once."""
    with socket.create_server(("127.0.0.1", 0)) as listener:
        threading.Thread(target=serve_version_0, args=(listener,), daemon=True).start()
        with client_of(client, listener.getsockname()[1], "1") as it:
            it.until("ended: the cache sent a malformed Error Report")
            expect("the commit of version 0", it.commit(FIRST[:1]), lines_of("+", FIRST[:1]))
            expect("its session", it.session, 9)
            expect("the status", it.ran.wait(PATIENCE), 0)


def exported(records):
    return json.dumps({"metadata": {}, "roas": [entry_of(*it) for it in records]})


def stayrtr_words(port):
    """The command line of StayRTR, whose export has three records at first."""
    words = ["-cache", put_export(FIRST), "-bind", f"127.0.0.1:{port}", "-metrics.addr", "", "-refresh", "1", "-checktime=false"]
    return [*words, "-rtr.retry", "1", "-rtr.refresh", "2"]


def stayrtr(client, *_):
    """StayRTR, whose file changes, and which restarts with another session."""
    port = free_port()
    words = stayrtr_words(port)
    with client_of(client, port) as it:
        with running("stayrtr", *words):
            it.until(r"serial \d+ session \d+ records 3")
            put_export(SECOND)
            it.commit(SECOND)
            session = it.session
        it.until("ended: (the cache closed the connection|.*reset.*)")
        put_export(FIRST)
        with running("stayrtr", *words):
            it.commit(FIRST)
            expect("another session", it.session != session, True)


def fort_words(port, folder):
    """The command line of FORT over the repository of a folder, without any transfer."""
    words = ["--mode=server", f"--tal={folder}/test.tal", f"--local-repository={folder}/repository", f"--slurm={folder}/local.slurm"]
    words += ["--rsync.enabled=false", "--http.enabled=false", "--server.address=127.0.0.1", f"--server.port={port}"]
    return [*words, "--server.interval.refresh=1", "--server.interval.retry=1"]


def put_slurm(records):
    asserted = [{"asn": asn, "prefix": prefix, "maxPrefixLength": most} for prefix, most, asn in records]
    filters = {"prefixFilters": [], "bgpsecFilters": []}
    slurm = {"slurmVersion": 1, "validationOutputFilters": filters, "locallyAddedAssertions": {"prefixAssertions": asserted, "bgpsecAssertions": []}}
    put("local.slurm", json.dumps(slurm))


def fort(client, *_):
    """FORT over a small repository, which restarts with one local assertion more. (It validates once a minute at most.)"""
    subprocess.run([sys.executable, f"{os.path.dirname(os.path.abspath(__file__))}/lib/signed.py", os.getcwd()], check=True)
    port, folder, added = free_port(), os.getcwd(), ("10.0.0.0/8", 8, 64500)
    put_slurm([])
    with client_of(client, port) as it:
        with running("fort", *fort_words(port, folder)):
            it.commit(FORT)
            session = it.session
        it.until("ended: (the cache closed the connection|the connection was reset)")
        put_slurm([added])
        with running("fort", *fort_words(port, folder)):
            it.commit([*FORT, added])
            expect("another session", it.session != session, True)


def put_export(records):
    put("export.json", exported(records))
    return os.path.abspath("export.json")


def put_list(records):
    put("list.json", text_of(records))


def follow(it, put_records, draw, count):
    """Random changes of a cache, one after the other, each of which the client commits."""
    records = None
    for _ in range(count):
        drawn = draw.sample(POOL, draw.randrange(1, len(POOL)))
        if records is None or set(drawn) != set(records):
            records = drawn
            put_records(records)
            it.commit(records)


def many_changes(client, rpkirtrd, _, count):
    """Random changes of the daemon's list, with a restart under another session halfway."""
    port, draw = free_port(), random.Random(1)
    with client_of(client, port) as it:
        for session in (4660, 4661):
            with daemon_at(rpkirtrd, port, session):
                follow(it, put_list, draw, count // 2)
                expect("the session", it.session, session)


def many_changes_of_stayrtr(client, _, __, count):
    """Random changes of StayRTR's file, with a restart halfway."""
    port, draw = free_port(), random.Random(2)
    with client_of(client, port) as it:
        for _ in range(2):
            with running("stayrtr", *stayrtr_words(port)):
                follow(it, put_export, draw, count // 2)


def play(part, words):
    """Runs a part in a folder of its own, and returns whether it failed."""
    with playing(part.__name__):
        part(*words)
    return bool(checks.failures)


def main():
    words = argparse.ArgumentParser(description="A router client that stays, over TCP.")
    words.add_argument("client")
    words.add_argument("rpkirtrd")
    words.add_argument("shim", nargs="?")
    words.add_argument("--changes", type=int, default=6)
    given = words.parse_args()
    programs = [it and os.path.abspath(it) for it in (given.client, given.rpkirtrd, given.shim)]
    has_stayrtr = shutil.which("stayrtr")
    parts = [changes, restarts, version_0, *([expiry] if given.shim else []), *([stayrtr] if has_stayrtr else []), *([fort] if shutil.which("fort") else [])]
    longer = [many_changes, *([many_changes_of_stayrtr] if has_stayrtr else [])]
    failed = sum(play(part, programs) for part in parts) + sum(play(part, [*programs, given.changes]) for part in longer)
    print(f"{len(parts) + len(longer) - failed} passed, {failed} failed")
    return failed > 0


if __name__ == "__main__":
    sys.exit(main())
