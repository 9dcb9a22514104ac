#!/usr/bin/env python3
"""Measures a router of another cache over the library `upstreams`, as the example `example_router_tcp` is one.

usage: bench/upstreams.py ROUTER_OVER_TCP [--records N] [--runs N]

A plain sender in this process is the cache: it answers a Reset Query with N records (500,000 unless said otherwise), then notifies, and
answers the Serial Query with a change of 1,000 records, 500 of them withdrawn and 500 announced. The router prints each record into a
file, which is in each figure. A time is from the first byte of the answer to the line of the commit; the processor time is the router's
own. The memory is the peak of the router until then. The best of five runs is printed, as rows for docs/FIGURES.md."""
import argparse
import os
import socket
import subprocess
import sys
import tempfile
import time

from measure import SERIAL, SESSION, answer, records
import rtr

CHANGED = 500
PATIENCE = 120


def withdrawn(record):
    family, address, length, longest, asn = record
    return rtr.prefix_pdu(address.to_bytes(4 if family == 4 else 16, "big"), length, longest, asn, flags=0)


def change(found):
    """The answer to a Serial Query: each of some records has another AS."""
    gone = found[:: len(found) // CHANGED][:CHANGED]
    come = [(*it[:4], 4200000001) for it in gone]
    parts = [*map(withdrawn, gone), *(rtr.prefix_pdu(it[1].to_bytes(4 if it[0] == 4 else 16, "big"), *it[2:]) for it in come)]
    return b"".join([rtr.cache_response(SESSION), *parts, rtr.end_of_data(SESSION, SERIAL + 1)])


def spent(pid):
    """Seconds of a processor, in user and system mode."""
    with open(f"/proc/{pid}/stat") as it:
        fields = it.read().rsplit(")", 1)[1].split()
    return (int(fields[11]) + int(fields[12])) / os.sysconf("SC_CLK_TCK")


def peak(pid):
    """The most memory that was resident, in MB."""
    with open(f"/proc/{pid}/status") as it:
        return next(int(line.split()[1]) for line in it if line.startswith("VmHWM")) / 1024


def commit(ran, path, from_byte, peer, bytes_of):
    """Sends an answer, and waits for the line of its commit: seconds, processor seconds, where the output ends."""
    began, before, end = time.monotonic(), spent(ran.pid), time.monotonic() + PATIENCE
    peer.sendall(bytes_of)
    while time.monotonic() < end:
        size = os.path.getsize(path)
        if size > from_byte:
            with open(path, "rb") as it:
                it.seek(max(from_byte, size - 100))
                last = it.read()
            if b"\nserial " in last and last.endswith(b"\n"):
                return time.monotonic() - began, spent(ran.pid) - before, size
        time.sleep(0.0005)
    raise SystemExit("no commit came")


def run(program, whole, part):
    """A table and a change: for each the seconds, the processor's, and the peak of memory."""
    with tempfile.TemporaryDirectory() as folder, socket.create_server(("127.0.0.1", 0)) as listener:
        path = f"{folder}/lines"
        with open(path, "wb") as output:
            ran = subprocess.Popen([program, f"127.0.0.1:{listener.getsockname()[1]}"], stdout=output)
        try:
            peer, _ = listener.accept()
            with peer:
                peer.setsockopt(socket.IPPROTO_TCP, socket.TCP_NODELAY, 1)
                peer.recv(8, socket.MSG_WAITALL)
                first, processor, size = commit(ran, path, 0, peer, whole)
                table = first, processor, peak(ran.pid)
                peer.sendall(rtr.pdu(1, 0, SESSION, (SERIAL + 1).to_bytes(4, "big")))
                peer.recv(12, socket.MSG_WAITALL)
                first, processor, _ = commit(ran, path, size, peer, part)
                return table, (first, processor, peak(ran.pid))
        finally:
            ran.kill()
            ran.wait()


def main():
    words = argparse.ArgumentParser(description="A router of another cache over `upstreams`.")
    words.add_argument("program")
    words.add_argument("--records", type=int, default=500000)
    words.add_argument("--runs", type=int, default=5)
    given = words.parse_args()
    found = records(given.records)
    whole, part = answer(found), change(found)
    ran = [run(os.path.abspath(given.program), whole, part) for _ in range(given.runs)]
    for name, of in ((f"a table of {given.records:,} records", 0), (f"a change of {2 * CHANGED:,} to it", 1)):
        first, processor, memory = (min(it[of][place] for it in ran) for place in range(3))
        print(f"| {name} | {first:.3f} s | {processor:.2f} s | {memory:.0f} MB |")


if __name__ == "__main__":
    sys.exit(main())
