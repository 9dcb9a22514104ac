#!/usr/bin/env python3
"""Measures the daemon beside a plain sender of the same bytes and StayRTR, on one machine and in one run.

usage: bench/daemon.py DAEMON [RECORDS]

With 500,000 records, or as many as are said: 100 routers that connect at once until each has the table; 1,000 idle routers, and what each
takes of memory; a version of 1,000 changes, from the first notify until each of these has it; 10 routers beside 100 that read one byte
and no more. All routers stand in one process, so what they take is in each wall time; the processor time is the server's own. StayRTR is asked by
one router. It prints a table in Markdown."""
import contextlib
import os
import resource
import selectors
import shutil
import socket
import subprocess
import sys
import tempfile
import time

import measure
import rtr

SENDER = """
import selectors, socket, sys
data = memoryview(open(sys.argv[1], "rb").read())
server = socket.create_server(("127.0.0.1", int(sys.argv[2])), backlog=1024)
server.setblocking(False)
poll = selectors.DefaultSelector()
poll.register(server, selectors.EVENT_READ)
sent = {}
while True:
    for key, _ in poll.select():
        it = key.fileobj
        if it is server:
            peer, _ = server.accept()
            peer.setblocking(False)
            poll.register(peer, selectors.EVENT_READ)
            sent[peer] = None
        elif sent[it] is None:
            if not it.recv(64):
                poll.unregister(it); it.close(); continue
            sent[it] = 0
            poll.modify(it, selectors.EVENT_READ | selectors.EVENT_WRITE)
        else:
            try:
                sent[it] += it.send(data[sent[it]:])
            except BlockingIOError:
                pass
            except OSError:
                poll.unregister(it); it.close(); continue
            if sent[it] == len(data):
                sent[it] = None
                poll.modify(it, selectors.EVENT_READ)
"""


def cpu(pid):
    """The seconds of processor time of a process so far."""
    with open(f"/proc/{pid}/stat") as it:
        fields = it.read().rpartition(")")[2].split()
    return (int(fields[11]) + int(fields[12])) / os.sysconf("SC_CLK_TCK")


def resident(pid):
    """The bytes of memory that a process has."""
    with open(f"/proc/{pid}/statm") as it:
        return int(it.read().split()[1]) * os.sysconf("SC_PAGE_SIZE")


class Crowd:
    """Routers that are served from one loop."""

    def __init__(self, port, count):
        self.poll, self.left = selectors.DefaultSelector(), {}
        self.peers = [measure.connected(port) for _ in range(count)]
        for it in self.peers:
            it.setblocking(False)
            self.poll.register(it, selectors.EVENT_READ)

    def take(self, size, query=None):
        """Sends a query, if any, and reads so many bytes on each connection."""
        left, room = {it: size for it in self.peers}, bytearray(1 << 20)
        if query:
            for it in self.peers:
                it.sendall(query)
        while left:
            for key, _ in self.poll.select(30):
                it = key.fileobj
                if it in left:
                    count = it.recv_into(room, min(len(room), left[it]))
                    if not count:
                        raise SystemExit("a connection was closed too early")
                    left[it] -= count
                    if not left[it]:
                        del left[it]

    def close(self):
        for it in self.peers:
            it.close()
        self.poll.close()


def started(words, port):
    it = subprocess.Popen(words, stdin=subprocess.DEVNULL, stdout=subprocess.DEVNULL, stderr=subprocess.DEVNULL)
    measure.connected(port).close()
    return it


def at_once(pid, port, count, size):
    """How long so many routers that connect at once take until each has the table, and the server's processor time."""
    used, began = cpu(pid), time.time()
    crowd = Crowd(port, count)
    crowd.take(size, measure.RESET)
    took = time.time() - began, cpu(pid) - used
    crowd.close()
    return took


def pair(took):
    return f"{took[0]:.2f} s, {took[1]:.2f} s of one processor"


def main(daemon, count=500_000):
    resource.setrlimit(resource.RLIMIT_NOFILE, (4096, resource.getrlimit(resource.RLIMIT_NOFILE)[1]))
    daemon, count = os.path.abspath(daemon), int(count)
    rows = []
    with tempfile.TemporaryDirectory() as folder:
        os.chdir(folder)
        found = measure.records(count)
        data = measure.answer(found)
        measure.write("list.json", measure.listed(found))
        measure.write("sender.py", SENDER)
        measure.write("answer", data)
        port, plain = measure.free_port(), measure.free_port()
        ours = started([daemon, "--vrps", "list.json", "--listen", f"127.0.0.1:{port}", "--clients", "2000", "--session", "4660", "--check", "2"], port)
        sender = started([sys.executable, "sender.py", "answer", str(plain)], plain)
        at_once(ours.pid, port, 1, len(data))
        for routers in 1, 10, 100:
            one, other = at_once(ours.pid, port, routers, len(data)), at_once(sender.pid, plain, routers, len(data))
            rows.append((f"{routers} at once until each has the table", pair(one), pair(other)))
        slow = [measure.connected(port) for _ in range(100)]
        for it in slow:
            it.setsockopt(socket.SOL_SOCKET, socket.SO_RCVBUF, 4096)
            it.sendall(measure.RESET)
            it.recv(1)
        rows.append(("10 at once beside 100 that read a byte and no more", pair(at_once(ours.pid, port, 10, len(data))), ""))
        for it in slow:
            it.close()
        time.sleep(1)
        query = rtr.serial_query(4660, serial_of(port))
        before = resident(ours.pid)
        crowd = Crowd(port, 1000)
        crowd.take(8 + 24, query)
        rows.append(("1,000 idle, each", f"{(resident(ours.pid) - before) / 1000 / 1024:.1f} KiB", ""))
        changed = found[1000:] + [(4, 240 << 24 | at << 8, 24, 24, 64496) for at in range(1000)]
        measure.write("next.json", measure.listed(sorted(changed)))
        os.replace("next.json", "list.json")
        crowd.take(12)
        used, began = cpu(ours.pid), time.time()
        crowd.take(len(measure.answer(found[:1000])) + 1000 * 20, query)
        rows.append(("1,000 changes to these, from the notifies on", pair((time.time() - began, cpu(ours.pid) - used)), ""))
        crowd.close()
        ours.terminate()
        sender.terminate()
        if shutil.which("stayrtr"):
            rows.append(("StayRTR, 1 router", pair(of_stayrtr(found, len(data))), ""))
    print(f"| {count:,} records | rpkirtrd | a plain sender |\n|---|---|---|")
    for row in rows:
        print(f"| {' | '.join(row)} |")


def serial_of(port):
    """The present serial of the cache."""
    with contextlib.closing(rtr.Router(port)) as router:
        router.ask()
        return router.serial


def of_stayrtr(found, size):
    port = measure.free_port()
    measure.write("stayrtr.json", measure.exported(found))
    words = ["stayrtr", "-bind", f"127.0.0.1:{port}", "-cache", "stayrtr.json", "-checktime=false", "-metrics.addr", "", "-refresh", "3600"]
    it = started(words, port)
    time.sleep(0.2 + size / 8_000_000)
    took = at_once(it.pid, port, 1, size)
    it.terminate()
    return took


if __name__ == "__main__":
    main(*sys.argv[1:])
