"""Bounds in time: notifies that are apart, answers that end, and routers that have vanished."""
import contextlib
import ctypes
import os
import shutil
import socket
import subprocess
import threading
import time

from checks import expect
from common import put
from daemon.shared import FIRST, SECOND, Skipped, part, text_of
from log import running
from rtr import RESPONSE, Router, reset_query


def many(count):
    return [(f"10.{it >> 8 & 255}.{it & 255}.0/24", 24, 64496 + (it >> 16)) for it in range(count)]


@part
def notifies_apart(given):
    """Two notifies are --check seconds apart, though the first poll takes longer than the second."""
    long = [text_of(many(200000)[:most]) for most in (199999, 200000)]
    put("long.json", long[1])
    with running(given.program, "--vrps", "list.json", "--vrps", "long.json", "--listen", "127.0.0.1:0", "--check", "3") as daemon:
        router = Router(daemon.listens())
        router.catch_up()
        moments = []
        for turn in range(4):
            if turn % 2:
                put("list.json", text_of(SECOND if turn == 1 else FIRST))
            else:
                put("long.json", long[turn // 2])
            router.wait_notify()
            moments.append(time.monotonic())
        gaps = [after - before for before, after in zip(moments, moments[1:])]
        expect(f"notifies that are less than 3 seconds apart, of {gaps}", [it for it in gaps if it < 2.75], [])


class Throttled:
    """The end of a connection that reads at most this many bytes in a second."""

    def __init__(self, port, rate):
        self.socket, self.rate = socket.socket(), rate
        self.socket.setsockopt(socket.SOL_SOCKET, socket.SO_RCVBUF, 4096)
        self.socket.connect(("127.0.0.1", port))
        self.sendall, self.close = self.socket.sendall, self.socket.close

    def recv(self, count):
        piece = self.socket.recv(min(count, 2048))
        time.sleep(len(piece) / self.rate)
        return piece


def trickle(peer):
    """Reads until the connection ends."""
    with contextlib.suppress(OSError):
        while peer.recv(2048):
            pass


@part
def slow_answer(given):
    """A router that has not accepted an answer a minute after its query is closed (--slow 60). Each query has its own minute."""
    records = many(30000)
    put("list.json", text_of(records))
    with running(given.program, "--vrps", "list.json", "--listen", "127.0.0.1:0", "--slow", "60", "--stall", "4294967295", "--check", "3600") as daemon:
        port = daemon.listens()
        began, slow, router = time.monotonic(), Throttled(port, 1000), Router(port, peer=Throttled(port, 15000))
        slow.sendall(reset_query())
        threading.Thread(target=trickle, args=[slow], daemon=True).start()
        idle = Router(port)
        expect("a router that reads at once", len(idle.catch_up()), len(records))
        expect("a whole answer within its minute", (router.ask(), len(router.table)), (RESPONSE, len(records)))
        between = time.monotonic() - began
        expect(f"an answer of {between:.1f} seconds", 30 < between < 60, True)
        router.session = None
        expect("the next answer", (router.ask(), len(router.table)), (RESPONSE, len(records)))
        expect(f"both answers last longer: {time.monotonic() - began:.1f} seconds", time.monotonic() - began > 60, True)
        gone = daemon.find("client-gone", within=30)
        expect("why the slow router leaves", (gone or {}).get("why"), "slow")
        expect("when it leaves", 60 <= int(gone["seconds"]) <= 62, True)
        expect("the other routers", (router.ask(), idle.ask(), daemon.count("client-gone")), (RESPONSE, RESPONSE, 1))


def ip(*words):
    return subprocess.run(["ip", *words], capture_output=True, text=True)


@contextlib.contextmanager
def namespaces():
    """Two network namespaces with two paths between them, 10.1.0.0/24 and 10.2.0.0/24. It gives the names of that of the cache and that of the routers."""
    cache, routers = (f"rpkirtrd-{os.getpid()}-{it}" for it in ("cache", "routers"))
    if not shutil.which("ip"):
        raise Skipped("there is no command ip")
    try:
        for name in cache, routers:
            if made := ip("netns", "add", name).stderr:
                raise Skipped(f"no network namespace can be made: {made.strip()}")
        for path in "1", "2":
            for words in (
                ["link", "add", f"path{path}", "netns", cache, "type", "veth", "peer", "name", f"path{path}", "netns", routers],
                ["-n", cache, "addr", "add", f"10.{path}.0.1/24", "dev", f"path{path}"],
                ["-n", routers, "addr", "add", f"10.{path}.0.2/24", "dev", f"path{path}"],
                ["-n", cache, "link", "set", f"path{path}", "up"],
                ["-n", routers, "link", "set", f"path{path}", "up"],
            ):
                if made := ip(*words).stderr:
                    raise Skipped(f"no path between network namespaces can be made: {made.strip()}")
        yield cache, routers
    finally:
        for name in cache, routers:
            ip("netns", "del", name)


def enter(name):
    """Moves this process into a network namespace (setns(2)), which is of its next sockets."""
    with open(f"/run/netns/{name}", "rb") as it:
        if ctypes.CDLL(None, use_errno=True).setns(it.fileno(), 0x40000000):
            raise Skipped(f"no network namespace can be entered: {os.strerror(ctypes.get_errno())}")


def reached(address, port):
    return Router(port, peer=socket.create_connection((address, port), 30))


@part
def lost_routers(given):
    """200 routers lose their network with a notify in flight, and come again by another path. The lost ones leave, so each is let in."""
    put("list.json", text_of(FIRST))
    with namespaces() as (cache, inside):
        enter(inside)
        words = [given.program, "--vrps", "list.json", "--listen", "[::]:3323", "--clients", "256", "--stall", "15", "--check", "1"]
        with running("ip", "netns", "exec", cache, *words) as daemon:
            daemon.wait("ready")
            lost = [reached("10.1.0.1", 3323) for _ in range(200)]
            for router in lost:
                expect("the table of a router", router.catch_up(), set(FIRST))
            idle = reached("10.2.0.1", 3323)
            expect("the table of a router on the other path", idle.catch_up(), set(FIRST))
            ip("-n", inside, "link", "set", "path1", "down")
            put("list.json", text_of(SECOND))
            daemon.wait("published", records=2)
            idle.wait_notify()
            expect("the change on the other path", idle.catch_up(), set(SECOND))
            began, back = time.monotonic(), []
            while len(back) < 200 and time.monotonic() < began + 90:
                with contextlib.suppress(EOFError, OSError):
                    router = reached("10.2.0.1", 3323)
                    back.append((router, router.catch_up() == set(SECOND)))
                    continue
                time.sleep(0.5)
            took = time.monotonic() - began
            expect("the routers that are let in again, and have the table", len([it for _, it in back if it]), 200)
            expect(f"how long it took: {took:.1f} seconds", took < 60, True)
            while daemon.count("client-gone") < 200 and time.monotonic() < began + 90:
                time.sleep(0.5)
            gone = [line for line in list(daemon.lines) if " client-gone " in line]
            expect("the routers that left, and why", (len(gone), len([it for it in gone if " why=lost " in it and "address=10.1.0.2:" in it])), (200, 200))
            expect("a router that stayed", idle.ask(), RESPONSE)


@part
def closed_window(given):
    """A router that reads nothing after a notify has a closed window, and is not lost. Nor is one that ignores notifies."""
    records = many(4000)
    put("list.json", text_of(records))
    with running(given.program, "--vrps", "list.json", "--listen", "127.0.0.1:0", "--stall", "5", "--check", "1") as daemon:
        port = daemon.listens()
        slow, deaf = Throttled(port, 10000), Router(port)
        deaf.catch_up()
        slow.sendall(reset_query())
        daemon.wait("client-came")
        slow.recv(1)
        time.sleep(2)
        put("list.json", text_of(records + SECOND))
        daemon.wait("published", records=4002)
        expect("a router that leaves", daemon.find("client-gone", within=40), None)
        expect("the timer of a window that is closed", [timer for timer in timers_of(port) if timer != "00"], ["04"])
        router = Router(port, peer=slow)
        router.held, router.at = b"\1", 0
        expect("the answer that it reads in the end", (router.answer(), len(router.table)), (RESPONSE, len(records)))
        expect("the other router", deaf.ask(), RESPONSE)


def timers_of(port):
    """The kinds of the timers of the connections at a local port, as /proc/net/tcp has them, but for keepalive."""
    with open("/proc/self/net/tcp") as it:
        lines = [line.split() for line in it.readlines()[1:]]
    return [words[5][:2] for words in lines if words[1].endswith(f":{port:04X}") and words[3] == "01" and words[5][:2] != "02"]
