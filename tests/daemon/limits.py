"""Limits: clients, clients of an address, descriptors, and time."""
import contextlib
import ipaddress
import re
import shutil
import socket
import subprocess
import time

from checks import expect
from common import PATIENCE, put
from daemon.shared import FIRST, Skipped, part, text_of
from log import running
from rtr import ERROR, RESPONSE, Router, reset_query


@part
def limits(given):
    """Too many clients, a client that reads nothing, rubbish, and a daemon for one client."""
    many = [(f"{ipaddress.ip_address(10 * 2**24 + 256 * it)}/24", 24, 64496) for it in range(60000)]
    put("list.json", text_of(many))
    with running(given.program, "--vrps", "list.json", "--listen", "127.0.0.1:0", "--clients", "2", "--stall", "1", "--check", "1") as daemon:
        port = daemon.listens()
        slow = socket.socket()
        slow.setsockopt(socket.SOL_SOCKET, socket.SO_RCVBUF, 4096)
        slow.connect(("127.0.0.1", port))
        slow.sendall(reset_query())
        daemon.wait("client-came")
        other = Router(port)
        daemon.wait("client-came")
        third = Router(port)
        daemon.wait("full")
        expect("a client too many", third.socket.recv(100), b"")
        daemon.wait("stalled")
        daemon.wait("client-gone", why="stalled")
        expect("a client beside one that reads nothing", len(other.catch_up()), len(many))
        rubbish = Router(port)
        rubbish.socket.sendall(b"GET / HTTP/1.0\r\n\r\n")
        kind, code, _ = rubbish.unit()
        expect("the answer to rubbish", (kind, code), (ERROR, 4))
        expect("its end", rubbish.socket.recv(100), b"")
        daemon.wait("client-gone", why="ended")
        expect("a client beside rubbish", other.ask(), RESPONSE)
        slow.close()
    with running(given.program, "--vrps", "list.json", "--listen", "127.0.0.1:0", "--once", "--log", "json") as daemon:
        port = daemon.listens()
        with contextlib.closing(Router(port)) as router:
            expect("a daemon for one client", len(router.catch_up()), len(many))
        expect("its end", daemon.status(), 0)


@part
def full_descriptors(given):
    """Connections that no descriptor is left for are accepted as soon as there is one."""
    put("list.json", text_of(FIRST))
    with running(given.program, "--vrps", "list.json", "--listen", "127.0.0.1:0", "--check", "1", limit=24) as daemon:
        port = daemon.port()
        most = int(daemon.wait("limited")["clients"])
        expect("the clients that descriptors allow", most, 8)
        daemon.wait("ready")
        routers = [Router(port) for _ in range(most)]
        for router in routers:
            expect("a router within the limit", router.catch_up(), set(FIRST))
        last = Router(port)
        daemon.wait("full")
        expect("one too many", last.socket.recv(100), b"")
        routers.pop().close()
        daemon.wait("client-gone")
        expect("one more afterwards", Router(port).catch_up(), set(FIRST))


@part
def one_address(given):
    """An address has at most --clients-per-address clients at once. An IPv4 address through an IPv6 socket is the same address."""
    put("list.json", text_of(FIRST))
    words = ["--vrps", "list.json", "--listen", "[::]:0", "--clients-per-address", "2"]
    with running(given.program, *words) as daemon:
        port = daemon.listens()
        routers = [Router(port) for _ in range(2)]
        for router in routers:
            router.catch_up()
            expect("the address of a router", daemon.wait("client-came")["address"].startswith("127.0.0.1:"), True)
        expect("one too many of an address", Router(port).socket.recv(1), b"")
        expect("how many it has", daemon.wait("address-full")["clients"], "2")
        other = Router(port, family=socket.AF_INET6)
        expect("another address", other.catch_up(), set(FIRST))
        routers.pop().close()
        daemon.wait("client-gone")
        expect("one more of the address", Router(port).catch_up(), set(FIRST))


@part
def kept_alive(given):
    """The connection of a router has TCP keepalive."""
    if not shutil.which("ss"):
        raise Skipped("there is no command ss")
    put("list.json", text_of(FIRST))
    with running(given.program, "--vrps", "list.json", "--listen", "127.0.0.1:0") as daemon:
        port = daemon.listens()
        router = Router(port)
        router.catch_up()
        sockets = subprocess.run(["ss", "-Htno", f"sport = :{port}"], capture_output=True, text=True, timeout=PATIENCE).stdout
        expect("the timer of a connection", re.findall(r"timer:\((\w+)", sockets), ["keepalive"])


@part
def silent_router(given):
    """A router that sends no whole query within a minute is closed. One that asked is not."""
    put("list.json", text_of(FIRST))
    with running(given.program, "--vrps", "list.json", "--listen", "127.0.0.1:0") as daemon:
        port = daemon.listens()
        began, silent, half, router = time.time(), Router(port), Router(port), Router(port)
        half.socket.sendall(bytes.fromhex("010112340000000c0000"))
        router.catch_up()
        for _ in range(2):
            gone = daemon.find("client-gone", within=70)
            expect("why a silent router leaves", (gone or {}).get("why"), "no-query")
        expect("how long a silent router stays", 59 < time.time() - began < 65, True)
        expect("its end", (silent.socket.recv(1), half.socket.recv(1)), (b"", b""))
        expect("a router that asked", router.ask(), RESPONSE)
