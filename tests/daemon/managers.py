"""The service manager: what it is told, and its watchdog."""
import os
import socket
import time

from checks import expect
from common import PATIENCE, put
from daemon.shared import FIRST, part, text_of
from log import running
from rtr import Router


def listening(address):
    """A notification socket at a path, or in the abstract namespace."""
    it = socket.socket(socket.AF_UNIX, socket.SOCK_DGRAM)
    it.bind(address)
    it.settimeout(PATIENCE)
    return it


@part
def notified(given):
    """READY=1 comes with the first version, and STOPPING=1 at the end, at a path and in the abstract namespace."""
    put("list.json", text_of(FIRST))
    name = f"rpkirtrd-test-{os.getpid()}"
    for address, variable in (os.path.abspath("notify"), os.path.abspath("notify")), (f"\0{name}", f"@{name}"):
        with listening(address) as manager, running(given.program, "--vrps", "list.json", "--listen", "127.0.0.1:0", "--once", env={"NOTIFY_SOCKET": variable}) as daemon:
            port = daemon.listens()
            expect(f"the first message at {variable}", manager.recv(100), b"READY=1")
            router = Router(port)
            router.catch_up()
            router.close()
            expect(f"the last message at {variable}", manager.recv(100), b"STOPPING=1")
            expect("the end", daemon.status(), 0)


@part
def watched(given):
    """The watchdog is signalled at half of its time while nothing happens, unless it is for another process."""
    put("list.json", text_of(FIRST))
    words = ["--vrps", "list.json", "--listen", "127.0.0.1:0"]
    with listening("notify") as manager:
        path = os.path.abspath("notify")
        with running(given.program, *words, env={"NOTIFY_SOCKET": path, "WATCHDOG_USEC": "1000000"}) as daemon:
            daemon.wait("ready")
            # (on a busy machine some signals wait here already)
            messages, signals, end = queued(manager), [], time.time() + 3
            while time.time() < end:
                messages.add(manager.recv(100))
                signals.append(time.time())
            longest = max(after - before for before, after in zip(signals, signals[1:]))
            expect("the messages", messages, {b"READY=1", b"WATCHDOG=1"})
            expect("the signals within three seconds", (5 <= len(signals) <= 8, longest < 1), (True, True))
    with listening("other") as manager:
        with running(given.program, *words, env={"NOTIFY_SOCKET": os.path.abspath("other"), "WATCHDOG_USEC": "1000000", "WATCHDOG_PID": "1"}) as daemon:
            daemon.wait("ready")
            expect("the first message of a watchdog for another process", manager.recv(100), b"READY=1")
            manager.settimeout(2)
            expect("a further message", next_message(manager), None)


def queued(manager):
    """The messages that have come already. READY=1 is one of them."""
    messages = {manager.recv(100)}
    manager.setblocking(False)
    while True:
        try:
            messages.add(manager.recv(100))
        except BlockingIOError:
            manager.settimeout(PATIENCE)
            return messages


def next_message(manager):
    """The next message, or None if none comes in time."""
    try:
        return manager.recv(100)
    except TimeoutError:
        return None


@part
def no_manager(given):
    """A NOTIFY_SOCKET that is no address, or where nobody listens, is reported, and the daemon serves."""
    put("list.json", text_of(FIRST))
    for variable, reason in ("notify", "NOTIFY_SOCKET names"), ("/nobody/there", "could not be notified"):
        with running(given.program, "--vrps", "list.json", "--listen", "127.0.0.1:0", env={"NOTIFY_SOCKET": variable}) as daemon:
            port = daemon.port()
            expect(f"the warning with {variable}", daemon.warns(reason), True)
            expect(f"a table with {variable}", Router(port).catch_up(), set(FIRST))
