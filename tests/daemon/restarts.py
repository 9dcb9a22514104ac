"""Restarts: sessions and serials."""
import contextlib
import datetime
import hashlib
import os
import struct

from checks import expect
from common import free_port, put
from daemon.shared import FIRST, SECOND, SLURM, part, text_of
from log import running
from rtr import CACHE_RESET, Router


@part
def restarts(given):
    """A restart keeps the session, and no serial is used again. A router keeps its table until it has the new one."""
    put("list.json", text_of(FIRST))
    names = []
    for records in FIRST, SECOND, FIRST:
        put("list.json", text_of(records))
        with running(given.program, "--vrps", "list.json", "--listen", "127.0.0.1:0", "--check", "1") as daemon:
            port = daemon.port()
            started = daemon.wait("started")
            daemon.wait("ready")
            router = Router(port)
            # (without a machine id each start has a session of its own)
            if names and names[-1][0] == int(started["session"]):
                router.session, router.serial = names[-1]
                expect("a serial from before the restart", router.ask(), CACHE_RESET)
            router.catch_up()
            expect("the table after a restart", router.table, set(records))
            names.append((router.session, router.serial))
            expect("the session in the log", int(started["session"]), router.session)
            daemon.end()
    with contextlib.suppress(OSError), open("/etc/machine-id") as it:
        if it.read().strip() not in ("", "uninitialized"):
            expect("the sessions", len({session for session, _ in names}), 1)
    serials = [serial for _, serial in names]
    expect("the serials", serials, sorted(set(serials)))


def own_session(listen, sources):
    """The session that a daemon makes of the machine id, the host name, its addresses and its sources, if the machine has an id."""
    machine, host = (open(it, "rb").read() if os.path.exists(it) else b"" for it in ("/etc/machine-id", "/proc/sys/kernel/hostname"))
    if machine.strip() in (b"", b"uninitialized"):
        return None
    parts = [machine, host, listen.encode(), sources.encode()]
    return int.from_bytes(hashlib.sha256(b"".join(struct.pack("!Q", len(it)) + it for it in parts)).digest()[:2], "big")


@part
def warnings_and_names(given):
    """The session, the warning on --check below 60, and the session of version 0, which is the second of the start."""
    put("list.json", text_of(FIRST))
    put("slurm.json", SLURM)
    at = f"127.0.0.1:{free_port()}"
    with running(given.program, "--vrps", "list.json", "--slurm", "slurm.json", "--listen", at) as daemon:
        session = int(daemon.wait("started")["session"])
        expect("the session", own_session(f"{at}\n", "--vrps list.json\n--slurm slurm.json\n") in (None, session), True)
    with running(given.program, "--vrps", "list.json", "--listen", "127.0.0.1:0", "--check", "59") as daemon:
        started = daemon.wait("started")
        second = int(datetime.datetime.fromisoformat(started["time"].replace("Z", "+00:00")).timestamp())
        expect("the session in version 0", int(started["session0"]), second % 65536)
        expect("a warning", daemon.warns("RFC 8210 section 8.2"), True)
        daemon.wait("ready")
    with running(given.program, "--vrps", "list.json", "--listen", "127.0.0.1:0", "--check", "60") as daemon:
        daemon.wait("ready")
        expect("warnings", [it for it in daemon.said if " warning " in it and "8210" in it], [])
