"""Signals: which of them end the daemon, by hand, as the unit of tools/rpkirtrd.service starts it, and under an init that is process 1."""
import os
import re
import shutil
import signal
import subprocess
import time

from checks import expect
from common import PATIENCE
from daemon.shared import FIRST, Skipped, part
from log import running
from rtr import Router

UNIT = os.path.join(os.path.dirname(os.path.abspath(__file__)), "../../tools/rpkirtrd.service")

WORDS = ("--vrps", "list.json", "--listen", "127.0.0.1:0", "--check", "1")


def ends_by(daemon, which, send):
    """Whether the daemon ends within a second after a signal was sent, and by which one."""
    began = time.monotonic()
    send(which)
    status = daemon.ran.wait(PATIENCE)
    expect(f"{which.name} ends it within a second", time.monotonic() - began < 1, True)
    return status


@part
def by_hand(given):
    """SIGTERM, SIGINT and SIGHUP end it."""
    for which in signal.SIGTERM, signal.SIGINT, signal.SIGHUP:
        with running(given.program, *WORDS) as daemon:
            daemon.listens()
            expect("what ended it", ends_by(daemon, which, daemon.ran.send_signal), -which)


@part
def as_the_unit_starts_it(given):
    """The unit lets SIGHUP, SIGUSR1, SIGUSR2 and SIGXFSZ be ignored, so a wrong `kill` ends no service. SIGTERM ends it."""
    with open(UNIT, encoding="utf-8") as it:
        start = re.search(r"^ExecStart=(/usr/bin/env --ignore-signal=\S+) ", it.read(), re.M)
    expect("the unit ignores signals", bool(start), True)
    with running(*start[1].split(), given.program, *WORDS) as daemon:
        port = daemon.listens()
        for which in signal.SIGHUP, signal.SIGUSR1, signal.SIGUSR2, signal.SIGXFSZ:
            daemon.ran.send_signal(which)
            expect(f"the table after {which.name}", Router(port).catch_up(), set(FIRST))
        expect("what ended it", ends_by(daemon, signal.SIGTERM, daemon.ran.send_signal), -signal.SIGTERM)


@part
def under_an_init(given):
    """In a pid namespace an init is process 1, as in the image of docs/Containerfile. It passes SIGTERM on."""
    if not shutil.which("tini"):
        raise Skipped("tini is not installed")
    if subprocess.run(["unshare", "--pid", "--fork", "true"], stderr=subprocess.DEVNULL).returncode:
        raise Skipped("no pid namespace can be made here")
    with running("unshare", "--pid", "--fork", "--kill-child", "tini", "--", given.program, *WORDS) as daemon:
        daemon.listens()
        init = int(subprocess.run(["pgrep", "-P", str(daemon.ran.pid)], capture_output=True, text=True, check=True).stdout)
        status = ends_by(daemon, signal.SIGTERM, lambda which: subprocess.run(["kill", f"-{int(which)}", str(init)], check=True))
        expect("the status of the init", status, 128 + signal.SIGTERM)
