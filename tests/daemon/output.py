"""The log: its levels and forms, the limit of its rate, a standard error that nobody reads, and one that fails."""
import contextlib
import fcntl
import json
import os
import pty
import re
import shutil
import subprocess
import time

from checks import expect
from common import PATIENCE, connected, free_port, put
from daemon.shared import FIRST, SECOND, Skipped, part, text_of
from log import running, values_of
from rtr import Router
from web import metrics_of

# The size of a pipe on Linux (fcntl(2)).
F_SETPIPE_SZ = 1031

DROPPED = 'rpkirtrd_log_lines_lost_total{reason="dropped"}'

# The user nobody, who may open no terminal of another user.
NOBODY = 65534


@part
def levels(given):
    """--log-level has the events of its level and of those above."""
    put("list.json", text_of(FIRST))
    for level, wanted in ("error", []), ("warning", ["warning"]), ("notice", ["listening", "published", "ready", "started", "warning"]):
        port = free_port()
        words = ["--vrps", "list.json", "--listen", f"127.0.0.1:{port}", "--check", "59", "--session", "1", "--once", "--log-level", level]
        with subprocess.Popen([given.program, *words], stderr=subprocess.PIPE, text=True) as ran:
            router = Router(port, peer=connected(port))
            expect(f"a table at the level {level}", router.catch_up(), set(FIRST))
            router.close()
            events = {values_of(line)["event"] for line in ran.communicate(timeout=PATIENCE)[1].splitlines()}
        expect(f"the events at the level {level}", sorted(events - {"stopped"}), wanted)
        expect(f"the end at the level {level}", "stopped" in events, level == "notice")


@part
def many_lines(given):
    """Of lines about routers 1,000 are written within 10 seconds. A line says how many are left out, and no other line is."""
    put("list.json", text_of(FIRST))
    with running(given.program, "--vrps", "list.json", "--listen", "127.0.0.1:0", "--status", "127.0.0.1:0", "--check", "1") as daemon:
        at, port = daemon.serves()
        for place in range(700):
            router = Router(at)
            if place % 50 == 49:
                router.catch_up()  # (so the daemon has accepted all so far: a busy machine's backlog would lose some)
            router.close()
        put("list.json", text_of(SECOND))
        daemon.wait("published", records=2)
        suppressed = daemon.wait("suppressed")
        lines = sum(values_of(it)["event"] in ("client-came", "client-gone") for it in daemon.said)
        expect("the lines about 700 routers", (lines, int(suppressed["lines"])), (1000, 400))
        expect("the metric of lines that are left out", metrics_of(port)['rpkirtrd_log_lines_lost_total{reason="suppressed"}'], 400)


@part
def unread_log(given):
    """A standard error that nobody reads holds up no router. The lines that find no room are counted, and others follow."""
    folder = "/".join(["x" * 200] * 15)
    os.makedirs(folder)
    files = [f"{folder}/{it}.json" for it in range(40)]
    for it in files:
        put(it, text_of(FIRST))
    at, port = free_port(), free_port()
    words = [word for it in files for word in ("--vrps", it)]
    words += ["--listen", f"127.0.0.1:{at}", "--status", f"127.0.0.1:{port}", "--check", "1"]
    reading, writing = os.pipe()
    fcntl.fcntl(writing, F_SETPIPE_SZ, 4096)
    with subprocess.Popen([given.program, *words], stderr=writing) as ran:
        os.close(writing)
        try:
            router = Router(at, peer=connected(at))
            expect("a table beside an unread log", router.catch_up(), set(FIRST))
            for it in files:
                put(it, "[")
            end = time.time() + PATIENCE
            while not metrics_of(port).get('rpkirtrd_log_lines_lost_total{reason="dropped"}') and time.time() < end:
                time.sleep(0.1)
            began = time.time()
            expect("a table beside a full log", Router(at).catch_up(), set(FIRST))
            expect("how long it took", time.time() - began < 2, True)
            lines = read_until(reading, rb" dropped lines=\d+\n")
            time.sleep(2)
            lines += read_until(reading, rb"$")
            dropped = sum(map(int, re.findall(rb" dropped lines=(\d+)", lines)))
            metric = metrics_of(port)['rpkirtrd_log_lines_lost_total{reason="dropped"}']
            refused = lines.count(b" refused file=")
            expect("the lines that were dropped", (dropped > 0, metric, refused < 40), (True, dropped, True))
            expect("each line is whole", [it for it in lines.split(b"\n") if it and not re.match(rb"20\d\d-\d\d-\d\dT", it)], [])
            put(files[0], text_of(SECOND))
            expect("a line after them", b" taken file=" in read_until(reading, rb" taken file=.*\n"), True)
        finally:
            ran.kill()
            os.close(reading)


@part
def severities(given):
    """--log systemd begins each line with its priority (sd-daemon(3)), and --log json has its level."""
    wanted = {"refused": ("<3>", "error"), "warning": ("<4>", "warning"), "ready": ("<5>", "notice"), "client-came": ("<6>", "info")}
    for place, form in enumerate(("systemd", "json")):
        put("list.json", text_of(FIRST))
        with running(given.program, "--vrps", "list.json", "--listen", "127.0.0.1:0", "--check", "1", "--log", form) as daemon:
            Router(daemon.listens()).catch_up()
            daemon.wait("client-came")
            put("list.json", "[")
            daemon.wait("refused")
            lines = {values_of(line)["event"]: line for line in daemon.said}
        found = {event: json.loads(lines[event])["level"] if form == "json" else lines[event][:3] for event in wanted}
        expect(f"the severities with --log {form}", found, {event: both[place] for event, both in wanted.items()})
        if form == "systemd":
            expect("what follows the priority", [it for it in lines.values() if not re.match(r"<[3-6]>20\d\d-\d\d-\d\dT[\d:]+Z [a-z]", it)], [])


@part
def unread_terminal(given):
    """A terminal that nobody reads holds up no router and no page, also if it cannot be opened anew. Its lines are whole when it is read."""
    put("list.json", text_of(FIRST))
    os.chmod(".", 0o711)
    for name, before in ("opened anew", None), ("written byte by byte", as_nobody):
        at, port = free_port(), free_port()
        reading, terminal = pty.openpty()
        os.fchmod(terminal, 0 if before else 0o600)
        words = ["--vrps", "list.json", "--listen", f"127.0.0.1:{at}", "--status", f"127.0.0.1:{port}", "--check", "1"]
        with subprocess.Popen([given.program, *words], stdin=subprocess.DEVNULL, stderr=terminal, preexec_fn=before) as ran:
            try:
                began = time.time()
                Router(at, peer=connected(at)).close()
                for _ in range(400):
                    router = Router(at)
                    router.catch_up()
                    router.close()
                expect(f"the page beside a terminal that is {name}", metrics_of(port)["rpkirtrd_connections_total"], 401)
                expect(f"how long it took beside a terminal that is {name}", time.time() - began < PATIENCE, True)
                expect(f"descriptor 2 of a terminal that is {name}", os.get_blocking(terminal), True)
                lines = read_until(reading, rb" client-gone .*\n")
                time.sleep(2)
                lines += read_until(reading, rb"$")
                expect(f"whole lines of a terminal that is {name}", [it for it in lines.split(b"\r\n")[:-1] if not re.fullmatch(rb"20\d\d-\d\d-\d\dT[\d:]+Z [ -~]+", it)], [])
                expect(f"lines of a terminal that is {name}", lines.count(b"\r\n") > 20, True)
            finally:
                ran.kill()
                os.close(terminal)
                os.close(reading)


def as_nobody():
    if os.geteuid() == 0:
        os.setuid(NOBODY)


@part
def full_device(given):
    """On /dev/full each line is lost and counted once. An idle daemon loses none."""
    put("list.json", text_of(FIRST))
    for form in "text", "json":
        at, port = free_port(), free_port()
        words = ["--vrps", "list.json", "--listen", f"127.0.0.1:{at}", "--status", f"127.0.0.1:{port}", "--check", "1", "--log", form]
        with open("/dev/full", "wb") as full, subprocess.Popen([given.program, *words], stderr=full) as ran:
            try:
                router = Router(at, peer=connected(at))
                router.catch_up()
                lost = metrics_of(port)[DROPPED]
                time.sleep(3)
                expect(f"lines that an idle daemon loses, as {form}", metrics_of(port)[DROPPED] - lost, 0)
                router.close()
                other = Router(at)
                other.catch_up()
                expect(f"lines of one router that left and one that came, as {form}", settled(port) - lost, 2)
            finally:
                ran.kill()


def settled(port):
    """How many lines were dropped, once one router is connected."""
    end = time.time() + PATIENCE
    while (metrics := metrics_of(port))["rpkirtrd_clients"] != 1 and time.time() < end:
        time.sleep(0.1)
    return metrics[DROPPED]


@part
def full_disk(given):
    """On a full disk no line is torn, in either form. The lines that are lost and those that are written are all that came."""
    if not shutil.which("unshare") or subprocess.run([*in_own_mounts(), "true"], stderr=subprocess.DEVNULL).returncode:
        raise Skipped("no disk can be mounted here")
    os.mkdir("disk")
    put("list.json", text_of(FIRST))
    for form in "text", "json":
        at, port = free_port(), free_port()
        words = ["--vrps", "list.json", "--listen", f"127.0.0.1:{at}", "--status", f"127.0.0.1:{port}", "--check", "1", "--log", form]
        script = 'mount -t tmpfs -o size=128k none disk && head -c 110592 /dev/zero >disk/filler && exec "$0" "$@" 2>disk/log'
        with subprocess.Popen([*in_own_mounts(), "sh", "-c", script, given.program, *words]) as ran:
            disk = f"/proc/{ran.pid}/cwd/disk"
            try:
                Router(at, peer=connected(at)).close()
                visits = 1 + fill(at, port, 0)
                os.unlink(f"{disk}/filler")
                sums = log_sums(disk, port)
                with contextlib.suppress(OSError), open(f"{disk}/filler", "wb") as filler:
                    for _ in range(32):
                        filler.write(bytes(4096))
                        filler.flush()
                visits += fill(at, port, sums)
                os.truncate(f"{disk}/filler", 0)
                sums = log_sums(disk, port)
                lines = open(f"{disk}/log", "rb").read().decode().splitlines()
            finally:
                ran.kill()
        expect(f"each line is whole, as {form}", [it for it in lines if not is_whole(it, form)], [])
        events = [values_of(it)["event"] for it in lines if is_whole(it, form)]
        clients = events.count("client-came") + events.count("client-gone")
        expect(f"lines that are written or lost, as {form}", (sums > 0, clients + sums), (True, 2 * visits))


def in_own_mounts():
    """Words that begin a command in a namespace of its own for mounts."""
    return ["unshare", "--mount", *(["--map-root-user"] if os.geteuid() else [])]


def fill(at, port, lost):
    """Lets routers come and go until more lines are lost, and returns how many came."""
    for count in range(1, 450):
        router = Router(at)
        router.catch_up()
        router.close()
        if count % 20 == 0 and metrics_of(port)[DROPPED] > lost:
            break
    end = time.time() + PATIENCE
    while metrics_of(port)["rpkirtrd_clients"] and time.time() < end:
        time.sleep(0.1)
    return count


def log_sums(disk, port):
    """Waits until the lines `dropped` of the log say how many lines were lost, and returns their sum."""
    end, sums = time.time() + PATIENCE, -1
    while time.time() < end:
        lines = open(f"{disk}/log", "rb").read().decode(errors="replace").split("\n")[:-1]
        sums = sum(int(values["lines"]) for values in map(values_of, lines) if values.get("event") == "dropped")
        if sums == metrics_of(port)[DROPPED]:
            break
        time.sleep(0.2)
    expect("the sum of the lines that were lost", sums, metrics_of(port)[DROPPED])
    return sums


def is_whole(line, form):
    """Whether a line is one of the log in this form."""
    if form == "text":
        return re.fullmatch(r"20\d\d-\d\d-\d\dT\d\d:\d\d:\d\dZ [a-z-]+(?: [a-z0-9-]+=(?:\"(?:[^\"\\\\]|\\\\.)*\"|[!-~]+))*", line) is not None
    try:
        return list(json.loads(line))[:3] == ["time", "level", "event"]
    except ValueError:
        return False


def read_until(pipe, pattern):
    """What comes out of a pipe up to a line."""
    found, end = b"", time.time() + PATIENCE
    os.set_blocking(pipe, False)
    while time.time() < end:
        try:
            found += os.read(pipe, 65536)
        except BlockingIOError:
            if re.search(pattern, found):
                break
            time.sleep(0.05)
    return found
