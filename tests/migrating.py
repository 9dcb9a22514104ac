#!/usr/bin/env python3
"""Plays docs/MIGRATING.md on loopback: BIRD has StayRTR, then both caches, then the daemon alone, and all the way back; at last the daemon
fails, and StayRTR is added again. The commands, options and lines for BIRD are those of the pages, with other addresses and files.

usage: tests/migrating.py DAEMON

BIRD's table is read again and again. It must be the list with the local exceptions, at each look and in each step; only while the list
changes may it have records of both. It prints each step with the looks in it, and exits with 1 if a step fails or a look shows something else."""
import contextlib
import json
import os
import re
import shlex
import shutil
import socket
import subprocess
import sys
import tempfile
import threading
import time

sys.path.insert(0, f"{os.path.dirname(os.path.abspath(__file__))}/lib")
import log
import web
from common import free_port, put, write
from peer import records_in, running, said
from recipes import TOP, block

PATIENCE = 45

# Two lists of a validator, local exceptions, and what is served of each list with them.
FIRST = [("192.0.2.0/24", 24, 64496), ("198.51.100.0/24", 26, 64497), ("203.0.113.0/25", 25, 64498), ("2001:db8::/32", 48, 64498)]
SECOND = [("192.0.2.0/24", 25, 64496), ("198.51.100.0/24", 26, 64499), ("203.0.113.0/25", 25, 64498), ("2001:db8::/32", 48, 64498)]
EXCEPTIONS = {
    "slurmVersion": 1,
    "validationOutputFilters": {"prefixFilters": [{"prefix": "203.0.113.0/24"}], "bgpsecFilters": []},
    "locallyAddedAssertions": {"prefixAssertions": [{"asn": 64511, "prefix": "2001:db8:ffff::/48", "maxPrefixLength": 48}], "bgpsecAssertions": []},
}


def served(records):
    return {it for it in records if it[0] != "203.0.113.0/25"} | {("2001:db8:ffff::/48", 48, 64511)}


def exported(records):
    """A list as rpki-client writes it, made now: StayRTR refuses one of more than a day."""
    roas = [{"prefix": prefix, "maxLength": longest, "asn": f"AS{number}", "ta": "test"} for prefix, longest, number in records]
    return json.dumps({"metadata": {"buildtime": time.strftime("%Y-%m-%dT%H:%M:%SZ", time.gmtime())}, "roas": roas})


def section(heading):
    """The text below a heading of the page."""
    with open(f"{TOP}/docs/MIGRATING.md", encoding="utf-8") as it:
        return re.search(rf"(?ms)^## {re.escape(heading)}$(.*?)(?=^## |\Z)", it.read())[1]


class Failed(Exception):
    """A step did not do what the page says."""


def expect(what, holds, shown=""):
    if not holds:
        raise Failed(f"{what} {shown}".strip())


def awaited(what, question):
    """Waits until this is true."""
    end = time.monotonic() + PATIENCE
    while not (found := question()):
        expect(f"{what}: not in {PATIENCE} seconds", time.monotonic() < end)
        time.sleep(0.2)
    return found


def options_are_known():
    """StayRTR has each option that the page names, and each value beside it is the default."""
    known = dict(re.findall(r"(?m)^  -(\S+)(?: \w+)?\n(.*)$", said("stayrtr", "-help")))
    for cell in re.findall(r"(?m)^\| (`-.*?) \|", section("StayRTR and GoRTR")):
        for name, value in re.findall(r"`-([a-z.]*[a-z])(?: ([:/\d][^`]*))?`", cell):
            expect(f"StayRTR has no option -{name}", name in known)
            default = re.search(r'\(default "?(.*?)"?\)$', known[name])
            expect(f"the default of -{name} is not {value}:", not value or (default[1] if default else "0") == value, known[name])


class Bird:
    """A BIRD with the caches of RECIPES.md, and what it shows."""

    # (each line of an answer begins with a number, or with a blank if it has that of the line before)
    PATTERN = r"(?m)^(?:\d{4}-| |)([0-9a-f.:]+)/(\d+)-(\d+) AS(\d+)"

    def __init__(self, ports):
        self.tables, *protocols = re.split(r"(?m)^(?=protocol rpki )", block("Two caches side by side", 1))
        place = lambda text, port: re.sub(r"remote \S+ port \d+;", f"remote 127.0.0.1 port {port};", text)
        self.protocols = {name: place(text, port) for (name, port), text in zip(ports.items(), protocols)}

    def configure(self, *names):
        """Writes the configuration with these caches."""
        head = ["log stderr all;", "router id 127.0.0.1;", "protocol device {}", self.tables]
        return write("bird.conf", "\n".join([*head, *(self.protocols[it] for it in names)]))

    @contextlib.contextmanager
    def running(self, *names):
        with running("bird", "-f", "-c", self.configure(*names), "-s", "bird.ctl", "-P", "bird.pid"):
            yield

    @staticmethod
    def ask(*words):
        return said("birdc", "-s", "bird.ctl", *words)

    def change(self, *names):
        """The operator edits the configuration and has BIRD read it."""
        self.configure(*names)
        shown = self.ask("configure")
        expect("birdc configure", "Reconfigured" in shown or "Reconfiguration in progress" in shown, shown)

    @staticmethod
    def control():
        """A connection to its control socket, which is what birdc has. What is written to it are the commands of birdc."""
        it = socket.socket(socket.AF_UNIX)
        it.settimeout(PATIENCE)
        it.connect("bird.ctl")
        it.makefile().readline()
        return it

    def table(self, control):
        """What is in its tables, in one answer, as they may change between two. BIRD ends an answer early (8004) if it reads its configuration."""
        code = b"8004"
        while code == b"8004":
            control.sendall(b"show route table r4 table r6\n")
            shown = b""
            while not (end := re.search(rb"(?m)^(0000|[89]\d{3}) .*\n\Z", shown)):
                shown += control.recv(65536)
            code = end[1]
        expect("BIRD shows its tables", code == b"0000", shown)
        return {*records_in(self.PATTERN, shown.decode())}

    def of_cache(self, name):
        """What it has from one cache."""
        shown = [self.ask("show", "route", "table", it, "protocol", name) for it in ("r4", "r6")]
        return {*records_in(self.PATTERN, "".join(shown))}

    def serial(self, name):
        """The serial of a cache to which it is connected, or None."""
        shown = self.ask("show", "protocols", "all", name)
        found = re.search(r"Serial number: +(\d+)", shown)
        return int(found[1]) if found and re.search(r"Status: +Established", shown) else None


class Looks(threading.Thread):
    """Looks at BIRD's table all the while, some hundred times a second."""

    def __init__(self, bird, table):
        super().__init__(daemon=True)
        self.bird, self.step, self.count, self.wrong, self.is_over = bird, "", 0, [], threading.Event()
        self.allowed = (table, table)

    def allow(self, *tables):
        """From now on the table has what all these have, and nothing that none of them has."""
        self.allowed = (set.intersection(*tables), set.union(*tables))

    def run(self):
        try:
            self.look()
        except (Failed, OSError) as fault:
            self.wrong.append(f"{self.step}: {fault}")

    def look(self):
        fits = lambda table, bounds: table and bounds[0] <= table <= bounds[1]
        with self.bird.control() as control:
            while not self.is_over.wait(0.002):
                # (the bounds may be other ones at the end of a look)
                before, step, table = self.allowed, self.step, self.bird.table(control)
                self.count += 1
                if not fits(table, before) and not fits(table, self.allowed):
                    self.wrong.append(f"{step}: BIRD shows {sorted(table)}, and {sorted(before[0])} is served")


class Play:
    """The caches, the router and the page."""

    def __init__(self, program):
        self.program, self.ports = program, {"cache1": free_port(), "cache2": free_port()}
        self.old_status, self.new_status = free_port(), free_port()
        self.bird, self.old = Bird(self.ports), None
        put("list.json", exported(FIRST))
        put("slurm.json", json.dumps(EXCEPTIONS))
        self.looks = Looks(self.bird, served(FIRST))

    def here(self, text):
        """A text of the page with the addresses and files of this test."""
        for page, ours in {
            "/var/lib/rpki-client/json": os.path.abspath("list.json"),
            "/etc/slurm.json": os.path.abspath("slurm.json"),
            "[::]:3323": f"[::]:{self.ports['cache2']}",
            "127.0.0.1:9323": f"127.0.0.1:{self.new_status}",
            "127.0.0.1:9847": f"127.0.0.1:{self.old_status}",
        }.items():
            text = text.replace(page, ours)
        return text

    def page(self, language, number, heading="The change-over"):
        return self.here(block(heading, number, language, "MIGRATING.md"))

    def step(self, name):
        """Ends the step before, and begins this one."""
        if self.looks.step:
            print(f"{self.looks.step}: {self.looks.count} looks")
        self.looks.step, self.looks.count = name, 0

    def try_files(self):
        words = shlex.split(self.page("sh", 1))
        expect("the page calls rpkirtrd", words[0] == "rpkirtrd", words)
        tried = lambda: subprocess.run([self.program, *words[1:]], capture_output=True, text=True, timeout=30)
        done = tried()
        expect("--check-config", done.returncode == 0, done.stderr)
        put("list.json", exported([("192.0.2.1/24", 24, 64496), *FIRST]))
        done = tried()
        expect("an entry that cannot be read is named", done.returncode != 0 and "192.0.2.1/24" in done.stdout + done.stderr, done)
        put("list.json", exported(FIRST))

    def start_old(self):
        places = ["-bind", f"127.0.0.1:{self.ports['cache1']}", "-metrics.addr", f"127.0.0.1:{self.old_status}"]
        self.old = contextlib.ExitStack()
        self.old.enter_context(running("stayrtr", *places, "-cache", "list.json", "-slurm", "slurm.json", "-refresh", "1"))
        awaited("StayRTR serves its pages", lambda: "rpki_vrps" in self.metrics_of_old())

    def metrics_of_old(self):
        with contextlib.suppress(OSError):
            return web.got(self.old_status, "/metrics")[2]
        return ""

    def start_new(self):
        """The daemon with the options of the page. It looks at its files each second."""
        options = re.fullmatch(r'OPTIONS="(.*)"\n', self.page("", 1))[1]
        return log.running(self.program, *shlex.split(options), "--check", "1")

    def is_healthy(self, daemon):
        daemon.wait("ready")
        health = self.page("sh", 2).splitlines()[-1]
        expect("the page asks /health", "/health" in health, health)
        expect("/health", said(*shlex.split(health)) == "ok\n")

    def is_same(self):
        """What the page compares is the same, once both have read the file."""
        script = self.page("bash", 1)
        awaited("both serve the same", lambda: said("bash", "-c", script) == "same\n")

    def has_records(self, name):
        """What the page has the operator see at BIRD."""
        expect("the page shows what BIRD has of a cache", self.page("sh", 3) == "birdc show route table r4 protocol cache2\n")
        return self.bird.of_cache(name) == self.looks.allowed[0]

    def is_at_new(self, daemon):
        """BIRD is connected to the daemon, and has its newest serial: by BIRD, the log and the page."""
        serial = int(web.metrics_of(self.new_status)["rpkirtrd_serial"])
        awaited("BIRD has the serial of the daemon", lambda: self.bird.serial("cache2") == serial)
        daemon.wait("client-came")
        expect("the page shows the router's serial", str(serial) in web.got(self.new_status, "/")[2])
        awaited("BIRD has the records of the daemon", lambda: self.has_records("cache2"))

    def is_at_old(self):
        awaited("BIRD has the records of StayRTR", lambda: self.has_records("cache1"))

    def hold(self, seconds=1):
        time.sleep(seconds)

    def has_length_0(self):
        """A record for 0.0.0.0/0 is on both pages, and StayRTR sends it to no router."""
        for record in ([("0.0.0.0/0", 0, 64500)], []):
            put("list.json", exported([*FIRST, *record]))
            for port in (self.old_status, self.new_status):
                awaited("the page has the list", lambda: ("0.0.0.0/0" in web.got(port, "/rpki.json")[2]) == bool(record))
            self.is_same()
            self.hold()

    def new_list(self, before, after, *caches):
        """The validator writes another list: BIRD comes to it by each of these caches."""
        self.looks.allow(served(before), served(after))
        put("list.json", exported(after))
        for name in caches:
            awaited(f"BIRD has the new list from {name}", lambda: self.bird.of_cache(name) == served(after))
        self.looks.allow(served(after))

    def metrics_are_there(self):
        """Both have the metrics that the page puts side by side."""
        old, new = self.metrics_of_old(), web.got(self.new_status, "/metrics")[2]
        for theirs, ours in re.findall(r"(?m)^\| `(r\w+)[`{].*? \| `(rpkirtrd_\w+)", section("StayRTR and GoRTR")):
            expect(f"StayRTR has no metric {theirs}", re.search(rf"(?m)^{theirs}[{{ ]", old))
            expect(f"rpkirtrd has no metric {ours}", f"# TYPE {ours} " in new)

    def is_left(self):
        """No client of StayRTR is left."""
        awaited("rtr_clients is 0", lambda: re.search(r"(?m)^rtr_clients\{.*\} 0$", self.metrics_of_old()))

    def forth(self, daemon):
        self.step("StayRTR alone, and the daemon beside it")
        self.is_healthy(daemon)
        self.is_same()
        self.hold()
        self.step("the same, and a list with a record of length 0")
        self.has_length_0()
        self.step("both caches")
        self.bird.change("cache1", "cache2")
        self.is_at_new(daemon)
        self.hold()
        self.metrics_are_there()
        self.step("both caches, another list")
        self.new_list(FIRST, SECOND, "cache1", "cache2")
        self.is_same()
        self.step("StayRTR is removed from BIRD")
        self.bird.change("cache2")
        self.is_left()
        self.hold()
        self.step("StayRTR is stopped")
        self.old.close()
        self.hold()
        self.step("the daemon alone, another list")
        self.new_list(SECOND, FIRST, "cache2")

    def back(self):
        self.step("the way back: both caches")
        self.start_old()
        self.bird.change("cache1", "cache2")
        self.is_at_old()
        self.hold()
        self.step("the way back: the daemon is removed from BIRD")
        self.bird.change("cache1")
        awaited("no router is left", lambda: web.metrics_of(self.new_status)["rpkirtrd_clients"] == 0)
        self.hold()

    def after_failure(self):
        with self.start_new() as daemon:
            self.step("again the daemon alone")
            daemon.wait("ready")
            self.bird.change("cache1", "cache2")
            self.is_at_new(daemon)
            self.bird.change("cache2")
            self.is_left()
            self.old.close()
            self.step("the daemon fails")
            daemon.ran.kill()
            daemon.ran.wait()
            awaited("BIRD sees that", lambda: self.bird.serial("cache2") is None)
            self.hold()
        self.step("StayRTR is added, and the failed daemon removed")
        self.start_old()
        self.bird.change("cache1", "cache2")
        self.is_at_old()
        self.bird.change("cache1")
        self.hold()

    def run(self):
        options_are_known()
        self.try_files()
        with contextlib.ExitStack() as stack:
            self.start_old()
            stack.callback(lambda: self.old.close())
            stack.enter_context(self.bird.running("cache1"))
            self.is_at_old()
            self.looks.start()
            with self.start_new() as daemon:
                self.forth(daemon)
                self.back()
                self.step("the daemon is stopped")
                daemon.end()
                self.hold()
            self.after_failure()
            self.looks.is_over.set()
            self.looks.join(PATIENCE)
            self.step("")


def main(program):
    missing = [it for it in ("stayrtr", "bird", "birdc", "curl", "jq") if not shutil.which(it)]
    if missing:
        print(f"not installed: {', '.join(missing)} (tests/migrating.sh --install)")
        return 77
    with tempfile.TemporaryDirectory() as folder:
        os.chdir(folder)
        play = Play(program)
        try:
            play.run()
        except (Failed, log.NoLine) as fault:
            play.looks.wrong.append(f"{play.looks.step}: {fault}")
            with open("bird.log") as it:
                print("\n".join([*log.last_lines(), "log of BIRD", *it.read().splitlines()[-20:]]))
        finally:
            os.chdir("/")
    print("\n".join(play.looks.wrong[:10]) or "BIRD's table was the list at each look")
    return 1 if play.looks.wrong else 0


if __name__ == "__main__":
    sys.exit(main(os.path.abspath(sys.argv[1])))
