"""A daemon in the background, and the lines of its log."""
import contextlib
import json
import os
import re
import resource
import subprocess
import threading
import time

from common import PATIENCE

VALUE = re.compile(r' ([\w-]+)=("(?:[^"\\]|\\.)*"|\S*)')

# The priority of a line for systemd (sd-daemon(3)).
PRIORITY = re.compile(r"^<[0-7]>")

# The daemon that each thread started last.
latest = threading.local()


def values_of(line):
    """The time, the event and the values of a line of the log, in each form."""
    line = PRIORITY.sub("", line)
    if line.startswith("{"):
        return json.loads(line)
    parts = re.match(r"(\S+) (\S+)(.*)", line)
    if not parts:
        return {}
    values = {key: it[1:-1] if it.startswith('"') else it for key, it in VALUE.findall(parts[3])}
    return {"time": parts[1], "event": parts[2], **values}


def unescaped(text):
    """The text of a value in quotes."""
    return json.loads(f'"{text}"')


class NoLine(Exception):
    """A line did not come in the log of a daemon."""

    def __init__(self, daemon, event, values):
        end = "before the log ended" if daemon.is_over else f"in {PATIENCE} seconds"
        super().__init__(f"no line {event} {values} {end}")
        self.daemon = daemon


class Daemon:
    """A daemon in the background. Its log is read line by line."""

    def __init__(self, program, *words, limit=None, env=None, inherited=None):
        before = (lambda: resource.setrlimit(resource.RLIMIT_NOFILE, (limit, limit))) if limit else None
        streams = {"stdin": subprocess.DEVNULL, "stdout": subprocess.PIPE, "stderr": subprocess.PIPE}
        more = {"env": {**os.environ, **env}, "pass_fds": [inherited] if inherited else []} if env else {}
        self.words = words
        self.ran = subprocess.Popen([program, *words], **streams, **more, preexec_fn=before)
        # all lines so far, how many of them find() has passed, and whether the log has ended
        self.lines, self.at, self.is_over, self.changed = [], 0, False, threading.Condition()
        threading.Thread(target=self.follow, daemon=True).start()
        latest.daemon = self

    def follow(self):
        """Keeps each line of the log."""
        for line in self.ran.stderr:
            with self.changed:
                self.lines.append(line.decode(errors="backslashreplace").rstrip("\n"))
                self.changed.notify_all()
        with self.changed:
            self.is_over = True
            self.changed.notify_all()

    def next_line(self, end):
        """The next line, or None if the log ends or this moment comes before."""
        with self.changed:
            self.changed.wait_for(lambda: self.at < len(self.lines) or self.is_over, max(0, end - time.monotonic()))
            if self.at == len(self.lines):
                return None
            self.at += 1
            return self.lines[self.at - 1]

    def find(self, event, within=PATIENCE, **values):
        """The next line of this event with these values, as a dict, or None if none comes in `within` seconds."""
        end = time.monotonic() + within
        while (line := self.next_line(end)) is not None:
            found = values_of(line)
            if found.get("event") == event and all(str(found.get(key)) == str(it) for key, it in values.items()):
                return found
        return None

    def wait(self, event, **values):
        """The next line of this event with these values, as a dict. It raises NoLine if none comes."""
        if found := self.find(event, **values):
            return found
        raise NoLine(self, event, values)

    def warns(self, text):
        """Whether a line `warning` whose reason holds this text comes. Others come, too: one where the machine has no id."""
        while found := self.find("warning"):
            if text in found["reason"]:
                return True
        return False

    def port(self, event="listening"):
        """Waits for the line of this event, and returns the port of its address."""
        return int(self.wait(event)["address"].rpartition(":")[2])

    def listens(self):
        """Waits until it is ready, and returns its port for routers."""
        port = self.port()
        self.wait("ready")
        return port

    def serves(self):
        """Waits until it is ready, and returns its ports for routers and for the pages."""
        ports = self.port(), self.port("status")
        self.wait("ready")
        return ports

    @property
    def said(self):
        """The lines that find() has passed."""
        return self.lines[: self.at]

    def count(self, event):
        """How many lines of this event the log has so far."""
        return sum(values_of(line).get("event") == event for line in list(self.lines))

    def end(self):
        """Ends it by SIGTERM, and returns its status."""
        self.ran.terminate()
        return self.ran.wait(PATIENCE)

    def status(self):
        """Waits for its end, and returns its status."""
        return self.ran.wait(PATIENCE)


@contextlib.contextmanager
def running(program, *words, **how):
    """A daemon that is killed at the end of the block."""
    it = Daemon(program, *words, **how)
    try:
        yield it
    finally:
        if it.ran.poll() is None:
            it.ran.kill()
        it.ran.wait()


def last_lines(daemon=None, count=12):
    """The words and the last lines of the log of a daemon, else of the one that this thread started last."""
    it = daemon or getattr(latest, "daemon", None)
    return [" ".join(["log of rpkirtrd", *it.words]), *list(it.lines)[-count:]] if it else []
