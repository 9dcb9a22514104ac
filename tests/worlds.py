#!/usr/bin/env python3
"""Random worlds: scripts of the command `world`, and what they may print.

usage: tests/worlds.py PROGRAM [--seed N] [--seconds N] [--events N]

Scripts are made from the seed, one after the other, until the seconds are over (30 unless said otherwise). This program keeps what was
published under which sessions and serial, and judges each printed line by that alone: a table is one of these sets, under its own name,
and never an older one than before; routes are judged as RFC 6811 section 2 has it, over that set; who caught up holds the newest, in the
version of the protocol that it speaks; an event is refused exactly where there is no such router or a session was used. It knows nothing of units and of wires. It exits with 1
at the first line that is wrong, and says the seed with which the script is made again."""
import argparse
import ipaddress
import random
import subprocess
import sys
import time

# Prefixes that cover one another, and with which ASes they are published.
PREFIXES = [ipaddress.ip_network(it) for it in ("0.0.0.0/0", "10.0.0.0/8", "10.1.0.0/16", "10.1.2.0/24", "10.1.3.0/24", "192.0.2.0/24", "::/0", "2001:db8::/32", "2001:db8:1::/48")]
ORIGINS = [0, 1, 64496, 4294967295]

# The shares of events and questions. Bytes move most of the time: each router has four such moves.
MOVES = ["router-sends", "cache-gets", "cache-sends", "router-gets"]
WEIGHTS = {"move": 60, "round": 14, "connect": 4, "ask": 5, "notify": 5, "publish": 4, "show": 6, "route": 3, "catch-up": 2, "cut": 3, "tick": 3, "speak": 2, "restart": 0.4, "router-restart": 0.6}

# The events that name a router and no more, and change nothing that is kept here.
ALONE = ["connect", "ask", "notify"]

# The longest that a table is kept after its commit, in seconds.
EXPIRE = 7200


def state(records, prefix, origin):
    """RFC 6811 section 2: the state of a route over a set of payloads. AS 0 is the origin of no route."""
    covering = [it for it in records if it[0].version == prefix.version and prefix.subnet_of(it[0])]
    if any(prefix.prefixlen <= longest and asn == origin and asn != 0 for _, longest, asn in covering):
        return "valid"
    return "invalid" if covering else "not-found"


class Router:
    """What is known of a router: its moment, the version of the protocol of its next connection, until when it must hold a set, and, while
    lines are judged, the place of the last it showed."""

    def __init__(self):
        self.now, self.speaks, self.held_until, self.shown = 0, 1, -1, 0


class Driver:
    """Makes a script, and with each line how to judge what it prints."""

    def __init__(self, seed, events):
        self.random, self.events = random.Random(seed), events
        self.routers = [Router() for _ in range(self.random.choice([1, 1, 2, 3, 5]))]
        self.session, self.start = self.random.randrange(65536), self.random.choice([0, 5, 2**31 - 2, 2**32 - 2, self.random.randrange(2**32)])
        self.session0 = self.random.choice([self.session, self.random.randrange(65536)])
        self.used, self.used0, self.versions, self.newest, self.next = {self.session}, {self.session0}, [], None, self.start
        keep = self.random.choice([1, 2, 3, 8, 65536])
        self.lines, self.judges = [f"world {len(self.routers)} {self.session} {self.start} {keep}{self.own(self.session, self.session0)}"], []

    def own(self, session, session0):
        """The word for a session of version 0, which may be left out where it is that of version 1."""
        return "" if session0 == session and self.random.random() < 0.5 else f" {session0}"

    def add(self, line, judge=None):
        self.lines.append(line)
        if judge:
            self.judges.append((len(self.lines), judge))

    def refused(self, number):
        line = len(self.lines) + 1
        return lambda text: text == f"line {line} refused {number}"

    def chosen(self):
        """A router, now and then one that is not there."""
        return self.random.randrange(len(self.routers)) if self.random.random() < 0.99 else len(self.routers)

    def make(self):
        names, weights = list(WEIGHTS), list(WEIGHTS.values())
        for name in self.random.choices(names, weights, k=self.events):
            if name in ALONE:
                self.alone(name)
            else:
                getattr(self, name.replace("-", "_"))()
        for at in range(len(self.routers)):
            self.caught_up(at)
        return "\n".join(self.lines) + "\n"

    def at_router(self, words, router):
        """An event of a router, which is refused where it is not there."""
        self.add(words, None if router < len(self.routers) else self.refused(3))
        return router < len(self.routers)

    def count(self):
        return self.random.choice([0, 1, 3, 8, 20, 51, 52, self.random.randrange(200), 2**64 - 1])

    def move(self):
        router = self.chosen()
        self.at_router(f"{self.random.choice(MOVES)} {router} {self.count()}", router)

    def round(self):
        """All four moves, so that answers arrive."""
        router = self.chosen()
        for name in MOVES:
            self.at_router(f"{name} {router} {self.random.choice([2**64 - 1, 2**64 - 1, self.count()])}", router)

    def alone(self, name):
        """An event that names a router and no more."""
        router = self.chosen()
        self.at_router(f"{name} {router}", router)

    def cut(self):
        router = self.chosen()
        self.at_router(f"cut {router} {self.count()}", router)

    def tick(self):
        """A moment that is later, or earlier, or past the end of what is held."""
        router = self.chosen()
        now = self.routers[router].now + self.random.choice([1, 600, 3600, 7200, 7201, -5]) if router < len(self.routers) else 0
        if self.at_router(f"tick {router} {max(now, 0)}", router):
            self.routers[router].now = max(self.routers[router].now, now)

    def router_restart(self):
        router = self.chosen()
        if self.at_router(f"router-restart {router}", router):
            self.routers[router] = Router()

    def speak(self):
        """Another version of the protocol, or the same, from the next connection on."""
        router, version = self.chosen(), self.random.choice([0, 1])
        if self.at_router(f"speak {router} {version}", router):
            self.routers[router].speaks = version

    def publish(self):
        self.published(self.drawn())

    def drawn(self):
        """Records at random."""
        records = set()
        for prefix in self.random.sample(PREFIXES, self.random.randrange(len(PREFIXES))):
            for asn in self.random.sample(ORIGINS, self.random.choice([1, 1, 2])):
                longest = self.random.choice([prefix.prefixlen, prefix.prefixlen + self.random.randrange(9), prefix.max_prefixlen])
                records.add((prefix, min(longest, prefix.max_prefixlen), asn))
        return records

    def published(self, records):
        items = [f"{prefix},{longest},{asn}" for prefix, longest, asn in records]
        self.add(" ".join(["publish", *items]))
        if self.newest is not None and self.versions[self.newest][3] == records:
            return  # what is published already makes no new version
        self.versions.append((self.session, self.session0, self.next, records))
        self.newest, self.next = len(self.versions) - 1, (self.next + 1) % 2**32

    def restart(self):
        session = self.random.choice([*self.used, *(self.random.randrange(65536) for _ in range(4))])
        session0 = self.random.choice([session, *self.used0, *self.used, *(self.random.randrange(65536) for _ in range(8))])
        start, is_used = self.random.randrange(2**32), session in self.used or session0 in self.used0
        self.add(f"restart {session} {start}{self.own(session, session0)}", self.refused(1) if is_used else None)
        if not is_used:
            self.session, self.session0, self.next, self.newest = session, session0, start, None
            self.used.add(session)
            self.used0.add(session0)
            # (a router that learns of the new session is emptied)
            for router in self.routers:
                router.held_until = -1

    def catch_up(self):
        router = self.chosen()
        if router == len(self.routers):
            self.add(f"catch-up {router}", lambda text: text == f"{router} no-such-router")
        else:
            self.caught_up(router)

    def caught_up(self, at):
        """A router catches up, and then shows the newest set, or none where none is published, but for one of the other version."""
        told = f"{at} no-data" if self.newest is None else f"{at} caught-up"
        self.add(f"catch-up {at}", lambda text: text == told)
        self.routers[at].held_until = -1 if self.newest is None else self.routers[at].now + EXPIRE
        first, speaks = self.newest or 0, self.routers[at].speaks
        self.add(f"show {at}", Shown(self.routers[at], at, self.versions, first, len(self.versions), [1 - speaks if self.newest is None else speaks]))

    def show(self):
        self.shown(self.chosen(), None)

    def route(self):
        """Shows a table, and judges a route over it."""
        prefix = self.random.choice([*PREFIXES, ipaddress.ip_network("10.1.2.128/25"), ipaddress.ip_network("203.0.113.0/24")])
        self.shown(self.chosen(), (prefix, self.random.choice(["none", *ORIGINS])))

    def shown(self, at, route):
        if at == len(self.routers):
            self.add(f"show {at}", self.refused(3))
            return
        judge = Shown(self.routers[at], at, self.versions, 0, len(self.versions), [0, 1])
        self.add(f"show {at}", judge)
        if route:
            prefix, origin = route
            self.add(f"route {at} {prefix} {origin}", lambda text: text == state(judge.records, prefix, origin))


class Shown:
    """Judges a shown table: one of the sets published from one place to another, under its own name in one of these versions of the
    protocol, and none that is older than what was shown before."""

    def __init__(self, router, at, versions, first, end, spoken):
        self.router, self.at, self.versions, self.first, self.end, self.spoken = router, at, versions, first, end, spoken
        self.must_hold, self.records, self.place = router.now <= router.held_until, set(), None

    def __call__(self, text):
        if text == f"{self.at} empty":
            return not self.must_hold
        for place in range(max(self.router.shown, self.first), self.end):
            session, session0, serial, records = self.versions[place]
            names = [f"v0 {session0}", f"{session}"]
            if text in [f"{self.at} {names[it]} {serial} {len(records)}" for it in self.spoken]:
                self.router.shown, self.records, self.place = place, records, place
                return True
        return False


def played(program, driver):
    """Plays one script. Returns how many lines it had, or what was wrong."""
    script = driver.make()
    ran = subprocess.run([program, "world", "/dev/stdin"], input=script, stdout=subprocess.PIPE, stderr=subprocess.PIPE, text=True, timeout=120)
    told = ran.stdout.splitlines()
    if ran.returncode or ran.stderr or len(told) != len(driver.judges):
        return 0, f"status {ran.returncode}, {len(told)} lines in place of {len(driver.judges)}: {ran.stderr[:200]}"
    for text, (line, judge) in zip(told, driver.judges):
        if not judge(text):
            return 0, f"line {line}, {driver.lines[line - 1]}: {text}"
    return len(driver.lines), ""


def main():
    words = argparse.ArgumentParser(description="Random worlds.")
    words.add_argument("program")
    for name, number in (("seed", 1), ("seconds", 30), ("events", 4000)):
        words.add_argument(f"--{name}", type=int, default=number)
    given = words.parse_args()
    seed, lines, end = given.seed, 0, time.time() + given.seconds
    while time.time() < end:
        more, wrong = played(given.program, Driver(seed, given.events))
        if wrong:
            print(f"seed {seed}, {given.events} events: {wrong}")
            return 1
        seed, lines = seed + 1, lines + more
    print(f"{lines} lines in {seed - given.seed} scripts")
    return 0


if __name__ == "__main__":
    sys.exit(main())
