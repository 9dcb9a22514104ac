#!/usr/bin/env python3
"""Random chains of caches, each of which is a relay of the one before it.

usage: tests/chains.py PROGRAM [--seed N] [--seconds N] [--events N] [--relays N]

Each cache is played as a random world (tests/worlds.py). What router 0 of a world held, whenever it was shown, is what the relay behind it
publishes: in that order, without the records of AS 0, as local exceptions might have it. A relay may leave out what it held only for a
while. Restarts with other sessions, cuts and expiry happen in each world. At the end of a chain each table that was shown is judged by what
the first cache published: it is one of these sets, as the relays change it, and none is older than one that was shown before. It exits with
1 at the first table that is not, and prints the seed with which the chain is made again."""
import argparse
import sys
import time

from worlds import Driver, Shown, played


def made(records):
    """What a relay makes of a set: no records of AS 0."""
    return {it for it in records if it[2] != 0}


class First(Driver):
    """A world whose router 0 is a relay. `looks` has what it was seen to hold, and `origins`, for each version of the cache, the place of the
    first cache's version from which it was made."""

    def __init__(self, seed, events):
        super().__init__(seed, events)
        self.looks, self.origins = [], []

    def add(self, line, judge=None):
        super().add(line, judge)
        if isinstance(judge, Shown) and judge.at == 0:
            self.looks.append(judge)

    def published(self, records):
        before = len(self.versions)
        super().published(records)
        if len(self.versions) > before:
            self.origins.append(self.origin(before))

    def origin(self, place):
        return place

    def held(self):
        """What router 0 held, in the order in which it was seen: places of the first cache's versions, and sets."""
        return [(self.origins[it.place], it.records) for it in self.looks if it.place is not None]


class Relay(First):
    """A world whose cache publishes what the relay held."""

    def __init__(self, seed, events, held):
        super().__init__(seed, events)
        self.left, self.last = list(held), None

    def origin(self, place):
        return self.last

    def publish(self):
        """The next set that was held, or one of those after it."""
        for _ in range(self.random.choice([1, 1, 1, 2, 5])):
            if self.left:
                self.last, self.records = self.left.pop(0)
        if self.last is not None:
            self.published(made(self.records))


def judged(first, last, relays):
    """What is wrong with the tables at the end of a chain, if anything."""
    shown = 0
    for place, records in last.held():
        wanted = first.versions[place][3]
        for _ in range(relays):
            wanted = made(wanted)
        if records != wanted:
            return f"{len(records)} records that were not made of version {place} of the first cache"
        if place < shown:
            return f"version {place} of the first cache after version {shown}"
        shown = place
    return ""


def chain(program, seed, events, relays):
    """Plays a chain. Returns how many lines it had, how many tables were judged at its end, and what was wrong."""
    first = world = First(seed, events)
    lines, wrong = played(program, world)
    for hop in range(relays):
        if wrong:
            return lines, 0, f"world {hop}: {wrong}"
        world = Relay(seed * 1000 + hop + 1, events, world.held())
        more, wrong = played(program, world)
        lines += more
    return lines, len(world.held()), f"world {relays}: {wrong}" if wrong else judged(first, world, relays)


def main():
    words = argparse.ArgumentParser(description="Random chains of caches.")
    words.add_argument("program")
    for name, number in (("seed", 1), ("seconds", 20), ("events", 4000), ("relays", 2)):
        words.add_argument(f"--{name}", type=int, default=number)
    given = words.parse_args()
    seed, lines, tables, end = given.seed, 0, 0, time.time() + given.seconds
    while time.time() < end:
        more, shown, wrong = chain(given.program, seed, given.events, given.relays)
        if wrong:
            print(f"seed {seed}, {given.events} events, {given.relays} relays: {wrong}")
            return 1
        seed, lines, tables = seed + 1, lines + more, tables + shown
    print(f"{lines} lines in {seed - given.seed} chains of {given.relays + 1} caches, {tables} tables judged at their ends")
    return 0 if tables else 1


if __name__ == "__main__":
    sys.exit(main())
