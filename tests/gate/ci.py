#!/usr/bin/env python3
"""Runs `rt ci` with a schedule of its own: a check that all others wait for gets more than one job.

usage: tests/gate/ci.py

`rt ci` gives a check a second job only if a processor is idle when the check begins. Then the longest chain of crates ends the run on one
processor. Here a check of that chain gets a job for each processor, whatever runs beside it. What is checked, and how, is what `rt ci` does.
tests/gate/costs.txt has what each check took when it was measured last: its seconds of one processor, and the most memory. A crate that is not
there is reckoned by its lines."""
import os
import sys
from concurrent.futures import FIRST_COMPLETED, ThreadPoolExecutor, wait

TOP = os.path.realpath(f"{os.path.dirname(os.path.abspath(__file__))}/../..")

sys.path.insert(0, f"{TOP}/tools")
from kit import RT

COSTS = f"{TOP}/tests/gate/costs.txt"

# Which part of the longest chain another one has at least that gets more jobs too, and the seconds below which a check gets one job in any case.
NEAR, SHORT = 0.85, 90

# What a further job adds to the memory of a check, as a part of it.
MORE = 0.3


class Cost:
    """What a check takes: its seconds of one processor, and its memory in bytes."""

    def __init__(self, seconds, memory):
        self.seconds, self.memory = seconds, memory


def measured():
    """What each check took, by the name of its crate and its kind."""
    if not os.path.isfile(COSTS):
        return {}
    with open(COSTS, encoding="utf-8") as it:
        rows = [line.split() for line in it if line.strip() and not line.startswith("#")]
    return {(name, kind): Cost(float(seconds), float(gigabytes) * 1e9) for name, kind, seconds, gigabytes in rows}


def costs_of(tasks):
    """What each task is reckoned to take. Its second value is how many lines it reads, none if there is nothing to do."""
    known = measured()
    return {key: known.get(key, Cost(lines * 0.25, min(needs, 5e9))) if lines else Cost(0, 0) for key, (_, lines, needs, _) in tasks.items()}


class Plan:
    """Which tasks are left, which run, and what the ended ones gave."""

    def __init__(self, tasks, lanes, memory):
        self.tasks, self.lanes, self.memory = tasks, lanes, memory
        self.costs = costs_of(tasks)
        self.behind = self.chains()
        self.left, self.running, self.given = sorted(tasks, key=lambda it: -self.behind[it]), {}, {}

    def chains(self):
        """The seconds from the beginning of each task to the end of the longest chain of tasks that wait for it."""
        found = dict.fromkeys(self.tasks, 0.0)
        # (a task comes after those that it waits for)
        for key in reversed([*self.tasks]):
            found[key] += self.costs[key].seconds
            for it in self.tasks[key][0]:
                found[it] = max(found[it], found[key])
        return found

    def room(self):
        """The memory that is left beside the running tasks."""
        return self.memory - sum(self.running.values())

    def jobs(self, key, ready):
        """The jobs of a task: one, or one for each processor if it is on the longest chain of all that is left."""
        longest = max(self.behind[it] for it in [*ready, *self.running])
        is_head = self.behind[key] >= NEAR * longest and self.costs[key].seconds > SHORT
        fits = int((self.room() - self.costs[key].memory) / (MORE * self.costs[key].memory + 1))
        return min(self.lanes, max(1, 1 + fits)) if is_head else 1

    def next(self):
        """A task that can begin now, with its jobs and its memory, or None."""
        if len(self.running) >= self.lanes:
            return None
        ready = [it for it in self.left if all(below in self.given for below in self.tasks[it][0])]
        for key in ready:
            if not self.running or self.costs[key].memory <= self.room():
                jobs = self.jobs(key, ready)
                return key, jobs, self.costs[key].memory * (1 + MORE * (jobs - 1))
        return None


def in_lanes(tasks):
    """Runs tasks side by side, as the kit's function of this name does, and returns what each gave."""
    plan, futures = Plan(tasks, RT.processors(), 0.9 * RT.free()), {}
    with ThreadPoolExecutor(plan.lanes) as pool:
        while plan.left or plan.running:
            while chosen := plan.next():
                key, jobs, need = chosen
                plan.left.remove(key)
                plan.running[key] = need
                futures[pool.submit(tasks[key][3], plan.given, jobs)] = key
            for it in wait(futures, return_when=FIRST_COMPLETED).done:
                key = futures.pop(it)
                del plan.running[key]
                plan.given[key] = it.result()
    return plan.given


def main():
    if "RT_JOBS" in os.environ or not hasattr(RT, "in_lanes"):
        os.execvp("rt", ["rt", "ci"])
    RT.in_lanes = in_lanes
    return RT.main(["ci"])


if __name__ == "__main__":
    sys.exit(main())
