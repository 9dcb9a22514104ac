#!/usr/bin/env python3
"""Checks the dashboard docs/grafana.json: its panels, and that each metric of its queries is one of docs/FORMATS.md.

usage: tests/grafana.py

The status is 1 if a panel has no title, description or query, if two panels overlap or leave the grid of 24 columns, if a metric is
unknown, if a counter is not in rate() or increase(), or if a metric of FORMATS is in no query."""
import json
import os
import re
import sys

TOP = os.path.realpath(f"{os.path.dirname(os.path.abspath(__file__))}/..")
COLUMNS = 24

# Metrics that no panel needs.
LEFT_OUT = {"rpkirtrd_start_time_seconds", "rpkirtrd_session", "rpkirtrd_left_out_vrps"}


def read(path):
    with open(f"{TOP}/{path}", encoding="utf-8") as it:
        return it.read()


def metrics():
    """The metrics of FORMATS, each with its type."""
    found = {}
    for line in read("docs/FORMATS.md").split("\n## 19. Metrics", 1)[1].splitlines():
        if line.startswith("| `rpkirtrd_"):
            names, kind = line.split("|")[1:3]
            found.update({it: kind.strip() for it in re.findall(r"rpkirtrd_[a-z0-9_]+", names)})
    return found


def cells(panel):
    place = panel["gridPos"]
    return {(x, y) for x in range(place["x"], place["x"] + place["w"]) for y in range(place["y"], place["y"] + place["h"])}


def of_panels(panels):
    """Findings on the panels as such."""
    taken, numbers = set(), set()
    for it in panels:
        title = it.get("title") or f"panel {it.get('id')}"
        if not (it.get("title") and it.get("description") and it.get("targets")):
            yield f"{title}: no title, description or query"
        if it["id"] in numbers:
            yield f"{title}: the id {it['id']} is used twice"
        if taken & cells(it) or any(x >= COLUMNS for x, _ in cells(it)):
            yield f"{title}: it overlaps another panel, or leaves the grid"
        numbers.add(it["id"])
        taken |= cells(it)


def of_queries(queries, known):
    """Findings on the queries."""
    used = set()
    for what, query in queries:
        for found in re.finditer(r"rpkirtrd_[a-z0-9_]+", query):
            name = found.group(0)
            used.add(name)
            if name not in known:
                yield f"{what}: {name} is no metric of FORMATS"
            elif known[name] == "counter" and not re.search(r"(?:rate|increase)\($", query[: found.start()]):
                yield f"{what}: the counter {name} is not in rate() or increase()"
    yield from (f"no panel has {it}" for it in sorted(set(known) - used - LEFT_OUT))


def main():
    board = json.loads(read("docs/grafana.json"))
    queries = [(it["title"], query["expr"]) for it in board["panels"] for query in it["targets"]]
    queries += [(it["name"], it["expr"]) for it in board["annotations"]["list"]]
    queries += [(it["name"], it["query"]) for it in board["templating"]["list"]]
    findings = [*of_panels(board["panels"]), *of_queries(queries, metrics())]
    for it in findings:
        print(f"grafana: {it}", file=sys.stderr)
    return 1 if findings else 0


if __name__ == "__main__":
    sys.exit(main())
