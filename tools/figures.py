#!/usr/bin/env python3
"""Draws docs/figures/life.svg: the records that a router of samples/life.world holds, event by event.

usage: tools/figures.py [PROGRAM [FILE]]

After each event of the script `show` is asked of the program, so the picture is of what it printed."""
import os
import subprocess
import sys

TOP = os.path.realpath(f"{os.path.dirname(os.path.abspath(__file__))}/..")
STEP, HEIGHT, UNIT, LEFT, ABOVE, LABELS = 24, 130, 24, 40, 30, 110
INK, CACHE, HELD = "#333", "#b0b7c3", "#1f6feb"


def held_after(program, lines):
    """How many records the router holds after each event, and under which session and serial."""
    shown = [part for line in lines[1:] for part in (line, "show 0")]
    told = subprocess.run([program, "world", "/dev/stdin"], input="\n".join([lines[0], *shown]) + "\n", capture_output=True, text=True, timeout=60)
    found = [line.split()[1:] for line in told.stdout.splitlines() if line.split()[1] not in ("caught-up", "no-data")]
    if told.returncode or len(found) != len(lines) - 1:
        raise SystemExit(f"the script was not played to its end: {told.stdout}{told.stderr}")
    return [(0, "") if it == ["empty"] else (int(it[2]), f"{it[0]}, {it[1]}") for it in found]


def published_after(lines):
    """How many records the cache has published after each event; none after a restart."""
    counts, count = [], 0
    for words in (line.split() for line in lines[1:]):
        count = len(words) - 1 if words[0] == "publish" else 0 if words[0] == "restart" else count
        counts.append(count)
    return counts


def staircase(counts, colour, width, dash=""):
    points = []
    for at, count in enumerate(counts):
        y = ABOVE + HEIGHT - UNIT * count
        points += [f"{LEFT + STEP * at},{y}", f"{LEFT + STEP * (at + 1)},{y}"]
    return f'<polyline points="{" ".join(points)}" fill="none" stroke="{colour}" stroke-width="{width}"{dash}/>'


def text(x, y, words, more=""):
    return f'<text x="{x}" y="{y}" font-size="10" fill="{INK}" {more}>{words}</text>'


def drawn(lines, published, held):
    wide, high = LEFT + STEP * len(held) + 20, ABOVE + HEIGHT + LABELS
    parts = [f'<svg xmlns="http://www.w3.org/2000/svg" viewBox="0 0 {wide} {high}" font-family="sans-serif">', f'<rect width="{wide}" height="{high}" fill="white"/>']
    for count in range(6):
        y = ABOVE + HEIGHT - UNIT * count
        parts += [f'<line x1="{LEFT}" y1="{y}" x2="{wide - 20}" y2="{y}" stroke="#eee"/>', text(LEFT - 14, y + 3, count)]
    parts += [staircase(published, CACHE, 2, ' stroke-dasharray="4 3"'), staircase([it for it, _ in held], HELD, 3)]
    parts += [text(LEFT, 14, "records published by the cache", f'style="fill:{CACHE};font-weight:bold"'), text(LEFT + 190, 14, "records held by the router, with session and serial", f'style="fill:{HELD};font-weight:bold"')]
    before = ""
    for at, (count, version) in enumerate(held):
        x = LEFT + STEP * at
        if version != before and version:
            parts.append(text(x, ABOVE + HEIGHT - UNIT * count - 6, version, f'style="fill:{HELD}"'))
        before = version
        event = " ".join(lines[at + 1].split()[:1] + ([] if lines[at + 1].startswith("publish") else lines[at + 1].split()[1:]))
        parts.append(text(x + STEP / 2 + 3, ABOVE + HEIGHT + 10, event, f'text-anchor="end" transform="rotate(-60 {x + STEP / 2 + 3} {ABOVE + HEIGHT + 10})"'))
    return "\n".join([*parts, "</svg>", ""])


def main():
    program = os.path.abspath(sys.argv[1]) if len(sys.argv) > 1 else f"{TOP}/crates/rpkirtr/out/rpkirtr"
    with open(f"{TOP}/samples/life.world", encoding="utf-8") as it:
        lines = it.read().splitlines()
    with open(sys.argv[2] if len(sys.argv) > 2 else f"{TOP}/docs/figures/life.svg", "w", encoding="utf-8") as it:
        it.write(drawn(lines, published_after(lines), held_after(program, lines)))
    return 0


if __name__ == "__main__":
    sys.exit(main())
