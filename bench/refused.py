#!/usr/bin/env python3
"""The peak memory and the time of a start over exports of 500,000 entries, good ones and ones whose last entry is spoiled in one way each; and how
long the union of 50 exports of 10,000 entries takes. Several programs are measured in turn, as one of an older commit beside the one of now.

usage: bench/refused.py PROGRAM..

It needs GNU time as /usr/bin/time."""
import ipaddress
import json
import os
import re
import subprocess
import sys
import tempfile
import time

COUNT = 500_000
LATER = int(time.time()) + 86_400
HEAD = '{"metadata":{"generated":1},"roas":['


def prefix(number):
    return f"{ipaddress.ip_address(2**24 + 256 * number)}/24"


def entry(number):
    return f'{{"asn":"AS{64496 + number % 1000}","prefix":"{prefix(number)}","maxLength":24,"ta":"ripe","expires":{LATER}}}'


def plain(number):
    return f'{{"asn":{64496 + number % 1000},"prefix":"{prefix(number)}","maxLength":24}}'


def texts():
    """What each text is, and the text."""
    entries, last = [entry(it) for it in range(COUNT - 1)], entry(COUNT - 1)
    front = HEAD + ",".join(entries) + ","
    good = front + last + "]}"
    yield "good", good
    yield "good, a fraction elsewhere", good[:-1] + ',"elapsed":1.5}'
    yield "the last AS is none", front + last.replace('"AS', '"A') + "]}"
    yield "the last prefix is none", front + last.replace('/24"', '/24x"') + "]}"
    yield "the last entry is 7", front + "7]}"
    yield "asn twice in the last entry", front + last[:-1] + ',"asn":1}]}'
    yield "roas twice", good[:-1] + ',"roas":[]}'
    yield "cut at the end", good[:-2]
    yield "1e999 elsewhere", good[:-1] + ',"x":1e999}'
    front = "[" + ",".join(plain(it) for it in range(COUNT - 1)) + ","
    yield "a good payload list", front + plain(COUNT - 1) + "]"
    yield "a list, a fourth member at the end", front + plain(COUNT - 1)[:-1] + ',"ta":"x"}]'


def started(program):
    """The megabytes and the seconds of a start, up to its first line on the file, and that line."""
    began = time.time()
    words = ["/usr/bin/time", "-f", "PEAK %M", "-o", "peak", program, "--vrps", "x.json", "--listen", "127.0.0.1:0"]
    with subprocess.Popen(words, stderr=subprocess.PIPE, text=True) as ran:
        line = next((it for it in ran.stderr if not re.search(r" (started|listening|warning) ", it)), "")
        seconds = time.time() - began
        subprocess.run(["pkill", "-P", str(ran.pid)], check=False)
    with open("peak", encoding="ascii") as it:
        return int(re.search(r"PEAK (\d+)", it.read())[1]) // 1024, seconds, line.strip()


def union(program):
    """The milliseconds in which the union of 50 files was published."""
    words = []
    for file in range(50):
        with open(f"v{file}.json", "w", encoding="ascii") as it:
            json.dump({"roas": [{"asn": file, "prefix": prefix(file * 10_000 + number), "maxLength": 24} for number in range(10_000)]}, it)
        words += ["--vrps", f"v{file}.json"]
    with subprocess.Popen([program, *words, "--listen", "127.0.0.1:0"], stderr=subprocess.PIPE, text=True) as ran:
        line = next(it for it in ran.stderr if " published " in it)
        ran.kill()
    return int(re.search(r" ms=(\d+)", line)[1])


def main(programs):
    if not programs:
        print(__doc__, file=sys.stderr)
        return 2
    programs = [os.path.abspath(it) for it in programs]
    with tempfile.TemporaryDirectory() as folder:
        os.chdir(folder)
        for what, text in texts():
            with open("x.json", "w", encoding="ascii") as it:
                it.write(text)
            row = [started(it) for it in programs]
            print(f"{what:36s}", " | ".join(f"{peak:5d} MB {seconds:5.2f} s" for peak, seconds, _ in row), "|", row[0][2][-70:], flush=True)
        for program in programs:
            print(program, "union of 50 files:", min(union(program) for _ in range(3)), "ms", flush=True)
        os.chdir("/")
    return 0


if __name__ == "__main__":
    sys.exit(main(sys.argv[1:]))
