#!/usr/bin/env python3
"""Measures the program beside what else is installed, on one machine and in one run.

usage: bench/measure.py PROGRAM [--quick | --before OLD COMMIT]

Over lists of 10,000 to 1,000,000 records, made by a seed so that they look like the table of the Internet: a cache's answer to a Reset
Query over loopback (ours, StayRTR, and a plain sender of the same bytes), a router that fills its table from a plain sender (ours, and
rtrclient), a list that is read and a route judged from a cold start, and payloads of ROAs and manifests decoded. Each figure is the best
of three runs, in which our cache and the plain sender are asked ten times. It writes docs/FIGURES.md, with --before also what an older
program, built of that commit, takes beside this one over 500,000 records, and with Debian's python3-matplotlib docs/figures/growth.svg."""
import ipaddress
import json
import os
import platform
import random
import shutil
import socket
import subprocess
import sys
import tempfile
import threading
import time

TOP = os.path.realpath(f"{os.path.dirname(os.path.abspath(__file__))}/..")
sys.path.insert(0, f"{TOP}/tests/lib")
import common
import rtr
from common import free_port, write
from der import element, integer

# Shares of prefix lengths, of families and of AS numbers, roughly those of the global table.
IPV4 = {24: 62, 23: 9, 22: 11, 21: 4, 20: 5, 19: 4, 18: 2, 17: 1, 16: 2}
IPV6 = {48: 52, 32: 18, 44: 9, 40: 7, 36: 6, 46: 4, 29: 2, 33: 2}
RESET = rtr.reset_query()
SERIAL, SESSION = 5, 4660


def records(count):
    """So many different records: prefix, longest length, AS."""
    chance, found, asn = random.Random(count), set(), 1
    lengths = {4: [*IPV4], 6: [*IPV6]}
    shares = {4: [*IPV4.values()], 6: [*IPV6.values()]}
    while len(found) < count:
        if chance.random() < 0.12:
            asn = chance.randrange(1, 65536) if chance.random() < 0.45 else chance.randrange(65536, 402000)
        family = 4 if chance.random() < 0.77 else 6
        length = chance.choices(lengths[family], shares[family])[0]
        width = 32 if family == 4 else 128
        high = chance.randrange(1 << 24, 224 << 24) >> (32 - length) if family == 4 else (0x2 << (length - 4)) | chance.getrandbits(length - 4)
        longest = length if chance.random() < 0.86 else min(length + chance.randrange(1, 9), 24 if family == 4 and length < 24 else width)
        found.add((family, high << (width - length), length, longest, asn))
    return sorted(found)


def text_of(record):
    family, address, length, _, _ = record
    return f"{ipaddress.IPv4Address(address) if family == 4 else ipaddress.IPv6Address(address)}/{length}"


def listed(found):
    return json.dumps([{"asn": it[4], "maxLength": it[3], "prefix": text_of(it)} for it in found], separators=(",", ":"))


def exported(found):
    roas = [{"asn": f"AS{it[4]}", "maxLength": it[3], "prefix": text_of(it), "ta": "x"} for it in found]
    return json.dumps({"metadata": {"buildtime": "2026-01-01T00:00:00Z"}, "roas": roas})


def answer(found):
    """The answer to a Reset Query (RFC 8210 sections 5.5 to 5.8)."""
    parts = (rtr.prefix_pdu(address.to_bytes(4 if family == 4 else 16, "big"), length, longest, asn) for family, address, length, longest, asn in found)
    return b"".join([rtr.cache_response(SESSION), *parts, rtr.end_of_data(SESSION, SERIAL)])


def best(measure):
    return min(measure() for _ in range(3))


def connected(port):
    """A connection that blocks, to a server that may read for minutes before it listens."""
    return common.connected(port, 600, None)


def asked(port, size, times=1):
    """How long a cache on a port takes for its answer, from the query on to the last of so many bytes: the best of so many queries on one
    connection. It is left the time to read its list first."""
    with connected(port) as it:
        time.sleep(0.2 + size / 8_000_000)
        return min(answered(it, size) for _ in range(times))


def answered(peer, size):
    """How long the answer to a query takes."""
    room, began = bytearray(1 << 20), time.time()
    peer.sendall(RESET)
    while size > 0:
        count = peer.recv_into(room)
        if not count:
            raise SystemExit("a cache closed too early")
        size -= count
    return time.time() - began


def plain_sender(data, times=1):
    """A server that sends these bytes as soon as it is asked, from a thread of its own. Returns its port."""
    server = socket.create_server(("127.0.0.1", 0))

    def serve():
        with server:
            for _ in range(times):
                peer, _ = server.accept()
                with peer:
                    peer.recv(64)
                    peer.sendall(data)
                    peer.settimeout(5)
                    try:
                        peer.recv(64)
                    except OSError:
                        pass

    threading.Thread(target=serve, daemon=True).start()
    return server.getsockname()[1]


SENDER = "import socket,sys\ns=socket.create_server(('127.0.0.1',int(sys.argv[1])))\nd=open(sys.argv[2],'rb').read()\nc,_=s.accept()\nwhile c.recv(8): c.sendall(d)\n"


def serving(words, port, size):
    """How long a cache that is started with these words takes for its answer."""
    with open(os.devnull, "w") as nothing:
        it = subprocess.Popen(words, stdin=subprocess.DEVNULL, stdout=nothing, stderr=nothing)
        try:
            return asked(port, size, 10)
        finally:
            it.terminate()
            it.wait()


def timed(words):
    began = time.time()
    with open(os.devnull, "w") as nothing:
        status = subprocess.run(list(map(str, words)), stdin=subprocess.DEVNULL, stdout=nothing, stderr=nothing, timeout=600).returncode
    if status:
        raise SystemExit(f"{words}: status {status}")
    return time.time() - began


def memory_of(words):
    """The most memory that a command takes, in megabytes."""
    code = "import resource,subprocess,sys\nsubprocess.run(sys.argv[1:],stdout=subprocess.DEVNULL)\nprint(resource.getrusage(resource.RUSAGE_CHILDREN).ru_maxrss)"
    return int(subprocess.run([sys.executable, "-c", code, *map(str, words)], capture_output=True, text=True).stdout) / 1024


def measured(program, count):
    """The figures over a list of so many records, by name, in seconds or megabytes."""
    found = records(count)
    name, data = write("list", listed(found)), answer(found)
    sent = write("answer", data)
    route = [program, "route", "--vrps", name, "192.0.2.0/24", "64496"]
    figures = {"read and judge": best(lambda: timed(route)), "memory": memory_of(route)}

    def ours():
        port = free_port()
        return serving([program, "serve", "--port", str(port), "--session", str(SESSION), "--start", str(SERIAL), "--vrps", name, "--connections", "1"], port, len(data))

    def plain():
        port = free_port()
        return serving([sys.executable, "-c", SENDER, str(port), sent], port, len(data))

    figures["cache, ours"], figures["cache, plain sender"] = best(ours), best(plain)
    if shutil.which("stayrtr"):
        port, roas = free_port(), write("roas.json", exported(found))
        words = ["stayrtr", "-bind", f"127.0.0.1:{port}", "-cache", roas, "-checktime=false", "-metrics.addr", "", "-protocol", "1", "-rtr.expire", "7200"]
        with open(os.devnull, "w") as nothing:
            it = subprocess.Popen(words, stdout=nothing, stderr=nothing)
            try:
                time.sleep(1 + count / 60_000)
                figures["cache, StayRTR"] = best(lambda: asked(port, len(data)))
            finally:
                it.terminate()
                it.wait()
    figures["router, ours"] = best(lambda: timed([program, "fetch", "--port", plain_sender(data)]))
    if shutil.which("rtrclient"):
        figures["router, rtrclient"] = best(lambda: timed(["rtrclient", "-e", "-t", "csv", "-o", "roa.csv", "tcp", "127.0.0.1", plain_sender(data)]))
    return figures


def decoded(program):
    """Megabytes a second of the greatest payloads, with the printing of what they say."""
    entries = b"".join(element(48, element(3, b"\0" + (0x0A000000 + (it << 8)).to_bytes(4, "big")[:3])) for it in range(65536))
    roa = element(48, integer(64496) + element(48, element(48, element(4, b"\0\1") + element(48, entries))))
    files = b"".join(element(48, element(22, b"%08d.roa" % it) + element(3, b"\0" + bytes(32))) for it in range(65536))
    times = element(24, b"20250101000000Z") + element(24, b"20250102000000Z")
    manifest = element(48, integer(1) + times + bytes.fromhex("0609608648016503040201") + element(48, files))
    return {name: len(payload) / 1e6 / best(lambda: timed([program, name, write(name, payload)])) for name, payload in (("roa", roa), ("manifest", manifest))}


def machine():
    with open("/proc/cpuinfo") as it:
        model = next((line.split(":")[1].strip() for line in it if line.startswith("model name")), platform.processor())
    model = " ".join(model.replace("(R)", "").replace("Processor", "").split())
    return f"{os.cpu_count()} processors ({model}), {platform.system()} {platform.release().split('-')[0]}"


NAMES = ["cache, ours", "cache, StayRTR", "cache, plain sender", "router, ours", "router, rtrclient", "read and judge"]


def processor_time(words):
    """The seconds of a processor that a command takes, and the kernel for it."""
    with open(os.devnull, "w") as nothing:
        it = subprocess.Popen(list(map(str, words)), stdin=subprocess.DEVNULL, stdout=nothing, stderr=nothing)
        _, status, used = os.wait4(it.pid, 0)
    if status:
        raise SystemExit(f"{words}: status {status}")
    return used.ru_utime + used.ru_stime


def before_and_after(old, new, commit):
    """A section: what an older program takes beside this one, asked in turn."""
    count = 500_000
    found = records(count)
    name, data = write("list", listed(found)), answer(found)
    sent, programs = write("answer", data), {f"before ({commit[:7]})": old, "now": new}

    def served(words):
        port = free_port()
        return serving([it.format(port=port) for it in words], port, len(data))

    measures = {
        "`fetch`, processor time": lambda it: processor_time([it, "fetch", "--port", plain_sender(data)]),
        "`answer` to a Reset Query, processor time": lambda it: processor_time([it, "answer", "--session", SESSION, "--serial", SERIAL, "--vrps", name, RESET.hex()]),
        "of this the list alone (`route`)": lambda it: processor_time([it, "route", "--vrps", name, "192.0.2.0/24", "64496"]),
        "`serve`, from the query to the last byte": lambda it: served([it, "serve", "--port", "{port}", "--session", str(SESSION), "--start", str(SERIAL), "--vrps", name, "--connections", "1"]),
    }
    rows = {it: dict.fromkeys(programs, float("inf")) for it in measures}
    plain = float("inf")
    for _ in range(5):
        for what, measure in measures.items():
            for label, program in programs.items():
                rows[what][label] = min(rows[what][label], measure(program))
        plain = min(plain, served([sys.executable, "-c", SENDER, "{port}", sent]))
    lines = ["", f"Compared with an older program, over {count:,} records, alternating, the best of five, in seconds:", "", "| | " + " | ".join(programs) + " |", "|---|" + "---|" * len(programs)]
    lines += [f"| {what} | " + " | ".join(f"{it:.4f}" for it in cells.values()) + " |" for what, cells in rows.items()]
    return "\n".join([*lines, f"| a plain sender, from the query to the last byte | | {plain:.4f} |", ""])


def page(rows, speeds):
    lines = [
        "# Figures",
        "",
        f"Made by `bench/measure.py` on {time.strftime('%Y-%m-%d')}: {machine()}. Seconds, the best of three runs, in which our cache and the plain sender are asked ten times. Records are drawn at random, always the same ones, with the shares of lengths, families and ASes of the global table. A cache's time is from the Reset Query to the last byte. A router's is that of the whole command, with the writing of its table. \"Read and judge\" is `route` from a cold start over a payload list, with its peak of memory.",
        "",
        "| Records | " + " | ".join(NAMES) + " | memory |",
        "|---|" + "---|" * (len(NAMES) + 1),
    ]
    for count, figures in rows:
        cells = [f"{figures[it]:.4f}" if it in figures else "not installed" for it in NAMES]
        lines.append(f"| {count:,} | " + " | ".join(cells) + f" | {figures['memory']:.0f} MB |")
    lines += ["", f"Payloads, decoded and printed: a ROA of 65,536 entries {speeds['roa']:.1f} MB a second, a manifest of 65,536 files {speeds['manifest']:.1f} MB a second.", ""]
    return "\n".join([*lines, "![Seconds over records](figures/growth.svg)", ""])


def plot(rows, file):
    """Draws the growth, where the library is there."""
    try:
        import matplotlib
    except ImportError:
        return print("skipped: python3-matplotlib is not installed, so docs/figures/growth.svg stays as it is")
    matplotlib.use("svg")
    matplotlib.rcParams["svg.hashsalt"] = "growth"
    from matplotlib import pyplot

    figure, axes = pyplot.subplots(figsize=(8, 4.5))
    for name in NAMES:
        points = [(count, figures[name]) for count, figures in rows if name in figures]
        if points:
            axes.loglog(*zip(*points), marker="o", label=name, linewidth=2.5 if "ours" in name else 1.2)
    axes.set_xlabel("records")
    axes.set_ylabel("seconds")
    axes.grid(True, which="major", alpha=0.3)
    axes.legend(fontsize=8)
    figure.tight_layout()
    figure.savefig(file, metadata={"Date": None})


def main():
    quick, before = sys.argv[2:] == ["--quick"], sys.argv[3:] if sys.argv[2:3] == ["--before"] and len(sys.argv) == 5 else None
    if len(sys.argv) < 2 or (sys.argv[2:] and not quick and not before):
        raise SystemExit(__doc__)
    program = os.path.abspath(sys.argv[1])
    counts = [10_000, 30_000] if quick else [10_000, 30_000, 100_000, 300_000, 500_000, 1_000_000]
    old = os.path.abspath(before[0]) if before else None
    with tempfile.TemporaryDirectory() as folder:
        os.chdir(folder)
        rows = [(count, measured(program, count)) for count in counts]
        text = page(rows, decoded(program))
        if before:
            text += before_and_after(old, program, before[1])
        os.chdir("/")
    print(text)
    if not quick:
        write(f"{TOP}/docs/FIGURES.md", text)
        plot(rows, f"{TOP}/docs/figures/growth.svg")
    return 0


if __name__ == "__main__":
    sys.exit(main())
