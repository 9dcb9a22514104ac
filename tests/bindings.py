#!/usr/bin/env python3
"""The examples of the library for C, in C, Rust and Python, follow the daemon and judge routes as the command `route` does.

usage: tests/bindings.py LIBRARY_FOLDER DAEMON PROGRAM CLIENT.. [--routes N]

Each CLIENT is a command line that is given the cache's address and port as its last words. The daemon serves records at random; each client
judges N routes (400 unless said otherwise) in one run, before the daemon publishes another list and after it. The state of each route is that
of `PROGRAM route` over the same list, and all three states occur."""
import argparse
import concurrent.futures
import ipaddress
import json
import os
import random
import shlex
import subprocess
import sys
import tempfile

sys.path.insert(0, f"{os.path.dirname(os.path.abspath(__file__))}/lib")
from common import put
import log


def drawn(rolled, count):
    """Records: few of the first bits differ, so that many routes are covered, and not all."""
    found = set()
    while len(found) < count:
        net, longest = prefix(rolled)
        found.add((net, rolled.randint(longest, min(longest + 6, 32 if ":" not in net else 128)), rolled.choice([0, 64496, 64497, 64498])))
    return sorted(found)


def prefix(rolled):
    if rolled.random() < 0.6:
        length = rolled.randint(12, 28)
        return str(ipaddress.ip_network((10 << 24 | rolled.getrandbits(24) & 0xF0F0FF, length), strict=False)), length
    length = rolled.randint(20, 64)
    return str(ipaddress.ip_network((0x2001 << 112 | rolled.getrandbits(112) & ~(0xFFFF << 80), length), strict=False)), length


def routes_of(rolled, records, count):
    """Routes: half of them below a record, the others anywhere."""
    routes = []
    while len(routes) < count:
        net, length = prefix(rolled)
        if rolled.random() < 0.5:
            record, longest, _ = rolled.choice(records)
            above = ipaddress.ip_network(record)
            length = rolled.randint(above.prefixlen, min(longest + 2, above.max_prefixlen))
            address = int(above.network_address) | rolled.getrandbits(above.max_prefixlen - above.prefixlen)
            net = str(ipaddress.ip_network((address if above.version == 4 else ipaddress.IPv6Address(address), length), strict=False))
        routes.append((net, rolled.choice([64496, 64497, 64498, 64499, "none"])))
    return routes


def states_of(program, file, routes):
    """What `route` prints of each."""
    def one(route):
        return subprocess.run([program, "route", "--vrps", file, route[0], str(route[1])], stdout=subprocess.PIPE, text=True, check=True).stdout.strip()

    with concurrent.futures.ThreadPoolExecutor(os.cpu_count()) as pool:
        return list(pool.map(one, routes))


def told_by(client, port, routes, folder):
    words = [*shlex.split(client), "127.0.0.1", str(port)]
    text = "".join(f"{net} {origin}\n" for net, origin in routes)
    return subprocess.run(words, input=text, stdout=subprocess.PIPE, text=True, timeout=300, env={**os.environ, "LD_LIBRARY_PATH": folder}).stdout.split("\n")[:-1]


def compare(words, client, port, routes, wanted):
    """Whether a client judges as `route` does."""
    told = told_by(client, port, routes, words.library)
    wrong = [(route, mine, theirs) for route, mine, theirs in zip(routes, wanted, told) if mine != theirs]
    if wrong or len(told) != len(wanted):
        print(f"{client}: {len(told)} states of {len(wanted)}; the first that differ: {wrong[:3]}", file=sys.stderr)
    return not wrong and len(told) == len(wanted)


def main():
    parser = argparse.ArgumentParser()
    for name in ("library", "daemon", "program"):
        parser.add_argument(name)
    parser.add_argument("clients", nargs="+")
    parser.add_argument("--routes", type=int, default=400)
    words = parser.parse_args()
    words.library, words.daemon, words.program = (os.path.abspath(it) for it in (words.library, words.daemon, words.program))
    rolled, well = random.Random(11), True
    with tempfile.TemporaryDirectory() as folder:
        os.chdir(folder)
        put("list.json", "[]")
        with log.running(words.daemon, "--vrps", "list.json", "--listen", "127.0.0.1:0", "--check", "1") as daemon:
            port = daemon.listens()
            for _ in range(2):
                records = drawn(rolled, 300)
                put("list.json", json.dumps([{"asn": asn, "maxLength": longest, "prefix": net} for net, longest, asn in records]))
                daemon.wait("published", records=len(records))
                routes = routes_of(rolled, records, words.routes)
                wanted = states_of(words.program, "list.json", routes)
                well = all([compare(words, client, port, routes, wanted) for client in words.clients]) and len(set(wanted)) == 3 and well
                print(f"{len(words.clients)} clients judge {len(routes)} routes as route does: {', '.join(f'{wanted.count(it)} {it}' for it in sorted(set(wanted)))}")
    return 0 if well else 1


if __name__ == "__main__":
    sys.exit(main())
