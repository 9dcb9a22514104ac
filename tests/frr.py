#!/usr/bin/env python3
"""Debian's bgpd of FRR over examples/frr, beside the same bgpd over rtrlib.

usage: tests/frr.py FOLDER DAEMON [--changes N]

FOLDER has librtr.so.0 of examples/frr. Both bgpds follow the same cache: DAEMON, StayRTR if it is installed, and DAEMON started anew for each
change. After each of N changes in all (9 if none is given) both must hold the records that are served, and answer for prefixes with the same
lines. Then, over examples/frr alone: a route map that drops invalid routes of a BGP session, before and after a change; two caches of which
one fails, returns, is removed and is added again; records for 0.0.0.0/0 and ::/0, at which rtrlib aborts; a cache that knows version 0 alone.
All is on loopback and bounded in time. The status is 1 if anything differs."""
import argparse
import contextlib
import ipaddress
import json
import os
import random
import re
import shutil
import socket
import struct
import subprocess
import sys
import tempfile
import threading
import time

sys.path.insert(0, f"{os.path.dirname(os.path.abspath(__file__))}/lib")
from common import free_port, put, write

BGPD = "/usr/lib/frr/bgpd"
PATIENCE = 30
RECORD = re.compile(r"^(\S+)\s+(\d+) -\s+(\d+)\s+(\d+)$", re.M)


def records_json(records):
    """A file of rpki-client's shape."""
    return json.dumps({"metadata": {"buildtime": "2026-01-01T00:00:00Z"}, "roas": [{"prefix": prefix, "maxLength": longest, "asn": asn, "ta": "x"} for prefix, longest, asn in records]})


def drawn(random_number, count):
    """Records at random, of few prefixes, so that one change has many of the last."""
    found = set()
    while len(found) < count:
        if random_number.random() < 0.6:
            length = random_number.randint(8, 24)
            net = ipaddress.ip_network((random_number.randrange(256) << 24 | random_number.randrange(4) << 16, length), strict=False)
        else:
            length = random_number.randint(24, 48)
            net = ipaddress.ip_network((0x2001 << 112 | random_number.randrange(64) << 90, length), strict=False)
        found.add((str(net), random_number.randint(length, min(length + 8, net.max_prefixlen)), random_number.choice([0, 64496, 64497, 64498, 4200000000])))
    return sorted(found)


class Bgpd:
    """bgpd with its module for the RPKI, over the librtr of a folder, or over rtrlib."""

    def __init__(self, name, caches, library=None, more=""):
        self.folder = os.path.abspath(name)
        os.mkdir(self.folder)
        self.port = free_port()
        caches = "".join(f" rpki cache 127.0.0.1 {port} preference {number}\n" for number, port in enumerate(caches, 1))
        config = f"router bgp 64500\n bgp router-id 192.0.2.1\n no bgp ebgp-requires-policy\n{more}!\nrpki\n rpki retry_interval 1\n{caches}exit\n!\n"
        write(f"{self.folder}/bgpd.conf", config)
        words = [BGPD, "-S", "-Z", "--vty_socket", self.folder, "-i", f"{self.folder}/pid", "-f", f"{self.folder}/bgpd.conf", "-p", str(self.port)]
        words += ["-l", "127.0.0.1", "-P", "0", "-M", "bgpd_rpki", "--log", "stdout"]
        env = {**os.environ, **({"LD_LIBRARY_PATH": library} if library else {})}
        with open(f"{self.folder}/log", "w") as log:
            self.ran = subprocess.Popen(words, stdin=subprocess.DEVNULL, stdout=log, stderr=log, env=env)

    def say(self, *commands):
        """What vtysh prints for commands."""
        words = ["vtysh", "--vty_socket", self.folder, *(it for command in commands for it in ("-c", command))]
        return subprocess.run(words, stdin=subprocess.DEVNULL, stdout=subprocess.PIPE, stderr=subprocess.STDOUT, text=True, timeout=10).stdout

    def records(self):
        """The records that it holds."""
        return sorted((f"{address}/{length}", int(longest), int(asn)) for address, length, longest, asn in RECORD.findall(self.say("show rpki prefix-table")))

    def is_running(self):
        return self.ran.poll() is None

    def end(self):
        self.ran.terminate()
        with contextlib.suppress(subprocess.TimeoutExpired):
            self.ran.wait(5)
        self.ran.kill()
        self.ran.wait()


class Cache:
    """A cache over a file: the daemon, or StayRTR."""

    def __init__(self, words, port):
        self.words, self.port, self.ran = words, port, None

    def start(self):
        with open("caches.log", "a") as log:
            self.ran = subprocess.Popen(self.words, stdin=subprocess.DEVNULL, stdout=log, stderr=log)

    def end(self):
        if self.ran:
            self.ran.terminate()
            self.ran.wait()


def our_cache(daemon, file):
    port = free_port()
    return Cache([daemon, "--vrps", file, "--listen", f"127.0.0.1:{port}", "--check", "1", "--retry", "1"], port)


def stayrtr(file):
    port = free_port()
    return Cache(["stayrtr", "-bind", f"127.0.0.1:{port}", "-cache", file, "-refresh", "1", "-checktime=false", "-metrics.addr", ""], port)


class Test:
    def __init__(self, folder, daemon):
        self.folder, self.daemon, self.failed, self.started = folder, daemon, False, []

    def check(self, what, holds, *shown):
        if not holds:
            self.failed = True
            print(f"FAILED: {what}", *shown, sep="\n  ")
        return holds

    def until(self, what, test, *bgpds):
        """Waits until a test holds."""
        end = time.time() + PATIENCE
        while time.time() < end:
            if test():
                return True
            time.sleep(0.1)
        return self.check(what, False, *(it.say("show rpki prefix-table")[-600:] if it.is_running() else f"{it.folder} has ended" for it in bgpds))

    def bgpd(self, *words, **more):
        self.started.append(Bgpd(*words, **more))
        return self.started[-1]

    def begin(self, cache):
        self.started.append(cache)
        cache.start()
        return cache

    # ---- beside rtrlib

    def beside(self, name, cache, changes, restarts=False, seed=1):
        """Both bgpds hold what a cache serves, at each change."""
        rolled = random.Random(seed)
        put("beside.json", records_json(drawn(rolled, 20)))
        self.begin(cache)
        ours, theirs = self.bgpd(f"{name}-ours", [cache.port], self.folder), self.bgpd(f"{name}-rtrlib", [cache.port])
        for number in range(changes):
            records = drawn(rolled, rolled.randint(1, 60))
            if restarts:
                cache.end()
            put("beside.json", records_json(records))
            if restarts:
                cache.start()
            what = f"{name}: change {number + 1} of {len(records)} records"
            if not self.until(what, lambda: ours.records() == records and theirs.records() == records, ours, theirs):
                break
            for prefix, _, asn in rolled.sample(records, min(5, len(records))):
                question = f"show rpki prefix {prefix} {asn}"
                # (rtrlib gives the records of one prefix in the order of their arrival)
                told = [it.say(question) for it in (ours, theirs)]
                self.check(f"{what}: {question}", sorted(told[0].split("\n")) == sorted(told[1].split("\n")), *told)
        print(f"{name}: {changes} changes", flush=True)
        for it in (ours, theirs, cache):
            it.end()

    # ---- a session of BGP

    def route_map(self):
        """A route map that drops invalid routes."""
        put("map.json", records_json([("192.0.2.0/24", 24, 64496), ("198.51.100.0/24", 24, 64496)]))
        cache = self.begin(our_cache(self.daemon, "map.json"))
        neighbor = " neighbor 127.0.0.1 remote-as 64501\n neighbor 127.0.0.1 passive\n"
        family = " address-family ipv4 unicast\n  neighbor 127.0.0.1 soft-reconfiguration inbound\n  neighbor 127.0.0.1 route-map DROP in\n exit-address-family\n"
        rule = "!\nroute-map DROP deny 10\n match rpki invalid\nexit\nroute-map DROP permit 20\nexit\n"
        bgpd = self.bgpd("map", [cache.port], self.folder, more=neighbor + family + rule)
        self.until("the records for the route map", lambda: len(bgpd.records()) == 2, bgpd)
        routes = [("192.0.2.0/24", 64496), ("198.51.100.0/24", 64499), ("203.0.113.0/24", 64496)]

        def accepted():
            return sorted(json.loads(bgpd.say("show bgp ipv4 unicast json") or "{}").get("routes", {}))

        with Speaker(bgpd.port, routes):
            self.until("the invalid route is dropped", lambda: accepted() == ["192.0.2.0/24", "203.0.113.0/24"], bgpd)
            put("map.json", records_json([("192.0.2.0/24", 24, 64497), ("198.51.100.0/24", 24, 64499)]))
            self.until("a route that becomes invalid is dropped", lambda: accepted() == ["203.0.113.0/24"], bgpd)
            # (bgpd 8.4 does not judge a route again that its route map dropped)
            bgpd.say("clear bgp ipv4 unicast * soft in")
            self.until("all routes are judged again", lambda: accepted() == ["198.51.100.0/24", "203.0.113.0/24"], bgpd)
        print("route map: an invalid route is dropped, before and after a change", flush=True)
        bgpd.end()

    # ---- several caches

    def preference(self):
        """Two caches: the first fails, returns, is removed and added again."""
        first, second = [("192.0.2.0/24", 24, 1)], [("192.0.2.0/24", 24, 1), ("198.51.100.0/24", 24, 2)]
        put("first.json", records_json(first))
        put("second.json", records_json(second))
        one, two = (our_cache(self.daemon, file) for file in ("first.json", "second.json"))
        self.begin(one)
        self.begin(two)
        bgpd = self.bgpd("preference", [one.port, two.port], self.folder)
        self.until("the preferred cache", lambda: bgpd.records() == first, bgpd)
        one.end()
        self.until("the second cache", lambda: bgpd.records() == second, bgpd)
        one.start()
        self.until("the preferred cache again", lambda: bgpd.records() == first, bgpd)
        bgpd.say("configure terminal", "rpki", f"no rpki cache 127.0.0.1 {one.port} preference 1")
        self.until("the second cache, as the first is removed", lambda: bgpd.records() == second, bgpd)
        bgpd.say("configure terminal", "rpki", f"rpki cache 127.0.0.1 {one.port} preference 1")
        self.until("the preferred cache, added again", lambda: bgpd.records() == first, bgpd)
        bgpd.say("rpki reset")
        self.until("the same after a reset", lambda: bgpd.records() == first, bgpd)
        # (between both bgpd 8.4 ends at any `show rpki`, over rtrlib too)
        bgpd.say("rpki stop")
        bgpd.say("rpki start")
        self.until("the same after a stop and a start", lambda: bgpd.records() == first, bgpd)
        print("two caches: failure, return, removal, addition, reset, stop and start", flush=True)
        bgpd.end()

    def zero(self):
        """Records for 0.0.0.0/0 and ::/0."""
        records = [("0.0.0.0/0", 0, 64496), ("192.0.2.0/24", 24, 64497), ("::/0", 0, 64496)]
        put("zero.json", records_json(records))
        cache = self.begin(our_cache(self.daemon, "zero.json"))
        bgpd = self.bgpd("zero", [cache.port], self.folder)
        self.until("records of length 0", lambda: bgpd.records() == sorted(records), bgpd)
        for prefix in ("0.0.0.0/0", "::/0", "10.0.0.0/8"):
            bgpd.say(f"show rpki prefix {prefix} 64496")
        put("zero.json", records_json(records[1:2]))
        self.until("records of length 0 are withdrawn", lambda: bgpd.records() == records[1:2], bgpd)
        self.check("bgpd is still running", bgpd.is_running())
        print("records for 0.0.0.0/0 and ::/0", flush=True)
        bgpd.end()

    def version_0(self):
        """A cache that knows version 0 alone."""
        cache = self.begin(OldCache())
        bgpd = self.bgpd("version_0", [cache.port], self.folder)
        self.until("records over version 0", lambda: bgpd.records() == [("192.0.2.0/24", 24, 64496)], bgpd)
        print("a cache that knows version 0 alone", flush=True)
        bgpd.end()

    def end(self):
        for it in self.started:
            it.end()


class OldCache:
    """A cache of RFC 6810 with one record. It answers a query of version 1 with an Error Report of its own version (RFC 8210 section 7)."""

    def __init__(self):
        self.it = socket.create_server(("127.0.0.1", 0))
        self.port, self.open = self.it.getsockname()[1], []

    def start(self):
        threading.Thread(target=self.serve, daemon=True).start()

    def serve(self):
        with contextlib.suppress(OSError):
            while True:
                router = self.it.accept()[0]
                query = router.recv(8, socket.MSG_WAITALL)
                if query == bytes([0, 2, 0, 0, 0, 0, 0, 8]):
                    record = struct.pack(">BBHIBBBB4sI", 0, 4, 0, 20, 1, 24, 24, 0, socket.inet_aton("192.0.2.0"), 64496)
                    router.sendall(struct.pack(">BBHI", 0, 3, 1, 8) + record + struct.pack(">BBHII", 0, 7, 1, 12, 1))
                    self.open.append(router)
                else:
                    router.sendall(struct.pack(">BBHII", 0, 10, 4, 24, 8) + query + bytes(4))
                    router.close()

    def end(self):
        for it in [self.it, *self.open]:
            it.close()


class Speaker:
    """A BGP session that announces IPv4 routes, each with a path of the neighbour and an origin (RFC 4271)."""

    def __init__(self, port, routes):
        self.it = socket.create_connection(("127.0.0.1", port), 10)
        # (AS numbers of four bytes, RFC 6793)
        optional = bytes([2, 6, 65, 4]) + struct.pack(">I", 64501)
        self.send(1, struct.pack(">BHH4sB", 4, 64501, 180, socket.inet_aton("192.0.2.9"), len(optional)) + optional)
        self.send(4)
        while self.receive() != 4:
            pass
        for prefix, origin in routes:
            net = ipaddress.ip_network(prefix)
            path = bytes([0x40, 2, 10, 2, 2]) + struct.pack(">II", 64501, origin)
            attributes = bytes([0x40, 1, 1, 0]) + path + bytes([0x40, 3, 4]) + socket.inet_aton("192.0.2.9")
            nlri = bytes([net.prefixlen]) + net.network_address.packed[: (net.prefixlen + 7) // 8]
            self.send(2, struct.pack(">HH", 0, len(attributes)) + attributes + nlri)

    def send(self, kind, body=b""):
        self.it.sendall(b"\xff" * 16 + struct.pack(">HB", 19 + len(body), kind) + body)

    def receive(self):
        head = b""
        while len(head) < 19:
            piece = self.it.recv(19 - len(head))
            if not piece:
                raise ConnectionError("bgpd closed the session")
            head += piece
        length, kind = struct.unpack(">HB", head[16:])
        left = length - 19
        while left:
            left -= len(self.it.recv(left))
        return kind

    def __enter__(self):
        return self

    def __exit__(self, *_):
        self.it.close()


def main():
    parser = argparse.ArgumentParser()
    parser.add_argument("folder")
    parser.add_argument("daemon")
    parser.add_argument("--changes", type=int, default=9)
    words = parser.parse_args()
    test = Test(os.path.abspath(words.folder), os.path.abspath(words.daemon))
    with tempfile.TemporaryDirectory() as folder:
        os.chmod(folder, 0o755)
        os.chdir(folder)
        each = max(1, words.changes // 3)
        try:
            test.beside("rpkirtrd", our_cache(test.daemon, "beside.json"), each)
            if shutil.which("stayrtr"):
                test.beside("stayrtr", stayrtr("beside.json"), each, seed=2)
            else:
                print("stayrtr is not installed: it is left out")
            test.beside("restarts", our_cache(test.daemon, "beside.json"), each, restarts=True, seed=3)
            test.route_map()
            test.preference()
            test.zero()
            test.version_0()
        finally:
            test.end()
    return 1 if test.failed else 0


if __name__ == "__main__":
    sys.exit(main())
