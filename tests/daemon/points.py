"""Publication points."""
import datetime
import hashlib
import ipaddress
import os
import shutil
import subprocess
import time

from checks import expect
from common import PATIENCE, put
from daemon.shared import FIRST, part, text_of
from der import element, integer
from log import running
from rtr import Router
from web import metrics_of


def roa_of(asn, records):
    """The payload of a ROA for IPv4 records, which ascend."""
    addresses = b""
    for prefix, most in records:
        network = ipaddress.ip_network(prefix)
        octets = network.network_address.packed[: (network.prefixlen + 7) // 8]
        bits = element(3, bytes([-network.prefixlen % 8]) + octets)
        addresses += element(48, bits if most == network.prefixlen else bits + element(2, bytes([most])))
    family = element(48, element(4, b"\0\1") + element(48, addresses))
    return element(48, integer(asn) + element(48, family))


def manifest_of(number, begin, end, files):
    """The payload of a manifest of this number, from one second to another, that lists these files."""
    times = b"".join(element(24, datetime.datetime.fromtimestamp(it, datetime.timezone.utc).strftime("%Y%m%d%H%M%SZ").encode()) for it in (begin, end))
    listed = b"".join(element(48, element(22, name.encode()) + element(3, b"\0" + hashlib.sha256(content).digest())) for name, content in files.items())
    return element(48, element(2, bytes([number])) + times + element(6, bytes.fromhex("608648016503040201")) + element(48, listed))


def put_point(number, until, asn, records, is_spoiled=False, name="point"):
    """Replaces a publication point: a manifest of this number up to a second, and one ROA. The payload of the ROA serves as its object too."""
    roa = roa_of(asn, records)
    now = int(time.time())
    for folder in f"{name}.new/objects", f"{name}.new/contents":
        os.makedirs(folder)
        with open(f"{folder}/a.roa", "wb") as it:
            it.write(roa)
    with open(f"{name}.new/manifest.der", "wb") as it:
        it.write(manifest_of(number, now - 60 + number, until, {"a.roa": roa + b"x" if is_spoiled else roa}))
    if os.path.exists(name):
        os.rename(name, f"{name}.{time.time_ns()}")
    os.rename(f"{name}.new", name)


@part
def points(given):
    """A publication point beside a file. What is accepted is served, a refusal changes nothing, and the records leave at nextUpdate."""
    put("list.json", text_of(FIRST[2:]))
    hour = int(time.time()) + 3600
    put_point(1, hour, 64496, [("192.0.2.0/24", 24)])
    with running(given.program, "--points", "point", "--vrps", "list.json", "--listen", "127.0.0.1:0", "--check", "1") as daemon:
        router = Router(daemon.listens())
        expect("a point and a file", router.catch_up(), {*FIRST[2:], ("192.0.2.0/24", 24, 64496)})
        put_point(2, hour, 64496, [("192.0.2.0/24", 25), ("198.51.100.0/24", 24)])
        daemon.wait("published", announced=2, withdrawn=1, records=3)
        router.wait_notify()
        second = {*FIRST[2:], ("192.0.2.0/24", 25, 64496), ("198.51.100.0/24", 24, 64496)}
        expect("the next manifest", router.catch_up(), second)
        put_point(1, hour, 64496, [("192.0.2.0/24", 24)])
        expect("an older manifest", daemon.wait("refused", file="point")["reason"].startswith("the manifest"), True)
        put_point(3, hour, 64496, [("192.0.2.0/24", 26)])
        daemon.wait("taken", file="point")
        daemon.wait("published", records=2)
        put_point(4, hour, 64496, [("192.0.2.0/24", 24)], is_spoiled=True)
        daemon.wait("refused", file="point")
        third = {*FIRST[2:], ("192.0.2.0/24", 26, 64496)}
        expect("a point whose file does not hash", router.catch_up(), third)
        put_point(5, int(time.time()) + 4, 64496, [("192.0.2.0/24", 24)])
        daemon.wait("taken", file="point")
        daemon.wait("published", announced=1, withdrawn=1)
        daemon.wait("published", withdrawn=1, records=1)
        expect("a point whose time is over", router.catch_up(), set(FIRST[2:]))
    status = subprocess.run([given.program, "--points", "nowhere", "--listen", "127.0.0.1:0"], stdin=subprocess.DEVNULL, capture_output=True, timeout=PATIENCE)
    expect("a point that is not there", (status.returncode, b"nowhere" in status.stderr), (3, True))
    for left in "objects", "manifest.der":
        os.rename(f"point/{left}", f"point/{left}.away")
        status = subprocess.run([given.program, "--points", "point", "--listen", "127.0.0.1:0"], stdin=subprocess.DEVNULL, capture_output=True, text=True, timeout=PATIENCE)
        expect(f"a point without {left}", (status.returncode, f"{left}: No such file or directory" in status.stderr), (3, True))


@part
def two_points(given):
    """Two publication points, each by its own manifests: the second's numbers do not count for the first."""
    hour = int(time.time()) + 3600
    put_point(7, hour, 64496, [("192.0.2.0/24", 24)], name="one")
    put_point(3, hour, 64497, [("198.51.100.0/24", 26)], name="two")
    with running(given.program, "--points", "one", "--points", "two", "--listen", "127.0.0.1:0", "--check", "1", "--status", "127.0.0.1:0") as daemon:
        at, port = daemon.serves()
        router = Router(at)
        expect("two points", router.catch_up(), {("192.0.2.0/24", 24, 64496), ("198.51.100.0/24", 26, 64497)})
        put_point(4, hour, 64497, [("198.51.100.0/24", 25)], name="two")
        daemon.wait("published", announced=1, withdrawn=1)
        put_point(6, hour, 64496, [("192.0.2.0/24", 25)], name="one")
        daemon.wait("refused", file="one")
        expect("an older manifest of one", router.catch_up(), {("192.0.2.0/24", 24, 64496), ("198.51.100.0/24", 25, 64497)})
        metrics = metrics_of(port)
        expect("refused points in the metrics", [metrics.get(it) for it in ('rpkirtrd_file_refused{file="one"}', 'rpkirtrd_file_refused{file="two"}', 'rpkirtrd_reloads_total{result="refused"}')], [1, 0, 1])


@part
def point_gone(given):
    """The records of a publication point that is gone stay until its nextUpdate, and no longer."""
    put_point(1, int(time.time()) + 4, 64496, [("192.0.2.0/24", 24)])
    put("list.json", text_of(FIRST[2:]))
    with running(given.program, "--points", "point", "--vrps", "list.json", "--listen", "127.0.0.1:0", "--check", "1") as daemon:
        router = Router(daemon.listens())
        shutil.rmtree("point")
        daemon.wait("refused", file="point")
        expect("a point that is gone", router.catch_up(), {*FIRST[2:], ("192.0.2.0/24", 24, 64496)})
        daemon.wait("expired", file="point", entries=1)
        daemon.wait("published", withdrawn=1, records=len(FIRST[2:]))
        expect("a point that is gone, after its nextUpdate", router.catch_up(), set(FIRST[2:]))
