"""Canonical cache representations as sources: what is served of them, when their records end, and why one is refused."""
import ipaddress
import json
import os
import subprocess
import time

from ccr_file import representation
from checks import expect
from common import PATIENCE, put
from daemon.shared import FIRST, SECOND, part, text_of
from log import running
from rtr import Router
from web import got, metrics_of

SAMPLES = os.path.realpath(f"{os.path.dirname(os.path.abspath(__file__))}/../../samples")
WORDS = ("--listen", "127.0.0.1:0", "--status", "127.0.0.1:0", "--check", "1")


def file_of(records, made):
    """The representation of these records, produced at a second."""
    found = []
    for prefix, longest, asn in records:
        network = ipaddress.ip_network(prefix)
        found.append((network.version, int(network.network_address), network.prefixlen, longest, asn))
    return representation(found, made)


@part
def representations(given):
    """A representation is served beside a list. A new one replaces it, and a spoiled one is refused with its fault."""
    made = int(time.time())
    put("rpki.ccr", file_of(FIRST, made))
    put("list.json", text_of([("10.0.0.0/8", 8, 64500)]))
    more = {("10.0.0.0/8", 8, 64500)}
    with running(given.program, "--vrps", "list.json", "--vrps", "rpki.ccr", "--max-age", "3600", *WORDS) as daemon:
        at, port = daemon.serves()
        expect("what is served", Router(at).catch_up(), {*FIRST} | more)
        put("rpki.ccr", file_of(SECOND, made))
        daemon.wait("published", records=3)
        expect("what is served of a new one", Router(at).catch_up(), {*SECOND} | more)
        spoiled = bytearray(file_of(FIRST, made))
        spoiled[-1] ^= 1
        put("rpki.ccr", bytes(spoiled))
        why = f"canonical cache representation: at byte {len(spoiled) - 34}: the hash is not the SHA-256 of the list before it (fault 24)"
        expect("why a spoiled one is refused", daemon.wait("refused", file="rpki.ccr")["reason"], why)
        expect("what is served meanwhile", Router(at).catch_up(), {*SECOND} | more)
        expect("the words on the page", "the hash is not the SHA-256 of the list before it (fault 24)" in got(port, "/")[2], True)
        put("rpki.ccr", text_of(FIRST))
        daemon.wait("taken", file="rpki.ccr")
        expect("a list in its place", Router(at).catch_up(), {*FIRST} | more)


@part
def records_end_at_the_maximum_age(given):
    """The records of a representation leave when it is older than --max-age, also while its file is bad. An old one has expired when it is read."""
    made = int(time.time())
    put("rpki.ccr", file_of(FIRST, made))
    put("old.ccr", file_of(SECOND, made - 3600))
    expired = 'rpkirtrd_file_expired_entries{file="%s"}'
    with running(given.program, "--vrps", "rpki.ccr", "--vrps", "old.ccr", "--max-age", "6", *WORDS) as daemon:
        at, port = daemon.serves()
        router = Router(at)
        expect("before", router.catch_up(), {*FIRST})
        put("rpki.ccr", b"\x30\x80")
        daemon.wait("refused", file="rpki.ccr")
        daemon.wait("published", withdrawn=3, records=0)
        expect("no sooner than it is older", time.time() >= made + 7, True)
        router.wait_notify()
        expect("after", router.catch_up(), set())
        metrics = metrics_of(port)
        expect("expired entries", [metrics.get(expired % it) for it in ("rpki.ccr", "old.ccr")], [3, 2])
        put("rpki.ccr", file_of(FIRST, int(time.time())))
        daemon.wait("published", announced=3, records=3)
        router.wait_notify()
        expect("a fresh one", router.catch_up(), {*FIRST})


@part
def refused_without_a_maximum_age(given):
    """Without --max-age a representation ends the daemon at its start, with status 1."""
    put("rpki.ccr", file_of(FIRST, int(time.time())))
    done = subprocess.run([given.program, "--vrps", "rpki.ccr", *WORDS], capture_output=True, text=True, timeout=PATIENCE)
    why = "rpki.ccr: canonical cache representation: its records have no expiry: give --max-age"
    expect("how it ends", (done.returncode, why in done.stderr), (1, True))


@part
def sample_of_rpki_client(given):
    """The file of rpki-client 9.9 has the records of its list."""
    with open(f"{SAMPLES}/list.json", encoding="utf-8") as it:
        records = {(it["prefix"], it["maxLength"], it["asn"]) for it in json.load(it)}
    with running(given.program, "--vrps", f"{SAMPLES}/rpki-client.ccr", "--max-age", "4294967295", *WORDS) as daemon:
        at, _port = daemon.serves()
        expect("what is served of it", Router(at).catch_up(), records)
