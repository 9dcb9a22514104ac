"""The state of the daemon: the reasons why it is not well, in the log, on the page, at /health, /ready and /live, and in the metrics."""
import json
import os
import time

from checks import expect
from common import put
from daemon.shared import EXCEPTIONS, FIRST, entry_of, part, text_of
from log import running
from rtr import Router
from web import got, metrics_of

REASONS = ("no_vrps", "publication", "old", "refused_long", "no_version", "refused", "shrank", "turned_away", "slow_poll", "clock")


def told(port):
    """The statuses of /health, /ready and /live, and the reasons that the metrics have."""
    metrics = metrics_of(port)
    reasons = [it for it in REASONS if metrics[f'rpkirtrd_unwell{{reason="{it}"}}']]
    return [got(port, path)[0] for path in ("/health", "/ready", "/live")], reasons


def banner(port):
    """The banner of the page."""
    return got(port, "/")[2].partition('<p class="state ')[2].partition("</p>")[0]


def is_well(what, port):
    expect(what, told(port), ([200, 200, 200], []))
    expect(f"the banner: {what}", banner(port).startswith('ok">All is well.'), True)


@part
def an_empty_table(given):
    """A list that becomes empty, beside local exceptions that assert a record."""
    exceptions = json.loads(json.dumps(EXCEPTIONS))
    exceptions["locallyAddedAssertions"]["prefixAssertions"] = [{"asn": 64501, "prefix": "10.0.0.0/8"}]
    put("slurm.json", json.dumps(exceptions))
    with running(given.program, "--vrps", "list.json", "--slurm", "slurm.json", "--listen", "127.0.0.1:0", "--status", "127.0.0.1:0", "--check", "1") as daemon:
        at, port = daemon.serves()
        is_well("a table with records", port)
        for text in "[]", '{"roas":[]}':
            put("list.json", text)
            daemon.wait("unwell", reason="no_vrps")
            expect("an empty table", told(port), ([503, 503, 200], ["no_vrps"]))
            expect("the text of its health", got(port, "/health")[2], "no VRPs are served\n")
            expect("the text of /ready", got(port, "/ready")[2], "no VRPs are served\n")
            expect("its banner", banner(port), 'bad">No VRPs are served. ')
            metrics = metrics_of(port)
            expect("what is given", (metrics["rpkirtrd_given_vrps"], metrics['rpkirtrd_source_vrps{source="list.json",ta=""}']), (0, 0))
            expect("what is served", Router(at).catch_up(), {("10.0.0.0/8", 8, 64501)})
            put("list.json", text_of(FIRST))
            daemon.wait("well", reason="no_vrps")
            is_well("records are back", port)
        expect("how many lines there are", (daemon.count("unwell"), daemon.count("well")), (2, 2))


@part
def all_entries_expired(given):
    """The entries of one of two files expire, the last one too."""
    until = int(time.time()) + 3
    put("export.json", json.dumps({"roas": [entry_of("203.0.113.0/24", 24, 64500, expires=until), entry_of("203.0.113.0/25", 25, 64500, expires=until)]}))
    with running(given.program, "--vrps", "list.json", "--vrps", "export.json", "--listen", "127.0.0.1:0", "--status", "127.0.0.1:0", "--check", "1") as daemon:
        _, port = daemon.serves()
        daemon.wait("unwell", reason="old", file="export.json")
        expect("a file whose entries have expired", told(port), ([503, 200, 200], ["old"]))
        expect("the text of its health", got(port, "/health")[2], "export.json: all its entries have expired\n")
        expect("the VRPs of sources", [metrics_of(port)[f'rpkirtrd_source_vrps{{source="{name}",ta="{ta}"}}'] for name, ta in (("list.json", ""), ("export.json", "x"))], [3, 0])
        put("export.json", json.dumps({"roas": [entry_of("203.0.113.0/24", 24, 64500, expires=until + 3600)]}))
        daemon.wait("well", reason="old", file="export.json")
        is_well("entries that have not expired", port)


@part
def a_refused_source(given):
    """A source that is refused, first for a short and then for a long time. Its previous data are served."""
    put("list.json", json.dumps({"metadata": {"generated": int(time.time()) + 3000}, "roas": [entry_of(*it) for it in FIRST]}))
    put("slurm.json", json.dumps(EXCEPTIONS))
    with running(given.program, "--vrps", "list.json", "--slurm", "slurm.json", "--max-age", "4", "--listen", "127.0.0.1:0", "--status", "127.0.0.1:0", "--check", "1") as daemon:
        _, port = daemon.serves()
        put("slurm.json", "[")
        daemon.wait("unwell", reason="refused", file="slurm.json")
        expect("a refused source", told(port), ([200, 200, 200], ["refused"]))
        expect("its banner", (banner(port).startswith('bad">slurm.json is refused since '), "; its previous data are served. " in banner(port)), (True, True))
        expect("health while it is short", got(port, "/health")[2], "ok\n")
        daemon.wait("unwell", reason="refused_long", file="slurm.json")
        expect("a source that was refused for long", told(port), ([503, 200, 200], ["refused_long", "refused"]))
        text = got(port, "/health")[2]
        expect("the text of its health", (text.startswith("slurm.json: refused since "), text.endswith("; its previous data are served\n")), (True, True))
        put("slurm.json", json.dumps(EXCEPTIONS))
        daemon.wait("well", reason="refused_long", file="slurm.json")
        daemon.wait("well", reason="refused", file="slurm.json")
        is_well("a source that is loaded again", port)


def records(count):
    return [(f"10.{it >> 8}.{it & 255}.0/24", 24, 64496) for it in range(count)]


def of_anchors(ripe, others=4000):
    """An export with this many records of ripe, and of arin."""
    listed = [(f"10.{it >> 8}.{it & 255}.0/24", "ripe") for it in range(ripe)] + [(f"11.{it >> 8}.{it & 255}.0/24", "arin") for it in range(others)]
    return json.dumps({"roas": [entry_of(prefix, 24, 64496, ta=anchor) for prefix, anchor in listed] + [entry_of("12.0.0.0/24", 24, 64496, ta=None)]})


def by_anchor(port):
    """The VRPs of the export by trust anchor."""
    metrics = metrics_of(port)
    return {ta: metrics.get(f'rpkirtrd_source_vrps{{source="export.json",ta="{ta}"}}') for ta in ("ripe", "arin", "")}


@part
def a_shrunken_anchor(given):
    """A trust anchor of an export keeps half of its records, loses one more, and then all. The table hardly shrinks."""
    put("export.json", of_anchors(1000))
    with running(given.program, "--vrps", "export.json", "--max-shrink", "none", "--listen", "127.0.0.1:0", "--status", "127.0.0.1:0", "--check", "1") as daemon:
        _, port = daemon.serves()
        expect("two trust anchors", by_anchor(port), {"ripe": 1000, "arin": 4000, "": 1})
        put("export.json", of_anchors(500))
        daemon.wait("published", records=4501)
        is_well("half of them", port)
        put("export.json", of_anchors(499))
        daemon.wait("unwell", reason="shrank", file="export.json")
        expect("one less than half", told(port), ([200, 200, 200], ["shrank"]))
        expect("its banner", "export.json: ripe shrank from 1" in banner(port), True)
        put("export.json", of_anchors(0))
        daemon.wait("published", records=4001)
        expect("a trust anchor that vanished", by_anchor(port), {"ripe": 0, "arin": 4000, "": 1})
        status = json.loads(got(port, "/api/v1/status")[2])
        expect("the status in Routinator's form", (status["tals"]["arin"]["vrpsTotal"], status["version"].startswith("rpkirtrd/")), (4000, True))
        put("export.json", of_anchors(1000))
        daemon.wait("well", reason="shrank", file="export.json")
        is_well("all of them again", port)


@part
def a_shrunken_table(given):
    """A table that loses a fifth, and then one record more."""
    put("list.json", text_of(records(1000)))
    with running(given.program, "--vrps", "list.json", "--listen", "127.0.0.1:0", "--status", "127.0.0.1:0", "--check", "1") as daemon:
        _, port = daemon.serves()
        put("list.json", text_of(records(800)))
        daemon.wait("published", records=800)
        is_well("four fifths", port)
        put("list.json", text_of(records(799)))
        daemon.wait("unwell", reason="shrank")
        expect("less than four fifths", told(port), ([200, 200, 200], ["shrank"]))
        expect("its banner", banner(port).startswith('bad">The table shrank from 1\u202f000 to 799 VRPs at '), True)
        put("list.json", text_of(records(801)))
        daemon.wait("well", reason="shrank")
        is_well("more than four fifths", port)


@part
def routers_turned_away(given):
    """Routers that are disconnected on arrival, by each of the two limits."""
    for option, words in ("--clients", ["--clients", "1"]), ("--clients-per-address", ["--clients-per-address", "1"]):
        with running(given.program, "--vrps", "list.json", *words, "--listen", "127.0.0.1:0", "--status", "127.0.0.1:0", "--check", "1") as daemon:
            at, port = daemon.serves()
            first = Router(at)
            first.catch_up()
            expect("a second router", Router(at).socket.recv(1), b"")
            daemon.wait("unwell", reason="turned_away")
            expect("a router was turned away", told(port), ([200, 200, 200], ["turned_away"]))
            expect("its banner", f"Routers were turned away by {option}: 1, the last at " in banner(port), True)


@part
def old_data(given):
    """Data that become older than --max-age. The file's name stands in the banner."""
    made = time.time() - 3597
    os.utime("list.json", (made, made))
    with running(given.program, "--vrps", "list.json", "--max-age", "3600", "--listen", "127.0.0.1:0", "--status", "127.0.0.1:0", "--check", "1") as daemon:
        _, port = daemon.serves()
        daemon.wait("unwell", reason="old", file="list.json")
        expect("old data", told(port), ([503, 200, 200], ["old"]))
        expect("its banner", banner(port), 'bad">list.json: its data are older than the maximum age. ')
        put("list.json", text_of(FIRST))
        daemon.wait("well", reason="old", file="list.json")
        is_well("new data", port)
