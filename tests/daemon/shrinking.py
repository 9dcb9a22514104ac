"""A file that is far shorter than before: for how long it is refused, what is served meanwhile, and what the log and the pages say."""
import json
import time

from checks import expect
from common import put
from daemon.shared import entry_of, part
from daemon.states import banner, is_well, records, told
from log import running
from rtr import Router
from web import got

TOO_SHORT = "it has 3 VRPs, the last load had 1200: more than 90 % fewer (--max-shrink)"


def export_of(count):
    """An export of this many records. It says a time ahead of the clock, so that it does not become old."""
    return json.dumps({"metadata": {"generated": int(time.time()) + 3000}, "roas": [entry_of(*it) for it in records(count)]})


def started(given, *words):
    """A daemon that polls each second, over a file of 1,200 records or the one that is there."""
    return running(given.program, "--vrps", "list.json", *words, "--listen", "127.0.0.1:0", "--status", "127.0.0.1:0", "--check", "1")


@part
def a_short_file(given):
    """A file of 1,200 records that has 3 is refused, and what it had is served. One with a tenth of them is loaded."""
    put("list.json", export_of(1200))
    with started(given, "--max-age", "4") as daemon:
        at, port = daemon.serves()
        router = Router(at)
        router.catch_up()
        put("list.json", export_of(3))
        expect("why it is refused", daemon.wait("refused", file="list.json")["reason"], TOO_SHORT)
        daemon.wait("unwell", reason="refused", file="list.json")
        expect("a short file", told(port), ([200, 200, 200], ["refused"]))
        expect("its banner", (banner(port).startswith('bad">list.json is refused since '), "; its previous data are served. " in banner(port)), (True, True))
        expect("health while it is short", got(port, "/health")[2], "ok\n")
        daemon.wait("unwell", reason="refused_long", file="list.json")
        expect("a short file after a while", told(port), ([503, 200, 200], ["refused_long", "refused"]))
        expect("what the routers have", (len(router.catch_up()), len(Router(at).catch_up())), (1200, 1200))
        expect("how often it is reported, and what was published", (daemon.count("refused"), daemon.count("published")), (1, 1))
        put("list.json", export_of(120))
        daemon.wait("taken", file="list.json")
        daemon.wait("published", withdrawn=1080, records=120)
        daemon.wait("well", reason="refused", file="list.json")
        expect("a tenth of the records", (told(port), len(Router(at).catch_up())), (([200, 200, 200], ["shrank"]), 120))


@part
def other_percentages(given):
    """With `--max-shrink 50` half of the records must be left. With `none` a file of 3 records is loaded at once."""
    put("list.json", export_of(1200))
    with started(given, "--max-shrink", "50") as daemon:
        daemon.serves()
        put("list.json", export_of(599))
        expect("less than half", daemon.wait("refused")["reason"], "it has 599 VRPs, the last load had 1200: more than 50 % fewer (--max-shrink)")
        put("list.json", export_of(600))
        daemon.wait("published", records=600)
        put("list.json", export_of(3))
        daemon.wait("published", records=3)
        expect("refusals of a file that had 600", daemon.count("refused"), 1)
    put("list.json", export_of(1200))
    with started(given, "--max-shrink", "none") as daemon:
        at, _ = daemon.serves()
        put("list.json", export_of(3))
        daemon.wait("published", withdrawn=1197, records=3)
        expect("refusals without a guard", (daemon.count("refused"), len(Router(at).catch_up())), (0, 3))


@part
def a_short_file_stays(given):
    """A short file is loaded `--shrink-hold` seconds after its first refusal, with a warning."""
    put("list.json", export_of(1200))
    with started(given, "--shrink-hold", "60") as daemon:
        at, port = daemon.serves()
        is_well("a file of 1,200 records", port)
        began = time.monotonic()
        put("list.json", export_of(3))
        daemon.wait("refused", file="list.json")
        expect("when it is loaded", bool(daemon.find("taken", within=90, file="list.json")), True)
        lasted = time.monotonic() - began
        expect(f"after {lasted:.1f} seconds", 60 <= lasted < 70, True)
        warned = daemon.wait("warning")["reason"]
        expect("the warning", warned, "list.json: it has 3 VRPs, the last load had 1200: loaded, as it was refused for 60 seconds (--shrink-hold)")
        daemon.wait("published", withdrawn=1197, records=3)
        expect("what is served", len(Router(at).catch_up()), 3)


@part
def a_restart_with_a_short_file(given):
    """A daemon that was killed while it refused a short file loads it at its next start."""
    put("list.json", export_of(1200))
    with started(given) as daemon:
        daemon.serves()
        put("list.json", export_of(3))
        daemon.wait("refused", file="list.json")
    with started(given) as daemon:
        at, port = daemon.serves()
        is_well("after a restart", port)
        expect("what is served", (len(Router(at).catch_up()), daemon.count("refused")), (3, 0))
