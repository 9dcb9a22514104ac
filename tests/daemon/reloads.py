"""What is said and served after a reload: by the pages, at each listener, and of files that are links or are replaced while they are read."""
import csv
import json
import os
import time

from checks import expect
from common import put
from daemon.shared import FIRST, SECOND, entry_of, part, text_of
from log import running
from rtr import Router
from web import got, metrics_of, validity

# A route that FIRST makes valid and SECOND invalid.
ROUTE = ("198.51.100.0/26", 64497)


def told_of(port):
    """What the pages say of the set that is served: the records of each list, the counts of the metrics, and the health."""
    rows = list(csv.reader(got(port, "/vrps.csv")[2].splitlines()))[1:]
    listed = {(prefix, int(most), int(asn.removeprefix("AS"))) for asn, prefix, most in (row[:3] for row in rows)}
    export = json.loads(got(port, "/vrps.json")[2])
    exported = {(it["prefix"], it["maxLength"], int(str(it["asn"]).removeprefix("AS"))) for it in export["roas"]}
    metrics = metrics_of(port)
    counts = tuple(int(metrics[f'rpkirtrd_vrps{{family="{it}"}}']) for it in ("ipv4", "ipv6"))
    return listed, exported, export["metadata"]["generated"], counts, int(metrics["rpkirtrd_serial"]), got(port, "/health")[::2]


@part
def pages_after_a_reload(given):
    """Each page is asked before and after a reload: it says what is served then, of that serial and that time, and not what was before."""
    put("list.json", json.dumps({"metadata": {}, "roas": [entry_of(*it) for it in FIRST]}))
    words = ["--vrps", "list.json", "--listen", "127.0.0.1:0", "--status", "127.0.0.1:0", "--check", "1", "--start", "5"]
    with running(given.program, *words) as daemon:
        at, port = daemon.serves()
        listed, exported, generated, counts, serial, health = told_of(port)
        expect("the lists at first", (listed, exported), (set(FIRST), set(FIRST)))
        expect("counts, serial and health at first", (counts, serial, health), ((2, 1), 5, (200, "ok\n")))
        expect("a route at first", validity(port, *ROUTE)[0], "valid")
        time.sleep(1.1)
        put("list.json", json.dumps({"metadata": {}, "roas": [entry_of(*it) for it in SECOND]}))
        daemon.wait("published", records=len(SECOND))
        listed, exported, again, counts, serial, health = told_of(port)
        expect("the lists after it", (listed, exported), (set(SECOND), set(SECOND)))
        expect("counts, serial and health after it", (counts, serial, health), ((1, 1), 6, (200, "ok\n")))
        expect("the time of the export is a later one", again > generated, True)
        expect("a route after it", validity(port, *ROUTE)[0], "not-found")
        put("list.json", "[{")
        daemon.wait("refused", file="list.json")
        expect("what a refusal changes of the lists", told_of(port)[:2], (set(SECOND), set(SECOND)))
        expect("health with a refusal", got(port, "/health")[0], 200)
        expect("what a router gets", Router(at).catch_up(), set(SECOND))


@part
def each_listener(given):
    """A router at each of three listeners gets the same before and after a reload, is notified, and a newcomer is admitted at each."""
    words = ["--vrps", "list.json", "--check", "1"]
    for _ in range(3):
        words += ["--listen", "127.0.0.1:0"]
    with running(given.program, *words) as daemon:
        ports = [daemon.port() for _ in range(3)]
        daemon.wait("ready")
        routers = [Router(port) for port in ports]
        expect("the tables at first", [it.catch_up() for it in routers], [set(FIRST)] * 3)
        put("list.json", text_of(SECOND))
        serials = {it.wait_notify() for it in routers}
        expect("one serial is notified", len(serials), 1)
        expect("the tables after a reload", [it.catch_up() for it in routers], [set(SECOND)] * 3)
        expect("newcomers after it", [Router(port).catch_up() for port in ports], [set(SECOND)] * 3)


@part
def symbolic_links(given):
    """A link is followed: its target is written anew, it is given another target, and the folder that it leads through is swapped, as Kubernetes
    does. Each time the file that a read would open is another one, of the same size."""
    lists = [[("192.0.2.0/24", 24, asn)] for asn in (64496, 64497, 64498, 64499)]
    os.makedirs("one")
    os.makedirs("two")
    put("one/list", text_of(lists[0]))
    put("two/list", text_of(lists[3]))
    os.symlink("one", "data")
    os.symlink("data/list", "linked.json")
    with running(given.program, "--vrps", "linked.json", "--listen", "127.0.0.1:0", "--check", "1") as daemon:
        router = Router(daemon.listens())
        expect("through the link", router.catch_up(), set(lists[0]))
        put("one/list", text_of(lists[1]))
        router.wait_notify()
        expect("the target is written anew", router.catch_up(), set(lists[1]))
        put("other", text_of(lists[2]))
        os.symlink("other", "linked.new")
        os.replace("linked.new", "linked.json")
        router.wait_notify()
        expect("the link has another target", router.catch_up(), set(lists[2]))
        os.symlink("data/list", "linked.new")
        os.replace("linked.new", "linked.json")
        router.wait_notify()
        expect("the link leads through a folder again", router.catch_up(), set(lists[1]))
        os.symlink("two", "data.new")
        os.replace("data.new", "data")
        router.wait_notify()
        expect("the folder is swapped", router.catch_up(), set(lists[3]))


@part
def replaced_while_it_is_read(given):
    """A large file is replaced again and again while it is polled. What is served at the end is the last one, whole, and each table in between
    is one of those that were written."""
    large = [(f"10.{it >> 8}.{it & 255}.0/24", 24, 64496) for it in range(40000)]
    lists = [[*large, ("192.0.2.0/24", 24, 65000 + it)] for it in range(9)]
    put("list.json", text_of(lists[0]))
    with running(given.program, "--vrps", "list.json", "--listen", "127.0.0.1:0", "--check", "1") as daemon:
        router = Router(daemon.listens())
        seen = [router.catch_up()]
        for records in lists[1:]:
            put("list.json", text_of(records))
            time.sleep(0.3)
        last = set(lists[-1])
        while seen[-1] != last and len(seen) < 12:
            router.wait_notify()
            seen.append(router.catch_up())
        expect("the last table", seen[-1] == last, True)
        expect("each table was written", all(table in map(set, lists) for table in seen), True)
