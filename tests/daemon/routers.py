"""What routers are sent: the table in both versions, changes, notifies, and Error Reports."""
import contextlib
import json
import select
import time

from checks import expect
from common import PATIENCE, put
from daemon.shared import FIRST, SECOND, entry_of, part, text_of
from log import running, unescaped, values_of
from rtr import CACHE_RESET, RESPONSE, Router, error_report, reset_query, serial_query
from web import metrics_of


@part
def tables(given):
    """The whole table in both versions of the protocol, and changes on the same connection."""
    put("list.json", text_of(FIRST))
    with running(given.program, "--vrps", "list.json", "--listen", "127.0.0.1:0", "--session", "4660", "--session0", "4661", "--start", "5", "--check", "1", "--keep", "2") as daemon:
        port = daemon.listens()
        one, zero = Router(port), Router(port, version=0)
        for router, session in (one, 4660), (zero, 4661):
            expect("the first answer", (router.ask(), router.session, router.serial, router.table), (RESPONSE, session, 5, set(FIRST)))
        raw = Router(port)
        raw.socket.sendall(reset_query())
        wanted = "0103123400000008" + "010400000000001401181800c00002000000fbf0" + "010400000000001401181a00c63364000000fbf1"
        wanted += "01060000000000200120300020010db80000000000000000000000000000fbf2" + "01071234000000180000000500000e100000025800001c20"
        expect("the bytes of an answer", raw.receive(len(wanted) // 2).hex(), wanted)
        put("list.json", text_of(SECOND))
        expect("what is published", daemon.wait("published", serial=6)["announced"], "1")
        for router in one, zero:
            expect("the notify", router.wait_notify(), 6)
            expect("the change", (router.ask(), router.serial, router.table), (RESPONSE, 6, set(SECOND)))
        for serial in range(7, 10):
            put("list.json", text_of(FIRST if serial % 2 else SECOND))
            daemon.wait("published", serial=serial)
        expect("a serial that is not kept", (raw_serial(port, 4660, 5), raw_serial(port, 4660, 7)), (CACHE_RESET, RESPONSE))
        expect("the end by a signal", daemon.end(), -15)


def raw_serial(port, session, serial):
    router = Router(port)
    router.session, router.serial, router.table = session, serial, set(FIRST) | set(SECOND)
    router.socket.sendall(serial_query(session, serial))
    return router.unit()[0]


@part
def asked_first(given):
    """A router is notified only after its first whole query."""
    put("list.json", text_of(FIRST))
    with running(given.program, "--vrps", "list.json", "--listen", "127.0.0.1:0", "--check", "1") as daemon:
        port = daemon.listens()
        silent, half, router = Router(port), Router(port), Router(port)
        half.socket.sendall(bytes.fromhex("0102000000"))
        router.catch_up()
        put("list.json", text_of(SECOND))
        router.wait_notify()
        for what, other in ("silent", silent), ("that sent half a query", half):
            other.socket.settimeout(2)
            try:
                found = other.socket.recv(100)
            except TimeoutError:
                found = None
            expect(f"what a router {what} is sent", found, None)
            other.socket.settimeout(PATIENCE)
        half.socket.sendall(bytes.fromhex("000008"))
        expect("the answer to the whole query", half.answer(), RESPONSE)
        expect("the table of a router that asked late", half.table, set(SECOND))
        put("list.json", text_of(FIRST))
        half.wait_notify()
        expect("the next table", half.catch_up(), set(FIRST))


@part
def early_routers(given):
    """A router that asks before the first version is accepted after it, and gets the whole table. It gets no Error Report."""
    early = 0
    for _ in range(20):
        with running(given.program, "--vrps", "list.json", "--listen", "127.0.0.1:0") as daemon:
            port = daemon.port()
            routers = [Router(port), Router(port, version=0)]
            for router in routers:
                router.socket.sendall(reset_query(router.version))
            early += not daemon.count("ready")
            for router in routers:
                expect("the answer to an early query", (router.answer(), router.table), (RESPONSE, set(FIRST)))
            daemon.wait("client-came")
            expect("the last events", [values_of(line)["event"] for line in daemon.said[-2:]], ["ready", "client-came"])
            if early == 3:
                return
    expect("queries before the first version", early, 3)


@part
def paced(given):
    """Notifies come at most once a second, though the list changes ten times a second and an entry expires in each."""
    begin = int(time.time()) + 4
    put("export.json", json.dumps({"roas": [entry_of(f"10.0.{it}.0/24", 24, 64500, expires=begin + it) for it in range(8)]}))
    with running(given.program, "--vrps", "list.json", "--vrps", "export.json", "--listen", "127.0.0.1:0", "--check", "1") as daemon:
        router = Router(daemon.listens())
        router.catch_up()
        serials, moments, asn = [], [], 64496
        while time.time() < begin + 8:
            asn += 1
            put("list.json", text_of([("192.0.2.0/24", 24, asn)]))
            if select.select([router.socket], [], [], 0.1)[0]:
                serials.append(router.wait_notify())
                moments.append(time.monotonic())
        span = moments[-1] - moments[0]
        expect("the serials of the notifies", serials, sorted(set(serials)))
        expect(f"{len(serials)} notifies in {span:.2f} seconds, and at most one a second", 4 <= len(serials) - 1 <= span + 0.5, True)


@part
def last_words(given):
    """An Error Report of a router is counted, though its connection ends by it."""
    put("list.json", text_of(FIRST))
    with running(given.program, "--vrps", "list.json", "--listen", "127.0.0.1:0", "--status", "127.0.0.1:0") as daemon:
        at, port = daemon.serves()
        router = Router(at)
        router.catch_up()
        router.socket.sendall(error_report(3))
        report = daemon.wait("error-report")
        expect("a report without a text", [report[it] for it in ("direction", "code", "name", "text")], ["received", "3", "Invalid Request", ""])
        daemon.wait("client-gone")
        metrics = metrics_of(port)
        expect("the Error Reports that are counted", metrics['rpkirtrd_pdus_total{type="error_report",direction="received"}'], 1)
        expect("the bytes that are counted", metrics['rpkirtrd_bytes_total{direction="received"}'], 8 + 16)
        router = Router(at)
        router.catch_up()
        said = "no such record \x1b[2J ".encode() + b"x" * 300
        router.socket.sendall(error_report(6, bytes(8), said))
        report = daemon.wait("error-report", direction="received", code=6)
        expect("the text of a report", (report["name"], unescaped(report["text"])), ("Withdrawal of Unknown Record", said[:200].decode()))
        router = Router(at)
        router.send(99, 0)
        report = daemon.wait("error-report", direction="sent")
        expect("a report that the cache sent", (report["code"], report["name"]), ("5", "Unsupported PDU Type"))


VERSION_2 = bytes.fromhex("0202000000000008")


def is_refused_in_2(port, what):
    """A router asks in version 2 first, as BIRD 3.4 does."""
    with contextlib.closing(Router(port)) as router:
        router.socket.sendall(VERSION_2)
        expect(f"the answer to version 2 {what}", router.receive(24).hex(), "010a00040000001800000008" + VERSION_2.hex() + "00000000")
        expect(f"its end {what}", router.socket.recv(1), b"")


@part
def version_2(given):
    """A router that asks in version 2 is refused, and comes again in version 1. That is no warning, and nothing was agreed on."""
    put("list.json", text_of(FIRST))
    with running(given.program, "--vrps", "list.json", "--listen", "127.0.0.1:0", "--status", "127.0.0.1:0", "--log", "json") as daemon:
        at, port = daemon.serves()
        is_refused_in_2(at, "at first")
        report = daemon.wait("error-report")
        expect("the line of the refusal", [report.get(it) for it in ("level", "direction", "code", "name", "asked", "text")], ["info", "sent", 4, "Unsupported Protocol Version", 2, None])
        gone = daemon.wait("client-gone", why="ended")
        expect("the version that was agreed on", gone["version"], None)
        with contextlib.closing(Router(at)) as router:
            expect("the table in version 1", router.catch_up(), set(FIRST))
            router.socket.sendall(bytes.fromhex("0002000000000008"))
        expect("the end in version 1", daemon.wait("client-gone")["version"], 1)
        report = [it for it in map(values_of, list(daemon.lines)) if it.get("event") == "error-report"][1]
        expect("the report on another version", [report.get(it) for it in ("level", "code", "asked")], ["warning", 8, None])
        with contextlib.closing(Router(at, version=0)) as router:
            router.catch_up()
            router.socket.sendall(VERSION_2)
        expect("the end in version 0", daemon.wait("client-gone")["version"], 0)
        report = [it for it in map(values_of, list(daemon.lines)) if it.get("event") == "error-report"][2]
        expect("the report on version 2 after version 0", [report.get(it) for it in ("level", "code", "asked")], ["warning", 4, None])
        with contextlib.closing(Router(at)) as router:
            router.catch_up()
            router.socket.sendall(error_report(7, b"", b"twice"))
            expect("the end after a report", router.socket.recv(1), b"")
        daemon.wait("client-gone")
        metrics = metrics_of(port)
        wanted = {("sent", "4"): 2, ("sent", "8"): 1, ("received", "7"): 1}
        counted = {(direction, code): metrics[f'rpkirtrd_error_reports_total{{direction="{direction}",code="{code}"}}'] for direction in ("received", "sent") for code in [*"012345678", "other"]}
        expect("the reports by code", {key: it for key, it in counted.items() if it}, wanted)


@part
def once(given):
    """With --once a connection on which no version was agreed is not the one: the router comes again, is served, and then the daemon ends."""
    put("list.json", text_of(FIRST))
    with running(given.program, "--vrps", "list.json", "--listen", "127.0.0.1:0", "--once") as daemon:
        port = daemon.listens()
        is_refused_in_2(port, "of one router")
        daemon.wait("client-gone", version="none")
        Router(port).close()
        daemon.wait("client-gone", version="none")
        with contextlib.closing(Router(port)) as router:
            expect("the one router", router.catch_up(), set(FIRST))
        daemon.wait("client-gone", version=1)
        expect("the end of the daemon", daemon.status(), 0)
