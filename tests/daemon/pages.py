"""The pages, and their visitors."""
import concurrent.futures
import contextlib
import email.utils
import http.client
import ipaddress
import json
import random
import shutil
import socket
import subprocess
import time

from checks import expect
from common import PATIENCE, free_port, put
from daemon.shared import FIRST, SECOND, Skipped, part, text_of
from log import running, unescaped
from rtr import Router
from web import got, linted, metrics_of, raw_answer, validity


def state_of(prefix, asn, records):
    """The state of a route by RFC 6811 section 2, and the covering records in their three kinds."""
    route, kinds = ipaddress.ip_network(prefix), {"matched": [], "unmatched_as": [], "unmatched_length": []}
    for text, most, origin in records:
        network = ipaddress.ip_network(text)
        if network.version == route.version and route.subnet_of(network):
            kind = "unmatched_length" if route.prefixlen > most else "matched" if origin == asn != 0 else "unmatched_as"
            kinds[kind].append((text, most, origin))
    state = "valid" if kinds["matched"] else "invalid" if any(kinds.values()) else "not-found"
    return state, {kind: sorted(found) for kind, found in kinds.items()}


@part
def pages(given):
    """The pages and the metrics, with visitors of all kinds beside routers."""
    near = [(f"192.0.{it}.0/24", 24 + it % 3, 64496 + it % 5) for it in range(8)] + [("192.0.0.0/16", 20, 64496), ("192.0.2.0/24", 26, 0), ("2001:db8::/32", 48, 64498)]
    put("list.json", text_of(near))
    words = ["--vrps", "list.json", "--listen", "127.0.0.1:0", "--check", "1", "--session", "4660", "--start", "5", "--status", "127.0.0.1:0"]
    with running(given.program, *words) as daemon:
        at, port = daemon.serves()
        routers = [Router(at), Router(at, version=0)]
        for router in routers:
            router.catch_up()
        metrics = metrics_of(port)
        wanted = {'rpkirtrd_vrps{family="ipv4"}': 10, 'rpkirtrd_vrps{family="ipv6"}': 1, "rpkirtrd_serial": 5, 'rpkirtrd_session{version="1"}': 4660, "rpkirtrd_clients": 2}
        wanted |= {'rpkirtrd_pdus_total{type="reset_query",direction="received"}': 2, 'rpkirtrd_pdus_total{type="ipv4_prefix",direction="sent"}': 20}
        expect("the metrics", {name: metrics.get(name) for name in wanted}, wanted)
        routers.pop().close()
        daemon.wait("client-gone")
        metrics = metrics_of(port)
        expect("the metrics after a client", (metrics["rpkirtrd_clients"], metrics['rpkirtrd_pdus_total{type="ipv4_prefix",direction="sent"}']), (1, 20))
        listed = json.loads(got(port, "/list.json")[2])
        expect("the payload list", {(it["prefix"], it["maxLength"], it["asn"]) for it in listed}, set(near))
        lists(port, listed)
        choice = random.Random(7)
        for _ in range(200):
            length = choice.randrange(16, 29)
            prefix = str(ipaddress.ip_network((0xC0000000 | choice.randrange(8) << 8 | choice.randrange(256), length), strict=False))
            asn = choice.choice([0, 64496, 64497, 64499])
            expect(f"the state of {prefix} {asn}", validity(port, prefix, asn), state_of(prefix, asn, near))
        page = got(port, "/")
        expect("the page", (page[0], page[1]["content-type"], "4660" in page[2], "<script" in page[2]), (200, "text/html; charset=utf-8", True, False))
        expect("the date of an answer", abs(email.utils.parsedate_to_datetime(page[1]["date"]).timestamp() - time.time()) < 30, True)
        for target, method, status in ("/nothing", "GET", 404), ("/metrics", "POST", 405), ("/validity?asn=1", "GET", 400), ("/metrics", "HEAD", 200):
            expect(f"{method} {target}", got(port, target, method)[0], status)
        strange_visitors(port)
        crowded(at, port, daemon)
        put("list.json", text_of(near[:5]))
        daemon.wait("published", serial=6)
        expect("the next payload list", len(json.loads(got(port, "/list.json")[2])), 5)
        expect("the metrics of the next version", metrics_of(port)["rpkirtrd_serial"], 6)


def lists(port, listed):
    """The other forms of a payload list, and the answers to one that has it already."""
    status, headers, body = got(port, "/vrps.json")
    export = json.loads(body)
    expect("the export", (status, export["roas"], export["metadata"]["vrps"]), (200, listed, len(listed)))
    expect("the time of the export", abs(export["metadata"]["generated"] - time.time()) < 600, True)
    expect("the export again", got(port, "/vrps.json", given={"If-None-Match": headers["etag"]})[::2], (304, ""))
    expect("the state of health", got(port, "/health")[::2], (200, "ok\n"))
    expect("a route as a page", got(port, "/validity?asn=1&prefix=10.0.0.0/8", given={"Accept": "text/html"})[1]["content-type"], "text/html; charset=utf-8")
    expect("a route by its path", json.loads(got(port, "/api/v1/validity/AS1/10.0.0.0/8")[2])["validated_route"]["validity"]["state"], "not-found")


@part
def chained(given):
    """Another cache serves what this one answers at /vrps.json: rpkirtrd, and StayRTR if it is installed."""
    put("list.json", text_of(FIRST))
    with running(given.program, "--vrps", "list.json", "--listen", "127.0.0.1:0", "--status", "127.0.0.1:0") as daemon:
        _, port = daemon.serves()
        put("export.json", got(port, "/vrps.json")[2])
        expect("the export under the path of StayRTR", got(port, "/rpki.json")[2], got(port, "/vrps.json")[2])
        roas = json.loads(got(port, "/json")[2])["roas"]
        tables = [got(port, path)[2].splitlines() for path in ("/vrps.csv", "/csv")]
    expect("the records of Routinator", sorted((it["prefix"], it["maxLength"], it["asn"]) for it in roas), sorted((prefix, most, f"AS{asn}") for prefix, most, asn in FIRST))
    for lines, heads, end in zip(tables, ("ASN,IP Prefix,Max Length", "ASN,IP Prefix,Max Length,Trust Anchor"), ("", ",")):
        expect("the CSV", (lines[0], sorted(lines[1:])), (heads, sorted(f"AS{asn},{prefix},{most}{end}" for prefix, most, asn in FIRST)))
    with running(given.program, "--vrps", "export.json", "--max-age", "3600", "--listen", "127.0.0.1:0") as daemon:
        expect("the table from rpkirtrd", Router(daemon.listens()).catch_up(), set(FIRST))
    if shutil.which("stayrtr"):
        port = free_port()
        words = ["-bind", f"127.0.0.1:{port}", "-cache", "export.json", "-metrics.addr", "", "-checktime=false"]
        with subprocess.Popen(["stayrtr", *words], stdout=subprocess.DEVNULL, stderr=subprocess.DEVNULL) as ran:
            expect("the table from StayRTR", table_at(port, len(FIRST)), set(FIRST))
            ran.kill()


def table_at(port, count):
    """The table of a router at a cache that is starting, once it has this many records."""
    end = time.time() + PATIENCE
    while time.time() < end:
        with contextlib.suppress(OSError, EOFError):
            table = Router(port).catch_up()
            if len(table) == count:
                return table
        time.sleep(0.1)
    return set()


def strange_visitors(port):
    """Requests that are cut, huge, slow or pipelined, and visitors that send none."""
    expect("a request that is cut", raw_answer(port, b"GET /metrics HT")[:12], b"HTTP/1.1 400")
    huge = raw_answer(port, b"GET /" + b"x" * 20000 + b" HTTP/1.1\r\nHost: localhost\r\n\r\n")
    expect("a request that is huge", huge[:12] in (b"HTTP/1.1 414", b"HTTP/1.1 431", b"HTTP/1.1 400", b""), True)
    expect("rubbish", raw_answer(port, bytes(range(128, 256)))[:12] in (b"HTTP/1.1 400", b""), True)
    request = b"GET /nothing HTTP/1.1\r\nHost: localhost\r\n\r\n"
    expect("three requests at once", raw_answer(port, request * 3).count(b"HTTP/1.1 404"), 3)
    expect("a request byte by byte", raw_answer(port, *(request[it : it + 1] for it in range(len(request)))).count(b"HTTP/1.1 404"), 1)
    silent = [socket.create_connection(("127.0.0.1", port), PATIENCE) for _ in range(80)]
    end = time.time() + PATIENCE
    while sum(is_closed(it) for it in silent) < 16 and time.time() < end:
        pass
    expect("visitors too many", [is_closed(it) for it in silent], [True] * 16 + [False] * 64)
    for it in silent:
        it.close()
    end = time.time() + PATIENCE
    while time.time() < end:
        with contextlib.suppress(OSError, http.client.HTTPException):
            if got(port, "/metrics")[0] == 200:
                return
    expect("a visitor after these", "closed", "answered")


def is_closed(it):
    """Whether the other end has closed the connection."""
    it.settimeout(0.02)
    try:
        return it.recv(1) == b""
    except TimeoutError:
        return False
    except OSError:
        return True


def asked_anew(router):
    """How many records a router has after three Reset Queries."""
    for _ in range(3):
        router.session = None
        router.ask()
    return len(router.table)


def crowded(at, port, daemon):
    """A thousand requests while a hundred routers ask for the whole table."""
    routers = [Router(at) for _ in range(100)]
    with concurrent.futures.ThreadPoolExecutor(8) as visitors, concurrent.futures.ThreadPoolExecutor(8) as crowd:
        answers = [visitors.submit(got, port, choice) for choice in ["/metrics", "/", "/vrps.json", "/validity?asn=64496&prefix=192.0.2.0/24"] * 250]
        tables = [crowd.submit(asked_anew, router) for router in routers]
        expect("the answers of a crowd", {it.result()[0] for it in answers}, {200})
        expect("the tables beside a crowd", {it.result() for it in tables}, {11})
    for router in routers:
        router.close()
    for _ in routers:
        daemon.wait("client-gone")


@part
def silent_visitor(given):
    """A visitor of the pages that sends nothing is closed after half a minute."""
    put("silent.json", text_of(FIRST))
    with running(given.program, "--vrps", "silent.json", "--listen", "127.0.0.1:0", "--status", "127.0.0.1:0") as daemon:
        port = daemon.port("status")
        daemon.wait("ready")
        began = time.time()
        with contextlib.closing(socket.create_connection(("127.0.0.1", port), 60)) as it, contextlib.suppress(OSError):
            it.recv(1)
        expect("how long a silent visitor stays", 29 < time.time() - began < 40, True)


@part
def dripping_visitor(given):
    """A visitor that sends its request byte by byte has half a minute for it in all, also after an answer."""
    put("drip.json", text_of(FIRST))
    with running(given.program, "--vrps", "drip.json", "--listen", "127.0.0.1:0", "--status", "127.0.0.1:0") as daemon:
        _, port = daemon.serves()
        began = time.time()
        with contextlib.closing(socket.create_connection(("127.0.0.1", port), PATIENCE)) as fresh, contextlib.closing(socket.create_connection(("127.0.0.1", port), PATIENCE)) as known:
            known.sendall(b"GET /live HTTP/1.1\r\nHost: localhost\r\n\r\n")
            expect("the answer before", known.recv(4096)[:15], b"HTTP/1.1 200 OK")
            open_ones, ends = {"fresh": fresh, "known": known}, {}
            while open_ones and time.time() - began < 45:
                for name, it in list(open_ones.items()):
                    with contextlib.suppress(OSError):
                        it.sendall(b"G")
                    if is_closed(it):
                        ends[name] = time.time() - began
                        del open_ones[name]
                time.sleep(0.5)
        expect("how long dripping visitors stay", {name: 29 < it < 36 for name, it in ends.items()}, {"fresh": True, "known": True})


def waits_for_answer(port):
    """A visitor that asks for the list, and reads nothing."""
    it = socket.socket()
    it.setsockopt(socket.SOL_SOCKET, socket.SO_RCVBUF, 4096)
    it.settimeout(PATIENCE)
    it.connect(("127.0.0.1", port))
    it.sendall(b"GET /list.json HTTP/1.1\r\nHost: localhost\r\n\r\n")
    expect("the beginning of an answer", it.recv(12), b"HTTP/1.1 200")
    return it


@part
def full_pages(given):
    """If 64 visitors are connected, the one that has waited longest for its request is closed for a newcomer. If all are being answered, the newcomer
    is closed. Both are logged."""
    many = [(f"10.{it // 256}.{it % 256}.0/24", 24, 64496) for it in range(60_000)]
    put("many.json", text_of(many))
    with running(given.program, "--vrps", "many.json", "--listen", "127.0.0.1:0", "--status", "127.0.0.1:0", "--log", "json") as daemon:
        _, port = daemon.serves()
        reading = waits_for_answer(port)
        silent = []
        for _ in range(63):
            silent.append(socket.create_connection(("127.0.0.1", port), PATIENCE))
            time.sleep(0.01)
        expect("a newcomer among 64", got(port, "/live")[0], 200)
        full = daemon.wait("full")
        expect("the line of it", [full.get(it) for it in ("level", "address", "clients", "listener")], ["warning", "127.0.0.1:{}".format(silent[0].getsockname()[1]), 64, "status"])
        expect("who was closed", [is_closed(it) for it in (silent[0], silent[1], silent[-1], reading)], [True, False, False, False])
        for it in silent:
            it.close()
        time.sleep(2)
        answered = [reading, *(waits_for_answer(port) for _ in range(63))]
        newcomer = socket.create_connection(("127.0.0.1", port), PATIENCE)
        full = daemon.wait("full")
        expect("the address of a newcomer", full["address"], "127.0.0.1:{}".format(newcomer.getsockname()[1]))
        expect("who was closed then", (is_closed(newcomer), any(len(it.recv(1)) == 0 for it in answered)), (True, False))
        newcomer.close()
        for it in answered:
            it.close()
        end = time.time() + PATIENCE
        while time.time() < end and got_or_none(port) != 200:
            time.sleep(0.1)
        expect("a visitor afterwards", got_or_none(port), 200)


def got_or_none(port):
    """The status of /live, or None if the visitor is closed."""
    with contextlib.suppress(OSError, http.client.HTTPException):
        return got(port, "/live")[0]
    return None


@part
def no_descriptor_for_pages(given):
    """Visitors that no descriptor is left for are reported once, and accepted as soon as there is one."""
    put("list.json", text_of(FIRST))
    with running(given.program, "--vrps", "list.json", "--listen", "127.0.0.1:0", "--status", "127.0.0.1:0", limit=24) as daemon:
        _, port = daemon.serves()
        silent = [socket.create_connection(("127.0.0.1", port), PATIENCE) for _ in range(24)]
        failed = daemon.wait("failed", what="accept for the status pages")
        expect("why", "Too many open files" in unescaped(failed["reason"]) or "descriptor" in failed["reason"], True)
        time.sleep(2.5)
        expect("how often it is reported", daemon.count("failed"), 1)
        for it in silent:
            it.close()
        end = time.time() + PATIENCE
        while time.time() < end and got_or_none(port) != 200:
            time.sleep(0.1)
        expect("a visitor afterwards", got_or_none(port), 200)


@part
def slow_visitor(given):
    """A visitor that reads slowly, for longer than half a minute, gets the whole list."""
    many = [(f"10.{it // 256}.{it % 256}.0/24", 24, 64496) for it in range(60_000)]
    put("slow.json", text_of(many))
    with running(given.program, "--vrps", "slow.json", "--listen", "127.0.0.1:0", "--status", "127.0.0.1:0") as daemon:
        _, port = daemon.serves()
        wanted = len(got(port, "/list.json")[2])
        with socket.socket() as it:
            it.setsockopt(socket.SOL_SOCKET, socket.SO_RCVBUF, 4096)
            it.settimeout(PATIENCE)
            it.connect(("127.0.0.1", port))
            it.sendall(b"GET /list.json HTTP/1.1\r\nHost: localhost\r\nConnection: close\r\n\r\n")
            began, answer = time.time(), b""
            while piece := it.recv(50_000):
                answer += piece
                if time.time() - began < 36:
                    time.sleep(0.5)
        body = answer.partition(b"\r\n\r\n")[2]
        expect("what a slow visitor gets", (len(body), time.time() - began > 36), (wanted, True))


@part
def hosts(given):
    """A request by an address, localhost or the given name is answered. Any other name is refused, for each path and method."""
    put("list.json", text_of(FIRST))
    words = ["--vrps", "list.json", "--listen", "127.0.0.1:0", "--status", "127.0.0.1:0"]
    status = lambda port, host, path="/health", method="GET": got(port, path, method=method, given={"Host": host})[0]
    for more, name in ([], 421), (["--status-name", "cache.example.net"], 200):
        with running(given.program, *words, *more) as daemon:
            _, port = daemon.serves()
            for host in "127.0.0.1", f"127.0.0.1:{port}", "[::1]", "[::1]:80", "192.0.2.1:1", "localhost", "LocalHost:8":
                expect(f"the host {host} with {more}", status(port, host), 200)
            for host in "cache.example.net", "CACHE.example.NET:9323", "cache.example.net.":
                expect(f"the host {host} with {more}", status(port, host), name)
            for host in "evil.example", "cache.example.net.evil.example", "xcache.example.net", "127.0.0.1.evil.example", "localhost.evil.example":
                expect(f"the host {host} with {more}", status(port, host), 421)
            for path, method in ("/", "GET"), ("/metrics", "HEAD"), ("/nothing", "GET"), ("/list.json", "POST"):
                expect(f"{method} {path} of another host", status(port, "evil.example", path, method), 421)
            expect("a target that names another host", raw_answer(port, b"GET http://evil.example/health HTTP/1.1\r\nHost: localhost\r\n\r\n")[:12], b"HTTP/1.1 421")
            expect("a request without a host", raw_answer(port, b"GET /health HTTP/1.0\r\n\r\n")[9:12], b"200")


@part
def router_metrics(given):
    """The metrics of each router: its serial, its version, and for how long it has lacked a version."""
    put("list.json", text_of(FIRST))
    words = ["--vrps", "list.json", "--listen", "127.0.0.1:0", "--status", "127.0.0.1:0", "--check", "1", "--start", "5"]
    with running(given.program, *words, "--clients", "2") as daemon:
        at, port = daemon.serves()
        current, behind = Router(at), Router(at, version=0)
        names = [f'router="127.0.0.1:{it.socket.getsockname()[1]}",version="{version}"' for it, version in ((current, 1), (behind, 0))]
        for router in current, behind:
            router.catch_up()
        put("list.json", text_of(SECOND))
        daemon.wait("published", serial=6)
        current.wait_notify()
        current.catch_up()
        time.sleep(2)
        metrics = metrics_of(port)
        expect("the serials of routers", [metrics.get(f"rpkirtrd_router_serial{{{it}}}") for it in names], [6, 5])
        late = [metrics.get(f"rpkirtrd_router_behind_seconds{{{it}}}") for it in names]
        expect("how late routers are", (late[0], 2 <= late[1] < PATIENCE), (0, True))
        expect("one too many", Router(at).socket.recv(1), b"")
        daemon.wait("full")
        expect("routers that were disconnected at a limit", metrics_of(port)["rpkirtrd_connections_refused_total"], 1)


@part
def early_visitors(given):
    """Before the first version is published the pages answer 503, and never an empty list."""
    put("list.json", text_of(FIRST))
    early = 0
    for _ in range(20):
        with running(given.program, "--vrps", "list.json", "--listen", "127.0.0.1:0", "--status", "127.0.0.1:0") as daemon:
            port = daemon.port("status")
            status, headers, body = got(port, "/list.json")
            if status == 503:
                early += 1
                expect("how long to wait", headers.get("retry-after"), "1")
                found = got(port, "/validity?asn=64496&prefix=192.0.2.0%2F24")[0]
                expect("a route before the first version", found in (503, 200), True)
            else:
                expect("the list", (status, len(json.loads(body))), (200, len(FIRST)))
            daemon.wait("ready")
            expect("the list then", len(json.loads(got(port, "/list.json")[2])), len(FIRST))
            if early == 3:
                return
    expect("answers before the first version", early, 3)


@part
def reasons(given):
    """Why a route is invalid: its length if a record of its own AS covers it, and else its AS."""
    put("list.json", text_of([("192.0.2.0/24", 24, 64496), ("10.0.0.0/16", 16, 1), ("10.0.0.0/16", 24, 2)]))
    with running(given.program, "--vrps", "list.json", "--listen", "127.0.0.1:0", "--status", "127.0.0.1:0") as daemon:
        port = daemon.port("status")
        daemon.wait("ready")
        for prefix, asn, reason in [("192.0.2.0/25", 64511, "as"), ("192.0.2.0/25", 64496, "length"), ("10.0.1.0/24", 1, "length"), ("10.0.1.0/25", 2, "length"), ("10.0.1.0/24", 3, "as")]:
            body = got(port, f"/validity?asn={asn}&prefix={prefix.replace('/', '%2F')}")[2]
            judged = json.loads(body)["validated_route"]["validity"]
            expect(f"why {prefix} of AS{asn} is invalid", (judged["state"], judged.get("reason")), ("invalid", reason))


@part
def linted_metrics(given):
    """The metrics are as Prometheus reads them, with 0, 1 and 300 routers."""
    if not shutil.which("promtool"):
        raise Skipped("there is no command promtool")
    put("list.json", text_of(FIRST))
    with running(given.program, "--vrps", "list.json", "--listen", "127.0.0.1:0", "--status", "127.0.0.1:0", "--clients", "300") as daemon:
        at, port = daemon.serves()
        routers = []
        for count in 0, 1, 300:
            routers += [Router(at, version=it % 2) for it in range(len(routers), count)]
            for router in routers:
                expect("the table of a router", router.catch_up(), set(FIRST))
            expect(f"the number of {count} routers", metrics_of(port)["rpkirtrd_clients"], count)
            expect(f"what promtool finds with {count} routers", linted(port), (0, "", ""))


@part
def narrowed(given):
    """Records of length 0 are left out with --leave-out-length-0, and counted."""
    wide = [("0.0.0.0/0", 0, 64496), ("::/0", 48, 64498)]
    put("list.json", text_of(FIRST + wide))
    for words, records, left_out in ([], FIRST + wide, 0), (["--leave-out-length-0"], FIRST, 2):
        with running(given.program, "--vrps", "list.json", "--listen", "127.0.0.1:0", "--status", "127.0.0.1:0", *words) as daemon:
            at, port = daemon.serves()
            expect(f"what is served with {words}", Router(at).catch_up(), set(records))
            expect(f"what is left out with {words}", metrics_of(port)["rpkirtrd_left_out_vrps"], left_out)


@part(needs="rpkirtr")
def routes(given):
    """The states of routes at random, by the pages and by the command `route`."""
    choice = random.Random(given.seed)
    base = [choice.getrandbits(32) for _ in range(40)]
    drawn = lambda: (choice.choice(base) ^ choice.getrandbits(choice.randrange(1, 16)), choice.randrange(8, 33))
    network = lambda address, length: str(ipaddress.ip_network((address, length), strict=False))
    records = set()
    while len(records) < 2000:
        address, length = drawn()
        records.add((network(address, length), choice.randrange(length, 33), choice.choice([0, 64496, 64497, 64498])))
    put("routes.json", text_of(sorted(records)))
    with running(given.program, "--vrps", "routes.json", "--listen", "127.0.0.1:0", "--status", "127.0.0.1:0") as daemon:
        port = daemon.port("status")
        daemon.wait("ready")
        put("list", got(port, "/list.json")[2])
        asked = [(network(*drawn()), choice.choice([0, 64496, 64497, 64498])) for _ in range(given.routes)]
        with concurrent.futures.ThreadPoolExecutor(4) as pool:
            found = list(pool.map(lambda it: validity(port, *it)[0], asked))
            wanted = list(pool.map(lambda it: state_printed(given, it), asked))
    expect(f"states of routes (seed {given.seed})", [it for it in zip(asked, found, wanted) if it[1] != it[2]], [])
    print(f"routes: {len(asked)}, of which {wanted.count('valid')} are valid and {wanted.count('invalid')} invalid", flush=True)


def state_printed(given, route):
    """The state that the command `route` prints."""
    words = [given.rpkirtr, "route", "--vrps", "list", route[0], str(route[1])]
    return subprocess.run(words, stdin=subprocess.DEVNULL, capture_output=True, text=True, timeout=PATIENCE).stdout.strip()
