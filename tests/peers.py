#!/usr/bin/env python3
"""Real peers over loopback: routers that ask our cache, caches that our router asks, and validators of the same signed objects.

usage: tests/peers.py PROGRAM DAEMON

For each peer that is installed its own view of its table is read and compared with the list that was served: after a Reset Query, after
the cache was started again with the next serial and another list, after it was started with another session, and, where the peer is the
cache, after it changed its list. Validators are given a small repository that is signed here; what is taken out of its objects is handed
to `payloads`, which must give the same. Behind these all routers at once hold what the daemon serves, and what it serves when its file has
changed, on the connections that they have; and a router keeps its table while the daemon is started again. It prints a
table of what was tried, and exits with 1 where a view differs. All is bounded in time, on ports of 127.0.0.1 that the system chose."""
import contextlib
import ipaddress
import json
import os
import pwd
import random
import re
import shutil
import subprocess
import sys
import tempfile
import time

sys.path.insert(0, f"{os.path.dirname(os.path.abspath(__file__))}/lib")
import log
import repository
from common import free_port, put, write
from peer import records_in, running, said

FIRST = [("192.0.2.0/24", 24, 64496), ("198.51.100.0/24", 26, 64497), ("203.0.113.0/25", 25, 0), ("2001:db8::/32", 48, 64498)]
SECOND = [("192.0.2.0/24", 25, 64496), ("198.51.100.0/24", 26, 64499), ("2001:db8::/32", 48, 64498), ("2001:db8:1::/48", 48, 4200000000)]

# How long a peer may take until its table is the one that is served, in seconds.
PATIENCE = 45


class Ours:
    """The program."""

    def __init__(self, program):
        self.program = program

    def serving(self, port, session, start, records):
        entries = [{"asn": asn, "maxLength": longest, "prefix": prefix} for prefix, longest, asn in records]
        name = write("list.json", json.dumps(entries))
        words = ["serve", "--port", port, "--session", session, "--session0", session + 1, "--start", start, "--vrps", name, "--connections", 9]
        return running(self.program, *map(str, words))

    def fetched(self, port, version=1):
        """The records that a router of ours commits which speaks this version, or None."""
        told = said(self.program, "fetch", "--port", str(port), "--rtr-version", str(version))
        found = re.fullmatch(r"committed \d+ \d+\n(\[.*\])\n", told)
        return sorted((it["prefix"], it["maxLength"], it["asn"]) for it in json.loads(found[1])) if found else None


def awaited(view, records):
    """Whether a view comes to these records within the patience, and what it showed last."""
    end = time.time() + PATIENCE
    while True:
        shown = view()
        if shown == sorted(records) or time.time() > end:
            return shown == sorted(records), shown
        time.sleep(0.3)


# ---- routers


def rtrclient(port):
    """rtr-tools: asks once and writes what it holds."""

    def view():
        with contextlib.suppress(FileNotFoundError):
            os.remove("rtrclient.csv")
        said("rtrclient", "-e", "-t", "csv", "-o", "rtrclient.csv", "tcp", "127.0.0.1", str(port))
        with contextlib.suppress(FileNotFoundError), open("rtrclient.csv") as it:
            return records_in(r"(\S+), (\d+), (\d+), (-?\d+)", it.read())

    return contextlib.nullcontext(view)


def rtrdump(version):
    """StayRTR's client: asks once in this version of the protocol and writes what it holds."""

    def peer(port):
        def view():
            with contextlib.suppress(FileNotFoundError):
                os.remove("rtrdump.json")
            said("rtrdump", "-connect", f"127.0.0.1:{port}", "-rtr.version", str(version), "-file", "rtrdump.json")
            with contextlib.suppress(FileNotFoundError), open("rtrdump.json") as it:
                return sorted((it["prefix"], it["maxLength"], it["asn"]) for it in json.load(it)["roas"])

        return contextlib.nullcontext(view)

    return peer


GOBGP = """[global.config]
    as = 64500
    router-id = "127.0.0.1"
    port = -1
[[rpki-servers]]
    [rpki-servers.config]
        address = "127.0.0.1"
        port = {port}
"""


@contextlib.contextmanager
def gobgp(port):
    """GoBGP speaks version 0 alone."""
    name, api = write("gobgp.toml", GOBGP.format(port=port)), free_port()
    with running("gobgpd", "-f", name, "--api-hosts", f"127.0.0.1:{api}", "--pprof-disable"):
        tables = lambda: "".join(said("gobgp", "-p", str(api), "rpki", "table", "-a", it) for it in ("ipv4", "ipv6"))
        yield lambda: records_in(r"(?m)^(\S+)/(\d+)\s+(\d+)\s+(\d+)\s", tables())


BIRD = """log stderr all;
router id 127.0.0.1;
roa4 table r4;
roa6 table r6;
protocol device {{}}
protocol rpki cache {{
    roa4 {{ table r4; }};
    roa6 {{ table r6; }};
    remote 127.0.0.1 port {port};
    retry keep 1;
    refresh keep {refresh};
    expire keep 600;
}}
"""


@contextlib.contextmanager
def bird(port, own="bird", refresh=2):
    name = write(f"{own}.conf", BIRD.format(port=port, refresh=refresh))
    with running("bird", "-f", "-c", name, "-s", f"{own}.ctl", "-P", f"{own}.pid"):
        # (one command, as the tables may change between two)
        tables = ["birdc", "-s", f"{own}.ctl", "show", "route", "table", "r4", "table", "r6"]
        yield lambda: records_in(r"(?m)^(\S+)/(\d+)-(\d+) AS(\d+)", said(*tables))


FRR = """log stdout
rpki
 rpki polling_period 2
 rpki retry_interval 1
 rpki cache 127.0.0.1 {port} preference 1
exit
"""


@contextlib.contextmanager
def frr(port):
    name = write("frr.conf", FRR.format(port=port))
    os.makedirs("frr", exist_ok=True)
    with contextlib.suppress(KeyError, PermissionError):
        shutil.chown("frr", "frr", "frr")
    place = os.path.abspath("frr")
    words = ["-M", "rpki", "-f", name, "-p", "0", "-n", "-S", "-Z", "--vty_socket", place, "-i", f"{place}/bgpd.pid", "-A", "127.0.0.1", "-P", "0"]
    with running("/usr/lib/frr/bgpd", *words):
        view = lambda: said("vtysh", "--vty_socket", place, "-d", "bgpd", "-c", "show rpki prefix-table")
        yield lambda: records_in(r"(?m)^(\S+)\s+(\d+) -\s+(\d+)\s+(\d+)", view())


OPENBGPD = """AS 64500
router-id 127.0.0.1
listen on 127.0.0.1 port {bgp}
socket "{place}/openbgpd.sock"
rtr 127.0.0.1 {{
    port {port}
}}
"""


@contextlib.contextmanager
def openbgpd(port):
    place = os.getcwd()
    name = write("openbgpd.conf", OPENBGPD.format(bgp=free_port(), place=place, port=port))
    os.chmod(name, 0o600)
    # (where no service manager made the folder that it locks itself into)
    os.makedirs(pwd.getpwnam("_openbgpd").pw_dir, exist_ok=True)
    with running("/usr/sbin/bgpd", "-d", "-f", name):
        # (it tells how many of each family it holds, and no more)
        def view():
            found = re.search(r"(?m)^ROA\s+RPKI ROA\s+(\d+)\s+(\d+)", said("bgpctl", "-s", f"{place}/openbgpd.sock", "show", "sets"))
            return (int(found[1]), int(found[2])) if found else None

        yield view


def notified_bird(own):
    """A BIRD that asks by itself once an hour, so notifies alone tell it of changes. If its refresh timer ends while it handles a notify, it
    closes the connection (BIRD 2)."""
    return lambda port: bird(port, own, 3600)


def counted(records):
    """How many records of each family."""
    return sum(":" not in it[0] for it in records), sum(":" in it[0] for it in records)


def asked_by(ours, name, peer, tells_counts):
    """Lets a router fill its table from our cache, from one that was started again with the next serial of its session, and from one of
    another session."""
    port, cells = free_port(), []
    with contextlib.ExitStack() as stack:
        view = None
        for at, (session, start, records) in enumerate([(4660, 5, FIRST), (4660, 6, SECOND), (8738, 9, FIRST)]):
            if at in WAITS.get(name, []):
                cells.append("waits")
                continue
            keeps = at in KEEPS.get(name, [])
            with ours.serving(port, session, start, records):
                time.sleep(0.3)
                view = view or stack.enter_context(peer(port))
                cell = compared(name, view, sorted({*FIRST, *records}) if keeps else records, tells_counts)
                cells.append("keeps old" if keeps and cell == "agrees" else cell)
    return cells


# Where these peers keep the table that they have for longer than a test can wait: FRR (librtr) connects again after the retry interval of
# the cache, 600 seconds, and so does OpenBGPD where no cache listened when it came back at once. To another session OpenBGPD comes over
# only when its table expires.
WAITS = {"frr": [1, 2], "openbgpd": [1, 2]}

# GoBGP drops what it holds only where the session changes: after a Cache Reset of the session that it has, the records that it held stay
# beside the new ones. It connects again after 30 seconds.
KEEPS = {"gobgp v0": [1]}


def compared(name, view, records, tells_counts):
    if tells_counts:
        is_well, shown = awaited(lambda: [view()], [counted(records)])
    else:
        is_well, shown = awaited(view, records)
    if not is_well:
        print(f"{name}: {shown} in place of {records}")
    return "agrees" if is_well else "DIFFERS"


# ---- caches


def exported(records):
    roas = [{"prefix": prefix, "maxLength": longest, "asn": f"AS{asn}"} for prefix, longest, asn in records]
    return json.dumps({"metadata": {"buildtime": "2026-01-01T00:00:00Z"}, "roas": roas})


def stayrtr(ours, version):
    """StayRTR as a cache of this version: our router holds its list, and the new one where it changed."""
    port, name = free_port(), write("stayrtr.json", exported(FIRST))
    words = ["-bind", f"127.0.0.1:{port}", "-cache", name, "-checktime=false", "-metrics.addr", "", "-refresh", "1", "-protocol", str(version)]
    view = lambda: ours.fetched(port, version)
    with running("stayrtr", *words):
        cells = [compared("stayrtr", view, FIRST, False)]
        write(name, exported(SECOND))
        cells.append(compared("stayrtr", view, SECOND, False))
    with running("stayrtr", *words):
        cells.append(compared("stayrtr", view, SECOND, False))
    return cells


def repository_of(folder, records):
    """Signs a repository of these records below a folder, and answers where it is and where its locator."""
    os.makedirs(folder)
    place = f"{folder}/cache/{repository.HOST}"
    here = os.getcwd()
    os.chdir(folder)
    repository.write(".", records, os.path.abspath(f"cache/{repository.HOST}"))
    os.chdir(here)
    return os.path.abspath(place), os.path.abspath(f"{folder}/locators")


def fort(ours):
    """FORT as a cache of signed objects: first of one repository, then of another."""
    cells = []
    for folder, records in (("first", FIRST), ("second", SECOND)):
        place, locators = repository_of(f"fort-{folder}", [it for it in records if it[2]])
        port, kept = free_port(), os.path.dirname(os.path.dirname(place))
        words = ["--mode=server", "--tal", locators, "--work-offline=true", "--server.address", "127.0.0.1", "--server.port", str(port), "--local-repository", kept]
        with running("fort", *words):
            cells.append(compared("fort", lambda: ours.fetched(port), [it for it in records if it[2]], False))
    return cells[0], "-", cells[1]


def unpacked(place, point):
    """What `payloads` reads, of a folder of signed objects."""
    os.makedirs(f"{point}/objects")
    os.makedirs(f"{point}/contents")
    for file in os.listdir(place):
        if file.endswith(".cer"):
            continue
        to = f"{point}/manifest.der" if file.endswith(".mft") else f"{point}/contents/{file}"
        if not file.endswith(".crl"):
            said("openssl", "cms", "-verify", "-noverify", "-inform", "DER", "-in", f"{place}/{file}", "-out", to)
        if not file.endswith(".mft"):
            shutil.copy(f"{place}/{file}", f"{point}/objects/{file}")


def many(count):
    """So many records, made by a seed."""
    chance, found = random.Random(count), {}
    while len(found) < count:
        width, length = chance.choice([(32, chance.randrange(8, 25)), (128, chance.randrange(19, 49))])
        high = chance.randrange(1, 223) if width == 32 else chance.randrange(0x2001, 0x2C0F)
        address = high << (width - (8 if width == 32 else 16)) | chance.getrandbits(length) << (width - length) >> 8 << 8
        prefix = ipaddress.ip_network((address >> (width - length) << (width - length), length))
        found[prefix] = (str(prefix), chance.choice([length, length, min(length + 2, width)]), chance.randrange(64496, 64512))
    return sorted(found.values())


def rpki_client(ours):
    """rpki-client and `payloads` over the same signed objects of sixteen ROAs."""
    records = many(200)
    place, locators = repository_of("validated", records)
    kept = os.path.dirname(os.path.dirname(place))
    os.makedirs(f"{kept}/ta/authority")
    shutil.copy(f"{place}/authority.cer", f"{kept}/ta/authority/authority.cer")
    os.makedirs("told")
    subprocess.run(["chmod", "-R", "a+rwX", ".", "told"], check=True)
    said("rpki-client", "-n", "-j", "-t", f"{locators}/authority.tal", "-d", kept, os.path.abspath("told"), seconds=60)
    with open("told/json") as it:
        theirs = sorted((roa["prefix"], roa["maxLength"], roa["asn"]) for roa in json.load(it)["roas"])
    unpacked(place, "point")
    now = time.strftime("%Y%m%d%H%M%SZ", time.gmtime())
    found = json.loads(subprocess.run([ours.program, "payloads", "--now", now, "point"], capture_output=True, text=True, timeout=30).stdout)
    same = sorted((it["prefix"], it["maxLength"], it["asn"]) for it in found)
    if not same == theirs == sorted(records):
        print(f"rpki-client: {len(theirs)} records, ours {len(same)}, signed {len(records)}: {[it for it in theirs if it not in same][:3]}")
    return "agrees" if same == theirs == sorted(records) else "DIFFERS"


ROUTERS = {
    "rtrclient": ("rtr-tools", "rtrclient", rtrclient, False),
    "rtrdump": ("stayrtr", "rtrdump", rtrdump(1), False),
    "rtrdump v0": ("stayrtr", "rtrdump", rtrdump(0), False),
    "gobgp v0": ("gobgpd", "gobgpd", gobgp, False),
    "bird": ("bird2", "bird", bird, False),
    "frr": ("frr-rpki-rtrlib", "/usr/lib/frr/bgpd", frr, False),
    "openbgpd": ("openbgpd", "/usr/sbin/bgpd", openbgpd, True),
}


# ---- the daemon


def followed(program):
    """All routers at once: what each holds of the first list, and of the next on the connection that it has; and whether one keeps its table
    while the daemon is started again."""
    put("daemon.json", exported(FIRST))
    port, rows = free_port(), {}
    words = [program, "--vrps", "daemon.json", "--listen", f"127.0.0.1:{port}", "--check", "1"]
    with contextlib.ExitStack() as stack:
        with log.running(*words) as daemon:
            daemon.wait("ready")
            views = {name: (stack.enter_context(peer(port)), counts) for name, (_, command, peer, counts) in DAEMON_ROUTERS.items() if shutil.which(command)}
            for name, (view, counts) in views.items():
                rows[name] = [compared(name, view, FIRST, counts)]
            stay = {name: it for name, it in views.items() if name not in ASKS_ONCE}
            before = daemon.count("client-came")
            put("daemon.json", exported(SECOND))
            daemon.wait("published")
            for name, (view, counts) in stay.items():
                rows[name].append(compared(name, view, SECOND, counts))
            if again := daemon.count("client-came") - before:
                print(f"{again} routers connected again")
                rows = {name: [*row, "DIFFERS"] for name, row in rows.items()}
            for name, (view, counts) in views.items():
                if name in ASKS_ONCE:
                    rows[name].append(compared(name, view, SECOND, counts))
        if "bird" in views:
            rows["bird"].append(restarted(words, views["bird"][0]))
    return rows


def restarted(words, view):
    """Whether a router holds its table all the time while the daemon is started again, and comes over to its next list."""
    shown, begun = [], time.time()
    with log.running(*words):
        put("daemon.json", exported(FIRST))
        while time.time() < begun + PATIENCE:
            shown.append(view())
            if shown[-1] == sorted(FIRST):
                break
            time.sleep(0.2)
    if shown[-1] == sorted(FIRST) and all(it in (sorted(FIRST), sorted(SECOND)) for it in shown):
        return "agrees"
    print(f"bird while the daemon is started again: {[it for it in shown if it not in (sorted(FIRST), sorted(SECOND))][:1]}, at last {shown[-1]}")
    return "DIFFERS"


DAEMON_ROUTERS = {**ROUTERS, "bird": ("bird2", "bird", notified_bird("bird"), False), "second bird": ("bird2", "bird", notified_bird("second"), False)}

# These connect anew each time.
ASKS_ONCE = {"rtrclient", "rtrdump", "rtrdump v0"}


def main(program, daemon):
    ours, rows, daemon = Ours(os.path.abspath(program)), [], os.path.abspath(daemon)
    with tempfile.TemporaryDirectory() as folder:
        os.chmod(folder, 0o755)
        os.chdir(folder)
        for name, (package, command, peer, tells_counts) in ROUTERS.items():
            if shutil.which(command):
                rows.append((name, "router", *asked_by(ours, name, peer, tells_counts)))
            else:
                print(f"skipped: {package} is not installed")
        if shutil.which("stayrtr"):
            rows.append(("stayrtr", "cache", *stayrtr(ours, 1)))
            rows.append(("stayrtr v0", "cache", *stayrtr(ours, 0)))
        else:
            print("skipped: stayrtr is not installed")
        if shutil.which("fort"):
            rows.append(("fort", "cache", *fort(ours)))
        else:
            print("skipped: fort-validator is not installed")
        if shutil.which("rpki-client"):
            rows.append(("rpki-client", "validator", rpki_client(ours), "-", "-"))
        else:
            print("skipped: rpki-client is not installed")
        together = followed(daemon)
        os.chdir("/")
    for row in [("peer", "is a", "first table", "next serial", "new session"), *rows]:
        print("".join(f"{it:<14}" for it in row).rstrip())
    print("all at once, by the daemon: the first list, the next one on the same connection, a restart")
    for name, row in together.items():
        print("".join(f"{it:<14}" for it in (name, *row)).rstrip())
    return 1 if any("DIFFERS" in row for row in [*rows, *together.values()]) else 0


if __name__ == "__main__":
    sys.exit(main(*sys.argv[1:]))
