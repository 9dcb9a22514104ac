"""Files: what is refused, what is read again, what expires, and how old it is."""
import json
import os
import re
import socket
import subprocess
import time

from checks import expect
from common import PATIENCE, put
from daemon.shared import EXCEPTIONS, FIRST, SECOND, SLURM, entry_of, part, text_of
from log import running, unescaped
from rtr import Router
from web import got, metrics_of


@part
def refused_files(given):
    """A file that is refused changes nothing that is served. It is reported once, at its second look, and is accepted again."""
    put("list.json", text_of(FIRST))
    with running(given.program, "--vrps", "list.json", "--listen", "127.0.0.1:0", "--check", "1") as daemon:
        port = daemon.listens()
        for text in "[{", "", '{"roas": 1}':
            put("list.json", text)
            daemon.wait("refused", file="list.json")
            expect("what is served meanwhile", Router(port).catch_up(), set(FIRST))
            put("list.json", text_of(FIRST))
            daemon.wait("taken", file="list.json")
        os.remove("list.json")
        daemon.wait("refused", file="list.json")
        put("list.json", text_of(FIRST))
        daemon.wait("taken", file="list.json")
        os.remove("list.json")
        os.mkdir("list.json")
        daemon.wait("refused", file="list.json")
        expect("what is served with a folder in its place", Router(port).catch_up(), set(FIRST))
        os.rmdir("list.json")
        put("list.json", text_of(SECOND))
        daemon.wait("taken", file="list.json")
        daemon.wait("published", records=2)
        expect("what is served afterwards", Router(port).catch_up(), set(SECOND))
        refusals = [it for it in daemon.said if " refused " in it]
        expect("how many refusals are reported", len(refusals), 5)


@part
def sources(given):
    """Several files, local exceptions, and entries that expire."""
    put("list.json", text_of(FIRST))
    until = int(time.time()) + 4
    export = {"metadata": {"generated": until}, "roas": [{"asn": "AS64500", "prefix": "203.0.113.0/24", "maxLength": 24, "ta": "x", "expires": until}]}
    put("export.json", json.dumps(export))
    slurm = {
        "slurmVersion": 1,
        "validationOutputFilters": {"prefixFilters": [{"asn": 64497}], "bgpsecFilters": []},
        "locallyAddedAssertions": {"prefixAssertions": [{"asn": 64501, "prefix": "10.0.0.0/8", "maxPrefixLength": 9}], "bgpsecAssertions": []},
    }
    put("slurm.json", json.dumps(slurm))
    kept = {it for it in FIRST if it[2] != 64497} | {("10.0.0.0/8", 9, 64501)}
    with running(given.program, "--vrps", "list.json", "--vrps", "export.json", "--slurm", "slurm.json", "--listen", "[::1]:0", "--listen", "127.0.0.1:0", "--check", "1") as daemon:
        port = daemon.listens()
        router = Router(port, family=socket.AF_INET6)
        expect("all sources", router.catch_up(), kept | {("203.0.113.0/24", 24, 64500)})
        daemon.wait("published", withdrawn=1)
        router.wait_notify()
        expect("an entry that has expired", router.catch_up(), kept)
        put("slurm.json", "{}")
        daemon.wait("refused", file="slurm.json")
        slurm["validationOutputFilters"]["prefixFilters"] = []
        put("slurm.json", json.dumps(slurm))
        daemon.wait("published", announced=1)
        router.wait_notify()
        expect("other exceptions", router.catch_up(), kept | set(FIRST))


@part
def same_size(given):
    """A file is loaded again though it has as many bytes as before: if it is written in place, if another of the same modification time
    replaces it, and if it is written in place and given its old modification time."""
    def text(asn):
        return text_of([("192.0.2.0/24", 24, asn)])

    def write(asn):
        with open("list.json", "r+", encoding="utf-8") as it:
            it.write(text(asn))

    def write_back_in_time(asn):
        before = os.stat("list.json")
        write(asn)
        os.utime("list.json", ns=(before.st_atime_ns, before.st_mtime_ns))

    def replace(asn):
        before = os.stat("list.json")
        put("other.json", text(asn))
        os.utime("other.json", ns=(before.st_atime_ns, before.st_mtime_ns))
        os.replace("other.json", "list.json")

    put("list.json", text(64496))
    with running(given.program, "--vrps", "list.json", "--listen", "127.0.0.1:0", "--check", "1") as daemon:
        router = Router(daemon.listens())
        router.catch_up()
        for asn, change in ((64497, write), (64498, replace), (64499, write_back_in_time)):
            change(asn)
            daemon.wait("published", announced=1, withdrawn=1)
            router.wait_notify()
            expect("a file of the same size", router.catch_up(), {("192.0.2.0/24", 24, asn)})


def exceptions(*, asserted=(), filtered=(), keys=()):
    """A SLURM file with these assertions (prefix and AS), filters of prefixes, and BGPsec filters of ASes."""
    return json.dumps({
        "slurmVersion": 1,
        "validationOutputFilters": {"prefixFilters": [{"prefix": it} for it in filtered], "bgpsecFilters": [{"asn": it} for it in keys]},
        "locallyAddedAssertions": {"prefixAssertions": [{"prefix": prefix, "asn": asn} for prefix, asn in asserted], "bgpsecAssertions": []},
    })


def ignored(port, path):
    """How many entries of a file the metrics say that are not served, by kind."""
    named = {it: metrics_of(port).get(f'rpkirtrd_file_ignored_entries{{file="{path}",kind="{it}"}}') for it in ("aspa", "router_key", "bgpsec_filter", "bgpsec_assertion")}
    return {kind: count for kind, count in named.items() if count is not None}


def state_shown(port, path):
    """The state of a file on the page, without marks. Its trust anchors are in a line of their own."""
    row = got(port, "/")[2].partition(f'class="name">{path}</th><td class="long">')[2].partition("</td>")[0]
    return re.sub("<[^>]*>", "", re.sub("<(?:br|div|p)[^>]*>", "; ", row))


@part
def not_served(given):
    """What of the files is not served is counted: a line at each load that changes the numbers, the page and a metric have them."""
    def export(records, aspas, keys, more):
        return json.dumps({"roas": [entry_of(*it) for it in records], "aspas": [{"customer_asid": 64496, "providers": [it]} for it in range(aspas)], "bgpsec_keys": [{"asn": it} for it in range(keys)], "routerKeys": [1] * more})

    def slurm(filters, assertions):
        text = json.loads(exceptions(keys=[64500 + it for it in range(filters)]))
        text["locallyAddedAssertions"]["bgpsecAssertions"] = [{"asn": 64600 + it, "SKI": "", "routerPublicKey": ""} for it in range(assertions)]
        return json.dumps(text)

    put("export.json", export(FIRST, 1, 2, 1))
    put("slurm.json", slurm(1, 0))
    put("other.json", slurm(0, 0))
    words = ["--vrps", "export.json", "--vrps", "list.json", "--slurm", "other.json", "--slurm", "slurm.json", "--listen", "127.0.0.1:0", "--status", "127.0.0.1:0", "--check", "1", "--log", "json"]
    with running(given.program, *words) as daemon:
        first = daemon.wait("not-served")
        expect("the line of an export", [first.get(it) for it in ("file", "aspas", "router-keys", "level")], ["export.json", 1, 3, "notice"])
        second = daemon.wait("not-served")
        expect("the line of exceptions", [second.get(it) for it in ("file", "bgpsec-filters", "bgpsec-assertions", "level")], ["slurm.json", 1, 0, "notice"])
        _, port = daemon.serves()
        expect("the metric of an export", ignored(port, "export.json"), {"aspa": 1, "router_key": 3})
        expect("the metric of a list", ignored(port, "list.json"), {"aspa": 0, "router_key": 0})
        expect("the metric of exceptions", (ignored(port, "slurm.json"), ignored(port, "other.json")), ({"bgpsec_filter": 1, "bgpsec_assertion": 0}, {"bgpsec_filter": 0, "bgpsec_assertion": 0}))
        shown = [state_shown(port, it) for it in ("export.json", "list.json", "slurm.json", "other.json")]
        expect("the page", shown, ["loaded, not served: 1 ASPA, 3 router keys; x 3", "loaded", "loaded, not served: 1 BGPsec filter", "loaded"])
        put("export.json", export(SECOND, 1, 1, 2))
        daemon.wait("published")
        put("slurm.json", slurm(1, 0) + " ")
        put("export.json", "{")
        daemon.wait("refused", file="export.json")
        expect("loads that change no number, and a refusal", (daemon.count("not-served"), ignored(port, "export.json")), (2, {"aspa": 1, "router_key": 3}))
        put("export.json", export(FIRST, 2, 0, 0))
        daemon.wait("not-served", file="export.json", aspas=2, **{"router-keys": 0})
        put("slurm.json", slurm(0, 2))
        daemon.wait("not-served", file="slurm.json", **{"bgpsec-filters": 0, "bgpsec-assertions": 2})
        expect("the page afterwards", [state_shown(port, it) for it in ("export.json", "slurm.json")], ["loaded, not served: 2 ASPAs; x 3", "loaded, not served: 2 BGPsec assertions"])
        put("export.json", text_of(FIRST))
        daemon.wait("not-served", file="export.json", aspas=0, **{"router-keys": 0})
        expect("how many lines there are", (daemon.count("not-served"), ignored(port, "export.json")), (5, {"aspa": 0, "router_key": 0}))


@part
def several_exceptions(given):
    """Several SLURM files are applied together. If two overlap, all are refused, and the exceptions stay as they were."""
    put("list.json", text_of(FIRST))
    put("one.json", exceptions(asserted=[("10.0.0.0/8", 1)], filtered=["192.0.2.0/24"]))
    put("two.json", exceptions(asserted=[("172.16.0.0/12", 2)], keys=[64500]))
    base = set(FIRST[1:])
    with running(given.program, "--vrps", "list.json", "--slurm", "one.json", "--slurm", "two.json", "--listen", "127.0.0.1:0", "--check", "1") as daemon:
        port = daemon.listens()
        both = base | {("10.0.0.0/8", 8, 1), ("172.16.0.0/12", 12, 2)}
        expect("two files of exceptions", Router(port).catch_up(), both)
        put("two.json", exceptions(asserted=[("10.1.0.0/16", 2)]))
        refused = daemon.wait("refused", file="two.json")
        expect("why two files overlap", refused["reason"], "10.1.0.0/16 overlaps with 10.0.0.0/8 of one.json (RFC 8416 section 4.2)")
        expect("what is served while they overlap", Router(port).catch_up(), both)
        put("one.json", exceptions(asserted=[("172.16.0.0/12", 1)]))
        daemon.wait("taken", file="two.json")
        daemon.wait("published")
        expect("prefixes that moved to the other file", Router(port).catch_up(), set(FIRST) | {("172.16.0.0/12", 12, 1), ("10.1.0.0/16", 16, 2)})
        put("one.json", "{")
        put("two.json", exceptions())
        expect("a file that cannot be read", "not JSON" in daemon.wait("refused", file="one.json")["reason"], True)
        expect("the other file", daemon.wait("refused", file="two.json")["reason"], "another file of local exceptions is refused, and all are loaded together")
        put("one.json", exceptions(keys=[64500]))
        daemon.wait("taken", file="one.json")
        daemon.wait("published")
        expect("no exceptions", Router(port).catch_up(), set(FIRST))
    put("two.json", exceptions(keys=[64500]))
    words = [given.program, "--vrps", "list.json", "--slurm", "one.json", "--slurm", "two.json", "--listen", "127.0.0.1:0"]
    ran = subprocess.run(words, stdin=subprocess.DEVNULL, capture_output=True, text=True, timeout=PATIENCE)
    expect("a start with files that overlap", (ran.returncode, "two.json: BGPsec entries of AS64500 are in one.json too" in ran.stderr), (1, True))


@part
def first_exceptions_overlap(given):
    """The first of two SLURM files is changed so that it overlaps the second. The log has the reason, with both files."""
    put("list.json", text_of(FIRST))
    put("one.json", exceptions())
    put("two.json", exceptions(asserted=[("10.0.0.0/8", 2)]))
    with running(given.program, "--vrps", "list.json", "--slurm", "one.json", "--slurm", "two.json", "--listen", "127.0.0.1:0", "--check", "1") as daemon:
        port = daemon.listens()
        put("one.json", exceptions(asserted=[("10.1.0.0/16", 1)]))
        daemon.wait("refused", file="one.json", reason="another file of local exceptions is refused, and all are loaded together")
        refused = daemon.wait("refused", file="two.json")
        expect("why the first file overlaps", refused["reason"], "10.0.0.0/8 overlaps with 10.1.0.0/16 of one.json (RFC 8416 section 4.2)")
        expect("what is served while they overlap", Router(port).catch_up(), set(FIRST) | {("10.0.0.0/8", 8, 2)})
        put("one.json", exceptions(asserted=[("172.16.0.0/12", 1)]))
        daemon.wait("taken", file="two.json")
        daemon.wait("published", announced=1)
        expect("what is served afterwards", Router(port).catch_up(), set(FIRST) | {("10.0.0.0/8", 8, 2), ("172.16.0.0/12", 12, 1)})


def missing_for_a_while(daemon, status):
    """The folder `m` is missing until its file is refused, and is back then as it was. The metrics say so. It returns them."""
    file = "m/" + os.listdir("m")[0]
    refused = f'rpkirtrd_file_refused{{file="{file}"}}'
    os.rename("m", "away")
    daemon.wait("refused", file=file)
    expect("the metric while it is missing", metrics_of(status).get(refused), 1)
    os.rename("away", "m")
    daemon.wait("taken", file=file)
    metrics = metrics_of(status)
    expect("the metric once it is back", metrics.get(refused), 0)
    return metrics


@part
def export_put_back(given):
    """An export that was missing is accepted once it is back, as it was. If it is missing again, that is reported again."""
    os.mkdir("m")
    put("m/list.json", text_of(FIRST))
    with running(given.program, "--vrps", "m/list.json", "--listen", "127.0.0.1:0", "--check", "1", "--status", "127.0.0.1:0") as daemon:
        port, status = daemon.serves()
        for times in 1, 2:
            missing_for_a_while(daemon, status)
            expect("how many refusals are reported", daemon.count("refused"), times)
        expect("what is served", Router(port).catch_up(), set(FIRST))


@part
def refused_for_another_reason(given):
    """A file that stays refused is reported again if the reason is of another kind. Another text that is malformed is not."""
    put("list.json", text_of(FIRST))
    with running(given.program, "--vrps", "list.json", "--listen", "127.0.0.1:0", "--check", "1") as daemon:
        port = daemon.listens()
        put("list.json", "[{")
        daemon.wait("refused", file="list.json")
        os.remove("list.json")
        expect("the second reason", "cannot be read" in daemon.wait("refused", file="list.json")["reason"], True)
        put("list.json", "[")
        expect("the third reason", "not JSON" in daemon.wait("refused", file="list.json")["reason"], True)
        put("list.json", "")
        time.sleep(3)
        put("list.json", text_of(SECOND))
        daemon.wait("taken", file="list.json")
        daemon.wait("published", records=len(SECOND))
        expect("how many refusals are reported", daemon.count("refused"), 3)
        expect("what is served afterwards", Router(port).catch_up(), set(SECOND))


@part
def exceptions_put_back(given):
    """A SLURM file that was missing is accepted once it is back, as it was. So is another one that was changed meanwhile."""
    os.mkdir("m")
    put("list.json", text_of(FIRST))
    put("one.json", exceptions())
    put("m/two.json", exceptions(keys=[64500]))
    with running(given.program, "--vrps", "list.json", "--slurm", "one.json", "--slurm", "m/two.json", "--listen", "127.0.0.1:0", "--check", "1") as daemon:
        port = daemon.listens()
        os.rename("m", "away")
        daemon.wait("refused", file="m/two.json")
        os.rename("away", "m")
        daemon.wait("taken", file="m/two.json")
        os.rename("m", "away")
        daemon.wait("refused", file="m/two.json")
        put("one.json", exceptions(asserted=[("10.0.0.0/8", 1)]))
        daemon.wait("refused", file="one.json", reason="another file of local exceptions is refused, and all are loaded together")
        os.rename("away", "m")
        daemon.wait("taken", file="one.json")
        daemon.wait("published", announced=1)
        expect("exceptions that changed while another file was missing", Router(port).catch_up(), set(FIRST) | {("10.0.0.0/8", 8, 1)})
        expect("how many refusals are reported", daemon.count("refused"), 3)


@part
def exceptions_back_beside_refused_ones(given):
    """A SLURM file that was missing is no longer shown as refused once it is back, though another one that overlaps it stays refused."""
    os.mkdir("m")
    put("list.json", text_of(FIRST))
    put("m/one.json", exceptions(asserted=[("10.0.0.0/8", 1)]))
    put("two.json", exceptions())
    with running(given.program, "--vrps", "list.json", "--slurm", "m/one.json", "--slurm", "two.json", "--listen", "127.0.0.1:0", "--check", "1", "--status", "127.0.0.1:0") as daemon:
        _port, status = daemon.serves()
        put("two.json", exceptions(asserted=[("10.0.0.0/9", 2)]))
        daemon.wait("refused", file="two.json")
        metrics = missing_for_a_while(daemon, status)
        expect("the metric of the other", metrics.get('rpkirtrd_file_refused{file="two.json"}'), 1)


@part
def pipe_for_a_file(given):
    """A pipe in the place of a file is refused. The daemon does not block on it."""
    put("list.json", text_of(FIRST))
    with running(given.program, "--vrps", "list.json", "--listen", "127.0.0.1:0", "--check", "1") as daemon:
        port = daemon.listens()
        os.mkfifo("pipe")
        os.replace("pipe", "list.json")
        daemon.wait("refused", file="list.json", reason="cannot be read: not a regular file")
        expect("what is served with a pipe in its place", Router(port).catch_up(), set(FIRST))
        put("list.json", text_of(SECOND))
        daemon.wait("taken", file="list.json")
        daemon.wait("published", records=len(SECOND))
        expect("what is served after the pipe", Router(port).catch_up(), set(SECOND))


@part
def large_file(given):
    """A file of more bytes than --max-size is refused, at the start too."""
    small, large = text_of(FIRST), text_of(SECOND) + " " * 1000
    most = str(len(small))
    put("list.json", small)
    with running(given.program, "--vrps", "list.json", "--listen", "127.0.0.1:0", "--check", "1", "--max-size", most) as daemon:
        port = daemon.listens()
        put("list.json", large)
        daemon.wait("refused", file="list.json", reason="cannot be read: larger than --max-size allows")
        expect("what is served with a file that is too large", Router(port).catch_up(), set(FIRST))
        put("list.json", text_of(SECOND))
        daemon.wait("taken", file="list.json")
    put("list.json", large)
    words = [given.program, "--vrps", "list.json", "--listen", "127.0.0.1:0", "--max-size", most]
    status = subprocess.run(words, stdin=subprocess.DEVNULL, capture_output=True, timeout=PATIENCE)
    expect("a start with a file that is too large", (status.returncode, b"--max-size" in status.stderr), (3, True))


@part
def sparse_file(given):
    """A sparse file is refused at its first byte, and costs at most a tenth more memory than it has bytes, beside that of the program."""
    size = 256 << 20
    with open("sparse.json", "wb") as it:
        it.truncate(size)
    ran = subprocess.Popen([given.program, "--check-config", "--vrps", "sparse.json"], stdin=subprocess.DEVNULL, stdout=subprocess.DEVNULL, stderr=subprocess.PIPE, text=True)
    with ran.stderr:
        said = ran.stderr.read()
    _, status, used = os.wait4(ran.pid, 0)
    ran.returncode = os.waitstatus_to_exitcode(status)
    expect("a sparse file", (ran.returncode, "not JSON: it begins with a zero byte (fault 1)" in said), (1, True))
    expect("its memory", used.ru_maxrss * 1024 < size * 11 // 10 + (32 << 20), True)


@part
def old_by_its_file(given):
    """The age of a file without a time of its own is that of the file in the file system. So it is if the time is in milliseconds."""
    for text in text_of(FIRST), json.dumps({"metadata": {"generated": int(time.time() * 1000)}, "roas": json.loads(text_of(FIRST))}):
        put("list.json", text)
        put("slurm.json", SLURM)
        for name in "list.json", "slurm.json":
            os.utime(name, (time.time() - 7200,) * 2)
        words = ["--vrps", "list.json", "--slurm", "slurm.json", "--listen", "127.0.0.1:0", "--check", "1", "--max-age"]
        with running(given.program, *words, "3600", "--stop-when-old") as daemon:
            expect("the age of a file", 7200 <= int(daemon.wait("old", file="list.json")["age"]) < 7200 + PATIENCE, True)
            expect("the end of the daemon", daemon.status(), 1)
        with running(given.program, *words, "3600") as daemon:
            daemon.wait("old", file="list.json")
            port = daemon.listens()
            os.utime("list.json")
            daemon.wait("fresh", file="list.json")
            expect("what is served of it", Router(port).catch_up(), set(FIRST))


@part
def expired_of_bad_files(given):
    """Entries leave at the second of their expiry, even if their file is refused or missing. Of two entries of one record the later expiry counts."""
    until = int(time.time()) + 5
    put("bad.json", json.dumps({"roas": [entry_of("192.0.2.0/24", 24, 64496, expires=until), entry_of("198.51.100.0/24", 26, 64497)]}))
    put("gone.json", json.dumps({"roas": [entry_of("203.0.113.0/24", 24, 64499, expires=until), entry_of("10.0.0.0/8", 8, 64500, expires=until), entry_of("10.0.0.0/8", 8, 64500, expires=until + 3600)]}))
    with running(given.program, "--vrps", "bad.json", "--vrps", "gone.json", "--listen", "127.0.0.1:0", "--check", "1", "--status", "127.0.0.1:0") as daemon:
        at, port = daemon.serves()
        router = Router(at)
        lasting = {("198.51.100.0/24", 26, 64497), ("10.0.0.0/8", 8, 64500)}
        expect("before the expiry", router.catch_up(), lasting | {("192.0.2.0/24", 24, 64496), ("203.0.113.0/24", 24, 64499)})
        put("bad.json", '{"roas":[')
        os.unlink("gone.json")
        daemon.wait("refused", file="bad.json")
        daemon.wait("refused", file="gone.json")
        daemon.wait("expired", file="bad.json", entries=1)
        daemon.wait("expired", file="gone.json", entries=1)
        daemon.wait("published", withdrawn=2, records=2)
        router.wait_notify()
        expect("entries that have expired, of a file that is bad and one that is gone", router.catch_up(), lasting)
        metrics = metrics_of(port)
        expect("expired entries in the metrics", [metrics.get(f'rpkirtrd_file_expired_entries{{file="{it}"}}') for it in ("bad.json", "gone.json")], [1, 1])
        put("bad.json", json.dumps({"roas": [entry_of("198.51.100.0/24", 26, 64497)]}))
        daemon.wait("taken", file="bad.json")
        expect("expired entries of a file that is taken again", metrics_of(port).get('rpkirtrd_file_expired_entries{file="bad.json"}'), 0)


@part
def expired_before_the_load(given):
    """Entries that had expired when a file was loaded are counted, at the start and at a poll. The page has the words of a refusal."""
    old, soon = int(time.time()) - 3600, int(time.time()) + 3600
    lasting = [entry_of(*FIRST[0], expires=soon)]
    put("list.json", json.dumps({"roas": [*lasting, entry_of("203.0.113.0/24", 24, 64499, expires=old)]}))
    expired = 'rpkirtrd_file_expired_entries{file="list.json"}'
    with running(given.program, "--vrps", "list.json", "--listen", "127.0.0.1:0", "--check", "1", "--status", "127.0.0.1:0") as daemon:
        at, port = daemon.serves()
        expect("expired entries at the start", metrics_of(port).get(expired), 1)
        expect("what is served", Router(at).catch_up(), {FIRST[0]})
        put("list.json", json.dumps({"roas": [*lasting, entry_of("203.0.113.0/24", 24, 64499, expires=old), entry_of("10.0.0.0/8", 8, 64500, expires=old)]}))
        daemon.wait("expired", file="list.json", entries=2)
        expect("expired entries at a poll", metrics_of(port).get(expired), 2)
        put("list.json", "[{")
        daemon.wait("refused", file="list.json")
        expect("the words of the refusal on the page", "not JSON at line 1, column 3 (fault 1)" in got(port, "/")[2], True)


@part
def checked_as_it_starts(given):
    """--check-config counts an entry that expires in an hour, and not one that has expired. Its status is that of a start with --stop-when-old."""
    now = int(time.time())
    put("list.json", json.dumps({"roas": [entry_of(*FIRST[0], expires=now + 3600), entry_of("203.0.113.0/24", 24, 64499, expires=now - 1)]}))
    for words, status in ([], 0), (["--max-age", "3600"], 0), (["--max-age", "3600", "--stop-when-old"], 0):
        ran = subprocess.run([given.program, "--check-config", "--vrps", "list.json", *words], stdin=subprocess.DEVNULL, capture_output=True, text=True, timeout=60)
        expect(f"the check with {words}", (ran.returncode, " checked files=1 ipv4=1 ipv6=0 left-out=0\n" in ran.stderr), (status, True))
    os.utime("list.json", (now - 7200, now - 7200))
    for words, status in (["--max-age", "3600"], 0), (["--max-age", "3600", "--stop-when-old"], 1):
        ran = subprocess.run([given.program, "--check-config", "--vrps", "list.json", *words], stdin=subprocess.DEVNULL, capture_output=True, text=True, timeout=60)
        expect(f"the check of an old list with {words}", ran.returncode, status)


@part
def refusals_in_words(given):
    """A refusal names the entry, the member and its value; a name that is there twice; or the line and the column."""
    good = json.dumps({"roas": [entry_of(*FIRST[0])]})
    put("export.json", good)
    put("slurm.json", SLURM)
    spoiled = [
        ("export.json", json.dumps({"roas": [entry_of(*FIRST[0]), entry_of("::ffff:0:0/96x", 96, 1)]}), 'entry 1 of roas: prefix "::ffff:0:0/96x" is not a prefix (fault 3)'),
        ("export.json", json.dumps({"roas": [entry_of("192.0.2.1/24", 24, 1)]}), 'entry 0 of roas: prefix "192.0.2.1/24" has host bits set (fault 3)'),
        ("export.json", json.dumps({"roas": [{**entry_of(*FIRST[0]), "maxLength": "24"}]}), 'entry 0 of roas: maxLength "24" is a string, must be a number (fault 3)'),
        ("export.json", "\ufeff" + good, "not JSON: it begins with a byte order mark, save it without one (fault 1)"),
        ("export.json", '{"roas":[],"roas":[]}', "roas is repeated in the file (fault 6)"),
        ("export.json", '{"roas":[],"aspas":[],"aspas":[]}', "aspas is repeated in the file (fault 6)"),
        ("export.json", '{\n"roas":[,]}', "not JSON at line 2, column 9 (fault 1)"),
        ("slurm.json", json.dumps({**EXCEPTIONS, "slurmVersion": 2}), "slurmVersion is 2, must be 1: version 2 (ASPA) is not served (fault 3)"),
        ("slurm.json", SLURM.replace('"bgpsecFilters": []', '"prefixFilters": []'), '"prefixFilters" is repeated in validationOutputFilters (fault 8)'),
    ]
    with running(given.program, "--vrps", "export.json", "--slurm", "slurm.json", "--listen", "127.0.0.1:0", "--check", "1") as daemon:
        daemon.wait("ready")
        for file, text, reason in spoiled:
            put(file, text)
            expect(f"{file} with {text}", unescaped(daemon.wait("refused", file=file)["reason"]), reason)
            put(file, good if file == "export.json" else SLURM)
            daemon.wait("taken", file=file)
    for text, words, status, said in [(spoiled[0][1], [], 1, spoiled[0][2]), (spoiled[0][1], ["--check-config"], 1, spoiled[0][2]), (good, ["--check-config"], 0, " checked files=2 ipv4=1 ipv6=0 left-out=0\n")]:
        put("export.json", text)
        ran = subprocess.run([given.program, "--vrps", "export.json", "--slurm", "slurm.json", "--listen", "127.0.0.1:0", *words], stdin=subprocess.DEVNULL, capture_output=True, text=True, timeout=PATIENCE)
        expect(f"a start {words} with {text}", (ran.returncode, said in ran.stderr), (status, True))


@part
def given_twice(given):
    """A path that is given twice is read once, with one warning, and has one series in each metric."""
    words = ["--vrps", "list.json", "--vrps", "./list.json", "--vrps", "list.json", "--check", "1"]
    with running(given.program, *words, "--listen", "127.0.0.1:0", "--status", "127.0.0.1:0") as daemon:
        at, port = daemon.serves()
        warnings = [it for it in daemon.said if "is given twice" in it]
        expect("the warning", [it.partition("reason=")[2] for it in warnings], ['"--vrps list.json is given twice: it is read once"'])
        series = [it for it in got(port, "/metrics")[2].splitlines() if it.startswith("rpkirtrd_file_refused{")]
        expect("the series", series, ['rpkirtrd_file_refused{file="list.json"} 0', 'rpkirtrd_file_refused{file="./list.json"} 0'])
        expect("the table", Router(at).catch_up(), set(FIRST))


@part
def times_that_are_none(given):
    """An export without a time of its own ages from its load, if its modification time is ahead of the clock, or before 1970."""
    for modified in time.time() + 3600, -1:
        put("list.json", text_of(FIRST))
        os.utime("list.json", (modified, modified))
        with running(given.program, "--vrps", "list.json", "--max-age", "2", "--listen", "127.0.0.1:0", "--check", "1") as daemon:
            daemon.listens()
            expect("its age", int(daemon.wait("old", file="list.json")["age"]) in (3, 4), True)
