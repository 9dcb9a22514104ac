#!/usr/bin/env python3
"""Compares the texts of the status pages, the log, the options and the faults with those that are written here. The program page_texts prints
them for made-up values.

usage: tests/page_texts.py PROGRAM

A whole text stands in tests/texts, a page without its style. Requests and their responses stand in tests/page_requests.py, and command lines
in tests/page_options.py. Each text that differs is printed with its words and the first place. The status is 1 where one differs."""
import os
import re
import subprocess
import sys

import page_options
import page_requests

TEXTS = os.path.join(os.path.dirname(os.path.abspath(__file__)), "texts")

# Each stored text, with the words that print it.
WHOLE = {
    "page-empty.html": "page empty",
    "page-named.html": "page named",
    "page-well.html": "page well",
    "page-failing.html": "page failing",
    "page-huge.html": "page huge",
    "route-page-valid.html": "route-page 192.0.2.0/25 64496",
    "route-page-not-found.html": "route-page 2001:db8::/32 64496",
    "metrics-empty.txt": "metrics empty",
    "metrics-small.txt": "metrics small",
    "help.txt": "settings --help",
    "log.txt": "log text",
    "log.json": "log json",
    "log.systemd": "log systemd",
    "times.txt": "times",
    "faults.txt": "faults",
    "values.txt": "values",
}

# Words, with the whole text.
SHORT = {
    "csv": "ASN,IP Prefix,Max Length\n",
    "csv small": "ASN,IP Prefix,Max Length\nAS64496,192.0.2.0/24,25\nAS4294967295,2001:db8::/32,48\n",
    "routinator-csv": "ASN,IP Prefix,Max Length,Trust Anchor\n",
    "routinator-csv small": "ASN,IP Prefix,Max Length,Trust Anchor\nAS64496,192.0.2.0/24,25,\nAS4294967295,2001:db8::/32,48,\n",
    "roas": "[]",
    "roas small":
        '[{"asn":"AS64496","prefix":"192.0.2.0/24","maxLength":25,"ta":""},{"asn":"AS4294967295","prefix":"2001:db8::/32","maxLength":48,"ta":""}]',
    "routinator-export": '{"metadata":{"generated":1795653420,"generatedTime":"2026-11-26T00:37:00Z"},"roas":',
    "api-status empty": '{"version":"rpkirtrd/0.1.0","serial":0,"now":"2026-11-26T00:37:00Z","tals":{},'
        '"rtr":{"currentConnections":0,"bytesRead":0,"bytesWritten":0}}',
    "export": '{"metadata":{"buildtime":"2026-11-26T00:37:00Z","generated":1795653420,"vrps":523456},"roas":',
}

REFUSED = (
    '/srv/<b>\\"a\\\\b\\"&c\\n.json: refused since 2026-11-26T00:33:40Z: entry 3 of roas cannot be read: <prefix> is not a prefix (fault 3); '
    "none of its data were loaded yet\n"
)
OLD = "/var/db/rpki-client/json: its data are older than the maximum age\n"

# The health of caches: whether they are healthy, and the text. A file of the small cache is refused since 200 seconds; it is 1795653420 then.
HEALTH = {
    "empty": "ill\nno version is published yet\n",
    "first": "ill\nno VRPs are served\n",
    "small": "healthy\nok\n",
    "200 1795653420": "healthy\nok\n",
    "199 1795653420": f"ill\n{REFUSED}",
    "none 1795656820": "healthy\nok\n",
    "none 1795656821": f"ill\n{REFUSED}",
    "86400 1795656820": "healthy\nok\n",
    "86400 1795656821": f"ill\n{REFUSED}",
    "none 0": "healthy\nok\n",
    "old": f"ill\n{OLD}{REFUSED}",
    "silent": f"ill\n{OLD}{REFUSED}no version is published yet\n",
    "with failing 0": "ill\npublication fails since 2026-11-26T00:35:00Z: more than <16777215> records (fault 1)\n",
    "with expired 12 vrps 0": "ill\n/var/db/rpki-client/json: all its entries have expired\n",
    "with refused 3601":
        "ill\n/var/db/rpki-client/json: refused since 2026-11-25T23:36:59Z: not JSON (fault 1); its previous data are served\n",
    "with peak 700000 ipv4 3 ipv6 0": "healthy\nok\n",
    "with old 1 peak 700000 ipv4 3 ipv6 0 away 5":
        f"ill\n{OLD}the table shrank: 700000 to 3 VRPs at 2026-11-26T00:36:00Z\n"
        "routers were turned away by --clients: 3, the last at 2026-11-26T00:36:55Z\n",
    "with anchor 3 anchor-peak 12000": "healthy\nok\n",
    "with old 1 anchor 3 anchor-peak 12000":
        f"ill\n{OLD}/var/db/rpki-client/json: ripe shrank: 12000 to 3 VRPs at 2026-11-26T00:36:00Z\n",
    "with given 0 away-of-address 0":
        "ill\nno VRPs are served\nrouters were turned away by --clients-per-address: 3, the last at 2026-11-26T00:37:00Z\n",
}

# The reasons why a cache is not well, and whether it is well, healthy and ready: both sides of each boundary.
REASONS = {
    "with": "well healthy ready\n",
    "with ipv4 0 ipv6 0": "no_vrps unwell ill unready\n",
    "with ipv4 0 ipv6 1": "well healthy ready\n",
    "with given 0": "no_vrps unwell ill unready\n",
    "with given 1": "well healthy ready\n",
    "with failing 0": "publication unwell ill unready\n",
    "with old 1": "old unwell ill ready\n",
    "with expired 12 vrps 0": "old unwell ill ready\n",
    "with expired 12 vrps 1": "well healthy ready\n",
    "with expired 0 vrps 0": "well healthy ready\n",
    "with refused 0": "refused unwell healthy ready\n",
    "with refused 3600": "refused unwell healthy ready\n",
    "with refused 3601": "refused_long refused unwell ill ready\n",
    "with refused 100 max-age 100": "refused unwell healthy ready\n",
    "with refused 101 max-age 100": "refused_long refused unwell ill ready\n",
    "with refused 3600 max-age 86400": "refused unwell healthy ready\n",
    "with refused 3601 max-age 86400": "refused_long refused unwell ill ready\n",
    "with no-serial 0": "no_version unwell ill unready\n",
    "with no-serial 0 ipv4 0 ipv6 0 given 0": "no_version unwell ill unready\n",
    "with peak 1000 ipv4 800 ipv6 0": "well healthy ready\n",
    "with peak 1000 ipv4 799 ipv6 0": "shrank unwell healthy ready\n",
    "with peak 1001 ipv4 801 ipv6 0": "well healthy ready\n",
    "with peak 1001 ipv4 800 ipv6 0": "shrank unwell healthy ready\n",
    "with peak 999 ipv4 1 ipv6 0": "well healthy ready\n",
    "with anchor 500 anchor-peak 1000": "well healthy ready\n",
    "with anchor 499 anchor-peak 1000": "shrank unwell healthy ready\n",
    "with anchor 501 anchor-peak 1001": "well healthy ready\n",
    "with anchor 500 anchor-peak 1001": "shrank unwell healthy ready\n",
    "with anchor 0 anchor-peak 1000": "shrank unwell healthy ready\n",
    "with anchor 0 anchor-peak 999": "well healthy ready\n",
    "with anchor 0": "well healthy ready\n",
    "with away 600": "turned_away unwell healthy ready\n",
    "with away 601": "well healthy ready\n",
    "with slow 3600": "slow_poll unwell healthy ready\n",
    "with slow 3601": "well healthy ready\n",
    "with slow-for 5000": "well healthy ready\n",
    "with slow-for 5001": "slow_poll unwell healthy ready\n",
    "with near-limit 900000000": "well healthy ready\n",
    "with behind 1": "clock unwell healthy ready\n",
    "with behind 1 slow 0 away 0 refused 3601 old 1 failing 0":
        "publication old refused_long refused turned_away slow_poll clock unwell ill unready\n",
}

# The state of a router: for how many seconds it is connected, how many seconds ago the last version was published, and how many versions it
# lacks.
STATES = {
    "100 59 0": '<td class="ok">current</td>',
    "100 59 1": "<td>1 version to send</td>",
    "100 60 1": '<td class="warn">1 version behind for 60\u202fs</td>',
    "100 0 2": '<td class="warn">2 versions behind for 60\u202fmin</td>',
    "100 0 9": '<td class="warn">9 versions behind for 60\u202fmin</td>',
    "59 0 none": '<td class="dim">nothing sent yet</td>',
    "60 0 none": '<td class="warn">nothing sent for 60\u202fs</td>',
}

# A route and its AS, its state and why it is not valid, and the records that match, are of another AS, or have too small a maximum.
SMALLER = ("AS0", "192.0.2.0/24", "24")
GREATER = ("AS64496", "192.0.2.0/24", "25")
OTHER = ("AS64497", "192.0.2.0/25", "25")
ROUTES = [
    ("192.0.2.0/25", "64496", "valid", None, [GREATER], [OTHER], [SMALLER]),
    ("192.0.2.0/24", "64497", "invalid", "as", [], [SMALLER, GREATER], []),
    ("192.0.2.128/26", "64496", "invalid", "length", [], [], [SMALLER, GREATER]),
    ("192.0.2.128/26", "64511", "invalid", "as", [], [], [SMALLER, GREATER]),
    ("2001:db8::/32", "4294967295", "not-found", None, [], [], []),
]


class Texts:
    """What the program prints, and how often that was not what was expected."""

    def __init__(self, program):
        self.program, self.compared, self.failed = program, 0, 0

    def run(self, words, given=""):
        """What it prints on standard output and standard error."""
        done = subprocess.run([self.program, *words], input=given.encode(), capture_output=True, timeout=60)
        if done.returncode:
            return f"status {done.returncode}: {done.stderr.decode()}", ""
        return done.stdout.decode(), done.stderr.decode()

    def check(self, what, holds, found=""):
        self.compared += 1
        if not holds:
            self.failed += 1
            print(f"{what}: {found}", file=sys.stderr)

    def same(self, what, found, wanted):
        """Compares two texts, and prints the first line that differs."""
        if found == wanted:
            return self.check(what, True)
        at = len(os.path.commonprefix([found, wanted]))
        line = wanted.count("\n", 0, at) + 1
        return self.check(what, False, f"line {line} differs: expected {wanted[at:at + 120]!r}, found {found[at:at + 120]!r}")


def without_style(page):
    return re.sub(r"(?s)(<style>\n).*?(</style>\n)", r"\1\2", page)


def compare_stored(texts):
    """Each text of tests/texts, all of which are compared."""
    texts.check("the files of tests/texts", sorted(os.listdir(TEXTS)) == sorted(WHOLE), sorted(set(os.listdir(TEXTS)) ^ set(WHOLE)))
    for name, words in WHOLE.items():
        with open(os.path.join(TEXTS, name), encoding="utf-8", newline="") as it:
            texts.same(f"{words} (tests/texts/{name})", without_style(texts.run(words.split(" "))[0]), it.read())
    for words, wanted in SHORT.items():
        texts.same(words, texts.run(words.split(" "))[0], wanted)


def compare_status(texts):
    for words, wanted in HEALTH.items():
        texts.same(f"health {words}", texts.run(["health", *words.split(" ")])[0], wanted)
    for words, wanted in REASONS.items():
        texts.same(f"reasons {words}", texts.run(["reasons", *words.split(" ")])[0], wanted)
    for words, state in STATES.items():
        page = texts.run(["page", *words.split(" ")])[0]
        texts.check(f"page {words}", state in page, f"no {state}")
        texts.check(f"page {words}", ("1 of 1 router is behind. " in page) == ("warn" in state), "what is told of routers that are behind")
    page = texts.run(["page", "with", "slow-for", "7000", "near-limit", "900000000"])[0]
    slow = "A call on /var/db/rpki-client/json took 7\u202fs at <time "
    near = ', <span class="warn">900\u202f000\u202f000 bytes, near --max-size</span>'
    texts.check("page with slow-for", slow in page and near in page, "no call that took long, or no size near the maximum")
    page = texts.run(["page", "with", "anchor", "3", "anchor-peak", "12000"])[0]
    shrank = "/var/db/rpki-client/json: ripe shrank from 12\u202f000 to 3 VRPs at <time "
    texts.check("page with anchor", "<title>A trust anchor shrank. rpkirtrd</title>" in page and shrank in page, "no trust anchor that shrank")
    for anchor, series in ("523457", []), ("523456", []), ("500456", []), ("500455", ["1"]):
        metrics = texts.run(["metrics", "with", "anchor", anchor])[0]
        found = re.findall(r'\nrpkirtrd_source_vrps{source="/var/db/rpki-client/json",ta=""} (.*)', metrics)
        texts.check(f"metrics with anchor {anchor}", found == series, found)
    page = texts.run(["page", "empty"])[0]
    texts.check("page empty", "<script" not in page and "http:" not in page, "it asks for something else")
    metrics = texts.run(["metrics", "crowded"])[0]
    texts.check("metrics with near-limit", '\nrpkirtrd_file_near_limit{file="/var/db/rpki-client/json"} 1\n' in texts.run(["metrics", "with", "near-limit", "1"])[0])
    for line in ("rpkirtrd_publication_failing 1", "rpkirtrd_clients 300", "rpkirtrd_routers_without_metrics 44"):
        texts.check("metrics crowded", f"\n{line}\n" in metrics, f"no {line}")
    texts.check("metrics crowded", metrics.count("rpkirtrd_router_serial{") == 255, "the number of routers")


def compare_routes(texts):
    for prefix, asn, state, reason, matched, of_other, too_short in ROUTES:
        wanted = page_requests.route(f"AS{asn}", prefix, state, reason, matched=matched, unmatched_as=of_other, unmatched_length=too_short)
        texts.same(f"route {prefix} {asn}", texts.run(["route", prefix, asn])[0], wanted)


def compare_responses(texts):
    """The response to each request, in pieces of each length."""
    bodies = {"page": texts.run(["page", "small"])[0], "metrics": texts.run(["metrics", "small"])[0]}
    for row in page_requests.EVERY:
        for piece in row.pieces:
            what = f"http {row.cache} {piece} {row.name or ''} {row.request[:70]!r}"
            found, state = texts.run(["http", row.cache, str(piece), *([row.name] if row.name else [])], row.request)
            if row.whole is not None:
                texts.same(what, found, page_requests.filled(row.whole, bodies))
            texts.check(what, found.startswith(row.begin), f"expected {row.begin!r}, found {found[:200]!r}")
            for part in row.parts:
                texts.check(what, part in found, f"no {part!r} in {found[:400]!r}")
            texts.check(what, row.state in (None, state.strip()), f"the connection is {state.strip()}")


def compare_options(texts):
    for line, part in page_options.READ:
        found = texts.run(["settings", *line.split()])[0]
        texts.check(f"settings {line}", part in found, f"expected {part!r}, found {found[:400]!r}")
    for line, reason in page_options.refused():
        texts.same(f"settings {line}", texts.run(["settings", *line.split()])[0], f"{reason}\n")
    lines = texts.run(["settings", "--help"])[0].splitlines()
    texts.check("settings --help", all(len(it) <= 80 and it == it.rstrip() for it in lines), "a line is too long, or ends in a blank")


def main(program):
    texts = Texts(program)
    compare_stored(texts)
    compare_status(texts)
    compare_routes(texts)
    compare_responses(texts)
    compare_options(texts)
    print(f"{texts.compared - texts.failed} passed, {texts.failed} failed")
    return 1 if texts.failed else 0


if __name__ == "__main__":
    if len(sys.argv) != 2:
        print(__doc__, file=sys.stderr)
        sys.exit(2)
    sys.exit(main(sys.argv[1]))
