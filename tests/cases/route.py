"""`route`: the state of a route over a payload list (RFC 6811)."""
from cases.shared import BAD_JSON, DEVICE, FULL, V_JSON, Case, bad_words, device_failed

ROUTES_JSON = {
    "routes.json": '[{"asn":64496,"maxLength":25,"prefix":"192.0.2.0/24"},{"asn":0,"maxLength":24,"prefix":"192.0.2.0/24"},'
    '{"asn":1,"maxLength":48,"prefix":"2001:db8::/32"}]'
}


def state(name, route, output):
    return Case(name, f"route --vrps routes.json {route}", 0, f"{output}\n", files=ROUTES_JSON)


STATES = [
    state("as-long-as-the-maximum-length", "192.0.2.0/25 64496", "valid"),
    state("longer-than-the-maximum-length", "192.0.2.0/26 64496", "invalid"),
    state("no-origin", "192.0.2.0/24 none", "invalid"),
    state("as-0", "192.0.2.0/24 0", "invalid"),
    state("shorter-than-each-prefix", "192.0.0.0/16 64496", "not-found"),
    state("shorter-than-each-prefix-and-no-origin", "192.0.0.0/16 none", "not-found"),
    state("ipv6-in-another-spelling", "2001:DB8:0:0::/48 1", "valid"),
    state("greatest-as", "192.0.2.0/24 4294967295", "invalid"),
    Case("the-list-behind-the-route", "route 192.0.2.0/24 64496 --vrps routes.json", 0, "valid\n", files=ROUTES_JSON),
]


def states(name, records, *routes):
    """Routes with their states over one list: a record has its prefix, maximum length and AS, and a route its prefix, origin and state."""
    entries = (it.split(" ") for it in records)
    listed = ",".join(f'{{"asn":{asn},"maxLength":{longest},"prefix":"{prefix}"}}' for prefix, longest, asn in entries)
    files = {"list.json": f"[{listed}]"}
    rows = (it.split(" ") for it in routes)
    return [Case(f"{name}-{prefix}-{origin}", f"route --vrps list.json {prefix} {origin}", 0, f"{word}\n", files=files) for prefix, origin, word in rows]


STATES_OF_TABLES = [
    states(
        "as-0-beside-another",
        ["192.0.2.0/24 25 64496", "192.0.2.0/24 24 0"],
        "192.0.2.0/25 64496 valid",
        "192.0.2.0/26 64496 invalid",
        "192.0.2.0/24 none invalid",
        "192.0.2.0/24 0 invalid",
        "192.0.0.0/16 64496 not-found",
    ),
    states(
        "nested-prefixes",
        ["10.0.0.0/8 24 1", "10.1.0.0/16 16 2"],
        "10.1.2.0/24 1 valid",
        "10.1.0.0/16 2 valid",
        "10.1.0.0/25 1 invalid",
        "10.1.2.0/24 2 invalid",
        "11.0.0.0/8 1 not-found",
    ),
    states(
        "three-nested-prefixes",
        ["10.0.0.0/8 8 1", "10.1.0.0/16 24 2", "10.1.2.0/24 24 3"],
        "10.0.0.0/8 1 valid",
        "10.0.0.0/9 1 invalid",
        "10.1.0.0/16 1 invalid",
        "10.1.0.0/16 2 valid",
        "10.1.2.0/24 2 valid",
        "10.1.2.0/24 3 valid",
        "10.1.2.0/25 3 invalid",
        "10.1.3.0/24 3 invalid",
        "10.1.3.0/24 2 valid",
        "10.2.0.0/16 2 invalid",
        "10.0.0.0/7 1 not-found",
        "11.0.0.0/8 1 not-found",
        "10.1.2.0/24 none invalid",
        "9.0.0.0/8 none not-found",
    ),
    states(
        "several-maxima",
        ["198.51.100.0/24 24 10", "198.51.100.0/24 26 10", "198.51.100.0/24 25 11"],
        "198.51.100.0/24 10 valid",
        "198.51.100.0/26 10 valid",
        "198.51.100.192/26 11 invalid",
        "198.51.100.128/25 11 valid",
        "198.51.100.0/27 10 invalid",
        "198.51.100.0/24 12 invalid",
        "198.51.101.0/24 10 not-found",
        "198.51.100.0/23 10 not-found",
    ),
    states(
        "as-0",
        ["203.0.113.0/24 32 0", "203.0.113.0/24 24 20", "192.0.2.0/24 32 0"],
        "203.0.113.0/24 20 valid",
        "203.0.113.0/25 20 invalid",
        "203.0.113.0/24 0 invalid",
        "192.0.2.0/24 20 invalid",
        "192.0.2.1/32 0 invalid",
        "192.0.2.0/24 none invalid",
        "192.0.0.0/16 0 not-found",
    ),
    states(
        "all-addresses",
        ["0.0.0.0/0 8 30", "::/0 0 31"],
        "0.0.0.0/0 30 valid",
        "10.0.0.0/8 30 valid",
        "10.0.0.0/9 30 invalid",
        "255.255.255.255/32 31 invalid",
        "::/0 31 valid",
        "::/0 30 invalid",
        "2001:db8::/32 31 invalid",
    ),
    states(
        "families",
        ["2001:db8::/32 48 40", "2001:db8:1::/48 64 41", "0.0.0.0/0 32 40"],
        "2001:db8::/32 40 valid",
        "2001:db8:1::/48 40 valid",
        "2001:db8:1::/48 41 valid",
        "2001:db8:1::/49 40 invalid",
        "2001:db8:1::/64 41 valid",
        "2001:db8:1::/65 41 invalid",
        "2001:db8:2::/64 41 invalid",
        "2001:db9::/32 40 not-found",
        "2001::/16 40 not-found",
        "::/0 40 not-found",
    ),
]


def refused(name, prefix, origin):
    return Case(name, ["route", "--vrps", "routes.json", prefix, origin], 1, "refused word\n", files=ROUTES_JSON)


REFUSED_WORDS = [
    refused("origin-of-33-bits", "192.0.2.0/24", "4294967296"),
    refused("origin-with-a-leading-zero", "192.0.2.0/24", "064496"),
    refused("origin-with-letters-before", "192.0.2.0/24", "AS64496"),
    refused("none-in-capitals", "192.0.2.0/24", "NONE"),
    refused("origin-empty", "192.0.2.0/24", ""),
    refused("origin-with-a-sign", "192.0.2.0/24", "+5"),
    refused("origin-with-a-blank-behind", "192.0.2.0/24", "5 "),
    refused("prefix-with-a-bit-behind-its-length", "192.0.2.1/24", "64496"),
    refused("prefix-longer-than-its-family", "192.0.2.0/33", "64496"),
    refused("prefix-without-a-length", "192.0.2.0", "64496"),
]
# Texts of no prefix: of a length, of an IPv4 address, of an address in mixed notation, of a wrong count of groups, and of other characters.
NO_PREFIXES = (
    *("192.0.2.0/1000", "::/1000", "::/4294967296", "::/01", "::/00", "::/+1", "::/-1", "::/a", "::/", "::", "::/0/0", "::0//0"),
    *("", "/", "/0", " ", " ::/0", ":: /0", "::/ 0", "::/0 ", "192.0.2.0/33", "192.0.2.1/33", "192.0.2.0/256", "192.0.2.0/999", "::/129"),
    *("::1/256", "::/999", "0.0.0.1/0", "8000::/0", "2001:db8::1/64", "2001:0DB8::CD30/60"),
    *("192.0.02.0/24", "192.0.2/24", "192.0.2.0.0/24", "192.0.2./24", "192.0.256.0/24", "192.0.+2.0/24"),
    *("0:0:0:0:0:0:13.1.68.3/128", "::1.2.3.4/128", "::FFFF:129.144.52.38/128"),
    *("1::2::3/64", "1:2:3:4:5:6:7:8::/128", "::1:2:3:4:5:6:7:8/128", "1:2:3:4::5:6:7:8/128", "1:2:3:4:5:6:7/128", "1:2:3:4:5:6:7:8:9/128"),
    *("2001:0DB8:0:CD3/60", ":::/0", ":/0", ":1::/128", "1::2:/128", "12345::/16", "g::/16", "[::]/0", "fe80::%1/128"),
)
REFUSED_PREFIXES = [refused(f"no-prefix-{it}", it, "64496") for it in NO_PREFIXES]

BAD_WORDS = [
    bad_words("an-empty-word", ["route", ""]),
    bad_words("without-a-route", "route --vrps gone.json"),
    bad_words("without-an-origin", "route --vrps gone.json 192.0.2.1/24"),
    bad_words("two-origins", "route --vrps gone.json 192.0.2.1/24 64496 64497"),
    bad_words("without-a-list", "route 192.0.2.1/24 64496"),
    bad_words("two-lists", "route --vrps gone.json --vrps gone.json 192.0.2.1/24 64496"),
    bad_words("unknown-option", "route --vrps gone.json --serial 1 192.0.2.1/24 64496"),
    bad_words("session0-of-a-cache", "route --session0 1 --vrps v.json 192.0.2.0/24 1", V_JSON),
]

ORDER_OF_REFUSALS = [
    # the words come before the prefix and the origin, these before the file, and the file before its list
    Case("refused-prefix-before-the-file", "route --vrps gone.json 192.0.2.1/24 64496", 1, "refused word\n"),
    device_failed("no-such-file", "route --vrps gone.json 192.0.2.0/24 64496"),
    Case("refused-origin-before-the-list", "route --vrps bad.json 192.0.2.0/24 +1", 1, "refused word\n", files=BAD_JSON),
    Case("refused-list", "route --vrps bad.json 192.0.2.0/24 64496", 1, "refused list\n", files=BAD_JSON),
    # a failed output comes before a refusal
    Case("a-full-output", "route --vrps v.json 192.0.2.0/24 64496", 3, FULL, DEVICE, V_JSON),
    Case("a-full-output-before-a-refused-prefix", "route --vrps v.json 192.0.2.1/24 64496", 3, FULL, DEVICE, V_JSON),
]
