"""`roa`: the entries of the payload of a ROA, or its first fault."""
from cases.shared import AS, DEVICE, FULL, IPV4, IPV6, NET, OF_IPV6, ONE_PREFIX, SUPERFLUOUS, WITH_VERSION, Case, bad_words, device_failed, lines
from der import element

PRINTED = "192.0.2.0/24 24 64496\n"


def reads(name, payload, status, output):
    payload = payload if isinstance(payload, bytes) else bytes.fromhex(payload)
    return Case(name, "roa payload.der", status, output, files={"payload.der": payload})


PAYLOADS = [
    reads("one-prefix", ONE_PREFIX, 0, PRINTED),
    reads("ipv6", f"301b {AS} 3014 {OF_IPV6}", 0, "2001:db8::/32 48 64496\n"),
    reads("no-bits", f"3014 {AS} 300d 300b {IPV4} 3005 3003 030100", 0, "0.0.0.0/0 0 64496\n"),
    reads("a-superfluous-maximum-length", SUPERFLUOUS, 1, "refused 20 at 25\n"),
    reads("a-version", WITH_VERSION, 1, "refused 6 at 2\n"),
    reads(
        "a-superfluous-maximum-length-of-the-second-entry",
        f"3022 {AS} 301b 3019 {IPV4} 3013 3006 {NET} 3009 {NET} 020118",
        1,
        "refused 20 at 33\n",
    ),
    reads("an-entry-twice", f"301f {AS} 3018 3016 {IPV4} 3010 3006 {NET} 3006 {NET}", 1, "refused 12 at 25\n"),
    reads("no-bytes", b"", 1, "refused 1 at 0\n"),
]

# Bytes that are no ROA, and the first fault: its number and its offset.
FAULTS = {
    f"3028 {AS} 3021 301f {IPV6} 3019 3017 03110020010db8000000000000000000000001 02020080": "20 at 38",
    f"3027 {AS} 3020 301e {IPV6} 3018 3016 03110020010db8000000000000000000000001 020180": "11 at 38",
    f"3017 {AS} 3010 300e {IPV4} 3008 3006 030401c00003": "4 at 19",
    f"301a {AS} 3013 3011 {IPV4} 300b 3009 {NET} 020121": "11 at 25",
    f"301a {AS} 3013 3011 {IPV4} 300b 3009 {NET} 020117": "11 at 25",
    f"3027 {AS} 3020 300e {IPV4} 3008 3006 {NET} 300e {IPV4} 3008 3006 {NET}": "8 at 27",
    f"302b {AS} 3024 3012 {IPV6} 300c 300a 03050020010db8 020130 300e {IPV4} 3008 3006 {NET}": "12 at 31",
    f"303f {AS} 3038 300e {IPV4} 3008 3006 {NET} 3012 {IPV6} 300c 300a 03050020010db8 020130 3012 {IPV6} 300c 300a 03050020010db8 020130": "5 at 45",
    f"3007 {AS} 3000": "9 at 7",
    "3007 02050100000000": "7 at 2",
    "3080": "3 at 0",
    "3004 02020001": "4 at 2",
    "3003 020180": "7 at 2",
    f"3005 {AS}": "1 at 7",
    "3084ffffffff": "1 at 0",
    "30850000000001": "3 at 0",
    f"308117 {AS} 3010 300e {IPV4} 3008 3006 {NET}": "3 at 0",
    "1f00": "2 at 0",
    "a000": "2 at 0",
    "3002 a000": "6 at 2",
    "3001 a0": "1 at 2",
    f"3017 {AS} 3010 300e {IPV4} 3009 3006 {NET}": "1 at 15",
    f"3017 {AS} 3010 300e {IPV4} 3008 3005 {NET}": "1 at 19",
    f"3017 {AS} 3010 300e {IPV4} 3008 3006 {NET} 00": "5 at 25",
}
FAULTY = [reads(f"fault-{number}", payload, 1, f"refused {fault}\n") for number, (payload, fault) in enumerate(FAULTS.items())]

# Each beginning of these payloads is cut.
NO_BITS = bytes.fromhex(f"3014 {AS} 300d 300b {IPV4} 3005 3003 030100")
OF_ONE_IPV6 = bytes.fromhex(f"301b {AS} 3014 {OF_IPV6}")
CUT = [
    reads(f"cut-{name}-to-{count}-bytes", whole[:count], 1, "refused 1 at 0\n")
    for name, whole in (("one-prefix", ONE_PREFIX), ("no-bits", NO_BITS), ("ipv6", OF_ONE_IPV6))
    for count in range(1, len(whole))
]


def entries(count):
    """The entries of this many prefixes of 24 bits, from 0.0.0.0 on."""
    return b"".join(b"\x30\6\3\4\0" + it.to_bytes(3, "big") for it in range(count))


def long(inside, family=1, behind=""):
    """The payload of AS64496, of a family of this number with these entries, and of what follows the family."""
    block = element(48, bytes([4, 2, 0, family]) + element(48, inside)) + bytes.fromhex(behind)
    return element(48, bytes.fromhex(AS) + element(48, block))


def faulty_end(name, payload, number, before):
    """A payload with a fault of this number, this many bytes before its end."""
    return reads(name, payload, 1, f"refused {number} at {len(payload) - before}\n")


# A ROA has at most 65,536 entries.
MOST, ONE_LESS = entries(65536), entries(65535)
# What follows as many entries as there may be, and its fault. It is an entry with eight unused bits, one below the last, one of another tag,
# one of a length in too many bytes, and one that is cut.
LAST = {"3006 030408010000": 19, "3006 030400000000": 19, "3106 030400010000": 2, "308106 030400010000": 3, "3007 030400010000": 1}
# What follows a family, by its number, of as many entries as there may be: the same family, IPv4 after IPv6, a family without addresses, and
# one with an entry. The fault of this number is this many bytes before the end.
BEHIND = {
    (1, f"300e {IPV4} 3008 3006 {NET}"): (8, 14),
    (2, f"300e {IPV4} 3008 3006 {NET}"): (12, 14),
    (1, f"3006 {IPV6} 3000"): (9, 2),
    (1, f"300e {IPV6} 3008 3006 03040020010d"): (19, 8),
}
MANY = [
    reads("65536-entries", long(MOST), 0, lines(*(f"{n >> 16}.{n >> 8 & 255}.{n & 255}.0/24 24 64496" for n in range(65536)))),
    faulty_end("65537-entries", long(entries(65537)), 19, 8),
    *(faulty_end(f"an-entry-too-many-{at}", long(MOST + bytes.fromhex(it)), LAST[it], len(bytes.fromhex(it))) for at, it in enumerate(LAST)),
    *(faulty_end(f"a-family-behind-65536-entries-{at}", long(MOST, *it), *fault) for at, (it, fault) in enumerate(BEHIND.items())),
    # the last of as many entries as there may be is no greater than the one before it, and another one follows
    faulty_end("a-fault-before-an-entry-too-many", long(ONE_LESS + bytes.fromhex("3006 030400000000 3006 030400010000")), 12, 16),
]

WORDS = [
    # a word behind -- and a lone - are names
    Case("a-name-behind-two-hyphens", "roa -- -x.der", 0, PRINTED, files={"-x.der": ONE_PREFIX}),
    Case("a-hyphen", "roa -", 0, PRINTED, files={"-": ONE_PREFIX}),
    Case("a-hyphen-behind-two-hyphens", "roa -- -", 0, PRINTED, files={"-": ONE_PREFIX}),
    bad_words("no-words", "roa"),
    bad_words("two-files", "roa payload.der payload.der"),
    bad_words("a-hyphen-before-a-name", "roa -x.der"),
    bad_words("version-as-an-option", "roa --version"),
    # (as the system gives Python a byte ff)
    bad_words("a-word-that-is-no-utf-8", ["roa", "\udcff"]),
]

FAILED_DEVICES = [
    device_failed("no-such-file", "roa gone.der"),
    Case("no-such-file-and-full-streams", "roa gone.der", 3, FULL, FULL),
    # a failed output comes before a refusal
    Case("a-full-output", "roa payload.der", 3, FULL, DEVICE, {"payload.der": b""}),
    Case("a-full-output-and-an-empty-device", "roa /dev/null", 3, FULL, DEVICE),
]
