"""`manifest`: what the payload of a manifest says, or its first fault."""
from hashlib import sha256

from cases.shared import DEVICE, FULL, ONE_PREFIX, Case, bad_words, device_failed, lines, manifest
from der import element

# The SHA-256 of abc (FIPS 180-2 appendix B.1).
HASH_OF_ABC = "ba7816bf8f01cfea414140de5dae2223b00361a396177a9cb410ff61f20015ad"
WHOLE = manifest(1, "20250101000000Z", "20250102000000Z", "a.crl", b"abc")
EQUAL_TIMES = manifest(1, "20250101000000Z", "20250101000000Z", "a.crl", b"abc")

CASES = [
    Case(
        "whole",
        "manifest whole.der",
        0,
        lines("number 01", "this 20250101000000Z", "next 20250102000000Z", f"{HASH_OF_ABC} a.crl"),
        files={"whole.der": WHOLE},
    ),
    Case("both-times-alike", "manifest equal.der", 1, "refused 14 at 22\n", files={"equal.der": EQUAL_TIMES}),
    Case("no-bytes", "manifest empty.der", 1, "refused 1 at 0\n", files={"empty.der": b""}),
    bad_words("no-words", "manifest"),
    device_failed("no-such-file", "manifest gone.der"),
    Case("a-full-output", "manifest whole.der", 3, FULL, DEVICE, {"whole.der": WHOLE}),
]


def reads(name, payload, fault, *said):
    """A payload with this fault, or one of which this is said."""
    output = lines(*said) if fault is None else f"refused {fault}\n"
    return Case(name, "manifest payload.der", 0 if fault is None else 1, output, files={"payload.der": payload})


def changed(*changes):
    """The whole manifest with other bytes at some places."""
    payload = bytearray(WHOLE)
    for at, other in changes:
        payload[at : at + len(other)] = other
    return bytes(payload)


# Bytes at places of the whole manifest, and the number and the offset of the fault.
FAULTS = [
    (31, b"1", "14 at 22"),
    (11, b"13", "4 at 5"),
    (49, b"\x02", "15 at 39"),
    (58, b"CRL", "16 at 54"),
    (4, b"\xff", "13 at 2"),
    (63, b"\x01", "4 at 61"),
    (2, b"\xa0", "6 at 2"),
    (2, b"\x80", "2 at 2"),
    (2, b"\xa1", "2 at 2"),
    (5, b"\xa0", "2 at 5"),
    (57, b"-", "16 at 54"),
    (56, b".", "16 at 54"),
    (59, b"\x80", "4 at 54"),
    (62, b"\x20", "17 at 61"),
    (51, b"\x2b", "1 at 52"),
    (53, b"\x29", "1 at 61"),
]
FAULTY = [
    *(reads(f"fault-{number}", changed((at, other)), fault) for number, (at, other, fault) in enumerate(FAULTS)),
    # a bit too few in the hash
    reads("a-hash-of-255-bits", changed((63, b"\x01"), (95, b"\xac")), "17 at 61"),
    *(reads(f"cut-to-{count}-bytes", WHOLE[:count], "1 at 0") for count in range(1, len(WHOLE))),
]

# Days of thisUpdate, before a nextUpdate in 9999, and the fault.
DAYS = {"19720229": None, "19730229": "4 at 5", "20000229": None, "21000228": None, "21000229": "4 at 5", "24000229": None}
LEAP_YEARS = [
    reads(f"day-{day}", changed((7, day.encode()), (24, b"9999")), fault, "number 01", f"this {day}000000Z", "next 99990102000000Z", f"{HASH_OF_ABC} a.crl")
    for day, fault in DAYS.items()
]

# 2.16.840.1.101.3.4.2.1, and the hash that each file of the manifests below has.
SHA_256, SEVENS = bytes.fromhex("0609608648016503040201"), b"\7" * 32
MOMENTS = element(24, b"20250101000000Z") + element(24, b"20250102000000Z")


def made(number, names):
    """The payload of this number, the moments of the whole manifest, and files of these names."""
    files = b"".join(element(48, element(22, it.encode()) + element(3, b"\0" + SEVENS)) for it in names.split())
    return element(48, element(2, number) + MOMENTS + SHA_256 + element(48, files))


def numbered(name, number, names, fault=None):
    said = (f"number {number.hex()}", "this 20250101000000Z", "next 20250102000000Z", *(f"{SEVENS.hex()} {it}" for it in names.split()))
    return reads(name, made(number, names), fault, *said)


TWICE = made(b"\1", "a.roa b.roa a.roa")
NAMES = [
    reads("of-a-roa", manifest(1, "20250101000000Z", "20250102000000Z", "a.roa", ONE_PREFIX), None, "number 01", "this 20250101000000Z", "next 20250102000000Z", f"{sha256(ONE_PREFIX).hexdigest()} a.roa"),
    numbered("two-names", b"\1", "a.roa b.roa"),
    numbered("no-names", b"\1", ""),
    numbered("a-name-twice", b"\1", "a.roa b.roa a.roa", "18 at 144"),
    numbered("an-ending-in-capitals", b"\1", "a.roa A.ROA", "16 at 99"),
    numbered("a-stem-in-capitals", b"\1", "a.roa A.roa"),
    numbered("a-name-of-255-bytes", b"\1", "a" * 251 + ".roa"),
    numbered("a-name-of-256-bytes", b"\1", "a" * 252 + ".roa", "16 at 60"),
    # the tag of the last hash, its length, and its count of unused bits, each wrong: a name twice comes before them
    *(reads(f"a-name-twice-and-a-wrong-hash-{back}", TWICE[:-back] + bytes([it]) + TWICE[1 - back :], "18 at 144") for back, it in ((35, 4), (34, 32), (33, 1))),
]

NUMBERS = [
    numbered("number-0", b"\0", "a.roa b.roa"),
    numbered("number-128", b"\0\x80", "a.roa b.roa"),
    numbered("the-greatest-number", b"\x7f0123456789abcdefghi", "a.roa b.roa"),
    numbered("a-number-with-a-zero-too-many", b"\0" + b"0123456789abcdefghi", "a.roa b.roa", "4 at 3"),
    numbered("a-number-of-21-bytes", b"\x7f0123456789abcdefghij", "a.roa b.roa", "13 at 3"),
    numbered("a-number-below-0", b"\x80", "a.roa b.roa", "13 at 3"),
    numbered("a-number-of-no-bytes", b"", "a.roa b.roa", "4 at 3"),
    numbered("a-number-in-two-bytes", b"\0\x7f", "a.roa b.roa", "4 at 3"),
]
