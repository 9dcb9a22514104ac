"""`payloads`: what becomes of offers to publication points, and the payload list of what is in use."""
from cases.shared import (
    AS,
    DEVICE,
    ENTRY,
    FULL,
    IPV4,
    LIST,
    NET,
    OF_IPV6,
    ONE_PREFIX,
    SUPERFLUOUS,
    WITH_VERSION,
    Case,
    bad_words,
    lines,
    manifest,
)

# The payload of a ROA of three prefixes of both families.
BOTH_FAMILIES = bytes.fromhex(f"3037 {AS} 3030 301a {IPV4} 3014 3006 {NET} 300a 030507c0000200 020120 {OF_IPV6}")


def point(payload, roa):
    """The folder of a point: the payload of its manifest, and its one ROA as an object and as what that holds."""
    return {"manifest.der": payload, "objects": {"a.roa": roa}, "contents": {"a.roa": roa}}


def first(roa):
    """The manifest number 1 of a point with this ROA."""
    return manifest(1, "20250101000000Z", "20250102000000Z", "a.roa", roa)


def second(roa):
    """The manifest number 2, from the middle of the first one's time."""
    return manifest(2, "20250101120000Z", "20250103000000Z", "a.roa", roa)


ONE = point(first(ONE_PREFIX), ONE_PREFIX)
# An object that the manifest does not list changes nothing.
ONE["objects"]["other.txt"] = "not listed"
POINTS = {
    "one": ONE,
    "two": point(second(WITH_VERSION), WITH_VERSION),
    "both": point(first(BOTH_FAMILIES), BOTH_FAMILIES),
    "superfluous": point(second(SUPERFLUOUS), SUPERFLUOUS),
    "bare": {},
    "no_objects": {"manifest.der": ONE["manifest.der"]},
}
USED = lines(LIST)
USED_OF_BOTH = lines(
    f'[{ENTRY},{{"asn":64496,"maxLength":32,"prefix":"192.0.2.0/25"}},{{"asn":64496,"maxLength":48,"prefix":"2001:db8::/32"}}]'
)


def offers(name, words, status, output, errors):
    """Offers of those points above that the words name."""
    named = {it.rstrip("/") for it in words.split(" ")}
    files = {it: POINTS[it] for it in POINTS if it in named}
    return Case(name, f"payloads {words}", status, output, errors, files)


OFFERS = [
    offers("at-this-update", "--now 20250101000000Z one", 0, USED, lines("one new")),
    offers("moment-behind-an-equals-sign", "--now=20250101000000Z one", 0, USED, lines("one new")),
    offers("at-next-update-the-same-twice", "--now 20250102000000Z one one", 0, USED, lines("one new", "one same")),
    # each name that is given is a point
    offers("two-spellings-of-a-name", "--now 20250101000000Z one one/", 0, USED, lines("one new", "one/ new")),
    offers("two-points", "--now 20250102000000Z both one", 0, USED_OF_BOTH, lines("both new", "one new")),
    offers("a-version-in-a-roa-of-the-second", "one two --now 20250101120000Z", 1, USED, lines("one new", "two refused 9 0")),
    offers("a-version-in-a-roa", "--now 20250101120000Z two", 1, "[]\n", lines("two refused 9 0")),
    offers("a-superfluous-maximum-length", "--now 20250101120000Z one superfluous", 1, USED, lines("one new", "superfluous refused 9 0")),
    offers("a-second-after-next-update", "--now 20250102000001Z one", 1, "[]\n", lines("one refused 3")),
    offers("a-second-before-this-update", "--now 20241231235959Z one", 1, "[]\n", lines("one refused 2")),
    offers("month-13", "--now 20251301000000Z gone", 1, "refused word\n", ""),
    offers("second-60", "--now 20161231235960Z gone", 1, "refused word\n", ""),
    offers("no-second-point", "--now 20250101000000Z one gone", 3, "", DEVICE),
    offers("an-empty-folder", "--now 20250101000000Z bare", 3, "", DEVICE),
    offers("no-objects", "--now 20250101000000Z no_objects", 3, "", DEVICE),
]

# Texts of no moment: of a day, a time or a year that there is not, of other lengths, and of other characters.
NO_MOMENTS = (
    *("", "Z", "19691231235959Z", "00000101000000Z", "20250001000000Z", "20251301000000Z", "20250100000000Z", "20250132000000Z"),
    *("20250431000000Z", "20250631000000Z", "20250931000000Z", "20251131000000Z", "20250229000000Z", "21000229000000Z", "20000230000000Z"),
    *("20250101240000Z", "20250101006000Z", "20161231235960Z", "2025010100000Z", "20250101000000", "202501010000000", "20250101000000z"),
    *("20250101000000ZZ", "120250101000000Z", "20250101000000.5Z", "20250101000000+0000", "202501010000Z", "2025 101000000Z"),
    *("+0250101000000Z", "2025-01-01000Z", "202501:1000000Z", "2025/101000000Z", "2025010100000\u0661Z"),
)
REFUSED_MOMENTS = [Case(f"no-moment-{it}", ["payloads", f"--now={it}", "gone"], 1, "refused word\n") for it in NO_MOMENTS]


def offers_one(name, folders, status, output, errors):
    """An offer to the point `one` with other folders."""
    files = {"one": {"manifest.der": ONE["manifest.der"], **folders}}
    return Case(name, "payloads --now 20250101000000Z one", status, output, errors, files)


OBJECTS = ONE["objects"]
FOLDERS_OF_A_POINT = [
    # what is not listed is read too
    offers_one("a-folder-in-contents", {"objects": OBJECTS, "contents": {"a.roa": ONE_PREFIX, "other.txt": {}}}, 3, "", DEVICE),
    offers_one("without-the-content-of-a-roa", {"objects": OBJECTS, "contents": {}}, 1, "[]\n", lines("one refused 9 0")),
    offers_one("without-contents", {"objects": OBJECTS}, 1, "[]\n", lines("one refused 9 0")),
    offers_one("without-the-object-of-a-roa", {"objects": {"other.txt": "not listed"}}, 1, "[]\n", lines("one refused 7 0")),
]

BAD_WORDS = [
    bad_words("two-moments", "payloads --now 20250101000000Z --now 20250101000000Z one"),
    bad_words("without-a-point", "payloads --now 20250101000000Z"),
    bad_words("without-a-moment", "payloads one"),
]


def full(name, moment, output, errors):
    return Case(name, f"payloads --now {moment} both", 3, output, errors, {"both": POINTS["both"]})


FULL_STREAMS = [
    # a failed output comes before a refusal
    full("a-full-output-before-a-refused-moment", "20251301000000Z", FULL, DEVICE),
    full("a-full-output", "20250101000000Z", FULL, lines("both new") + DEVICE),
    full("full-errors", "20250101000000Z", "", FULL),
    full("full-errors-before-a-refused-point", "20250102000001Z", "", FULL),
]
