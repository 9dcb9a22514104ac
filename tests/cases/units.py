"""`units`: the PDUs with which the bytes of a file begin."""
from cases.shared import (
    ANNOUNCEMENT,
    ANNOUNCEMENT_0,
    CACHE_RESET,
    CACHE_RESPONSE,
    CACHE_RESPONSE_0,
    DEVICE,
    END_OF_DATA,
    END_OF_DATA_0,
    FULL,
    PREFIX_TEXTS,
    RESET_QUERY,
    RESET_QUERY_0,
    ROUTER_KEY_0,
    SERIAL_QUERY,
    SERIAL_QUERY_0,
    Case,
    announcement,
    device_failed,
    error_report,
    length_of,
    lines,
)

# A PDU of each type, and what is printed of it.
EACH_TYPE = {
    "010012340000000c00000005": "serial-notify 4660 5",
    SERIAL_QUERY: "serial-query 4660 5",
    RESET_QUERY: "reset-query",
    CACHE_RESPONSE: "cache-response 4660",
    ANNOUNCEMENT: "announce 192.0.2.0/24 24 64496",
    "0106000000000020" + "00203000" + "20010db8000000000000000000000000" + "0000fbf0": "withdraw 2001:db8::/32 48 64496",
    END_OF_DATA: "end-of-data 4660 5 3600 600 7200",
    CACHE_RESET: "cache-reset",
    "0109010000000020" + "01" * 20 + "0000fbf0": "router-key",
    error_report(0, SERIAL_QUERY): f"error-report 0 {SERIAL_QUERY}",
    error_report(1, ""): "error-report 1 -",
}
# The PDUs of an answer in version 0.
ANSWER_0 = {
    CACHE_RESPONSE_0: "cache-response 1911",
    ANNOUNCEMENT_0: "announce 192.0.2.0/24 24 64496",
    END_OF_DATA_0: "end-of-data 1911 5",
}
OLD_QUERY = "000112340000000c00000005"
# A PDU of each type that there is in version 0, and what is printed of it.
EACH_TYPE_0 = {
    "000007770000000c00000005": "serial-notify 1911 5",
    SERIAL_QUERY_0: "serial-query 1911 5",
    RESET_QUERY_0: "reset-query",
    CACHE_RESPONSE_0: "cache-response 1911",
    ANNOUNCEMENT_0: "announce 192.0.2.0/24 24 64496",
    "0006000000000020" + "00203000" + "20010db8000000000000000000000000" + "0000fbf0": "withdraw 2001:db8::/32 48 64496",
    END_OF_DATA_0: "end-of-data 1911 5",
    "0008000000000008": "cache-reset",
    error_report(0, OLD_QUERY, 0): f"error-report 0 {OLD_QUERY}",
}


def reads(name, stream, status, output):
    return Case(name, "units some.bin", status, output, files={"some.bin": bytes.fromhex(stream)})


CASES = [
    reads("one-of-each-type", "".join(EACH_TYPE), 0, lines(*EACH_TYPE.values())),
    # what is reserved is ignored
    reads("reserved-bits-set", "0106ff0000000020" + "812030ff" + "20010db8000000000000000000000000" + "0000fbf0", 0, "announce 2001:db8::/32 48 64496\n"),
    reads("a-router-key-of-4096-bytes", "0109010000001000" + "07" * 4088, 0, "router-key\n"),
    reads("an-error-report-of-4096-bytes", "010a000000001000" + "00000000" + "00000ff0" + "07" * 4080, 0, "error-report 0 -\n"),
    reads("no-bytes", "", 0, ""),
    reads("one-byte", "01", 1, "refused 7 at 0\n"),
    reads("a-beginning-behind-a-pdu", CACHE_RESPONSE + "010200", 1, "cache-response 4660\nrefused 7 at 8\n"),
    reads(
        "an-answer-without-its-last-byte",
        (CACHE_RESPONSE + ANNOUNCEMENT + END_OF_DATA)[:-2],
        1,
        "cache-response 4660\nannounce 192.0.2.0/24 24 64496\nrefused 7 at 28\n",
    ),
    reads("an-ipv4-prefix-of-another-length", "01040000ffffffff", 1, "refused 3 at 0\n"),
    reads("type-5", CACHE_RESPONSE + "0105000000000008", 1, "cache-response 4660\nrefused 2 at 8\n"),
    reads("version-2", "0202000000000008", 1, "refused 1 at 0\n"),
    reads("a-router-key-of-4097-bytes", "0109000000001001", 1, "refused 4 at 0\n"),
    reads("a-maximum-length-below-the-prefix", "0104000000000014" + "01181700" + "c0000200" + "0000fbf0", 1, "refused 5 at 0\n"),
    reads("an-error-report-whose-text-is-no-utf-8", "010a000200000011" + "00000000" + "00000001" + "ff", 1, "refused 6 at 0\n"),
    # the first header tells the version of all
    reads("version-0-one-of-each-type", "".join(EACH_TYPE_0), 0, lines(*EACH_TYPE_0.values())),
    reads("version-0-answer", "".join(ANSWER_0), 0, lines(*ANSWER_0.values())),
    reads("version-0-error-report", error_report(0, OLD_QUERY, 0), 0, f"error-report 0 {OLD_QUERY}\n"),
    reads("version-0-then-version-1", CACHE_RESPONSE_0 + CACHE_RESPONSE, 1, "cache-response 1911\nrefused 1 at 8\n"),
    reads("version-1-then-version-0", CACHE_RESPONSE + CACHE_RESPONSE_0, 1, "cache-response 4660\nrefused 1 at 8\n"),
    reads("version-0-then-version-2", CACHE_RESPONSE_0 + "0203077700000008", 1, "cache-response 1911\nrefused 1 at 8\n"),
    reads("version-0-router-key", ROUTER_KEY_0, 1, "refused 2 at 0\n"),
    reads("version-0-end-of-data-with-intervals", "0007077700000018", 1, "refused 3 at 0\n"),
    reads("version-1-end-of-data-without-intervals", "010707770000000c00000005", 1, "refused 3 at 0\n"),
    reads("version-0-beginning-behind-a-pdu", CACHE_RESPONSE_0 + "0007", 1, "cache-response 1911\nrefused 7 at 8\n"),
    device_failed("no-such-file", "units gone.bin"),
    # a failed output comes before a refusal
    Case("a-full-output", "units some.bin", 3, FULL, DEVICE, {"some.bin": bytes.fromhex(CACHE_RESPONSE_0 + "0007")}),
]

# How prefixes are written, and that each is read again as the same: the cases of `answer` read these and other texts.
WRITTEN = [
    reads(f"prefix-{it}", announcement(it, length_of(it), 1), 0, f"announce {it} {length_of(it)} 1\n") for it in dict.fromkeys(PREFIX_TEXTS.values())
]
