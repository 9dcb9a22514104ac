"""`answer`: the PDUs of a cache that published one list, to those of a router."""
from cases.shared import (
    ANNOUNCEMENT,
    ANNOUNCEMENT_0,
    BAD_JSON,
    CACHE_RESET,
    CACHE_RESPONSE,
    CACHE_RESPONSE_0,
    DEVICE,
    END_OF_DATA,
    END_OF_DATA_0,
    ENTRY,
    FULL,
    LIST,
    PREFIX_TEXTS,
    RESET_QUERY,
    RESET_QUERY_0,
    ROUTER_KEY_0,
    SERIAL_QUERY,
    SERIAL_QUERY_0,
    V_JSON,
    Case,
    announcement,
    bad_words,
    device_failed,
    error_report,
    length_of,
    lines,
)

ANSWER, NO_CHANGE = lines(CACHE_RESPONSE, ANNOUNCEMENT, END_OF_DATA), lines(CACHE_RESPONSE, END_OF_DATA)
OTHER_SESSION = "010143210000000c00000005"
# A header of an unknown version.
VERSION_2 = "0202000000000008"
# A Router Key of the greatest length. A report holds as much of it as fits into that length.
LONG_ROUTER_KEY = "0109010000001000" + "00" * 4088
KEPT_OF_IT = LONG_ROUTER_KEY[: 2 * 4080]


def replies(name, pdus, output, status=0):
    return Case(name, f"answer --session 4660 --serial 5 --vrps v.json {pdus}", status, output, files=V_JSON)


def of_file(name, file, text, output):
    """The answer to a Reset Query where a file of this name holds the list."""
    return Case(name, f"answer --session 4660 --serial 5 --vrps {file} {RESET_QUERY}", 0, output, files={file: text})


QUERIES = [
    replies("a-reset-query", RESET_QUERY, ANSWER),
    of_file("a-set-with-a-record-twice", "twice.json", f'[{ENTRY},{{"prefix":"192.0.2.0/24","maxLength":24,"asn":64496}}]', ANSWER),
    of_file("an-empty-set", "none.json", "[]", NO_CHANGE),
    replies("a-reset-query-twice", RESET_QUERY + RESET_QUERY, ANSWER + ANSWER),
    # what is reserved is ignored
    replies("a-reset-query-with-reserved-bytes-set", RESET_QUERY + "0102ffff00000008", ANSWER + ANSWER),
    replies("a-serial-query", SERIAL_QUERY, NO_CHANGE),
    replies("a-serial-query-twice", SERIAL_QUERY + SERIAL_QUERY, NO_CHANGE + NO_CHANGE),
    replies("a-reset-query-and-a-serial-query", RESET_QUERY + SERIAL_QUERY, ANSWER + NO_CHANGE),
    replies("a-serial-query-of-a-serial-that-is-not-kept", "010112340000000c00000009", lines(CACHE_RESET)),
    replies("a-serial-query-of-another-session", OTHER_SESSION, lines(error_report(0, OTHER_SESSION))),
    Case(
        "a-serial-query-where-the-cache-has-another-session",
        f"answer --session 8738 --serial 5 --vrps v.json {SERIAL_QUERY}",
        0,
        lines(error_report(0, SERIAL_QUERY)),
        files=V_JSON,
    ),
    # without a byte there is no line
    replies("no-bytes", "", ""),
]

REFUSED_BYTES = [
    replies("a-beginning-of-a-query", "01020000000000", "refused 7 at 0\n", 1),
    replies("a-beginning-behind-a-query", RESET_QUERY + "0102", ANSWER + "refused 7 at 8\n", 1),
    replies("an-odd-number-of-digits", "010", "refused hex\n", 1),
    replies("a-letter-that-is-no-digit", "0x", "refused hex\n", 1),
    Case("the-list-comes-before-hex", "answer --session 4660 --serial 5 --vrps bad.json 010", 1, "refused list\n", files=BAD_JSON),
]

REPORTS = [
    # a PDU that no router sends to a cache; what follows an end is not looked at, and an Error Report not answered
    replies("a-cache-reset", CACHE_RESET, lines(error_report(3, CACHE_RESET))),
    replies("a-cache-reset-and-a-reset-query", CACHE_RESET + RESET_QUERY, lines(error_report(3, CACHE_RESET))),
    replies("a-cache-reset-and-a-beginning", CACHE_RESET + "0102", lines(error_report(3, CACHE_RESET))),
    replies("an-error-report-and-a-beginning", error_report(0, "") + "0102", ""),
    replies("an-ipv4-prefix-of-another-length", "01040000ffffffff", lines(error_report(0, "01040000ffffffff"))),
    replies("type-5", "0105000000000008", lines(error_report(5, "0105000000000008"))),
    replies("version-2", VERSION_2, lines(error_report(4, VERSION_2))),
    # after a query that was answered the version is agreed on
    replies("version-0-after-an-answer", RESET_QUERY + RESET_QUERY_0, ANSWER + lines(error_report(8, RESET_QUERY_0))),
    replies("a-router-key-longer-than-a-report-holds", LONG_ROUTER_KEY, lines(error_report(3, KEPT_OF_IT))),
]


def answer_0(session):
    """The answer in version 0 to a Reset Query."""
    return lines(f"0003{session:04x}00000008", ANNOUNCEMENT_0, f"0007{session:04x}0000000c00000005")


ANSWER_0, NO_CHANGE_0 = answer_0(1911), lines(CACHE_RESPONSE_0, END_OF_DATA_0)


def in_0(pdu):
    """A PDU of version 1 as it is in version 0, whose End of Data has no intervals (RFC 6810 section 5.8)."""
    return f"0007{pdu[4:8]}0000000c{pdu[16:24]}" if pdu == END_OF_DATA else "00" + pdu[2:]


def in_each_version(name, pdu, output, output_0):
    """The reply to a PDU of version 1, and to the same in version 0, where the sessions are one."""
    return [replies(name, pdu, output), replies(f"{name}-in-version-0", in_0(pdu), output_0)]


def ends(name, pdu, code, copied=None):
    """A PDU that ends the connection, in each version: a report has a copy of it, or of this, and the query behind it is not answered."""
    outputs = [lines(error_report(code, copied or pdu)), lines(error_report(code, in_0(copied or pdu), 0))]
    return [*in_each_version(name, pdu, *outputs), replies(f"{name}-and-a-query", pdu + RESET_QUERY, outputs[0])]


def ends_silently(name, pdu):
    """An Error Report, which is not answered."""
    return [*in_each_version(name, pdu, "", ""), replies(f"{name}-and-a-query", pdu + RESET_QUERY, "")]


IN_EACH_VERSION = [
    in_each_version("a-query", RESET_QUERY, ANSWER, answer_0(4660)),
    in_each_version("a-query-with-reserved-bytes-set", "0102ffff00000008", ANSWER, answer_0(4660)),
    in_each_version("the-serial-that-is-current", SERIAL_QUERY, NO_CHANGE, lines("0003123400000008", "000712340000000c00000005")),
    in_each_version("the-serial-before", "010112340000000c00000004", lines(CACHE_RESET), lines(in_0(CACHE_RESET))),
    in_each_version("the-serial-behind", "010112340000000c00000006", lines(CACHE_RESET), lines(in_0(CACHE_RESET))),
    replies("the-serial-before-and-a-query", "010112340000000c00000004" + RESET_QUERY, lines(CACHE_RESET) + ANSWER),
    ends("a-serial-of-session-8738", "010122220000000c00000005", 0),
    # what no router sends
    ends("a-serial-notify", "010012340000000c00000005", 3),
    ends("a-cache-response", CACHE_RESPONSE, 3),
    ends("a-reset", CACHE_RESET, 3),
    ends("a-record-with-reserved-bits-set", "0104000000000014" + "81181800" + "c0000200" + "0000fbf0", 3, ANNOUNCEMENT),
    ends("a-record-of-ipv6", announcement("2001:db8::/32", 48, 64499), 3),
    ends("an-end-of-data", END_OF_DATA, 3),
    # faults of the type, the length, a length over 4,096, and a record
    ends("type-5-alone", "0105000000000008", 5),
    ends("type-11", "010b000000000008", 5),
    ends("a-record-of-another-length", "01040000ffffffff", 0),
    ends("a-reset-query-of-another-length", "0102000000000009", 0),
    ends("a-record-with-a-maximum-length-below-the-prefix", "0104000000000014" + "01181700" + "c0000200" + "0000fbf0", 0),
    ends_silently("an-error-report", "010a000200000010" + "00000000" * 2),
    ends_silently("an-error-report-of-15-bytes", "010a00000000000f"),
    ends_silently("an-error-report-of-4097-bytes", "010a000000001001"),
    ends_silently("an-error-report-whose-text-is-no-utf-8", "010a000200000011" + "00000000" + "00000001" + "ff"),
    # no other version behind the first header
    replies("version-2-and-a-query", VERSION_2 + RESET_QUERY, lines(error_report(4, VERSION_2))),
    replies("version-0-after-an-answer-and-a-query", RESET_QUERY + RESET_QUERY_0 + RESET_QUERY, ANSWER + lines(error_report(8, RESET_QUERY_0))),
    replies("version-1-after-an-answer-and-a-query", 2 * (RESET_QUERY_0 + RESET_QUERY), answer_0(4660) + lines(error_report(4, RESET_QUERY, 0))),
    replies("version-2-after-an-answer-and-a-query", RESET_QUERY_0 + VERSION_2 + RESET_QUERY_0, answer_0(4660) + lines(error_report(4, VERSION_2, 0))),
    # version 0 has no such type
    replies("a-router-key", "01" + ROUTER_KEY_0[2:], lines(error_report(3, "01" + ROUTER_KEY_0[2:]))),
    replies("a-router-key-of-4097-bytes", "0109000000001001", lines(error_report(0, "0109000000001001"))),
]
# A Serial Query of version 0 in the session of version 1, and one of version 1 in that of version 0.
SESSION_OF_1, SESSION_OF_0 = "000112340000000c00000005", "010107770000000c00000005"


def replies_in_both(name, pdus, output, status=0):
    """What a cache of session 4660 in version 1 and 1911 in version 0 replies."""
    return Case(name, f"answer --session 4660 --session0 1911 --serial 5 --vrps v.json {pdus}", status, output, files=V_JSON)


VERSION_0 = [
    replies_in_both("version-0-reset-query", RESET_QUERY_0, ANSWER_0),
    replies_in_both("version-0-serial-query", SERIAL_QUERY_0, NO_CHANGE_0),
    replies_in_both("version-0-reset-query-and-serial-query", RESET_QUERY_0 + SERIAL_QUERY_0, ANSWER_0 + NO_CHANGE_0),
    replies_in_both("version-0-serial-that-is-not-kept", "000107770000000c00000004", lines("0008000000000008")),
    replies_in_both("version-0-session-of-version-1", SESSION_OF_1, lines(error_report(0, SESSION_OF_1, 0))),
    replies_in_both("version-0-report-ends-the-connection", SESSION_OF_1 + RESET_QUERY_0, lines(error_report(0, SESSION_OF_1, 0))),
    replies_in_both("version-2-at-a-cache-of-both", VERSION_2, lines(error_report(4, VERSION_2))),
    # version 1 has its own session
    replies_in_both("version-1-reset-query", RESET_QUERY, ANSWER),
    replies_in_both("version-1-serial-query", SERIAL_QUERY, NO_CHANGE),
    replies_in_both("version-1-session-of-version-0", SESSION_OF_0, lines(error_report(0, SESSION_OF_0))),
    # no other version behind the first header, no Router Key and no intervals in version 0
    replies_in_both("version-0-then-version-1", RESET_QUERY_0 + RESET_QUERY, ANSWER_0 + lines(error_report(4, RESET_QUERY, 0))),
    replies_in_both("version-0-then-version-2", RESET_QUERY_0 + VERSION_2, ANSWER_0 + lines(error_report(4, VERSION_2, 0))),
    replies_in_both("version-0-router-key", ROUTER_KEY_0, lines(error_report(5, ROUTER_KEY_0[:16], 0))),
    replies_in_both("version-0-end-of-data-with-intervals", "0007077700000018", lines(error_report(0, "0007077700000018", 0))),
    replies_in_both("version-0-end-of-data", END_OF_DATA_0, lines(error_report(3, END_OF_DATA_0, 0))),
    replies_in_both("version-0-error-report", error_report(2, "", 0), ""),
    replies_in_both("version-0-beginning-behind-a-query", RESET_QUERY_0 + "0001", ANSWER_0 + "refused 7 at 8\n", 1),
    replies_in_both("version-0-beginning-of-a-query", "0001", "refused 7 at 0\n", 1),
    # without a session of its own, version 0 has that of version 1
    replies("version-0-without-a-session-of-its-own", RESET_QUERY_0, answer_0(4660)),
    Case(
        "version-0-options-in-another-order",
        f"answer --serial 5 --session0=1911 --vrps v.json --session 4660 {RESET_QUERY_0}",
        0,
        ANSWER_0,
        files=V_JSON,
    ),
    Case("version-0-session-0", f"answer --session 1 --session0 0 --serial 5 --vrps v.json {RESET_QUERY_0}", 0, answer_0(0), files=V_JSON),
]


def bad_session_0(name, options):
    return bad_words(name, f"answer {options} --serial 5 --vrps v.json {RESET_QUERY_0}", V_JSON)


BAD_SESSIONS_OF_VERSION_0 = [
    bad_session_0("session0-of-17-bits", "--session 1 --session0=65536"),
    bad_session_0("session0-no-number", "--session 1 --session0=x"),
    bad_session_0("session0-with-a-leading-zero", "--session 1 --session0=01"),
    bad_session_0("session0-below-0", "--session 1 --session0=-1"),
    bad_session_0("session0-empty", "--session 1 --session0="),
    bad_session_0("session0-alone", "--session0 1"),
    bad_session_0("session0-twice", "--session 1 --session0 2 --session0 3"),
    bad_session_0("session0-without-a-value", "--session 1 --session0"),
]


def bad_session(name, value):
    return bad_words(name, ["answer", f"--session={value}", "--serial", "5", "--vrps", "v.json", "00"], V_JSON)


BAD_WORDS = [
    bad_words("no-words", "answer"),
    bad_words("without-a-list", f"answer --session 4660 --serial 5 {RESET_QUERY}"),
    bad_words("session-twice", "answer --session 4660 --session 1 --serial 5 --vrps v.json 00", V_JSON),
    bad_words("session-of-17-bits", "answer --session 65536 --serial 5 --vrps v.json 00", V_JSON),
    bad_words("session-with-a-leading-zero", "answer --session 04 --serial 5 --vrps v.json 00", V_JSON),
    bad_words("session-with-a-sign", "answer --session +4 --serial 5 --vrps v.json 00", V_JSON),
    bad_words("serial-of-33-bits", "answer --session 4 --serial 4294967296 --vrps v.json 00", V_JSON),
    bad_words("unknown-option", "answer --session 4 --serial 5 --vrps v.json --other 1 00", V_JSON),
    bad_words("without-hex", "answer --session 4 --serial 5 --vrps v.json", V_JSON),
    bad_words("without-hex-in-a-session-4660", "answer --session 4660 --serial 5 --vrps v.json", V_JSON),
    bad_words("session-no-number", "answer --session x --serial 5 --vrps gone.json 010"),
    bad_words("help-as-an-option", "answer --help"),
    bad_words("help-as-a-word", "answer help --session 4660 --serial 5 --vrps v.json 00", V_JSON),
    # no word and no option is abbreviated
    bad_words("an-abbreviated-option", "answer --sess 4660 --serial 5 --vrps v.json 00", V_JSON),
    bad_session("session-empty", ""),
    bad_session("session-with-a-blank-behind", "5 "),
    bad_session("session-with-a-blank-before", " 5"),
    bad_session("session-in-hexadecimal", "0x5"),
    bad_session("session-minus-0", "-0"),
]

FAILED_DEVICES = [
    # the words come before the file, the file before HEX
    device_failed("no-such-file", f"answer --session 4660 --serial 5 --vrps gone.json {RESET_QUERY}"),
    device_failed("no-such-file-before-hex", "answer --session 4660 --serial 5 --vrps gone.json 010"),
    # a failed output comes before a refusal
    Case("a-full-output", f"answer --session 4660 --serial 5 --vrps v.json {RESET_QUERY}", 3, FULL, DEVICE, V_JSON),
    Case("a-full-output-before-a-refused-list", f"answer --session 4660 --serial 5 --vrps bad.json {RESET_QUERY}", 3, FULL, DEVICE, BAD_JSON),
]

ANNOUNCEMENT_OF_IPV6 = "0106000000000020" + "01203000" + "20010db8000000000000000000000000" + "00000001"


def announces(name, text, *announcements):
    return of_file(name, "list.json", text, lines(CACHE_RESPONSE, *announcements, END_OF_DATA))


LISTS = [
    announces("list-without-an-entry", "[]"),
    announces("list-of-one-entry", LIST, ANNOUNCEMENT),
    announces("list-with-blanks", ' [ { "prefix" : "2001:DB8:0::/32" , "asn" : 1 , "maxLength" : 48 } ] \n', ANNOUNCEMENT_OF_IPV6),
    announces(
        "list-with-two-spellings-of-a-prefix",
        '[{"asn":1,"maxLength":48,"prefix":"2001:DB8::/32"},{"asn":1,"maxLength":48,"prefix":"2001:db8:0:0::/32"}]',
        ANNOUNCEMENT_OF_IPV6,
    ),
    announces("list-with-a-key-twice", '[{"asn":1,"asn":64496,"maxLength":24,"prefix":"192.0.2.0/24"}]', ANNOUNCEMENT),
]


def announces_prefix(text, written):
    """A list of one prefix, which is spelled so, and is written so."""
    length = length_of(written)
    return announces(f"list-prefix-{text}", f'[{{"asn":1,"maxLength":{length},"prefix":"{text}"}}]', announcement(written, length, 1))


# Each spelling of a prefix, and that in which it is written.
PREFIXES = [announces_prefix(*it) for it in {**PREFIX_TEXTS, **{it: it for it in PREFIX_TEXTS.values()}}.items()]
# An entry that is well formed and makes no payload: the prefix has a bit behind its length.
NO_PAYLOAD = '{"asn":1,"maxLength":24,"prefix":"192.0.2.1/24"}'


def refuses(name, text):
    words = f"answer --session 4660 --serial 5 --vrps list.json {RESET_QUERY}"
    return Case(name, words, 1, "refused list\n", files={"list.json": text})


REFUSED_LISTS = [
    refuses("list-asn-with-a-fraction", '[{"asn":1.0,"maxLength":24,"prefix":"192.0.2.0/24"}]'),
    refuses("list-asn-with-an-exponent", '[{"asn":1e1,"maxLength":24,"prefix":"192.0.2.0/24"}]'),
    refuses("list-max-length-with-a-fraction", '[{"asn":1,"maxLength":24.0,"prefix":"192.0.2.0/24"}]'),
    refuses("list-asn-minus-0", '[{"asn":-0,"maxLength":24,"prefix":"192.0.2.0/24"}]'),
    refuses("list-asn-below-0", '[{"asn":-1,"maxLength":24,"prefix":"192.0.2.0/24"}]'),
    refuses("list-asn-of-33-bits", '[{"asn":4294967296,"maxLength":24,"prefix":"192.0.2.0/24"}]'),
    refuses("list-asn-as-a-text", '[{"asn":"1","maxLength":24,"prefix":"192.0.2.0/24"}]'),
    refuses("list-max-length-below-the-prefix", '[{"asn":1,"maxLength":23,"prefix":"192.0.2.0/24"}]'),
    refuses("list-max-length-beyond-the-family", '[{"asn":1,"maxLength":33,"prefix":"192.0.2.0/24"}]'),
    refuses("list-max-length-beyond-a-byte", '[{"asn":1,"maxLength":280,"prefix":"192.0.2.0/24"}]'),
    refuses("list-prefix-with-a-bit-behind-its-length", f"[{NO_PAYLOAD}]"),
    refuses("list-no-payload-first", f"[{NO_PAYLOAD},{ENTRY},{ENTRY}]"),
    refuses("list-no-payload-in-the-middle", f"[{ENTRY},{NO_PAYLOAD},{ENTRY}]"),
    refuses("list-no-payload-last", f"[{ENTRY},{ENTRY},{NO_PAYLOAD}]"),
    refuses("list-no-payload-and-no-end", f"[{ENTRY},{NO_PAYLOAD},{ENTRY}"),
    refuses("list-no-payload-and-more-behind-the-end", f"[{ENTRY},{NO_PAYLOAD}] and more"),
    refuses("list-fourth-key", '[{"asn":1,"maxLength":24,"prefix":"192.0.2.0/24","x":1}]'),
    refuses("list-without-a-prefix", '[{"asn":1,"maxLength":24}]'),
    refuses("list-another-key-in-place-of-the-prefix", '[{"asn":1,"maxLength":24,"other":"192.0.2.0/24"}]'),
    refuses("list-entry-that-is-an-array", '[[1,24,"192.0.2.0/24"]]'),
    refuses("list-trailing-bytes", "[] x"),
    refuses("list-byte-order-mark", "\ufeff[]"),
    refuses("list-that-is-an-object", "{}"),
    refuses("list-empty-file", ""),
    refuses("list-no-utf-8", b'["\xff"]'),
]
