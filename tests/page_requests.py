"""Requests for the status pages of a made-up cache, and their responses.

The cache serves one record, 192.0.2.0/24 maximum 24 of AS64496, in version 1795653120 of session 4660, at 2026-11-26T00:37:00Z."""
import collections
import json

# A request for the program's cache, in pieces of each of these lengths, under a name; the response, or how it begins and what it contains;
# and whether the connection is open then.
Row = collections.namedtuple("Row", "request whole begin parts cache pieces name state")

DATE = "date: Thu, 26 Nov 2026 00:37:00 GMT"
PLAIN = "content-type: text/plain; charset=utf-8"
JSON = "content-type: application/json; charset=utf-8"
ALWAYS = ("cache-control: no-cache", "x-content-type-options: nosniff")
POLICY = "content-security-policy: default-src 'none'; style-src 'unsafe-inline'; base-uri 'none'; form-action 'self'; frame-ancestors 'none'"

EVERY = []


def asked(line, *headers, host="192.0.2.1", version="1.1"):
    """A request of one line, which names a host if there is one, and of these headers."""
    hosts = [] if host is None else [f"Host: {host}"]
    return "\r\n".join([f"{line} HTTP/{version}", *hosts, *headers, "", ""])


def told(status, *headers, body=None, length=None):
    """A response of these headers after its date. If it has a body, or the length of one, the length is its last header."""
    length = len(body.encode()) if length is None and body is not None else length
    lengths = [] if length is None else [f"content-length: {length}"]
    return "\r\n".join([f"HTTP/1.1 {status}", DATE, *headers, *lengths, "", body or ""])


def expect(request, whole=None, begin="", parts=(), cache="small", pieces=(4096,), name=None, state="open"):
    """Adds a row."""
    EVERY.append(Row(request, whole, begin, parts, cache, pieces, name, state))


def filled(response, bodies):
    """A response with the body that stands in braces at its end, and its length."""
    head, _, name = response.rpartition("\r\n\r\n")
    body = bodies.get(name.strip("{}"), name)
    return head.replace("{length}", str(len(body.encode()))) + "\r\n\r\n" + body


def route(origin, prefix, state, reason, **records):
    """The validity of a route, as JSON (docs/FORMATS.md)."""
    texts = {
        "valid": "At least one VRP Matches the Route Prefix",
        "as": "At least one VRP Covers the Route Prefix, but no VRP ASN matches the route origin ASN",
        "length": "At least one VRP Covers the Route Prefix, but the Route Prefix length is greater than the maximum length allowed by VRP(s) "
        "matching this route origin ASN",
        "not-found": "No VRP Covers the Route Prefix",
    }
    lists = {kind: [dict(zip(("asn", "prefix", "max_length"), it)) for it in records.get(kind, [])] for kind in ("matched", "unmatched_as", "unmatched_length")}
    validity = {"state": state, **({"reason": reason} if reason else {}), "description": texts[reason or state], "VRPs": lists}
    judged = {"route": {"origin_asn": origin, "prefix": prefix}, "validity": validity}
    return json.dumps({"validated_route": judged, "generatedTime": "2026-11-26T00:37:00Z"}, separators=(",", ":"))


RECORD = ("AS64496", "192.0.2.0/24", "24")
LIST = '[{"asn":64496,"maxLength":24,"prefix":"192.0.2.0/24"}]'
EXPORT = '{"metadata":{"buildtime":"2026-11-26T00:27:00Z","generated":1795652820,"vrps":523456},"roas":' + LIST + "}"
CSV = "ASN,IP Prefix,Max Length\nAS64496,192.0.2.0/24,24\n"
ROUTINATOR_CSV = "ASN,IP Prefix,Max Length,Trust Anchor\nAS64496,192.0.2.0/24,24,\n"
ROUTINATOR = (
    '{"metadata":{"generated":1795652820,"generatedTime":"2026-11-26T00:27:00Z"},'
    '"roas":[{"asn":"AS64496","prefix":"192.0.2.0/24","maxLength":24,"ta":""}]}'
)
API_STATUS = (
    '{"version":"rpkirtrd/0.1.0","serial":1795653120,"now":"2026-11-26T00:37:00Z","lastUpdateDone":"2026-11-26T00:32:00Z",'
    '"lastUpdateDuration":1.045,"tals":{"ripe":{"vrpsTotal":500000},"<a>\\"b\\\\c\\u000a":{"vrpsTotal":23000}},'
    '"rtr":{"currentConnections":3,"bytesRead":300,"bytesWritten":1000000}}'
)
OF_LIST = 'etag: "4660-1795653120"'
OF_EXPORT = 'etag: "4660-1795653120-1795652820"'
EITHER = (4096, 1)

# Each resource. Requests in whole and byte by byte have the same response. `{page}` stands for the page of the small cache, and `{metrics}`
# for its metrics.
expect(asked("GET /"), told("200 OK", "content-type: text/html; charset=utf-8", *ALWAYS, POLICY, "content-length: {length}", body=None) + "{page}", pieces=EITHER)
expect(asked("GET /metrics"), told("200 OK", "content-type: text/plain; version=0.0.4; charset=utf-8", *ALWAYS, "content-length: {length}") + "{metrics}", pieces=EITHER)
for path in ("/health", "/ready", "/live"):
    expect(asked(f"GET {path}"), told("200 OK", PLAIN, *ALWAYS, body="ok\n"))
EARLY = told("503 Service Unavailable", PLAIN, *ALWAYS, body="no version is published yet\n")
expect(asked("GET /health"), EARLY, cache="empty")
expect(asked("GET /ready"), EARLY, cache="empty")
expect(asked("GET /live"), told("200 OK", PLAIN, *ALWAYS, body="ok\n"), cache="empty")
AGED = "/var/db/rpki-client/json: its data are older than the maximum age\n"
REFUSED = (
    '/srv/<b>\\"a\\\\b\\"&c\\n.json: refused since 2026-11-26T00:33:40Z: entry 3 of roas cannot be read: <prefix> is not a prefix (fault 3); '
    "none of its data were loaded yet\n"
)
expect(asked("GET /health"), told("503 Service Unavailable", PLAIN, *ALWAYS, body=AGED + REFUSED), cache="old")
expect(asked("GET /ready"), told("200 OK", PLAIN, *ALWAYS, body="ok\n"), cache="old")
expect(asked("GET /vrps.json"), told("200 OK", OF_EXPORT, JSON, *ALWAYS, body=EXPORT), pieces=EITHER)
expect(asked("GET /rpki.json"), told("200 OK", OF_EXPORT, JSON, *ALWAYS, body=EXPORT))
expect(asked("GET /json"), told("200 OK", OF_EXPORT, JSON, *ALWAYS, body=ROUTINATOR), pieces=EITHER)
expect(asked("GET /api/v1/status"), told("200 OK", JSON, *ALWAYS, body=API_STATUS), pieces=EITHER)
expect(asked("GET /list.json"), told("200 OK", OF_LIST, JSON, *ALWAYS, body=LIST))
expect(asked("HEAD /list.json"), told("200 OK", OF_LIST, JSON, *ALWAYS, length=54), pieces=EITHER)
expect(
    asked("GET /validity?asn=64496&prefix=192.0.2.0/24"),
    told("200 OK", "vary: Accept", JSON, *ALWAYS, body=route("AS64496", "192.0.2.0/24", "valid", None, matched=[RECORD])),
    pieces=EITHER,
)
expect(
    asked("GET /api/v1/validity/AS64497/192.0.2.0/24", "Accept: text/html"),
    told("200 OK", JSON, *ALWAYS, body=route("AS64497", "192.0.2.0/24", "invalid", "as", unmatched_as=[RECORD])),
)
HOW = "usage: ?asn=NUMBER&prefix=PREFIX, each key once and no other, as in ?asn=64496&prefix=192.0.2.0/24\n"
expect(asked("GET /validity"), told("400 Bad Request", "vary: Accept", PLAIN, *ALWAYS, body=HOW), pieces=EITHER)
PATH = "usage: /api/v1/validity/NUMBER/PREFIX, as in /api/v1/validity/AS64496/192.0.2.0/24\n"
expect(asked("GET /api/v1/validity/64496"), told("400 Bad Request", PLAIN, *ALWAYS, body=PATH))
WHERE = (
    "not found; resources: /, /metrics, /health, /ready, /live, /vrps.json, /rpki.json, /json, /list.json, /vrps.csv, /csv, /validity, "
    "/api/v1/status and /api/v1/validity/NUMBER/PREFIX\n"
)
expect(asked("GET /status"), told("404 Not Found", PLAIN, *ALWAYS, body=WHERE), pieces=EITHER)
expect(
    asked("POST /metrics", "content-length: 0"),
    told("405 Method Not Allowed", "allow: GET, HEAD", PLAIN, *ALWAYS, body="only GET and HEAD are answered\n"),
    pieces=EITHER,
)

# What a client has already (RFC 9110 section 13.1.2).
expect(asked("GET /vrps.json", 'If-None-Match: "4660-1795653120-1795652820"'), told("304 Not Modified", OF_EXPORT, ALWAYS[0]))
expect(asked("GET /list.json", 'If-None-Match: "a", W/"4660-1795653120"'), told("304 Not Modified", OF_LIST, ALWAYS[0]))
expect(asked("GET /json", 'If-None-Match: "4660-1795653120-1795652820"'), told("304 Not Modified", OF_EXPORT, ALWAYS[0]))
expect(asked("GET /vrps.csv", "If-None-Match: *"), told("304 Not Modified", OF_LIST, ALWAYS[0]))
expect(asked("GET /csv", 'If-None-Match: "4660-1795653120"'), told("304 Not Modified", OF_LIST, ALWAYS[0]))
for path, lines in ("/vrps.csv", CSV), ("/csv", ROUTINATOR_CSV):
    expect(
        asked(f"GET {path}", 'If-None-Match: "4660-1795653119"'),
        told("200 OK", OF_LIST, "content-type: text/csv; charset=utf-8; header=present", *ALWAYS, body=lines),
    )

# What a client accepts (RFC 9110 section 12.5.1), and whether it gets HTML.
for accepted, kind in [
    ("text/html,application/xhtml+xml,application/xml;q=0.9,*/*;q=0.8", "text/html"),
    ("TEXT/HTML ;q=1", "text/html"),
    ("*/*", "application/json"),
    ("application/json, text/html", "application/json"),
    ("text/html, application/json", "text/html"),
    ("text/htmls", "application/json"),
    ("", "application/json"),
]:
    begin = told("200 OK", "vary: Accept", f"content-type: {kind}; charset=utf-8")[:-2]
    expect(asked("GET /validity?asn=64496&prefix=192.0.2.0/24", f"Accept: {accepted}"), begin=begin, parts=["192.0.2.0/24"])

# What a browser gets if a query names no route: the form with what was typed, why it is no route, and the route that was probably meant.
for query, status, parts in [
    ("", "200 OK", ['<label>AS <input name="asn"', "<h2>Route</h2>"]),
    ("?asn=%2064496+&prefix=192.0.2.0/24", "400 Bad Request", ['value=" 64496 "', 'value="192.0.2.0/24"', '<p class="state bad">the AS number is not', '"/validity?asn=AS64496&amp;prefix=192.0.2.0/24">192.0.2.0/24 of AS64496</a>?']),
    ("?asn=as64496&prefix=192.0.2.7", "400 Bad Request", ['value="as64496"', '"/validity?asn=AS64496&amp;prefix=192.0.2.7/32">']),
    ("?asn=64496&prefix=192.0.2.7/24", "400 Bad Request", ["(fault 2)", 'value="192.0.2.7/24"', '"/validity?asn=AS64496&amp;prefix=192.0.2.0/24">']),
    ("?asn=64496&prefix=2001:db8::1", "400 Bad Request", ['"/validity?asn=AS64496&amp;prefix=2001:db8::1/128">']),
    ("?asn=64496&prefix=2001:db8::1+/+32", "400 Bad Request", ['"/validity?asn=AS64496&amp;prefix=2001:db8::/32">']),
    ("?asn=64496&prefix=192.0.2.0/33", "400 Bad Request", ["(fault 1)", 'value="192.0.2.0/33"']),
    ("?prefix=%22%3E%3Cb%3E", "400 Bad Request", ['value="&quot;&gt;&lt;b&gt;"', "usage: ?asn=NUMBER&amp;prefix=PREFIX"]),
    ("?asn=64496&prefix=0.0.0.1/0", "400 Bad Request", ['"/validity?asn=AS64496&amp;prefix=0.0.0.0/0">']),
]:
    begin = told(status, "vary: Accept", "content-type: text/html; charset=utf-8")[:-2]
    expect(asked(f"GET /validity{query}", "Accept: text/html"), begin=begin, parts=parts)

# There is no record before the first version.
for line in (
    "GET /vrps.json",
    "GET /rpki.json",
    "GET /json",
    "GET /api/v1/status",
    "GET /list.json",
    "GET /vrps.csv",
    "GET /csv",
    "GET /api/v1/validity/64496/192.0.2.0/24",
    "GET /validity?asn=64496&prefix=192.0.2.0/24",
):
    parts = [f"retry-after: 1\r\n{PLAIN}\r\ncache-control: no-cache\r\n", "\r\n\r\nno version is published yet: ask again in a second\n"]
    expect(asked(line), begin=told("503 Service Unavailable")[:-2], parts=parts, cache="empty")

# After some responses the connection is closed. A request may follow another at once.
expect(asked("GET /vrps.json", "connection: close"), begin=told("200 OK")[:-2], state="closed")
expect("no request\r\n\r\n", begin="HTTP/1.1 400 Bad Request\r\n", state="closed")
expect(asked("POST /metrics", "content-length: 1025"), begin="HTTP/1.1 413 Payload Too Large\r\n", state="closed")
expect("GET /" + 9000 * "a", begin="HTTP/1.1 414 URI Too Long\r\n", state="closed")
expect(
    asked("GET /list.json") + asked("HEAD /a"),
    begin=told("200 OK", OF_LIST, JSON, *ALWAYS, body=LIST) + "HTTP/1.1 404 Not Found\r\n",
)

# Hosts that are not served. The target comes before Host (RFC 9112 section 3.2.2).
WRONG = "this name is not served here: use an address, or start rpkirtrd with --status-name NAME\n"
expect(asked("GET /", host="example.org"), told("421 Misdirected Request", PLAIN, *ALWAYS, body=WRONG))
expect(asked("HEAD /", host="example.org"), told("421 Misdirected Request", PLAIN, *ALWAYS, length=88))
for request in (
    asked("GET /nowhere", host="example.org"),
    asked("POST /metrics", "content-length: 0", host="example.org"),
    asked("GET /vrps.csv", host="example.org", version="1.0"),
    asked("GET http://example.org/health"),
    "GET /health HTTP/1.1\r\nHost:\r\n\r\n",
):
    expect(request, begin="HTTP/1.", parts=[" 421 Misdirected Request\r\n"], state=None)

# Requests that are served under the name of the options, or name no host.
for request in (
    asked("GET /health", host="cache.example.org"),
    asked("GET /health", host="localhost:8323"),
    asked("GET /health", host=None, version="1.0"),
    asked("GET http://192.0.2.1:8323/health", host="example.org"),
):
    expect(request, begin="HTTP/1.", parts=[" 200 OK\r\n"], name="Cache.example.org", state=None)

# Requests without one Host (RFC 9112 section 3.2).
for request in (
    asked("GET /health", host=None),
    asked("GET http://192.0.2.1/health", host=None),
    asked("GET /health", "Host: 192.0.2.1"),
    asked("GET /health", "Host: example.org", version="1.0"),
):
    expect(request, begin="HTTP/1.", parts=[" 400 Bad Request\r\n"], state=None)
