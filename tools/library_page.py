#!/usr/bin/env python3
"""Writes the manual page of the library for C, docs/man/rpkirtr.3, from its header: each function with its comment.

usage: tools/library_page.py [--check]

With --check nothing is written; the status is 1 if the page is another."""
import datetime
import os
import re
import sys
import textwrap

TOP = os.path.realpath(f"{os.path.dirname(os.path.abspath(__file__))}/..")
HEADER, PAGE = f"{TOP}/include/rpkirtr.h", f"{TOP}/docs/man/rpkirtr.3"

FRONT = r""".\" Written by tools/library_page.py from include/rpkirtr.h.
.Dd {date}
.Dt RPKIRTR 3
.Os
.Sh NAME
.Nm rpkirtr
.Nd RPKI-to-Router client and cache, route origin validation and payloads of ROAs and manifests
.Sh LIBRARY
librpkirtr (\-lrpkirtr)
.Sh SYNOPSIS
.In rpkirtr.h
.Sh DESCRIPTION
"""

BACK = r""".Sh A CLIENT
The calls of a client that owns a socket:
.Bl -enum
.It
Declare
.Li rpkirtr_router h = RPKIRTR_EMPTY_INIT;
and make the router by
.Fn rpkirtr_router_new ,
once.
.It
When the socket is connected to the cache, call
.Fn rpkirtr_router_connect .
If it cannot be connected, call
.Fn rpkirtr_router_connect_failed ,
and try again at the time that it gives.
.It
Call
.Fn rpkirtr_router_pull
until no byte is left, and send what it gives.
Do so after each call of connect, receive, tick and ask: each may have
something to send.
.It
When bytes have come, pass them to
.Fn rpkirtr_router_receive .
If it consumes fewer than all, pull and send, and then pass the rest.
.It
Call
.Fn rpkirtr_router_tick
with the current time: each second, or at the time of
.Fn rpkirtr_router_wake_at .
.It
Look at
.Fn rpkirtr_router_link
after bytes and ticks.
If it is RPKIRTR_ENDED, send what is left and close the socket.
.It
Whoever closed the socket, call
.Fn rpkirtr_router_connection_closed ,
and connect again at the time of
.Fn rpkirtr_router_next_query_at .
The committed records stay in use until they expire.
.It
Once
.Fn rpkirtr_router_committed
says that records are committed,
.Fn rpkirtr_router_state
judges routes.
Before that each route is RPKIRTR_NOT_FOUND.
.El
.Pp
A cache that knows version 0 alone ends the first link with code 4, as
RPKIRTR_END_MALFORMED, or by closing the connection.
Then call
.Fn rpkirtr_router_speak
with 0, and connect again (RFC 8210 section 7).
.Sh A SERVER
The calls of a program that owns a listening socket:
.Bl -enum
.It
Declare
.Li rpkirtr_cache h = RPKIRTR_EMPTY_INIT;
and make the cache by
.Fn rpkirtr_cache_new ,
once.
Publish the records by
.Fn rpkirtr_cache_publish .
.It
When a router has connected, call
.Fn rpkirtr_cache_open ,
and keep the number beside the socket.
.It
When bytes have come, pass them to
.Fn rpkirtr_cache_receive .
Then call
.Fn rpkirtr_cache_pull
until no byte is left, and send what it gives.
If it consumed fewer bytes than all, pass the rest after that.
.It
When the records have changed, publish them, call
.Fn rpkirtr_cache_notify
for each connection, and pull.
.It
If
.Fn rpkirtr_cache_is_open
says that a connection has ended, send what is left and close the socket.
Whoever closed the socket, call
.Fn rpkirtr_cache_close .
.El
.Sh EXAMPLES
The route of 192.0.2.0/24 with the origin AS 64496 is valid over one record:
.Bd -literal -offset indent
rpkirtr_index index = RPKIRTR_EMPTY_INIT;
rpkirtr_record record = {{192, 0, 2}, 64496, 4, 24, 24, 0};
rpkirtr_route route = {{192, 0, 2}, 64496, 4, 24, 1, 0};
rpkirtr_state state;
size_t bad;

if (rpkirtr_index_new(&index, &record, 1, &bad) == RPKIRTR_OK) {
	rpkirtr_index_state(&index, &route, &state);
	/* state is RPKIRTR_VALID */
	rpkirtr_index_free(&index);
}
.Ed
.Pp
A whole client is
.Pa /usr/share/doc/librpkirtr\-dev/examples/c/rov.c
of the Debian package, or
.Pa share/doc/librpkirtr/examples/c/rov.c
below the prefix of the installation.
Compile and link it with
.Dl cc rov.c $(pkg-config \-\-cflags \-\-libs rpkirtr)
and let it judge a route by the records of a cache:
.Dl echo 192.0.2.0/24 64496 | ./a.out 127.0.0.1 3323
.Sh SEE ALSO
.Xr rpkirtr 1 ,
.Xr rpkirtrd 8
.Sh STANDARDS
.Bl -tag -width "RFC 8210" -compact
.It RFC 6810
the RPKI-to-Router protocol, version 0
.It RFC 6811
the state of a route
.It RFC 8210
the RPKI-to-Router protocol, version 1
.It RFC 9286
the payload of a manifest
.It RFC 9582
the payload of a ROA
.El
"""


RESULTS = """Each call returns a status.
Its description ends with those that it can return, without RPKIRTR_ before
them:"""


def plain(comment):
    """The text of a comment, each paragraph and item on a line."""
    lines = [re.sub(r"^ ?\* ?", "", it.strip()) for it in comment.strip().removeprefix("/*").removesuffix("*/").split("\n")]
    paragraphs, last = [], ""
    for line in map(str.strip, lines):
        if line.startswith("- ") or not line or not last:
            paragraphs.append(line)
        else:
            paragraphs[-1] += " " + line
        last = line
    return [it for it in paragraphs if it]


def escaped(text):
    """A text as mdoc takes it, a sentence on a line."""
    text = text.replace("\\", r"\e").replace("-", r"\-")
    lines = re.sub(r"(?<=[.:;]) (?=[A-Z])", "\n", text).split("\n")
    return "\n".join(r"\&" + it if it[:1] in ".'" else it for line in lines for it in textwrap.wrap(line, 78, break_long_words=False, break_on_hyphens=False))


def paragraphs_of(comment):
    """Paragraphs, with the items among them as a list."""
    out, in_list = [], False
    for text in plain(comment):
        if text.startswith("- "):
            out += [] if in_list else [".Bl -bullet"]
            out += [".It", escaped(text[2:])]
        else:
            out += ([".El"] if in_list else []) + ([".Pp"] if out else []) + [escaped(text)]
        in_list = text.startswith("- ")
    return "\n".join(out + ([".El"] if in_list else []))


def declared(function):
    """The declaration of a function, in mdoc's words, and the constants that precede it."""
    constants = re.match(r"(?:#.*\n)*", function)[0]
    function = function.removeprefix(constants)
    result, name, parameters = re.match(r"([\w \*]+?)\s*\b(\w+)\((.*)\);", re.sub(r"\s+", " ", function)).groups()
    names = "".join(f' "{it.strip()}"' for it in parameters.split(","))
    return f".Ft {result.strip()}\n.Fn {name}{names}" + (f"\n.Bd -literal -offset indent\n{constants}.Ed" if constants else "")


def sections(header):
    """The parts of the header, each from a line `/* ---- NAME */` on, or from the first type."""
    parts = re.split(r"^/\* ---- (.*) \*/$", header, flags=re.M)
    return parts[0], list(zip(parts[1::2], parts[2::2]))


TYPE = re.compile(r"^(/\*(?:(?!\*/).)*\*/)\n(typedef (?:struct \w+ \{\n(?:(?!\n\}).)*\n\} \w+|int32_t rpkirtr_state);(?:\n#define [^\n]*)*)", re.M | re.S)
FUNCTION = re.compile(r"^(/\*(?:(?!\*/).)*\*/)\n((?:#define [^\n]*\n)*(?:const )?\w+ \*?rpkirtr_\w+\([^;]*\);)", re.M | re.S)
CONSTANT = re.compile(r"^#define (RPKIRTR_\w+) +(\d+) +/\* (.*) \*/$", re.M)


def statuses(front):
    """The statuses, as a list."""
    part = front[front.index("typedef int32_t rpkirtr_status"):front.index("typedef int32_t rpkirtr_state")]
    items = "\n".join(f".It Dv {name} Pq {number}\n{escaped(text)}" for name, number, text in CONSTANT.findall(part))
    return f".Bl -tag -width Ds\n{items}\n.El\n"


def types(header):
    """The types, each with its comment."""
    out = [".Sh TYPES"]
    for number, (comment, declaration) in enumerate(TYPE.findall(header)):
        text = re.sub("^ +", "\t", declaration, flags=re.M).replace("\\", r"\e").replace("-", r"\-")
        out += [".Pp"] * (number > 0) + [paragraphs_of(comment), ".Bd -literal -offset indent", text, ".Ed"]
    return "\n".join(out)


def page(header, date):
    front, parts = sections(header)
    head = header[:header.index("*/") + 2]
    out = [FRONT.format(date=date), paragraphs_of(re.sub(r"^/\* rpkirtr\.h: (\w)", lambda it: f"/* {it[1].upper()}", head)), ".Sh RETURN VALUES", RESULTS, statuses(front), types(header)]
    for name, part in parts:
        out.append(f".Sh {name.upper()}")
        for number, (comment, function) in enumerate(FUNCTION.findall(part)):
            out += [".Pp"] * (number > 0) + [declared(function), ".Pp", paragraphs_of(comment)]
    return "\n".join(it.strip("\n") for it in [*out, BACK]) + "\n"


def main(words):
    if words not in ([], ["--check"]):
        print("usage: tools/library_page.py [--check]", file=sys.stderr)
        return 2
    with open(HEADER, encoding="utf-8") as it:
        header = it.read()
    old = ""
    if os.path.isfile(PAGE):
        with open(PAGE, encoding="utf-8") as it:
            old = it.read()
    date = re.search(r"^\.Dd (.*)$", old, re.M)
    # (the date is that of the last change)
    if date and page(header, date[1]) == old:
        return 0
    if words:
        print("docs/man/rpkirtr.3 is not that of include/rpkirtr.h: tools/library_page.py writes it", file=sys.stderr)
        return 1
    with open(PAGE, "w", encoding="utf-8") as it:
        it.write(page(header, datetime.date.today().strftime("%B %-d, %Y")))
    return 0


if __name__ == "__main__":
    sys.exit(main(sys.argv[1:]))
