#!/usr/bin/env python3
"""Writes the manual page of the ten commands, docs/man/rpkirtr.1, from docs/COMMANDS.md: each command with its text, and the exit statuses.

usage: tools/commands_page.py [--check]

With --check nothing is written; the status is 1 if the page is another."""
import datetime
import os
import re
import sys
import textwrap

TOP = os.path.realpath(f"{os.path.dirname(os.path.abspath(__file__))}/..")
SOURCE, PAGE = f"{TOP}/docs/COMMANDS.md", f"{TOP}/docs/man/rpkirtr.1"

# The options that a command can do without.
OPTIONAL = ("--session0", "--rtr-version")

FRONT = r""".\" Written by tools/commands_page.py from docs/COMMANDS.md.
.Dd {date}
.Dt RPKIRTR 1
.Os
.Sh NAME
.Nm rpkirtr
.Nd look into RPKI objects, VRPs and the RPKI-to-Router protocol
.Sh SYNOPSIS
.Nm
.Ar command
.Op Ar option ...
.Op Ar word ...
.Sh DESCRIPTION
.Nm
shows what a ROA or a manifest says, and which validated ROA payloads (VRPs) a
set of verified objects gives.
It also shows how a route is judged, what a cache sends to routers, and what a
router makes of it.
For a cache that serves routers see
.Xr rpkirtrd 8 .
.Pp
The program verifies no signature, certificate or revocation.
A validator such as
.Xr rpki-client 8
must have verified the input.
.Pp
Options and arguments may follow the command in any order.
Numbers are decimal, without a sign or leading zeros.
A moment is
.Li YYYYMMDDHHMMSSZ ,
in UTC.
A payload list is a JSON array of objects with exactly the keys
.Cm asn , maxLength
and
.Cm prefix .
The commands are:
"""

BACK = r""".Sh EXAMPLES
In the folder
.Pa share/doc/rpkirtr
of the installation, the states of two routes over a list of three VRPs:
.Bd -literal -offset indent
$ rpkirtr route --vrps samples/list.json 192.0.2.0/24 64496
valid
$ rpkirtr route --vrps samples/list.json 192.0.2.0/25 64496
invalid
.Ed
.Pp
What a cache answers to a Serial Query if nothing has changed:
.Bd -literal -offset indent
$ rpkirtr answer --session 4660 --serial 5 \e
    --vrps samples/list.json 010112340000000c00000005
0103123400000008
01071234000000180000000500000e100000025800001c20
.Ed
.Pp
The payload of a ROA that a validator accepted, and what it says:
.Bd -literal -offset indent
$ rpkiobject --content payload.der x.roa
$ rpkirtr roa payload.der
.Ed
.Sh DIAGNOSTICS
The numbers after
.Li refused
and
.Li ended ,
and what to do about each, are in the page
.Pa docs/COMMANDS.md .
.Sh SEE ALSO
.Xr jq 1 ,
.Xr rpkiobject 1 ,
.Xr rpki-client 8 ,
.Xr rpkirtrd 8
.Pp
The pages
.Pa docs/COMMANDS.md ,
.Pa docs/FORMATS.md
and
.Pa docs/OPERATING.md
in the folder
.Pa share/doc/rpkirtr
of the installation.
.Sh STANDARDS
.Bl -tag -width "RFC 8210" -compact
.It RFC 6810
the RPKI-to-Router protocol, version 0
.It RFC 6811
the state of a route
.It RFC 8210
the RPKI-to-Router protocol, version 1
.It RFC 9286
manifests
.It RFC 9582
ROAs
.El
.Sh SECURITY CONSIDERATIONS
The payloads are assumed to be verified.
.Cm serve , fetch
and
.Cm loop
use only sockets of 127.0.0.1, over which nothing is encrypted or
authenticated.
"""


def read(path):
    with open(path, encoding="utf-8") as it:
        return it.read()


def section(text, heading):
    """What is below a heading of the second level."""
    return re.search(rf"(?ms)^## {re.escape(heading)}$(.*?)(?=^## |\Z)", text)[1]


def escaped(text):
    return text.replace("\\", r"\e").replace("-", r"\-")


def item(words):
    """The head of a command's text: its words, with options and arguments as mdoc has them."""
    out, left, is_argument = ["Cm", words[0]], words[1:], False
    while left:
        word = left.pop(0)
        if word.startswith("--"):
            option = ["Fl", word[1:], "Ar", left.pop(0)]
            out += ["Oo", *option, "Oc"] if word in OPTIONAL else option
            is_argument = word not in OPTIONAL
        else:
            out += [word] if is_argument else ["Ar", word]
            is_argument = True
    line = " ".join(out).replace("..", " ...")
    return ".It " + re.sub(r"Oo ([^O]*) Oc$", r"Op \1", line)


def pieces(text):
    """A paragraph as pieces of text and of code, in turn."""
    text = re.sub(r"\[([^\]]*)\]\([^)]*\)", r"\1", text)
    return re.split(r"(`[^`]*`)", text)


def paragraph(text, arguments):
    """A paragraph as mdoc takes it: a sentence on a line, with code and the names of arguments as macros of their own."""
    lines = [""]
    for piece in pieces(text):
        if piece.startswith("`"):
            macro(lines, "Li", piece[1:-1])
            continue
        for word in re.split(r"( +)", piece):
            if word.strip(".,;:()") in arguments and word.strip():
                macro(lines, "Ar", word)
            elif word.strip() and lines[-1].startswith(".") and is_end(word):
                lines[-1] += " " + " ".join(word)
            elif word.strip():
                lines += [""] if lines[-1].startswith(".") or ends_sentence(lines[-1]) else []
                lines[-1] += (" " if lines[-1] else "") + word
    return "\n".join(wrapped(it) for it in lines if it)


def is_end(word):
    return re.fullmatch(r"[.,;:)]+", word) is not None


def ends_sentence(line):
    return re.search(r"[.:;]$", line) is not None and not line.startswith(".")


def macro(lines, name, text):
    """Adds a line with a macro. What follows the word without a blank stays beside it."""
    before, body, after = re.fullmatch(r"(\(*)(.*?)([.,;:)]*)", text).groups() if name == "Ar" else ("", text, "")
    quoted = f'"{escaped(body)}"' if " " in body else escaped(body)
    lines.append(f".{name} " + " ".join([*before, quoted, *after]))


def wrapped(line):
    if line.startswith("."):
        return line
    return "\n".join(r"\&" + it if it[:1] in ".'" else it for it in textwrap.wrap(escaped(line), 78, break_long_words=False, break_on_hyphens=False))


def commands(text):
    """The commands of the page, each with its words and its paragraphs. Examples, and what they print, are left out."""
    text = re.sub(r"(?ms)^```\w*\n.*?^```$", "", text)
    found = []
    for part in re.split(r"\n\s*\n", text.strip()):
        part = " ".join(part.split())
        if head := re.match(r"`\./run ([^`]*)`: (.*)", part):
            found.append((head[1].split(), [head[2]]))
        elif part.startswith(("prints", "gives")) or not found:
            continue
        elif not part.startswith("The story of"):
            found[-1][1].append(part)
    return found


def command_items(text):
    out = [".Bl -tag -width Ds"]
    for words, paragraphs in commands(section(text, "The ten commands")):
        arguments = {it.rstrip(".") for it in words if it[0].isupper()}
        out.append(item(words))
        for number, it in enumerate(paragraphs):
            out += [".Pp"] * (number > 0) + [paragraph(it[0].upper() + it[1:], arguments)]
    return "\n".join([*out, ".El"])


def statuses(text):
    rows = re.findall(r"(?m)^\| (\d) \| (.*?) \|", section(text, "Exit status"))
    return "\n".join([".Sh EXIT STATUS", ".Bl -tag -width Ds", *(f".It {number}\n{paragraph(said, ())}" for number, said in rows), ".El"])


def page(text, date):
    return FRONT.format(date=date) + command_items(text) + "\n" + statuses(text) + "\n" + BACK


def main(words):
    if words not in ([], ["--check"]):
        print("usage: tools/commands_page.py [--check]", file=sys.stderr)
        return 2
    text, old = read(SOURCE), read(PAGE) if os.path.isfile(PAGE) else ""
    date = re.search(r"^\.Dd (.*)$", old, re.M)
    # (the date is that of the last change)
    if date and page(text, date[1]) == old:
        return 0
    if words:
        print("docs/man/rpkirtr.1 is not that of docs/COMMANDS.md: tools/commands_page.py writes it", file=sys.stderr)
        return 1
    with open(PAGE, "w", encoding="utf-8") as it:
        it.write(page(text, datetime.date.today().strftime("%B %-d, %Y")))
    return 0


if __name__ == "__main__":
    sys.exit(main(sys.argv[1:]))
