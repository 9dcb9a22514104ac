#!/usr/bin/env python3
"""Counts in the pages, in the comments of sources and definitions, and in those of the header for C, turns of phrase that a reader stumbles
over, and sentences of more than 30 words.

usage: tests/gate/prose.py [--list [PAGE]]

The pages are README.md, SECURITY.md, CHANGELOG.md, those of examples/, samples/ and tests/, docs/*.md, and the manual pages. That of the
library for C is made of the header. The comments are those of crates/*/src and crates/*/specs. Code, examples and output do not count. The
status is 1 if a count over all pages, over all comments, or over the header is above its bound. With --list each place is printed: of all
pages and comments, of one page, or of the comments of one file or crate. The status is also 1 if a text in quotes in the sources of a crate,
tests and examples aside, says "is no NOUN". Each such text is printed."""
import glob
import os
import re
import sys

TOP = os.path.realpath(f"{os.path.dirname(os.path.abspath(__file__))}/../..")
sys.path.insert(0, f"{TOP}/tools")

import crates_txt  # noqa: E402

LONGEST = 30

# Each turn, its pattern, and how often it may occur in all pages and in all comments: some are right now and then. The bounds of comments are
# the counts that were reached; whoever lowers a count lowers its bound.
TURNS = [
    ("where (for a condition, mostly)", r"\bwhere\b", 6, 19),
    ("take, taken", r"\b(?:take|takes|taken|taking|took)\b", 3, 5),
    ("stand, stands", r"\b(?:stand|stands|stood|standing)\b", 0, 1),
    ("told, tells", r"\b(?:tell|tells|told|telling)\b", 3, 0),
    ("owed, owes", r"\bow(?:e|es|ed)\b", 0, 0),
    ("is to be", r"\b(?:is|are|was|were) to be\b", 0, 0),
    ("does not wait", r"\b(?:does|do|did) not wait\b", 0, 0),
    ("any more, no more", r"\bany more\b|\bno more\b(?! than)", 1, 0),
    ("else, heading a clause", r"(?:^|[,;:.] |\bor |\band )else\b(?! who| where)", 0, 3),
    ("so many", r"\bso many\b", 0, 0),
    ("goes on", r"\b(?:go|goes|went|going) on\b", 0, 0),
    ("handed in", r"\b(?:hand|hands|handed|handing) in\b", 0, 0),
    ("behind", r"\bbehind\b", 4, 121),
    ("passed over, at hand", r"\b(?:pass|passes|passed) over\b|\bat hand\b", 0, 2),
    ("comes of", r"\b(?:came|come|comes) of\b", 0, 0),
]
SENTENCES, LONG_IN_COMMENTS = 6, 16

# The turns that the header for C may not have beside those. It has none of either.
HEADER_TURNS = [
    ("answers, for returns", r"\banswers? (?:a|the|its) status\b|\bmay answer\b"),
    ("else, ending a clause", r"\belse(?=[.,;:]|$)"),
    ("room, for a buffer", r"\brooms?\b"),
    ("moment, for a time", r"\bmoments?\b"),
    ("hands over", r"\bhand(?:s|ed)? (?:\w+ )?over\b"),
    ("the first such, is told", r"\bsuch is\b"),
]

# A comment, a text in quotes, or a character in quotes; and what no text may say.
QUOTED = re.compile(r"""//[^\n]*|"((?:[^"\\]|\\.)*)"|b?'(?:[^'\\\n]|\\.)'""", re.S)
IS_NO_NOUN = re.compile(r"(?<!\bthere )\b(?:is|are) no (?!more |longer )[A-Za-z]")

# The line before the example on the first page of each library, which is in no count.
LEAD = "For example, where `rt` is the runtime that `main` is handed:"

# A comment that has its line for itself: its indent with its mark, and its words.
COMMENT = re.compile(r"( *(?://[/!]?|--))(?: +(.*)|)$")


def read(path):
    with open(path, encoding="utf-8") as it:
        return it.read()


def pages():
    found = [f"{TOP}/{it}" for it in ("README.md", "SECURITY.md", "CHANGELOG.md", "examples/README.md", "samples/README.md", "tests/README.md")]
    return found + sorted(glob.glob(f"{TOP}/docs/*.md")) + sorted(glob.glob(f"{TOP}/docs/man/*.[18]"))


def commented():
    """The sources and definitions of all crates."""
    found = []
    for kind in ("src/**/*.rt", "specs/**/*.antt"):
        found += glob.glob(f"{TOP}/crates/*/{kind}", recursive=True)
    return sorted(found)


def of_comments(text):
    """The paragraphs and list items of a file's comments, without the examples in them."""
    parts, block, mark, on = [], [], None, True
    for line in [*text.split("\n"), ""]:
        found = COMMENT.match(line)
        said = (found.group(2) or "") if found else ""
        is_fence = said.startswith("```")
        on = (on != is_fence) if found else True
        if not said or is_fence or said.startswith(("- ", "* ", "|", "#", "----")) or found.group(1) != mark:
            parts.append(" ".join(block))
            block = []
        mark = found.group(1) if found else None
        if said and on and not is_fence and said != LEAD:
            block.append(said)
    return [plain(it) for it in [*parts, " ".join(block)] if it.strip(" -|")]


def of_header(text):
    """The paragraphs and list items of a C header's comments."""
    parts = []
    for comment in re.findall(r"/\*(.*?)\*/", text, re.S):
        lines = re.sub(r"(?m)^ *\* ?", "", comment)
        parts += re.split(r"\n\s*\n|\n(?=- )", lines)
    return [plain(" ".join(it.split())) for it in parts if it.strip(" -\n")]


def of_markdown(text):
    """The paragraphs, list items, headings and table cells of a page, with code as one word."""
    text = re.sub(r"(?ms)^ *```.*?^ *```$", "\n\n", text)
    parts, block = [], []
    for line in [*text.split("\n"), ""]:
        head = re.match(r"\s*(?:[-*]|\d+\.) |#+ ", line)
        if not line.strip() or head or line.startswith("|"):
            parts.append(" ".join(block))
            block = []
        if line.startswith(("|", "#")):
            parts += re.split(r"(?<!\\)\|", line)
        elif line.strip():
            block.append(line[head.end() :] if head else line.strip())
    return [plain(it) for it in [*parts, " ".join(block)] if it.strip(" -|")]


def plain(text):
    """A part without its marks: code is the word CODE, and a list of code is one such word."""
    text = re.sub(r"`[^`]*`", "CODE", text)
    text = re.sub(r"!?\[([^\]]*)\]\([^)]*\)", r"\1", text).replace("**", "").replace("*", "").replace("\\|", "|")
    return re.sub(r"CODE(?:(?:,? and|,? or|,|/|;| to|:)? ?CODE)+", "CODE", text)


def of_manual(text):
    """The paragraphs of a manual page."""
    parts, block, on = [], [], True
    for line in [*text.split("\n"), ".Pp"]:
        name = line.split(" ")[0]
        if name in (".Bd", ".Ed"):
            on = name == ".Ed"
        if name in (".Pp", ".It", ".Sh", ".Ss", ".Bl", ".El", ".Bd", ".Ed", ".Nd", ".Dd", ".Dt", ".Os", ".Nm"):
            parts.append(" ".join(block))
            block = []
        elif on and line.startswith("."):
            ends = re.search(r" ([.,;:])$", line)
            block.append("CODE" + (ends.group(1) if ends else ""))
        elif on:
            block.append(line)
    return [plain(it) for it in parts if it.strip()]


def sentences(part):
    return [it for it in re.split(r"(?<=[.!?])[)\"]* +", part) if it.strip()]


def words(sentence):
    return len(re.findall(r"[^\W_][\w'.,:/-]*", sentence))


def parts_of(path):
    """The texts of a page or of a file's comments."""
    kinds = {".md": of_markdown, ".rt": of_comments, ".antt": of_comments, ".h": of_header}
    return kinds.get(os.path.splitext(path)[1], of_manual)(read(path))


def found_in(path):
    """What is counted in a page or in a file: the name of a turn, or None for a long sentence, and the text around it."""
    turns = TURNS + (HEADER_TURNS if path.endswith(".h") else [])
    for part in parts_of(path):
        for sentence in sentences(part):
            if words(sentence) > LONGEST:
                yield None, f"{words(sentence)} words: {sentence}"
            for name, pattern, *_bounds in turns:
                for hit in re.finditer(pattern, sentence, re.I):
                    yield name, sentence[max(0, hit.start() - 50) : hit.end() + 50]


def is_listed(path, only):
    """Whether the places of a page or file are printed: if `only` is empty, its name, or the name of its crate."""
    name = os.path.relpath(path, TOP)
    return only in ("", os.path.basename(path), name) or name.startswith(f"crates/{only}/")


def is_over(what, paths, bounds, listed, only):
    """Whether a count over all these paths is above its bound. Counts above their bounds are printed, and with `listed` all."""
    counts = dict.fromkeys(bounds, 0)
    for path in paths:
        for name, around in found_in(path):
            counts[name] += 1
            if listed and is_listed(path, only):
                print(f"{os.path.relpath(path, TOP)}: {name or 'long sentence'}: {around}")
    over = [it for it in counts if counts[it] > bounds[it]]
    for it in counts if listed else over:
        print(f"{what}: {counts[it]} times {it or f'a sentence of over {LONGEST} words'}, and at most {bounds[it]} are allowed", file=sys.stderr)
    return bool(over)


def texts_with_is_no():
    """The texts of programs that say "is no NOUN", each after its file."""
    for crate in crates_txt.libraries():
        for path in sorted(glob.glob(f"{TOP}/crates/{crate}/src/**/*.rt", recursive=True)):
            for quoted in QUOTED.findall(read(path)):
                text = " ".join(re.sub(r"\\n|\\\n", " ", quoted).split())
                if IS_NO_NOUN.search(text):
                    yield f"{os.path.relpath(path, TOP)}: {text}"


def main(listed, only):
    in_pages = {name: bound for name, _pattern, bound, _comments in TURNS} | {None: SENTENCES}
    in_comments = {name: bound for name, _pattern, _pages, bound in TURNS} | {None: LONG_IN_COMMENTS}
    in_header = dict.fromkeys([*in_pages, *(name for name, _pattern in HEADER_TURNS)], 0)
    over = [is_over("pages", pages(), in_pages, listed, only), is_over("comments", commented(), in_comments, listed, only)]
    over.append(is_over("include/rpkirtr.h", [f"{TOP}/include/rpkirtr.h"], in_header, listed, only))
    said = list(texts_with_is_no())
    print("".join(f"{it}\n" for it in said), end="", file=sys.stderr)
    return 1 if any(over) or said else 0


if __name__ == "__main__":
    sys.exit(main("--list" in sys.argv[1:2], "".join(sys.argv[2:3])))
