#!/usr/bin/env python3
"""Writes the example with which a library's first page begins: the body of the one test of NAME_example.rt in a crate of tests, with what
it uses. So what the page shows is what the gate proves and runs.

usage: tools/examples.py [--check]

With --check nothing is written: the status is 1 where a page would change, or a library has no example."""
import glob
import os
import re
import sys

import crates_txt

TOP = os.path.realpath(f"{os.path.dirname(os.path.abspath(__file__))}/..")

# The line above an example, and an example as it stands in a page.
LEAD = "//! For example, where `rt` is the runtime that `main` is handed:"
# The columns of a line as `rt fmt` lays it out.
WIDTH = 100

BLOCK = re.compile(rf"//!\n{re.escape(LEAD)}\n//!\n//! ```rust\n(?://![^\n]*\n)*?//! ```\n")


def read(path):
    with open(path, encoding="utf-8") as it:
        return it.read()


def libraries():
    """The libraries of crates.txt with code of their own: those that are no program, hold more than tests, and are no part of an example."""
    # (no crate can use a static library: its example is in C. The start of the daemon's program needs a whole system: rpkirtrd shows it. The forms of
    # DER have no call. What an authority issued is judged of two certificates, and a walk needs a reader: these are too long for a page)
    names = [it for it in crates_txt.named() if not crates_txt.is_static(it) and it not in ("rpkirtrd_start", "der_forms", "issuing", "point_validation", "authority_walk")]
    return [it for it in names if not it.endswith("_tests") and not it.startswith(("example_", "test_")) and os.path.isfile(f"{TOP}/crates/{it}/src/lib.rt")]


def file_of(name):
    """The file of a library's example, in the one crate of examples that has it."""
    found = glob.glob(f"{TOP}/crates/*_tests/src/{name}_example.rt")
    return found[0] if len(found) == 1 else None


def with_question_marks(body):
    """The lines of a test as a page shows them. A test that fails ends at once, by `expect`: so it is proved in a third of the time, as no value has to
    be let go there. The page passes a failure on by `?`."""
    body = re.sub(r'\s*\.expect\(\s*&rt,\s*"[^"\n]*",?\s*\)', "?", body)
    return with_short_lists(with_short_chains(body.splitlines()))


def with_short_chains(lines):
    """The lines, in which a chain of calls that the longer text broke is one line again, if it fits."""
    kept, dedented = [], None
    for line in lines:
        if dedented is not None and line.startswith(dedented):
            line = line.removeprefix("    ")
        else:
            dedented = None
        joined = kept[-1] + line.strip() if kept and line.lstrip().startswith(".") else ""
        if joined and len(joined) <= WIDTH:
            kept[-1] = joined
            dedented = line[: len(line) - len(line.lstrip())] if joined.endswith(("{", "(")) else None
        else:
            kept.append(line)
    return kept


def with_short_lists(lines):
    """The lines, in which arguments that the longer text broke are in one line again, if they fit."""
    kept = []
    for line in lines:
        kept.append(line)
        opened = next((it for it in range(len(kept) - 2, -1, -1) if kept[it].endswith(("(", "(rt;")) and indent(kept[it]) == indent(line)), None)
        if opened is not None and line.lstrip().startswith(")"):
            blank = "" if kept[opened].endswith("(") else " "
            text = kept[opened] + blank + " ".join(it.strip() for it in kept[opened + 1 : -1]).removesuffix(",") + line.strip()
            if len(text) <= WIDTH and not any(it.endswith("{") for it in kept[opened:]):
                kept[opened:] = [text]
    return kept


def indent(line):
    return len(line) - len(line.lstrip())


def example_of(file):
    """The lines of an example."""
    text = read(file)
    used = re.search(r"\Ause std::test::Fail;\n\n|^use std::test::Fail;\n", text, re.M)
    plain = text.replace(used[0], "", 1) if used else text
    form = r"(.*?)\n#\[test\]\nfn \w+\(rt: HostRuntime\)(?: -> Result<\(\), Fail>)? \{\n(.*?)(?:    Ok\(\(\)\)\n)?\}\n"
    head, body = re.fullmatch(form, plain, re.S).groups()
    return [*head.strip().splitlines(), "", *(line.removeprefix("    ") for line in with_question_marks(body))]


def with_example(page, lines):
    """A page with this example behind its first paragraph."""
    block = "".join(f"//! {line}".rstrip() + "\n" for line in ["", LEAD.removeprefix("//! "), "", "```rust", *lines, "```"])
    first = re.match(r"(?://! [^\n]+\n)+", page)[0]
    rest = BLOCK.sub("", page[len(first) :], count=1)
    return first + block + rest


def main(check):
    wrong = []
    for name in libraries():
        path = f"{TOP}/crates/{name}/src/lib.rt"
        file = file_of(name)
        if file is None:
            wrong.append(f"{name} has no example: no crate of tests, or more than one, has {name}_example.rt")
            continue
        page = read(path)
        made = with_example(page, example_of(file))
        if made != page and check:
            wrong.append(f"crates/{name}/src/lib.rt does not show its example: run tools/examples.py")
        elif page.count("//! ```rust\n") > 1:
            wrong.append(f"crates/{name}/src/lib.rt shows more than one example")
        elif made != page:
            with open(path, "w", encoding="utf-8") as it:
                it.write(made)
    for it in wrong:
        print(it, file=sys.stderr)
    return 1 if wrong else 0


if __name__ == "__main__":
    sys.exit(main("--check" in sys.argv[1:]))
