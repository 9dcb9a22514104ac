"""Which wrong bodies have been refused, as the texts stand.

A proof knows of other functions their contracts alone. So whether a wrong body is refused follows from the edit, the text and the proof of
the function that it changes, what the functions that this one names state, the definitions and lemmas that these texts name, and the kit.
tests/gate/refused.txt keeps a short sum of these for each edit that was refused: an edit whose sum stands there need not be tried again.
Comments do not count. An edit that changes no single function (a constant, a layout, a cycle) reads all texts of its crate."""
import collections
import functools
import hashlib
import os
import re

from kit import RT

TOP = os.path.realpath(f"{os.path.dirname(os.path.abspath(__file__))}/../..")
KEPT = f"{TOP}/tests/gate/refused.txt"
HEAD = "# Each wrong body that was refused, with the sum of all that decides it: tests/gate/refused.py says of what. The tests write this file.\n"

FUNCTION = re.compile(r"\b(const\s+)?fn\s+(\w+)")
OWNER = re.compile(r"(?m)^(?:pub(?:\(\w+\))? )?(?:unsafe )?(impl\b[^{;]*|trait \w[^{;]*)\{")
CLAUSE = re.compile(r"\b(?:requires|ensures)\s*\*?\s*(?:\w+\s*)?$")
NAMED = re.compile(r"\bRattle\.(\w+)\.(specs|proofs)\.([\w.]*\w)|\bcrate::(specs|proofs)::([\w:]*\w)")
IMPORT = re.compile(r"(?m)^(?:ghost )?use [^;{]*?(\w+)?(?:\{([^{};]*)\})?;\n?")
COMMENT = re.compile(r"(?m)^\s*(?://|--).*\n?")
WORD = re.compile(r"\w+")

# A part of a source: a function, as the name, whether each caller may know it without its name (a trait has it), whether crates above may call
# it, what it states and its whole text; or what stands between functions, without a name.
Part = collections.namedtuple("Part", "name is_of_trait is_public states text")


def read(path):
    with open(path, encoding="utf-8") as it:
        return it.read()


def end_of(plain, at):
    """Where the braces end that open here."""
    depth = 0
    for it in re.finditer(r"[{}]", plain[at:]):
        depth += 1 if it[0] == "{" else -1
        if not depth:
            return at + it.end()
    raise ValueError("a brace is not closed")


def body_of(plain, at):
    """Where the body of a function begins whose name ends here, or the semicolon in its place."""
    depth = 0
    while plain[at] != ";" or depth:
        if plain[at] in "([":
            depth += 1
        elif plain[at] in ")]":
            depth -= 1
        elif plain[at] == "{":
            if not CLAUSE.search(plain[:at][-80:]):
                return at
            at = end_of(plain, at) - 1
        at += 1
    return at


def begin_of(text, plain, at):
    """Where the item begins that has this place in its first line: its attributes and comments are above it."""
    begin = plain.rfind("\n", 0, at) + 1
    while begin:
        above = plain.rfind("\n", 0, begin - 1) + 1
        line = plain[above:begin].strip()
        if not line.startswith("#[") and (line or not text[above:begin].strip()):
            break
        begin = above
    return begin


def parts_of(text, plain):
    """The parts of a source, in order. The second text has a blank for each byte of a comment or a string."""
    found, last = [], 0
    for it in FUNCTION.finditer(plain):
        if it.start() < last or it[1]:
            continue
        begin, body = begin_of(text, plain, it.start()), body_of(plain, it.end())
        end = body + 1 if plain[body] == ";" else end_of(plain, body)
        owners = OWNER.findall(plain[:begin]) if plain[begin] == " " else []
        is_of_trait = bool(owners) and (owners[-1].startswith("trait") or " for " in owners[-1])
        is_public = bool(re.match(r"\s*pub (?!\()", plain[plain.rfind("\n", 0, it.start()) + 1 :]))
        found += [Part("", True, True, text[last:begin], ""), Part(it[2], is_of_trait, is_public, text[begin:body], text[begin:end])]
        last = end
    return [*found, Part("", True, True, text[last:], "")]


@functools.cache
def sources(crate):
    """The parts of each source of a crate, without comments, by path."""
    found = {}
    for path, plain in RT.rtlib.blanked(crate.folder).items():
        if path.endswith(".rt"):
            # (blanks stand for bytes)
            parts = parts_of(read(path).encode().decode("latin-1"), plain.encode().decode("latin-1"))
            found[os.path.relpath(path, crate.folder)] = [it._replace(states=COMMENT.sub("", it.states), text=COMMENT.sub("", it.text)) for it in parts]
    return found


@functools.cache
def files_of(crate, part):
    found = [f"{at}/{it}" for at, _, names in os.walk(f"{crate.folder}/{part}") for it in names if it.endswith((".rt", ".antt"))]
    return {os.path.relpath(it, crate.folder): COMMENT.sub("", read(it)) for it in sorted(found)}


def words_in(texts):
    return {word for text in texts for word in WORD.findall(text)}


def needed(line, words):
    """An import without the names that are not among these words. An operator's name is no word."""
    if line[2] is None:
        return line[0] if line[1] in words or line[1] is None else ""
    names = [it.strip() for it in line[2].split(",")]
    kept = [it for it in names if it == "self" or not re.fullmatch(r"\w+", it.split()[-1] if it else "?", re.A) or it.split()[-1] in words]
    return f"{line[0].partition('{')[0]}{{{', '.join(kept)}}};\n" if kept else ""


def without_unused(text):
    """A source without the imports that nothing in it uses, and without blank lines."""
    words = words_in([IMPORT.sub("", text)])
    return "\n".join(it for it in IMPORT.sub(lambda line: needed(line, words), text).splitlines() if it.strip())


@functools.cache
def names_of(crate):
    """The names of the functions of a crate, and of those that crates above may call."""
    parts = [it for parts in sources(crate).values() for it in parts]
    return {it.name for it in parts}, {it.name for it in parts if it.is_public}


@functools.cache
def stated(crate, names, whole):
    """What the sources of a crate state, by path: functions of traits, and those of these names. One function is there whole."""
    said = {}
    for path, parts in sources(crate).items():
        text = "".join(it.text if it.text and it.text == whole else it.states for it in parts if it.is_of_trait or it.name in names)
        said[crate.name, path] = without_unused(text)
    return said


def said_above(crate, words):
    """What a crate says to those above it in whose texts these words are."""
    return stated(crate, frozenset(names_of(crate)[1] & words), "")


@functools.cache
def named_in(own, text):
    """The files of definitions and lemmas that a text of a crate names."""
    found = []
    for name, part, names, own_part, own_names in NAMED.findall(text):
        name, part, names = (name, part, names.split(".")) if name else (own, own_part, own_names.split("::"))
        files = files_of(crates()[name], part) if name in crates() else {}
        found += [(name, it) for n in range(len(names), 0, -1) if (it := f"{part}/{'/'.join(names[:n])}.antt") in files][:1]
    return found


@functools.cache
def crates():
    return {it.name: it for it in RT.rtlib.crates_below(TOP)}


def with_named(texts):
    """These texts, with the definitions and lemmas that they name, and what those name."""
    found = dict(texts)
    left = [(name, text) for (name, _), text in texts.items()]
    while left:
        for name, path in named_in(*left.pop()):
            if (name, path) not in found:
                found[name, path] = files_of(crates()[name], path.partition("/")[0])[path]
                left.append((name, found[name, path]))
    return found


def own_texts(crate, edit):
    """The texts of its own crate that decide whether an edit is refused, by crate and path."""
    texts = {(crate.name, "edit"): edit.text}
    if edit.goes_alone:
        return {**texts, **{(crate.name, path): text for part in ("src", "specs", "proofs") for path, text in files_of(crate, part).items()}}
    changed = {it.text: it.name for path, old, _ in edit.pairs for it in sources(crate)[path] if it.text and old.encode().decode("latin-1") in it.text}
    folders = tuple(f"proofs/{'/'.join(place.split('::')[1:])}/" for place in edit.places)
    texts.update({(crate.name, path): text for path, text in files_of(crate, "proofs").items() if path.startswith(folders)})
    names = frozenset(names_of(crate)[0] & words_in([*changed, *texts.values()]))
    for whole, name in changed.items():
        texts.update({(crate.name, f"{path} {name}"): text for (_, path), text in stated(crate, names, whole).items()})
    return texts


@functools.cache
def digest(text):
    return hashlib.sha256(text.encode()).digest()


def sum_of(crate, edit):
    """The sum of all that decides whether this edit is refused: 16 digits."""
    texts = own_texts(crate, edit)
    words = words_in(texts.values())
    for it in crate.below():
        texts.update(said_above(it, words))
    said = [repr(it.said) for it in [crate, *crate.below()]]
    return digest(repr((read(f"{RT.KIT}/WHAT"), said, sorted((*key, digest(text)) for key, text in with_named(texts).items())))).hex()[:16]


def kept():
    """The sums of the edits that were refused, by their names."""
    if not os.path.isfile(KEPT):
        return {}
    lines = [it.split() for it in read(KEPT).splitlines() if not it.startswith("#")]
    return {name: sum for sum, name in lines}


def keep(sums):
    """Writes the sums of the edits that were refused."""
    with open(KEPT, "w", encoding="utf-8") as it:
        it.write(HEAD + "".join(f"{sum} {name}\n" for name, sum in sorted(sums.items())))
