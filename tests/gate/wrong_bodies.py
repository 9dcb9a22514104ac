#!/usr/bin/env python3
"""Tries the wrong bodies of crates/NAME/wrong: each must be refused by the contract of the function that it changes.

usage: tests/gate/wrong_bodies.py [--after-gate] [--all] [--list] [--minutes N] [NAME | NAME/EDIT]..

Without words those are tried that were not yet refused as the texts stand (tests/gate/refused.py says what decides that), with --all each, else
those of these crates or these single edits (with or without the ending .edit). What is refused is kept in tests/gate/refused.txt, which --all
writes anew. --list only tells which would be tried, with the sum of what decides it.

An edit has the form of those in must-fail. Proofs are modular: a proof knows of other functions their contracts alone. So edits of
different functions are tried in one check of a copy, in which each function but the edited ones has a hole for a proof: it stands for its
contract, and takes no time. Each edited function must be refused of its own; one that waits for a refused callee is tried again without
it, and what is not refused so is tried alone over the whole crate. An edit of a constant or a layout names in a line 'by: FUNCTION' who
must refuse it, and goes alone. One that no longer compiles must say so in a line 'by: compiler: MESSAGE', with a part of what the compiler
says of it. The last line is 'N passed, M failed'.

--after-gate takes the libraries that a run of the gate has just built in this tree. After N minutes no other check is begun: what was not tried
is told, and does not fail."""
import copy
import os
import re
import shutil
import sys
import tempfile
import threading
import time

TOP = os.path.realpath(f"{os.path.dirname(os.path.abspath(__file__))}/../..")

sys.path.insert(0, f"{TOP}/tools")
import refused
from kit import RT

HEAD = re.compile(r"(?m)^(?:    )?(?:pub(?:\([a-z]+\))? )?(?:const )?(?:extern .C. )?fn (\w+)|^impl\b[^{;]*|^(?:pub(?:\([a-z]+\))? )?(?:const|static|struct|enum|trait|type|mod)\b")

# What a check says of a function that it found nothing against; of one that it may not have judged, as it refused or passed over one that it calls;
# and of one in which it found a goal that does not hold.
WELL = re.compile(r"proved|no holes|depends on a hole")
MASKED = re.compile(r"it calls|which is not proved|which has no proof")
OPEN = re.compile(r"`search` did not prove")

# How an edit begins the line that says what the compiler must say of it.
COMPILER = "by: compiler: "

# The proof of a function that a pack leaves as it is.
HOLE = """use Rattle.{library}.proofs.{path}.Statement.{{statement}}

pub {name}_spec : {{M : Type 1}} → statement M
{name}_spec = ?
"""


class Edit:
    """A wrong body: its name, the pairs of texts that it changes, and the functions that must refuse it."""

    def __init__(self, crate, file):
        self.name = os.path.basename(file)[: -len(".edit")]
        self.label = f"{crate.name}/{self.name}"
        self.texts, self.why = RT.read_edit(file, crate.folder)
        self.pairs, self.places, self.message, path, old = [], set(), "", "", ""
        self.text = refused.read(file)
        for line in self.text.split("\n"):
            if line.startswith("file: "):
                path = line[len("file: ") :].strip()
            elif line.startswith(COMPILER):
                self.message = line[len(COMPILER) :].strip()
            elif line.startswith("by: "):
                self.places.add(f"{crate.name}::{line[len('by: ') :].strip()}")
            elif line.startswith("old: "):
                old = line[len("old: ") :]
            elif line.startswith("new:"):
                self.pairs.append((path, old, re.sub(r"\A ", "", line[len("new:") :])))
        self.goes_alone = bool(self.places or self.message)
        if not self.places and not self.why:
            # (a pair that applies to what an earlier one made stands in no function of the text as it is: such an edit goes alone)
            self.places = {function_at(crate, *it[:2]) for it in self.pairs}
            self.goes_alone = None in self.places
        # (functions of one cycle are proved together, so each may be refused for a fault in another)
        cycles = {crate.cycles[it] for it in self.places if it in crate.cycles}
        self.reach = self.places | {it for it, cycle in crate.cycles.items() if cycle in cycles}


def text_of(crate, path):
    with open(f"{crate.folder}/{path}", encoding="utf-8") as it:
        return it.read()


def heads_in(crate, path):
    """What begins in a text of src/: where, and its name as a check prints it, or None where it is no function with a body."""
    modules, owner = module_of(path), ""
    for it in HEAD.finditer(text_of(crate, path)):
        if it[1] and not it[0].startswith("    "):
            owner = ""
        elif not it[1]:
            owner = owner_of(it[0]) if it[0].startswith("impl") else None
        # (a check names a method by the module of its type, wherever its impl stands, and one of a trait by the module of the impl)
        home = crate.homes.get(owner, modules)
        yield it.start(), f"{crate.name}::{home}{owner and owner + '::'}{it[1]}" if it[1] and owner is not None else None


def cycles_of(crate):
    """The cycle of each function that stands in one with others."""
    found = {}
    for path in sources(crate):
        text = text_of(crate, path)
        for at, name in heads_in(crate, path):
            cycle = re.search(r"#\[cycle\((\w+)\)\]\s*(?:#\[.*\]\s*)*\Z", text[:at])
            if name and cycle:
                found[name] = cycle[1]
    return found


def module_of(path):
    modules = path[len("src/") : -len(".rt")].replace("/", "::")
    return "" if modules in ("lib", "main") else f"{modules}::"


def sources(crate):
    found = [f"{at}/{it}" for at, _, names in os.walk(f"{crate.folder}/src") for it in names if it.endswith(".rt")]
    return sorted(os.path.relpath(it, crate.folder) for it in found)


def homes_of(crate):
    """The module of each type of a crate."""
    types = r"(?m)^(?:pub(?:\([a-z]+\))? )?(?:struct|enum) (\w+)"
    return {name: module_of(path) for path in sources(crate) for name in re.findall(types, text_of(crate, path))}


def function_at(crate, path, old):
    """The name, as a check prints it, of the function in which a text stands, or None where it stands in none."""
    text = text_of(crate, path)
    if not path.startswith("src/") or text.count(old) != 1:
        return None
    end = text.index(old) + len(old)
    return next((name for at, name in reversed([*heads_in(crate, path)]) if at < end), None)


def owner_of(head):
    """The part of a method's name that its impl gives: the type, and the trait behind it."""
    plain = re.sub(r"\bwhere\b.*", "", head, flags=re.S)
    while re.search(r"<[^<>]*>", plain):
        plain = re.sub(r"<[^<>]*>", "", plain)
    # (a check writes Ref for a reference, as in RefVrpSetIntoIterator)
    words = re.sub(r"&('\w+ )?", "Ref ", plain.replace("impl", "", 1)).split()
    names = [it.split("::")[-1] for it in words if it not in ("for", "mut", "Ref")]
    # (a check adds the arguments of the trait, as in SetFaultFromAllocError, ProgramFaultFromIoError and VrpSetTryFromVecVrp)
    given = re.match(r"impl(?:<[^>]*>)?\s+[\w:]+<([\w:]+(?:<[\w:]+>)?)>\s+for", head)
    given = "".join(it[:1].upper() + it[1:] for it in re.findall(r"\w+", given[1])) if given else ""
    return f"{'Ref' * ('Ref' in words)}{names[1]}{names[0]}{given}" if "for" in words else names[0]


def packed(edits):
    """Packs edits so that no two of a pack change one function."""
    packs = []
    for edit in edits:
        place = next((it for it in packs if not edit.goes_alone and not it[0].goes_alone and all(not edit.reach & other.reach for other in it)), None)
        if place is None:
            packs.append([edit])
        else:
            place.append(edit)
    return packs


def texts_of(crate, edits):
    """The files as several edits leave them, each of which stands in a function of its own."""
    texts = {}
    for path, old, new in [pair for edit in edits for pair in edit.pairs]:
        texts[path] = (texts.get(path) or text_of(crate, path)).replace(old, new)
    return texts


def belongs(name, place):
    """Whether a function that a check names is this one, or a closure in it."""
    return f"{name}::".replace("::fn::", "::", 1).startswith(f"{place}::")


def with_holes(crate, places, room):
    """A copy of the crate in which each function but these has a hole for a proof."""
    for part in RT.rtlib.PARTS:
        if os.path.isdir(f"{crate.folder}/{part}"):
            shutil.copytree(f"{crate.folder}/{part}", f"{room}/{part}")
    for place in {name for path in sources(crate) for _, name in heads_in(crate, path) if name} - places:
        names = place.split("::")[1:]
        folder = "/".join([room, "proofs", *names])
        # (a function that calls itself, also by way of others, is proved in a folder of its cycle, and keeps its proof)
        if os.path.isdir("/".join([room, "proofs", *names[:-1], f"+{crate.cycles.get(place, names[-1])}"])):
            continue
        os.makedirs(folder, exist_ok=True)
        for it in ("Invariants.antt", "Answers.antt"):
            if os.path.isfile(f"{folder}/{it}"):
                os.remove(f"{folder}/{it}")
        with open(f"{folder}/Proof.antt", "w", encoding="utf-8") as it:
            it.write(HOLE.format(library=crate.name, path=".".join(names), name=names[-1]))
    made = copy.copy(crate)
    made.folder = room
    return made


def refused_in(crate, texts, places, kept):
    """Checks what stands in these places, with these texts and over the contracts of all else, and returns the functions that are refused of their
    own, or None and why the prover was not reached."""
    only = [word for it in sorted(places) for word in ("--only", it.partition("::")[2])]
    with tempfile.TemporaryDirectory(prefix="wrong-bodies-") as room:
        return refused_of_own(RT.checked(with_holes(crate, places, room), texts, ["--jobs", "1", "--allow-holes", *only], kept), texts)


def refused_of_own(ran, texts):
    """The functions that a check refuses of their own, or None and why the prover was not reached."""
    lines = ran.stdout.rstrip("\n").split("\n")
    unread = next((it for it in lines if RT.unread(it, texts)), "")
    if unread:
        return None, f"the prover cannot read the edited text: {unread[:200]}"
    if ran.returncode == 0:
        return set(), ""
    if ran.returncode != 1 or not lines[-1].startswith(("logic=not-proved", "only=")):
        return None, "it did not reach the prover: " + " | ".join(lines[-4:])[:400]
    # (an error in the file of a function's own answers is the function's own)
    wrong = set(re.findall(r"(?m)^(?:\./)?proofs/(\S+)/(?:Invariants|Answers)\.antt:\d+:\d+: error: ", ran.stdout))
    said = [it for it in re.findall(r"(?m)^fn (\S+): (.*)$", ran.stdout) if not WELL.match(it[1])]
    own = {name for name, what in said if not MASKED.search(what) or OPEN.search(what) or "/".join(name.split("::")[1:]) in wrong}
    return own, ""


def judged_alone(crate, edit, kept):
    """Whether the edit, tried alone over the whole crate, is refused by what it changes, and what to say."""
    own, why = refused_of_own(RT.checked(crate, edit.texts, ["--jobs", "1"], kept), edit.texts)
    if edit.message:
        return own is None and edit.message in why, f"refused by the compiler: {edit.message}" if own is None and edit.message in why else f"NOT REFUSED by the compiler: {why}"
    if own is None:
        return False, f"BAD EDIT: {why}"
    if not own:
        return False, "NOT REFUSED: the crate is still proved with this edit"
    if None in edit.places:
        return False, f"BAD EDIT: it changes no function, so a line 'by: FUNCTION' must name who refuses it: {', '.join(sorted(own)[:3])}"
    by, others = shared(own, edit)
    if not by:
        return False, f"REFUSED ELSEWHERE: by {', '.join(others[:4])}, and not by {', '.join(sorted(edit.places))}"
    if others and not edit.goes_alone:
        return False, f"REFUSED ELSEWHERE TOO: by {', '.join(others[:4])}"
    return True, f"refused by {', '.join(by)}"


def shared(own, edit):
    """The places of an edit that are among the refused functions, and the refused functions that it does not reach."""
    by = sorted(it for it in edit.places if any(belongs(name, it) for name in own))
    return by, sorted(name for name in own if not any(belongs(name, it) for it in edit.reach))


def judged(crate, edits, kept, end):
    """Tries a pack of edits in one check, what waits there for a refused callee in the next, and alone what no check of several refused as it must be.
    After the end no other check is begun."""
    found, left = [], edits
    while left and not left[0].message and None not in left[0].places and time.time() < end:
        places = {place for edit in left for place in edit.places}
        own, _ = refused_in(crate, texts_of(crate, left), places, kept)
        if own is None or set.intersection(*(set(shared(own, edit)[1]) for edit in left)):
            break
        by = {edit.name: shared(own, edit)[0] for edit in left}
        well = [edit for edit in left if by[edit.name]]
        if not well:
            break
        found += [(edit, True, f"refused by {', '.join(by[edit.name])}") for edit in well]
        left = [edit for edit in left if not by[edit.name]]
    return found + [(edit, *judged_alone(crate, edit, kept)) for edit in left if time.time() < end]


class Refused:
    """The sums of what was refused, by name. They are written after each pack, so that a run that is ended early is not lost."""

    def __init__(self, sums, keeps_others):
        self.sums, self.keeps_others, self.kept, self.lock = sums, keeps_others, refused.kept(), threading.Lock()

    def note(self, found):
        with self.lock:
            for edit, is_well, _ in found:
                self.kept[edit.label] = self.sums[edit.label] if is_well else ""
            refused.keep({it: sum for it, sum in self.kept.items() if sum == self.sums.get(it, self.keeps_others and sum)})


def tried(crate, edits, known, end):
    """Tries a crate's edits until an end, and returns each that was tried with whether it passed and what to say."""
    began = time.time()
    found = [(edit, False, f"BAD EDIT: {edit.why}") for edit in edits if edit.why]
    packs = packed([edit for edit in edits if not edit.why])
    with tempfile.TemporaryDirectory(prefix="wrong-bodies-") as kept:
        for pack in packs:
            if time.time() < end:
                some = judged(crate, pack, kept, end)
                known.note(some)
                found += some
    print(f"wrong bodies of {crate.name}: {len(found)} of {len(edits)} in {len(packs)} packs, {time.time() - began:.0f} s", flush=True)
    return found


def in_parts(crate, edits):
    """The edits that are tried one after the other. Each function of a program takes long, over all libraries below it, and little of a check serves
    the next: so a program's edits are shared out. Those of a library stay together, as the first check reads its proofs."""
    size = 8 if crate.is_program else max(1, len(edits))
    return [edits[at : at + size] for at in range(0, len(edits), size)]


def edits_of(crate, words):
    """The edits of a crate that the words name."""
    crate.homes, folder = homes_of(crate), f"{crate.folder}/wrong"
    crate.cycles = cycles_of(crate)
    files = sorted(os.listdir(folder)) if os.path.isdir(folder) else []
    chosen = [it for it in files if not words or crate.name in words or f"{crate.name}/{it}" in words or f"{crate.name}/{it[: -len('.edit')]}" in words]
    return [Edit(crate, f"{folder}/{it}") for it in chosen if it.endswith(".edit")]


def library_stands(crate, after_gate):
    """Whether the crate's library stands, as the gate left it or built now."""
    stamp = f"{crate.folder}/out/rlib/stamp"
    if after_gate and os.path.isdir(crate.rlib) and not os.path.isfile(stamp):
        return True
    return not crate.build_rlib(["--jobs", str(RT.processors())], anew=False)


def tasks_of(edits, known, end):
    """What is to be tried until an end, crate by crate, as tasks that run side by side: first what was never refused."""
    tasks = {}
    for crate, some in edits.items():
        news = [it for it in some if it.label not in known.kept]
        for kind, first, of_kind in [("new", 2**40, news), ("known", 0, [it for it in some if it not in news])]:
            for number, part in enumerate(in_parts(crate, of_kind)):
                work = first + crate.count(rb"\n") * (2 + len(part)) * (8 if crate.is_program else 1)
                # (a task of this second word gets one job)
                tasks[f"{crate.name} {kind} {number}", "edits"] = ([], work, RT.need(crate), lambda given, jobs, of=crate, it=part: tried(of, it, known, end))
    return tasks


def told(found, wanted):
    """Tells what was found of each edit that was tried, and how many were not, and returns how many failed."""
    for edit, is_well, what in sorted(found, key=lambda it: it[0].label):
        print(f"wrong body {edit.label}: {what}")
    if len(found) < wanted:
        print(f"wrong bodies: {wanted - len(found)} of {wanted} were not tried, as the time was over: tests/gate/wrong_bodies.py tries all")
    failed = sum(not it[1] for it in found)
    print(f"{len(found) - failed} passed, {failed} failed")
    return failed


def main(words):
    os.chdir(TOP)
    RT.rtlib.guarded()
    minutes = float("inf")
    if "--minutes" in words[:-1]:
        at = words.index("--minutes")
        minutes, words = float(words[at + 1]), words[:at] + words[at + 2 :]
    flags = {it for it in words if it.startswith("--")}
    words = [it.removesuffix(".edit").rstrip("/") for it in words if it not in flags]
    crates = sorted(RT.rtlib.crates_below(TOP), key=lambda it: len(it.below()))
    edits = {it: edits_of(it, words) for it in crates}
    if flags - {"--after-gate", "--all", "--list"} or (words and not any(edits.values())):
        print("usage: tests/gate/wrong_bodies.py [--after-gate] [--all] [--list] [--minutes N] [NAME | NAME/EDIT]..\n0 passed, 1 failed")
        return 1
    sums = {edit.label: refused.sum_of(crate, edit) for crate, some in edits.items() for edit in some}
    known = Refused(sums, bool(words))
    is_new = lambda edit: words or "--all" in flags or known.kept.get(edit.label) != sums[edit.label]
    wanted = {crate: left for crate, some in edits.items() if (left := [it for it in some if is_new(it)])}
    if "--list" in flags:
        sys.stdout.writelines(f"{sums[it.label]} {it.label}\n" for some in wanted.values() for it in some)
        return 0
    print(f"wrong bodies: {sum(map(len, wanted.values()))} to be tried, {len(sums) - sum(map(len, wanted.values()))} refused as the texts stand", flush=True)
    if not all(library_stands(it, "--after-gate" in flags) for it in {dep.name: dep for it in wanted for dep in it.below()}.values()):
        print("a library below could not be built\n0 passed, 1 failed")
        return 1
    known.note([])
    end = time.time() + 60 * minutes
    found = [it for some in RT.in_lanes(tasks_of(wanted, known, end)).values() for it in some]
    known.note([it for it in found if not it[1]])
    return 1 if told(found, sum(map(len, wanted.values()))) else 0


if __name__ == "__main__":
    sys.exit(main(sys.argv[1:]))
