#!/usr/bin/env python3
"""Makes the pages of docs/ that are read off the sources, BELIEVE.md and STANDARDS.md, and the last section of TOUR.md, which lists every file.

usage: tools/pages.py [--check | --calls [CRATE] | definitions]

Without an argument the pages are written. With --check they are compared with what would be written, the layers of TOUR.md with those of
crates.txt, and the words of four pages are counted: the status is 1 if one differs, or if they are too long together, and each finding is printed. With --calls nothing is written: each public call
with a contract is printed, of all crates or of one, with the definitions that its clauses name, and how many definitions and lines they rest
on in all. The word `definitions` writes out/DEFINITIONS.md, which is not kept: each definition with its comment, the laws, and the files of
worked rows."""
import collections
import glob
import os
import re
import sys

import crates_txt

TOP = os.path.realpath(f"{os.path.dirname(os.path.abspath(__file__))}/..")
WORD = re.compile(r"[^\s(){}\[\],;:`=]+")

# The promises and the calls by whose contracts they are kept.
PROMISES = [
    ("Payloads: decoders accept exactly the grammar, and otherwise report the first fault", ["payloads::decode_roa", "payloads::decode_manifest", "payloads::laws::one_fault", "payloads::laws::one_spelling"]),
    ("Publication points: offers and what is in use", ["points::Repository::offer", "points::Repository::payloads", "points::laws::new_where_acceptable"]),
    ("Route states", ["vrps::OriginIndex::state", "vrps::laws::state_by_members"]),
    ("PDUs, however the bytes are split", ["rtr_pdu::UnitReader::next", "rtr_pdu::encode", "rtr_pdu::laws::one_split"]),
    ("A cache's replies", ["rtr_ends::Cache::receive", "rtr_ends::Cache::pull", "rtr_ends::laws::serves_history"]),
    ("What a router commits", ["rtr_ends::Router::receive", "rtr_ends::laws::router_keeps", "rtr_ends::laws::acts_exactly"]),
    ("From offers to the state of a route", ["feed::route_from_payloads"]),
    ("Every router's table, after every list of events", ["rtr_world::World::run", "rtr_world::laws::headline"]),
    ("Catching up", ["rtr_world::World::catch_up"]),
    ("One cache and many clients", ["rtr_server::Server::serve", "rtr_server::Server::publish", "rtr_server::laws::each_client_is_served"]),
    ("What validators export", ["exports::read_export"]),
    ("Local exceptions", ["slurm::read_slurm", "slurm::apply", "slurm::laws::one_reading", "slurm::laws::applied_twice"]),
    ("What the daemon publishes, from what, and when", ["rtr_daemon::Daemon::open", "rtr_daemon::Daemon::turn", "rtr_daemon::laws::versions_are_paced"]),
    ("What the daemon tells of itself", ["rtr_daemon::Daemon::status"]),
    ("Restarts", ["session_names::laws::restart_is_later"]),
    ("Lost routers", ["tcp_table::unanswered", "tcp_table::unanswered_after", "tcp_table::is_lost"]),
    ("The log", ["event_log::write_event", "log_output::Log::add", "log_output::Log::write_to", "log_output::laws::each_is_one_line"]),
    ("The service manager", ["sd_notify::socket_address", "sd_notify::Notifier::signal", "sd_notify::Watchdog::take_signal"]),
    ("Status pages and metrics", ["status_server::StatusEndpoint::turn", "status_pages::Validity::of_route", "status_pages::write_validity", "status_pages::is_healthy", "status_pages::write_csv"]),
    ("DER and moments", ["der_lite::laws::reads_exactly", "der_lite::laws::one_spelling", "der_lite::laws::reads_times_exactly"]),
    ("Signatures", ["rsa_sha256::PublicKey::new", "rsa_sha256::PublicKey::verify"]),
    ("Signed objects", ["signed_objects::read_signed_object", "signed_objects::read_der_object", "signed_objects::laws::one_fault", "signed_objects::laws::one_object"]),
    ("Kinds of files", ["file_kinds::FileKind::of_file", "file_kinds::FileKind::of_content_type", "file_kinds::laws::one_kind"]),
    ("Canonical cache representations", ["ccr::read_ccr", "ccr::encode_vrps", "ccr::vrps_digest", "ccr::laws::same_vrps", "ccr::laws::one_representation", "ccr::laws::sets_are_roas", "ccr::laws::hash_is_digest"]),
    ("Resource certificates and revocation lists", ["resource_certificates::read_certificate", "resource_certificates::read_crl", "resource_certificates::laws::one_certificate", "ee_keys::same_key"]),
    ("Who issued a certificate", ["issuing::judge_certificate", "issuing::judge_crl"]),
    ("Resources of certificates", ["resources::read_ip_blocks", "resources::read_as_ids", "resources::ResourceChoice::held", "resources::laws::one_ip_value"]),
    ("Trust anchors", ["trust_anchors::read_tal", "trust_anchors::laws::one_locator", "trust_anchors::judge_anchor", "trust_anchors::choose", "trust_anchors::laws::one_is_better"]),
    ("Constraints of a trust anchor", ["constraints::read_constraints", "constraints::Constraints::judge", "constraints::Constraints::judge_as", "constraints::laws::one_reading", "constraints::laws::one_verdict"]),
    ("From trust anchors to VRPs", ["authority_walk::validate", "authority_walk::Validation::step", "authority_walk::Validation::vrps", "authority_walk::Validation::has_deeper", "authority_walk::laws::one_answer"]),
    ("A router of another cache, and chains of caches", ["upstreams::Upstream::poll", "upstreams::laws::each_holds", "relays::laws::chain"]),
    ("The library for C", ["rpkirtr_c::rpkirtr_router_receive", "rpkirtr_c::rpkirtr_router_state", "rpkirtr_c::rpkirtr_index_new", "rpkirtr_c::rpkirtr_cache_receive", "rpkirtr_c::rpkirtr_cache_publish", "rpkirtr_c::rpkirtr_roa_new", "rpkirtr_c::rpkirtr_manifest_new"]),
    ("What the commands print", ["payload_commands::print_roa", "payload_commands::print_manifest", "payload_commands::print_state", "rtr_commands::print_units", "rtr_commands::answer_lines"]),
]


def read(path):
    with open(path, encoding="utf-8") as it:
        return it.read()


def crates():
    """The crates that have definitions or contracts."""
    return crates_txt.libraries()


def examples():
    """The crates of examples."""
    return crates_txt.examples()


class Definition:
    """A definition: its name, its text, and the comment above it, or none where it stands with the one before."""

    def __init__(self, file, name, comment, lines):
        self.file, self.name, self.comment, self.lines = file, name, comment, lines
        self.names = [name] + re.findall(r"(?m)^  (\S+) : ", "\n".join(lines)) * lines[0].lstrip().startswith(("pub data", "data"))


class Source:
    """A file of specs: its comment, what it names of others, and its definitions in their order."""

    HEAD = re.compile(r"^(?:(?:abbrev|unfoldable|pub|record|data) )*([^\s(){}]+)(?: [({].*[)}])? :(?: |$)")

    def __init__(self, crate, path):
        self.crate, self.path, self.module = crate, os.path.relpath(path, TOP), f"Rattle.{crate}.specs.{os.path.basename(path)[:-5]}"
        text = read(path)
        self.names, self.definitions = imports(re.findall(r"(?m)^(?:pub )?use (.*)$", text)), []
        parts = re.split(r"\n\s*\n", re.sub(r"(?m)^(?:pub )?use .*\n", "", text).strip())
        self.comment = ""
        for part in parts:
            self.add(part.split("\n"))

    def add(self, lines):
        comment = " ".join(it.strip()[3:] for it in lines if it.lstrip().startswith("-- "))
        code = [it for it in lines if not it.lstrip().startswith("--")]
        if not code:
            self.comment = self.comment or comment
            return
        if not self.definitions and not self.comment and lines[0].startswith("-- "):
            self.comment, comment = comment, ""
        head = next((self.HEAD.match(it.strip()) for it in code if self.HEAD.match(it.strip())), None)
        if head and not code[0].startswith(("pub mod", "mod ")):
            self.definitions.append(Definition(self, head.group(1), comment, code))


def imports(uses):
    """What the names of `use` lines stand for, whole."""
    names = {}
    for use in uses:
        use = use.strip().rstrip(";")
        if braced := re.match(r"(\S+?)\.\{(.*)\}$", use):
            for name in braced.group(2).split(","):
                whole, _, other = name.strip().partition(" as ")
                names[other or whole] = f"{braced.group(1)}.{whole}"
        elif named := re.match(r"(\S+) as (\S+)$", use):
            names[named.group(2)] = named.group(1)
    return names


class Call:
    """A public call with a contract: its name, its comment, and the names that its clauses and the types of its signature use."""

    def __init__(self, crate, path, name, comment, roots):
        self.crate, self.path, self.name, self.comment, self.roots = crate, path, name, comment, roots


class Code:
    """The files of a crate's code: the meanings of its types, and its public calls."""

    def __init__(self, crate, known):
        self.crate, self.known, self.meanings, self.calls = crate, known, {}, []
        files = sorted(glob.glob(f"{TOP}/crates/{crate}/src/*.rt"))
        main = f"{TOP}/crates/{crate}/src/lib.rt"
        self.shown = set(re.findall(r"\w+", " ".join(re.findall(r"(?ms)^pub (?:use|mod) (.*?);", read(main))))) if os.path.exists(main) else None
        for path in files:
            self.each_block(path, self.meaning)
        for path in files:
            self.each_block(path, self.call)

    def each_block(self, path, act):
        """Does this to each function and each `impl Model`, with the lines before its body."""
        lines, owner, names = read(path).split("\n"), "", {}
        names.update(imports(re.findall(r"(?m)^\s*ghost use (.*);$", "\n".join(lines))))
        for at, line in enumerate(lines):
            if block := re.match(r"(?:pub )?(?:unsafe )?(impl|trait)\b(?:<.*?>)?\s*(.*?)\s*(?:where.*)?\{?$", line):
                owner = block.group(2)
                if owner.startswith("Model for"):
                    end = next(k for k in range(at, len(lines)) if lines[k] == "}")
                    act(path, owner[len("Model for ") :], lines[at:end], names)
            elif line == "}":
                owner = ""
            elif function := re.match(r"\s*(pub )?(?:const )?(?:unsafe )?(?:extern \"C\" )?fn (\w+)", line):
                if function.group(1) or " for " in owner or owner.startswith(tuple("ABCDEFGHIJKLMNOPQRSTUVWXYZ")) and "trait" in lines[at - 1]:
                    end = next((k for k in range(at, len(lines)) if re.match(r"\s*(\{.*|.*\{|.*\{\})$", lines[k]) and "ensures" not in lines[k] and "requires" not in lines[k]), at)
                    act(path, (owner, function.group(2), self.comment(lines, at)), lines[at : end + 1], names)

    @staticmethod
    def comment(lines, at):
        above = []
        while at and re.match(r"\s*(///|#\[)", lines[at - 1]):
            at -= 1
            above.insert(0, lines[at].strip())
        return " ".join(it[4:] for it in above if it.startswith("///"))

    def resolved(self, text, names):
        found = set()
        for word in WORD.findall(text):
            for part in (word, word.split(".")[0]):
                whole = names.get(part, "")
                rest = word[len(part) :]
                found |= {it for it in (whole, whole + rest) if it in self.known}
        return found

    def meaning(self, path, owner, lines, names):
        if isinstance(owner, str):
            inner = {**names, **imports(re.findall(r"(?m)^\s*ghost use (.*);$", "\n".join(lines)))}
            name = re.match(r"\w+", owner).group()
            self.meanings[name] = self.meanings.get(name, set()) | self.resolved("\n".join(it for it in lines if "ghost use" not in it), inner)

    def call(self, path, owner, lines, names):
        if isinstance(owner, str):
            return
        text = "\n".join(lines)
        clauses = re.findall(r"(?:ensures|requires)\b.*(?:\n\s*(?!ensures|requires|\{$).+)*", text)
        if not clauses:
            return
        roots = self.resolved("\n".join(clauses), names)
        for word in re.findall(r"\w+", text.split("ensures")[0]) + re.findall(r"\w+", owner[0]):
            roots |= self.meanings.get(word, set())
        of = re.sub(r"<.*?>", "", owner[0].split(" for ")[-1]).strip()
        stem = os.path.basename(path)[:-3]
        if self.shown is not None and stem not in ("lib", *self.shown) and (of or owner[1]) not in self.shown and 'extern "C"' not in text:
            return
        place = [self.crate] + (["laws"] if stem == "laws" else []) + ([of] if of else []) + [owner[1]]
        self.calls.append(Call(self.crate, os.path.relpath(path, TOP), "::".join(place), owner[2], roots))


class House:
    """All definitions and all calls, and what rests on what."""

    def __init__(self):
        self.sources = [Source(crate, path) for crate in crates() for path in sorted(glob.glob(f"{TOP}/crates/{crate}/specs/*.antt")) if not path.endswith("Lib.antt")]
        self.known = {f"{file.module}.{name}": it for file in self.sources for it in file.definitions for name in it.names}
        self.below = {it: self.uses(it) for file in self.sources for it in file.definitions}
        self.calls = [call for crate in crates() for call in Code(crate, self.known).calls]
        self.sources.sort(key=lambda file: (crates().index(file.crate), self.depth(file, ()), file.path))

    def uses(self, definition):
        file, found = definition.file, {}
        own = {name: it for it in file.definitions for name in it.names}
        for word in WORD.findall("\n".join(definition.lines)):
            for part in (word, word.split(".")[0]):
                whole = file.names.get(part, "")
                it = own.get(part) or self.known.get(whole) or self.known.get(whole + word[len(part) :])
                if it and it is not definition:
                    found[it] = None
        return list(found)

    def depth(self, file, above):
        """How many files of its crate stand below it, one on the other."""
        if file in above:
            return 0
        lower = {it.file for definition in file.definitions for it in self.below[definition] if it.file.crate == file.crate and it.file is not file}
        return 1 + max((self.depth(it, above + (file,)) for it in lower), default=0)

    def closure(self, roots):
        """The definitions on which these rest, in reading order."""
        found, left = set(), [self.known[it] for it in roots]
        while left:
            it = left.pop()
            if it not in found:
                found.add(it)
                left += self.below[it]
        return [it for file in self.sources for it in file.definitions if it in found]


def lines_of(definitions):
    return sum(len(it.lines) for it in definitions)


def link(path):
    return f"[`{path}`](../{path})"


def definitions_page(house):
    out = ["# Definitions", "", "Made from the sources by `tools/pages.py`. The contracts of this repository are stated in these terms. They are in reading order: a crate after those below it, a file after those that it uses. A reader has to believe those that [BELIEVE.md](../docs/BELIEVE.md) lists, and nothing else. Names in one entry share one comment in their file."]
    total = [it for file in house.sources for it in file.definitions]
    out += ["", f"{len(total)} definitions of {lines_of(total)} lines. `docs/BELIEVE.md` says on which of them each promise rests, `docs/STANDARDS.md` where a section of a standard is defined."]
    crate = ""
    for file in house.sources:
        if file.crate != crate:
            crate = file.crate
            out += ["", f"## {crate}"]
        out += ["", f"### {link(file.path)}", "", file.comment, ""]
        entry = ""
        for it in file.definitions:
            if it.comment or not entry:
                if entry:
                    out.append(entry + ".")
                entry = f"- `{it.name}`" + (f": {it.comment[0].upper() + it.comment[1:]}" if it.comment else "")
                entry = entry.rstrip(".:")
            else:
                entry += f"; `{it.name}`"
        out.append(entry + "." if entry else "")
    return out + laws(house) + rows()


def laws(house):
    """The laws, with their comments."""
    out = ["", "## Laws", "", "A law is the contract of a public function with an empty body: a theorem about definitions.", ""]
    return out + [f"- `{call.name}`: {call.comment}" for call in house.calls if "::laws::" in call.name]


def rows():
    """The files of worked rows, with their comments."""
    out = ["", "## Worked rows", "", "Equations that the check computes from the definitions: a definition that gives another value is refused.", ""]
    for crate in crates():
        for path in sorted(glob.glob(f"{TOP}/crates/{crate}/*/*Rows.antt") + glob.glob(f"{TOP}/crates/{crate}/*/*Cells.antt")):
            text = read(path)
            comment = " ".join(it[3:] for it in re.match(r"((?:-- .*\n)*)", text).group(1).splitlines())
            out.append(f"- {link(os.path.relpath(path, TOP))}, {len(re.findall(r'(?m)^(?:  )?(?! |use |abbrev |unfoldable |record |data |module |pub |--)[^ ]+ :(?: |$)', text))} rows: {comment}")
    return out


def said_of(file, fresh, seen):
    """The fresh definitions of a file by their names, or that they are all, or all that were not seen."""
    names = [it.name for it in file.definitions if it in fresh]
    if len(names) > 1 and all(it in fresh or it in seen for it in file.definitions):
        return f"{'all' if len(names) == len(file.definitions) else 'the other'} {len(names)}"
    return ", ".join(f"`{name}`" for name in names)


def believe_page(house):
    named = {call.name: call for call in house.calls}
    out = ["# What has to be believed", "", "Made from the sources by `tools/pages.py`. A contract is proved. That it says what was meant, a reader has to check. For each promise this page lists the definitions on which its clauses rest, and their lines without comments. Definitions listed under an earlier promise are not repeated. `All N` is each definition of a file, `the other N` are those not listed before. Those of the kit's library (lists, numbers, options) are not counted.", "", "`tools/pages.py --calls` prints the same for each public call. `tools/pages.py definitions` writes `out/DEFINITIONS.md`: what each definition is, and what each law says.", ""]
    seen = set()
    for promise, calls in PROMISES:
        missing = [it for it in calls if it not in named]
        if missing:
            sys.exit(f"pages: no such call: {', '.join(missing)}")
        rest = house.closure(set().union(*(named[it].roots for it in calls)))
        fresh = [it for it in rest if it not in seen]
        beside = f"; {len(fresh)} are new, of {lines_of(fresh)} lines" if seen else ""
        out += [f"## {promise}", "", f"By {', '.join(f'`{it}`' for it in calls)}: {len(rest)} definitions, {lines_of(rest)} lines{beside}.", ""]
        out += [f"- {link(file.path)}: {said_of(file, set(fresh), seen)}" for file in dict.fromkeys(it.file for it in fresh)] + [""]
        seen.update(fresh)
    return out


def print_calls(house, crate):
    """Prints each public call with a contract, of one crate or of all: what its clauses name, and how many definitions and lines these rest on."""
    for call in house.calls:
        if crate in ("", call.crate):
            rest = house.closure(call.roots)
            names = ", ".join(sorted({house.known[it].name for it in call.roots}))
            print(f"{call.name}: {names or '-'} ({len(rest)} definitions, {lines_of(rest)} lines)")


# The tests of each crate: crates of tests with their files, scripts, and files of cases.
TESTS = {
    "prefixes": "`payload_tests`: `prefix_texts.rt`, `values.rt`; `tests/cases/route.py`",
    "vrps": "`payload_tests`: `sets.rt`, `states.rt`, `probes.rt`, `logs.rt`; `memory_tests`; `tests/cases/route.py`",
    "der_lite": "`payload_tests`: `elements.rt`, `moments.rt`; `tests/payloads.sh`, `tests/mutations.sh`",
    "der_forms": "`payload_tests`: `objects.rt`; `certificate_tests`",
    "rsa_sha256": "`payload_tests`: `keys.rt`, `signatures.rt`; `tests/signed_objects.sh`",
    "signed_objects": "`payload_tests`: `objects.rt`, `ber.rt`; `tests/signed_objects.sh`",
    "file_kinds": "`payload_tests`: `file_kinds_example.rt`; `tests/rpkiobject.sh`",
    "resources": "`certificate_tests`: `resource_values.rt`; `tests/certificates.sh`",
    "resource_certificates": "`certificate_tests`: `certificates.rt`, `crls.rt`; `tests/certificates.sh`",
    "ee_keys": "`certificate_tests`",
    "issuing": "`certificate_tests`: `issued.rt`",
    "trust_anchors": "`certificate_tests`: `locators.rt`, `anchors.rt`, `validities.rt`; `tests/trust_anchors.sh`",
    "authority_walk": "`authority_tests`: `walks.rt`",
    "payloads": "`payload_tests`: `roas.rt`, `manifests.rt`; `tests/cases/roa.py`, `tests/cases/manifest.py`, `tests/payloads.sh`",
    "ccr": "`payload_tests`: `canonical.rt`, `ccrs.rt`; `tests/ccrs.sh`",
    "points": "`payload_tests`: `offers.rt`; `tests/cases/payloads.py`, `tests/objects.sh`",
    "point_validation": "`point_validation_tests`: `children.rt`",
    "prefix_texts": "`export_tests`; `tests/file_rows.py` by `tests/exports.sh`",
    "json_texts": "`export_tests`; `tests/file_rows.py` by `tests/exports.sh`",
    "payload_lists": "`export_tests`: `list_parts.rt`; `tests/cases/shared.py`",
    "exports": "`export_tests`: `export_files.rt`, `anchors.rt`; `tests/file_rows.py` and `tests/exports.py` by `tests/exports.sh`; `tests/validators.sh`",
    "slurm": "`export_tests`: `slurm_files.rt`; `tests/file_rows.py` and `tests/exceptions.py` by `tests/exports.sh`",
    "constraints": "`certificate_tests`: `constraint_files.rt`",
    "sources": "`export_tests`: `source_files.rt`, `anchors.rt`; `memory_tests`; `tests/daemon/files.py`",
    "rtr_pdu": "`rtr_tests`: `units.rt`, `units_v0.rt`, `counted.rt`, `values.rt`; `tests/cases/units.py`",
    "rtr_ends": "`rtr_tests`: `streams.rt`, `timings.rt`, `ends.rt`; `rtr_scripts`; `tests/cases/answer.py`, `tests/cases/fetch.py`, `tests/cases/loop.py`",
    "rtr_server": "`server_tests`: `clients.rt`, `queries.rt`, `notices.rt`, `orders.rt`, `parted.rt`; `tests/daemon/routers.py`, `tests/peers.sh`",
    "upstreams": "`server_tests`: `polls.rt`, `times.rt`, `faults.rt`, `stalls.rt`; `tests/example_router_tcp.sh`",
    "rtr_world": "`server_tests`: `worlds.rt`; `tests/cases/world.py`, `tests/worlds.sh`",
    "relays": "`server_tests`; `tests/chains.sh`",
    "feed": "`server_tests`: `routes.rt`; `tests/cases/loop.py`",
    "rpkirtr_c": "`tests/c_library.sh`, `tests/bindings.sh`, `tests/frr.sh`, `tests/man.sh`",
    "command_parts": "`tests/cases/shared.py` by `tests/commands.sh`, `tests/sockets.sh`",
    "payload_commands": "`tests/cases/roa.py`, `tests/cases/manifest.py`, `tests/cases/payloads.py`, `tests/cases/route.py`; `tests/objects.sh`",
    "rtr_commands": "`tests/cases/answer.py`, `tests/cases/units.py`, `tests/cases/serve.py`, `tests/cases/fetch.py`; `tests/sockets.sh`",
    "world_scripts": "`tests/cases/world.py`; `tests/worlds.sh`, `tests/chains.sh`",
    "rpkirtr_cli": "`tests/cases/words.py` by `tests/commands.sh`",
    "rpkirtr": "`tests/commands.sh`, `tests/run.sh`; `crates/rpkirtr/stdout`",
    "rpkiobject": "`tests/rpkiobject.sh`, `tests/signed_objects.sh`, `tests/man.sh`",
    "session_names": "`daemon_tests`: `names.rt`; `tests/daemon/restarts.py`",
    "event_log": "`daemon_tests`: `levels.rt`, `moments.rt`; `page_texts`: `events.rt`; `tests/page_texts.py` with `tests/texts/log.txt`, `tests/texts/log.json`, `tests/texts/log.systemd`",
    "log_output": "`daemon_tests`: `log_parts.rt`; `daemon_scripts`: `outputs.rt`; `tests/daemon/output.py`",
    "sd_notify": "`daemon_tests`: `managers.rt`; `tests/daemon/managers.py`, `tests/service.sh`",
    "tcp_table": "`daemon_tests`: `tables.rt`; `tests/daemon/bounds.py`",
    "status_pages": "`page_texts`: `statuses.rt`, `routes.rt`; `tests/page_texts.py` with `tests/texts`; `daemon_tests`: `validities.rt`, `queries.rt`, `lists.rt`",
    "status_server": "`daemon_scripts`: `endpoint.rt`, `connections.rt`, `versions.rt`; `page_texts`: `responses.rt`; `daemon_tests`: `connections.rt`, `hosts.rt`; `tests/page_requests.py`, `tests/daemon/pages.py`",
    "rtr_daemon": "`daemon_scripts`: `daemon.rt`; `daemon_tests`: `starts.rt`, `stamps.rt`; `tests/daemon.sh`",
    "rpkirtrd_cli": "`page_texts`: `settings.rt`; `tests/page_options.py` by `tests/page_texts.sh`; `tests/man.sh`",
    "rpkirtrd_start": "`daemon_scripts`: `runs.rt`; `tests/daemon/starts.py`",
    "rpkirtrd": "`tests/daemon.sh`, `tests/peers.sh`; as root `tests/service.sh`",
}

# Where the list of every file begins in TOUR.md. It goes on to the end of the page.
FILES_HEAD = "## Every file"

# What a comment cites: sections of a standard, or of the one that its file is about, or a standard alone.
SECTIONS = re.compile(r"(RFC \d+|X\.690)(?:,? sections?)?,? (\d[\d., andto]*)|\bsections? (\d[\d., andto]*)|(RFC \d+|X\.690)|^(\d+\.\d+[\d., andto]*):")

# An item of a section, which is no section: 1.c of "section 3, 1.c".
ITEM = re.compile(r", \d+\.[a-z]\b")


def between(first, last):
    """The sections from one to another of the same depth, as 5.2 to 5.11."""
    (above, dot, low), (other, _, high) = first.rpartition("."), last.rpartition(".")
    return [f"{above}{dot}{it}" for it in range(int(low), int(high) + 1)] if above == other else []


def cited(text, standard):
    """The sections that a text cites, as pairs of a standard and a section, '' for the whole of it."""
    found = set()
    for one, of, alone, whole, first in SECTIONS.findall(ITEM.sub("", text)):
        standard = one or whole or standard
        if whole or not standard:
            found |= {(whole, "")} if whole else set()
            continue
        numbers = re.findall(r"\d+(?:\.\d+)*|to", of or alone or first)
        for at, number in enumerate(numbers):
            if number == "to" and 0 < at < len(numbers) - 1:
                found |= {(standard, it) for it in between(numbers[at - 1], numbers[at + 1])}
            elif number != "to":
                found.add((standard, number))
    return found


def subject(comment, crate):
    """The standard that a file is about."""
    named = re.search(r"RFC \d+|X\.690", comment)
    return named.group() if named else "RFC 8210" if crate.startswith("rtr_") else ""


def comments(path):
    """The comments of a file of code, each with the name of what it stands above."""
    above, found = [], []
    for line in read(path).split("\n"):
        text = line.strip()
        if text.startswith(("///", "//!")):
            above.append(text[4:])
        elif above and not text.startswith("#"):
            name = re.match(r"(?:pub(?:\(\w+\))? )?(?:const |unsafe )*(?:fn |struct |enum |trait |type )?(\w+)", text)
            found.append((name.group(1) if name else "", " ".join(above)))
            above = []
    return found


def cited_by(house):
    """Where each section of a standard is cited."""
    places = collections.defaultdict(list)
    for file in house.sources:
        of = subject(file.comment, file.crate)
        for pair in cited(file.comment, of):
            places[pair].append((file.path, ""))
        for it in file.definitions:
            for pair in cited(it.comment, of):
                places[pair].append((file.path, f"`{it.name}`"))
    for crate in crates() + examples():
        for path in sorted(glob.glob(f"{TOP}/crates/{crate}/src/*.rt")):
            found = comments(path)
            of = subject(found[0][1] if found else "", crate)
            for name, comment in found:
                for pair in cited(comment, of):
                    places[pair].append((os.path.relpath(path, TOP), name and f"`{name}`"))
        for path in sorted(glob.glob(f"{TOP}/crates/{crate}/proofs/*Rows.antt")):
            for pair in sorted(set().union(*(cited(it, subject("", crate)) for it in re.findall(r"(?m)^\s*-- (.*)$", read(path))))):
                places[pair].append((os.path.relpath(path, TOP), "rows"))
    return places


def standards_page(house):
    places = cited_by(house)
    out = ["# Standards, section by section", "", "Made from the sources by `tools/pages.py`. For each section of a standard: the definitions, the code and the worked rows whose comments cite it."]
    standard = ""
    for pair in sorted(places, key=lambda pair: (pair[0].split()[0] != "RFC", int(re.search(r"\d+", pair[0]).group()), [int(it) for it in pair[1].split(".") if it])):
        if pair[0] != standard:
            standard = pair[0]
            out += ["", f"## {standard}", ""]
        found = by_file(places[pair])
        out.append(f"- {'Section ' + pair[1] if pair[1] else 'The whole'}:" + (f" {found[0]}." if len(found) == 1 else ""))
        out += [f"  - {it}." for it in found if len(found) > 1]
    return out


def by_file(places):
    """One text for each file of these places: a link to it, and what in it cites the section."""
    files = collections.OrderedDict()
    for path, name in places:
        files.setdefault(path, {}).update({name: None} if name else {})
    return [link(path) + (f": {', '.join(names)}" if names else "") for path, names in files.items()]


# The pages that a reader of the proofs goes through, and the most words that they may have together.
READ_THROUGH, MOST_WORDS = ("ARCHITECTURE.md", "PROMISES.md", "BELIEVE.md", "CONTRIBUTING.md"), 12_000


def text_of(lines):
    return re.sub(r"\n{3,}", "\n\n", "\n".join(lines).strip()) + "\n"


def write(path, text):
    os.makedirs(os.path.dirname(path), exist_ok=True)
    with open(path, "w", encoding="utf-8") as it:
        it.write(text)


def toured():
    """The crates of each layer in the table of TOUR.md. A row without a layer belongs to the one above it."""
    found, names = {}, []
    for layer, cell in re.findall(r"(?m)^\| ?([\w ]*?) ?\| ((?:`\w+`(?:, )?)+) \|", read(f"{TOP}/docs/TOUR.md").split("\n## ")[1]):
        names = found.setdefault(layer, []) if layer else names
        names += re.findall(r"\w+", cell)
    return found


def layer_findings():
    """What is wrong with the layers of crates.txt, and where TOUR.md has others."""
    wanted, found = crates_txt.layers(), toured()
    differ = [it for it in {**wanted, **found} if wanted.get(it) != found.get(it)]
    texts = [f"docs/TOUR.md: layer {it} has {', '.join(found.get(it, []))}, and crates.txt {', '.join(wanted.get(it, []))}" for it in differ]
    if not differ and list(wanted) != list(found):
        texts = ["docs/TOUR.md: the layers are in another order than in crates.txt"]
    return crates_txt.misplaced() + texts


def head_of(path):
    """What the first comment of a file says, in its first sentence."""
    lines = []
    for line in read(path).split("\n"):
        if not line.startswith(("//! ", "// ")):
            break
        lines.append(line.partition(" ")[2])
    said = re.match(r".*?\.(?= |$)|.*", " ".join(lines)).group()
    if not said:
        sys.exit(f"pages: {os.path.relpath(path, TOP)} begins with no comment")
    return said


def tour_page():
    """TOUR.md with the list of every file of each crate, and the tests of the crate."""
    out = [read(f"{TOP}/docs/TOUR.md").split(FILES_HEAD)[0].rstrip(), "", FILES_HEAD, ""]
    out += ["Made from the sources by `tools/pages.py`: the files in `src/` of each crate, lowest first, and the tests of the crate. Laws are in", "`laws.rt`, and `lib.rt` has the public names."]
    for crate in TESTS:
        out += ["", f"### `{crate}`", "", f"Tests: {TESTS[crate]}.", ""]
        files = [it for it in sorted(glob.glob(f"{TOP}/crates/{crate}/src/*.rt")) if os.path.basename(it) not in ("lib.rt", "laws.rt")]
        out += [f"- `{os.path.basename(it)}`: {head_of(it)}" for it in files] or [f"- {'Laws' if os.path.exists(f'{TOP}/crates/{crate}/src/laws.rt') else 'Definitions and lemmas'} alone."]
    return out


def lost_tests():
    """A text for each test that TESTS names and that is not there."""
    wanted = [name for layer, names in crates_txt.layers().items() if layer not in ("tests", "examples") for name in names]
    found = ["tools/pages.py: TESTS has other crates than crates.txt, or another order"] * (wanted != list(TESTS))
    for crate, said in TESTS.items():
        for name in re.findall(r"`([\w./]+)`", said):
            of = [it for it in crates_txt.named() if it not in TESTS and os.path.exists(f"{TOP}/crates/{it}/src/{name}")]
            if not (name in crates_txt.named() or of or os.path.exists(f"{TOP}/{name}")):
                found.append(f"tools/pages.py: the tests of {crate} name {name}, which is not there")
    return found


def findings(pages):
    """What is wrong with the pages that are kept: they are not those of the sources, or too long."""
    found = [f"docs/{name} differs from the sources: tools/pages.py makes it anew" for name, text in pages.items() if not os.path.exists(f"{TOP}/docs/{name}") or read(f"{TOP}/docs/{name}") != text]
    count = sum(len(read(f"{TOP}/docs/{name}").split()) for name in READ_THROUGH)
    return found + layer_findings() + lost_tests() + ([f"{', '.join(READ_THROUGH)} have {count} words together, and at most {MOST_WORDS} are allowed"] if count > MOST_WORDS else [])


def main(words):
    house = House()
    if words[:1] == ["--calls"]:
        print_calls(house, "".join(words[1:2]))
        return 0
    if words == ["definitions"]:
        write(f"{TOP}/out/DEFINITIONS.md", text_of(definitions_page(house)))
        print("out/DEFINITIONS.md")
        return 0
    pages = {"BELIEVE.md": text_of(believe_page(house)), "STANDARDS.md": text_of(standards_page(house)), "TOUR.md": text_of(tour_page())}
    if words == ["--check"]:
        found = findings(pages)
        print("\n".join(found), end="\n" if found else "")
        return 1 if found else 0
    if words:
        print("usage: tools/pages.py [--check | --calls [CRATE] | definitions]", file=sys.stderr)
        return 2
    for name, text in pages.items():
        write(f"{TOP}/docs/{name}", text)
    return 0


if __name__ == "__main__":
    sys.exit(main(sys.argv[1:]))
