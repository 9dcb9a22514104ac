#!/usr/bin/env python3
"""What the program rpkiobject does with files: kinds, names, what cannot be read, limits, outputs, JSON, and exit statuses.

usage: tests/rpkiobject.py PROGRAM

The objects are made by tests/signed_objects.py. It exits with 1 at the first case that differs."""
import hashlib
import json
import os
import random
import re
import subprocess
import sys
import tempfile

sys.dont_write_bytecode = True
HERE = os.path.dirname(os.path.abspath(__file__))
sys.path.insert(0, HERE)
from signed_objects import CONTENT_TYPE, MESSAGE_DIGEST, PKCS_9, Key, Object, element, oid

TOP = os.path.realpath(f"{HERE}/..")
GOOD = f"{TOP}/crates/rpkiobject/data/a.roa"
CHECKED = "digest and signature are valid under the embedded certificate; its issuer was not checked"
KIT = re.search(r"(?m)^kit (.*)$", open(f"{TOP}/dist/x86_64-linux/SOURCES").read()).group(1)
VERSION = re.search(r'VERSION: &str = "([^"]*)"', open(f"{TOP}/crates/rpkirtrd_cli/src/help.rt").read()).group(1)
ROA = bytes.fromhex("3017020300fbf03010300e0402000130083006030400c00002")
MANIFEST = element(48, b"\2\1\1" + element(24, b"20250101000000Z") + element(24, b"20250102000000Z") + oid(bytes.fromhex("608648016503040201")) + b"\x30\0")
# The extension of a file, the number below id-ct, and the word for the kind.
KINDS = [("roa", 24, "roa"), ("mft", 26, "manifest"), ("gbr", 35, "ghostbusters"), ("sig", 48, "checklist"), ("asa", 49, "aspa"), ("tak", 50, "trust-anchor-key")]
LIMIT = 20_000_000


def content_of(number):
    """A content that is right under this number below id-ct."""
    return {24: ROA, 26: MANIFEST}.get(number, b"BEGIN:VCARD")


def made(key, content, content_type, attribute=None):
    """An object of this content, under this content of eContentType."""
    it = Object(random.Random(1), key)
    it.content, it.content_type = content, content_type
    it.attributes = [
        it.attribute(CONTENT_TYPE, oid(content_type if attribute is None else attribute)),
        it.attribute(MESSAGE_DIGEST, element(4, hashlib.sha256(content).digest())),
    ]
    return it.octets(), it.certificate()


def of_number(number):
    return PKCS_9 + bytes([16, 1, number])


class Cases:
    def __init__(self, program, folder):
        self.program, self.folder, self.key = program, folder, Key()
        self.count = 0

    def write(self, name, octets):
        with open(name, "wb") as out:
            out.write(octets)
        return name

    def run(self, *words, given=None):
        return subprocess.run([self.program, *words], input=given, capture_output=True, timeout=120)

    def expect(self, what, words, status, out=None, err=None, given=None):
        """The program's answer: its status, and what must stand in its outputs, as texts or as tests of them."""
        done = self.run(*words, given=given)
        told = f"{what}: status {done.returncode}, {done.stdout!r}, {done.stderr!r}"
        if done.returncode != status:
            raise SystemExit(f"{told}: the status should be {status}")
        for stream, wanted in ((done.stdout.decode(), out), (done.stderr.decode(), err)):
            if wanted is not None and not (wanted(stream) if callable(wanted) else wanted in stream if wanted else stream == ""):
                raise SystemExit(f"{told}: there should be {wanted!r}")
        self.count += 1
        return done.stdout.decode()


def kinds(it):
    """A content is accepted only in a file of its kind."""
    for extension, own, _ in KINDS:
        for _, number, word in KINDS:
            octets, _ = made(it.key, content_of(number), of_number(number))
            name = it.write(f"x.{extension}", octets)
            if number == own:
                it.expect(f"{word} in .{extension}", [name], 0, f"type {word} ")
            else:
                wanted = next(word for _, it, word in KINDS if it == own)
                it.expect(f"{word} in .{extension}", [name], 1, f"refused: the content is of type {word}, but {wanted} is required\n")
    octets, _ = made(it.key, ROA, of_number(35))
    for name, status in (("x.roa", 1), ("x.mft", 1), ("x.gbr", 0), ("x", 0), ("x.roa.old", 0), ("x.ROA", 0)):
        done = it.expect(f"a ROA's content as a Ghostbusters record in {name}", [it.write(name, octets)], status, "type ghostbusters ")
        if "192.0.2.0" in done or (CHECKED in done) != (status == 0):
            raise SystemExit(f"{name} gives {done}")
    octets, _ = made(it.key, b"text", PKCS_9 + b"\1")
    it.expect("a content of no kind", [it.write("x", octets)], 0, "type other ")
    it.expect("a content of no kind in a .roa", [it.write("x.roa", octets)], 1, "refused: the content is of type other, but roa is required")
    for extension, number, word in KINDS:
        it.expect(f"--type {extension}", ["--type", extension, GOOD], 0 if number == 24 else 1, "type roa ")
    it.expect("--type goes before the name", ["--type", "gbr", it.write("x.roa", made(it.key, b"x", of_number(35))[0])], 0, "content not judged\n")
    for word in ("ghostbusters", "ROA", "", ".roa", "cer"):
        it.expect(f"--type {word}", ["--type", word, GOOD], 2, "", "rpkiobject: bad words")
    for number, content in ((24, MANIFEST), (26, ROA), (24, b""), (26, b"")):
        octets, _ = made(it.key, content, of_number(number))
        it.expect("a content that is none of its kind", [it.write("x", octets)], 1, lambda out: re.search(r"\ncontent refused \d+ at \d+: .* \(fault \d+\)\n$", out))


def identifiers(it):
    """OBJECT IDENTIFIERs that are none (X.690 section 8.19.2)."""
    for content in (b"", b"\x80", b"\x80\x2a\x03", of_number(24)[:-1] + b"\x98"):
        octets, _ = made(it.key, ROA, content)
        for words in ([], ["--strict"]):
            it.expect(f"eContentType {content.hex()}", [*words, it.write("x.roa", octets)], 1, "\nrefused 4 at ")
        octets, _ = made(it.key, ROA, of_number(24), content)
        it.expect(f"content-type attribute {content.hex()}", [it.write("x.roa", octets)], 1, "\nrefused 4 at ")


def names(it):
    """No name of a file makes a line of its own, or reaches a terminal."""
    for name, shown in (
        ("a\nfile b.roa\ntype roa 00\n.roa", r"a\u000afile b.roa\u000atype roa 00\u000a.roa"),
        ("\x1b[2J\r\x7f.roa", r"\u001b[2J\u000d\u007f.roa"),
        ('a "quote" \\.roa', r'a \"quote\" \\.roa'),
        ("ä €.roa", "ä €.roa"),
        ("\x85\x9b.roa", r"\u0085\u009b.roa"),
    ):
        it.expect(f"a name {shown}", [it.write(name, b"x")], 1, lambda out: out.startswith(f"file {shown}\nrefused 1 at 0: ") and out.count("\n") == 2)
        os.remove(name)
        it.expect(f"a name {shown} of no file", [name], 3, "", f"rpkiobject: {shown}: no such file or directory\n")
        it.expect(f"a name {shown} in JSON", ["--json", name], 3, lambda out: json.loads(out)["file"] == name and out.count("\n") == 1)


def unread(it):
    """A file that cannot be read is named, and the others are judged."""
    os.mkdir("folder")
    bad = it.write("bad.roa", b"x")
    done = it.expect("two that are not read", ["missing", GOOD, "folder", bad], 3, CHECKED, "rpkiobject: missing: no such file or directory\nrpkiobject: folder: is a directory\n")
    if re.findall("^file (.*)$", done, re.M) != [GOOD, bad]:
        raise SystemExit(f"other files were judged: {done}")
    it.expect("a path through a file", [f"{bad}/x"], 3, "", f"rpkiobject: {bad}/x: ")
    it.expect("a good and a bad one", [GOOD, bad], 1, CHECKED)
    it.expect("standard input", ["-"], 0, "file -\ntype roa ", "", open(GOOD, "rb").read())
    it.expect("standard input that must be a manifest", ["--type", "mft", "-"], 1, "manifest is required", "", open(GOOD, "rb").read())
    it.expect("no standard input", ["-"], 1, "refused 1 at 0", "", b"")


def limits(it):
    it.expect("as many bytes as may be", [it.write("long", bytes(LIMIT))], 1, "\nrefused 37 at 0: ")
    it.expect("one byte more", [it.write("long", bytes(LIMIT + 1))], 1, "\nrefused: the file has more than 20000000 bytes\n")
    it.expect("no end", ["/dev/zero"], 1, "\nrefused: the file has more than 20000000 bytes\n")
    os.remove("long")


def outputs(it):
    """An output is written if the file is accepted, and no old one is left."""
    octets, certificate = made(it.key, ROA, of_number(24))
    good, bad = it.write("good.roa", octets), it.write("bad.roa", made(it.key, ROA, of_number(35))[0])
    for option, wanted in (("--content", ROA), ("--certificate", certificate)):
        it.expect(f"{option} of a good one", [option, "out", good], 0)
        if open("out", "rb").read() != wanted:
            raise SystemExit(f"{option} wrote something else")
        for name in (bad, it.write("none.roa", octets[:-1]), it.write("content.roa", made(it.key, b"", of_number(24))[0]), "missing", "folder"):
            it.write("out", b"old")
            it.expect(f"{option} of {name}", [option, "out", name], 3 if name in ("missing", "folder") else 1)
            if os.path.exists("out"):
                raise SystemExit(f"{option} of {name} left a file")
        for same in (good, f"./{good}", os.path.abspath(good), "link"):
            if same == "link":
                os.symlink(good, same)
            it.expect(f"{option} {same}", [option, same, good], 2, "", "rpkiobject: bad words: OUT is FILE")
            if open(good, "rb").read() != octets:
                raise SystemExit(f"{option} {same} changed its input")
        os.remove("link")
        it.expect(f"{option} of two files", [option, "out", good, good], 2, "", "rpkiobject: bad words")
        it.expect(f"{option} into a folder", [option, "folder", good], 3, None, "rpkiobject: folder: is a directory\n")
        it.expect(f"{option} below no folder", [option, "none/out", good], 3, None, "rpkiobject: none/out: no such file or directory\n")
        it.expect(f"{option} into a device", [option, "/dev/null", bad], 1)
        it.write("target", b"old")
        os.symlink("target", "link")
        it.expect(f"{option} into a link, of a bad one", [option, "link", bad], 1)
        if open("target", "rb").read() or not os.path.islink("link"):
            raise SystemExit("a link leads to an old output")
        it.expect(f"{option} into a link", [option, "link", good], 0)
        if open("target", "rb").read() != wanted:
            raise SystemExit("a link does not lead to the output")
        os.remove("link")
    it.expect("both outputs", ["--content", "one", "--certificate", "two", good], 0)
    if (open("one", "rb").read(), open("two", "rb").read()) != (ROA, certificate):
        raise SystemExit("both outputs are others")
    it.expect("both outputs into one", ["--content", "one", "--certificate", "./one", good], 2)


def in_json(it):
    """Each file is an object in a line."""
    bad = it.write("bad.roa", made(it.key, ROA, of_number(35))[0])
    manifest = it.write("x.mft", made(it.key, MANIFEST, of_number(26))[0])
    broken = it.write("broken.roa", made(it.key, b"", of_number(24))[0])
    done = it.expect("JSON", ["--json", GOOD, manifest, bad, broken, it.write("none.roa", b"x"), "missing"], 3)
    roa, listed, other, content, none, missing = [json.loads(line) for line in done.split("\n")[:-1]]
    expected = {"file": GOOD, "status": 0, "der": True, "type": "roa", "contentType": of_number(24).hex(), "key": roa["key"], "vrps": [{"asn": 64496, "maxLength": 24, "prefix": "192.0.2.0/24"}]}
    if list(roa.items()) != list(expected.items()):
        raise SystemExit(f"a ROA is {roa}")
    if (listed["number"], listed["thisUpdate"], listed["nextUpdate"], listed["files"]) != ("01", "20250101000000Z", "20250102000000Z", []):
        raise SystemExit(f"a manifest is {listed}")
    if (other["status"], other["type"], other["reason"]) != (1, "ghostbusters", "the content is of type ghostbusters, but roa is required"):
        raise SystemExit(f"another kind is {other}")
    if (content["status"], content["contentFault"], content["offset"]) != (1, 1, 0):
        raise SystemExit(f"a content that is none is {content}")
    if (none["status"], none["fault"], none["offset"], none["offsetIn"]) != (1, 1, 0, "file"):
        raise SystemExit(f"no object is {none}")
    if (missing["status"], missing["reason"]) != (3, "no such file or directory"):
        raise SystemExit(f"a missing file is {missing}")


def offsets(it):
    """The offset of a fault counts in the file, or in the DER that was written of it."""
    octets = open(GOOD, "rb").read()
    spoiled = bytearray(octets)
    spoiled[-1] ^= 1
    long = lambda whole: b"\x30\x83\0" + whole[2:]
    it.expect("the whole object", [it.write("x", bytes(spoiled))], 1, "\nrefused 35 at 0: ")
    it.expect("the same in BER", [it.write("x", long(bytes(spoiled)))], 1, "\nrefused 35 at 0 of its DER: ")
    it.expect("a byte behind it", [it.write("x", long(octets) + b"\0")], 1, f"\nrefused 5 at {len(octets) + 1}: trailing bytes")
    it.expect("in JSON", ["--json", it.write("x", long(bytes(spoiled)))], 1, '"offset":0,"offsetIn":"der","reason":"the signature does not hold')
    it.expect("BER is read", [it.write("x.roa", long(octets))], 0, "\nnot DER: lengths or OCTET STRINGs are in BER\ntype roa ")
    it.expect("BER, and --strict", ["--strict", "x.roa"], 1, "\nrefused 3 at 0: ")


def words(it):
    for asked in ("--help", "-h"):
        it.expect(asked, [asked], 0, "Usage: rpkiobject [OPTION].. FILE..\n", "")
        it.expect(f"{asked} before a file", [asked, "missing"], 0, "Usage: ", "")
    it.expect("--version", ["--version"], 0, lambda out: out == f"rpkiobject {VERSION}\nproved with {KIT}\n", "")
    for wrong in ([], ["--what", GOOD], ["--content", GOOD], ["--strict"], ["--json"], ["--type", "roa"]):
        it.expect(f"{wrong}", wrong, 2, "", "rpkiobject: bad words")


def recipe(it):
    """The script of docs/COMMANDS.md refuses a point whose ROA is of another type."""
    page = open(f"{TOP}/docs/COMMANDS.md").read()
    script = next(block for block in re.findall(r"```\w*\n(.*?)```", page, re.S) if "from=$1 to=$2" in block)
    it.write("script", script.replace("./rpkiobject", it.program).encode())
    for name, number, is_taken in (("point of roas", 24, True), ("point of others", 35, False)):
        os.mkdir(name)
        it.write(f"{name}/a.roa", made(it.key, ROA, of_number(number))[0])
        it.write(f"{name}/point.mft", made(it.key, MANIFEST, of_number(26))[0])
        it.write(f"{name}/point.crl", b"x")
        done = subprocess.run(["sh", "script", name, f"{name}.out"], capture_output=True, text=True, timeout=60)
        if (done.returncode == 0) != is_taken or os.path.exists(f"{name}.out/contents/a.roa") != is_taken:
            raise SystemExit(f"the recipe over {name}: status {done.returncode}, {done.stdout} {done.stderr}")
        it.count += 1


def main():
    if len(sys.argv) != 2:
        raise SystemExit(__doc__)
    program = os.path.abspath(sys.argv[1])
    with tempfile.TemporaryDirectory() as folder:
        os.chdir(folder)
        it = Cases(program, folder)
        for part in (words, kinds, identifiers, names, unread, limits, outputs, in_json, offsets, recipe):
            part(it)
        os.chdir("/")
    print(f"rpkiobject: {it.count} cases")


if __name__ == "__main__":
    main()
