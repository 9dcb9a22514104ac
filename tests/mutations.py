#!/usr/bin/env python3
"""Spoiled input: payloads, points, lists, units, scripts and words that are nearly right.

usage: tests/mutations.py PROGRAM [--seed N] [--seconds N]

Sound input is changed by the seed: bits are turned, pieces cut out, doubled, moved or taken from other input, lengths made other. Whatever
comes of it, the program ends by itself with a status from 0 to 3, and what it prints has the form that this status has; an offset is not
behind the input's end; a payload that is taken is, written anew from the printed lines by this program, the input. It runs until the
seconds are over (25 unless said otherwise), and exits with 1 at the first wrong answer, with the seed by which it is made again."""
import argparse
import ipaddress
import os
import random
import re
import subprocess
import sys
import tempfile
import time

sys.path.insert(0, f"{os.path.dirname(os.path.abspath(__file__))}/lib")
from der import element, integer

ENTRY = '{"asn":64496,"maxLength":24,"prefix":"192.0.2.0/24"}'
ROAS = [
    "3017020300fbf03010300e0402000130083006030400c00002",
    "301ca003020100020300fbf03010300e0402000130083006030400c00002",
    "3037020300fbf03030301a0402000130143006030400c00002300a030507c000020002012030120402000230" + "0c300a03050020010db8020130",
]
MANIFEST = (
    "305e020101180f32303235303130313030303030305a180f32303235303130323030303030305a060960864801650304020130"
    "2c302a1605612e726f61032100da32bfbe0d8eea0f5d3b56023c55d1c23aa91df50233f89c325086b2b206d5a2"
)
UNITS = [
    "010012340000000c00000005",
    "010112340000000c00000005",
    "0102000000000008",
    "0103123400000008",
    "010400000000001401181800c00002000000fbf0",
    "01060000000000200020300020010db80000000000000000000000000000fbf0",
    "01071234000000180000000500000e100000025800001c20",
    "0108000000000008",
    "010901000000002001010101010101010101010101010101010101010000fbf0",
    "010a00000000001c0000000c010112340000000c0000000500000000",
    "010a0001000000100000000000000000",
]
LIST = f'[{ENTRY},{{"asn":0,"maxLength":48,"prefix":"2001:db8::/32"}},{{"asn":4294967295,"maxLength":0,"prefix":"0.0.0.0/0"}}]'
SCRIPT = """world 2 4660 5 2
publish 192.0.2.0/24,24,64496 2001:DB8:0::/32,48,4294967295
connect 0
router-sends 0 8
cache-gets 0 18446744073709551615
cache-sends 0 999
router-gets 0 51
notify 1
cut 0 0
restart 8738 4294967295
publish
catch-up 0
ask 0
tick 0 7201
router-restart 1
show 0
route 0 192.0.2.0/24 none
catch-up 2
"""
WORDS = "roa manifest payloads route units answer loop world --session --serial --start --vrps --now --port --connections -h --help -- = 4660 5 05 -1 1.0 65536 4294967296 none".split()
WORDS += ["20250101000000Z", "20250230000000Z", "192.0.2.0/24", "192.0.2.1/24", "::/0", "list", "payload", "nothing", "", " ", "\u00e9", "0102000000000008", "--vrps=list", "--session=4660"]

STATES = r"valid|invalid|not-found"
NUMBER = r"\d{1,20}"
# What each command prints where its status is 0, and where it is 1.
UNIT = r"serial-(notify|query) \d+ \d+|reset-query|cache-response \d+|(announce|withdraw) \S+/\d+ \d+ \d+|end-of-data( \d+){5}|cache-reset|router-key|error-report \d+ (-|[0-9a-f]+)"
PLAYED = rf"\d+ (empty|\d+ \d+ \d+|caught-up|no-data|no-such-router)|{STATES}|line \d+ refused [13]"
FORMS = {
    "roa": (r"(\S+/\d+ \d+ \d+\n)+", rf"refused \d+ at (?P<offset>{NUMBER})\n"),
    "manifest": (r"number [0-9a-f]*\nthis \d{14}Z\nnext \d{14}Z\n([0-9a-f]{64} \S+\n)*", rf"refused \d+ at (?P<offset>{NUMBER})\n"),
    "units": (rf"(({UNIT})\n)*", rf"(?:(?:{UNIT})\n)*refused [1-7] at (?P<offset>{NUMBER})\n"),
    "route": (rf"({STATES})\n", r"refused (list|word)\n"),
    "answer": (r"([0-9a-f]+\n)*", r"([0-9a-f]+\n)*refused (list|hex|7 at \d+)\n"),
    "loop": (rf"committed \d+ \d+\n({STATES})\n", r"refused (list|word)\n"),
    "world": (rf"(({PLAYED})\n)*", rf"(({PLAYED})\n)*line \d+ unreadable\n"),
    "payloads": (r"\[.*\]\n", r"\[.*\]\n|refused word\n"),
}
ERRORS = {2: "rpkirtr: bad words\n", 3: "rpkirtr: device failed\n"}


def written_roa(lines):
    """The payload of the ROA that the lines tell."""
    families = {4: b"", 6: b""}
    for line in lines:
        text, longest, asn = line.split()
        prefix = ipaddress.ip_network(text)
        octets = (prefix.prefixlen + 7) // 8
        bits = element(3, bytes([8 * octets - prefix.prefixlen]) + prefix.network_address.packed[:octets])
        longest = int(longest)
        families[prefix.version] += element(48, bits + (integer(longest) if longest != prefix.prefixlen else b""))
    blocks = [element(48, element(4, bytes([0, number])) + element(48, families[version])) for number, version in ((1, 4), (2, 6)) if families[version]]
    return element(48, integer(int(lines[0].split()[2])) + element(48, b"".join(blocks)))


def written_manifest(lines):
    """The payload of the manifest that the lines tell."""
    number, this, following = (it.split()[1] for it in lines[:3])
    files = [element(48, element(22, name.encode()) + element(3, b"\0" + bytes.fromhex(digest))) for digest, name in (it.split(" ", 1) for it in lines[3:])]
    times = element(24, this.encode()) + element(24, following.encode())
    sha_256 = bytes.fromhex("0609608648016503040201")
    return element(48, element(2, bytes.fromhex(number)) + times + sha_256 + element(48, b"".join(files)))


def is_same(command, output, payload):
    """Whether what was taken is the one spelling of what was printed."""
    lines = output.splitlines()
    return (written_manifest if command == "manifest" else written_roa)(lines) == payload


class Driver:
    def __init__(self, program, seed):
        self.program, self.random, self.runs, self.taken = program, random.Random(seed), 0, 0

    def spoiled(self, sound, others):
        """Sound bytes after some changes."""
        data, chance = bytearray(sound), self.random
        for _ in range(chance.choice([0, 1, 1, 1, 2, 3, 8])):
            at, end = sorted(chance.randrange(len(data) + 1) for _ in range(2))
            how = chance.randrange(7)
            if how == 0 and data:
                data[chance.randrange(len(data))] ^= 1 << chance.randrange(8)
            elif how == 1 and data:
                data[chance.randrange(len(data))] = chance.choice([0, 1, 2, 48, 127, 128, 129, 130, 132, 255, chance.randrange(256)])
            elif how == 2:
                del data[at : min(end, at + chance.choice([1, 2, 8, 10**6]))]
            elif how == 3:
                data[at:at] = data[at:end]
            elif how == 4:
                other = chance.choice(others)
                begin = chance.randrange(len(other) + 1)
                data[at:end] = other[begin : begin + chance.randrange(1, 24)]
            elif how == 5:
                data[at:at] = bytes(chance.randrange(256) for _ in range(chance.randrange(1, 6)))
            elif how == 6 and data:
                place = chance.randrange(len(data))
                data[place] = (data[place] + chance.choice([-1, 1])) % 256
        return bytes(data)

    def expect(self, command, words, payload=None):
        """Runs a command, and judges what came of it."""
        self.runs += 1
        ran = subprocess.run([self.program, *words], stdin=subprocess.DEVNULL, stdout=subprocess.PIPE, stderr=subprocess.PIPE, timeout=20)
        status, output, errors = ran.returncode, ran.stdout.decode(), ran.stderr.decode()
        wrong = self.wrong(command, status, output, errors, payload)
        if wrong:
            shown = [it if isinstance(it, str) else repr(it) for it in words]
            raise SystemExit(f"{wrong}: {' '.join(shown)[:300]}: {(status, output[:300], errors[:300])}, input {payload.hex() if payload else ''}")

    def wrong(self, command, status, output, errors, payload):
        if status not in (0, 1, 2, 3):
            return "no such status"
        if status > 1:
            return "" if errors == ERRORS[status] and (status == 3 or not output) else "other errors"
        if command == "payloads":
            if not re.fullmatch(r"(\S+ (new|same|refused \d+( \d+)?)\n)*", errors):
                return "other errors"
        elif errors:
            return "errors"
        found = re.fullmatch(FORMS[command][status], output)
        if not found:
            return "another form"
        if "offset" in found.groupdict() and int(found["offset"]) > len(payload):
            return "an offset behind the end"
        if command in ("roa", "manifest") and status == 0:
            self.taken += 1
            return "" if is_same(command, output, payload) else "another value"
        return ""

    def file(self, name, content):
        with open(name, "wb") as it:
            it.write(content)
        return name

    def payload_of_a_roa(self):
        roas = [bytes.fromhex(it) for it in ROAS]
        payload = self.spoiled(self.random.choice(roas), roas)
        self.expect("roa", ["roa", self.file("payload", payload)], payload)

    def payload_of_a_manifest(self):
        payload = self.spoiled(bytes.fromhex(MANIFEST), [bytes.fromhex(it) for it in (MANIFEST, *ROAS)])
        self.expect("manifest", ["manifest", self.file("payload", payload)], payload)

    def point(self):
        """A point of which one file is spoiled."""
        os.makedirs("point/objects", exist_ok=True)
        os.makedirs("point/contents", exist_ok=True)
        roa, spoiled = bytes.fromhex(ROAS[0]), self.random.randrange(3)
        others = [roa, bytes.fromhex(MANIFEST)]
        for number, (name, content) in enumerate((("manifest.der", bytes.fromhex(MANIFEST)), ("objects/a.roa", roa), ("contents/a.roa", roa))):
            self.file(f"point/{name}", self.spoiled(content, others) if number == spoiled else content)
        self.expect("payloads", ["payloads", "--now", "20250101000000Z", "point"])

    def units(self):
        units = [bytes.fromhex(it) for it in UNITS]
        payload = self.spoiled(b"".join(self.random.sample(units, self.random.randrange(1, 6))), units)
        self.expect("units", ["units", self.file("payload", payload)], payload)

    def question(self):
        """Digits of units, spoiled as bytes or as digits."""
        units = [bytes.fromhex(it) for it in UNITS]
        sound = b"".join(self.random.choices(units[1:3], k=2))
        text = self.spoiled(sound, units).hex()
        if self.random.random() < 0.3:
            text = self.spoiled(text.encode(), [b"0x", b"Ff", b" "]).replace(b"\0", b"0")
        self.expect("answer", ["answer", "--session", "4660", "--serial", "5", "--vrps", self.file("list", LIST.encode()), text])

    def list(self):
        text = self.spoiled(LIST.encode(), [LIST.encode(), b'[[[[{"":1e9999,-0.1,null,true,"\\u0000\\ud800"}]]]]', b"\xff\xfe", b"184467440737095516160"])
        name = self.file("spoiled", text)
        self.expect("route", ["route", "--vrps", name, "192.0.2.0/24", "64496"])
        if self.random.random() < 0.1:
            self.expect("loop", ["loop", "--session", "4660", "--start", "5", "--vrps", name, "192.0.2.0/24", "64496"])

    def script(self):
        first, *lines = SCRIPT.splitlines(keepends=True)
        self.random.shuffle(lines)
        text = self.spoiled("".join([first, *lines]).encode(), [SCRIPT.encode(), b"18446744073709551616", b"  ", b"\r\n", b"\xc3"])
        self.expect("world", ["world", self.file("script", text)])

    def words(self):
        """Words in any order, and words of which a letter is another. (What waits for a peer is left out.)"""
        chosen = [it.encode() for it in self.random.choices(WORDS, k=self.random.randrange(0, 10))]
        if self.random.random() < 0.5:
            chosen = b"answer --session 4660 --serial 5 --vrps list 0102000000000008".split()
            at = self.random.randrange(len(chosen))
            chosen[at] = self.spoiled(chosen[at], [b"--", b"=", b"0", b"\xff"]).replace(b"\0", b"0")
        command = next((it.decode() for it in chosen if it in [name.encode() for name in FORMS]), "answer")
        if not any(it in b" ".join(chosen) for it in (b"serve", b"fetch")):
            self.expect(command, chosen)


def main():
    words = argparse.ArgumentParser(description="Spoiled input.")
    words.add_argument("program", type=os.path.abspath)
    for name, number in (("seed", 1), ("seconds", 25)):
        words.add_argument(f"--{name}", type=int, default=number)
    given = words.parse_args()
    seed, runs, taken, end = given.seed, 0, 0, time.time() + given.seconds
    with tempfile.TemporaryDirectory() as folder:
        os.chdir(folder)
        while time.time() < end:
            driver = Driver(given.program, seed)
            try:
                for part in (driver.payload_of_a_roa, driver.payload_of_a_manifest, driver.point, driver.units, driver.question, driver.list, driver.script, driver.words):
                    for _ in range(8):
                        part()
            except (SystemExit, subprocess.TimeoutExpired) as wrong:
                print(f"seed {seed}: {wrong}")
                return 1
            finally:
                os.chdir(folder)
            seed, runs, taken = seed + 1, runs + driver.runs, taken + driver.taken
        os.chdir("/")
    print(f"{runs} runs, {taken} payloads taken")
    return 0


if __name__ == "__main__":
    sys.exit(main())
