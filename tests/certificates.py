#!/usr/bin/env python3
"""Certificates, revocation lists and resources that break one rule each: the fault that ours names, and who else accepts them.

usage: tests/certificates.py PROGRAM [--table] [--sets N]

PROGRAM is certificate_scripts. Each row of tests/lib/certificate_rows.py is a certificate or a list with one thing that is another, and what
PROGRAM has to say of it. The keys are made here. With --table, `openssl verify`, `rpki-client -f` and `fort` are asked too, as far as they
are here, and what each says is printed beside it: `-` if it cannot be asked. N pairs of random sets of resources (10,000 unless said otherwise) are compared with sets of
Python."""
import argparse
import ipaddress
import os
import random
import shutil
import subprocess
import sys
import tempfile

sys.path.insert(0, f"{os.path.dirname(os.path.abspath(__file__))}/lib")
import certificate_rows as rows
import fort
import repository
from certificate_rows import Bench
from common import asked
from der import element, integer
from repository import bits, sequence, tagged


# ---- who accepts what


def openssl_says(kind, der):
    """Whether `openssl` verifies a certificate under the trust anchor, or the signature of a list."""
    with open("asked.der", "wb") as it:
        it.write(der)
    if kind == "crl":
        words = ["openssl", "crl", "-inform", "DER", "-in", "asked.der", "-noout", "-CAfile", "trusted.pem", "-verify"]
        done = subprocess.run(words, capture_output=True, text=True)
        return done.returncode == 0 and "verify OK" in done.stderr + done.stdout
    if subprocess.run(["openssl", "x509", "-inform", "DER", "-in", "asked.der", "-out", "asked.pem"], capture_output=True).returncode:
        return False
    anchor = "asked.pem" if kind == "anchor" else "trusted.pem"
    return subprocess.run(["openssl", "verify", "-CAfile", anchor, "asked.pem"], capture_output=True).returncode == 0


def client_says(bench, row):
    """Whether `rpki-client` reads a file: a certificate of an end entity is in a ROA of its own."""
    name, content = {"crl": ("asked.crl", row.der), "entity": ("asked.roa", bench.object(row.der))}.get(row.kind, ("asked.cer", row.der))
    with open(name, "wb") as it:
        it.write(content)
    told = subprocess.run(["rpki-client", "-f", name], capture_output=True, text=True, timeout=60).stdout
    return {"crl": "CRL valid until:", "entity": "asID:"}.get(row.kind, "Certificate serial:") in told


def table(bench, program_says):
    """Prints who accepts each row."""
    with open("trusted.der", "wb") as it:
        it.write(bench.anchor)
    subprocess.run(["openssl", "x509", "-inform", "DER", "-in", "trusted.der", "-out", "trusted.pem"], check=True)
    peers = {"openssl": lambda row: openssl_says(row.kind, row.der), "rpki-client": lambda row: client_says(bench, row), "fort": lambda row: fort.says(bench, row)}
    words = {True: "yes", False: "no", None: "-"}
    for row, said in zip(bench.rows, program_says):
        others = [f"{peer} {words[says(row)]}" for peer, says in peers.items() if shutil.which(peer)]
        print(f"{row.name:44}| {said[:40]:40}| {' | '.join(others)}", flush=True)


# ---- a whole repository


def elements(content):
    """The elements of a content, each with its tag: lengths have at most four octets."""
    found, at = [], 0
    while at < len(content):
        size, begin = content[at + 1], at + 2
        if size > 128:
            size, begin = int.from_bytes(content[begin : begin + size - 128], "big"), begin + size - 128
        found.append((content[at], content[begin : begin + size]))
        at = begin + size
    return found


def certificate_in(signed_object):
    """The certificate inside a signed object (RFC 6488 section 2.1)."""
    data = elements(elements(elements(signed_object)[0][1])[1][1])[0][1]
    return next(content for tag, content in elements(data) if tag == 160)


def repository_questions():
    """What to ask of a repository as validators are given it, and the beginnings of the answers."""
    repository.write(".", [("192.0.2.0/24", 24, 64496), ("2001:db8::/32", 48, 64497)], "repository")

    def content(name):
        with open(f"repository/{name}", "rb") as it:
            return it.read()

    objects = [it for it in os.listdir("repository") if it.endswith((".roa", ".mft"))]
    asked_of = [(f"entity {certificate_in(content(it)).hex()}", "certificate ip ") for it in objects]
    return [(f"anchor {content('authority.cer').hex()}", "certificate ip "), (f"crl {content('authority.crl').hex()}", "crl 0"), *asked_of]


# ---- sets of resources


def block(low, high):
    """A range of AS numbers in its one form."""
    return integer(low) if low == high else sequence(integer(low), integer(high))


def as_value(ranges):
    return sequence(tagged(0, sequence(*(block(low, high) for low, high in ranges))))


def address_bits(text):
    return bits(-len(text) % 8, int(text + "0" * (-len(text) % 8) or "0", 2).to_bytes((len(text) + 7) // 8, "big"))


def address_block(low, high):
    """A range of IPv6 addresses in its one form: a prefix if it is one."""
    first, last = ipaddress.IPv6Address(low), ipaddress.IPv6Address(high)
    prefixes = [*ipaddress.summarize_address_range(first, last)]
    if len(prefixes) == 1:
        return address_bits(f"{low:0128b}"[: prefixes[0].prefixlen])
    return sequence(address_bits(f"{low:0128b}".rstrip("0")), address_bits(f"{high:0128b}".rstrip("1")))


def ip_value(ranges):
    return sequence(sequence(element(4, b"\0\2"), sequence(*(address_block(low, high) for low, high in ranges))))


def random_ranges(rng, top):
    """Ranges of numbers up to `top` that ascend, and neither overlap nor touch. They crowd, so that some lie within others."""
    found, at = [], rng.randrange(3)
    for _ in range(rng.choice([1, 1, 2, 3, 5, 9])):
        high = at + rng.choice([0, 0, 1, 2, 6])
        if high > top:
            break
        found.append((at, high))
        at = high + rng.choice([2, 2, 3, 5])
    return found or [(0, 0)]


def compare_sets(program, count, seed):
    """Compares what the program says of random pairs with sets of Python."""
    rng = random.Random(seed)
    questions, wanted = [], []
    for number in range(count):
        # (a second set that holds the first about as often as not, at both ends of the numbers)
        inner, outer = random_ranges(rng, 60), random_ranges(rng, 60)
        if rng.random() < 0.5:
            outer = [it for it in outer if rng.random() < 0.8] + [(inner[0][0], inner[-1][1])]
            outer = merged(outer)
        shift = rng.choice([0, 2**32 - 1 - 90])
        inner, outer = [[(low + shift, high + shift) for low, high in it] for it in (inner, outer)]
        held = numbers(inner) <= numbers(outer)
        if number % 2:
            questions.append(f"within {as_value(inner).hex()} {as_value(outer).hex()}")
        else:
            shift = rng.choice([0, 2**128 - 2**32])
            inner, outer = [[(low + shift, high + shift) for low, high in it] for it in (inner, outer)]
            questions.append(f"covers {ip_value(inner).hex()} {ip_value(outer).hex()}")
        wanted.append("yes" if held else "no")
    for question, said, want in zip(questions, asked(program, questions), wanted):
        if said != want:
            raise SystemExit(f"{question}: {said} in place of {want}")
    print(f"{count} pairs of sets, {wanted.count('yes')} of them within")


def merged(ranges):
    """The same numbers, as ranges that neither overlap nor touch."""
    found = []
    for low, high in sorted(ranges):
        if found and low <= found[-1][1] + 1:
            found[-1] = (found[-1][0], max(found[-1][1], high))
        else:
            found.append((low, high))
    return found


def numbers(ranges):
    return {it for low, high in ranges for it in range(low, high + 1)}


def main():
    parser = argparse.ArgumentParser()
    parser.add_argument("program")
    parser.add_argument("--table", action="store_true")
    parser.add_argument("--sets", type=int, default=10000)
    parser.add_argument("--seed", type=int, default=1)
    words = parser.parse_args()
    program = os.path.realpath(words.program)
    with tempfile.TemporaryDirectory() as folder:
        # (rpki-client reads as a user of its own)
        os.chmod(folder, 0o755)
        os.chdir(folder)
        bench = Bench()
        said = asked(program, [f"{row.kind} {row.der.hex()}" for row in bench.rows])
        if words.table:
            table(bench, said)
        wrong = [f"{row.name}: {found} in place of {row.wanted}" for row, found in zip(bench.rows, said) if not rows.is_wanted(row.wanted, found)]
        whole = repository_questions()
        wrong += [f"{question[:60]}: {found}" for (question, want), found in zip(whole, asked(program, [it[0] for it in whole])) if not found.startswith(want) or "fault" in found]
        issued = asked(program, [f"issued {one.hex()} {other.hex()}" for one, other, _ in bench.pairs])
        wrong += [f"pair {number}: {found} in place of {want}" for number, (found, (_, _, want)) in enumerate(zip(issued, bench.pairs)) if found != want]
        if wrong:
            raise SystemExit("\n".join(wrong))
        print(f"{len(bench.rows)} certificates and lists, {len(bench.pairs)} pairs, {len(whole)} files of a repository")
        compare_sets(program, words.sets, words.seed)
        os.chdir("/")


main()
