#!/usr/bin/env python3
"""Trust anchor locators: the URIs and the key of right ones, the fault and the line of others, and who else accepts them.

usage: tests/trust_anchors.py PROGRAM [--table]

PROGRAM is anchor_scripts. Each row is a locator with one thing that is another, and what PROGRAM has to say of it. The key is made here by
`openssl`. Locators of the RIRs are read too, if a package such as Debian's rpki-client has left them. With --table, `rpki-client`
and `fort` are asked as well, as far as they are here, and what each says is printed beside it."""
import argparse
import base64
import glob
import os
import shutil
import subprocess
import sys
import tempfile

sys.path.insert(0, f"{os.path.dirname(os.path.abspath(__file__))}/lib")
from common import asked

RSYNC = b"rsync://rpki.example.net/ta/ta.cer"
HTTPS = b"https://rpki.example.net/ta/ta.cer"
NO_BREAK = "the file ends before an empty line follows the URIs"
NO_URI = "no URI comes before the empty line"
URI = "the line is not the URI of an object in rsync or https"
BASE64 = "the key is not in base64"
KEY = "the key is not a subjectPublicKeyInfo of RSA with 2,048 bits and the exponent 65537"


def openssl(*words, given=None):
    return subprocess.run(["openssl", *words], input=given, capture_output=True, check=True, timeout=60).stdout


def public_key(*options):
    """A new key's subjectPublicKeyInfo in DER."""
    return openssl("pkey", "-pubout", "-outform", "DER", given=openssl("genpkey", *options))


def modulus(der):
    """What openssl says is the modulus."""
    return openssl("rsa", "-pubin", "-inform", "DER", "-modulus", "-noout", given=der).decode().strip().split("=")[1].lower()


def lines(text, width=64):
    """Text in lines of this width."""
    return b"".join(text[at:at + width] + b"\n" for at in range(0, len(text), width))


class Keys:
    """The keys of all rows."""

    def __init__(self):
        rsa = ("-algorithm", "RSA", "-pkeyopt")
        self.der = public_key(*rsa, "rsa_keygen_bits:2048")
        self.long = public_key(*rsa, "rsa_keygen_bits:4096")
        self.cubed = public_key(*rsa, "rsa_keygen_bits:2048", "-pkeyopt", "rsa_keygen_pubexp:3")
        self.curve = public_key("-algorithm", "EC", "-pkeyopt", "ec_paramgen_curve:P-256")
        self.text = base64.b64encode(self.der)


def rows(keys):
    """Name, locator, and the URIs that it has, or its fault's line and text."""
    key, both = lines(keys.text), [RSYNC, HTTPS]
    head = RSYNC + b"\n" + HTTPS + b"\n\n"

    def other(der):
        return head + lines(base64.b64encode(der))

    padded = base64.b64encode(keys.der + b"\0")
    return [
        ("two URIs", head + key, both),
        ("one URI, of rsync", RSYNC + b"\n\n" + key, [RSYNC]),
        ("one URI, of https", HTTPS + b"\n\n" + key, [HTTPS]),
        ("comments", b"# one\n#two\n#\n" + head + key, both),
        ("CRLF", (b"# one\n" + head + key).replace(b"\n", b"\r\n"), both),
        ("CRLF for the empty line alone", RSYNC + b"\n\r\n" + key, [RSYNC]),
        ("a comment that is no UTF-8", b"# \xff\n" + head + key, both),
        ("the key in one line", head + keys.text + b"\n", both),
        ("the key without a line break at the end", head + keys.text, both),
        ("the key in lines of one character", head + lines(keys.text, 1), both),
        ("empty lines before, in and behind the key", head + b"\n" + key.replace(b"\n", b"\n\n") + b"\n\n", both),
        ("a file that is no .cer", b"rsync://rpki.example.net/ta/ta\n\n" + key, [b"rsync://rpki.example.net/ta/ta"]),
        ("nothing", b"", (1, NO_BREAK)),
        ("an empty line", b"\n", (1, NO_URI)),
        ("comments alone", b"# one\n# two\n", (3, NO_BREAK)),
        ("a comment without a line break", b"# one", (1, NO_BREAK)),
        ("no URI", b"# one\n\n" + key, (2, NO_URI)),
        ("no empty line", RSYNC + b"\n" + key, (2, URI)),
        ("it ends after a URI", RSYNC + b"\n" + HTTPS, (2, NO_BREAK)),
        ("it ends after the URIs", RSYNC + b"\n" + HTTPS + b"\n", (3, NO_BREAK)),
        ("a comment behind a URI", RSYNC + b"\n# one\n\n" + key, (2, URI)),
        ("an empty line before the comments", b"\n# one\n" + head + key, (1, NO_URI)),
        ("http", b"http://rpki.example.net/ta/ta.cer\n\n" + key, (1, URI)),
        ("a scheme in capitals", b"RSYNC://rpki.example.net/ta/ta.cer\n\n" + key, (1, URI)),
        ("http behind rsync", RSYNC + b"\nhttp://rpki.example.net/ta/ta.cer\n\n" + key, (2, URI)),
        ("a blank behind a URI", RSYNC + b" \n\n" + key, (1, URI)),
        ("a blank before a URI", b" " + RSYNC + b"\n\n" + key, (1, URI)),
        ("a letter that is not of ASCII", "rsync://rpki.example.net/tä/ta.cer\n\n".encode() + key, (1, URI)),
        ("a directory", b"rsync://rpki.example.net/ta/\n\n" + key, (1, URI)),
        ("a scheme alone", b"rsync://\n\n" + key, (1, URI)),
        ("a byte order mark", b"\xef\xbb\xbf" + head + key, (1, URI)),
        ("CR alone for line breaks", (head + key).replace(b"\n", b"\r"), (1, NO_BREAK)),
        ("two CRs and LF behind a URI", RSYNC + b"\r\r\n\n" + key, (1, URI)),
        ("a blank in the empty line", RSYNC + b"\n \n" + key, (2, URI)),
        ("no key", head, (4, KEY)),
        ("a key in hexadecimal digits", head + keys.der.hex().encode(), (4, KEY)),
        ("a letter of no base64", head + key.replace(b"\n", b"!\n", 1), (4, BASE64)),
        ("a blank in the key", head + key.replace(b"\n", b" \n", 1), (4, BASE64)),
        ("the key lacks a letter", head + keys.text[:-1], (4, BASE64)),
        ("padding is missing", head + padded.rstrip(b"="), (4, BASE64)),
        ("bits are left over", head + padded.replace(b"==", b"A=")[:-2] + b"B=", (4, BASE64)),
        ("a line behind the padding", head + padded + b"\nAAAA\n", (4, BASE64)),
        ("PEM", head + b"-----BEGIN PUBLIC KEY-----\n" + key + b"-----END PUBLIC KEY-----\n", (4, BASE64)),
        ("a byte behind the key", other(keys.der + b"\0"), (4, KEY)),
        ("the key lacks a byte", other(keys.der[:-1]), (4, KEY)),
        ("the key without its algorithm", other(keys.der[24:]), (4, KEY)),
        ("a key of 4,096 bits", other(keys.long), (4, KEY)),
        ("the exponent 3", other(keys.cubed), (4, KEY)),
        ("a key of ECDSA", other(keys.curve), (4, KEY)),
        ("a modulus of 2,047 bits", other(keys.der[:33] + bytes([keys.der[33] & 127]) + keys.der[34:]), (4, KEY)),
    ]


def wanted(keys, expected):
    """The answer that a row has to have."""
    if isinstance(expected, tuple):
        return f"line {expected[0]}: {expected[1]}"
    return " ".join([modulus(keys.der)] + [uri.decode() for uri in expected])


def real_locators():
    """The locators that packages and validators leave."""
    places = ("/etc/tals", "/usr/share/rpki-trust-anchors", "/etc/fort/tal", "/usr/share/fort/tals", "/var/lib/fort/tal")
    return sorted({it for place in places for it in glob.glob(f"{place}/*.tal")})


def read_plainly(locator):
    """A locator of which nothing is wrong, read by Python and openssl."""
    text = [line.rstrip("\r") for line in locator.decode().split("\n")]
    text = [line for line in text if not line.startswith("#")]
    empty = text.index("")
    der = base64.b64decode("".join(text[empty:]), validate=True)
    return " ".join([modulus(der)] + text[:empty])


# ---- peers


def rpki_client_says(locator):
    """Whether rpki-client reads a locator."""
    with tempfile.TemporaryDirectory() as folder:
        os.chmod(folder, 0o777)
        for name in ("cache", "out"):
            os.mkdir(f"{folder}/{name}")
            os.chmod(f"{folder}/{name}", 0o777)
        with open(f"{folder}/row.tal", "wb") as file:
            file.write(locator)
        words = ["rpki-client", "-n", "-j", "-t", f"{folder}/row.tal", "-d", f"{folder}/cache", f"{folder}/out"]
        done = subprocess.run(words, capture_output=True, text=True, timeout=60)
        said = [line for line in done.stderr.splitlines() if "row.tal" in line or "TAL" in line or "buffer" in line]
        return "takes" if "No such file or directory" in done.stderr and "ta/row" in done.stderr else "refuses: " + "; ".join(said)[-70:]


def fort_says(locator):
    """Whether FORT reads a locator."""
    with tempfile.TemporaryDirectory() as folder:
        with open(f"{folder}/row.tal", "wb") as file:
            file.write(locator)
        words = ["fort", "--mode=standalone", "--work-offline", "--tal", f"{folder}/row.tal", "--local-repository", f"{folder}/cache"]
        done = subprocess.run(words, capture_output=True, text=True, errors="replace", timeout=60)
        said = [line for line in (done.stdout + done.stderr).splitlines() if "ERR" in line or "CRT" in line]
        return "takes" if any("yielded a successful traversal" in line for line in said) else "refuses: " + "; ".join(said)[:90]


def print_table(named):
    """Who takes which row."""
    peers = [(name, says) for name, says in (("rpki-client", rpki_client_says), ("fort", fort_says)) if shutil.which(name)]
    for name, locator, expected in named:
        ours = f"line {expected[0]}" if isinstance(expected, tuple) else "takes"
        print(" | ".join([name, ours] + [says(locator) for _, says in peers]))


def main():
    parser = argparse.ArgumentParser(usage=__doc__)
    parser.add_argument("program")
    parser.add_argument("--table", action="store_true")
    options = parser.parse_args()
    keys = Keys()
    named = rows(keys)
    wrong = 0
    for (name, _, expected), answer in zip(named, asked(options.program, [it[1].hex() for it in named])):
        if answer != wanted(keys, expected):
            wrong += 1
            print(f"{name}: {answer}\n    wanted: {wanted(keys, expected)}")
    real = real_locators()
    contents = []
    for path in real:
        with open(path, "rb") as file:
            contents.append(file.read())
    for path, locator, answer in zip(real, contents, asked(options.program, [it.hex() for it in contents])):
        if answer != read_plainly(locator):
            wrong += 1
            print(f"{path}: {answer}\n    wanted: {read_plainly(locator)}")
    if options.table:
        print_table(named)
    print(f"{len(named)} locators, and {len(real)} of RIRs: {wrong} wrong")
    return 1 if wrong else 0


if __name__ == "__main__":
    raise SystemExit(main())
