#!/usr/bin/env python3
"""Signed objects made at random, and spoiled ones, judged by the program and by the profile's rules in Python.

usage: tests/signed_objects.py PROGRAM [--seed N] [--count N] [--openssl N] [--bytes]

PROGRAM is rpkiobject. Objects at the bounds of lengths, levels, INTEGERs, OBJECT IDENTIFIERs and key identifiers come first, with the fault that
the standards give, or none: `judge` and the program must say the same. COUNT objects have random contents, keys and attributes, and are to be accepted. Half of them are in BER: lengths are
indefinite or long, and OCTET STRINGs in pieces. COUNT others have something wrong: a rule of RFC 6488 that is broken by name, or random
octets that are changed. Each is judged by `judge`, which knows the rules and nothing of the program: the fault's number and offset must be
the same, with --strict too. Of both, N are also given to `openssl cms -verify -noverify`: what the program accepts, it accepts too. With
--bytes each octet of three objects, one of them in BER, is replaced by each other value. It exits with 1 at the first that differs, and
leaves the object in a file."""
import argparse
import functools
import hashlib
import os
import random
import subprocess
import sys
import tempfile

from cryptography.hazmat.primitives import hashes
from cryptography.hazmat.primitives.asymmetric import padding, rsa

sys.path.insert(0, f"{os.path.dirname(os.path.abspath(__file__))}/lib")
from ber import Forms, Refused, to_der
from der import element, integer

SHA_256 = bytes.fromhex("608648016503040201")
SHA_512 = bytes.fromhex("608648016503040203")
RSA = bytes.fromhex("2a864886f70d010101")
SHA_256_RSA = bytes.fromhex("2a864886f70d01010b")
SIGNED_DATA = bytes.fromhex("2a864886f70d010702")
PKCS_9 = bytes.fromhex("2a864886f70d0109")
CONTENT_TYPE, MESSAGE_DIGEST, SIGNING_TIME, BINARY_TIME = PKCS_9 + b"\3", PKCS_9 + b"\4", PKCS_9 + b"\5", PKCS_9 + b"\x10\2\x2e"
ROA = PKCS_9 + b"\x10\1\x18"
KEY_IDENTIFIER = bytes.fromhex("551d0e")
NULL = b"\5\0"


def sequence(*parts):
    return element(0x30, b"".join(parts))


def oid(content):
    return element(6, content)


class Key:
    """A key of a certificate."""

    def __init__(self, bits=2048):
        self.private = rsa.generate_private_key(65537, bits)
        self.n = self.private.public_key().public_numbers().n

    def sign(self, message):
        return self.private.sign(message, padding.PKCS1v15(), hashes.SHA256())


class Object:
    """The fields of an object, each of which may be spoiled before it is put together."""

    def __init__(self, rng, key):
        self.rng, self.key = rng, key
        self.content_type = rng.choice([ROA, PKCS_9 + b"\x10\1\x1a", PKCS_9 + b"\x10\1\x23"])
        self.content = rng.randbytes(rng.choice([0, 1, 20, 130, 300, 70000]))
        self.identifier = rng.randbytes(20)
        self.version, self.signer_version, self.certificate_version = 3, 3, 2
        self.id = SIGNED_DATA
        self.digest_algorithms = [sequence(oid(SHA_256), rng.choice([b"", NULL]))]
        self.digest_algorithm = sequence(oid(SHA_256), rng.choice([b"", NULL]))
        self.signature_algorithm = sequence(oid(rng.choice([RSA, SHA_256_RSA])), rng.choice([b"", NULL]))
        self.key_algorithm = sequence(oid(RSA), NULL)
        self.exponent = integer(65537)
        self.modulus = integer(key.n)
        self.unused = b"\0"
        self.extensions = [self.extension(KEY_IDENTIFIER, element(4, self.identifier))]
        if rng.randrange(2):
            self.extensions.append(sequence(oid(b"\x55\x1d\x0f"), element(1, b"\xff"), element(4, b"\3\2\7\x80")))
        for at in range(rng.randrange(3)):
            self.extensions.append(sequence(oid(bytes([42, 3, at])), element(4, rng.randbytes(9))))
        rng.shuffle(self.extensions)
        self.attributes = [
            self.attribute(CONTENT_TYPE, oid(self.content_type)),
            self.attribute(MESSAGE_DIGEST, element(4, hashlib.sha256(self.content).digest())),
        ]
        if rng.randrange(2):
            self.attributes.append(self.attribute(SIGNING_TIME, rng.choice([element(23, b"260101000000Z"), element(24, b"20500101000000Z")])))
        if rng.randrange(2):
            self.attributes.append(self.attribute(BINARY_TIME, integer(rng.randrange(2**32))))
        rng.shuffle(self.attributes)
        self.certificates, self.signers = 1, 1
        self.crls, self.unsigned, self.behind = b"", b"", b""
        self.content_tag, self.certificates_tag, self.sid_tag, self.attributes_tag, self.extensions_tag = 0xA0, 0xA0, 0x80, 0xA0, 0xA3
        self.sid = self.identifier
        self.serial, self.explicit = integer(7), None
        self.signed_tag = 0x31
        self.signature = None
        self.with_content = True

    @staticmethod
    def extension(name, value):
        return sequence(oid(name), element(4, value))

    @staticmethod
    def attribute(name, *values):
        return sequence(oid(name), element(0x31, b"".join(values)))

    def certificate(self):
        public = sequence(self.modulus, self.exponent)
        info = sequence(self.key_algorithm, element(3, self.unused + public))
        name = sequence(element(0x31, sequence(oid(b"\x55\x04\x03"), element(19, b"ee"))))
        times = sequence(element(23, b"260101000000Z"), element(23, b"270101000000Z"))
        version = element(0xA0, integer(self.certificate_version))
        extensions = element(self.extensions_tag, sequence(*self.extensions))
        algorithm = sequence(oid(SHA_256_RSA), NULL)
        return sequence(sequence(version, self.serial, algorithm, name, times, name, info, extensions), algorithm, element(3, b"\0" + bytes(256)))

    def signer(self):
        attributes = b"".join(self.attributes)
        signature = self.signature or self.key.sign(element(self.signed_tag, attributes))
        return sequence(
            integer(self.signer_version), element(self.sid_tag, self.sid), self.digest_algorithm, element(self.attributes_tag, attributes),
            self.signature_algorithm, element(4, signature), self.unsigned)

    def octets(self):
        content = element(self.content_tag, self.explicit or element(4, self.content)) if self.with_content else b""
        data = sequence(
            integer(self.version), element(0x31, b"".join(self.digest_algorithms)), sequence(oid(self.content_type), content),
            element(self.certificates_tag, self.certificate() * self.certificates), self.crls, element(0x31, self.signer() * self.signers))
        return sequence(oid(self.id), element(0xA0, data)) + self.behind


def spoil_oid(it):
    """Puts octets that are no OBJECT IDENTIFIER as the type of the content, as the attribute or as the name of an extension."""
    rng = it.rng
    wrong = rng.choice([b"", b"\x80", it.content_type[:-1] + bytes([it.content_type[-1] | 128]), b"\x80" + it.content_type, b"\x2a\x80\3", b"\x2a\x86\xff"])
    place = rng.randrange(3)
    if place == 0:
        it.content_type = wrong
    elif place == 1:
        it.extensions.insert(rng.randrange(len(it.extensions) + 1), it.extension(wrong, b""))
    if place != 1:
        it.attributes = [it.attribute(CONTENT_TYPE, oid(wrong)) if CONTENT_TYPE in a else a for a in it.attributes]


def spoil(it, what):
    """Breaks one rule of an object."""
    rng = it.rng
    others = {
        "content type of ContentInfo": lambda: setattr(it, "id", SIGNED_DATA[:-1] + b"\1"),
        "version": lambda: setattr(it, "version", rng.choice([0, 1, 2, 4, 300])),
        "no digest algorithm": lambda: setattr(it, "digest_algorithms", []),
        "two digest algorithms": lambda: setattr(it, "digest_algorithms", it.digest_algorithms * 2),
        "digest algorithms of SHA-512": lambda: setattr(it, "digest_algorithms", [sequence(oid(SHA_512), NULL)]),
        "parameters of the digest algorithms": lambda: setattr(it, "digest_algorithms", [sequence(oid(SHA_256), element(4, b""))]),
        "no content": lambda: setattr(it, "with_content", False),
        "content in [1]": lambda: setattr(it, "content_tag", 0xA1),
        "no certificate": lambda: setattr(it, "certificates", 0),
        "two certificates": lambda: setattr(it, "certificates", 2),
        "certificates in [1]": lambda: setattr(it, "certificates_tag", 0xA1),
        "version of the certificate": lambda: setattr(it, "certificate_version", rng.choice([0, 1, 3])),
        "key algorithm": lambda: setattr(it, "key_algorithm", sequence(oid(SHA_256_RSA), NULL)),
        "key algorithm without parameters": lambda: setattr(it, "key_algorithm", sequence(oid(RSA))),
        "exponent": lambda: setattr(it, "exponent", integer(rng.choice([3, 17, 65539]))),
        "negative modulus": lambda: setattr(it, "modulus", element(2, b"\x80" + bytes(255))),
        "unused bits of the key": lambda: setattr(it, "unused", b"\1"),
        "extensions in [2]": lambda: setattr(it, "extensions_tag", 0xA2),
        "key identifier twice": lambda: it.extensions.append(it.extension(KEY_IDENTIFIER, element(4, it.identifier))),
        "no key identifier": lambda: setattr(it, "extensions", [it.extension(b"\x55\x1d\x0f", b"\3\2\7\x80")]),
        "critical key identifier": lambda: setattr(it, "extensions", [sequence(oid(KEY_IDENTIFIER), element(1, b"\xff"), element(4, element(4, it.identifier)))]),
        "CRLs": lambda: setattr(it, "crls", element(0xA1, b"")),
        "no signer": lambda: setattr(it, "signers", 0),
        "two signers": lambda: setattr(it, "signers", 2),
        "version of the signer": lambda: setattr(it, "signer_version", 1),
        "issuer and serial number": lambda: setattr(it, "sid_tag", 0x30),
        "another key identifier": lambda: setattr(it, "sid", rng.randbytes(20)),
        "digest algorithm of the signer": lambda: setattr(it, "digest_algorithm", sequence(oid(SHA_512))),
        "attributes in [1]": lambda: setattr(it, "attributes_tag", 0xA1),
        "no attributes": lambda: setattr(it, "attributes", []),
        "unknown attribute": lambda: it.attributes.append(it.attribute(PKCS_9 + b"\7", oid(ROA))),
        "attribute twice": lambda: it.attributes.append(rng.choice(it.attributes)),
        "two values": lambda: it.attributes.__setitem__(0, it.attribute(CONTENT_TYPE, oid(ROA), oid(ROA))),
        "no value": lambda: it.attributes.__setitem__(0, it.attribute(MESSAGE_DIGEST)),
        "signing time as text": lambda: setattr(it, "attributes", [it.attribute(SIGNING_TIME, element(22, b"now"))] + it.attributes),
        "no content-type": lambda: setattr(it, "attributes", [a for a in it.attributes if CONTENT_TYPE not in a]),
        "no message-digest": lambda: setattr(it, "attributes", [a for a in it.attributes if MESSAGE_DIGEST not in a]),
        "signature algorithm": lambda: setattr(it, "signature_algorithm", sequence(oid(SHA_256), NULL)),
        "parameters of the signature algorithm": lambda: setattr(it, "signature_algorithm", sequence(oid(RSA), sequence())),
        "unsigned attributes": lambda: setattr(it, "unsigned", element(0xA1, it.attribute(SIGNING_TIME, element(23, b"260101000000Z")))),
        "something behind the signature": lambda: setattr(it, "unsigned", element(4, b"")),
        "an OBJECT IDENTIFIER that is none": lambda: spoil_oid(it),
        "another content type": lambda: setattr(it, "content_type", it.content_type[:-1] + b"\x30"),
        "another content": lambda: setattr(it, "content", it.content + b"\0"),
        "another digest": lambda: setattr(it, "attributes", [it.attribute(MESSAGE_DIGEST, element(4, rng.randbytes(32))) if MESSAGE_DIGEST in a else a for a in it.attributes]),
        "a small modulus": lambda: setattr(it, "modulus", integer(it.key.n >> 8 | 1 << 2039)),
        "an even modulus": lambda: setattr(it, "modulus", integer(it.key.n - 1)),
        "another key": lambda: setattr(it, "modulus", integer(it.key.n - 2)),
        "attributes signed under [0]": lambda: setattr(it, "signed_tag", 0xA0),
        "signature of zeros": lambda: setattr(it, "signature", bytes(256)),
        "signature and modulus": lambda: setattr(it, "signature", (int.from_bytes(it.key.sign(element(0x31, b"".join(it.attributes))), "big") + it.key.n).to_bytes(257, "big")),
        "a byte behind the object": lambda: setattr(it, "behind", b"\0"),
    }
    if what is None:
        return list(others)
    others[what]()
    return it


# ---- objects at the bounds


def fixed(key, times=(), **changes):
    """An object that is right, with these values of binary-signing-time, and these fields in place of others."""
    it = Object(random.Random(1), key)
    it.content, it.content_type, it.identifier = b"content", ROA, bytes(range(20))
    for name, value in changes.items():
        setattr(it, name, value)
    it.attributes = changes.get("attributes") or [it.attribute(CONTENT_TYPE, oid(it.content_type)), it.attribute(MESSAGE_DIGEST, element(4, hashlib.sha256(it.content).digest()))]
    it.attributes += [it.attribute(BINARY_TIME, value) for value in times]
    it.extensions = changes.get("extensions", []) + [it.extension(KEY_IDENTIFIER, element(4, it.identifier))]
    it.sid = changes.get("sid", it.identifier)
    return it.octets()


def fault_at(octets, number, front, behind):
    """The fault of the element that is between these octets, which are in the object once."""
    if octets.count(front + behind) != 1:
        raise SystemExit(f"{(front + behind).hex()} is in the object {octets.count(front + behind)} times")
    return number, octets.index(front + behind) + len(front)


def pinned_lengths():
    """X.690 section 8.1.3.5: a length is below 2^32, and so many octets are not there. In DER it is in the fewest octets, at most four."""
    lengths = [
        ("2^32 - 1", b"\x84\xff\xff\xff\xff", 1, 1), ("2^32 - 1 behind a zero", b"\x85\0\xff\xff\xff\xff", 1, 3), ("2^32", b"\x85\1\0\0\0\0", 39, 3),
        ("2^40 - 1", b"\x85\xff\xff\xff\xff\xff", 39, 3), ("2^40", b"\x86\1\0\0\0\0\0", 39, 3), ("of a first octet of 255", b"\xff", 39, 3)]
    return [(f"the length {name}", b"\x30" + length + b"\4\0", (plain, 0), (strict, 0)) for name, length, plain, strict in lengths]


def pinned_levels(key):
    """16 levels are read. The content of an object is at the sixth; in DER the object ends at the third octet, which is no OBJECT IDENTIFIER."""
    def sequences(levels):
        return element(0x30, sequences(levels - 1)) if levels else b""

    def pieces(levels):
        return element(0x24, pieces(levels - 1)) if levels else element(4, b"content")

    rows = [(f"{levels} SEQUENCEs", sequences(levels), fault, (2, 2)) for levels, fault in ((16, (2, 2)), (17, (43, 32)))]
    for levels in (10, 11):
        octets = fixed(key, explicit=pieces(levels))
        fault = None if levels == 10 else fault_at(octets, 43, b"", element(4, b"content"))
        rows.append((f"{levels} levels of pieces", octets, fault, fault_at(octets, 2, b"", pieces(levels))))
    return rows


def pinned_integers(key):
    """X.690 section 8.3.2: the first nine bits of an INTEGER are neither all 0 nor all 1. binary-signing-time is one (RFC 6019 section 3)."""
    rows = []
    contents = [(b"", 4), (b"\0", None), (b"\xff", None), (b"\0\x7f", 4), (b"\0\x80", None), (b"\xff\x7f", None), (b"\xff\x80", 4)]
    others = [(element(4, b"\0"), 2), (element(23, b"260101000000Z"), 2)]
    for value, number in [(element(2, content), number) for content, number in contents] + others:
        octets = fixed(key, serial=value)
        fault = number and fault_at(octets, number, element(0xA0, integer(2)), value)
        rows.append((f"the serial number {value.hex()}", octets, fault, fault))
        octets = fixed(key, times=[value])
        fault = number and fault_at(octets, number, oid(BINARY_TIME) + element(0x31, value)[:2], value)
        rows.append((f"binary-signing-time {value.hex()}", octets, fault, fault))
    return rows


def pinned_identifiers(key):
    """X.690 section 8.19: which contents are OBJECT IDENTIFIERs, at each of the three places of any value. 2.100.3 is its example."""
    rows = []
    for content in (b"\x81\x34\3", b"\0", b"\x7f", b"\x81\0", b"\x81\x80\0", b"\x2a\x81\0"):
        rows.append((f"the OBJECT IDENTIFIER {content.hex()}", fixed(key, content_type=content, extensions=[Object.extension(content, b"")]), None, None))
    for content in (b"", b"\x80", b"\xff", b"\x81", b"\x80\1", b"\x80\x2a\3", b"\x2a\x80\3", b"\x2a\3\x83"):
        digest = Object.attribute(MESSAGE_DIGEST, element(4, hashlib.sha256(b"content").digest()))
        for octets, front, behind in (
            (fixed(key, content_type=content), b"", oid(content) + element(0xA0, element(4, b"content"))),
            (fixed(key, extensions=[Object.extension(content, b"value")]), b"", oid(content) + element(4, b"value")),
            (fixed(key, attributes=[Object.attribute(CONTENT_TYPE, oid(content)), digest]), oid(CONTENT_TYPE) + element(0x31, oid(content))[:2], oid(content)),
        ):
            fault = fault_at(octets, 4, front, behind)
            rows.append((f"{content.hex()}, which is no OBJECT IDENTIFIER", octets, fault, fault))
    return rows


def pinned_keys(key):
    """RFC 6488 section 3, 1.c: sid is the subjectKeyIdentifier of the certificate. How long that is, the certificate's profile says."""
    whole = bytes(range(20))
    wrong = [(f"a sid of {len(sid)} octets", fixed(key, sid=sid), (31, 0), (31, 0)) for sid in (whole[:19], whole + b"\x14", b"")]
    return wrong + [(f"a key identifier of {len(it)} octets", fixed(key, identifier=it), None, None) for it in (whole[:19], whole, whole + b"\x14")]


def pin(program, key):
    """Judges objects at the bounds. Their faults are those of the standards: `judge` and the program must give them."""
    rows = pinned_lengths() + pinned_levels(key) + pinned_integers(key) + pinned_identifiers(key) + pinned_keys(key)
    for name, octets, *wanted in rows:
        found = [judge(octets, is_strict) for is_strict in (False, True)]
        if found != wanted:
            raise SystemExit(f"{name}: judge says {found} in place of {wanted}")
        program.add(octets, name, None)
    program.flush()
    print(f"{len(rows)} objects at the bounds")


def is_oid(content):
    """Whether the octets are subidentifiers, at least one: X.690 section 8.19.2, in the way of its words."""
    while content:
        end = next((at for at, octet in enumerate(content) if octet < 128), None)
        if end is None or content[0] == 0x80:
            return False
        if end + 1 == len(content):
            return True
        content = content[end + 1:]
    return False


class Reader:
    """The elements of an enclosing one."""

    def __init__(self, at, rest):
        self.at, self.rest = at, rest

    def fault(self, number, at=None):
        raise Refused(number, self.at if at is None else at)

    def begins(self, tag):
        return self.rest[:1] == bytes([tag])

    def open(self, tag, missing=None, barred=None):
        """The content of the element of this tag, as a reader; where it begins is kept."""
        rest, self.start = self.rest, self.at
        if missing and not self.begins(tag):
            self.fault(missing)
        if barred and self.begins(barred[1]):
            self.fault(barred[0])
        told = rest[1] if len(rest) > 1 else 0
        count = told - 128 if 128 < told < 133 else 0
        if len(rest) < 2 + count:
            self.fault(1)
        length = int.from_bytes(rest[2:2 + count], "big") if count else told
        fewest = told < 128 or (count > 0 and length >= 128 and rest[2] > 0)
        if fewest and len(rest) < 2 + count + length:
            self.fault(1)
        if rest[0] != tag:
            self.fault(2)
        if not fewest:
            self.fault(3)
        inner = Reader(self.at + 2 + count, rest[2 + count:2 + count + length])
        inner.outer = self.at
        self.at, self.rest = self.at + 2 + count + length, rest[2 + count + length:]
        return inner

    def end(self, number=5):
        if self.rest:
            self.fault(number)

    def integer(self):
        inner = self.open(2)
        content = inner.rest
        if not content or len(content) > 1 and (content[0] == 0 and content[1] < 128 or content[0] == 255 and content[1] > 127):
            self.fault(4, inner.outer)
        return inner

    def identifier(self):
        inner = self.open(6)
        if not is_oid(inner.rest):
            self.fault(4, inner.outer)
        return inner

    def fixed(self, inner, number, *wanted):
        if inner.rest not in wanted:
            self.fault(number, inner.outer)


def algorithms(*names):
    return [oid(name) + more for name in names for more in (b"", NULL)]


def read_key(content):
    """The modulus of a subjectPublicKey, or None."""
    try:
        if content[:1] != b"\0":
            return None
        whole = Reader(0, content[1:])
        members = whole.open(0x30)
        modulus, exponent = members.integer().rest, members.open(2).rest
        members.end()
        whole.end()
        return modulus[1:] if modulus[0] == 0 and exponent == b"\1\0\1" else None
    except Refused:
        return None


def read_certificate(members):
    """The modulus and the identifier of the key."""
    certificate = members.open(0x30)
    tbs = certificate.open(0x30)
    tbs.fixed(tbs.open(0xA0, missing=12), 12, b"\2\1\2")
    tbs.integer()
    for _ in range(4):
        tbs.open(0x30)
    info = tbs.open(0x30)
    info.fixed(info.open(0x30), 13, oid(RSA) + NULL)
    bits = info.open(3)
    modulus = read_key(bits.rest)
    if modulus is None:
        bits.fault(14, bits.outer)
    info.end()
    wrapped = tbs.open(0xA3, missing=15)
    extensions, identifier = wrapped.open(0x30), None
    while extensions.rest:
        one = extensions.open(0x30)
        name = one.identifier()
        if name.rest == KEY_IDENTIFIER:
            if identifier is not None:
                name.fault(16, name.outer)
            value = one.open(4)
            identifier = value.open(4).rest
            value.end()
            one.end()
    if identifier is None:
        extensions.fault(17, extensions.outer)
    wrapped.end()
    tbs.end()
    certificate.open(0x30)
    certificate.open(3)
    certificate.end()
    return modulus, identifier


def read_attributes(whole):
    values = {}
    while whole.rest:
        one = whole.open(0x30)
        name = one.open(6)
        if name.rest not in (CONTENT_TYPE, MESSAGE_DIGEST, SIGNING_TIME, BINARY_TIME):
            name.fault(23, name.outer)
        if name.rest in values:
            name.fault(24, name.outer)
        members = one.open(0x31)
        if not members.rest:
            members.fault(25, members.outer)
        if name.rest == SIGNING_TIME:
            value = members.open(23) if members.begins(23) else members.open(24, missing=26)
        elif name.rest == BINARY_TIME:
            value = members.integer()
        else:
            value = members.identifier() if name.rest == CONTENT_TYPE else members.open(4)
        members.end(25)
        one.end()
        values[name.rest] = value.rest
    for name, number in ((CONTENT_TYPE, 27), (MESSAGE_DIGEST, 28)):
        if name not in values:
            whole.fault(number, whole.outer)
    return values[CONTENT_TYPE], values[MESSAGE_DIGEST]


def read_signer(members):
    signer = members.open(0x30)
    signer.fixed(signer.open(2), 20, b"\3")
    sid = signer.open(0x80, missing=21).rest
    signer.fixed(signer.open(0x30), 9, *algorithms(SHA_256))
    whole = signer.open(0xA0, missing=22)
    octets = whole.rest
    said = read_attributes(whole)
    signer.fixed(signer.open(0x30), 29, *algorithms(RSA, SHA_256_RSA))
    signature = signer.open(4).rest
    signer.end(30 if signer.begins(0xA1) else 5)
    return sid, octets, said, signature


def one_member(members, number, read):
    if not members.rest:
        members.fault(number, members.outer)
    value = read(members)
    members.end(number)
    return value


@functools.lru_cache(1000)
def is_signature(modulus, message, signature):
    n, s, size = int.from_bytes(modulus, "big"), int.from_bytes(signature, "big"), len(modulus)
    info = bytes.fromhex("3031300d060960864801650304020105000420") + hashlib.sha256(message).digest()
    padded = b"\0\1" + b"\xff" * (size - len(info) - 3) + b"\0" + info
    return len(signature) == size and s < n and pow(s, 65537, n) == int.from_bytes(padded, "big")


def judge(octets, is_strict):
    """The number and the offset of the first fault, or None. If it is not strict, BER is read."""
    try:
        whole = Reader(0, octets if is_strict else to_der(octets))
        info = whole.open(0x30)
        info.fixed(info.open(6), 6, SIGNED_DATA)
        wrapped = info.open(0xA0)
        data = wrapped.open(0x30)
        data.fixed(data.open(2), 7, b"\3")
        one_member(data.open(0x31), 8, lambda members: members.fixed(members.open(0x30), 9, *algorithms(SHA_256)))
        encapsulated = data.open(0x30)
        content_type = encapsulated.identifier().rest
        explicit = encapsulated.open(0xA0, missing=10)
        content = explicit.open(4).rest
        explicit.end()
        encapsulated.end()
        modulus, identifier = one_member(data.open(0xA0, missing=11), 11, read_certificate)
        sid, attributes, said, signature = one_member(data.open(0x31, barred=(18, 0xA1)), 19, read_signer)
        data.end()
        wrapped.end()
        info.end()
        whole.end()
        for number, holds in (
            (31, sid == identifier),
            (32, said[0] == content_type),
            (33, said[1] == hashlib.sha256(content).digest()),
            (34, 256 <= len(modulus) <= 512 and modulus[0] > 127 and modulus[-1] % 2 == 1),
            (35, is_signature(modulus, element(0x31, attributes), signature)),
        ):
            if not holds:
                raise Refused(number, 0)
    except Refused as fault:
        return fault.args
    return None


def is_rewritten(octets):
    """Whether other octets than those of the file are read as DER, so that offsets are of those."""
    try:
        return to_der(octets) != octets
    except Refused:
        return False


class Program:
    """Asks the program and openssl about objects."""

    def __init__(self, program, openssl):
        self.program, self.openssl = program, openssl
        self.folder = tempfile.TemporaryDirectory()
        self.waiting, self.faults = [], {}

    def add(self, octets, what, certificate):
        """An object to be judged. If it is accepted and has this certificate, openssl is asked too: it also reads what is passed over. If
        none is given, it is not."""
        self.waiting.append((octets, what, certificate))
        if len(self.waiting) == 400:
            self.flush()

    def flush(self):
        names = []
        for at, (octets, _, _) in enumerate(self.waiting):
            names.append(f"{self.folder.name}/{at}")
            with open(names[-1], "wb") as out:
                out.write(octets)
        plain, strict = self.answers(names), self.answers(["--strict", *names])
        for (octets, what, certificate), name, *lines in zip(self.waiting, names, plain, strict):
            expected = judge(octets, False)
            number = expected[0] if expected else 0
            self.faults[number] = self.faults.get(number, 0) + 1
            right = self.says(lines[0], expected, is_rewritten(octets)) and self.says(lines[1], judge(octets, True), False)
            if self.openssl > 0 and not expected and certificate and certificate in octets:
                self.openssl -= 1
                right = right and self.verified(name)
            if not right:
                with open("object", "wb") as out:
                    out.write(octets)
                raise SystemExit(f"{what}: {lines!r}, expected {expected}: see the file `object`")
        self.waiting = []

    def answers(self, words):
        """What the program says of each file."""
        done = subprocess.run([self.program, *words], capture_output=True, text=True, timeout=600)
        told = done.stdout.split("file ")[1:]
        if len(told) != len(self.waiting):
            raise SystemExit(f"{len(told)} answers to {len(self.waiting)} files, status {done.returncode}: {done.stderr}")
        return told

    @staticmethod
    def says(text, expected, other):
        """Whether this is what is said of an object with this fault, or with none, if other octets than those of the file were read."""
        lines = text.split("\n")[1:]
        if expected:
            return lines[0].startswith(f"refused {expected[0]} at {expected[1]}{' of its DER' if other else ''}: ")
        if other:
            return lines[0].startswith("not DER") and lines[1].startswith("type ")
        return lines[0].startswith("type ")

    @staticmethod
    def verified(name):
        done = subprocess.run(["openssl", "cms", "-verify", "-noverify", "-inform", "DER", "-in", name, "-out", "/dev/null"], capture_output=True, timeout=60)
        return done.returncode == 0


def in_ber(rng, octets):
    """The object in BER, or as it is if its elements are not in DER."""
    try:
        return Forms(rng, True).elements(octets)
    except Refused:
        return octets


def changed(rng, octets):
    """The octets with some that are others."""
    octets = bytearray(octets)
    for _ in range(rng.choice([1, 1, 1, 2, 5])):
        octets[rng.randrange(min(len(octets), rng.choice([80, 400, len(octets)])))] = rng.randrange(256)
    return bytes(octets)


def replace_each_octet(program, rng, key):
    """Replaces each octet of three objects by each other value."""
    for number, kind in enumerate((b"\x18", b"\x1a", None), 1):
        it = Object(rng, key)
        it.content = b"content"
        it.content_type = PKCS_9 + b"\x10\1" + (kind or b"\x18")
        it.attributes = [it.attribute(MESSAGE_DIGEST, element(4, hashlib.sha256(it.content).digest())) if MESSAGE_DIGEST in a else a for a in it.attributes]
        it.attributes = [it.attribute(CONTENT_TYPE, oid(it.content_type)) if CONTENT_TYPE in a else a for a in it.attributes]
        whole = it.octets() if kind else Forms(rng, True).elements(it.octets())
        for at in range(len(whole)):
            if at % 100 == 0:
                print(f"object {number} of 3: octet {at} of {len(whole)}", flush=True)
            for value in set(range(256)) - {whole[at]}:
                program.add(whole[:at] + bytes([value]) + whole[at + 1:], f"octet {at} is {value}", it.certificate())


def main():
    words = argparse.ArgumentParser()
    words.add_argument("program")
    words.add_argument("--seed", type=int, default=random.randrange(2**32))
    words.add_argument("--count", type=int, default=500)
    words.add_argument("--openssl", type=int, default=50)
    words.add_argument("--bytes", action="store_true")
    words = words.parse_args()
    rng = random.Random(words.seed)
    print(f"seed {words.seed}", flush=True)
    keys = [Key(bits) for bits in (2048, 2048, 2048, 3072, 4096)]
    program = Program(os.path.abspath(words.program), words.openssl)
    for at in range(words.count):
        it = Object(rng, rng.choice(keys))
        octets = it.octets()
        if at % 2:
            are_few = at % 4 == 1
            program.add(Forms(rng, are_few).elements(octets), "a good object in BER", it.certificate() if are_few else None)
        else:
            program.add(octets, "a good object", it.certificate())
    program.flush()
    good = dict(program.faults)
    if set(good) != {0}:
        raise SystemExit(f"objects that were made well are none: {good}")
    program.openssl = words.openssl
    pin(program, keys[0])
    accepted = program.faults[0]
    ways = spoil(Object(rng, keys[0]), None)
    for at in range(words.count):
        it = Object(rng, rng.choice(keys[:3]))
        form = (lambda octets: in_ber(rng, octets)) if rng.randrange(2) else bytes
        if at % 2:
            what = ways[at // 2 % len(ways)]
            spoiled = spoil(it, what)
            behind, spoiled.behind = spoiled.behind, b""
            program.add(form(spoiled.octets()) + behind, what, it.certificate())
        else:
            it.content = it.content[:300]
            program.add(changed(rng, form(it.octets())), "octets changed", it.certificate())
    if words.bytes:
        replace_each_octet(program, rng, keys[0])
    program.flush()
    print(f"{good[0]} objects accepted; of the others by fault (0: accepted):")
    print(", ".join(f"{number}: {count - (accepted if number == 0 else 0)}" for number, count in sorted(program.faults.items())))


if __name__ == "__main__":
    main()
