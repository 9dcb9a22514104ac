#!/usr/bin/env python3
"""A small signed repository, for validators to read: one trust anchor, its CRL, its manifest, and ROAs (RFC 6487, 6488, 9286, 9582).

usage: tests/lib/signed.py FOLDER. It writes FOLDER/test.tal and FOLDER/repository/rpki.example.net/repo/, with the samples' ROAs. Keys are made
anew at each run, by openssl, and all is valid from a day ago to the year 2100, so that what validators write does not expire."""
import datetime
import hashlib
import ipaddress
import os
import subprocess
import sys

from der import element, integer

HOST = "rsync://rpki.example.net/repo"
BEGIN = datetime.datetime.now(datetime.timezone.utc) - datetime.timedelta(days=1)
END = datetime.datetime(2100, 1, 1, tzinfo=datetime.timezone.utc)

ROAS = {
    "a.roa": (64496, [("192.0.2.0/24", 24)]),
    "b.roa": (64497, [("198.51.100.0/24", 26), ("2001:db8::/32", 48)]),
}


def sequence(*parts):
    return element(0x30, b"".join(parts))


def oid(text):
    first, second, *rest = (int(it) for it in text.split("."))
    octets = bytes([40 * first + second])
    for number in rest:
        part = [number & 127]
        while number := number >> 7:
            part.insert(0, 128 | number & 127)
        octets += bytes(part)
    return element(6, octets)


def bits(octets, unused=0):
    return element(3, bytes([unused]) + octets)


def general_time(moment):
    return element(0x18, moment.strftime("%Y%m%d%H%M%SZ").encode())


def time(moment):
    """UTCTime up to 2049, and else GeneralizedTime (RFC 5280 section 4.1.2.5)."""
    return element(0x17, moment.strftime("%y%m%d%H%M%SZ").encode()) if moment.year < 2050 else general_time(moment)


RSA = sequence(oid("1.2.840.113549.1.1.1"), element(5, b""))
SHA256_RSA = sequence(oid("1.2.840.113549.1.1.11"), element(5, b""))
SHA256 = sequence(oid("2.16.840.1.101.3.4.2.1"))


class Key:
    """A key of 2,048 bits, in a file (RFC 7935 section 3)."""

    def __init__(self, folder, name):
        self.path = os.path.join(folder, f"{name}.key")
        subprocess.run(["openssl", "genrsa", "-out", self.path, "2048"], check=True, capture_output=True)
        self.public = subprocess.run(["openssl", "rsa", "-in", self.path, "-pubout", "-outform", "DER"], check=True, capture_output=True).stdout
        content = subprocess.run(["openssl", "rsa", "-in", self.path, "-RSAPublicKey_out", "-outform", "DER"], check=True, capture_output=True).stdout
        self.identifier = hashlib.sha1(content).digest()

    def sign(self, octets):
        return subprocess.run(["openssl", "dgst", "-sha256", "-sign", self.path], input=octets, check=True, capture_output=True).stdout


def name_of(key):
    """A name of the key's own (RFC 6487 section 4.5)."""
    attribute = sequence(oid("2.5.4.3"), element(0x13, key.identifier.hex().encode()))
    return sequence(element(0x31, attribute))


def extension(number, content, is_critical=False):
    return sequence(oid(number), element(1, b"\xff") if is_critical else b"", element(4, content))


def access(*pairs):
    return sequence(*(sequence(oid(f"1.3.6.1.5.5.7.48.{kind}"), element(0x86, uri.encode())) for kind, uri in pairs))


def addresses(families):
    """IPAddrBlocks (RFC 3779 section 2.2.3) of families: None inherits."""
    return sequence(*(sequence(element(4, bytes([0, family])), element(5, b"") if them is None else sequence(*map(prefix_bits, them))) for family, them in families.items()))


def prefix_bits(text):
    network = ipaddress.ip_network(text)
    return bits(network.network_address.packed[: (network.prefixlen + 7) // 8], -network.prefixlen % 8)


def as_numbers(first=None, last=None):
    """ASIdentifiers (RFC 3779 section 3.2.3): without numbers they are inherited."""
    them = element(5, b"") if first is None else sequence(sequence(integer(first), integer(last)))
    return sequence(element(0xA0, them))


def certificate(serial, issuer, subject, is_ca, extensions):
    """A certificate (RFC 6487 section 4), signed by the issuer."""
    usage = bits(b"\x06", 1) if is_ca else bits(b"\x80", 7)
    common = [extension("2.5.29.19", sequence(element(1, b"\xff")), True)] if is_ca else []
    common += [extension("2.5.29.14", element(4, subject.identifier)), extension("2.5.29.15", usage, True)]
    common += [extension("2.5.29.35", sequence(element(0x80, issuer.identifier)))]
    common += [extension("2.5.29.32", sequence(sequence(oid("1.3.6.1.5.5.7.14.2"))), True)]
    body = sequence(
        element(0xA0, integer(2)), integer(serial), SHA256_RSA, name_of(issuer), sequence(time(BEGIN), time(END)), name_of(subject),
        subject.public, element(0xA3, sequence(*common, *extensions)),
    )
    return sequence(body, SHA256_RSA, bits(issuer.sign(body)))


def revocations(issuer):
    """A CRL that revokes nothing (RFC 6487 section 5)."""
    extensions = sequence(extension("2.5.29.35", sequence(element(0x80, issuer.identifier))), extension("2.5.29.20", integer(1)))
    body = sequence(integer(1), SHA256_RSA, name_of(issuer), time(BEGIN), time(END), element(0xA0, extensions))
    return sequence(body, SHA256_RSA, bits(issuer.sign(body)))


def signed_object(kind, content, key, its_certificate):
    """A signed object (RFC 6488 section 2)."""
    attribute = lambda number, value: sequence(oid(number), element(0x31, value))
    attributes = sorted([
        attribute("1.2.840.113549.1.9.3", oid(kind)),
        attribute("1.2.840.113549.1.9.4", element(4, hashlib.sha256(content).digest())),
        attribute("1.2.840.113549.1.9.5", time(BEGIN)),
    ])
    signature = key.sign(element(0x31, b"".join(attributes)))
    signer = sequence(integer(3), element(0x80, key.identifier), SHA256, element(0xA0, b"".join(attributes)), RSA, element(4, signature))
    signed = sequence(
        integer(3), element(0x31, SHA256), sequence(oid(kind), element(0xA0, element(4, content))), element(0xA0, its_certificate), element(0x31, signer),
    )
    return sequence(oid("1.2.840.113549.1.7.2"), element(0xA0, signed))


class Authority:
    """The trust anchor, which issues all objects itself."""

    def __init__(self, folder):
        self.folder, self.keys, self.serial = folder, f"{folder}/keys", 1
        self.place = f"{folder}/repository/rpki.example.net/repo"
        os.makedirs(self.keys)
        os.makedirs(self.place)
        self.key = Key(self.keys, "ta")
        self.files = {}

    def put(self, name, content):
        self.files[name] = content
        with open(f"{self.place}/{name}", "wb") as it:
            it.write(content)

    def anchor(self):
        """The certificate of the trust anchor, and its locator (RFC 8630)."""
        where = access((5, f"{HOST}/"), (10, f"{HOST}/ta.mft"))
        everything = addresses({1: ["0.0.0.0/0"], 2: ["::/0"]})
        made = certificate(1, self.key, self.key, True, [
            extension("1.3.6.1.5.5.7.1.11", where), extension("1.3.6.1.5.5.7.1.7", everything, True), extension("1.3.6.1.5.5.7.1.8", as_numbers(0, 2**32 - 1), True),
        ])
        with open(f"{self.place}/ta.cer", "wb") as it:
            it.write(made)
        import base64
        with open(f"{self.folder}/test.tal", "w") as it:
            it.write(f"{HOST}/ta.cer\n\n{base64.encodebytes(self.key.public).decode()}")

    def issue(self, name, kind, content, resources):
        """A signed object with a certificate of its own."""
        self.serial += 1
        key = Key(self.keys, name)
        made = certificate(self.serial, self.key, key, False, [
            extension("2.5.29.31", sequence(sequence(element(0xA0, element(0xA0, element(0x86, f"{HOST}/ta.crl".encode())))))),
            extension("1.3.6.1.5.5.7.1.1", access((2, f"{HOST}/ta.cer"))),
            extension("1.3.6.1.5.5.7.1.11", access((11, f"{HOST}/{name}"))),
            *resources,
        ])
        self.put(name, signed_object(kind, content, key, made))

    def roa(self, name, asn, prefixes):
        """A ROA (RFC 9582 section 4)."""
        families = {}
        for text, most in prefixes:
            network = ipaddress.ip_network(text)
            entry = prefix_bits(text) + (b"" if most == network.prefixlen else integer(most))
            families.setdefault(1 if network.version == 4 else 2, []).append((text, sequence(entry)))
        blocks = sequence(*(sequence(element(4, bytes([0, family])), sequence(*(it for _, it in them))) for family, them in families.items()))
        held = addresses({family: [text for text, _ in them] for family, them in families.items()})
        self.issue(name, "1.2.840.113549.1.9.16.1.24", sequence(integer(asn), blocks), [extension("1.3.6.1.5.5.7.1.7", held, True)])

    def manifest(self):
        """The manifest of all files (RFC 9286 section 4)."""
        listed = sequence(*(sequence(element(0x16, name.encode()), bits(hashlib.sha256(content).digest())) for name, content in sorted(self.files.items())))
        content = sequence(integer(1), general_time(BEGIN), general_time(END), oid("2.16.840.1.101.3.4.2.1"), listed)
        inherited = [extension("1.3.6.1.5.5.7.1.7", addresses({1: None, 2: None}), True), extension("1.3.6.1.5.5.7.1.8", as_numbers(), True)]
        self.issue("ta.mft", "1.2.840.113549.1.9.16.1.26", content, inherited)


def main():
    authority = Authority(sys.argv[1])
    authority.anchor()
    for name, (asn, prefixes) in ROAS.items():
        authority.roa(name, asn, prefixes)
    authority.put("ta.crl", revocations(authority.key))
    authority.manifest()


if __name__ == "__main__":
    main()
