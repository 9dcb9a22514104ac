"""What FORT says of a certificate or a revocation list: it reads no single file, so each is put into a small repository, and is accepted if the
one ROA of that repository is.

A trust anchor publishes its list, a manifest, and a ROA or the certificate of an authority. The authority publishes a list, a manifest and a
ROA. One of these certificates and lists is the one that is asked about: the certificate of an end entity is that of the anchor's ROA."""
import base64
import hashlib
import os
import shutil
import subprocess

from certificate_rows import AIA, AKI, ASN, IP, ISSUED, MANIFEST, NET, POINTS, SIA, URI, common, place, points
from der import element, integer
from repository import NULL, bits, extension, general_time, moment, oid, sequence, tagged

ANCHOR = "rsync://h.example/ta.cer"
INHERITED = {IP: sequence(sequence(element(4, b"\0\1"), NULL)), ASN: None}

# A ROA is of a prefix that its certificate has, and some rows have others than 192.0.2.0/24.
TEN_0, TEN_1 = bits(0, b"\x0a\x00\x00"), bits(0, b"\x0a\x01\x00")
OTHERS = {
    "entity: adjacent prefixes": TEN_0,
    "entity: overlapping prefixes": TEN_0,
    "entity: descending prefixes": TEN_0,
    "entity: a range that is a prefix": TEN_0,
    "entity: zeros of min": TEN_1,
    "entity: ones of max": TEN_1,
}

# Rows that are not asked: their certificates have no prefix that a ROA could have, or have expired.
NONE = {f"entity: {it}" for it in ("no resources", "AS numbers alone", "inherit", "an address of 33 bits", "IPv6 before IPv4", "no prefixes", "equal moments", "notBefore after notAfter")}


class Point:
    """What an authority publishes: its URI, its key, its name, the URI of its certificate, and its list."""

    def __init__(self, bench, uri, key, subject, certificate, revoked):
        self.bench, self.uri, self.key, self.certificate = bench, uri, key, certificate
        self.subject, self.crl = subject, revoked
        self.serial = 100

    def entity(self, file, extensions):
        """The certificate of an end entity."""
        self.serial += 1
        found = {
            AKI: sequence(element(128, self.key.identifier)), POINTS: points(f"{self.uri}{self.crl}"), AIA: sequence(place(2, self.certificate)),
            SIA: sequence(place(11, f"{self.uri}{file}")), **extensions}
        return self.bench.made("entity", found, issuer=common(self.subject), subject=common(f"e{self.serial}"), serial=integer(self.serial), signer=self.key)

    def manifest(self, file, files):
        """A manifest of these files."""
        listed = [sequence(element(22, it.encode()), bits(0, hashlib.sha256(content).digest())) for it, content in sorted(files.items())]
        sha_256 = oid("2.16.840.1.101.3.4.2.1")
        payload = sequence(integer(1), general_time(moment(-1)), general_time(moment(1)), sha_256, sequence(*listed))
        return self.bench.signed_object(self.entity(file, INHERITED), MANIFEST, payload)


def put(uri, content):
    """Puts a file where FORT keeps what it fetched."""
    path = uri.replace("rsync://", "fort/")
    os.makedirs(os.path.dirname(path), exist_ok=True)
    with open(path, "wb") as it:
        it.write(content)


def publish(point, manifest, files):
    for file, content in {**files, manifest: point.manifest(manifest, files)}.items():
        put(f"{point.uri}{file}", content)


def child_list(bench):
    """The list of the authority, which revokes nothing."""
    extensions = [extension(AKI, sequence(element(128, bench.child.identifier))), extension("2.5.29.20", integer(7))]
    return bench.listed(issuer=common("authority"), extensions=extensions, signer=bench.child)


def says(bench, row):
    """Whether FORT accepts a row, or None if it cannot be asked."""
    if row.name in NONE:
        return None
    shutil.rmtree("fort", ignore_errors=True)
    anchor = Point(bench, ISSUED, bench.key, "anchor", ANCHOR, "ta.crl")
    files = {"ta.crl": row.der if row.kind == "crl" else bench.listed()}
    if row.kind == "authority":
        files["child.cer"] = row.der
        for folder, manifest in (("authority/", "x.mft"), ("s/", "s.mft")):
            child = Point(bench, f"{URI}{folder}", bench.child, "authority", f"{ISSUED}child.cer", "c.crl")
            publish(child, manifest, {"c.crl": child_list(bench), "a.roa": bench.object(child.entity("a.roa", {}))})
    else:
        files["a.roa"] = bench.object(row.der, OTHERS.get(row.name, NET)) if row.kind == "entity" else bench.object(anchor.entity("a.roa", {}))
    publish(anchor, "x.mft", files)
    put(ANCHOR, row.der if row.kind == "anchor" else bench.anchor)
    with open("fort.tal", "w", encoding="ascii") as it:
        it.write(f"{ANCHOR}\n\n{base64.encodebytes(bench.key.info).decode()}")
    with open("fort.csv", "w", encoding="ascii"):
        pass
    words = ["fort", "--mode=standalone", "--tal=fort.tal", "--local-repository=fort", "--work-offline", "--output.roa=fort.csv", "--output.format=csv"]
    subprocess.run(words, capture_output=True, timeout=20)
    with open("fort.csv", encoding="ascii") as it:
        return "AS64496," in it.read()
