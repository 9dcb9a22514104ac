"""Certificates and revocation lists, each with one thing that is another (RFC 6487, RFC 5280, RFC 3779), and what is to be said of them.

A row is made of the parts of a certificate that is right. `ok` is wanted of those that stay right, otherwise the number of the fault, or `ip N`
or `as N` for the fault N of a value of ipAddrBlocks or autonomousSysIds."""
import hashlib
import re
import subprocess

from der import element, integer
from repository import NULL, RSA, SHA_256, SHA_256_WITH_RSA, Key, access, bits, extension, oid, sequence, tagged

URI = "rsync://h.example/r/"
# where the anchor publishes
ISSUED = f"{URI}anchor/"
SHA_1_WITH_RSA = sequence(oid("1.2.840.113549.1.1.5"), NULL)
NO_PARAMETERS = sequence(oid("1.2.840.113549.1.1.11"))
SKI, AKI, USAGE, BASIC, POINTS = "2.5.29.14", "2.5.29.35", "2.5.29.15", "2.5.29.19", "2.5.29.31"
AIA, SIA, POLICIES, IP, ASN = "1.3.6.1.5.5.7.1.1", "1.3.6.1.5.5.7.1.11", "2.5.29.32", "1.3.6.1.5.5.7.1.7", "1.3.6.1.5.5.7.1.8"
CRITICAL = {USAGE, BASIC, POLICIES, IP, ASN}
POLICY = oid("1.3.6.1.5.5.7.14.2")


def text(tag, octets):
    return element(tag, octets if isinstance(octets, bytes) else octets.encode())


def attribute(number, octets, tag=19):
    return sequence(oid(f"2.5.4.{number}"), text(tag, octets))


def name(*rdns):
    """A name of these RDNs, each a list of attributes."""
    return sequence(*(element(49, b"".join(it)) for it in rdns))


def common(octets, tag=19):
    return name([attribute(3, octets, tag)])


def uri(octets):
    return text(134, octets)


def points(*names, reasons=b"", more=()):
    """cRLDistributionPoints."""
    return sequence(sequence(tagged(0, tagged(0, *map(uri, names))), reasons), *more)


def place(method, octets):
    return access(method, octets)


def validity(begin, end):
    return sequence(begin, end)


def utc(octets):
    return text(23, octets)


def general(octets):
    return text(24, octets)


def prefixes(*contents):
    return sequence(sequence(element(4, b"\0\1"), sequence(*contents)))


def as_numbers(*contents):
    return sequence(tagged(0, sequence(*contents)))


NET = bits(0, b"\xc0\x00\x02")
ROA, MANIFEST = "1.2.840.113549.1.9.16.1.24", "1.2.840.113549.1.9.16.1.26"


class Row:
    """What is asked: `kind` is the role of a certificate, or `crl`."""

    def __init__(self, label, kind, der, wanted):
        self.name, self.kind, self.der, self.wanted = label, kind, der, wanted


def is_wanted(wanted, said):
    """Whether what was said is what is wanted."""
    if wanted == "ok":
        return re.match(r"(certificate|crl)\b(?!.*fault)", said) is not None
    part, _, number = str(wanted).rpartition(" ")
    return re.search(rf"(?:^|{part} )fault {number} \d+" if part else rf"^fault {number} \d+", said) is not None


class Bench:
    """The keys, the right certificates, and the rows."""

    def __init__(self):
        self.key, self.child, self.once = Key("anchor"), Key("child"), Key("once")
        self.rows = []
        self.anchor = self.made("anchor")
        self.authority = self.made("authority")
        self.entity = self.made("entity")
        self.certificate_rows()
        self.extension_rows()
        self.value_rows()
        self.place_rows()
        self.resource_rows()
        self.crl_rows()
        self.pairs = [
            (self.anchor, self.anchor, "no"),
            (self.made("anchor", {AKI: sequence(element(128, self.key.identifier))}), self.anchor, "yes"),
            (self.authority, self.anchor, "yes"),
            (self.entity, self.anchor, "yes"),
            (self.anchor, self.authority, "no"),
            (self.entity, self.authority, "no"),
            (self.made("entity", issuer=common("Anchor")), self.anchor, "no"),
            (self.made("entity", issuer=common("anchor", 12)), self.anchor, "yes"),
            (self.made("entity", extensions={AKI: sequence(element(128, bytes(20)))}), self.anchor, "no"),
            (self.made("entity", signer=self.child), self.anchor, "no"),
        ]

    # ---- the parts

    def parts(self, role):
        """The parts of a certificate that is right."""
        key = {"anchor": self.key, "authority": self.child, "entity": self.once}[role]
        return {
            "version": tagged(0, integer(2)),
            "serial": integer(5),
            "inner": SHA_256_WITH_RSA,
            "issuer": common("anchor"),
            "validity": validity(utc("250101000000Z"), utc("490101000000Z")),
            "subject": common(role),
            "info": key.info,
            "identifiers": b"",
            "extensions": self.extensions(role, key),
            "outer": SHA_256_WITH_RSA,
            "unused": 0,
            "signer": self.key,
        }

    def extensions(self, role, key):
        """The values of the extensions of a certificate that is right, in their order."""
        found = {} if role == "entity" else {BASIC: sequence(element(1, b"\xff"))}
        found[SKI] = element(4, key.identifier)
        if role != "anchor":
            found[AKI] = sequence(element(128, self.key.identifier))
        found[USAGE] = bits(7, b"\x80") if role == "entity" else bits(1, b"\x06")
        if role != "anchor":
            found[POINTS] = points(f"{ISSUED}ta.crl")
            found[AIA] = sequence(place(2, "rsync://h.example/ta.cer"))
        found[SIA] = sequence(place(11, f"{ISSUED}a.roa")) if role == "entity" else sequence(place(5, f"{URI}{role}/"), place(10, f"{URI}{role}/x.mft"))
        found[POLICIES] = sequence(sequence(POLICY))
        found[IP] = prefixes(bits(0, b"")) if role == "anchor" else prefixes(NET)
        if role == "anchor":
            found[IP] = sequence(sequence(element(4, b"\0\1"), sequence(bits(0, b""))), sequence(element(4, b"\0\2"), sequence(bits(0, b""))))
            found[ASN] = as_numbers(sequence(integer(0), integer(2**32 - 1)))
        return found

    def made(self, role, extensions=None, criticality=None, raw=None, **changes):
        """A certificate with these parts in place of others. An extension that is None is left out; `criticality` has the octets between the
        identifier and the value; `raw` comes behind all."""
        parts = {**self.parts(role), **changes}
        found = {**parts["extensions"], **(extensions or {})}
        boolean = {it: element(1, b"\xff") if it in CRITICAL else b"" for it in found}
        boolean.update(criticality or {})
        listed = [sequence(oid(it), boolean.get(it, b""), element(4, value)) for it, value in found.items() if value is not None]
        listed = tagged(3, sequence(*listed, *(raw or []))) if found or raw else b""
        order = ("version", "serial", "inner", "issuer", "validity", "subject", "info", "identifiers")
        body = sequence(*(parts[it] for it in order), b"" if parts.get("bare") else listed)
        return sequence(body, parts["outer"], bits(parts["unused"], parts["signer"].sign(body) if not parts["unused"] else bytes(256)))

    def object(self, certificate, net=NET):
        """A ROA of 192.0.2.0/24, or another prefix, with this certificate."""
        payload = sequence(integer(64496), sequence(sequence(element(4, b"\0\1"), sequence(sequence(net)))))
        return self.signed_object(certificate, ROA, payload)

    def signed_object(self, certificate, content_type, payload):
        """A signed object with this certificate of an end entity."""
        digest = hashlib.sha256(payload).digest()
        attributes = sorted([sequence(oid("1.2.840.113549.1.9.3"), element(49, oid(content_type))), sequence(oid("1.2.840.113549.1.9.4"), element(49, element(4, digest)))])
        signature = self.once.sign(element(49, b"".join(attributes)))
        signer = sequence(integer(3), element(128, self.once.identifier), SHA_256, tagged(0, *attributes), RSA, element(4, signature))
        content = sequence(oid(content_type), tagged(0, element(4, payload)))
        data = sequence(integer(3), element(49, SHA_256), content, tagged(0, certificate), element(49, signer))
        return sequence(oid("1.2.840.113549.1.7.2"), tagged(0, data))

    def row(self, label, role, wanted, *extensions, **changes):
        self.rows.append(Row(f"{role}: {label}", role, self.made(role, *extensions, **changes), wanted))

    # ---- the rows

    def certificate_rows(self):
        for role in ("anchor", "authority", "entity"):
            self.row("as it should be", role, "ok")
        self.row("no version", "entity", 6, version=b"")
        self.row("version 2", "entity", 6, version=tagged(0, integer(1)))
        self.row("serial 0", "entity", "ok", serial=integer(0))
        self.row("serial 2^159 - 1", "entity", "ok", serial=integer(2**159 - 1))
        self.row("serial 2^159", "entity", 7, serial=integer(2**159))
        self.row("serial -1", "entity", 7, serial=element(2, b"\xff"))
        self.row("serial with a zero in front", "entity", 4, serial=element(2, b"\x00\x05"))
        self.row("SHA-1 inside and outside", "entity", 8, inner=SHA_1_WITH_RSA, outer=SHA_1_WITH_RSA)
        self.row("SHA-1 outside", "entity", 8, outer=SHA_1_WITH_RSA)
        self.row("no parameters", "entity", "ok", inner=NO_PARAMETERS, outer=NO_PARAMETERS)
        self.row("no parameters outside", "entity", 8, outer=NO_PARAMETERS)
        self.row("a name with a serialNumber in one RDN", "entity", "ok", subject=name([attribute(3, "e"), attribute(5, "17")]))
        self.row("a name of two RDNs", "entity", "ok", subject=name([attribute(3, "e")], [attribute(5, "17")]))
        self.row("a name of three RDNs", "entity", 5, subject=name([attribute(3, "e")], [attribute(5, "17")], [attribute(5, "18")]))
        self.row("two commonNames", "entity", 9, subject=name([attribute(3, "e")], [attribute(3, "f")]))
        self.row("no commonName", "entity", 9, subject=name([attribute(5, "17")]))
        self.row("an organization", "entity", 9, subject=name([attribute(3, "e")], [attribute(10, "o")]))
        self.row("an empty name", "entity", 1, subject=name())
        self.row("an empty commonName", "entity", 10, subject=common(""))
        self.row("64 characters", "entity", "ok", subject=common("x" * 64))
        self.row("65 characters", "entity", 10, subject=common("x" * 65))
        self.row("a UTF8String of 64 characters, 128 octets", "entity", "ok", subject=common("é" * 64, 12))
        self.row("a UTF8String that is none", "entity", 10, subject=common(b"\xc3\x28", 12))
        self.row("a PrintableString with an octet of 128", "entity", 10, subject=common(b"\x80"))
        self.row("an IA5String", "entity", 2, subject=common("e", 22))
        times = [
            ("GeneralizedTime", "ok", general("20250101000000Z"), general("20490101000000Z")),
            ("until 9999", "ok", utc("250101000000Z"), general("99991231235959Z")),
            ("from 1970", "ok", utc("700101000000Z"), utc("490101000000Z")),
            ("from 1969", 11, utc("691231235959Z"), utc("490101000000Z")),
            ("until 50 in two digits", 11, utc("250101000000Z"), utc("500101000000Z")),
            ("no seconds", 4, utc("2501010000Z"), utc("490101000000Z")),
            ("an offset", 4, utc("250101000000+0000"), utc("490101000000Z")),
            ("30 February", 4, utc("250230000000Z"), utc("490101000000Z")),
            ("equal moments", "ok", utc("250101000000Z"), utc("250101000000Z")),
            ("notBefore after notAfter", 12, utc("250101000001Z"), utc("250101000000Z")),
        ]
        for label, wanted, begin, end in times:
            self.row(label, "entity", wanted, validity=validity(begin, end))
        self.row("unique identifiers", "entity", 15, identifiers=bits(0, b"\1").replace(b"\x03", b"\x81", 1))
        self.row("no extensions", "entity", 15, bare=True)
        self.row("no parameters of the key", "entity", 13, info=self.once.info.replace(RSA, sequence(oid("1.2.840.113549.1.1.1"))))
        self.row("a key of P-256", "entity", 13, info=other_key("EC", "ec_paramgen_curve:P-256"))
        self.row("a key of 1,024 bits", "entity", 14, info=other_key("RSA", "rsa_keygen_bits:1024"))
        self.row("a key of 4,096 bits", "entity", 14, info=other_key("RSA", "rsa_keygen_bits:4096"))
        self.row("exponent 3", "entity", 14, info=other_key("RSA", "rsa_keygen_bits:2048", "rsa_keygen_pubexp:3"))
        self.row("unused bits in the signature", "entity", 19, unused=1)

    def extension_rows(self):
        own = "1.3.6.1.4.1.99999.1"
        self.row("an unknown extension", "entity", "ok", {own: NULL})
        self.row("an unknown extension twice", "entity", "ok", raw=[extension(own, NULL), extension(own, NULL)])
        self.row("an unknown extension, critical", "entity", 18, {own: NULL}, {own: element(1, b"\xff")})
        self.row("critical FALSE written out", "entity", 18, None, {SKI: element(1, b"\0")})
        self.row("a BOOLEAN of 01", "entity", 18, None, {USAGE: element(1, b"\1")})
        labels = {SKI: "subjectKeyIdentifier", AKI: "authorityKeyIdentifier", USAGE: "keyUsage", POINTS: "cRLDistributionPoints", AIA: "authorityInfoAccess", SIA: "subjectInfoAccess", POLICIES: "certificatePolicies", IP: "ipAddrBlocks"}
        right = self.parts("entity")["extensions"]
        for it, label in labels.items():
            is_critical = it in CRITICAL
            self.row(f"{label} {'not ' if is_critical else ''}critical", "entity", 18, None, {it: b"" if is_critical else element(1, b"\xff")})
            self.row(f"{label} twice", "entity", 17, raw=[extension(it, right[it], is_critical)])
        self.row("extKeyUsage", "entity", 16, {"2.5.29.37": sequence(oid("1.3.6.1.5.5.7.3.30"))})

    def value_rows(self):
        ca, none = sequence(element(1, b"\xff")), sequence()
        self.row("basicConstraints in an end entity", "entity", 20, {BASIC: ca})
        self.row("empty basicConstraints in an end entity", "entity", 20, {BASIC: none})
        for label, value in (("no basicConstraints", None), ("cA FALSE", sequence(element(1, b"\0"))), ("empty basicConstraints", none), ("pathLenConstraint", sequence(element(1, b"\xff"), integer(1)))):
            self.row(label, "authority", 20, {BASIC: value})
        for label, value in (("no subjectKeyIdentifier", None), ("another subjectKeyIdentifier", element(4, bytes(20))), ("subjectKeyIdentifier of 32 octets", element(4, hashlib.sha256(self.once.info[-270:]).digest()))):
            self.row(label, "entity", 21, {SKI: value})
        identifier = element(128, self.key.identifier)
        issuer = element(161, element(164, common("anchor")))
        for label, value in (("no authorityKeyIdentifier", None), ("a keyIdentifier of 19 octets", sequence(element(128, bytes(19)))), ("authorityCertIssuer too", sequence(identifier, issuer, element(130, b"\5")))):
            self.row(label, "entity", 22, {AKI: value})
        self.row("the own authorityKeyIdentifier", "anchor", "ok", {AKI: sequence(identifier)})
        self.row("another authorityKeyIdentifier", "anchor", 22, {AKI: sequence(element(128, bytes(20)))})
        self.row("no keyUsage", "entity", 23, {USAGE: None})
        self.row("nonRepudiation too", "entity", 23, {USAGE: bits(6, b"\xc0")})
        self.row("digitalSignature too", "authority", 23, {USAGE: bits(1, b"\x86")})
        self.row("keyCertSign alone", "authority", 23, {USAGE: bits(2, b"\x04")})
        self.row("zeros at the end of keyUsage", "entity", 23, {USAGE: bits(0, b"\x80")})

    def place_rows(self):
        good, web = f"{ISSUED}ta.crl", "https://h.example/ta.crl"
        self.row("no cRLDistributionPoints", "entity", 24, {POINTS: None})
        self.row("a CRL by https alone", "entity", 24, {POINTS: points(web)})
        self.row("a CRL by https and then by rsync", "entity", "ok", {POINTS: points(web, good)})
        self.row("two DistributionPoints", "entity", 24, {POINTS: points(good, more=[sequence(tagged(0, tagged(0, uri(web))))])})
        self.row("reasons", "entity", 24, {POINTS: points(good, reasons=element(129, b"\x01\x06"))})
        self.row("cRLIssuer", "entity", 24, {POINTS: points(good, reasons=element(162, element(164, common("anchor"))))})
        self.row("cRLDistributionPoints", "anchor", 24, {POINTS: points(good)})
        rsync, https = place(2, "rsync://h.example/ta.cer"), place(2, "https://h.example/ta.cer")
        self.row("no authorityInfoAccess", "entity", 25, {AIA: None})
        self.row("an issuer by https alone", "entity", 25, {AIA: sequence(https)})
        self.row("an issuer by https and by rsync", "entity", "ok", {AIA: sequence(https, rsync)})
        self.row("OCSP beside the issuer", "entity", "ok", {AIA: sequence(place(1, "http://h.example/"), rsync)})
        self.row("authorityInfoAccess", "anchor", 25, {AIA: sequence(rsync)})
        own, notify = place(11, f"{ISSUED}a.roa"), place(13, "https://h.example/n.xml")
        self.row("no subjectInfoAccess", "entity", 26, {SIA: None})
        self.row("an object by https", "entity", 26, {SIA: sequence(place(11, "https://h.example/a.roa"))})
        self.row("rpkiNotify beside the object", "entity", "ok", {SIA: sequence(own, notify)})
        self.row("another method beside the object", "entity", 26, {SIA: sequence(own, place(5, URI))})
        repository, manifest = place(5, f"{URI}s/"), place(10, f"{URI}s/s.mft")
        self.row("no manifest", "authority", 26, {SIA: sequence(repository)})
        self.row("no repository", "authority", 26, {SIA: sequence(manifest)})
        self.row("rpkiNotify", "authority", "ok", {SIA: sequence(repository, manifest, notify)})
        self.row("rpkiNotify twice", "authority", 26, {SIA: sequence(repository, manifest, notify, notify)})
        self.row("rpkiNotify by http", "authority", 26, {SIA: sequence(repository, manifest, place(13, "http://h.example/n.xml"))})
        self.row("another method", "authority", "ok", {SIA: sequence(repository, manifest, place(99, URI))})
        cps, notice = sequence(oid("1.3.6.1.5.5.7.2.1"), text(22, "https://h.example/cps")), sequence(oid("1.3.6.1.5.5.7.2.2"), sequence())
        policies = [
            ("no certificatePolicies", 27, None),
            ("any policy", 27, sequence(sequence(oid("2.5.29.32.0")))),
            ("two policies", 27, sequence(sequence(POLICY), sequence(POLICY))),
            ("a CPS", "ok", sequence(sequence(POLICY, sequence(cps)))),
            ("two CPSs", 27, sequence(sequence(POLICY, sequence(cps, cps)))),
            ("a user notice", 27, sequence(sequence(POLICY, sequence(notice)))),
            ("the policy of reduced resources", 28, sequence(sequence(oid("1.3.6.1.5.5.7.14.3")))),
        ]
        for label, wanted, value in policies:
            self.row(label, "entity", wanted, {POLICIES: value})

    def resource_rows(self):
        inherited = sequence(sequence(element(4, b"\0\1"), NULL), sequence(element(4, b"\0\2"), NULL))
        self.row("no resources", "entity", 29, {IP: None})
        self.row("AS numbers alone", "entity", "ok", {IP: None, ASN: as_numbers(integer(64496))})
        self.row("inherit", "entity", "ok", {IP: inherited, ASN: sequence(tagged(0, NULL))})
        adjacent = (bits(0, b"\x0a\x00"), bits(0, b"\x0a\x01"))
        values = [
            ("adjacent prefixes", 11, prefixes(*adjacent)),
            ("overlapping prefixes", 11, prefixes(bits(1, b"\x0a\x00"), bits(0, b"\x0a\x01"))),
            ("descending prefixes", 11, prefixes(bits(0, b"\x0a\x02"), bits(0, b"\x0a\x00"))),
            ("a range that is a prefix", 9, prefixes(sequence(bits(1, b"\x0a"), bits(1, b"\x0a\x00")))),
            ("zeros of min", 7, prefixes(sequence(bits(0, b"\x0a\x00"), bits(0, b"\x0a\x02")))),
            ("ones of max", 7, prefixes(sequence(bits(0, b"\x0a\x01"), bits(1, b"\x0a\x02")))),
            ("an address of 33 bits", 6, prefixes(bits(7, b"\x0a\0\0\0\x80"))),
            ("a SAFI", 12, sequence(sequence(element(4, b"\0\1\1"), sequence(NET)))),
            ("IPv6 before IPv4", 13, sequence(sequence(element(4, b"\0\2"), NULL), sequence(element(4, b"\0\1"), NULL))),
            ("no prefixes", 10, prefixes()),
        ]
        for label, number, value in values:
            self.row(label, "entity", f"ip {number}", {IP: value})
        ranges = [
            ("adjacent AS numbers", 11, as_numbers(integer(1), integer(2))),
            ("a range of one AS number", 9, as_numbers(sequence(integer(1), integer(1)))),
            ("rdi", 16, sequence(tagged(0, NULL), tagged(1, NULL))),
            ("AS number 2^32", 14, as_numbers(integer(2**32))),
        ]
        for label, number, value in ranges:
            self.row(label, "authority", f"as {number}", {ASN: value})

    # ---- lists

    def listed(self, **changes):
        """A revocation list with these parts in place of others."""
        identifier, number = extension(AKI, sequence(element(128, self.key.identifier))), extension("2.5.29.20", integer(7))
        parts = {"version": integer(1), "inner": SHA_256_WITH_RSA, "issuer": common("anchor"), "this": utc("250101000000Z"), "next": utc("490101000000Z"), "revoked": b"", "extensions": [identifier, number], "outer": SHA_256_WITH_RSA, "unused": 0, "signer": self.key}
        parts.update(changes)
        order = ("version", "inner", "issuer", "this", "next", "revoked")
        body = sequence(*(parts[it] for it in order), tagged(0, sequence(*parts["extensions"])) if parts["extensions"] is not None else b"")
        return sequence(body, parts["outer"], bits(parts["unused"], parts["signer"].sign(body) if not parts["unused"] else bytes(256)))

    def crl_rows(self):
        def entry(number, more=b""):
            return sequence(integer(number), utc("250101000000Z"), more)

        identifier, number = extension(AKI, sequence(element(128, self.key.identifier))), extension("2.5.29.20", integer(7))
        reason = sequence(extension("2.5.29.21", element(10, b"\1")))
        lists = [
            ("as it should be", "ok", {}),
            ("a serial number", "ok", {"revoked": sequence(entry(5))}),
            ("a serial number twice", "ok", {"revoked": sequence(entry(5), entry(5))}),
            ("an empty list", "ok", {"revoked": sequence()}),
            ("a reason", 5, {"revoked": sequence(entry(5, reason))}),
            ("a serial number of 21 octets", 7, {"revoked": sequence(entry(2**160))}),
            ("version 1", 30, {"version": integer(0)}),
            ("no version", 2, {"version": b""}),
            ("SHA-1", 8, {"inner": SHA_1_WITH_RSA, "outer": SHA_1_WITH_RSA}),
            ("SHA-1 outside", 8, {"outer": SHA_1_WITH_RSA}),
            ("an organization", 9, {"issuer": name([attribute(10, "o")])}),
            ("GeneralizedTime", "ok", {"this": general("20250101000000Z")}),
            ("thisUpdate of 1969", 11, {"this": utc("690101000000Z")}),
            ("no nextUpdate", 2, {"next": b""}),
            ("no extensions", 31, {"extensions": None}),
            ("authorityKeyIdentifier alone", 32, {"extensions": [identifier]}),
            ("cRLNumber alone", 32, {"extensions": [number]}),
            ("cRLNumber first", "ok", {"extensions": [number, identifier]}),
            ("a third extension", 5, {"extensions": [identifier, number, extension("2.5.29.27", integer(1), True)]}),
            ("cRLNumber critical", 18, {"extensions": [identifier, extension("2.5.29.20", integer(7), True)]}),
            ("cRLNumber 2^159 - 1", "ok", {"extensions": [identifier, extension("2.5.29.20", integer(2**159 - 1))]}),
            ("cRLNumber 2^159", 33, {"extensions": [identifier, extension("2.5.29.20", integer(2**159))]}),
            ("cRLNumber -1", 33, {"extensions": [identifier, extension("2.5.29.20", element(2, b"\xff"))]}),
            ("unused bits in the signature", 19, {"unused": 1}),
        ]
        for label, wanted, changes in lists:
            self.rows.append(Row(f"crl: {label}", "crl", self.listed(**changes), wanted))


def other_key(algorithm, *options):
    """The public key of another algorithm or size."""
    words = [it for option in options for it in ("-pkeyopt", option)]
    secret = subprocess.run(["openssl", "genpkey", "-algorithm", algorithm, *words], check=True, capture_output=True).stdout
    return subprocess.run(["openssl", "pkey", "-pubout", "-outform", "DER"], input=secret, check=True, capture_output=True).stdout
