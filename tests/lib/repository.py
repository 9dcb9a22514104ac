"""A small repository of the RPKI, signed: a trust anchor, its list of revoked certificates, a manifest, and ROAs (RFC 6487, RFC 6488,
RFC 9286, RFC 9582). Validators that are real are given it, so that their caches have something to serve.

The payloads of the manifest and of the ROAs have the form that is decoded here."""
import base64
import datetime
import hashlib
import ipaddress
import os
import subprocess

from der import element, integer

HOST = "rpki.example.net/repo"
URI = f"rsync://{HOST}"


def sequence(*parts):
    return element(48, b"".join(parts))


def tagged(number, *parts):
    return element(160 + number, b"".join(parts))


def oid(text):
    first, second, *rest = map(int, text.split("."))
    octets = bytes([40 * first + second])
    for number in rest:
        groups = [number & 127]
        while number := number >> 7:
            groups.append(128 | number & 127)
        octets += bytes(reversed(groups))
    return element(6, octets)


def bits(unused, octets):
    return element(3, bytes([unused]) + octets)


NULL = element(5, b"")
SHA_256 = sequence(oid("2.16.840.1.101.3.4.2.1"))
SHA_256_WITH_RSA = sequence(oid("1.2.840.113549.1.1.11"), NULL)
RSA = sequence(oid("1.2.840.113549.1.1.1"), NULL)


class Key:
    """A key pair of RSA, kept in a file."""

    def __init__(self, name):
        self.file = f"{name}.pem"
        subprocess.run(["openssl", "genpkey", "-algorithm", "RSA", "-pkeyopt", "rsa_keygen_bits:2048", "-out", self.file], check=True, capture_output=True)
        self.info = subprocess.run(["openssl", "pkey", "-in", self.file, "-pubout", "-outform", "DER"], check=True, capture_output=True).stdout
        # (the content of the BIT STRING, which ends the information: 270 bytes of a key of 2,048 bits)
        self.identifier = hashlib.sha1(self.info[-270:]).digest()

    def sign(self, data):
        return subprocess.run(["openssl", "dgst", "-sha256", "-sign", self.file], input=data, check=True, capture_output=True).stdout

    def signed(self, body):
        """What is signed, the algorithm, and the signature."""
        return sequence(body, SHA_256_WITH_RSA, bits(0, self.sign(body)))


def name(text):
    return sequence(element(49, sequence(oid("2.5.4.3"), element(19, text.encode()))))


def moment(days):
    return datetime.datetime.now(datetime.timezone.utc).replace(microsecond=0) + datetime.timedelta(days=days)


def utc_time(when):
    return element(23, when.strftime("%y%m%d%H%M%SZ").encode())


def general_time(when):
    return element(24, when.strftime("%Y%m%d%H%M%SZ").encode())


def extension(number, content, critical=False):
    return sequence(oid(number), *([element(1, b"\xff")] if critical else []), element(4, content))


def access(method, uri):
    return sequence(oid(f"1.3.6.1.5.5.7.48.{method}"), element(134, uri.encode()))


def prefix_bits(prefix):
    octets = (prefix.prefixlen + 7) // 8
    return bits(8 * octets - prefix.prefixlen, prefix.network_address.packed[:octets])


def families(resources, item):
    """The blocks of each family that is there, IPv4 first."""
    found = [(version, sorted(it for it in resources if it.version == version)) for version in (4, 6)]
    return [sequence(element(4, bytes([0, 1 if version == 4 else 2])), item(some)) for version, some in found if some]


EVERYTHING = [ipaddress.ip_network("0.0.0.0/0"), ipaddress.ip_network("::/0")]


class Authority:
    """The trust anchor: it holds all addresses and all AS numbers, and issues certificates and its list."""

    def __init__(self, folder):
        self.folder, self.key, self.serial, self.objects = folder, Key("authority"), 1, {}
        body = self.certificate_body(self.key, "authority", "authority", EVERYTHING, True, f"{URI}/")
        self.certificate = self.key.signed(body)
        self.objects["authority.crl"] = self.revoked()

    def certificate_body(self, key, subject, issuer, resources, is_authority, place):
        uris = [access(5, place), access(10, f"{URI}/authority.mft")] if is_authority else [access(11, place)]
        blocks = sequence(*families(resources, lambda some: sequence(*map(prefix_bits, some)))) if resources else None
        inherited = sequence(*(sequence(element(4, bytes([0, it])), NULL) for it in (1, 2)))
        extensions = [
            *([extension("2.5.29.19", sequence(element(1, b"\xff")), True)] if is_authority else []),
            extension("2.5.29.14", element(4, key.identifier)),
            *([] if is_authority else [extension("2.5.29.35", sequence(element(128, self.key.identifier)))]),
            extension("2.5.29.15", bits(1, b"\x06") if is_authority else bits(7, b"\x80"), True),
            *([] if is_authority else [extension("2.5.29.31", sequence(sequence(tagged(0, tagged(0, element(134, f"{URI}/authority.crl".encode()))))))]),
            *([] if is_authority else [extension("1.3.6.1.5.5.7.1.1", sequence(access(2, f"{URI}/authority.cer")))]),
            extension("1.3.6.1.5.5.7.1.11", sequence(*uris)),
            extension("2.5.29.32", sequence(sequence(oid("1.3.6.1.5.5.7.14.2"))), True),
            extension("1.3.6.1.5.5.7.1.7", blocks or inherited, True),
        ]
        if is_authority:
            extensions.append(extension("1.3.6.1.5.5.7.1.8", sequence(tagged(0, sequence(sequence(integer(0), integer(2**32 - 1))))), True))
        elif not resources:
            extensions.append(extension("1.3.6.1.5.5.7.1.8", sequence(tagged(0, NULL)), True))
        serial, self.serial = self.serial, self.serial + 1
        validity = sequence(utc_time(moment(-1)), utc_time(moment(300)))
        return sequence(tagged(0, integer(2)), integer(serial), SHA_256_WITH_RSA, name(issuer), validity, name(subject), key.info, tagged(3, sequence(*extensions)))

    def revoked(self):
        identifier = extension("2.5.29.35", sequence(element(128, self.key.identifier)))
        number = extension("2.5.29.20", integer(1))
        body = sequence(integer(1), SHA_256_WITH_RSA, name("authority"), utc_time(moment(-1)), utc_time(moment(30)), tagged(0, sequence(identifier, number)))
        return self.key.signed(body)

    def signed_object(self, file, content_type, payload, resources):
        """The payload in a signed object, with a certificate of its own."""
        key = Key("once")
        body = self.certificate_body(key, f"object{self.serial}", "authority", resources, False, f"{URI}/{file}")
        certificate = self.key.signed(body)
        attributes = sorted(
            [
                sequence(oid("1.2.840.113549.1.9.3"), element(49, oid(content_type))),
                sequence(oid("1.2.840.113549.1.9.4"), element(49, element(4, hashlib.sha256(payload).digest()))),
                sequence(oid("1.2.840.113549.1.9.5"), element(49, utc_time(moment(0)))),
            ]
        )
        signature = key.sign(element(49, b"".join(attributes)))
        signer = sequence(integer(3), element(128, key.identifier), SHA_256, tagged(0, *attributes), RSA, element(4, signature))
        content = sequence(oid(content_type), tagged(0, element(4, payload)))
        data = sequence(integer(3), element(49, SHA_256), content, tagged(0, certificate), element(49, signer))
        self.objects[file] = sequence(oid("1.2.840.113549.1.7.2"), tagged(0, data))

    def roa(self, file, asn, records):
        """A ROA of an AS over prefixes with their longest lengths, in ascending order."""
        entries = {ipaddress.ip_network(prefix): longest for prefix, longest in records}

        def addresses(some):
            return sequence(*(sequence(prefix_bits(it), *([integer(entries[it])] if entries[it] != it.prefixlen else [])) for it in some))

        payload = sequence(integer(asn), sequence(*families(entries, addresses)))
        self.signed_object(file, "1.2.840.113549.1.9.16.1.24", payload, [*entries])

    def manifest(self):
        files = [sequence(element(22, it.encode()), bits(0, hashlib.sha256(content).digest())) for it, content in sorted(self.objects.items())]
        sha_256 = oid("2.16.840.1.101.3.4.2.1")
        payload = sequence(integer(1), general_time(moment(-1)), general_time(moment(1)), sha_256, sequence(*files))
        self.signed_object("authority.mft", "1.2.840.113549.1.9.16.1.26", payload, [])

    def locator(self):
        """The text that names the trust anchor (RFC 8630)."""
        return f"{URI}/authority.cer\n\n{base64.encodebytes(self.key.info).decode()}"


def write(folder, records, place):
    """Writes the repository of these records (prefix, longest length, AS) below a folder, and the trust anchor's locator beside it."""
    authority = Authority(folder)
    for asn in sorted({it[2] for it in records}):
        authority.roa(f"as{asn}.roa", asn, [it[:2] for it in records if it[2] == asn])
    authority.manifest()
    os.makedirs(place, exist_ok=True)
    for file, content in {**authority.objects, "authority.cer": authority.certificate}.items():
        with open(f"{place}/{file}", "wb") as it:
            it.write(content)
    os.makedirs(f"{folder}/locators", exist_ok=True)
    with open(f"{folder}/locators/authority.tal", "w") as it:
        it.write(authority.locator())
