"""Compares what the program says of ROA payloads with pyasn1's DER decoder.

Usage: roas.py PROGRAM. Payloads are made at random, with a fixed seed, by an encoder of this
script's own, and each is changed in single bytes. A payload is to be accepted exactly where pyasn1
decodes all of it, encodes the value to the same bytes, and the value keeps the rules of the profile;
and then the lines are to be those of the value.
"""

import ipaddress
import os
import random
import sys

sys.path.insert(0, f"{os.path.dirname(os.path.abspath(__file__))}/lib")
from der import Judge, element, integer
from pyasn1.codec.der import decoder, encoder
from pyasn1.type import namedtype, tag, univ


class Address(univ.Sequence):
    componentType = namedtype.NamedTypes(
        namedtype.NamedType("address", univ.BitString()),
        namedtype.OptionalNamedType("maxLength", univ.Integer()),
    )


class Addresses(univ.SequenceOf):
    componentType = Address()


class AddressFamily(univ.Sequence):
    componentType = namedtype.NamedTypes(
        namedtype.NamedType("addressFamily", univ.OctetString()),
        namedtype.NamedType("addresses", Addresses()),
    )


class Blocks(univ.SequenceOf):
    componentType = AddressFamily()


class Attestation(univ.Sequence):
    componentType = namedtype.NamedTypes(
        namedtype.DefaultedNamedType(
            "version",
            univ.Integer(0).subtype(explicitTag=tag.Tag(tag.tagClassContext, tag.tagFormatSimple, 0)),
        ),
        namedtype.NamedType("asID", univ.Integer()),
        namedtype.NamedType("ipAddrBlocks", Blocks()),
    )


WIDTHS = {b"\x00\x01": 32, b"\x00\x02": 128}


def bits(address, length, width):
    count = (length + 7) // 8
    octets = (address >> (width - 8 * count)).to_bytes(count, "big") if count else b""
    return element(3, bytes([8 * count - length]) + octets)


def random_entries(rng, width):
    entries = set()
    for _ in range(rng.choice([1, 1, 2, 3, 5])):
        length = rng.choice([0, 1, 7, 8, 9, width // 2, width - 1, width, rng.randint(0, width)])
        address = rng.getrandbits(width) >> (width - length) << (width - length) if length else 0
        maximum = rng.choice([length, length, width, rng.randint(length, width)])
        entries.add((address, length, maximum))
    return sorted(entries)


def random_payload(rng):
    blocks = b""
    for family in rng.choice([(b"\x00\x01",), (b"\x00\x02",), (b"\x00\x01", b"\x00\x02")]):
        width = WIDTHS[family]
        addresses = b""
        for address, length, maximum in random_entries(rng, width):
            members = bits(address, length, width) + (b"" if maximum == length else integer(maximum))
            addresses += element(48, members)
        blocks += element(48, element(4, family) + element(48, addresses))
    asn = rng.choice([0, 127, 128, 64496, 2**31, 2**32 - 1, rng.getrandbits(32)])
    return element(48, integer(asn) + element(48, blocks))


def lines_of(payload):
    """The lines of a payload that is to be accepted, or None."""
    try:
        value, rest = decoder.decode(payload, asn1Spec=Attestation())
        if rest or encoder.encode(value) != payload or int(value["version"]) != 0:
            return None
    except Exception:
        return None
    asn = int(value["asID"])
    families = [bytes(block["addressFamily"]) for block in value["ipAddrBlocks"]]
    if not 0 <= asn < 2**32 or families not in ([b"\0\1"], [b"\0\2"], [b"\0\1", b"\0\2"]):
        return None
    lines = []
    for block in value["ipAddrBlocks"]:
        width = WIDTHS[bytes(block["addressFamily"])]
        before = None
        if len(block["addresses"]) == 0:
            return None
        for entry in block["addresses"]:
            text = entry["address"].asBinary() if len(entry["address"]) else ""
            length = len(entry["address"])
            text = text.zfill(length)
            if length > width:
                return None
            address = int(text, 2) << (width - length) if length else 0
            present = entry["maxLength"].isValue
            maximum = int(entry["maxLength"]) if present else length
            if not length <= maximum <= width or (present and maximum == length) or (before is not None and (address, length, maximum) <= before):
                return None
            before = (address, length, maximum)
            kind = ipaddress.IPv4Network if width == 32 else ipaddress.IPv6Network
            network = kind((address, length))
            lines.append(f"{network} {maximum} {asn}")
    return "".join(line + "\n" for line in lines)


Judge(sys.argv[1], "roa").compare(random.Random(9582), random_payload, lines_of)
