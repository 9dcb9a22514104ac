"""Canonical cache representations (draft-ietf-sidrops-rpki-ccr) of records: family, address, prefix length, longest length, AS number."""

import hashlib
import itertools
import time

import ccr_model
from der import element, integer


def entry(record):
    family, address, length, longest, _ = record
    width, count = (32 if family == 4 else 128), (length + 7) // 8
    octets = bytes([8 * count - length]) + (address >> (width - 8 * count)).to_bytes(count, "big")
    return element(48, element(3, octets) + (b"" if longest == length else integer(longest)))


def payload_set(asn, found):
    families = b""
    for family, number in ((4, b"\0\1"), (6, b"\0\2")):
        entries = b"".join(entry(it) for it in found if it[0] == family)
        if entries:
            families += element(48, element(4, number) + element(48, entries))
    return element(48, integer(asn) + element(48, families))


def representation(found, made):
    """The file of these records, produced at a second since 1970. It has no other list."""
    by_as = sorted(found, key=lambda it: (it[4], it))
    payloads = element(48, b"".join(payload_set(asn, list(some)) for asn, some in itertools.groupby(by_as, key=lambda it: it[4])))
    state = element(162, element(48, payloads + element(4, hashlib.sha256(payloads).digest())))
    moment = time.strftime("%Y%m%d%H%M%SZ", time.gmtime(made)).encode()
    members = element(48, ccr_model.SHA_256) + element(24, moment) + state
    return element(48, element(6, ccr_model.ID_CCR) + element(160, element(48, members)))
