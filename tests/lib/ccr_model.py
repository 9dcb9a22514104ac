"""The canonical cache representation as FORMATS says it, for tests/ccrs.py: what its octets say, or the first fault."""

import datetime
import hashlib
import ipaddress
import re

ID_CCR = bytes.fromhex("2a864886f70d0109100136")
SHA_256 = bytes.fromhex("0609608648016503040201")
WIDTHS = {1: 32, 2: 128}
STATES = (161, 162, 163, 164, 165)


class Fault(Exception):
    """A fault by its number, and the offset at which it is."""

    def __init__(self, number, offset):
        super().__init__(number, offset)
        self.number, self.offset = number, offset


def length_octets(length):
    """The length of a content in DER."""
    if length < 128:
        return bytes([length])
    octets = length.to_bytes((length.bit_length() + 7) // 8, "big")
    return bytes([128 + len(octets)]) + octets


class Place:
    """What remains of an element, and at which offset it begins."""

    def __init__(self, octets, at, end):
        self.octets, self.at, self.end = octets, at, end

    def begins(self, tag):
        return self.at < self.end and self.octets[self.at] == tag

    def head(self, tag, barred=None):
        """Where the content of the element here begins and ends. If its tag is `barred`, that is fault 6."""
        left = self.end - self.at
        rest = self.octets[self.at:min(self.end, self.at + 6)]
        first = rest[1] if left > 1 else 0
        more = first - 128 if 128 < first < 133 else 0
        part = rest[1:2 + more]
        told = (part[0] if part[0] < 128 else int.from_bytes(part[1:], "big")) if part else 0
        right = part == length_octets(told)
        if left < 2 + more or (right and left < 2 + more + told):
            raise Fault(1, self.at)
        if barred is not None and rest[0] == barred:
            raise Fault(6, self.at)
        if rest[0] != tag:
            raise Fault(2, self.at)
        if not right:
            raise Fault(3, self.at)
        return self.at + 2 + more, self.at + 2 + more + told

    def open(self, tag):
        """The place in the element here. This place is behind it."""
        start, end = self.head(tag)
        self.at = end
        return Place(self.octets, start, end)

    def content(self, tag, barred=None):
        """The content of the element here, and its offset."""
        offset = self.at
        start, self.at = self.head(tag, barred)
        return self.octets[start:self.at], offset

    def finish(self):
        if self.at < self.end:
            raise Fault(5, self.at)


def integer(content, offset):
    """The value of an INTEGER."""
    redundant = len(content) > 1 and (content[0], content[1] >> 7) in ((0, 0), (255, 1))
    if not content or redundant:
        raise Fault(4, offset)
    return int.from_bytes(content, "big", signed=True)


def read_time(place):
    content, offset = place.content(24)
    text = content.decode("latin-1")
    if not re.fullmatch(r"[0-9]{14}Z", text):
        raise Fault(4, offset)
    try:
        moment = datetime.datetime.strptime(text, "%Y%m%d%H%M%SZ")
    except ValueError:
        raise Fault(4, offset) from None
    if moment.year < 1970 or text[12:14] > "59":
        raise Fault(4, offset)
    return text


# ---- payload sets


def read_prefix(place, width):
    """Address and length."""
    content, offset = place.content(3)
    unused = content[0] if content else 8
    if unused > 7 or (len(content) == 1 and unused) or (len(content) > 1 and content[-1] % 2**unused):
        raise Fault(4, offset)
    length = 8 * (len(content) - 1) - unused
    if length > width:
        raise Fault(10, offset)
    return int.from_bytes(content[1:], "big") << width >> 8 * (len(content) - 1), length


def read_entry(place, width, before):
    """Address, length and maximum length."""
    offset = place.at
    members = place.open(48)
    address, length = read_prefix(members, width)
    maximum = length
    if members.at < members.end:
        content, at = members.content(2)
        maximum = integer(content, at)
        if not length <= maximum <= width:
            raise Fault(11, at)
        if maximum == length:
            raise Fault(20, at)
        members.finish()
    if before is not None and (address, length, maximum) <= before:
        raise Fault(12, offset)
    return address, length, maximum


def read_family(place, before):
    """The number of the family, and its entries."""
    members = place.open(48)
    content, offset = members.content(4)
    if content not in (b"\0\1", b"\0\2") or content[1] == before:
        raise Fault(8, offset)
    if content[1] < before:
        raise Fault(12, offset)
    offset = members.at
    rest, entries = members.open(48), []
    if rest.at == rest.end:
        raise Fault(9, offset)
    while rest.at < rest.end:
        entries.append(read_entry(rest, WIDTHS[content[1]], entries[-1] if entries else None))
    members.finish()
    return content[1], entries


def texts(asn, family, entries):
    kind = {1: ipaddress.IPv4Network, 2: ipaddress.IPv6Network}[family]
    return [f"{kind((address, length))} {maximum} {asn}" for address, length, maximum in entries]


def read_set(place, before):
    """The AS, and its VRPs as texts."""
    offset = place.at
    members = place.open(48)
    content, at = members.content(2, barred=160)
    asn = integer(content, at)
    if not 0 <= asn < 2**32:
        raise Fault(7, at)
    at = members.at
    blocks = members.open(48)
    if blocks.at == blocks.end:
        raise Fault(9, at)
    family, entries = read_family(blocks, 0)
    vrps = texts(asn, family, entries)
    if blocks.at < blocks.end:
        family, entries = read_family(blocks, family)
        vrps += texts(asn, family, entries)
        blocks.finish()
    members.finish()
    if before is not None and asn <= before:
        raise Fault(25, offset)
    return asn, vrps


def read_sets(place):
    rest, before, vrps = place.open(48), None, []
    while rest.at < rest.end:
        before, more = read_set(rest, before)
        vrps += more
    return vrps


# ---- the whole


def read_state(place, tag):
    """The hash of a list, and the VRPs if it is that of payload sets."""
    outer = place.open(tag)
    members = outer.open(48)
    start, vrps = members.at, None
    if tag == 162:
        vrps = read_sets(members)
    else:
        members.open(48)
    octets = place.octets[start:members.at]
    if tag == 161:
        read_time(members)
    content, offset = members.content(4)
    if content != hashlib.sha256(octets).digest():
        raise Fault(24, offset)
    members.finish()
    outer.finish()
    return content.hex(), vrps


def read_members(members):
    if members.begins(160):
        raise Fault(22, members.at)
    content, offset = members.content(48)
    if content != SHA_256:
        raise Fault(23, offset)
    words, vrps = [read_time(members)], None
    for tag in STATES:
        word = "-"
        if members.begins(tag) or (tag == STATES[-1] and members.at < members.end):
            word, found = read_state(members, tag)
            vrps = found if tag == 162 else vrps
        words.append(word)
    members.finish()
    return words, vrps


def read(octets):
    """The words for what the octets say: the moment and five hashes; and the VRPs, if they are there. Or a `Fault`."""
    whole = Place(octets, 0, len(octets))
    info = whole.open(48)
    content, offset = info.content(6)
    if content != ID_CCR:
        raise Fault(21, offset)
    outer = info.open(160)
    said = read_members(outer.open(48))
    outer.finish()
    info.finish()
    whole.finish()
    return said


def answer(octets):
    """What the program ccr_scripts has to say. If there are VRPs, their hash is the digest of their set."""
    try:
        words, vrps = read(octets)
    except Fault as fault:
        return f"fault {fault.number} {fault.offset}"
    if vrps is None:
        return " ".join(words)
    return " ".join([*words, words[2]]) + "".join(f",{vrp}" for vrp in vrps)
