"""Elements in BER (X.690 section 8.1): written anew in DER, and in forms that are picked at random."""
from der import element

LEVELS = 16
PIECES, OCTET_STRING, EXPLICIT_0 = 0x24, 4, 0xA0


class Refused(Exception):
    """A fault: its number and its offset."""


class Octets:
    """The octets of a file from an offset to an end."""

    def __init__(self, file, at, end):
        self.file, self.at, self.end = file, at, end

    def take(self, count, start):
        if self.end - self.at < count:
            raise Refused(1, start)
        self.at += count
        return self.file[self.at - count:self.at]

    def head(self):
        """The tag and the start of the element here."""
        start = self.at
        tag = self.take(1, start)[0]
        return tag, start

    def length(self, start):
        """The length that is here. None: it is indefinite."""
        first = self.take(1, start)[0]
        if first < 128:
            return first
        if first == 128:
            return None
        if first == 255:
            raise Refused(39, start)
        length = int.from_bytes(self.take(first - 128, start), "big")
        if length >= 2**32:
            raise Refused(39, start)
        return length

    def closes(self):
        return self.end - self.at >= 2 and self.file[self.at:self.at + 2] == b"\0\0"


def elements(octets, is_open, read):
    """What `read` gives of each element, up to the end of contents or of the octets."""
    read_so_far = []
    while not (octets.closes() if is_open else octets.at == octets.end):
        read_so_far.append(read(octets))
    if is_open:
        octets.at += 2
    return b"".join(read_so_far)


def contents(octets, length, start, read):
    if length is None:
        return elements(octets, True, read)
    first = octets.at
    octets.take(length, start)
    return elements(Octets(octets.file, first, first + length), False, read)


def checked(octets):
    """The tag, which is one octet and not 0, and the start."""
    tag, start = octets.head()
    if tag % 32 == 31:
        raise Refused(36, start)
    if tag == 0:
        raise Refused(37, start)
    return tag, start


def copied(octets):
    """An element that is in DER, unchanged."""
    tag, start = checked(octets)
    length = octets.length(start)
    if length is None:
        raise Refused(41 if tag & 32 else 40, start)
    octets.take(length, start)
    return octets.file[start:octets.at]


def piece(depth):
    """A piece of an OCTET STRING."""
    def read(octets):
        if depth == LEVELS:
            raise Refused(43, octets.at)
        tag, start = checked(octets)
        if tag not in (OCTET_STRING, PIECES):
            raise Refused(38, start)
        length = octets.length(start)
        if tag == PIECES:
            return contents(octets, length, start, piece(depth + 1))
        if length is None:
            raise Refused(40, start)
        return octets.take(length, start)
    return read


def rewritten(depth):
    """An element that is written in DER."""
    def read(octets):
        if depth == LEVELS:
            raise Refused(43, octets.at)
        tag, start = checked(octets)
        length = octets.length(start)
        if not tag & 32:
            if length is None:
                raise Refused(40, start)
            return element(tag, octets.take(length, start))
        if tag == PIECES:
            return element(OCTET_STRING, contents(octets, length, start, piece(depth + 1)))
        keeps = tag == EXPLICIT_0 and depth in (3, 5)
        return element(tag, contents(octets, length, start, copied if keeps else rewritten(depth + 1)))
    return read


def to_der(file):
    """The one element of a file in DER."""
    octets = Octets(file, 0, len(file))
    der = rewritten(0)(octets)
    if octets.at != len(file):
        raise Refused(5, octets.at)
    return der


# ---- forms at random

class Forms:
    """Picks forms. If they are few, `openssl cms` reads them too. It reads heads of at most 7 octets, pieces in at most 5 levels, and no
    long form of the length 0."""

    def __init__(self, rng, are_few):
        self.rng, self.are_few = rng, are_few
        self.zeros, self.levels = ([1, 2] if are_few else [1, 2, 9, 122]), (4 if are_few else 10)

    def element(self, tag, content):
        """An element in a form of length."""
        way = self.rng.randrange(6)
        if tag & 32 and way < 2:
            return bytes([tag, 0x80]) + content + b"\0\0"
        if self.are_few and not content:
            return element(tag, content)
        length = len(content).to_bytes(max(1, (len(content).bit_length() + 7) // 8), "big")
        if way == 2:
            return bytes([tag, 0x80 + len(length)]) + length + content
        if way == 3:
            length = bytes(self.rng.choice(self.zeros)) + length
            return bytes([tag, 0x80 + len(length)]) + length + content
        return element(tag, content)

    def pieces(self, content, level=0):
        """An OCTET STRING, mostly in pieces, which are cut again."""
        if level == self.levels or self.rng.randrange(3) == 0:
            return self.element(OCTET_STRING, content)
        cuts = sorted(self.rng.randrange(len(content) + 1) for _ in range(self.rng.randrange(4)))
        parts = [content[a:b] for a, b in zip([0, *cuts], [*cuts, len(content)])]
        if not content and self.rng.randrange(2):
            parts = []
        return self.element(PIECES, b"".join(self.pieces(part, level + 1) for part in parts))

    def elements(self, der, depth=0, keeps=False):
        """Elements in DER, one after the other. Those that are kept stay. An indefinite length is not in DER, and is refused."""
        octets, out = Octets(der, 0, len(der)), b""
        while octets.at < octets.end:
            tag, start = octets.head()
            length = octets.length(start)
            if length is None:
                raise Refused(40, start)
            content = octets.take(length, start)
            if keeps:
                out += der[start:octets.at]
            elif tag == OCTET_STRING:
                out += self.pieces(content)
            elif tag & 32:
                out += self.element(tag, self.elements(content, depth + 1, tag == EXPLICIT_0 and depth in (3, 5)))
            else:
                out += self.element(tag, content)
        return out
