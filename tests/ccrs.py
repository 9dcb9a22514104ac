#!/usr/bin/env python3
"""Canonical cache representations, right ones and spoiled ones: what they say, or the first fault and its offset.

usage: tests/ccrs.py PROGRAM [--files N] [--seed S]

PROGRAM is ccr_scripts. N files (1,000 unless said otherwise) are made at random, and most are spoiled: an element is missing, is there twice,
comes before the one before it, or has another tag, content or hash; or octets are cut off, follow, or are others. One more has an AS with 65,537
VRPs. What PROGRAM says of each is compared with the model in tests/lib/ccr_model.py. Each kind of fault has to come."""
import argparse
import collections
import copy
import hashlib
import os
import random
import sys

sys.path.insert(0, f"{os.path.dirname(os.path.abspath(__file__))}/lib")
import ccr_model
from common import asked
from der import element

FAULTS = {*range(1, 13), *range(20, 26)}


class Node:
    """An element: its tag, and its content or its members. A hash has neither: it is that of the first member beside it."""

    def __init__(self, tag, inner):
        self.tag, self.inner = tag, inner

    def octets(self, beside=b""):
        if self.inner is None:
            return element(self.tag, hashlib.sha256(beside).digest())
        if isinstance(self.inner, bytes):
            return element(self.tag, self.inner)
        members = []
        for it in self.inner:
            members.append(it.octets(members[0] if members else b""))
        return element(self.tag, b"".join(members))

    def nodes(self):
        """This and all in it."""
        yield self
        if isinstance(self.inner, list):
            for it in self.inner:
                yield from it.nodes()


# ---- right ones


def integer(value):
    return Node(2, value.to_bytes(value.bit_length() // 8 + 1, "big"))


def prefix_node(address, length, width):
    count = (length + 7) // 8
    return Node(3, bytes([8 * count - length]) + (address >> (width - 8 * count)).to_bytes(count, "big"))


def random_entries(rng, width):
    """Entries in ascending order, of which some share an address."""
    entries = set()
    for _ in range(rng.choice([1, 1, 2, 3, 5])):
        length = rng.choice([0, 1, 8, 9, width // 2, width - 1, width, rng.randint(0, width)])
        address = rng.getrandbits(width) >> (width - length) << (width - length)
        entries.add((address, length, rng.choice([length, length, width, rng.randint(length, width)])))
        if rng.random() < 0.3:
            entries.add((address, length, width))
    members = []
    for address, length, maximum in sorted(entries):
        members.append(Node(48, [prefix_node(address, length, width)] + ([] if maximum == length else [integer(maximum)])))
    return Node(48, members)


def random_set(rng, asn):
    families = rng.choice([(1,), (1,), (2,), (1, 2)])
    return Node(48, [integer(asn), Node(48, [Node(48, [Node(4, bytes([0, it])), random_entries(rng, ccr_model.WIDTHS[it])]) for it in families])])


def random_asn(rng):
    return rng.choice([0, 1, 127, 128, 255, 256, 64496, 2**31, 2**32 - 1, rng.getrandbits(32)])


def state(tag, members, hint=()):
    return Node(tag, [Node(48, [Node(48, members), *hint, Node(4, None)])])


def random_file(rng):
    """A representation as a tree."""
    asns = sorted({random_asn(rng) for _ in range(rng.choice([0, 1, 2, 3, 6]))})
    states = [
        state(161, [Node(48, [Node(4, rng.randbytes(32)), Node(2, b"\1")])], [Node(24, b"20261130004052Z")]),
        state(162, [random_set(rng, it) for it in asns]),
        state(163, []),
        state(164, [Node(4, rng.randbytes(20))]),
        state(165, []),
    ]
    kept = [it for it in states if rng.random() < 0.85]
    algorithm = Node(48, [Node(6, ccr_model.SHA_256[2:])])
    moment = Node(24, rng.choice([b"20261201004119Z", b"19700101000000Z", b"99991231235959Z"]))
    return Node(48, [Node(6, ccr_model.ID_CCR), Node(160, [Node(48, [algorithm, moment, *kept])])])


def large_file():
    """One AS has more VRPs than a ROA may have entries."""
    entries = Node(48, [Node(48, [prefix_node((10 << 24) + (it << 8), 24, 32)]) for it in range(65537)])
    payload_set = Node(48, [integer(64496), Node(48, [Node(48, [Node(4, b"\0\1"), entries])])])
    algorithm = Node(48, [Node(6, ccr_model.SHA_256[2:])])
    members = [algorithm, Node(24, b"20261201004119Z"), state(162, [payload_set])]
    return Node(48, [Node(6, ccr_model.ID_CCR), Node(160, [Node(48, members)])])


# ---- spoiled ones


def some_parent(rng, tree, least):
    """A node that has this many members, those of payload sets more often than not."""
    found = [it for it in tree.nodes() if isinstance(it.inner, list) and len(it.inner) >= least]
    return rng.choice(found) if found else None


def is_missing(rng, tree):
    parent = some_parent(rng, tree, 1)
    del parent.inner[rng.randrange(len(parent.inner))]


def is_twice(rng, tree):
    parent = some_parent(rng, tree, 1)
    at = rng.randrange(len(parent.inner))
    parent.inner.insert(at, copy.deepcopy(parent.inner[at]))


def is_out_of_order(rng, tree):
    parent = some_parent(rng, tree, 2)
    if parent:
        at = rng.randrange(1, len(parent.inner))
        parent.inner[at - 1:at + 1] = parent.inner[at - 1:at + 1][::-1]


def is_empty(rng, tree):
    some_parent(rng, tree, 1).inner.clear()


def has_another_tag(rng, tree):
    rng.choice(list(tree.nodes())).tag = rng.choice([2, 3, 4, 6, 24, 48, 49, 160, 161, 162, 163, 164, 165, rng.randrange(256)])


def has_another_content(rng, tree):
    """A primitive element whose content is another, and all hashes are those of what is there."""
    node = rng.choice([it for it in tree.nodes() if isinstance(it.inner, bytes)])
    content = bytearray(node.inner)
    way = rng.randrange(6)
    if way == 0 and content:
        content[rng.randrange(len(content))] = rng.choice([0, 1, 2, 127, 128, 255, rng.randrange(256)])
    elif way == 1:
        content.append(rng.choice([0, 255, rng.randrange(256)]))
    elif way == 2:
        content.insert(0, rng.choice([0, 1, 255]))
    elif way == 3:
        content = content[:rng.randrange(len(content) + 1)]
    elif node.tag == 2:
        content = bytearray(integer(rng.choice([0, 8, 24, 32, 33, 64, 128, 129, 2**32, rng.getrandbits(40)])).inner)
    elif node.tag == 3:
        content = bytearray([rng.choice([0, 1, 7, 8]), *rng.randbytes(rng.choice([0, 1, 4, 5, 16, 17]))])
    elif content:
        content[rng.randrange(len(content))] ^= 1 << rng.randrange(8)
    node.inner = bytes(content)


def has_a_needless_maximum(rng, tree):
    """An entry whose maximum length is the length of the prefix, or near it."""
    entries = [it for it in tree.nodes() if isinstance(it.inner, list) and it.inner and it.inner[0].tag == 3]
    if entries:
        entry = rng.choice(entries)
        content = entry.inner[0].inner
        entry.inner[1:] = [integer(max(0, 8 * (len(content) - 1) - content[0] + rng.choice([-1, 0, 0, 1])))]


def has_a_version(rng, tree):
    """An explicitly tagged version before the first member of the representation, or of a payload set."""
    found = [it for it in tree.nodes() if isinstance(it.inner, list) and len(it.inner) > 1 and it.inner[0].tag in (2, 48)]
    if found:
        rng.choice(found).inner.insert(0, Node(160, [integer(rng.choice([0, 1]))]))


def has_another_hash(rng, tree):
    hashes = [it for it in tree.nodes() if it.inner is None]
    if hashes:
        rng.choice(hashes).inner = rng.choice([rng.randbytes(32), rng.randbytes(31), b"", hashlib.sha256(b"0\0").digest()])


def is_cut(rng, octets):
    return octets[:rng.randrange(len(octets))]


def is_followed(rng, octets):
    return octets + rng.randbytes(rng.choice([1, 2, 40]))


def has_other_octets(rng, octets):
    spoiled = bytearray(octets)
    for _ in range(rng.choice([1, 1, 1, 2, 4])):
        spoiled[rng.randrange(min(len(spoiled), rng.choice([80, len(spoiled)])))] = rng.choice([0, 48, 128, 129, 132, 133, 160, 255, rng.randrange(256)])
    return bytes(spoiled)


def has_other_octets_inside(rng, octets):
    """Octets are put in or taken out, and the lengths around stay as they were."""
    at = rng.randrange(len(octets))
    return octets[:at] + rng.choice([b"", rng.randbytes(1), octets[at:at + 1] * 2]) + octets[at + 1:]


OF_TREES = (is_missing, is_twice, is_out_of_order, is_empty, has_another_tag, has_another_content, has_another_content, has_another_content,
            has_a_needless_maximum, has_a_version, has_another_hash)
OF_OCTETS = (is_cut, is_followed, has_other_octets, has_other_octets_inside)


def random_question(rng):
    """The octets of a file, which may be spoiled once or twice."""
    tree = random_file(rng)
    if rng.random() < 0.1:
        return tree.octets()
    for _ in range(rng.choice([0, 1, 1, 1, 2])):
        rng.choice(OF_TREES)(rng, tree)
        if not tree.inner:
            break
    octets = tree.octets()
    return octets if rng.random() < 0.6 else rng.choice(OF_OCTETS)(rng, octets)


# ---- comparing


def main():
    parser = argparse.ArgumentParser(usage=__doc__)
    parser.add_argument("program")
    parser.add_argument("--files", type=int, default=1000)
    parser.add_argument("--seed", type=int, default=6488)
    options = parser.parse_args()
    rng = random.Random(options.seed)
    questions = [random_question(rng) for _ in range(options.files)] + [large_file().octets()]
    wrong, kinds = 0, collections.Counter()
    for octets, found in zip(questions, asked(options.program, [it.hex() for it in questions])):
        wanted = ccr_model.answer(octets)
        kinds[int(wanted.split()[1]) if wanted.startswith("fault") else 0] += 1
        if found != wanted:
            wrong += 1
            print(f"{octets.hex()}: {found}\n    wanted: {wanted}")
    never = sorted(FAULTS - set(kinds))
    if never:
        print(f"faults that never came: {never}")
    print(f"{len(questions)} files, {kinds[0]} without a fault: {wrong} wrong")
    return 1 if wrong or never else 0


if __name__ == "__main__":
    raise SystemExit(main())
