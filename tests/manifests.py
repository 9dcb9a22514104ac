"""Compares what the program says of manifest payloads with pyasn1's DER decoder.

Usage: manifests.py PROGRAM. Payloads are made at random, with a fixed seed, by an encoder of this
script's own, and each is changed in single bytes. A payload is to be accepted exactly where pyasn1
decodes all of it, encodes the value to the same bytes, and the value keeps the rules of the profile;
and then the lines are to be those of the value. Lists of 65,536 files and of one more, and of a name
that comes twice among many, are judged within seconds.
"""

import datetime
import os
import random
import re
import sys

sys.path.insert(0, f"{os.path.dirname(os.path.abspath(__file__))}/lib")
from der import Judge, element
from pyasn1.codec.der import decoder, encoder
from pyasn1.type import char, namedtype, tag, univ, useful

SHA_256 = "2.16.840.1.101.3.4.2.1"


class FileAndHash(univ.Sequence):
    componentType = namedtype.NamedTypes(
        namedtype.NamedType("file", char.IA5String()),
        namedtype.NamedType("hash", univ.BitString()),
    )


class FileList(univ.SequenceOf):
    componentType = FileAndHash()


class Manifest(univ.Sequence):
    componentType = namedtype.NamedTypes(
        namedtype.DefaultedNamedType(
            "version",
            univ.Integer(0).subtype(explicitTag=tag.Tag(tag.tagClassContext, tag.tagFormatSimple, 0)),
        ),
        namedtype.NamedType("manifestNumber", univ.Integer()),
        namedtype.NamedType("thisUpdate", useful.GeneralizedTime()),
        namedtype.NamedType("nextUpdate", useful.GeneralizedTime()),
        namedtype.NamedType("fileHashAlg", univ.ObjectIdentifier()),
        namedtype.NamedType("fileList", FileList()),
    )


def listed(name, digest):
    return element(48, element(22, name) + element(3, b"\0" + digest))


def payload_of(number, this_update, next_update, files):
    times = b"".join(element(24, text.encode()) for text in (this_update, next_update))
    algorithm = element(6, bytes.fromhex("608648016503040201"))
    return element(48, element(2, number) + times + algorithm + element(48, b"".join(files)))


def random_payload(rng):
    number = rng.choice([0, 1, 127, 128, 65535, rng.getrandbits(64), rng.getrandbits(159)])
    content = number.to_bytes(number.bit_length() // 8 + 1, "big")
    start = datetime.datetime(rng.randint(1970, 9998), rng.randint(1, 12), rng.randint(1, 28), rng.randint(0, 23))
    end = start + datetime.timedelta(seconds=rng.choice([1, 60, 86400, rng.randint(1, 10**7)]))
    letters = "abcxyzABCXYZ0189-_"
    files, names = [], set()
    for _ in range(rng.choice([0, 1, 2, 5])):
        name = "".join(rng.choice(letters) for _ in range(rng.choice([1, 2, 8, 251]))) + rng.choice([".roa", ".crl", ".cer"])
        if name not in names:
            names.add(name)
            files.append(listed(name.encode(), rng.randbytes(32)))
    texts = [f"{moment:%Y%m%d%H%M%S}Z".rjust(15, "0") for moment in (start, end)]
    return payload_of(content, *texts, files)


def moment_of(text):
    """The moment of a text of 15 characters, or None."""
    if not re.fullmatch(r"[0-9]{14}Z", text):
        return None
    try:
        moment = datetime.datetime(*(int(text[a:b]) for a, b in ((0, 4), (4, 6), (6, 8), (8, 10), (10, 12), (12, 14))))
    except ValueError:
        return None
    return moment if moment.year >= 1970 else None


def lines_of(payload):
    """The lines of a payload that is to be accepted, or None."""
    try:
        value, rest = decoder.decode(payload, asn1Spec=Manifest())
        if rest or encoder.encode(value) != payload or int(value["version"]) != 0:
            return None
        texts = [str(value["thisUpdate"]), str(value["nextUpdate"])]
        number = int(value["manifestNumber"])
        files = [(str(file["file"]), file["hash"].asBinary(), len(file["hash"])) for file in value["fileList"]]
        algorithm = str(value["fileHashAlg"])
    except Exception:
        return None
    moments = [moment_of(text) for text in texts]
    if None in moments or not moments[0] < moments[1] or not 0 <= number < 2**159 or algorithm != SHA_256:
        return None
    names = [name for name, _, _ in files]
    if len(set(names)) < len(names) or any(length != 256 for _, _, length in files):
        return None
    if not all(re.fullmatch(r"[A-Za-z0-9_-]+\.[a-z]{3}", name) and len(name) <= 255 for name in names):
        return None
    lines = [f"number {number.to_bytes(number.bit_length() // 8 + 1, 'big').hex()}", f"this {texts[0]}", f"next {texts[1]}"]
    lines += [f"{int(digits, 2):064x} {name}" for name, digits, _ in files]
    return "".join(line + "\n" for line in lines)


def judge_long_lists(judge):
    times = ("20250101000000Z", "20250102000000Z")
    files = [listed(f"{index:05}.roa".encode(), index.to_bytes(32, "big")) for index in range(65537)]
    length = len(files[0])
    lines = "number 01\n" + f"this {times[0]}\nnext {times[1]}\n"
    lines += "".join(f"{index:064x} {index:05}.roa\n" for index in range(65536))
    judge.expect(payload_of(b"\1", *times, files[:65536]), 0, lines, "65536 files")
    more = payload_of(b"\1", *times, files)
    judge.expect(more, 1, f"refused 19 at {len(more) - length}\n", "65537 files")
    twice = payload_of(b"\1", *times, files[:65535] + [files[40000]])
    judge.expect(twice, 1, f"refused 18 at {len(twice) - length + 2}\n", "a name twice")


judge = Judge(sys.argv[1], "manifest")
judge.compare(random.Random(9286), random_payload, lines_of)
judge_long_lists(judge)
