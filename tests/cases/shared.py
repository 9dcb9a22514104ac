"""What the modules of cases share: the case, and texts, PDUs and payloads that several of them use."""
import hashlib
import inspect
import ipaddress
import os
from dataclasses import dataclass, field
from typing import ClassVar

BAD = "rpkirtr: bad words\n"
DEVICE = "rpkirtr: device failed\n"

# In place of the output or the errors of a case: a stream that takes nothing.
FULL = None


@dataclass
class Case:
    """A run of the program: its words, what must come of it, and the files of the folder in which it runs.

    A text of words has one for each part between blanks. A file is a text or bytes, and a folder a dict of its files. The command of a
    case is the module in which its row stands."""

    # All that were made, in the order in which they stand.
    every: ClassVar[list] = []

    name: str
    words: str | list[str]
    status: int
    output: str | None
    errors: str | None = ""
    files: dict = field(default_factory=dict)

    def __post_init__(self):
        self.words = self.words.split(" ") if isinstance(self.words, str) else self.words
        file, line = row()
        self.command = os.path.basename(file).removesuffix(".py")
        self.label = f"{self.command}/{self.name}"
        self.place = f"tests/cases/{self.command}.py:{line}"
        Case.every.append(self)

    def is_called(self, name):
        return name in (self.command, self.name, self.label)


def row():
    """The file and the line of the row that is being read in a module of cases, whichever function makes a case of it."""
    frame = inspect.currentframe()
    while frame.f_code.co_name != "<module>":
        frame = frame.f_back
    return frame.f_code.co_filename, frame.f_lineno


def bad_words(name, words, files=None):
    return Case(name, words, 2, "", BAD, files or {})


def device_failed(name, words, files=None):
    return Case(name, words, 3, "", DEVICE, files or {})


def lines(*texts):
    return "".join(f"{it}\n" for it in texts)


# AS64496 and 192.0.2.0/24, as an entry of a payload list, and as a list.
ENTRY = '{"asn":64496,"maxLength":24,"prefix":"192.0.2.0/24"}'
LIST = f"[{ENTRY}]"
# The files of a case: that list, and one that is none.
V_JSON, BAD_JSON = {"v.json": LIST}, {"bad.json": '[{"asn":1}]'}

# PDUs of version 1 of the protocol, in a session 4660 at serial 5.
RESET_QUERY, SERIAL_QUERY = "0102000000000008", "010112340000000c00000005"
CACHE_RESPONSE, CACHE_RESET = "0103123400000008", "0108000000000008"
ANNOUNCEMENT = "010400000000001401181800c00002000000fbf0"
END_OF_DATA = "01071234000000180000000500000e100000025800001c20"
# Those of an answer in version 0, in a session 1911: its End of Data tells no intervals.
RESET_QUERY_0, SERIAL_QUERY_0 = "0002000000000008", "000107770000000c00000005"
CACHE_RESPONSE_0, END_OF_DATA_0 = "0003077700000008", "000707770000000c00000005"
ANNOUNCEMENT_0 = "000400000000001401181800c00002000000fbf0"
ROUTER_KEY_0 = "0009010000000020" + "01" * 20 + "0000fbf0"


def error_report(code, pdu, version=1):
    """An Error Report on a PDU, without a text (RFC 8210 section 5.11)."""
    length = len(pdu) // 2
    return f"{version:02x}0a{code:04x}{length + 16:08x}{length:08x}{pdu}00000000"



def announcement(prefix, max_len, asn):
    """The PDU of version 1 that announces a record (RFC 8210 sections 5.6 and 5.7)."""
    net = ipaddress.ip_network(prefix)
    kind, length = (4, 20) if net.version == 4 else (6, 32)
    return f"01{kind:02x}0000{length:08x}01{net.prefixlen:02x}{max_len:02x}00{net.network_address.packed.hex()}{asn:08x}"


# Texts of prefixes, each with that in which it is written (RFC 4291 sections 2.2 and 2.3, RFC 5952 section 4).
PREFIX_TEXTS = {
    **{it: it for it in ("0.0.0.0/0", "10.0.0.0/8", "192.0.2.0/24", "192.0.2.128/25", "192.0.2.1/32", "255.255.255.255/32")},
    **{it: it for it in ("::/0", "::/32", "::/128", "1::/16", "1::8/128", "1:0:2:3:4:5:6:7/128", "::ffff:c000:200/128")},
    **{"0:0:0:0:0:0:0:0/0": "::/0", "0::/0": "::/0", "::0/0": "::/0", "0:0:0:0:0:0:0:1/128": "::1/128", "::000A/128": "::a/128"},
    **{"1:2:3:4:5:6:7::/112": "1:2:3:4:5:6:7:0/112", "::2:3:4:5:6:7:8/128": "0:2:3:4:5:6:7:8/128"},
    **{"1:0:0:2:0:0:0:3/128": "1:0:0:2::3/128", "1:2:3:4:5:6:0:0/96": "1:2:3:4:5:6::/96", "0:0:3:4:5:6:0:0/96": "::3:4:5:6:0:0/96"},
    "ABCD:EF01:2345:6789:ABCD:EF01:2345:6789/128": "abcd:ef01:2345:6789:abcd:ef01:2345:6789/128",
    "2001:DB8:0:0:8:800:200C:417A/128": "2001:db8::8:800:200c:417a/128",
    "FF01:0:0:0:0:0:0:101/128": "ff01::101/128",
    "2001:0DB8:0000:CD30:0000:0000:0000:0000/60": "2001:db8:0:cd30::/60",
    "2001:0DB8::CD30:0:0:0:0/60": "2001:db8:0:cd30::/60",
    "2001:0DB8:0:CD30::/60": "2001:db8:0:cd30::/60",
    "2001:0db8::0001/128": "2001:db8::1/128",
    "2001:db8:0:0:0:0:2:1/128": "2001:db8::2:1/128",
    "2001:db8::0:1/128": "2001:db8::1/128",
    "2001:db8::1:1:1:1:1/128": "2001:db8:0:1:1:1:1:1/128",
    "2001:0:0:1:0:0:0:1/128": "2001:0:0:1::1/128",
    "2001:DB8:0:0:1:0:0:1/128": "2001:db8::1:0:0:1/128",
}


def length_of(prefix):
    return int(prefix.partition("/")[2])


# Parts of the payload of a ROA: the AS number 64496, the two families, and the prefix of 192.0.2.0/24.
AS, IPV4, IPV6, NET = "020300fbf0", "04020001", "04020002", "030400c00002"
# A ROA of that prefix; one with a version; and one whose maximum length 24 is superfluous.
ONE_PREFIX = bytes.fromhex(f"3017 {AS} 3010 300e {IPV4} 3008 3006 {NET}")
WITH_VERSION = bytes.fromhex(f"301c a003020100 {AS} 3010 300e {IPV4} 3008 3006 {NET}")
SUPERFLUOUS = bytes.fromhex(f"301a {AS} 3013 3011 {IPV4} 300b 3009 {NET} 020118")
# A family of one prefix, 2001:db8::/32 with the maximum length 48.
OF_IPV6 = f"3012 {IPV6} 300c 300a 03050020010db8 020130"


def manifest(number, this_update, next_update, file, content):
    """The payload of a manifest of one file, whose name has five characters (RFC 9286 section 4.2)."""
    moments = b"".join(b"\x18\x0f" + it.encode() for it in (this_update, next_update))
    sha256 = bytes.fromhex("0609608648016503040201")
    entry = b"\x16\x05" + file.encode() + b"\x03\x21\x00" + hashlib.sha256(content).digest()
    return b"\x30\x5e\x02\x01" + bytes([number]) + moments + sha256 + b"\x30\x2c\x30\x2a" + entry
