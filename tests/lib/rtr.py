"""The RTR protocol of the tests (RFC 6810, RFC 8210): PDUs, and a router that asks a cache.

This is the one RTR client in Python here. It is written from the RFCs and shares nothing with the programs."""
import ipaddress
import socket
import struct

from common import PATIENCE

NOTIFY, SERIAL_QUERY, RESET_QUERY, RESPONSE, IPV4, IPV6, END, CACHE_RESET, ERROR = 0, 1, 2, 3, 4, 6, 7, 8, 10

# The codes of Error Reports (RFC 8210 section 12).
NO_DATA_AVAILABLE, UNSUPPORTED_PDU_TYPE = 2, 5

# Version, PDU type, a field that depends on the type, and the length of the whole PDU (RFC 8210 section 5.1).
HEADER = struct.Struct("!BBHI")

ANNOUNCE, WITHDRAW = 1, 0


def pdu(version, kind, field, rest=b""):
    """A PDU: its header, and what follows the header."""
    return HEADER.pack(version, kind, field, HEADER.size + len(rest)) + rest


def reset_query(version=1):
    return pdu(version, RESET_QUERY, 0)


def serial_query(session, serial, version=1):
    return pdu(version, SERIAL_QUERY, session, struct.pack("!I", serial))


def cache_response(session, version=1):
    return pdu(version, RESPONSE, session)


def prefix_pdu(address, length, longest, asn, version=1, flags=ANNOUNCE):
    """An IPv4 Prefix or an IPv6 Prefix, by the bytes of the address (RFC 8210 sections 5.6 and 5.7)."""
    kind = IPV4 if len(address) == 4 else IPV6
    return pdu(version, kind, 0, struct.pack("!BBBB", flags, length, longest, 0) + address + struct.pack("!I", asn))


def end_of_data(session, serial, refresh=3600, retry=600, expire=7200):
    """An End of Data of version 1 (RFC 8210 section 5.8)."""
    return pdu(1, END, session, struct.pack("!IIII", serial, refresh, retry, expire))


def error_report(code, faulty=b"", text=b"", version=1):
    """An Error Report on a PDU (RFC 8210 section 5.11)."""
    return pdu(version, ERROR, code, struct.pack("!I", len(faulty)) + faulty + struct.pack("!I", len(text)) + text)


def update(table, kind, rest):
    """Announces or withdraws the record of a Prefix PDU: a prefix, its maximum length and its AS."""
    flags, length, longest, _ = rest[:4]
    width = 4 if kind == IPV4 else 16
    address, asn = ipaddress.ip_address(rest[4 : 4 + width]), struct.unpack("!I", rest[4 + width :])[0]
    record = f"{address}/{length}", longest, asn
    if flags & 1 == WITHDRAW:
        table.remove(record)
    elif record in table:
        raise ValueError(f"{record} is announced twice")
    else:
        table.add(record)


class Router:
    """A connection of a router, and the table that follows from what the cache sent."""

    def __init__(self, port, version=1, family=socket.AF_INET, peer=None):
        self.socket = peer or socket.create_connection(("::1" if family == socket.AF_INET6 else "127.0.0.1", port), PATIENCE)
        self.version, self.held, self.at = version, b"", 0
        self.session = self.serial = None
        self.table = set()

    def close(self):
        self.socket.close()

    def receive(self, count):
        """The next bytes. It raises EOFError if the connection ends before."""
        while len(self.held) - self.at < count:
            piece = self.socket.recv(65536)
            if not piece:
                raise EOFError("the cache closed the connection")
            self.held, self.at = self.held[self.at :] + piece, 0
        self.at += count
        return self.held[self.at - count : self.at]

    def unit(self):
        """The next PDU: its type, the field after the type, and what follows the header."""
        _version, kind, field, length = HEADER.unpack(self.receive(HEADER.size))
        return kind, field, self.receive(length - HEADER.size)

    def send(self, kind, field, rest=b""):
        self.socket.sendall(pdu(self.version, kind, field, rest))

    def ask(self):
        """Asks for what is new, reads the answer, and returns how the answer began."""
        if self.session is None:
            self.socket.sendall(reset_query(self.version))
        else:
            self.socket.sendall(serial_query(self.session, self.serial, self.version))
        return self.answer()

    def answer(self):
        """Reads an answer. It returns RESPONSE or CACHE_RESET, or ERROR with the code of the report."""
        kind, field, _ = self.unit()
        while kind == NOTIFY:
            kind, field, _ = self.unit()
        if kind == CACHE_RESET:
            self.session = None
            return CACHE_RESET
        if kind == ERROR:
            return ERROR, field
        if kind != RESPONSE:
            raise ValueError(f"an answer begins with a PDU of type {kind}")
        return self.records(field)

    def records(self, session):
        """Reads the records of an answer, and its End of Data."""
        table = set() if self.session is None else set(self.table)
        while True:
            kind, field, rest = self.unit()
            if kind in (IPV4, IPV6):
                update(table, kind, rest)
            elif kind == END:
                self.session, self.serial, self.table = session, struct.unpack("!I", rest[:4])[0], table
                return RESPONSE
            elif kind != NOTIFY:
                raise ValueError(f"a PDU of type {kind} with the field {field} is within an answer")

    def wait_notify(self):
        """Waits for a Serial Notify, and returns its serial."""
        while True:
            kind, _, rest = self.unit()
            if kind == NOTIFY:
                return struct.unpack("!I", rest)[0]

    def catch_up(self):
        """Asks until the cache has answered with its newest version, and returns the table."""
        while self.ask() == CACHE_RESET:
            pass
        return self.table
