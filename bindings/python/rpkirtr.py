"""Both ends of the RPKI-to-Router protocol, and origin validation, over librpkirtr.so.0.

    with rpkirtr.Index([rpkirtr.Record("192.0.2.0/24", 24, 64496)]) as index:
        index.state("192.0.2.0/24", 64496)      # State.VALID

A router and a cache do no input or output: hand over what was received by `receive`, and send what `pull` gives. Moments are whole seconds of one clock.

A text that is no prefix, and a number that does not fit, are a ValueError. What the library refuses is an `Error`.
"""
from __future__ import annotations

import ctypes
import enum
import ipaddress
from typing import Iterable, List, NamedTuple, Optional, Tuple, Union

Network = Union[ipaddress.IPv4Network, ipaddress.IPv6Network]
# One call at a time is made on a handle: a call keeps the interpreter's lock.
_library = ctypes.PyDLL("librpkirtr.so.0")
NEVER = 2**64 - 1
ABI_VERSION = 0
if _library.rpkirtr_abi_version() != ABI_VERSION:
    raise ImportError(f"librpkirtr.so.0 has ABI version {_library.rpkirtr_abi_version()}, and this module needs {ABI_VERSION}")


class State(enum.IntEnum):
    """The state of a route (RFC 6811 section 2)."""

    NOT_FOUND = 0
    VALID = 1
    INVALID = 2


class Status(enum.IntEnum):
    """The status that a call returns."""

    OK = 0
    EMPTY = 1
    LIVE = 2
    NO_MEMORY = 3
    BAD_RECORD = 4
    BAD_ROUTE = 5
    BAD_VERSION = 6
    RANGE = 7
    NOT_LINKED = 8
    BUSY = 9
    BAD_PAYLOAD = 10
    BAD_TIMING = 11
    NO_CONNECTION = 12
    NO_DATA = 13
    BAD_KEEP = 14
    BAD_STRUCTURE = 15


class LinkState(enum.IntEnum):
    """The state of a router's link to its cache."""

    CLOSED = 0
    IDLE = 1
    ASKED = 2
    ANSWERING = 3
    ENDED = 4


class End(enum.IntEnum):
    """How a link ended."""

    NONE = 0
    REPORTED = 1
    TOLD = 2
    MALFORMED = 3
    MEMORY = 4
    EXPIRED = 5
    TOO_MANY = 6


class Link(NamedTuple):
    """A router's link: how it ended, if it did, and the code of the Error Report, if there was one (RFC 8210 section 12)."""

    state: LinkState
    end: End
    code: int


class Committed(NamedTuple):
    """The committed version. `moment` is when it was committed; the intervals are in seconds."""

    version: int
    session: int
    serial: int
    moment: int
    refresh: int
    retry: int
    expire: int


class Config(NamedTuple):
    """The configuration of a router: intervals of its own, in seconds, which of them it keeps, and the most records that it may hold. An interval
    that is kept holds whatever the cache says. Any other holds if the cache says none: in version 0 of the protocol, and for retry before the
    first commit."""

    refresh: int = 3600
    retry: int = 600
    expire: int = 7200
    keeps_refresh: bool = False
    keeps_retry: bool = False
    keeps_expire: bool = False
    most: int = 16777215


class Report(NamedTuple):
    """What an Error Report says (RFC 8210 section 5.11): its code, and its text up to the first control character, at most 63 octets."""

    code: int
    text: str


class Carried(NamedTuple):
    """What one direction of a connection carried: how many bytes, how many whole PDUs by the number of their type (RFC 8210 section 5; five is
    none), and the last Error Report, if there was one."""

    bytes: int
    pdus: Tuple[int, ...]
    report: Optional[Report]


class Traffic(NamedTuple):
    """What a connection of a router carried: the received bytes that the router consumed, and the bytes that were pulled."""

    received: Carried
    sent: Carried


def _text(name: str, *arguments: object) -> str:
    text = ctypes.create_string_buffer(64)
    getattr(_library, f"rpkirtr_{name}")(*arguments, text)
    return text.value.decode()


def version() -> str:
    """The version of the library."""
    return _text("version")


def strerror(status: int) -> str:
    """What a status means."""
    return _text("strerror", ctypes.c_int32(status))


def state_name(state: int) -> str:
    """The name of the state of a route."""
    return _text("state_name", ctypes.c_int32(state))


def link_name(state: int) -> str:
    """The name of the state of a link."""
    return _text("link_name", ctypes.c_uint8(state))


def end_name(end: int) -> str:
    """How a link ended, without the code of the Error Report."""
    return _text("end_name", ctypes.c_uint8(end))


def fault_name(number: int) -> str:
    """What is at fault in a payload, by the number of the fault."""
    return _text("fault_name", ctypes.c_uint32(number))


class Error(Exception):
    """A status other than OK. `index` is that of the record that is none, if there is one, and `list_index` that of its list."""

    def __init__(self, status: int, index: Optional[int] = None, list_index: Optional[int] = None) -> None:
        place = "" if index is None else f" at {index}"
        place += "" if list_index is None else f" of list {list_index}"
        super().__init__(f"{strerror(status)}{place}")
        self.status = Status(status)
        self.index = index
        self.list_index = list_index


class PayloadError(Error):
    """Bytes that are no payload: the number of the fault, and the offset of the byte at which it shows."""

    def __init__(self, number: int, offset: int) -> None:
        super().__init__(Status.BAD_PAYLOAD)
        self.args = (f"{self.args[0]}: fault {number} at offset {offset}",)
        self.number = number
        self.offset = offset


class TimingError(Error):
    """Intervals that are not valid: one is out of its range (1), or expire is not larger than both others (2)."""

    def __init__(self, number: int) -> None:
        super().__init__(Status.BAD_TIMING)
        self.args = (f"{self.args[0]}: fault {number}",)
        self.number = number


class Record(NamedTuple):
    """A validated ROA payload."""

    prefix: Union[str, Network]
    max_len: int
    asn: int


class _Record(ctypes.Structure):
    _fields_ = [("addr", ctypes.c_uint8 * 16), ("asn", ctypes.c_uint32), ("family", ctypes.c_uint8), ("len", ctypes.c_uint8),
                ("max_len", ctypes.c_uint8), ("zero_", ctypes.c_uint8)]


class _Route(ctypes.Structure):
    _fields_ = [("addr", ctypes.c_uint8 * 16), ("origin", ctypes.c_uint32), ("family", ctypes.c_uint8), ("len", ctypes.c_uint8),
                ("has_origin", ctypes.c_uint8), ("zero_", ctypes.c_uint8)]


class _Link(ctypes.Structure):
    _fields_ = [("state", ctypes.c_uint8), ("end", ctypes.c_uint8), ("code", ctypes.c_uint16)]


class _Committed(ctypes.Structure):
    _fields_ = [("moment", ctypes.c_uint64), ("serial", ctypes.c_uint32), ("refresh", ctypes.c_uint32), ("retry", ctypes.c_uint32),
                ("expire", ctypes.c_uint32), ("zero_", ctypes.c_uint32), ("session", ctypes.c_uint16), ("version", ctypes.c_uint8),
                ("is_committed", ctypes.c_uint8)]


class _Config(ctypes.Structure):
    _fields_ = [("size_", ctypes.c_uint32), ("refresh", ctypes.c_uint32), ("retry", ctypes.c_uint32), ("expire", ctypes.c_uint32),
                ("most", ctypes.c_uint32), ("keeps_refresh", ctypes.c_uint8), ("keeps_retry", ctypes.c_uint8),
                ("keeps_expire", ctypes.c_uint8), ("zero_", ctypes.c_uint8)]


class _Carried(ctypes.Structure):
    _fields_ = [("bytes", ctypes.c_uint64), ("pdus", ctypes.c_uint64 * 11), ("text", ctypes.c_char * 64), ("code", ctypes.c_uint16),
                ("has_report", ctypes.c_uint8), ("zero_", ctypes.c_uint8 * 5)]


class _Traffic(ctypes.Structure):
    _fields_ = [("size_", ctypes.c_uint32), ("zero_", ctypes.c_uint32), ("received", _Carried), ("sent", _Carried)]


class _List(ctypes.Structure):
    _fields_ = [("records", ctypes.POINTER(_Record)), ("records_len", ctypes.c_size_t)]


class _Fault(ctypes.Structure):
    _fields_ = [("offset", ctypes.c_uint64), ("kind", ctypes.c_uint32), ("zero_", ctypes.c_uint32)]


class _Digest(ctypes.Structure):
    _fields_ = [("octets", ctypes.c_uint8 * 32)]


def _within(bits: int, number: int) -> int:
    """A number of so many bits. (ctypes would cut a larger one off.)"""
    if not 0 <= number < 1 << bits:
        raise ValueError(f"{number} is not from 0 to {(1 << bits) - 1}")
    return number


def _moment(now: int) -> ctypes.c_uint64:
    return ctypes.c_uint64(_within(64, now))


def _prefix(prefix: Union[str, Network]) -> Tuple[bytes, int, int]:
    network = ipaddress.ip_network(prefix)
    return network.network_address.packed.ljust(16, b"\0"), network.version, network.prefixlen


def _record(record: Record) -> _Record:
    addr, family, length = _prefix(record.prefix)
    return _Record((ctypes.c_uint8 * 16)(*addr), _within(32, record.asn), family, length, _within(8, record.max_len), 0)


def _route(prefix: Union[str, Network], origin: Optional[int]) -> _Route:
    addr, family, length = _prefix(prefix)
    return _Route((ctypes.c_uint8 * 16)(*addr), _within(32, origin or 0), family, length, 0 if origin is None else 1, 0)


def _told(record: _Record) -> Record:
    addr = bytes(record.addr)[: 4 if record.family == 4 else 16]
    return Record(ipaddress.ip_network((addr, record.len)), record.max_len, record.asn)


def _carried(it: _Carried) -> Carried:
    return Carried(it.bytes, tuple(it.pdus), Report(it.code, it.text.decode(errors="replace")) if it.has_report else None)


def _check(status: int) -> None:
    if status != Status.OK:
        raise Error(status)


class _Handle:
    """A handle. It is freed at the end of a `with`, at the latest with the object."""

    _name = ""

    def __init__(self) -> None:
        self._handle = ctypes.c_void_p()

    @classmethod
    def _empty(cls):
        made = cls.__new__(cls)
        _Handle.__init__(made)
        return made

    def _call(self, name: str, *arguments: object) -> int:
        return getattr(_library, f"rpkirtr_{self._name}_{name}")(ctypes.byref(self._handle), *arguments)

    def _size(self, name: str, *arguments: object) -> int:
        size = ctypes.c_size_t()
        _check(self._call(name, *arguments, ctypes.byref(size)))
        return size.value

    def free(self) -> None:
        """Frees what the handle stands for. A second call does nothing."""
        self._call("free")

    def __enter__(self):
        return self

    def __exit__(self, *_: object) -> None:
        self.free()

    def __del__(self) -> None:
        self.free()

    def __len__(self) -> int:
        return self._size("count")

    def _records(self, count: int) -> List[Record]:
        room = (_Record * count)()
        self._size("records", ctypes.c_size_t(0), room, ctypes.c_size_t(count))
        return [_told(record) for record in room]


class _Judge(_Handle):
    """What judges routes."""

    def state(self, prefix: Union[str, Network], origin: Optional[int]) -> State:
        """The state of a route; the origin None is the origin NONE."""
        state = ctypes.c_int32()
        _check(self._call("state", ctypes.byref(_route(prefix, origin)), ctypes.byref(state)))
        return State(state.value)

    def covering(self, prefix: Union[str, Network]) -> List[Record]:
        """The records that cover a prefix, in ascending order."""
        route = _route(prefix, None)
        count = self._size("covering", ctypes.byref(route), None, ctypes.c_size_t(0))
        room = (_Record * count)()
        self._size("covering", ctypes.byref(route), room, ctypes.c_size_t(count))
        return [_told(record) for record in room]


class Index(_Judge):
    """Origin validation over records."""

    _name = "index"

    def __init__(self, *lists: Iterable[Record]) -> None:
        """An index over the records of these lists. A record that is listed twice counts once."""
        super().__init__()
        given = [[_record(record) for record in records] for records in lists]
        rooms = [(_Record * len(records))(*records) for records in given]
        told = (_List * len(rooms))(*(_List(room, len(room)) for room in rooms))
        of, bad = ctypes.c_size_t(), ctypes.c_size_t()
        status = self._call("new_of", told, ctypes.c_size_t(len(rooms)), ctypes.byref(of), ctypes.byref(bad))
        if status == Status.BAD_RECORD:
            raise Error(status, bad.value, of.value if len(rooms) > 1 else None)
        _check(status)

    def share(self) -> Index:
        """A further handle of the same index. No record is copied."""
        further = Index._empty()
        _check(self._call("share", ctypes.byref(further._handle)))
        return further


class Router(_Judge):
    """A router: what it has committed, and at most one connection."""

    _name = "router"

    def __init__(self, version: int = 1) -> None:
        super().__init__()
        _check(self._call("new"))
        self.speak(version)

    def speak(self, version: int) -> None:
        """Sets the version of the protocol, 0 or 1, for the next connection and those after it."""
        _check(self._call("speak", ctypes.c_uint8(_within(8, version))))

    def configure(self, config: Config) -> None:
        """Configures the router, from now on: what is committed keeps its intervals."""
        numbers = [_within(32, it) for it in (config.refresh, config.retry, config.expire, config.most)]
        keeps = [int(bool(it)) for it in (config.keeps_refresh, config.keeps_retry, config.keeps_expire)]
        told, fault = _Config(ctypes.sizeof(_Config), *numbers, *keeps, 0), ctypes.c_uint32()
        status = self._call("configure", ctypes.byref(told), ctypes.byref(fault))
        if status == Status.BAD_TIMING:
            raise TimingError(fault.value)
        _check(status)

    def config(self) -> Config:
        """The configuration that was set last, the default one if none was set."""
        told = _Config(ctypes.sizeof(_Config))
        _check(self._call("config", ctypes.byref(told)))
        return Config(told.refresh, told.retry, told.expire, bool(told.keeps_refresh), bool(told.keeps_retry), bool(told.keeps_expire), told.most)

    def connect(self, now: int) -> None:
        """A connection is made, and a query is ready to be pulled."""
        _check(self._call("connect", _moment(now)))

    def connection_closed(self, now: int) -> None:
        """The transport closed the connection."""
        _check(self._call("connection_closed", _moment(now)))

    def connect_failed(self, now: int) -> int:
        """An attempt to connect failed. The time of the next one: one retry interval later. The router stays as it is."""
        at = ctypes.c_uint64()
        _check(self._call("connect_failed", _moment(now), ctypes.byref(at)))
        return at.value

    def tick(self, now: int) -> None:
        """Advances the clock."""
        _check(self._call("tick", _moment(now)))

    def ask(self) -> None:
        """Sends a query on an idle link."""
        _check(self._call("ask"))

    def receive(self, received: bytes, now: int) -> int:
        """Passes received bytes to the router, and returns how many it consumed: none while there are bytes to pull, or if no link is open."""
        piece = bytes(memoryview(received))
        return self._size("receive", piece, ctypes.c_size_t(len(piece)), _moment(now))

    def pull(self, most: int = 4096) -> bytes:
        """The bytes to send, at most `most`."""
        room = (ctypes.c_uint8 * most)()
        pulled = self._size("pull", room, ctypes.c_size_t(most))
        return bytes(room[:pulled])

    def next_query_at(self) -> int:
        """The time of the next query on an idle link, or of the next connection attempt on a closed one. NEVER at first."""
        at = ctypes.c_uint64()
        _check(self._call("next_query_at", ctypes.byref(at)))
        return at.value

    def link(self) -> Link:
        """The link to the cache."""
        it = _Link()
        _check(self._call("link", ctypes.byref(it)))
        return Link(LinkState(it.state), End(it.end), it.code)

    def committed(self) -> Optional[Committed]:
        """The committed version, if there is one."""
        it = _Committed()
        _check(self._call("committed", ctypes.byref(it)))
        return Committed(*(getattr(it, name) for name in Committed._fields)) if it.is_committed else None

    def wake_at(self) -> int:
        """The earliest time at which a tick has an effect: a query is due, or the records expire. NEVER if there is none."""
        at = ctypes.c_uint64()
        _check(self._call("wake_at", ctypes.byref(at)))
        return at.value

    def traffic(self) -> Traffic:
        """What the latest connection carried. When it is closed, nothing changes."""
        it = _Traffic(ctypes.sizeof(_Traffic))
        _check(self._call("traffic", ctypes.byref(it)))
        return Traffic(_carried(it.received), _carried(it.sent))

    def index(self) -> Index:
        """An index over the committed records. It does not change if the router changes."""
        index = Index._empty()
        _check(self._call("index", ctypes.byref(index._handle)))
        return index

    def records(self) -> List[Record]:
        """The committed records, in ascending order."""
        return self._records(len(self))

    def changes(self) -> Tuple[List[Record], List[Record]]:
        """The records that were withdrawn and announced since the last call. The call acknowledges the change."""
        sizes = (ctypes.c_size_t * 2)()
        _check(self._call("changes_begin", ctypes.byref(sizes, 0), ctypes.byref(sizes, ctypes.sizeof(ctypes.c_size_t))))
        told = []
        for name, size in zip(("withdrawn", "announced"), sizes):
            room = (_Record * size)()
            self._size(name, ctypes.c_size_t(0), room, ctypes.c_size_t(size))
            told.append([_told(record) for record in room])
        _check(self._call("changes_taken"))
        return told[0], told[1]


class _Payload(_Handle):
    """The payload of a signed object. Verify its signature first: nothing here does."""

    def __init__(self, payload: bytes) -> None:
        super().__init__()
        fault, piece = _Fault(), bytes(memoryview(payload))
        status = self._call("new", piece, ctypes.c_size_t(len(piece)), ctypes.byref(fault))
        if status == Status.BAD_PAYLOAD:
            raise PayloadError(fault.kind, fault.offset)
        _check(status)


class Roa(_Payload):
    """The payload of a ROA (RFC 9582 section 4). Verify its signature first: nothing here does."""

    _name = "roa"

    @property
    def asn(self) -> int:
        """The AS that may originate the prefixes."""
        asn = ctypes.c_uint32()
        _check(self._call("asn", ctypes.byref(asn)))
        return asn.value

    def records(self) -> List[Record]:
        """The records that the ROA authorizes, in its order."""
        return self._records(len(self))


class ListedFile(NamedTuple):
    """A file that a manifest lists, and the SHA-256 digest of the published object."""

    name: str
    digest: bytes


class Manifest(_Payload):
    """The payload of a manifest (RFC 9286 section 4). Verify its signature first: nothing here does. Nor does it judge whether it is stale."""

    _name = "manifest"

    @property
    def number(self) -> int:
        """The manifest number."""
        room = (ctypes.c_uint8 * 20)()
        size = self._size("number", room, ctypes.c_size_t(len(room)))
        return int.from_bytes(bytes(room[:size]), "big")

    @property
    def times(self) -> Tuple[int, int]:
        """thisUpdate and nextUpdate, in seconds since the beginning of 1970 in UTC."""
        times = (ctypes.c_uint64 * 2)()
        _check(self._call("times", ctypes.byref(times, 0), ctypes.byref(times, ctypes.sizeof(ctypes.c_uint64))))
        return times[0], times[1]

    def files(self) -> List[ListedFile]:
        """The files that the manifest lists, in its order."""
        return [self._file(index) for index in range(len(self))]

    def _file(self, index: int) -> ListedFile:
        room, size, digest = (ctypes.c_uint8 * 255)(), ctypes.c_size_t(), _Digest()
        _check(self._call("file", ctypes.c_size_t(index), room, ctypes.c_size_t(len(room)), ctypes.byref(size), ctypes.byref(digest)))
        return ListedFile(bytes(room[: size.value]).decode("ascii"), bytes(digest.octets))


class Cache(_Handle):
    """A cache, which answers the queries of its routers. A connection is a number. The thread that made a cache alone uses and frees it."""

    _name = "cache"

    def __init__(self, session: int, session0: int, start: int, keep: int = 16, refresh: int = 3600, retry: int = 600, expire: int = 7200) -> None:
        """It has these sessions in versions 1 and 0 of the protocol. Its first version has the serial `start`. It keeps `keep` versions before the
        current one, and sends these intervals, in seconds."""
        super().__init__()
        numbers = [ctypes.c_uint16(_within(16, it)) for it in (session, session0)]
        numbers += [ctypes.c_uint32(_within(32, it)) for it in (start, keep, refresh, retry, expire)]
        fault = ctypes.c_uint32()
        status = self._call("new", *numbers, ctypes.byref(fault))
        if status == Status.BAD_TIMING:
            raise TimingError(fault.value)
        _check(status)

    def publish(self, records: Iterable[Record]) -> bool:
        """Publishes the set of records, and returns whether it is a new version. If the current version has the same set, none is added."""
        given = [_record(record) for record in records]
        bad, unchanged = ctypes.c_size_t(), ctypes.c_uint8()
        status = self._call("publish", (_Record * len(given))(*given), ctypes.c_size_t(len(given)), ctypes.byref(bad), ctypes.byref(unchanged))
        if status == Status.BAD_RECORD:
            raise Error(status, bad.value)
        _check(status)
        return unchanged.value == 0

    def current(self) -> Optional[Tuple[int, int]]:
        """The serial of the current version, and how many records it has, if something is published."""
        serial, count = ctypes.c_uint32(), ctypes.c_size_t()
        status = self._call("current", ctypes.byref(serial), ctypes.byref(count))
        if status == Status.NO_DATA:
            return None
        _check(status)
        return serial.value, count.value

    def __len__(self) -> int:
        current = self.current()
        return 0 if current is None else current[1]

    def __bool__(self) -> bool:
        return True

    def open(self) -> int:
        """Opens a connection to a router. Its number is the least that is free."""
        conn = ctypes.c_uint32()
        _check(self._call("open", ctypes.byref(conn)))
        return conn.value

    def close(self, conn: int) -> None:
        """Closes a connection, and drops the bytes that are not yet pulled."""
        _check(self._call("close", self._conn(conn)))

    def receive(self, conn: int, received: bytes) -> int:
        """Passes received bytes to the cache, and returns how many it consumed: none while there are bytes to pull, or if the connection has ended."""
        piece = bytes(memoryview(received))
        return self._size("receive", self._conn(conn), piece, ctypes.c_size_t(len(piece)))

    def pull(self, conn: int, most: int = 4096) -> bytes:
        """The bytes to send, at most `most`."""
        room = (ctypes.c_uint8 * most)()
        pulled = self._size("pull", self._conn(conn), room, ctypes.c_size_t(most))
        return bytes(room[:pulled])

    def notify(self, conn: int) -> bool:
        """Makes a Serial Notify ready to be pulled, and returns True. It returns False if nothing is published, if there are bytes to pull, or if
        the connection has ended."""
        return self._flag("notify", conn)

    def has_bytes(self, conn: int) -> bool:
        """Whether there are bytes to pull."""
        return self._flag("has_bytes", conn)

    def is_open(self, conn: int) -> bool:
        """Whether a connection continues. The remaining bytes can be pulled after its end, too."""
        return self._flag("is_open", conn)

    @staticmethod
    def _conn(conn: int) -> ctypes.c_uint32:
        return ctypes.c_uint32(_within(32, conn))

    def _flag(self, name: str, conn: int) -> bool:
        flag = ctypes.c_uint8()
        _check(self._call(name, self._conn(conn), ctypes.byref(flag)))
        return flag.value != 0
