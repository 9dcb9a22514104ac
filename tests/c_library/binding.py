"""bindings/python over librpkirtr.so.0: an index, and a router that is told two records by a cache."""
import ipaddress
import threading

import rpkirtr

NET = ipaddress.ip_network
TEN = rpkirtr.Record(NET("10.0.0.0/8"), 16, 64496)
DB8 = rpkirtr.Record(NET("2001:db8::/32"), 48, 64497)
ANSWER = bytes.fromhex("0103010200000008" "0104000000000014" "010810000a000000" "0000fbf0"
                       "0106000000000020" "01203000" "20010db8000000000000000000000000" "0000fbf1"
                       "0107010200000018" "00000007" "00000e10" "00000258" "00001c20")

with rpkirtr.Index([DB8, TEN, DB8]) as index:
    assert len(index) == 2
    assert index.state("10.1.0.0/16", 64496) == rpkirtr.State.VALID
    assert index.state("10.1.0.0/24", 64496) == rpkirtr.State.INVALID
    assert index.state("192.0.2.0/24", None) == rpkirtr.State.NOT_FOUND
    assert index.covering("2001:db8:1::/48") == [DB8]
index.free()
try:
    len(index)
    raise AssertionError("a freed handle")
except rpkirtr.Error as error:
    assert error.status == rpkirtr.Status.EMPTY
try:
    rpkirtr.Index([TEN, rpkirtr.Record("10.0.0.0/8", 7, 1)])
    raise AssertionError("a bad record")
except rpkirtr.Error as error:
    assert (error.status, error.index) == (rpkirtr.Status.BAD_RECORD, 1)
for route in (("10.1.0.0/16", 64496 + 2**32), ("10.1.0.0/16", -1), ("10.0.0.1/8", 64496), ("10.0.0.0/33", 64496)):
    with rpkirtr.Index([TEN]) as index:
        try:
            index.state(*route)
            raise AssertionError(f"a state of {route}")
        except ValueError:
            pass
for record in (rpkirtr.Record("10.0.0.0/8", 256 + 16, 64496), rpkirtr.Record("10.0.0.0/8", 16, 2**32)):
    try:
        rpkirtr.Index([record])
        raise AssertionError(f"an index over {record}")
    except ValueError:
        pass
with rpkirtr.Router() as router:
    router.connect(100)
    assert router.pull() == bytes.fromhex("0102000000000008")
    assert router.receive(ANSWER, 101) == len(ANSWER)
    assert router.records() == [TEN, DB8]
    assert router.changes() == ([], [TEN, DB8])
    assert router.changes() == ([], [])
    assert router.link() == (rpkirtr.LinkState.IDLE, rpkirtr.End.NONE, 0)
    assert router.committed() == (1, 258, 7, 101, 3600, 600, 7200)
    assert router.next_query_at() == router.wake_at() == 101 + 3600
    told = router.traffic()
    assert told.received == rpkirtr.Carried(len(ANSWER), (0, 0, 0, 1, 1, 0, 1, 1, 0, 0, 0), None)
    assert told.sent == rpkirtr.Carried(8, (0, 0, 1, 0, 0, 0, 0, 0, 0, 0, 0), None)
    router.connection_closed(102)
    assert router.traffic() == told
    assert (router.link().state, router.wake_at()) == (rpkirtr.LinkState.CLOSED, 101 + 7200 + 1)
    router.tick(101 + 7201)
    assert router.changes() == ([TEN, DB8], [])
with rpkirtr.Router() as router:
    router.connect(100)
    router.pull()
    router.receive(bytes.fromhex("010a000100000014" "00000000" "00000004") + b"busy", 101)
    assert router.traffic().received == rpkirtr.Carried(20, (0,) * 10 + (1,), rpkirtr.Report(1, "busy"))
with rpkirtr.Router() as router:
    assert router.config() == rpkirtr.Config()
    own = rpkirtr.Config(refresh=60, keeps_refresh=True, expire=601)
    router.configure(own)
    for wrong, number in (own._replace(refresh=0), 1), (own._replace(expire=600), 2):
        try:
            router.configure(wrong)
            raise AssertionError(f"a router of {wrong}")
        except rpkirtr.TimingError as error:
            assert error.number == number
    assert router.config() == own
    router.connect(100)
    router.pull()
    router.receive(ANSWER, 101)
    assert router.committed() == (1, 258, 7, 101, 60, 600, 7200)

assert rpkirtr.version() == "1.1.0"
assert [rpkirtr.state_name(it) for it in rpkirtr.State] == ["not-found", "valid", "invalid"]
assert [rpkirtr.link_name(it) for it in rpkirtr.LinkState] == ["closed", "idle", "asked", "answering", "ended"]
assert (rpkirtr.end_name(rpkirtr.End.EXPIRED), rpkirtr.end_name(9)) == ("the committed version expired", "no such end")
assert (rpkirtr.fault_name(14), rpkirtr.fault_name(0)) == ("nextUpdate is not later than thisUpdate", "no such fault")
with rpkirtr.Index([TEN], [], [DB8, TEN]) as index:
    assert len(index) == 2
with rpkirtr.Index() as index:
    assert len(index) == 0
index = rpkirtr.Index([TEN])
further = index.share()
index.free()
assert (len(further), further.state("10.1.0.0/16", 64496)) == (1, rpkirtr.State.VALID)
try:
    index.share()
    raise AssertionError("a further handle of no index")
except rpkirtr.Error as error:
    assert error.status == rpkirtr.Status.EMPTY


def look_up(found):
    """Looks a route up, over one handle of several threads."""
    found.append(sum(further.state("10.1.0.0/16", 64496) == rpkirtr.State.VALID and len(further) == 1 for _ in range(2000)))


counts = []
threads = [threading.Thread(target=look_up, args=(counts,)) for _ in range(4)]
for thread in threads:
    thread.start()
for thread in threads:
    thread.join()
assert counts == [2000] * 4
further.free()
with rpkirtr.Router() as router:
    assert (router.next_query_at(), router.connect_failed(100), router.connect_failed(700)) == (rpkirtr.NEVER, 700, 1300)
    router.configure(rpkirtr.Config(retry=30))
    assert router.connect_failed(700) == 730
    try:
        router.configure(rpkirtr.Config(most=0))
        raise AssertionError("a router of no record")
    except rpkirtr.Error as error:
        assert error.status == rpkirtr.Status.RANGE
try:
    rpkirtr.Index([TEN], [DB8, rpkirtr.Record("10.0.0.0/8", 33, 1)])
    raise AssertionError("a bad record")
except rpkirtr.Error as error:
    assert (error.status, error.list_index, error.index) == (rpkirtr.Status.BAD_RECORD, 1, 1)
with rpkirtr.Router() as router:
    router.connect(100)
    router.pull()
    router.receive(ANSWER, 101)
    index = router.index()
with index:
    assert (len(index), index.state("10.1.0.0/16", 64496)) == (2, rpkirtr.State.VALID)
ROA = bytes.fromhex("3022" "020300fbf0" "301b" "3019" "04020001" "3013" "30070302000a020110" "30080303060a4002010b")
with rpkirtr.Roa(ROA) as roa:
    assert (roa.asn, len(roa)) == (64496, 2)
    assert roa.records() == [TEN, rpkirtr.Record(NET("10.64.0.0/10"), 11, 64496)]
try:
    rpkirtr.Roa(ROA[:30])
    raise AssertionError("a ROA that is cut off")
except rpkirtr.PayloadError as error:
    assert (error.status, error.number, error.offset) == (rpkirtr.Status.BAD_PAYLOAD, 1, 0)
MANIFEST = bytes.fromhex("305e020101180f") + b"20250101000000Z" + bytes.fromhex("180f") + b"20250102000000Z" + bytes.fromhex(
    "0609608648016503040201" "302c302a1605612e63726c032100" "ba7816bf8f01cfea414140de5dae2223b00361a396177a9cb410ff61f20015ad")
with rpkirtr.Manifest(MANIFEST) as manifest:
    assert (manifest.number, manifest.times, len(manifest)) == (1, (1735689600, 1735776000), 1)
    assert manifest.files() == [rpkirtr.ListedFile("a.crl", MANIFEST[-32:])]
try:
    rpkirtr.Manifest(MANIFEST[:-1])
    raise AssertionError("a manifest that is cut off")
except rpkirtr.PayloadError as error:
    assert (error.status, error.number, error.offset) == (rpkirtr.Status.BAD_PAYLOAD, 1, 0)
with rpkirtr.Cache(258, 772, 7) as cache, rpkirtr.Router() as router:
    assert (cache.current(), len(cache), bool(cache)) == (None, 0, True)
    assert cache.publish([DB8, TEN, TEN])
    assert not cache.publish([TEN, DB8])
    assert (cache.current(), len(cache)) == ((7, 2), 2)
    try:
        cache.publish([TEN, rpkirtr.Record("10.0.0.0/8", 33, 1)])
        raise AssertionError("a bad record")
    except rpkirtr.Error as error:
        assert (error.status, error.index) == (rpkirtr.Status.BAD_RECORD, 1)
    assert (cache.open(), cache.open()) == (0, 1)
    cache.close(0)
    for call in (cache.close, cache.is_open, cache.notify, cache.pull):
        try:
            call(0)
            raise AssertionError("a connection that is closed")
        except rpkirtr.Error as error:
            assert error.status == rpkirtr.Status.NO_CONNECTION
    router.connect(100)
    assert cache.receive(1, router.pull()) == 8
    assert cache.has_bytes(1) and not cache.notify(1)
    sent = cache.pull(1)
    assert sent == ANSWER and router.receive(sent, 101) == len(ANSWER)
    assert router.records() == [TEN, DB8]
    assert cache.notify(1) and cache.pull(1) == bytes.fromhex("010001020000000c00000007")
    assert cache.is_open(1) and not cache.has_bytes(1)
for settings, number in (((1, 2, 3, 16, 0), 1), ((1, 2, 3, 16, 3600, 600, 3600), 2)):
    try:
        rpkirtr.Cache(*settings)
        raise AssertionError("bad intervals")
    except rpkirtr.TimingError as error:
        assert (error.status, error.number) == (rpkirtr.Status.BAD_TIMING, number)
for settings in ((2**16, 2, 3), (1, -1, 3), (1, 2, 2**32)):
    try:
        rpkirtr.Cache(*settings)
        raise AssertionError(f"a cache of {settings}")
    except ValueError:
        pass
