"""Requests for memory that are refused."""
import concurrent.futures
import contextlib
import os
import tempfile

from checks import expect
from common import put
from daemon.shared import FIRST, SECOND, part, text_of
from log import running
from rtr import RESPONSE, Router


@part(needs="shim")
def refused_memory(given):
    """Each request for memory of a daemon is refused in turn. It does not start, as it is out of memory, or its router holds the first
    list and then the next one, at most two connections later."""
    with concurrent.futures.ThreadPoolExecutor(16) as pool:
        numbers, ended = iter(range(1, 5000)), 0
        for found in iter(lambda: list(pool.map(lambda number: refused_once(given, number), [next(numbers) for _ in range(64)])), None):
            ended += sum(found)
            if not all(found):
                break
    print(f"refused_memory: {ended} requests, each refused", flush=True)


def refused_once(given, number):
    """A daemon of which this request is refused. It returns whether one was."""
    name = f"memory-{number}.json"
    put(name, text_of(FIRST))
    with tempfile.TemporaryFile() as refusals:
        env = {"LD_PRELOAD": given.shim, "REFUSE": str(number), "TOLD": str(refusals.fileno())}
        with running(given.program, "--vrps", name, "--listen", "127.0.0.1:0", "--check", "1", "--session", "4660", env=env, inherited=refusals.fileno()) as daemon:
            at = daemon.find("listening")
            if at is None or daemon.find("ready") is None:
                expect(f"request {number}: the end", (daemon.status(), "out of memory" in "".join(daemon.said[-1:])), (4, True))
            else:
                port = int(at["address"].rpartition(":")[2])
                expect(f"request {number}: the first list", held(port), set(FIRST))
                put(name, text_of(SECOND))
                daemon.wait("published", records=len(SECOND))
                expect(f"request {number}: the next list", held(port), set(SECOND))
        return os.fstat(refusals.fileno()).st_size > 0


def held(port):
    """The table of a router that connects again if it was closed or was sent an Error Report."""
    for _ in range(3):
        with contextlib.suppress(OSError, EOFError), contextlib.closing(Router(port)) as router:
            if router.ask() == RESPONSE:
                return router.table
    return None
