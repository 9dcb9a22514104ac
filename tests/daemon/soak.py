"""A soak: clients come and go while the list changes."""
import contextlib
import ipaddress
import random
import socket
import time

from checks import expect
from common import put
from daemon.shared import part, text_of
from log import running
from rtr import Router, reset_query


class Crowd:
    """Clients that come, go, stop reading and send rubbish, while the list changes."""

    def __init__(self, port, seed):
        self.port, self.random = port, random.Random(seed)
        self.routers, self.lazy, self.came = [], [], 0

    def step(self):
        """One client comes, goes, asks, stops reading or sends rubbish."""
        what = self.random.random()
        if len(self.routers) < 50 and what < 0.5:
            self.routers.append(Router(self.port, version=self.random.randrange(2)))
            self.came += 1
        elif self.routers and what < 0.6:
            self.routers.pop(self.random.randrange(len(self.routers))).close()
        elif what < 0.65:
            self.rubbish()
        elif what < 0.7 and len(self.lazy) < 5:
            it = Router(self.port)
            it.socket.sendall(reset_query())
            self.lazy.append(it)
        elif self.routers:
            self.random.choice(self.routers).catch_up()

    def rubbish(self):
        with contextlib.suppress(OSError), contextlib.closing(Router(self.port)) as it:
            it.socket.sendall(self.random.randbytes(self.random.randrange(1, 100)))
            it.socket.shutdown(socket.SHUT_WR)
            while it.socket.recv(65536):
                pass


@part
def soak(given):
    """Changes the list for --seconds, and then compares the tables of all routers."""
    seconds, seed = given.seconds, given.seed
    pool = [(f"{ipaddress.ip_address(10 * 2**24 + 256 * it)}/24", 24, 64496 + it % 7) for it in range(3000)]
    choice = random.Random(seed)
    put("list.json", text_of(pool[:1000]))
    with running(given.program, "--vrps", "list.json", "--listen", "127.0.0.1:0", "--check", "1", "--keep", "4") as daemon:
        port = daemon.listens()
        crowd, versions, end = Crowd(port, seed), 0, time.time() + seconds
        records = pool[:1000]
        while time.time() < end:
            records = choice.sample(pool, choice.randrange(500, 1500))
            put("list.json", text_of(records))
            daemon.wait("published", records=len(records))
            versions += 1
            for _ in range(20):
                crowd.step()
        for router in crowd.routers:
            expect(f"a table at the end (seed {seed})", router.catch_up() == set(records), True)
        expect("the daemon at the end", daemon.ran.poll(), None)
        print(f"soak: {versions} versions, {crowd.came} routers came, {len(crowd.routers)} hold the last list", flush=True)
