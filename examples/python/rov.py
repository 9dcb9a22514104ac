"""rov.py ADDR PORT: fetches the records of a cache, follows it, and judges the routes of standard input, each a line `PREFIX/LENGTH ORIGIN`, by
the records that are committed then. ORIGIN is the number of an AS, or `none`."""
import os
import selectors
import socket
import sys
import time

import rpkirtr


class Client:
    """A router, its connection, and what was read of standard input."""

    def __init__(self, router: rpkirtr.Router, cache: socket.socket) -> None:
        self.router, self.cache, self.began, self.text, self.ends = router, cache, time.monotonic(), b"", False
        # (standard input may be a file, which epoll refuses)
        self.selector = selectors.PollSelector()
        self.selector.register(cache, selectors.EVENT_READ, self.receive)

    def now(self) -> int:
        return int(time.monotonic() - self.began)

    def send(self) -> None:
        while piece := self.router.pull():
            self.cache.sendall(piece)

    def receive(self) -> None:
        """Reads once and hands over what came."""
        rest = self.cache.recv(65536)
        if not rest:
            raise ConnectionError("the cache closed the connection")
        while rest:
            rest = rest[self.router.receive(rest, self.now()):]
            self.send()
            if self.router.link().state == rpkirtr.LinkState.ENDED:
                raise ConnectionError(f"the link ended: {self.router.link().end.name}")
        if self.router.committed() and sys.stdin not in [it.fileobj for it in self.selector.get_map().values()] and not self.ends:
            self.selector.register(sys.stdin, selectors.EVENT_READ, self.read_routes)

    def read_routes(self) -> None:
        """Reads once, and judges the routes of each whole line."""
        piece = os.read(sys.stdin.fileno(), 65536)
        self.ends = not piece
        *lines, self.text = (self.text + piece).split(b"\n")
        if self.ends and self.text:
            lines.append(self.text)
        for line in lines:
            print(self.judged(line.decode(errors="replace")))
        sys.stdout.flush()

    def judged(self, line: str) -> str:
        try:
            prefix, origin = line.split()
            return self.router.state(prefix, None if origin == "none" else int(origin)).name.lower().replace("_", "-")
        except (ValueError, rpkirtr.Error):
            return "bad route"

    def follow(self) -> None:
        """Follows the cache until standard input ends."""
        while not self.ends:
            pause = min(self.router.wake_at() - self.now(), 3600)
            for key, _ in self.selector.select(max(1, pause)):
                key.data()
            self.router.tick(self.now())
            self.send()


def main(words: list) -> int:
    if len(words) != 2:
        print("usage: rov.py ADDR PORT", file=sys.stderr)
        return 2
    try:
        with socket.create_connection(tuple(words), 30) as cache, rpkirtr.Router() as router:
            client = Client(router, cache)
            router.connect(0)
            client.send()
            client.follow()
    except (OSError, rpkirtr.Error) as error:
        print(f"rov.py: {error}", file=sys.stderr)
        return 1
    return 0


if __name__ == "__main__":
    sys.exit(main(sys.argv[1:]))
