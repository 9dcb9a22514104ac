"""A visitor of the daemon's pages."""
import contextlib
import http.client
import json
import socket
import subprocess

from common import PATIENCE


def got(port, target, method="GET", given=None):
    """The status, the headers and the body of an answer."""
    with contextlib.closing(http.client.HTTPConnection("127.0.0.1", port, timeout=PATIENCE)) as it:
        it.request(method, target, headers=given or {})
        answer = it.getresponse()
        return answer.status, {name.lower(): value for name, value in answer.getheaders()}, answer.read().decode()


def metrics_of(port):
    """The metrics by their names and labels."""
    lines = got(port, "/metrics")[2].splitlines()
    return {name: float(value) for name, value in (it.rsplit(" ", 1) for it in lines if not it.startswith("#"))}


def linted(port):
    """The status, the output and the errors of `promtool check metrics` on the metrics."""
    found = subprocess.run(["promtool", "check", "metrics"], input=got(port, "/metrics")[2], capture_output=True, text=True, timeout=60)
    return found.returncode, found.stdout, found.stderr


def validity(port, prefix, asn):
    """What the page says of a route: its state, and the covering records in their three kinds."""
    status, _, body = got(port, f"/validity?asn={asn}&prefix={prefix.replace('/', '%2F')}")
    judged = json.loads(body)["validated_route"]["validity"] if status == 200 else None
    record = lambda it: (it["prefix"], int(it["max_length"]), int(it["asn"].removeprefix("AS")))
    return judged and (judged["state"], {kind: sorted(map(record, them)) for kind, them in judged["VRPs"].items()})


def raw_answer(port, *pieces):
    """What the daemon answers to bytes that are sent in pieces, until it closes."""
    with contextlib.closing(socket.create_connection(("127.0.0.1", port), PATIENCE)) as it:
        for piece in pieces:
            it.sendall(piece)
        with contextlib.suppress(OSError):
            it.shutdown(socket.SHUT_WR)
        found = b""
        with contextlib.suppress(OSError):
            while piece := it.recv(65536):
                found += piece
        return found
