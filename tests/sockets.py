#!/usr/bin/env python3
"""The commands serve, fetch and loop over sockets of this machine.

usage: tests/sockets.py PROGRAM [SHIM]

SHIM is what tests/lib/accepting.c was compiled to; without it no call for a connection fails. The other end of each connection is a function
here, or the program itself. It exits with 1 if something differs, and prints the part and the line."""
import errno
import os
import socket
import struct
import subprocess
import sys
import tempfile
import threading
import time

sys.path.insert(0, f"{os.path.dirname(os.path.abspath(__file__))}/lib")
import checks
from cases.shared import ANNOUNCEMENT, BAD, CACHE_RESPONSE, DEVICE, END_OF_DATA, ENTRY, LIST, RESET_QUERY, SERIAL_QUERY
from checks import expect
from common import connected, free_port, received, write

RESET, QUERY = bytes.fromhex(RESET_QUERY), bytes.fromhex(SERIAL_QUERY)
BEGIN, ANNOUNCED, END = bytes.fromhex(CACHE_RESPONSE), bytes.fromhex(ANNOUNCEMENT), bytes.fromhex(END_OF_DATA)
ANSWER = BEGIN + ANNOUNCED + END
NO_DATA = bytes.fromhex("010a000200000018000000080102000000000008" + "00000000")

program, shim = "", ""


def runs(words, status, output, errors=""):
    ran = subprocess.run([program, *words.split(" ")], stdin=subprocess.DEVNULL, stdout=subprocess.PIPE, stderr=subprocess.PIPE, timeout=60)
    expect(words, (ran.returncode, ran.stdout.decode(), ran.stderr.decode()), (status, output, errors))


def served(clients, status=0, output=None, errors="", extra=""):
    """Serves these clients, one after the other."""
    port = free_port()
    words = f"serve --port {port} --session 4660 --start 5 --vrps v.json --connections {len(clients)}{extra}"
    with subprocess.Popen([program, *words.split(" ")], stdin=subprocess.DEVNULL, stdout=subprocess.PIPE, stderr=subprocess.PIPE) as ran:
        for client in clients:
            with connected(port) as peer:
                client(peer)
        out, err = ran.communicate(timeout=60)
    expect(words, (ran.returncode, out.decode(), err.decode()), (status, f"served {len(clients)}\n" if output is None else output, errors))


def asks_once(peer):
    peer.sendall(RESET)
    peer.shutdown(socket.SHUT_WR)
    expect("the answer to a Reset Query", received(peer, 1000), ANSWER)


def asks_in_version_0(session):
    def asks(peer):
        peer.sendall(bytes.fromhex("0002000000000008"))
        answer = bytes.fromhex(f"0003{session}00000008") + b"\0" + ANSWER[9:28] + bytes.fromhex(f"0007{session}0000000c00000005")
        expect("the answer to a Reset Query of version 0", received(peer, len(answer)), answer)
        peer.sendall(RESET)
        expect("the report on version 1", received(peer, 1000), bytes.fromhex("000a00040000001800000008010200000000000800000000"))

    return asks


def waits_for_its_answers(peer):
    peer.sendall(RESET[:3])
    time.sleep(0.02)
    peer.sendall(RESET[3:])
    expect("the first answer", received(peer, len(ANSWER)), ANSWER)
    peer.sendall(QUERY)
    expect("the second answer", received(peer, len(BEGIN + END)), BEGIN + END)


def asks_twice_at_once(peer):
    peer.sendall(RESET + QUERY)
    peer.shutdown(socket.SHUT_WR)
    expect("two answers", received(peer, 1000), ANSWER + BEGIN + END)


def closes_within_a_unit(peer):
    peer.sendall(RESET[:5])


def sends_what_no_router_sends(peer):
    peer.sendall(bytes.fromhex("0108000000000008"))
    expect("the report", received(peer, 1000), bytes.fromhex("010a00030000001800000008010800000000000800000000"))


def in_two_pieces(size):
    def asks(peer):
        peer.setsockopt(socket.IPPROTO_TCP, socket.TCP_NODELAY, 1)
        peer.sendall(RESET[:size])
        time.sleep(0.01)
        peer.sendall(RESET[size:])
        expect(f"the answer to a query in pieces of {size} and {8 - size}", received(peer, len(ANSWER)), ANSWER)

    return asks


def sends_rubbish(peer):
    peer.sendall(bytes(range(200, 256)))
    expect("the code of the report", received(peer, 1000)[:4], bytes.fromhex("010a0004"))


def sends_on_behind_a_fault(peer):
    """Bytes that the cache does not read do not take its report back: the connection ends, and is not reset."""
    peer.sendall(bytes.fromhex("0108000000000008") + bytes(200_000))
    try:
        expect("the report, and the end", received(peer, 1000), bytes.fromhex("010a00030000001800000008010800000000000800000000"))
    except ConnectionResetError:
        expect("the end after a report", "a reset", "the end")


def hangs_up(peer):
    """Resets the connection in the middle of an answer."""
    peer.sendall(RESET)
    received(peer, 4)
    peer.setsockopt(socket.SOL_SOCKET, socket.SO_LINGER, struct.pack("ii", 1, 0))


def serves():
    served([in_two_pieces(size) for size in range(1, 8)])
    served([sends_rubbish, asks_once])
    served([sends_on_behind_a_fault, asks_once])
    served([hangs_up, asks_once], 3, errors=DEVICE)
    served([])
    served([asks_once])
    served([asks_in_version_0("1234"), asks_once, asks_in_version_0("1234")])
    served([asks_in_version_0("0777"), asks_once], extra=" --session0 1911")
    served([waits_for_its_answers, closes_within_a_unit, asks_twice_at_once, sends_what_no_router_sends, asks_once])
    runs("serve --port 0 --session 4660 --start 5 --vrps v.json --connections 0", 0, "served 0\n")
    runs("serve --port 0 --session 4660 --start 5 --vrps gone --connections 0", 3, "", DEVICE)
    runs("serve --port 0 --session 4660 --start 5 --vrps bad --connections 0", 1, "refused list\n")
    for words in ("--port 65536 --session 1", "--port 0 --session 65536", "--port -1 --session 1", "--port 00 --session 1", "--session 1", "--port 0 --session 1 --session0 65536"):
        runs(f"serve {words} --start 5 --vrps v.json --connections 0", 2, "", BAD)
    runs("serve --port 0 --session 1 --start 4294967296 --vrps v.json --connections 0", 2, "", BAD)
    runs("serve --port 0 --session 1 --start 5 --vrps v.json --connections 4294967296", 2, "", BAD)
    with socket.socket() as taken:
        taken.bind(("127.0.0.1", 0))
        taken.listen()
        runs(f"serve --port {taken.getsockname()[1]} --session 4660 --start 5 --vrps bad --connections 0", 3, "", DEVICE)


def fetched(reply, status, output, errors="", cut=0, question=RESET, extra=""):
    """Fetches from a cache that reads a question and sends these bytes, those before the cut first, and then the end of the connection."""
    with socket.socket() as listener:
        listener.bind(("127.0.0.1", 0))
        listener.listen()
        listener.settimeout(20)

        def answer():
            peer, _address = listener.accept()
            with peer:
                expect("the question, in one piece", peer.recv(1000), question)
                peer.setsockopt(socket.IPPROTO_TCP, socket.TCP_NODELAY, 1)
                peer.sendall(reply[:cut])
                time.sleep(0.005 if cut else 0)
                peer.sendall(reply[cut:])
                peer.shutdown(socket.SHUT_WR)
                while peer.recv(1000):
                    pass

        other = threading.Thread(target=answer)
        other.start()
        runs(f"fetch --port {listener.getsockname()[1]}{extra}", status, output, errors)
        other.join(20)


def fetches():
    fetched(ANSWER, 0, f"committed 4660 5\n[{ENTRY}]\n")
    fetched(BEGIN + END, 0, "committed 4660 5\n[]\n")
    fetched(NO_DATA, 1, "no-data\n")
    fetched(bytes.fromhex("010a00010000001000000000") + bytes(4), 1, "ended 2\n")
    fetched(bytes.fromhex("0104000000000000"), 1, "ended 1\n")
    fetched(bytes.fromhex("010a000000000010ffffffff00000000"), 1, "ended 3\n")
    fetched(b"", 1, "closed\n")
    for cut in range(1, len(ANSWER)):
        fetched(ANSWER, 0, f"committed 4660 5\n[{ENTRY}]\n", cut=cut)
    for end in range(1, len(ANSWER), 5):
        fetched(ANSWER[:end], 1, "closed\n")
    for units in ((1, 0, 2), (2, 0, 1), (0, 1, 1, 2), (1, 2, 0)):
        fetched(b"".join((BEGIN, ANNOUNCED, END)[it] for it in units), 1, "ended 1\n")
    in_version_0 = {"question": bytes.fromhex("0002000000000008"), "extra": " --rtr-version 0"}
    response, end = bytes.fromhex("0003077700000008"), bytes.fromhex("000707770000000c00000005")
    for cut in range(0, 40):
        fetched(response + b"\0" + ANNOUNCED[1:] + end, 0, f"committed 1911 5\n[{ENTRY}]\n", cut=cut, **in_version_0)
    fetched(ANSWER, 1, "ended 1\n", **in_version_0)
    fetched(ANSWER, 0, f"committed 4660 5\n[{ENTRY}]\n", extra=" --rtr-version 1")
    runs(f"fetch --port {free_port()}", 3, "", DEVICE)
    for words in ("fetch", "fetch --port", "fetch --port x", "fetch --port 65536", "fetch --port 1 --port 1", "fetch 1"):
        runs(words, 2, "", BAD)


def both():
    """The program serves itself."""
    port = free_port()
    words = f"serve --port {port} --session 4660 --session0 1911 --start 5 --vrps many.json --connections 3"
    with subprocess.Popen([program, *words.split(" ")], stdin=subprocess.DEVNULL, stdout=subprocess.PIPE) as ran:
        connected(port).close()
        runs(f"fetch --port {port}", 0, f"committed 4660 5\n{MANY}\n")
        runs(f"fetch --port {port} --rtr-version 0", 0, f"committed 1911 5\n{MANY}\n")
        expect(words, (ran.communicate(timeout=60)[0].decode(), ran.returncode), ("served 3\n", 0))


def loops():
    for route, state in (("192.0.2.0/24 64496", "valid"), ("192.0.2.0/25 64496", "invalid"), ("198.51.100.0/24 none", "not-found")):
        runs(f"loop --session 4660 --start 5 --vrps v.json {route}", 0, f"committed 4660 5\n{state}\n")
    runs("loop --session 1 --start 4294967295 --vrps many.json 10.0.7.0/24 1", 0, "committed 1 4294967295\nvalid\n")
    runs("loop --session 1 --start 5 --vrps gone 10.0.0.0/33 1", 1, "refused word\n")
    runs("loop --session 1 --start 5 --vrps gone 10.0.0.0/8 1", 3, "", DEVICE)
    runs("loop --session 1 --start 5 --vrps bad 10.0.0.0/8 1", 1, "refused list\n")
    runs("loop --session 1 --start 5 --vrps bad 10.0.0.0/8", 2, "", BAD)


def closed_streams():
    """Where standard streams are closed, no socket takes what is printed for them."""
    with socket.socket() as listener:
        listener.bind(("127.0.0.1", 0))
        listener.listen()
        listener.settimeout(20)
        for closed in ("0<&-", "1>&-", "2>&-", "0<&- 1>&- 2>&-"):
            ran = subprocess.Popen(["sh", "-c", f'exec "$0" fetch --port {listener.getsockname()[1]} {closed}', program], stdin=subprocess.DEVNULL, stdout=subprocess.PIPE, stderr=subprocess.PIPE)
            try:
                peer, _address = listener.accept()
                with peer:
                    peer.sendall(ANSWER)
                    peer.shutdown(socket.SHUT_WR)
                    expect(f"what a cache receives, {closed}", received(peer, 1000), RESET)
            except TimeoutError:
                expect(f"a connection, {closed}", "none", "one")
            ran.communicate(timeout=60)
            expect(f"status of fetch, {closed}", ran.returncode, 3 if "1>&-" in closed else 0)
    for closed in ("0<&-", "1>&-", "2>&-", "0<&- 1>&-", "0<&- 1>&- 2>&-"):
        port = free_port()
        script = f'exec "$0" serve --port {port} --session 4660 --start 5 --vrps v.json --connections 1 {closed}'
        with subprocess.Popen(["sh", "-c", script, program], stdin=subprocess.DEVNULL, stdout=subprocess.DEVNULL, stderr=subprocess.DEVNULL) as ran:
            with connected(port) as peer:
                asks_once(peer)
        expect(f"status of serve, {closed}", ran.returncode, 3 if "1>&-" in closed else 0)


def failed_accepts():
    """A connection that its router gave up before it was taken, and a call that was interrupted, do not end the command; any other fault does."""
    for faults, status, output, errors in (
        ((errno.ECONNABORTED, errno.EINTR, errno.ECONNABORTED), 0, "served 1\n", ""),
        ((errno.EINTR, errno.EMFILE), 3, "", DEVICE),
    ):
        port = free_port()
        words = f"serve --port {port} --session 4660 --start 5 --vrps v.json --connections 1"
        given = {**os.environ, "LD_PRELOAD": shim, "FAIL": " ".join(map(str, faults))}
        with subprocess.Popen([program, *words.split(" ")], env=given, stdin=subprocess.DEVNULL, stdout=subprocess.PIPE, stderr=subprocess.PIPE) as ran:
            if status == 0:
                with connected(port) as peer:
                    asks_once(peer)
            out, err = ran.communicate(timeout=60)
        expect(f"{words}, where accept fails with {faults}", (ran.returncode, out.decode(), err.decode()), (status, output, errors))


MANY = "[" + ",".join('{"asn":1,"maxLength":24,"prefix":"10.%d.%d.0/24"}' % (n // 256, n % 256) for n in range(5000)) + "]"

if __name__ == "__main__":
    program, shim, failed = os.path.abspath(sys.argv[1]), "".join(map(os.path.abspath, sys.argv[2:])), 0
    with tempfile.TemporaryDirectory() as folder:
        os.chdir(folder)
        for name, text in (("v.json", LIST), ("many.json", MANY), ("bad", "{}")):
            write(name, text)
        for part in (serves, fetches, both, loops, *([failed_accepts] if shim else []), closed_streams):
            checks.begin(part.__name__)
            part()
            failed += len(checks.failures)
        os.chdir("/")
    sys.exit(1 if failed else 0)
