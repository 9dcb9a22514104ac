#!/usr/bin/env python3
"""Tries tools/rpkirtrd-fetch against an HTTPS server on 127.0.0.1: lists that replace the file, and all that must leave it as it is.

usage: tests/fetch.py RPKIRTRD"""
import contextlib
import gzip
import http.server
import os
import re
import shutil
import signal
import socket
import ssl
import subprocess
import sys
import tempfile
import threading
import time

TOP = os.path.realpath(f"{os.path.dirname(os.path.abspath(__file__))}/..")
MADE = 1735689600
LAST_MODIFIED = "Wed, 01 Jan 2025 00:00:00 GMT"


def list_of(origin, count=60):
    return ("[" + ",".join(f'{{"asn":{origin},"maxLength":24,"prefix":"198.51.{it}.0/24"}}' for it in range(count)) + "]").encode()


class Lists(http.server.BaseHTTPRequestHandler):
    """What the server answers, by path: functions of the handler. `asked` has the path and the If-None-Match of each request."""

    answers, asked = {}, []

    def do_GET(self):
        self.asked.append((self.path, self.headers.get("If-None-Match")))
        with contextlib.suppress(OSError):
            self.answers.get(self.path, lambda it: it.send_error(404))(self)

    def begin(self, status=200, **headers):
        self.send_response(status)
        for name, value in headers.items():
            self.send_header(name.replace("_", "-"), value)
        self.end_headers()

    def log_message(self, *_words):
        pass


def plain(body, tag=None, is_packed=False):
    """A whole answer, or 304 if the client has it."""

    def answer(it):
        headers = {"ETag": tag} if tag else {}
        if tag and it.headers.get("If-None-Match") == tag:
            return it.begin(304, **headers)
        sent = gzip.compress(body) if is_packed else body
        it.begin(200, Last_Modified=LAST_MODIFIED, Content_Length=len(sent), **headers, **({"Content-Encoding": "gzip"} if is_packed else {}))
        return it.wfile.write(sent)

    return answer


def cut(body, says_length):
    """Half of a body, with the length of the whole or with none."""

    def answer(it):
        it.begin(200, **({"Content-Length": len(body)} if says_length else {}))
        it.wfile.write(body[: len(body) // 2])

    return answer


def without_length(body):
    def answer(it):
        it.begin()
        it.wfile.write(body)

    return answer


def byte_a_second(it):
    it.begin(200, Content_Length=100000)
    for _ in range(30):
        it.wfile.write(b"[")
        time.sleep(1)


def fails_at_first(then):
    """500 for the first request, and then another answer."""
    asked = []

    def answer(it):
        asked.append(it)
        return it.send_error(500) if len(asked) == 1 else then(it)

    return answer


def silent(_it):
    time.sleep(20)


def redirect(target):
    return lambda it: it.begin(302, Location=target, Content_Length=0, ETag='"of the redirect"')


class Server(http.server.ThreadingHTTPServer):
    daemon_threads = True

    def handle_error(self, *_words):
        """A client that refuses the certificate is no error."""


def serve(folder):
    """An HTTPS server whose certificate is for localhost alone: its port, and the file of the certificate."""
    name = f"{folder}/server"
    subprocess.run(["openssl", "req", "-x509", "-newkey", "rsa:2048", "-nodes", "-days", "2", "-subj", "/CN=localhost", "-addext",
                    "subjectAltName=DNS:localhost", "-keyout", f"{name}.key", "-out", f"{name}.crt"], check=True, capture_output=True)
    server = Server(("127.0.0.1", 0), Lists)
    context = ssl.SSLContext(ssl.PROTOCOL_TLS_SERVER)
    context.load_cert_chain(f"{name}.crt", f"{name}.key")
    # (each thread shakes hands itself, so that a client that goes away stops no other)
    server.socket = context.wrap_socket(server.socket, server_side=True, do_handshake_on_connect=False)
    threading.Thread(target=server.serve_forever, daemon=True).start()
    return server.server_port, f"{name}.crt"


def relay(source, target):
    with contextlib.suppress(OSError):
        while piece := source.recv(65536):
            target.sendall(piece)
        target.shutdown(socket.SHUT_WR)


def proxy(passed):
    """A proxy that knows CONNECT, and notes what it was asked: its port."""
    listener = socket.create_server(("127.0.0.1", 0))

    def turn():
        while True:
            client = listener.accept()[0]
            head = client.recv(4096).decode()
            passed.append(head.split("\r\n")[0])
            server = socket.create_connection(("127.0.0.1", int(re.match(r"CONNECT [a-z]+:(\d+) ", head).group(1))))
            client.sendall(b"HTTP/1.1 200 Connection established\r\n\r\n")
            for pair in ((client, server), (server, client)):
                threading.Thread(target=relay, args=pair, daemon=True).start()

    threading.Thread(target=turn, daemon=True).start()
    return listener.getsockname()[1]


def expect(what, found, wanted):
    if found != wanted:
        sys.exit(f"fetch: {what}: {found!r:.300} in place of {wanted!r:.300}")


class Trial:
    """The script beside the daemon's program, as they are installed, and the folder of the file."""

    def __init__(self, folder, rpkirtrd):
        os.makedirs(f"{folder}/bin")
        os.makedirs(f"{folder}/lists")
        self.script, self.folder, self.file = f"{folder}/bin/rpkirtrd-fetch", f"{folder}/lists", f"{folder}/lists/json"
        shutil.copy(f"{TOP}/tools/rpkirtrd-fetch", self.script)
        os.symlink(os.path.abspath(rpkirtrd), f"{folder}/bin/rpkirtrd")
        self.port, authority = serve(folder)
        self.url = f"https://localhost:{self.port}"
        bare = {name: value for name, value in os.environ.items() if not name.lower().endswith("_proxy") and name != "JOURNAL_STREAM"}
        self.environment = {**bare, "CURL_CA_BUNDLE": authority, "RETRIES": "0", "HOME": folder}

    def run(self, path, **settings):
        url = path if "://" in path else self.url + path
        return subprocess.run([self.script, url, self.file], env={**self.environment, **settings}, capture_output=True, text=True, timeout=60, check=False)

    def state(self):
        with contextlib.suppress(FileNotFoundError), open(self.file, "rb") as it:
            return it.read(), os.stat(self.file).st_ino, sorted(os.listdir(self.folder))
        return None, None, os.listdir(self.folder)

    def replaces(self, what, path, wanted, has_tag, **settings):
        """The file has the list then, for all to read, and the time that the server said."""
        done = self.run(path, **settings)
        expect(what, (done.returncode, done.stderr), (0, ""))
        found = self.state()
        expect(what, (found[0], found[2]), (wanted, ["json", "json.etag"] if has_tag else ["json"]))
        expect(f"{what}: mode", os.stat(self.file).st_mode & 0o777, 0o644)
        expect(f"{what}: what is said", re.sub(r"\d+ VRPs", "N VRPs", done.stdout), f"rpkirtrd-fetch: {self.file} has N VRPs from {self.url}{path}\n")

    def keeps(self, what, path, reason, status=1, **settings):
        """The file is the same one as before, nothing else is left, and one line has the reason."""
        before = self.state()
        done = self.run(path, **settings)
        expect(what, (done.returncode, self.state(), done.stdout), (status, before, ""))
        if not re.fullmatch(rf"rpkirtrd-fetch: [^\n]*(?:{reason})[^\n]*\n", done.stderr):
            sys.exit(f"fetch: {what}: {done.stderr!r} has not {reason!r}, or not in one line")
        if status == 1:
            expect(f"{what}: what it says of the file", done.stderr.endswith(f"; {self.file} stays as it was\n"), True)


def replacements(it, first, second):
    """A new list, the same, another one, one without ETag, and those behind a redirect and a proxy."""
    it.replaces("a new list", "/list", first, True)
    expect("its time", int(os.stat(it.file).st_mtime), MADE)
    before = it.state()
    expect("the same list", (it.run("/list").returncode, it.state()), (0, before))
    expect("what was asked", Lists.asked, [("/list", None), ("/list", '"1"')])
    it.replaces("an ETag of another URL is not sent", "/other", second, True)
    expect("what was asked then", Lists.asked[-1], ("/other", None))
    os.remove(it.file)
    it.replaces("an ETag without the file is not sent", "/other", second, True)
    it.replaces("a list without ETag", "/bare", first, False)
    it.replaces("a redirect", "/moved", second, True)
    expect("the ETag after it", it.run("/moved").returncode, 0)
    passed = []
    it.replaces("a proxy", "/list", first, True, https_proxy=f"http://127.0.0.1:{proxy(passed)}")
    expect("what the proxy was asked", passed, [f"CONNECT localhost:{it.port} HTTP/1.1"])
    it.replaces("a second try", "/again", second, False, RETRIES="1")


def refusals(it):
    it.keeps("an error page with status 200", "/page", "the list is refused: not JSON at line 1, column 1")
    it.keeps("a cut body", "/cut", r"curl: \(18\)")
    it.keeps("a cut body without a length", "/cut-silently", "the list is refused: not JSON")
    it.keeps("a wrong entry", "/wrong", "the list is refused: .*prefix")
    it.keeps("an empty list", "/empty", "the list has 0 VRPs, and at least 1 are expected")
    it.keeps("a short list", "/list", "the list has 60 VRPs, and at least 61 are expected", MIN_VRPS="61")
    it.keeps("404", "/nothing", "returned error: 404")
    it.keeps("500, twice", "/broken", "returned error: 500", RETRIES="1")
    expect("the tries", [path for path, _tag in Lists.asked[-2:]], ["/broken", "/broken"])
    it.keeps("304 without a question", "/unasked", "the server answers with status 304")
    it.keeps("a list that is too long", "/list", r"curl: \(63\)|longer than 1000 bytes", MAX_SIZE="1000")
    it.keeps("one that does not say so", "/long", "the list is longer than 100000 bytes", MAX_SIZE="100000")
    it.keeps("one that is packed", "/bomb", "the list is longer than 100000 bytes", MAX_SIZE="100000")
    it.keeps("a redirect to HTTP", "/to-http", r'Protocol "http" ')
    it.keeps("a server of another name", f"https://127.0.0.1:{it.port}/list", r"curl: \(60\)")
    it.keeps("no server", "https://localhost:1/list", r"curl: \(7\)")
    plain_environment, it.environment = it.environment, {name: value for name, value in it.environment.items() if name != "CURL_CA_BUNDLE"}
    it.keeps("a certificate that does not verify", "/list", r"curl: \(60\)")
    it.environment = plain_environment


def waits(it):
    """Servers that are slow or silent, within seconds."""
    began = time.monotonic()
    it.keeps("a byte a second", "/slow", r"curl: \(28\)", SLOW_TIME="2")
    it.keeps("no answer", "/silent", r"curl: \(28\)", MAX_TIME="2")
    expect("the seconds that both need", time.monotonic() - began < 20, True)
    before = it.state()
    running = subprocess.Popen([it.script, f"{it.url}/silent", it.file], env=it.environment, stdout=subprocess.DEVNULL, stderr=subprocess.DEVNULL, start_new_session=True)
    while not any(name.endswith(".said") for name in os.listdir(it.folder)):
        time.sleep(0.02)
    # (as systemd does, all processes of the unit)
    os.killpg(running.pid, signal.SIGTERM)
    expect("SIGTERM", (running.wait(20) != 0, it.state()), (True, before))


def words(it):
    it.keeps("HTTP", "http://localhost/list", "URL must begin with https://", status=2)
    it.keeps("another word", "file:///etc/passwd", "URL must begin with https://", status=2)
    it.keeps("a number", "/list", 'MAX_SIZE must be a number, and is "1G"', status=2, MAX_SIZE="1G")
    it.keeps("a bound", "/list", "MAX_TIME must be at least 1, and is 0", status=2, MAX_TIME="0")
    done = it.run("/nothing", JOURNAL_STREAM="8:1")
    expect("the priority for the journal", done.stderr[:18], "<3>rpkirtrd-fetch:")
    expect("no words", subprocess.run([it.script], env=it.environment, capture_output=True, check=False).returncode, 2)
    unset = subprocess.run([it.script, "", it.file], env=it.environment, capture_output=True, text=True, check=False)
    expect("no URL", (unset.returncode, unset.stderr), (2, "rpkirtrd-fetch: there is no URL: set URL in /etc/default/rpkirtrd-fetch\n"))


def units(folder):
    """systemd has nothing to say of the units."""
    if not shutil.which("systemd-analyze"):
        return print("not tried without systemd-analyze: the units")
    for kind in ("service", "timer"):
        with open(f"{TOP}/tools/rpkirtrd-fetch.{kind}", encoding="utf-8") as it, open(f"{folder}/rpkirtrd-fetch.{kind}", "w", encoding="utf-8") as made:
            made.write(it.read().replace("/usr/local/bin/rpkirtrd-fetch", f"{folder}/bin/rpkirtrd-fetch"))
    command = ["systemd-analyze", "verify", "--man=no", f"{folder}/rpkirtrd-fetch.service", f"{folder}/rpkirtrd-fetch.timer"]
    done = subprocess.run(command, stdout=subprocess.PIPE, stderr=subprocess.STDOUT, text=True, check=False)
    return expect("the units", (done.returncode, [it for it in done.stdout.splitlines() if "rpkirtrd-fetch" in it]), (0, []))


def main(rpkirtrd):
    with tempfile.TemporaryDirectory() as folder:
        it = Trial(folder, rpkirtrd)
        first, second = list_of(64496), list_of(64497)
        Lists.answers = {
            "/list": plain(first, '"1"', True), "/other": plain(second, '"1"'), "/bare": plain(first), "/moved": redirect(f"{it.url}/other"),
            "/again": fails_at_first(plain(second)), "/page": plain(b"<html>Please log in</html>", '"2"'), "/cut": cut(first, True),
            "/cut-silently": cut(first, False), "/wrong": plain(first.replace(b"51.7.0/24", b"51.7.1/24")), "/empty": plain(b'{"roas":[]}'),
            "/broken": lambda it: it.send_error(500), "/unasked": lambda it: it.begin(304), "/long": without_length(b"[" + b" " * 1000000),
            "/bomb": plain(b"[" + b" " * 3000000, None, True), "/to-http": redirect("http://localhost:1/"), "/slow": byte_a_second, "/silent": silent,
        }
        it.keeps("a refusal while there is no file", "/nothing", "returned error: 404")
        Lists.asked.clear()
        replacements(it, first, second)
        refusals(it)
        waits(it)
        words(it)
        units(folder)
    return 0


if __name__ == "__main__":
    sys.exit(main(*sys.argv[1:]))
