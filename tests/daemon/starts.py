"""Words, starts that fail, and a start without standard streams."""
import json
import os
import re
import socket
import subprocess

from checks import expect
from common import PATIENCE, connected, free_port, put
from daemon.shared import EXCEPTIONS, FIRST, SECOND, part, text_of
from rtr import Router


@part
def words_and_starts(given):
    """What is printed for words, and for files and addresses that are refused."""

    def ran(*words):
        it = subprocess.run([given.program, *words], stdin=subprocess.DEVNULL, stdout=subprocess.PIPE, stderr=subprocess.PIPE, timeout=PATIENCE)
        return it.returncode, it.stdout.decode(), it.stderr.decode()

    status, out, err = ran("--help")
    expect("--help", (status, err, "Usage: rpkirtrd" in out, "--vrps FILE" in out), (0, "", True, True))
    status, out, err = ran("--version")
    expect("--version", (status, bool(re.fullmatch(r"rpkirtrd \d+\.\d+\.\d+\nproved with .*\n", out)), err), (0, True, ""))
    for words in ["", "--vrps list.json --check 0", "--vrps list.json --keep 65537", "--vrps list.json --once --once", "--vrps list.json --listen 127.0.0.1", "list.json"]:
        status, out, err = ran(*words.split())
        expect(words, (status, out, err.startswith("rpkirtrd: ")), (2, "", True))
    status, out, err = ran("--vrps", "https://validator.example.net/json")
    expect("a URL", (status, out, "OPERATING.md" in err), (2, "", True))
    free = "--listen 127.0.0.1:0 --vrps"
    status, out, err = ran(*free.split(), "nothing.json")
    expect("a file that is not there", (status, "nothing.json" in err, len(err.splitlines())), (3, True, 1))
    status, out, err = ran("--log", "systemd", *free.split(), "nothing.json")
    expect("the same for systemd", (status, bool(re.fullmatch(r"<3>\S+ refused file=nothing.json reason=.*\n", err))), (3, True))
    put("bad.json", '{"roas": [{"asn": 64496, "prefix": "192.0.2.0/24", "maxLength": 24}, {"asn": "AS01", "prefix": "192.0.2.0/24", "maxLength": 24}]}')
    status, out, err = ran(*free.split(), "bad.json")
    expect("a file that is refused", (status, "bad.json: entry 1 of roas: asn \"AS01\" is not an AS number (fault 3)" in err), (1, True))
    listed = [*free.split(), "list.json", "--slurm"]
    status, out, err = ran(*listed, "nothing.json")
    expect("local exceptions that are not there", (status, "nothing.json" in err, len(err.splitlines())), (3, True, 1))
    put("none.slurm", json.dumps(EXCEPTIONS))
    put("bad.slurm", '{"slurmVersion": 2}')
    status, out, err = ran(*listed, "none.slurm", "--slurm", "bad.slurm")
    expect("local exceptions of which the second file is refused", (status, "bad.slurm: " in err, "none.slurm" in err, len(err.splitlines())), (1, True, False, 1))
    status, out, err = ran(b"--vrps", b"\xff")
    expect("a word that is not UTF-8", (status, out, "UTF-8" in err), (2, "", True))
    status, out, err = ran(*free.split(), "no\x1bsuch\nfile")
    expect("a path that would break the line", (status, err.splitlines()[-1].startswith('rpkirtrd: "no\\u{1b}such\\nfile": ')), (3, True))
    status, out, err = ran("--log", "json", *free.split(), "no\x1bsuch\nfile")
    only = json.loads(err)
    expect("the same as JSON", (status, only["level"], only["event"], only["file"]), (3, "error", "refused", "no\x1bsuch\nfile"))
    with socket.create_server(("127.0.0.1", 0)) as taken:
        at = f"127.0.0.1:{taken.getsockname()[1]}"
        status, out, err = ran("--listen", at, "--vrps", "list.json")
        expect("an address that is in use", (status, err.startswith(f"rpkirtrd: cannot listen at {at}: "), len(err.splitlines())), (3, True, 1))
        status, out, err = ran("--listen", at, "--vrps", "list.json", "--log", "json")
        found = json.loads(err)
        expect("the same as JSON", (status, found["level"], found["event"], found["what"], at in found["reason"]), (3, "error", "failed", "listen", True))
        status, out, err = ran("--listen", at, "--vrps", "list.json", "--log", "systemd")
        expect("the same for systemd", (status, bool(re.fullmatch(r"<3>\S+ failed what=listen reason=.*\n", err)), at in err), (3, True, True))
        status, out, err = ran("--listen", "127.0.0.1:0", "--status", at, "--vrps", "list.json", "--log", "json")
        expect("an address of the pages, as JSON", (status, json.loads(err)["event"], at in json.loads(err)["reason"]), (3, "failed", True))


@part
def no_streams(given):
    """Without standard streams the log goes nowhere: no router gets a line of it."""
    put("list.json", text_of(FIRST))
    port = free_port()
    with subprocess.Popen([given.program, "--vrps", "list.json", "--listen", f"127.0.0.1:{port}", "--check", "1"], preexec_fn=close_streams) as ran:
        try:
            router = Router(port, peer=connected(port))
            expect("a table without standard streams", router.catch_up(), set(FIRST))
            put("list.json", text_of(SECOND))
            router.wait_notify()
            expect("the next table without standard streams", router.catch_up(), set(SECOND))
        finally:
            ran.kill()


def close_streams():
    for descriptor in range(3):
        os.close(descriptor)
