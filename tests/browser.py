#!/usr/bin/env python3
"""The daemon's page in a browser, and its metrics before promtool: Debian's packages chromium and prometheus. This is no part of ./test.

usage: tests/browser.py PROGRAM FOLDER

Pictures of the page with 0, 3 and 300 routers, 360 and 1,600 pixels wide, light and dark, go into the folder, to be looked at. It exits
with 1 where promtool finds something in the metrics, or a picture is not made."""
import ipaddress
import json
import os
import random
import shutil
import subprocess
import sys
import tempfile
import time

sys.path.insert(0, f"{os.path.dirname(os.path.abspath(__file__))}/lib")
import checks
from checks import expect
from common import put
from daemon.shared import SLURM
from log import running
from rtr import Router
from web import linted

RECORDS = [(f"{ipaddress.ip_address(10 * 2**24 + 256 * it)}/24", 24, 64496 + it % 7) for it in range(20000)]
RECORDS += [(f"2001:db8:{it:x}::/48", 48, 64500) for it in range(6000)]


def export(records):
    """What rpki-client writes of these records."""
    now = time.gmtime()
    roas = [{"asn": asn, "prefix": prefix, "maxLength": most, "ta": "ripe", "expires": int(time.time()) + 86400} for prefix, most, asn in records]
    return json.dumps({"metadata": {"buildtime": time.strftime("%Y-%m-%dT%H:%M:%SZ", now)}, "roas": roas})


def picture(port, folder, name, width, height, is_dark):
    """Makes a picture of the page."""
    to = f"{folder}/{name}-{width}{'-dark' if is_dark else ''}.png"
    dark = ["--blink-settings=preferredColorScheme=0"] if is_dark else []
    words = ["--headless=new", "--no-sandbox", "--disable-gpu", "--hide-scrollbars", f"--window-size={width},{height}", f"--screenshot={to}", *dark]
    subprocess.run(["chromium", *words, f"http://127.0.0.1:{port}/"], stdout=subprocess.DEVNULL, stderr=subprocess.DEVNULL, timeout=60)
    expect(f"a picture {to}", os.path.exists(to), True)


def pictures(port, folder, name):
    for width, height in (360, 1500), (1600, 930):
        for is_dark in False, True:
            picture(port, folder, name, width, height, is_dark)


def checked(port):
    """What promtool finds in the metrics."""
    expect("what promtool finds", linted(port), (0, "", ""))


def main(program, folder):
    program, folder, choice = os.path.abspath(program), os.path.abspath(folder), random.Random(3)
    checks.begin("browser")
    os.makedirs(folder, exist_ok=True)
    for command in "chromium", "promtool":
        if not shutil.which(command):
            sys.exit(f"{command} is not installed")
    with tempfile.TemporaryDirectory() as place:
        os.chdir(place)
        put("rpki-client.json", export(RECORDS[:24000]))
        put("slurm.json", SLURM)
        words = ["--vrps", "rpki-client.json", "--slurm", "slurm.json", "--listen", "127.0.0.1:0", "--status", "127.0.0.1:0", "--check", "1", "--clients", "400"]
        with running(program, *words) as ours:
            at, port = ours.serves()
            checked(port)
            pictures(port, folder, "none")
            routers = [Router(at), Router(at, version=0), Router(at)]
            for router in routers[:2]:
                router.catch_up()
            for version in range(12):
                put("rpki-client.json", export(RECORDS[: 24000 + choice.randrange(-900, 1900)]))
                ours.wait("published")
                if version < 11:
                    routers[0].catch_up()
            put("slurm.json", "{")
            ours.wait("refused")
            pictures(port, folder, "three")
            # (a router that has not asked within a minute is closed)
            for _ in range(197):
                routers.append(Router(at))
                routers[-1].catch_up()
            routers += [Router(at) for _ in range(100)]
            checked(port)
            pictures(port, folder, "many")
        os.chdir("/")
    sys.exit(1 if checks.failures else 0)


if __name__ == "__main__":
    main(*sys.argv[1:3])
