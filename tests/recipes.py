#!/usr/bin/env python3
"""Tries recipes of docs/RECIPES.md, as they are on the page: the scripts' syntax, BIRD's two caches, the lines for Prometheus, how
docs/Containerfile unpacks the delivered program, and that the installed file for options has the names of the page.

usage: tests/recipes.py

The status is 1 if a recipe fails. A recipe whose program is not installed is named."""
import os
import re
import shutil
import subprocess
import sys
import tempfile

TOP = os.path.realpath(f"{os.path.dirname(os.path.abspath(__file__))}/..")


def read(path):
    with open(path, encoding="utf-8") as it:
        return it.read()


def write(path, text, mode=0o644):
    with open(path, "w", encoding="utf-8") as it:
        it.write(text)
    os.chmod(path, mode)


def block(heading, number, language="", page="RECIPES.md"):
    """The block of this number, from 1, with this language below a heading of the page."""
    part = re.search(rf"(?ms)^## {re.escape(heading)}$(.*?)(?=^##|\Z)", read(f"{TOP}/docs/{page}")).group(1)
    return [text for name, text in re.findall(r"(?ms)^```(\w*)\n(.*?)^```$", part) if name == language][number - 1]


def run(command, **more):
    return subprocess.run(command, stdout=subprocess.PIPE, stderr=subprocess.STDOUT, text=True, check=False, **more)


def expect(what, found, wanted):
    if found != wanted:
        sys.exit(f"recipes: {what}: {found!r} in place of {wanted!r}")


def passes(what, command, **more):
    done = run(command, **more)
    if done.returncode != 0:
        sys.exit(f"recipes: {what}: status {done.returncode}: {done.stdout}")


def has(*programs):
    missing = [it for it in programs if not shutil.which(it)]
    if missing:
        print(f"not tried without {', '.join(missing)}")
    return not missing


def fetch_options():
    """The two lines of the page are those of the file that is installed, and the folder is that of the service."""
    heading = "A list from another machine, over HTTPS"
    found = [it.removeprefix("#") for it in read(f"{TOP}/tools/rpkirtrd-fetch.default").splitlines() if re.match("#?[A-Z]+=", it)]
    expect("the options of rpkirtrd-fetch", found, block(heading, 1).splitlines())
    expect("its folder", found[1].split("=")[1] in read(f"{TOP}/tools/rpkirtrd-fetch.service"), True)


def unpacked(folder):
    """The first RUN of docs/Containerfile, in a folder in place of /dist; and with another sum it fails."""
    line = re.search(r"(?m)^RUN ((?:.*\\\n)*.*)$", read(f"{TOP}/docs/Containerfile")).group(1)
    for name, wanted in (("dist", True), ("spoiled", False)):
        shutil.copytree(f"{TOP}/dist/x86_64-linux", f"{folder}/{name}")
        if not wanted:
            write(f"{folder}/{name}/SOURCES", re.sub(r"(?m)^(rpkirtrd .*) \w+$", rf"\1 {'0' * 64}", read(f"{folder}/{name}/SOURCES")))
        done = run(["sh", "-c", line.replace("cd /dist", f"cd {folder}/{name}")])
        expect(f"Containerfile, {name}", done.returncode == 0, wanted)


def main():
    with tempfile.TemporaryDirectory() as folder:
        for heading in ("Validators on the same machine", "A list from another machine, over HTTPS", "In a container"):
            passes(heading, ["sh", "-n", "-c", block(heading, 1, "sh")])
        fetch_options()
        if has("bird"):
            write(f"{folder}/bird.conf", "router id 192.0.2.9;\n" + block("Two caches side by side", 1))
            passes("BIRD", ["bird", "-p", "-c", f"{folder}/bird.conf"])
        if has("promtool"):
            write(f"{folder}/prometheus.yml", re.sub(r"\[/.*\]", f"[{TOP}/docs/alerts.yml]", block("Alerts", 1, page="MONITORING.md")))
            passes("Prometheus", ["promtool", "check", "config", f"{folder}/prometheus.yml"])
        unpacked(folder)
    return 0


if __name__ == "__main__":
    sys.exit(main())
