"""What the scripts of tests/ and bench/ share: ports, connections to a server that may not listen yet, files, and tests in modules."""
import importlib
import os
import pkgutil
import socket
import subprocess
import time

# How long anything that must come may take, in seconds.
PATIENCE = 30


def free_port():
    """A port of 127.0.0.1 at which nothing listens."""
    with socket.create_server(("127.0.0.1", 0)) as it:
        return it.getsockname()[1]


def connected(port, seconds=PATIENCE, timeout=PATIENCE):
    """Connects to a port of 127.0.0.1. If nothing listens there yet, it tries again, for `seconds` at most."""
    end = time.monotonic() + seconds
    while True:
        try:
            return socket.create_connection(("127.0.0.1", port), timeout)
        except ConnectionRefusedError:
            if time.monotonic() > end:
                raise
            time.sleep(0.02)


def received(peer, count):
    """Reads `count` bytes of a connection, or fewer if it ends before."""
    found = b""
    while len(found) < count and (piece := peer.recv(count - len(found))):
        found += piece
    return found


def write(path, content):
    """Writes a file, and returns its absolute path."""
    with open(path, "wb" if isinstance(content, bytes) else "w") as it:
        it.write(content)
    return os.path.abspath(path)


def put(path, content):
    """Replaces a file in one step, as validators do."""
    os.replace(write(f"{path}.new", content), path)


def asked(program, questions, timeout=600):
    """What a program answers to each line of its input, in a line of its own."""
    done = subprocess.run([program], input="".join(f"{it}\n" for it in questions), capture_output=True, text=True, check=True, timeout=timeout)
    answers = done.stdout.splitlines()
    if len(answers) != len(questions):
        raise SystemExit(f"{program}: {len(questions)} questions, {len(answers)} answers")
    return answers


def load_modules(package):
    """Imports each module of a package, so that the tests in them are declared."""
    for module in pkgutil.iter_modules(package.__path__):
        importlib.import_module(f"{package.__name__}.{module.name}")


def clashes(every, name):
    """A line for each test whose name an earlier one has. `name` gives the name of a test, and its `place` says where it is."""
    first = {}
    return [f"{it.place}: {name(it)} is at {first[name(it)].place} too" for it in every if first.setdefault(name(it), it) is not it]
