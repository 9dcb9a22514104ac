"""Programs of others in the background, and what their commands print."""
import contextlib
import os
import re
import subprocess


def said(*words, seconds=10):
    """What a command prints, or nothing where it failed or took too long."""
    try:
        return subprocess.run(words, stdin=subprocess.DEVNULL, stdout=subprocess.PIPE, stderr=subprocess.STDOUT, text=True, timeout=seconds).stdout
    except subprocess.TimeoutExpired:
        return ""


@contextlib.contextmanager
def running(*words):
    """A program in the background, which is ended behind the block. Its output goes to a file of its name."""
    with open(f"{os.path.basename(words[0])}.log", "a") as log:
        it = subprocess.Popen(words, stdin=subprocess.DEVNULL, stdout=log, stderr=log)
        try:
            yield it
        finally:
            it.terminate()
            try:
                it.wait(5)
            except subprocess.TimeoutExpired:
                it.kill()
                it.wait()


def records_in(pattern, text):
    """The records of a text: prefix, longest length, AS."""
    # (rtrclient prints an AS above 2147483647 as a negative number)
    return sorted((f"{prefix}/{length}", int(longest), int(asn) % 2**32) for prefix, length, longest, asn in re.findall(pattern, text))
