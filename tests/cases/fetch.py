"""`fetch`, as far as it takes no connection: tests/sockets.py has the others."""
from cases.shared import bad_words

CASES = [
    bad_words("session0-of-a-cache", "fetch --session0 1 --port 1"),
    bad_words("version-2", "fetch --rtr-version 2 --port 1"),
    bad_words("version-with-a-leading-zero", "fetch --rtr-version 01 --port 1"),
    bad_words("version-without-a-value", "fetch --rtr-version --port 1"),
    bad_words("two-versions", "fetch --rtr-version 0 --rtr-version 0 --port 1"),
]
