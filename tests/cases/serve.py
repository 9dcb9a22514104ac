"""`serve`, as far as it takes no connection: tests/sockets.py has the others."""
from cases.shared import V_JSON, bad_words

CASES = [
    bad_words("version-of-a-router", "serve --rtr-version 0 --port 0 --session 4660 --start 5 --vrps v.json --connections 0", V_JSON),
]
