"""`loop`, as far as it takes no connection: tests/sockets.py has the others."""
from cases.shared import V_JSON, bad_words

CASES = [
    bad_words("session0-of-a-cache", "loop --session0 1 --session 1 --start 1 --vrps v.json 192.0.2.0/24 1", V_JSON),
]
