#!/usr/bin/env python3
"""Requests for memory refused in turn: the runs of crates/memory_tests, and the commands of the program.

usage: tests/memory.py PROGRAM SHIM [TESTS]

SHIM is what tests/lib/refusing.c was compiled to, and TESTS the program of those runs; without it the commands alone are run. Each run is made with the first request refused, then
with the second, and so on, until one meets no refusal: that one gives the answer of ample memory, and each other gives it too or tells
the want of memory, the state that stands then, and after another try the answer. What takes no memory gives its answer with every
request refused. It exits with 1 where an answer is another, and says which."""
import os
import re
import subprocess
import sys
import tempfile

BEGIN = 1_234_567
V, W = "192.0.2.0/24 24 64496\n", "198.51.100.0/24 24 64497\n"
ASSERTED, ASSERTED_BEFORE = "203.0.113.0/24 24 64498\n", "192.0.2.0/24 24 64499\n"
MANIFEST = "20250101000000Z 20250102000000Z\na.crl\n"
WANT = "memory\n"


def units(*texts):
    """Bytes as the runs print them."""
    return str([*bytes.fromhex("".join(texts))]) + "\n"


RESPONSE, V_UNIT, W_UNIT = "0103123400000008", "010400000000001401181800c00002000000fbf0", "010400000000001401181800c63364000000fbf1"
QUERY, RESET = "010112340000000c00000005", "0102000000000008"


def end(serial):
    return f"0107123400000018{serial:08x}00000e100000025800001c20"


ANSWER = RESPONSE + V_UNIT + end(5)
REPORT_1 = units("010a0001000000100000000000000000") + "ended\n"


def once(answer):
    """The answer, or the want of memory and then the answer."""
    return answer, [WANT + answer]


def anywhere(*parts):
    """The parts of an answer, or the want of memory before one of them."""
    return "".join(parts), ["".join([*parts[:at], WANT, *parts[at:]]) for at in range(len(parts))]


def offered(before, parts):
    """The answer to an offer and what is in use: at a want of memory there is what was in use before."""
    answer, others = anywhere(*parts)
    return answer, [WANT + "in use:\n" + before + answer, *others[1:]]


def queried(parts, refusals):
    """The parts of a cache's output, or the want of memory before one of them, or a report in the place of one of these."""
    answer, others = anywhere(*parts)
    return answer, others + ["".join([*parts[:it], REPORT_1, *parts[it + 1 :]]) for it in refusals]


OPENED = "open\n"
NO_DATA = units("010a00020000001800000008", RESET, "00000000")
CHANGES = [units(RESPONSE, V_UNIT[:4]) + OPENED, units(ANSWER[20:]) + OPENED] + 2 * [units(RESPONSE, W_UNIT, end(6)) + OPENED]
SERVED = units(RESPONSE, W_UNIT, end(6)) + "WaitsToRead\n"
REPORTED = units("010a0001000000100000000000000000") + "Gone(CacheEnded)\n"
RUNS = {
    "payload_runs::encode_one_prefix": once("same\n"),
    "payload_runs::encode_ipv6": once("same\n"),
    "payload_runs::make_a_manifest": once(MANIFEST),
    "payload_runs::encode_a_manifest": once("same\n"),
    "payload_runs::offer_the_first": offered("", ["new\n", "in use:\n" + V]),
    "payload_runs::offer_another_object": offered(V, ["the second object differs\n", "in use:\n" + V, "in use:\n" + V, "in use:\n"]),
    "export_runs::read_a_plain_export": once(V + W),
    "export_runs::read_an_export_as_a_whole": once(V + W),
    "export_runs::read_a_payload_list_as_an_export": once(V + W),
    "export_runs::refuse_a_plain_export": once("another fault\n"),
    "set_runs::duplicate_a_set": once(V),
    "set_runs::gather_out_of_order": (
        "new\nnew\n" + V + W,
        [WANT + "new\nnew\n" + V + W, "new\n" + WANT + "new\n" + V + W, "new\nnew\n" + WANT],
    ),
    "set_runs::apply_to_one": once(W),
    "set_runs::apply_to_none": once(V + W),
    "set_runs::apply_the_second_announcement": once(W),
    "set_runs::apply_what_came_and_went": once(V),
    "set_runs::apply_what_comes_again": once(V),
    "set_runs::publish_and_withdraw": anywhere(
        *("10\n", "11\n", "12\n", "13\n"),
        *(f"withdrawn:\n{gone}announced:\n{come}" for gone, come in (("", W), (V, W), ("", ""))),
        "unknown\n",
    ),
    "set_runs::publish_what_comes_again": anywhere(
        "10\n", "11\n", "12\n", *(f"withdrawn:\nannounced:\n{come}" for come in ("", V)), "unknown\n"
    ),
    "slurm_runs::read_exceptions": once(W),
    "slurm_runs::apply_exceptions": once(W),
    "slurm_runs::take_files_of_exceptions": (
        "taken\n" + W + ASSERTED,
        [WANT + ASSERTED_BEFORE + "taken\n" + W + ASSERTED, "taken\n" + WANT + W + ASSERTED],
    ),
    "end_runs::answer_a_reset_query": once(units(ANSWER) + OPENED),
    "end_runs::answer_a_serial_query": queried(CHANGES, [2, 3]),
    "end_runs::answer_an_old_serial": queried(
        [units(RESPONSE, end(7)) + OPENED, units("0108000000000008") + OPENED, units(RESPONSE, V_UNIT, end(7)) + OPENED], [0]
    ),
    "end_runs::answer_without_data": once(NO_DATA + OPENED),
    "end_runs::commit_an_answer": ("Idle 1 4660 5\n", ["Ended(Memory) 0\nIdle 1 4660 5\n"]),
    "end_runs::commit_a_change": ("Idle 2 4660 6\n", ["Ended(Memory) 1 4660 5\nIdle 2 4660 6\n"]),
    "server_runs::serve_serial_queries": (2 * SERVED, [WANT + 2 * SERVED, REPORTED + SERVED, SERVED + REPORTED]),
    "server_runs::serve_a_long_answer": ("1232\n", []),
    "feed_runs::judge_a_route": once("valid\n" + units("0103000100000008", V_UNIT, "010700010000001800000000", end(5)[24:])),
}
YES = "yes\n"
# What the program of tests prints behind a run.
WELL = "\ntest result: ok\n"
FREE = {
    "free_runs::free_faults": "6 at 2\n20 at 33\n12 at 25\n4 at 19\n" + 25 * "1 at 0\n" + "5 at 25\n3 at 0\n4 at 2\n7 at 2\n1 at 7\n",
    "free_runs::free_readings": 4 * YES + "no\n" + 8 * YES,
    "free_runs::free_roas": 2 * YES,
    "free_runs::free_states": 3 * YES + units(QUERY) + "Ended(Expired) 0\n" + units(RESET),
    "free_runs::free_answers": YES + units(ANSWER) + YES + units("010012340000000c00000005") + units(RESPONSE, end(5)) + YES + "no\n" + NO_DATA + YES,
    "free_runs::free_units": units(RESPONSE) + 4 * YES + units(RESPONSE),
}

LIST = '[{"asn":64496,"maxLength":24,"prefix":"192.0.2.0/24"}]'
ONE_PREFIX = "3017020300fbf03010300e040200013008300603" + "0400c00002"
OF_A_ROA = (
    "305e020101180f32303235303130313030303030305a180f32303235303130323030303030305a060960864801650304020130"
    "2c302a1605612e726f61032100da32bfbe0d8eea0f5d3b56023c55d1c23aa91df50233f89c325086b2b206d5a2"
)


def script(*events):
    return "".join(f"{it}\n" for event in events for it in event.split("; "))


# Worlds of one router. An event that is refused is there once more, and a router that was refused memory catches up in the end.
PUBLISH_V, PUBLISH_BOTH = 2 * ["publish 192.0.2.0/24,24,64496"], 2 * ["publish 192.0.2.0/24,24,64496 198.51.100.0/24,24,64497"]
RESTART, CATCH_UP = 2 * ["restart 8738 9"], 2 * ["catch-up 0; show 0"]
FIRST_ANSWER = "connect 0; router-sends 0 8; cache-gets 0 8; cache-sends 0 52; router-gets 0 52; show 0"
SECOND_ANSWER = "ask 0; router-sends 0 12; cache-gets 0 12; cache-sends 0 52; router-gets 0 52; show 0"
SCRIPTS = {
    "answered": script("world 1 4660 5 2", *PUBLISH_V, FIRST_ANSWER, *CATCH_UP),
    "restarted": script("world 1 4660 5 2", *PUBLISH_V, *CATCH_UP, *RESTART, "publish; publish; show 0", *CATCH_UP),
    "stepped": script(
        *("world 1 4660 5 2", *PUBLISH_V, FIRST_ANSWER, *PUBLISH_BOTH, SECOND_ANSWER, "cut 0 0; router-restart 0; show 0", *RESTART),
        *(2 * ["publish 198.51.100.0/24,24,64497"]), "show 0", *CATCH_UP,
    ),
}


def shown(state):
    """What a world prints in which a request is refused: in the end the router holds this, also if the last request is refused."""
    seen = rf"(line \d+ refused [14]\n|0 (empty|memory|no-data|caught-up|4660 5 1|4660 6 2|{state})\n)*"
    return rf"{seen}0 caught-up\n0 {state}\n(0 memory\n0 {state}\n)?"


OUT_OF_MEMORY = "rpkirtr: out of memory\n"
failed = 0


def say(text):
    global failed
    failed += 1
    print(text[:1500])


class Watch:
    """Runs programs whose requests for memory are refused."""

    def __init__(self, shim):
        self.shim = shim

    def ran(self, words, refuse, after=0):
        """The status, the output, the errors, and whether a request was refused."""
        with tempfile.TemporaryFile() as told:
            more = {"LD_PRELOAD": self.shim, "REFUSE": str(refuse), "AFTER": str(after), "TOLD": str(told.fileno())}
            done = subprocess.run(words, env={**os.environ, **more}, stdin=subprocess.DEVNULL, capture_output=True, text=True, timeout=60, pass_fds=[told.fileno()])
            return done.returncode, done.stdout, done.stderr, os.fstat(told.fileno()).st_size > 0

    def in_turn(self, words, judge, after=0):
        """Runs a program with each request refused in turn. `judge` says of each answer, and whether one was refused, if it is right."""
        for number in range(1, 5000):
            *found, is_refused = self.ran(words, number, after)
            if not judge(found, is_refused):
                say(f"{' '.join(words)}: request {number}: {found}")
            if not is_refused:
                return number - 1
        say(f"{' '.join(words)}: no end of requests")
        return 0


def examples(watch, tests):
    """The runs of crates/memory_tests."""
    requests = 0
    for name, (answer, others) in RUNS.items():
        allowed = {False: [answer], True: [answer, *others]}
        judge = lambda found, is_refused: found[0] == 0 and found[1].removesuffix(WELL) in allowed[is_refused]
        requests += watch.in_turn([tests, name], judge, BEGIN)
    for name, answer in FREE.items():
        *found, is_refused = watch.ran([tests, name], "all", BEGIN)
        if found[:2] != [0, answer + WELL] or is_refused:
            say(f"{name}: every request refused: {found}, in place of {answer!r}")
    return requests


def commands(watch, program):
    """The commands: want of memory is told, with status 4, behind a beginning of what is printed; or it has a line of its own."""
    requests = 0
    for words, own in (
        ("roa payload", None),
        ("manifest point/manifest.der", None),
        ("payloads --now 20250101000000Z point", r"\[\]\n"),
        ("route --vrps list 192.0.2.0/24 64496", None),
        ("units units", None),
        (f"answer --session 4660 --serial 5 --vrps list {RESET}", None),
        (f"answer --session 4660 --serial 5 --vrps list {QUERY}", REPORT_OF_MEMORY),
        ("loop --session 4660 --start 5 --vrps list 192.0.2.0/24 64496", r"ended 4\n"),
        ("world answered", shown("4660 5 1")),
        ("world restarted", shown("8738 9 0")),
        ("world stepped", shown("8738 9 1")),
        ("serve --port 0 --session 4660 --start 5 --vrps list --connections 0", None),
        ("world", None),
    ):
        words = [program, *words.split(" ")]
        ample = watch.ran(words, 0)[:3]
        judge = lambda found, is_refused: is_right(found, ample, own, is_refused)
        requests += watch.in_turn(words, judge)
    return requests


# What the cache answers where memory is wanting for the change.
REPORT_OF_MEMORY = "010a0001000000100000000000000000\n"


def is_right(found, ample, own, is_refused):
    status, output, errors = found
    if tuple(found) == tuple(ample):
        return True
    if not is_refused:
        return False
    if status == 4:
        return errors.endswith(OUT_OF_MEMORY) and (ample[1].startswith(output) or bool(own and re.fullmatch(own, output)))
    return own is not None and status in (0, 1) and bool(re.fullmatch(own, output))


def files():
    os.makedirs("point/objects")
    os.makedirs("point/contents")
    roa = bytes.fromhex(ONE_PREFIX)
    for name, content in (
        *(("payload", roa), ("point/objects/a.roa", roa), ("point/contents/a.roa", roa), ("point/manifest.der", bytes.fromhex(OF_A_ROA))),
        *(("list", LIST.encode()), ("units", bytes.fromhex(ANSWER)), *((name, text.encode()) for name, text in SCRIPTS.items())),
    ):
        with open(name, "wb") as it:
            it.write(content)


def main(program, shim, tests=None):
    watch = Watch(os.path.abspath(shim))
    program, tests = os.path.abspath(program), tests and os.path.abspath(tests)
    with tempfile.TemporaryDirectory() as folder:
        os.chdir(folder)
        files()
        of_examples = f"{examples(watch, tests)} requests of the examples, " if tests else ""
        print(f"{of_examples}{commands(watch, program)} requests of the commands, each refused")
        os.chdir("/")
    return 1 if failed else 0


if __name__ == "__main__":
    sys.exit(main(*sys.argv[1:4]))
