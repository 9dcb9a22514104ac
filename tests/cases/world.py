"""`world`: scripts of a cache and its routers. tests/worlds.py plays others, made at random."""
from cases.shared import DEVICE, FULL, Case, bad_words, device_failed, lines

# Two records as items of a script: AS64496 and 192.0.2.0/24, AS64497 and 198.51.100.0/24.
V, W = "192.0.2.0/24,24,64496", "198.51.100.0/24,24,64497"
# A world of one router; one in which an answer is on the way to it; and one in which it has come.
WORLD = f"world 1 4660 5 2; publish {V}"
SENT = f"{WORLD}; connect 0; router-sends 0 8; cache-gets 0 8; cache-sends 0 52"
HELD = f"{SENT}; router-gets 0 52"
EMPTY, SHOWN, CAUGHT_UP = "0 empty\n", "0 4660 5 1\n", "0 caught-up\n"


def turn(router):
    """What one router does for an answer."""
    return f"router-sends {router} 12; cache-gets {router} 12; cache-sends {router} 99; router-gets {router} 99"


def script(text):
    """The file of a script: a text has one line for each part between semicolons, and bytes are taken as they are."""
    return {"script": text if isinstance(text, bytes) else text.replace("; ", "\n") + "\n"}


def plays(name, text, output, status=0):
    return Case(name, "world script", status, output, files=script(text))


def refused(fault, *numbers):
    return lines(*(f"line {it} refused {fault}" for it in numbers))


# An answer under way is that of the version at its query: 10 bytes of it are sent, then a set is published. The second answer has the
# change. The connection is cut behind each byte of both.
FIRST_ANSWER = f"{WORLD}; connect 0; router-sends 0 8; cache-gets 0 8; cache-sends 0 10; publish {V} {W}; cache-sends 0 42; router-gets 0"
SECOND_ANSWER = "ask 0; router-sends 0 12; cache-gets 0 12; cache-sends 0 52; router-gets 0"


def cut_behind(count):
    came = f"{FIRST_ANSWER} {count}" if count < 52 else f"{FIRST_ANSWER} 52; {SECOND_ANSWER} {count - 52}"
    shown = EMPTY if count < 52 else SHOWN if count < 104 else "0 4660 6 2\n"
    state = "not-found\n" if count < 104 else "valid\n"
    end = "cut 0 0; show 0; route 0 198.51.100.0/24 64497; catch-up 0; show 0"
    return plays(f"cut-behind-byte-{count}", f"{came}; {end}", shown + state + CAUGHT_UP + "0 4660 6 2\n")


EVERY_CUT = [cut_behind(count) for count in range(105)]

CUTS = [
    plays("cut-before-the-last-byte", f"{SENT}; router-gets 0 51; cut 0 0; show 0; connect 1", EMPTY + refused(3, 10)),
    plays("cut-with-the-last-byte-to-arrive", f"{SENT}; router-gets 0 51; cut 0 1; router-gets 0 1; show 0", SHOWN),
    # a cut lets no more arrive than is on the way, and a later one only takes away
    plays("cut-with-more-than-is-on-the-way", f"{SENT}; cut 0 60; router-gets 0 60; show 0", SHOWN),
    plays("cut-after-a-cut", f"{SENT}; cut 0 51; cut 0 52; router-gets 0 52; show 0", EMPTY),
    # nobody receives what the router sends after a cut
    plays("query-after-a-cut", f"{HELD}; ask 0; cut 0 0; publish {W}; {turn(0)}; show 0", SHOWN),
    # a new connection has none of the old one's bytes
    plays("connect-anew", f"{SENT}; connect 0; router-gets 0 52; show 0; {turn(0)}; show 0", EMPTY + SHOWN),
]

# A publication of four sets, so that the version before them is kept no more.
FOUR_SETS = "; ".join(f"publish 10.0.{n}.0/24,24,1" for n in range(4))


def unreadable_in_world(name, line):
    return plays(name, f"{WORLD}; {line}", "line 3 unreadable\n", 1)


CATCH_UPS = [
    plays(
        "catch-up-after-a-cut",
        f"{SENT}; router-gets 0 51; cut 0 0; show 0; catch-up 0; show 0; connect 1",
        EMPTY + CAUGHT_UP + SHOWN + refused(3, 12),
    ),
    plays(
        "catch-up-after-a-whole-answer",
        f"{SENT}; router-gets 0 51; cut 0 1; router-gets 0 1; show 0; catch-up 0; show 0; connect 1",
        SHOWN + CAUGHT_UP + SHOWN + refused(3, 13),
    ),
    plays(
        "catch-up-after-late-bytes-of-an-ended-instance",
        f"{SENT}; restart 8738 9; publish {W}; router-gets 0 52; show 0; catch-up 0; show 0; route 0 192.0.2.0/24 64496",
        SHOWN + CAUGHT_UP + "0 8738 9 1\nnot-found\n",
    ),
    plays(
        "catch-up-with-an-empty-set",
        f"{WORLD}; catch-up 0; show 0; restart 8738 9; publish; catch-up 0; show 0; route 0 192.0.2.0/24 64496; restart 4660 1",
        CAUGHT_UP + SHOWN + CAUGHT_UP + "0 8738 9 0\nnot-found\n" + refused(1, 10),
    ),
    plays(
        "catch-up-where-nothing-is-published",
        "world 1 4660 5 2; catch-up 0; show 0; catch-up 1",
        "0 no-data\n0 empty\n1 no-such-router\n",
    ),
    # a router of an instance that is no more, where nothing is published: what it held is dropped
    plays(
        "catch-up-where-a-new-instance-published-nothing",
        f"{WORLD}; catch-up 0; restart 8738 9; catch-up 0; show 0",
        CAUGHT_UP + "0 no-data\n" + EMPTY,
    ),
    plays(
        "catch-up-from-a-version-that-is-kept-no-more",
        f"{WORLD}; catch-up 0; {FOUR_SETS}; catch-up 0; show 0; catch-up 0; show 0",
        CAUGHT_UP + CAUGHT_UP + "0 4660 9 1\n" + CAUGHT_UP + "0 4660 9 1\n",
    ),
    # the last connection stays
    plays("catch-up-and-ask", f"{WORLD}; catch-up 0; publish {W}; ask 0; {turn(0)}; show 0", CAUGHT_UP + "0 4660 6 1\n"),
    unreadable_in_world("catch-up-without-a-router", "catch-up"),
    unreadable_in_world("catch-up-of-two", "catch-up 0 0"),
    unreadable_in_world("catch-up-of-a-router-of-17-bits", "catch-up 65536"),
    unreadable_in_world("catch-up-with-a-leading-zero", "catch-up 00"),
    unreadable_in_world("catch-up-with-a-blank-behind", "catch-up 0 "),
]

LATE = f"{SENT}; restart 8738 9; publish {W}"
# The report of 28 bytes on a query of another session empties the router, which then asks in 8 bytes.
ASKED_OF_ANOTHER_SESSION = (
    f"{HELD}; restart 8738 9; publish {W}; connect 0; router-sends 0 12; cache-gets 0 12; cache-sends 0 28; router-gets 0"
)

RESTARTS_OF_THE_CACHE = [
    plays("restart-and-a-whole-answer-on-the-way", f"{LATE}; router-gets 0 52; show 0; route 0 192.0.2.0/24 64496", SHOWN + "valid\n"),
    plays("restart-and-the-last-byte-on-the-way", f"{LATE}; router-gets 0 51; cache-sends 0 99; router-gets 0 99; show 0", SHOWN),
    # what was not sent yet is not sent any more, nor does a query arrive that was on the way
    plays(
        "restart-before-the-last-byte-is-sent",
        f"{WORLD}; connect 0; router-sends 0 8; cache-gets 0 8; cache-sends 0 51; restart 8738 9; publish {V}; "
        "cache-sends 0 52; router-gets 0 52; show 0",
        EMPTY,
    ),
    plays(
        "restart-before-a-query-arrives",
        f"{WORLD}; connect 0; router-sends 0 8; restart 8738 9; publish {W}; cache-gets 0 8; cache-sends 0 99; router-gets 0 99; show 0",
        EMPTY,
    ),
    plays("restart-and-all-but-a-byte-of-a-report", f"{ASKED_OF_ANOTHER_SESSION} 27; show 0", SHOWN),
    plays(
        "restart-and-a-report",
        f"{ASKED_OF_ANOTHER_SESSION} 28; show 0; connect 0; router-sends 0 8; cache-gets 0 8; cache-sends 0 52; router-gets 0 52; "
        "show 0; route 0 192.0.2.0/24 64496",
        EMPTY + "0 8738 9 1\nnot-found\n",
    ),
]

RESTARTS_OF_A_ROUTER = [
    plays("router-restart-of-one-that-holds-a-table", f"{HELD}; router-restart 0; show 0; {turn(0)}; show 0", EMPTY + EMPTY),
    plays("router-restart-and-an-answer-on-the-way", f"{SENT}; router-restart 0; router-gets 0 52; show 0", EMPTY),
    # it asks for all, and its clock begins anew
    plays(
        "router-restart-begins-the-clock-anew",
        f"{WORLD}; tick 0 9000; connect 0; {turn(0)}; show 0; router-restart 0; connect 0; {turn(0)}; show 0; "
        "tick 0 7200; show 0; tick 0 7201; show 0",
        SHOWN + SHOWN + SHOWN + EMPTY,
    ),
]

TWO_ROUTERS = f"world 2 4660 5 2; publish {V}; connect 1; connect 0; {turn(0)}; {turn(1)}; publish {V} {W}; ask 1; {turn(1)}"

SEVERAL_ROUTERS = [
    plays(
        "two-routers-at-two-serials",
        f"{TWO_ROUTERS}; show 0; show 1; route 0 198.51.100.0/24 64497; route 1 198.51.100.0/24 64497; route 1 198.51.100.0/24 none",
        "0 4660 5 1\n1 4660 6 2\nnot-found\nvalid\ninvalid\n",
    ),
    plays(
        "two-routers-and-a-restart-of-one",
        f"{TWO_ROUTERS}; router-restart 1; cut 1 0; show 0; show 1; ask 0; {turn(0)}; show 0",
        "0 4660 5 1\n1 empty\n0 4660 6 2\n",
    ),
    # with two versions kept before the current one, serial 5 is known and serial 4 is not
    plays(
        "two-routers-and-a-serial-that-is-not-kept",
        f"world 2 4660 4 2; publish; connect 1; {turn(1)}; show 1; publish {V}; connect 0; {turn(0)}; show 0; publish {W} {V}; publish {V}; "
        "ask 0; router-sends 0 12; cache-gets 0 12; cache-sends 0 31; router-gets 0 31; show 0; cache-sends 0 1; router-gets 0 1; show 0; "
        "ask 1; router-sends 1 12; cache-gets 1 12; cache-sends 1 8; router-gets 1 8; show 1; "
        "router-sends 1 8; cache-gets 1 8; cache-sends 1 52; router-gets 1 52; show 1",
        "1 4660 4 0\n0 4660 5 1\n0 4660 5 1\n0 4660 7 1\n1 4660 4 0\n1 4660 7 1\n",
    ),
]

# With nothing published there is a report of 24 bytes, and the connection stays; after 600 seconds the router asks again.
NOTHING_PUBLISHED = (
    f"world 1 4660 5 2; connect 0; router-sends 0 8; cache-gets 0 8; cache-sends 0 24; router-gets 0 24; show 0; publish {V}"
)

QUESTIONS = [
    plays("ask-after-a-report-of-no-data", f"{NOTHING_PUBLISHED}; ask 0; {turn(0)}; show 0", EMPTY + SHOWN),
    plays(
        "tick-after-a-report-of-no-data",
        f"{NOTHING_PUBLISHED}; tick 0 599; {turn(0)}; show 0; tick 0 600; {turn(0)}; show 0",
        EMPTY + EMPTY + SHOWN,
    ),
    # the second question of two is none
    plays(
        "ask-twice",
        f"{HELD}; ask 0; ask 0; router-sends 0 24; cache-gets 0 24; cache-sends 0 32; router-gets 0 32; "
        f"publish {W}; cache-gets 0 24; cache-sends 0 99; router-gets 0 99; show 0",
        SHOWN,
    ),
    # serials go on from 0, and a set that is current adds none
    plays(
        "serials-go-on-from-0",
        f"world 1 4660 4294967295 2; publish {V}; publish {V}; connect 0; {turn(0)}; show 0; publish {V} {W} {V}; ask 0; {turn(0)}; show 0",
        "0 4660 4294967295 1\n0 4660 0 2\n",
    ),
]

NOTIFIED = "notify 0; cache-sends 0 12; router-gets 0 12; router-sends 0 12"
ANSWERED = "cache-gets 0 12; cache-sends 0 52; router-gets 0 52; show 0"
TOLD_THE_INTERVALS = f"{WORLD}; tick 0 100; connect 0; {turn(0)}; publish {V} {W}"

NOTIFIES_AND_TICKS = [
    plays("notify-of-a-new-serial", f"{HELD}; publish {V} {W}; {NOTIFIED}; {ANSWERED}", "0 4660 6 2\n"),
    plays(
        "notify-of-a-new-serial-and-two-sets-later",
        f"{HELD}; publish {V} {W}; {NOTIFIED}; {ANSWERED}; publish {W}; publish; ask 0; {turn(0)}; show 0",
        "0 4660 6 2\n0 4660 8 0\n",
    ),
    # none is queued behind one that is still to be sent: the cache could not read the query before it
    plays("notify-twice", f"{HELD}; publish {V} {W}; notify 0; {NOTIFIED}; {ANSWERED}", "0 4660 6 2\n"),
    # one of a version that it holds is no reason to ask; without a connection nobody is notified
    plays("notify-of-a-serial-that-it-holds", f"{HELD}; {NOTIFIED}; publish {V} {W}; {ANSWERED}", SHOWN),
    plays("notify-without-a-connection", f"{WORLD}; notify 0; cache-sends 0 12; router-gets 0 12; show 0", EMPTY),
    # the intervals are those that a cache tells: 3600 seconds to the next question, 7200 to the end
    plays(
        "tick-to-the-next-question",
        f"{TOLD_THE_INTERVALS}; tick 0 3699; {turn(0)}; show 0; tick 0 3700; router-sends 0 12; {ANSWERED}",
        SHOWN + "0 4660 6 2\n",
    ),
    plays("tick-to-the-end", f"{TOLD_THE_INTERVALS}; tick 0 7300; show 0; tick 0 7301; show 0", SHOWN + EMPTY),
    plays(
        "tick-after-a-cut",
        f"{TOLD_THE_INTERVALS}; cut 0 0; tick 0 7301; tick 0 7300; show 0; route 0 192.0.2.0/24 64496",
        EMPTY + "not-found\n",
    ),
    plays("tick-to-the-greatest-moment", f"{HELD}; tick 0 18446744073709551615; show 0", EMPTY),
]

# Each event of a router.
EVENTS = (
    *("router-restart {}", "connect {}", "router-sends {} 1", "cache-gets {} 1", "cache-sends {} 1", "router-gets {} 1", "cut {} 0"),
    *("notify {}", "speak {} 0", "ask {}", "tick {} 1", "show {}", "route {} 192.0.2.0/24 64496"),
)


def without_router(router):
    """Each event of the first router that there is not in a world of so many."""
    events = "; ".join(it.format(router) for it in EVENTS)
    return plays(f"each-event-without-router-{router}", f"world {router} 1 1 1; {events}", refused(3, *range(2, 2 + len(EVENTS))))


REFUSED_EVENTS = [
    without_router(0),
    without_router(1),
    without_router(3),
    plays("show-without-router-65535", "world 1 4660 5 2; show 65535; show 0", refused(3, 2) + EMPTY),
    plays("world-without-events", "world 0 1 1 1", ""),
    # a session that an instance has, or had; what is refused changes nothing
    plays("restart-in-the-same-session", f"{HELD}; restart 4660 9; ask 0; {turn(0)}; show 0", refused(1, 8) + SHOWN),
    plays(
        "restart-in-former-sessions",
        "world 0 4660 5 2; restart 8738 9; restart 0 9; restart 4660 1; restart 8738 1; restart 0 0",
        refused(1, 4, 5, 6),
    ),
    # without a connection these are no refusals, and change nothing
    plays(
        "no-connection",
        f"{WORLD}; router-sends 0 8; cache-gets 0 8; cache-sends 0 8; router-gets 0 8; cut 0 0; notify 0; ask 0; show 0",
        EMPTY,
    ),
]

# Routers of either version at one cache, whose sessions are 4660 in version 1 and 1911 in version 0 at first.
BOTH = f"world 1 4660 5 2 1911; publish {V}; catch-up 0; show 0; speak 0 0; catch-up 0; show 0"
SHOWN_0 = "0 v0 1911 5 1\n"
SHOWN_BOTH = CAUGHT_UP + SHOWN + CAUGHT_UP + SHOWN_0

BOTH_VERSIONS = [
    plays(
        "version-0-session-of-version-1-before",
        f"{BOTH}; restart 1911 9 4660; publish; catch-up 0; show 0; restart 1912 1 1911",
        SHOWN_BOTH + CAUGHT_UP + "0 v0 4660 9 0\n" + refused(1, 12),
    ),
    # a number is used in its version alone; without SESSION0 it is that of version 1, and is judged too
    plays(
        "version-0-sessions-used-before",
        "world 0 1 5 2 2; restart 2 5 1; restart 3 5 3; restart 4 5 1; restart 2 5 9; restart 4 5 4; restart 4 5 5",
        refused(1, 4, 5, 7),
    ),
    plays("version-0-session-of-version-1-used-before", "world 0 1 5 2 2; restart 2 5", refused(1, 2)),
    plays("version-0-session-alone-used-before", "world 0 7 1 1; restart 8 1 7", refused(1, 2)),
    plays(
        "version-0-without-a-session-of-its-own",
        f"world 1 4660 5 2; publish {V}; speak 0 0; catch-up 0; show 0",
        CAUGHT_UP + "0 v0 4660 5 1\n",
    ),
    # it holds from the next connection; the table of the other version stays until a commit, and is told by its own session
    plays(
        "speak-from-the-next-connection-on",
        f"{BOTH}; publish {V} {W}; speak 0 1; show 0; ask 0; {turn(0)}; show 0; connect 0; show 0; {turn(0)}; show 0",
        SHOWN_BOTH + SHOWN_0 + "0 v0 1911 6 2\n0 v0 1911 6 2\n0 4660 6 2\n",
    ),
    # a router that restarts speaks version 1; without a connection it can be told a version
    plays(
        "speak-before-a-connection-and-restart",
        f"world 2 4660 5 2 1911; speak 1 0; publish {V}; catch-up 1; show 1; router-restart 1; catch-up 1; show 1; show 0",
        "1 caught-up\n1 v0 1911 5 1\n1 caught-up\n1 4660 5 1\n" + EMPTY,
    ),
    # nothing is published: a table of the other version may stay
    plays(
        "speak-version-1-where-nothing-is-published",
        f"{BOTH}; restart 7 7 8; speak 0 1; catch-up 0; show 0",
        SHOWN_BOTH + "0 no-data\n" + SHOWN_0,
    ),
    plays("version-0-where-nothing-is-published", f"{BOTH}; restart 7 7 8; catch-up 0; show 0", SHOWN_BOTH + "0 no-data\n" + EMPTY),
    # a notify before a header is of version 1, and does nothing; what was committed in version 0 expires after 7200 seconds
    plays(
        "version-0-notify-before-a-header",
        f"world 1 4660 5 2 1911; speak 0 0; publish {V}; connect 0; notify 0; cache-sends 0 99; router-gets 0 99; {turn(0)}; show 0",
        SHOWN_0,
    ),
    plays("version-0-tick-to-the-end", f"{BOTH}; tick 0 7200; show 0; tick 0 7201; show 0", SHOWN_BOTH + SHOWN_0 + EMPTY),
]


def relays(name, first, *versions, kept=()):
    """A chain of two relays (sessions 17, 18 and 19). The first cache goes by a script, and each relay publishes what its router held: a set for
    each version. `kept` are the places of versions that a relay publishes once more, as its router held nothing newer."""
    rows = [plays(f"{name}-at-the-first-cache", *first)]
    for session in (18, 19):
        text, output = f"world 1 {session} 5 16", ""
        for serial, items in enumerate(versions, 5):
            for _ in range(2 if serial - 5 in kept else 1):
                text += f"; publish {items}".rstrip() + "; catch-up 0; show 0"
                output += f"{CAUGHT_UP}0 {session} {serial} {len(items.split())}\n"
        rows.append(plays(f"{name}-at-session-{session}", text, output))
    return rows


AT_17 = f"world 1 17 5 16; publish {V}; catch-up 0; show 0"
SHOWN_AT_17 = f"{CAUGHT_UP}0 17 5 1\n"
CHAINS = [
    relays(
        "a-chain",
        (f"{AT_17}; publish {V} {W}; catch-up 0; show 0; publish; catch-up 0; show 0", f"{SHOWN_AT_17}{CAUGHT_UP}0 17 6 2\n{CAUGHT_UP}0 17 7 0\n"),
        V,
        f"{V} {W}",
        "",
    ),
    # the answer to the first relay is cut before its last byte
    relays(
        "a-chain-that-is-cut",
        (
            f"{AT_17}; publish {V} {W}; connect 0; router-sends 0 12; cache-gets 0 12; cache-sends 0 52; router-gets 0 51; cut 0 0; show 0; catch-up 0; show 0",
            f"{SHOWN_AT_17}0 17 5 1\n{CAUGHT_UP}0 17 6 2\n",
        ),
        V,
        f"{V} {W}",
        kept=[0],
    ),
    # a restart of the first cache is one version more of a relay
    relays("a-chain-whose-cache-restarts", (f"{AT_17}; restart 99 1; publish {W}; catch-up 0; show 0", f"{SHOWN_AT_17}{CAUGHT_UP}0 99 1 1\n"), V, W),
]


def versions_later(count, output):
    """A query of a serial that is so many versions old."""
    later = "; ".join("publish" if it % 2 else f"publish {V}" for it in range(1, count + 1))
    answer = "connect 0; router-sends 0 12; cache-gets 0 12; cache-sends 0 32; router-gets 0 32; show 0"
    return plays(f"{count}-versions-later", f"world 1 4660 0 65536; publish {V}; catch-up 0; {later}; {answer}", CAUGHT_UP + output)


LONG_LOG = [
    # a version 65,536 versions old is known, and then nothing came and nothing went; one that is older is answered by a Cache Reset
    versions_later(65536, "0 4660 65536 1\n"),
    versions_later(65537, "0 4660 0 1\n"),
]


def bad_beginning(name, line):
    return plays(f"first-line-{name}", line if isinstance(line, bytes) else f"{line}; show 0", "line 1 unreadable\n", 1)


UNREADABLE_BEGINNINGS = [
    bad_beginning("empty", ""),
    bad_beginning("a-blank", " "),
    bad_beginning("a-tab", "\t"),
    bad_beginning("a-carriage-return", "\r"),
    bad_beginning("without-numbers", "world"),
    bad_beginning("of-three-numbers", "world 1 1 1"),
    bad_beginning("of-six-numbers", "world 1 1 1 1 1 1"),
    bad_beginning("another-word", "worlds 1 1 1 1"),
    bad_beginning("a-capital", "World 1 1 1 1"),
    bad_beginning("of-an-event", "publish"),
    bad_beginning("byte-order-mark", "\ufeffworld 1 1 1 1"),
    bad_beginning("two-blanks", "world  1 1 1 1"),
    bad_beginning("a-blank-before", " world 1 1 1 1"),
    bad_beginning("a-blank-behind", "world 1 1 1 1 "),
    bad_beginning("a-tab-between", "world\t1 1 1 1"),
    bad_beginning("a-carriage-return-behind", "world 1 1 1 1\r"),
    bad_beginning("a-tab-behind", "world 1 1 1 1\t"),
    bad_beginning("routers-of-17-bits", "world 65536 1 1 1"),
    bad_beginning("session-of-17-bits", "world 1 65536 1 1"),
    bad_beginning("serial-of-33-bits", "world 1 1 4294967296 1"),
    bad_beginning("no-versions-kept", "world 1 1 1 0"),
    bad_beginning("too-many-versions-kept", "world 1 1 1 65537"),
    bad_beginning("versions-kept-of-33-bits", "world 1 1 1 4294967297"),
    bad_beginning("routers-with-a-leading-zero", "world 01 1 1 1"),
    bad_beginning("routers-with-a-sign", "world +1 1 1 1"),
    bad_beginning("session-below-0", "world 1 -1 1 1"),
    bad_beginning("serial-in-hexadecimal", "world 1 1 0x1 1"),
    bad_beginning("versions-kept-no-number", "world 1 1 1 x"),
    bad_beginning("session0-no-number", "world 1 1 1 1 x"),
    bad_beginning("session0-with-a-leading-zero", "world 1 1 1 1 01"),
    bad_beginning("session0-of-17-bits", "world 1 1 1 1 65536"),
    bad_beginning("of-an-empty-file", b""),
    bad_beginning("no-utf-8", b"world 1 1 1 1\xff\n"),
    bad_beginning("a-zero-byte-behind", b"world 1 1 1 1\x00\n"),
    plays("first-line-of-greatest-numbers", "world 0 65535 4294967295 65536", ""),
]


def unreadable(name, line):
    return plays(f"unreadable-{name}", f"world 1 4660 5 2; show 0; {line}; show 0", EMPTY + "line 3 unreadable\n", 1)


UNREADABLE_LINES = [
    unreadable("empty-line", ""),
    unreadable("blank", " "),
    unreadable("tab", "\t"),
    unreadable("carriage-return", "\r"),
    unreadable("word", "nothing 0"),
    unreadable("capital", "Connect 0"),
    unreadable("second-world", "world 1 4660 5 2"),
    unreadable("connect-without-a-router", "connect"),
    unreadable("connect-of-two", "connect 0 0"),
    unreadable("connect-two-blanks", "connect  0"),
    unreadable("connect-a-blank-before", " connect 0"),
    unreadable("connect-a-blank-behind", "connect 0 "),
    unreadable("connect-a-tab-between", "connect\t0"),
    unreadable("connect-a-carriage-return-behind", "connect 0\r"),
    unreadable("connect-a-tab-behind", "connect 0\t"),
    unreadable("connect-a-tab-before", "\tconnect 0"),
    unreadable("connect-with-a-sign", "connect +0"),
    unreadable("connect-with-two-zeros", "connect 00"),
    unreadable("connect-with-a-leading-zero", "connect 05"),
    unreadable("connect-below-0", "connect -1"),
    unreadable("connect-no-number", "connect x"),
    unreadable("connect-of-17-bits", "connect 65536"),
    unreadable("router-sends-without-a-count", "router-sends 0"),
    unreadable("router-sends-a-count-of-65-bits", "router-sends 0 18446744073709551616"),
    unreadable("router-sends-a-leading-zero", "router-sends 0 01"),
    unreadable("cache-gets-a-sign", "cache-gets 0 +5"),
    unreadable("cache-sends-no-number", "cache-sends 0 x"),
    unreadable("router-gets-two-counts", "router-gets 0 1 1"),
    unreadable("cut-without-a-count", "cut 0"),
    unreadable("cut-below-0", "cut 0 -1"),
    unreadable("tick-without-a-moment", "tick 0"),
    unreadable("tick-of-65-bits", "tick 0 18446744073709551616"),
    unreadable("notify-without-a-router", "notify"),
    unreadable("ask-of-two", "ask 0 0"),
    unreadable("router-restart-without-a-router", "router-restart"),
    unreadable("show-without-a-router", "show"),
    unreadable("show-of-two", "show 0 0"),
    unreadable("show-of-17-bits", "show 65536"),
    unreadable("restart-without-a-serial", "restart 1"),
    unreadable("restart-session-of-17-bits", "restart 65536 1"),
    unreadable("restart-serial-of-33-bits", "restart 1 4294967296"),
    unreadable("restart-of-four-numbers", "restart 1 1 1 1"),
    unreadable("restart-session0-of-17-bits", "restart 1 1 65536"),
    unreadable("restart-session0-no-number", "restart 1 1 x"),
    unreadable("restart-session-with-a-leading-zero", "restart 01 1"),
    unreadable("speak-without-a-router", "speak"),
    unreadable("speak-without-a-version", "speak 0"),
    unreadable("speak-version-2", "speak 0 2"),
    unreadable("speak-version-with-a-leading-zero", "speak 0 01"),
    unreadable("speak-no-number", "speak 0 x"),
    unreadable("speak-of-two-versions", "speak 0 0 0"),
    unreadable("speak-router-of-17-bits", "speak 65536 0"),
    unreadable("route-without-a-prefix", "route 0"),
    unreadable("route-without-an-origin", "route 0 192.0.2.0/24"),
    unreadable("route-prefix-with-a-bit-behind-its-length", "route 0 192.0.2.1/24 1"),
    unreadable("route-prefix-longer-than-its-family", "route 0 192.0.2.0/33 1"),
    unreadable("route-origin-of-33-bits", "route 0 192.0.2.0/24 4294967296"),
    unreadable("route-origin-with-a-leading-zero", "route 0 192.0.2.0/24 05"),
    unreadable("route-none-in-capitals", "route 0 192.0.2.0/24 NONE"),
    unreadable("route-of-two-origins", "route 0 192.0.2.0/24 1 1"),
    unreadable("route-a-blank-behind", "route 0 192.0.2.0/24 "),
    unreadable("publish-a-blank-behind", "publish "),
    unreadable("publish-two-blanks-before-an-item", f"publish  {V}"),
    unreadable("publish-a-blank-behind-an-item", f"publish {V} "),
    unreadable("publish-two-blanks-between-items", f"publish {V}  {W}"),
    unreadable("publish-item-of-two-parts", "publish 192.0.2.0/24,24"),
    unreadable("publish-item-of-four-parts", f"publish {V},1"),
    unreadable("publish-max-length-below-the-prefix", "publish 192.0.2.0/24,23,64496"),
    unreadable("publish-max-length-beyond-the-family", "publish 192.0.2.0/24,33,1"),
    unreadable("publish-max-length-beyond-a-byte", "publish 192.0.2.0/24,280,1"),
    unreadable("publish-prefix-with-a-bit-behind-its-length", "publish 192.0.2.1/24,24,1"),
    unreadable("publish-max-length-with-a-sign", "publish 192.0.2.0/24,+24,1"),
    unreadable("publish-max-length-with-a-leading-zero", "publish 192.0.2.0/24,024,1"),
    unreadable("publish-asn-of-33-bits", "publish 192.0.2.0/24,24,4294967296"),
    unreadable("publish-asn-with-a-leading-zero", "publish 192.0.2.0/24,24,01"),
    unreadable("publish-asn-none", "publish 192.0.2.0/24,24,none"),
    unreadable("publish-a-comma-behind-an-item", f"publish {V},"),
    unreadable("publish-a-semicolon-between-items", f"publish {V};{W}"),
    # what could not be done cannot be read first
    unreadable("connect-of-two-and-no-such-router", "connect 7 0"),
    unreadable("router-sends-without-a-count-and-no-such-router", "router-sends 7"),
    unreadable("show-of-two-and-no-such-router", "show 7 0"),
    unreadable("route-origin-with-a-leading-zero-and-no-such-router", "route 7 192.0.2.0/24 05"),
    unreadable("restart-without-a-serial-in-a-used-session", "restart 4660"),
    unreadable("restart-serial-with-a-leading-zero-in-a-used-session", "restart 4660 05"),
    plays("unreadable-no-utf-8", b"world 1 4660 5 2\nshow 0\nconnect \xff\n", EMPTY + "line 3 unreadable\n", 1),
    plays("unreadable-empty-last-line", b"world 1 4660 5 2\nshow 0\n\n", EMPTY + "line 3 unreadable\n", 1),
    # the last line may lack its newline
    plays("last-line-without-a-newline", b"world 1 4660 5 2\nshow 0", EMPTY),
    plays("unreadable-last-line-without-a-newline", b"world 1 4660 5 2\nshow 0\nconnect", EMPTY + "line 3 unreadable\n", 1),
]

SEVERAL_ITEMS = (
    f"world 1 4660 5 2; publish {V} 192.0.2.0/24,25,64496 2001:DB8:0::/32,48,4294967295 {V} 0.0.0.0/0,0,0; connect 0; "
    "router-sends 0 8; cache-gets 0 8; cache-sends 0 999; router-gets 0 999; show 0; "
    "route 0 192.0.2.0/25 64496; route 0 2001:db8:1::/48 4294967295; route 0 2001:db8::/32 none; route 0 10.0.0.0/8 1; route 0 ::/0 1"
)

FILES = [
    plays("publish-several-items", SEVERAL_ITEMS, lines("0 4660 5 4", "valid", "valid", "invalid", "invalid", "not-found")),
    bad_words("no-words", "world"),
    bad_words("two-files", "world script script", script(SEVERAL_ITEMS)),
    bad_words("help-as-an-option", "world --help"),
    bad_words("unknown-option", "world -x"),
    device_failed("no-such-file", "world gone"),
    Case("a-full-output", "world script", 3, FULL, DEVICE, script(SEVERAL_ITEMS)),
]
