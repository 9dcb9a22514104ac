"""Words that begin with no command."""
from cases.shared import FULL, V_JSON, Case, bad_words

CASES = [
    bad_words("none", []),
    bad_words("an-unknown-command", "nothing"),
    bad_words("help-as-a-long-option", "--help"),
    bad_words("help-as-a-short-option", "-h"),
    bad_words("help-as-a-command", "help"),
    bad_words("version-as-a-long-option", "--version"),
    bad_words("version-as-a-short-option", "-V"),
    # no word is abbreviated, and the options stand behind the command
    bad_words("an-abbreviated-command", "ans --session 4660 --serial 5 --vrps v.json 00", V_JSON),
    bad_words("a-moment-before-the-command", "--now 20250101000000Z payloads one"),
    bad_words("a-session-before-the-command", "--session 4660 answer --serial 5 --vrps v.json 00", V_JSON),
    # words that do not parse come before a failed output
    Case("full-streams", "nothing", 2, FULL, FULL),
    Case("full-errors", "nothing", 2, "", FULL),
]
