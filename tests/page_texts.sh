#!/usr/bin/env bash
# The texts of the status pages, the log, the options and the faults, for made-up values: tests/page_texts.py compares them with those of
# tests/texts. The gate builds the program that prints them; without it this is skipped.
set -u
top=$(cd "$(dirname "${BASH_SOURCE[0]}")/.." && pwd) || exit 1
. "$top/tests/lib/built.bash"
built page_texts page_texts rt run || exit
exec python3 "$top/tests/page_texts.py" "$top/crates/page_texts/out/page_texts"
