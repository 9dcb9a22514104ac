#!/usr/bin/env bash
# Trust anchor locators, right ones and ones that break one rule each (tests/trust_anchors.py), and what the program anchor_scripts says of them.
# The gate builds that program; without it, this is skipped.
set -u
top=$(cd "$(dirname "${BASH_SOURCE[0]}")/.." && pwd) || exit 1
. "$top/tests/lib/built.bash"
built anchor_scripts anchor_scripts rt run || exit
exec python3 "$top/tests/trust_anchors.py" "$top/crates/anchor_scripts/out/anchor_scripts"
