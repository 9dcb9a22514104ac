#!/usr/bin/env bash
# Canonical cache representations, right ones and spoiled ones (tests/ccrs.py), and what the program ccr_scripts says of them. The gate builds that
# program; without it, this is skipped.
set -u
top=$(cd "$(dirname "${BASH_SOURCE[0]}")/.." && pwd) || exit 1
. "$top/tests/lib/built.bash"
built ccr_scripts ccr_scripts rt run || exit
exec python3 "$top/tests/ccrs.py" "$top/crates/ccr_scripts/out/ccr_scripts" "$@"
