#!/usr/bin/env bash
# What validators write, and local exceptions: by rows (tests/file_rows.py), and at random (tests/exports.py, tests/exceptions.py), which work
# out in Python what must come of them. They drive the tests of a crate, which the gate builds; without these, this is skipped.
set -u
top=$(cd "$(dirname "${BASH_SOURCE[0]}")/.." && pwd) || exit 1
. "$top/tests/lib/built.bash"
failed=0

# Runs a driver on the tests of the crate.
drive() { # drive DRIVER WORD..
    python3 "$top/tests/$1" "$top/crates/export_tests/out/export_tests_tests" "${@:2}" || failed=1
}

built export_tests export_tests_tests rt test || exit
drive file_rows.py
drive exports.py --seconds 8
drive exceptions.py --seconds 8
exit "$failed"
