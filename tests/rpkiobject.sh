#!/usr/bin/env bash
# What the program rpkiobject does with files: kinds, names, what cannot be read, limits, outputs, JSON, and exit statuses. tests/rpkiobject.py
# has the cases; without Python's `cryptography` this is skipped.
set -u
top=$(cd "$(dirname "${BASH_SOURCE[0]}")/.." && pwd) || exit 1
if ! python3 -c 'import cryptography' 2>/dev/null; then
    echo 'rpkiobject: needs python3 with cryptography' >&2
    exit 77
fi
program=$(bash "$top/tools/start.sh" --path rpkiobject) || exit 1
exec python3 "$top/tests/rpkiobject.py" "$program"
