#!/usr/bin/env bash
# Spoiled input of each command: tests/mutations.py says what may come of it, and takes other seeds and times.
set -u
top=$(cd "$(dirname "${BASH_SOURCE[0]}")/.." && pwd) || exit 1
rpkirtr=$(bash "$top/tools/start.sh" --path rpkirtr) || exit 1
exec python3 "$top/tests/mutations.py" "$rpkirtr"
