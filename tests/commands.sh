#!/usr/bin/env bash
# The commands of the program: tests/cases has the words, and what they give.
set -u
top=$(cd "$(dirname "${BASH_SOURCE[0]}")/.." && pwd) || exit 1
rpkirtr=$(bash "$top/tools/start.sh" --path rpkirtr) || exit 1
exec python3 "$top/tests/commands.py" "$rpkirtr"
