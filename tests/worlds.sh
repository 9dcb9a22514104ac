#!/usr/bin/env bash
# Random worlds for half a minute: tests/worlds.py says how they are judged, and takes other seeds and times.
set -u
top=$(cd "$(dirname "${BASH_SOURCE[0]}")/.." && pwd) || exit 1
rpkirtr=$(bash "$top/tools/start.sh" --path rpkirtr) || exit 1
exec python3 "$top/tests/worlds.py" "$rpkirtr"
