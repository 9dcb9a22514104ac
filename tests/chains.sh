#!/usr/bin/env bash
# Random chains of three caches for 20 seconds: tests/chains.py says how they are judged, and takes other seeds, times and lengths.
set -u
top=$(cd "$(dirname "${BASH_SOURCE[0]}")/.." && pwd) || exit 1
rpkirtr=$(bash "$top/tools/start.sh" --path rpkirtr) || exit 1
exec python3 "$top/tests/chains.py" "$rpkirtr"
