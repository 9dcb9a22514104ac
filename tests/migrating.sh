#!/usr/bin/env bash
# The change-over of docs/MIGRATING.md from StayRTR to the daemon, and the way back, with BIRD as the router: tests/migrating.py plays them on
# loopback. Without Debian's stayrtr and bird2, curl or jq it is skipped; with --install apt-get installs them first.
set -u
top=$(cd "$(dirname "${BASH_SOURCE[0]}")/.." && pwd) || exit 1
if [ "${1:-}" = --install ]; then
    { apt-get update && DEBIAN_FRONTEND=noninteractive apt-get install -y --no-install-recommends stayrtr bird2 curl jq; } >/dev/null || exit 1
elif [ $# -gt 0 ]; then
    echo 'usage: tests/migrating.sh [--install]' >&2
    exit 2
fi
rpkirtrd=$(bash "$top/tools/start.sh" --path rpkirtrd) || exit 1
exec timeout 300 python3 "$top/tests/migrating.py" "$rpkirtrd"
