#!/usr/bin/env bash
# Real peers from Debian's packages over loopback: tests/peers.py has them. What is not installed is passed over, and named; with --install
# all of them are installed by apt-get first. ./test runs this with the routers that are there.
set -u
top=$(cd "$(dirname "${BASH_SOURCE[0]}")/.." && pwd) || exit 1
if [ "${1:-}" = --install ]; then
    { apt-get update && DEBIAN_FRONTEND=noninteractive apt-get install -y --no-install-recommends \
        rtr-tools stayrtr gobgpd bird2 frr frr-rpki-rtrlib openbgpd fort-validator rpki-client; } >/dev/null || exit 1
elif [ $# -gt 0 ]; then
    echo 'usage: tests/peers.sh [--install]' >&2
    exit 2
fi
if ! command -v bird rtrclient rtrdump gobgpd bgpd stayrtr fort rpki-client >/dev/null; then
    echo 'no peer is installed (tests/peers.sh --install)'
    exit 77
fi
rpkirtr=$(bash "$top/tools/start.sh" --path rpkirtr) || exit 1
rpkirtrd=$(bash "$top/tools/start.sh" --path rpkirtrd) || exit 1
exec timeout 600 python3 "$top/tests/peers.py" "$rpkirtr" "$rpkirtrd"
