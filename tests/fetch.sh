#!/usr/bin/env bash
# rpkirtrd-fetch against an HTTPS server on 127.0.0.1: what replaces the file, and what leaves it as it is, with the reason in one line.
# tests/fetch.py has the cases. Where systemd-analyze is there, it finds nothing wrong with the units.
set -u
top=$(cd "$(dirname "${BASH_SOURCE[0]}")/.." && pwd) || exit 1
for command in curl openssl; do
    if ! command -v "$command" >/dev/null 2>&1; then
        echo "the command $command is not installed"
        exit 77
    fi
done
rpkirtrd=$(bash "$top/tools/start.sh" --path rpkirtrd) || exit 1
exec timeout 180 python3 "$top/tests/fetch.py" "$rpkirtrd"
