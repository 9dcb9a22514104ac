#!/usr/bin/env bash
# The daemon over sockets, a minute, with a soak of twenty seconds: tests/daemon has the parts. If there is a C compiler, each request for
# memory of a daemon is refused in turn.
set -u
top=$(cd "$(dirname "${BASH_SOURCE[0]}")/.." && pwd) || exit 1
folder=$(mktemp -d) || exit 1
trap 'rm -rf "$folder"' EXIT
rpkirtr=$(bash "$top/tools/start.sh" --path rpkirtr) || exit 1
rpkirtrd=$(bash "$top/tools/start.sh" --path rpkirtrd) || exit 1
shim=()
if command -v cc >/dev/null 2>&1; then
    cc -O2 -Wall -Wextra -Werror -shared -fPIC -o "$folder/refusing.so" "$top/tests/lib/refusing.c" -ldl || exit 1
    shim=(--shim "$folder/refusing.so")
elif [ -n "${CI:-}" ]; then
    exit 1
fi
timeout 300 python3 "$top/tests/daemon.py" "$rpkirtrd" --rpkirtr "$rpkirtr" "${shim[@]}"
