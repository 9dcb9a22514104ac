#!/usr/bin/env bash
# The commands over sockets: tests/sockets.py has the other ends, and accepting.c makes calls for the next connection fail. Where there is
# no C compiler, none of these fails, but not in CI.
set -u
top=$(cd "$(dirname "${BASH_SOURCE[0]}")/.." && pwd) || exit 1
folder=$(mktemp -d) || exit 1
trap 'rm -rf "$folder"' EXIT
shim=()
if command -v cc >/dev/null 2>&1; then
    shim=("$folder/accepting.so")
    cc -O2 -Wall -Wextra -Werror -shared -fPIC -o "${shim[0]}" "$top/tests/lib/accepting.c" -ldl || exit 1
else
    echo 'sockets: there is no C compiler cc, so no call for a connection fails' >&2
    [ -z "${CI:-}" ] || exit 1
fi
rpkirtr=$(bash "$top/tools/start.sh" --path rpkirtr) || exit 1
python3 "$top/tests/sockets.py" "$rpkirtr" "${shim[@]}"
