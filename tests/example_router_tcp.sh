#!/usr/bin/env bash
# The example of a router client that stays, over TCP with the daemon, with a cache of version 0, and with StayRTR if that is installed:
# tests/example_router_tcp.py has the parts. If there is a C compiler, data expire too, by a clock that runs fast. The gate builds the example;
# without it this is skipped.
set -u
top=$(cd "$(dirname "${BASH_SOURCE[0]}")/.." && pwd) || exit 1
folder=$(mktemp -d) || exit 1
trap 'rm -rf "$folder"' EXIT
. "$top/tests/lib/built.bash"
built example_router_tcp example_router_tcp bash -c 'rt run -- $(cat args)' || exit
rpkirtrd=$(bash "$top/tools/start.sh" --path rpkirtrd) || exit 1
shim=()
if command -v cc >/dev/null 2>&1; then
    cc -O2 -Wall -Wextra -Werror -shared -fPIC -o "$folder/hurrying.so" "$top/tests/lib/hurrying.c" -ldl || exit 1
    shim=("$folder/hurrying.so")
elif [ -n "${CI:-}" ]; then
    exit 1
fi
timeout 300 python3 "$top/tests/example_router_tcp.py" "$top/crates/example_router_tcp/out/example_router_tcp" "$rpkirtrd" "${shim[@]}"
