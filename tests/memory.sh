#!/usr/bin/env bash
# Requests for memory refused in turn: tests/memory.py has the runs, and what may come of them; refusing.c stands between them and the
# C library. Where there is no C compiler, they are skipped, but not in CI. Without the program of the runs, which the gate builds, the commands
# alone are run.
set -u
top=$(cd "$(dirname "${BASH_SOURCE[0]}")/.." && pwd) || exit 1
folder=$(mktemp -d) || exit 1
trap 'rm -rf "$folder"' EXIT
if ! command -v cc >/dev/null 2>&1; then
    echo 'memory: there is no C compiler cc, so no request for memory is refused' >&2
    [ -z "${CI:-}" ] && exit 77
    exit 1
fi
cc -O2 -Wall -Wextra -Werror -shared -fPIC -o "$folder/refusing.so" "$top/tests/lib/refusing.c" -ldl || exit 1
rpkirtr=$(bash "$top/tools/start.sh" --path rpkirtr) || exit 1
. "$top/tests/lib/built.bash"
runs=$top/crates/memory_tests/out/memory_tests_tests
why=$(built memory_tests memory_tests_tests rt test)
case $? in
0) python3 "$top/tests/memory.py" "$rpkirtr" "$folder/refusing.so" "$runs" ;;
77)
    python3 "$top/tests/memory.py" "$rpkirtr" "$folder/refusing.so" || exit
    echo "the commands alone passed: $why"
    exit 77
    ;;
*) exit 1 ;;
esac
