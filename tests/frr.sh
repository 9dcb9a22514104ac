#!/usr/bin/env bash
# Debian's bgpd over examples/frr, the router client of the library for C in place of rtrlib: tests/frr.py. It is skipped where FRR, its module
# for the RPKI, rtrlib's headers or a C compiler is not installed.
set -u
top=$(cd "$(dirname "${BASH_SOURCE[0]}")/.." && pwd) || exit 1
. "$top/tools/programs.bash" || exit 1
for file in /usr/lib/frr/bgpd /usr/include/rtrlib/rtrlib.h; do
    [ -e "$file" ] || { echo "$file is not installed (Debian: frr, frr-rpki-rtrlib, librtr-dev)"; exit 77; }
done
ls /usr/lib/*/frr/modules/bgpd_rpki.so >/dev/null 2>&1 || { echo 'bgpd_rpki.so is not installed (Debian: frr-rpki-rtrlib)'; exit 77; }
for tool in gcc vtysh; do
    command -v "$tool" >/dev/null 2>&1 || { echo "$tool is not installed"; exit 77; }
done
[ "$(id -u)" -eq 0 ] || { echo 'bgpd is started by root alone'; exit 77; }
find_program librpkirtr.a || { echo 'librpkirtr.a is neither built here nor delivered of these sources'; exit 77; }
library=$program
daemon=$(bash "$top/tools/start.sh" --path rpkirtrd) || exit 1
out=$(mktemp -d) || exit 1
trap 'rm -rf "$out"' EXIT
gcc -std=gnu99 -D_GNU_SOURCE -O2 -Wall -Wextra -Werror -fPIC -shared -Wl,-soname,librtr.so.0 -Wl,-z,defs -I"$top/include" -o "$out/librtr.so.0" \
    "$top/examples/frr/librtr.c" "$library" -lpthread || exit 1
[ -z "${QUICK:-}" ] || set -- --changes 3 "$@"
python3 "$top/tests/frr.py" "$out" "$daemon" "$@"
