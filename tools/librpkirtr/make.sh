#!/usr/bin/env bash
# Proves and builds the library for C, with the Rattle kit (rt on the PATH), a C compiler and binutils: tools/librpkirtr/make.sh puts
# librpkirtr.a and librpkirtr.so.0.0.0 into crates/rpkirtr_c/out/lib. What stands already and is newer than its sources is taken as it is.
# The status is 0 where both are built.
set -u
top=$(cd "$(dirname "${BASH_SOURCE[0]}")/../.." && pwd) || exit 1
. "$top/tools/programs.bash" || exit 1
archive=$top/crates/rpkirtr_c/out/librpkirtr_c.a
out=$top/crates/rpkirtr_c/out/lib
for command in rt cc ar ld objcopy; do
    command -v "$command" >/dev/null 2>&1 || {
        say "librpkirtr: the command $command is not on the PATH"
        exit 1
    }
done
if [ ! -f "$archive" ] || ! is_newest "$archive" librpkirtr.a; then
    (cd "$top/crates/rpkirtr_c" && rt lib >&2) && [ -f "$archive" ] && touch "$archive" || exit 1
fi
heap=$(dirname "$(dirname "$(readlink -f "$(command -v rt)")")")/c/liblibc_c.a
sh "$top/tools/librpkirtr/build.sh" "$archive" "$heap" "$out" && chmod 755 "$out"/librpkirtr.a "$out"/librpkirtr.so.0.0.0
