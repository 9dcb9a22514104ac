#!/usr/bin/env bash
# Starts a program with these words, in the caller's folder: tools/start.sh rpkirtr answer --session 4660 ..
# That is the one that was built here, if no source is newer, or else the delivered one of dist/, if the sources are those that it was built
# from. If neither is there, it is proved and built first, which takes minutes and the Rattle kit. tools/start.sh --path NAME prints where the
# program lies instead of starting it.
set -u
top=$(cd "$(dirname "${BASH_SOURCE[0]}")/.." && pwd) || exit 3
. "$top/tools/programs.bash" || exit 3
prints=no
if [ "${1:-}" = --path ]; then
    prints=yes
    shift
fi
if ! is_program "${1:-}"; then
    echo 'usage: tools/start.sh [--path] rpkirtr|rpkirtrd|rpkiobject [WORD..]' >&2
    exit 3
fi
name=$1 && shift

build() {
    if ! command -v rt >/dev/null 2>&1; then
        echo "$name: the sources here are not those of the delivered program ($delivery/SOURCES), and it cannot be built: the command rt of" \
            "the Rattle kit is not on the PATH. git diff shows what was changed; git stash takes it back" >&2
        return 1
    fi
    bash "$top/build" "$name" && program=$top/crates/$name/out/$name
}

find_program "$name"
case $? in
0) ;;
1) build || exit 3 ;;
*) exit 3 ;;
esac
if [ $prints = yes ]; then
    printf '%s\n' "$program"
else
    exec "$program" "$@"
fi
