#!/usr/bin/env bash
# What the gate notes of the programs that it proved, for tools/deliver.sh: tools/proved.sh sources prints the sum of each one's sources, and
# tools/proved.sh note SUMS writes these sums and those of the programs to out/proved, if the sources are still the same. The words library and
# note-library do that of the library for C.
set -u
top=$(cd "$(dirname "${BASH_SOURCE[0]}")/.." && pwd) || exit 3
. "$top/tools/programs.bash" || exit 3

sums_of_sources() {
    local name sum
    for name in "${programs[@]}"; do
        source_sum "$name" && echo "$name $sum" || return
    done
}

note() { # note SUMS
    local name sources sum
    [ "$(sums_of_sources)" = "$1" ] || return
    mkdir -p "$top/out" && while read -r name sources; do
        file_sum "$top/crates/$name/out/$name" && echo "$name $sources $sum" || return
    done <<<"$1" >"$top/out/proved.new" && mv "$top/out/proved.new" "$top/out/proved"
}

# The same of the files of the library for C, which is built after the programs, and stands with them in out/proved.
note_library() { # note_library SUM
    local name sum built
    for name in "${libraries[@]}"; do
        built_path "$name" && source_sum "$name" && [ "$sum" = "$1" ] && file_sum "$built" && echo "$name $1 $sum" || return
    done >"$top/out/proved.library" && { grep -v '^librpkirtr' "$top/out/proved"; cat "$top/out/proved.library"; } >"$top/out/proved.new" &&
        mv "$top/out/proved.new" "$top/out/proved"
}

case ${1:-} in
sources) sums_of_sources ;;
note) note "$2" ;;
library) source_sum "${libraries[0]}" && echo "$sum" ;;
note-library) note_library "$2" ;;
*) exit 2 ;;
esac
