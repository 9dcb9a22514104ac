#!/usr/bin/env bash
# Makes dist/ of the programs that the gate has just built: tools/deliver.sh, after ./test has proved them. Commit dist/ then. A program is
# delivered if the gate proved and built it of the sources that stand here and are committed, and if it is still the same, byte for byte.
# Under a version that CHANGELOG.md has as released, with a date, only the bytes are delivered that dist/ has under it already.
# The status is 0 where dist/ is written, 1 where something is refused, 2 where the words are wrong, and 3 where a file failed.
set -u
umask 022
export LC_ALL=C
top=$(cd "$(dirname "${BASH_SOURCE[0]}")/.." && pwd) || exit 3
. "$top/tools/programs.bash" || exit 3
if [ $# -gt 0 ]; then
    echo 'usage: tools/deliver.sh' >&2
    exit 2
fi
refuse() { # refuse MESSAGE
    say "deliver: $1"
    exit 1
}
fail() { # fail MESSAGE
    say "deliver: $1"
    exit 3
}

# Whether the changelog has a version with the date of its release.
is_released() { # is_released VERSION
    grep -q "^## \[${1//./\\.}\] - [0-9]" "$top/CHANGELOG.md" 2>/dev/null
}

# Whether the committed dist/ has this file under this version.
was_delivered() { # was_delivered NAME VERSION SUM
    git -C "$top" show "HEAD:./${delivery#"$top/"}/SOURCES" 2>/dev/null | grep -q "^$1 ${2//./\\.} [0-9a-f]* $3\$"
}

changed=$(git -C "$top" status --porcelain -- . ':!dist') || fail 'git status failed'
[ -z "$changed" ] || refuse "the tree has changes that are not committed: commit them first"$'\n'"$changed"
[ -f "$top/out/proved" ] || refuse 'the gate has not passed here: run ./test first'
kit=$(rt version) || fail 'rt version failed: the Rattle kit is needed'
linkers_here || fail 'cc --version or ld --version failed: a C compiler and binutils are needed'
read -r version < <("$top/crates/rpkirtrd/out/rpkirtrd" --version) && version=${version#rpkirtrd }
[[ $version =~ ^[0-9]+\.[0-9]+\.[0-9]+$ ]] || fail "rpkirtrd --version prints no version: $version"

# What the gate noted of a program, or of a file of the library (tools/proved.sh): the sums of its sources and of its bytes.
for name in "${programs[@]}" "${libraries[@]}"; do
    if [[ $name == librpkirtr.* ]] && is_delivered "$name"; then
        lines_of_programs+=("$(grep "^$name " "$delivery/SOURCES")")
        read_noted linkers && linkers=$noted
        continue
    fi
    read -r noted_sources noted < <(sed -n "s/^$name //p" "$top/out/proved") || refuse "the gate has not proved $name here: run ./test first"
    source_sum "$name" || fail "the sources of $name cannot be read"
    [ "$sum" = "$noted_sources" ] || refuse "the sources of $name are not those that the gate proved: run ./test again"
    sources=$sum
    built_path "$name"
    file_sum "$built" || fail "$name is not built"
    [ "$sum" = "$noted" ] || refuse "${built#"$top/"} is not the program that the gate built: run ./test again"
    if is_released "$version" && ! was_delivered "$name" "$version" "$sum"; then
        refuse "CHANGELOG.md has version $version as released, and this is not the $name that was delivered under it: raise the version"
    fi
    lines_of_programs+=("$name $version $sources $sum")
done

mkdir -p "$delivery" || fail "$delivery cannot be made"
for name in "${programs[@]}" "${libraries[@]}"; do
    ! { [[ $name == librpkirtr.* ]] && is_delivered "$name"; } || continue
    built_path "$name"
    gzip -9nc "$built" >"$delivery/$name.gz.new" && mv "$delivery/$name.gz.new" "$delivery/$name.gz" || fail "$delivery/$name.gz cannot be written"
done
{
    echo '# What is delivered, written by tools/deliver.sh: the kit that proved and built it, the linkers of the library for C, and of each file its version,'
    echo '# the SHA-256 of its sources and its own. SECURITY.md says how to check them.'
    echo "kit $kit"
    echo "linkers $linkers"
    printf '%s\n' "${lines_of_programs[@]}"
} >"$delivery/SOURCES.new" && mv "$delivery/SOURCES.new" "$delivery/SOURCES" || fail "$delivery/SOURCES cannot be written"
cat "$delivery/SOURCES"
