#!/usr/bin/env bash
# The delivered programs of dist/: they are, byte for byte, what the gate has just built of these sources; ./run and ./rpkirtrd start them
# without the Rattle kit and without Python; and what is not what dist/ says is refused, never run. If the sources changed, tools/deliver.sh
# makes dist/ anew. That is done where main lands: on another branch this is skipped, but not in CI.
set -u
export LC_ALL=C
top=$(cd "$(dirname "${BASH_SOURCE[0]}")/.." && pwd) || exit 1
. "$top/tools/programs.bash" || exit 1
folder=$(mktemp -d) || exit 1
trap 'rm -rf "$folder"' EXIT

fail() { # fail MESSAGE
    echo "delivered: $1" >&2
    exit 1
}

# SOURCES is that of this checkout.
for name in "${programs[@]}" "${libraries[@]}"; do
    read_delivery $name || fail "$delivery/SOURCES names no $name"
    source_sum $name || fail "the sources of $name cannot be read"
    [ "$sum" = "$wanted_sources" ] && continue
    branch=$(git -C "$top" symbolic-ref --short -q HEAD)
    if [ -z "${CI:-}" ] && [ -n "$branch" ] && [ "$branch" != main ]; then
        echo "the sources of $name are not those of the delivered program, as may be on the branch $branch"
        exit 77
    fi
    fail "the sources of $name are not those of the delivered program: tools/deliver.sh delivers what ./test has proved"
done

# The programs of this run are the delivered ones. (Without the kit, or by another, none is built that could be compared.)
compared='nothing is built here to compare them with'
if delivered_kit && [ -z "${QUICK:-}" ] && command -v rt >/dev/null 2>&1; then
    compared="the kit here is another than $kit, so no bytes are compared"
    if [ "$(rt version)" = "$kit" ]; then
        compared='the same bytes as built here'
        for name in "${programs[@]}" "${libraries[@]}"; do
            built_path "$name"
            # (the library is not built each time, and other linkers may write another one)
            [[ $name != librpkirtr.* ]] || { [ -f "$built" ] && is_newest "$built" "$name" && same_linkers; } || continue
            gzip -dc "$delivery/$name.gz" | cmp - "$built" || fail "$name is not the program that was built here"
        done
    fi
fi

# A copy of what a start reads, which has no program built in it.
cd "$folder" || exit 1
mkdir repo && cp -p "$top/run" "$top/rpkirtrd" "$top/rpkiobject" "$top/build" "$top/crates.txt" repo && cp -rp "$top/dist" "$top/samples" repo && mkdir repo/tools repo/crates &&
    cp -p "$top"/tools/*.sh "$top"/tools/*.bash repo/tools || exit 1
for crate in "$top"/crates/*/; do
    crate=${crate%/}
    mkdir "repo/crates/${crate##*/}" && cp -rp "$crate/src" "repo/crates/${crate##*/}" || exit 1
done
# Only these commands are on the PATH: neither rt nor Python.
mkdir path
for command in bash dirname gzip sha256sum mkdir mktemp chmod mv rm touch uname getconf; do
    ln -s "$(command -v $command)" path/$command || exit 1
done

# Runs a command with that PATH, and looks at its status, and at a part of what it prints as an error.
start() { # start STATUS PART COMMAND..
    local wanted=$1 part=$2 status
    shift 2
    env -i PATH="${with:-$folder/path}" HOME=/nonexistent TMPDIR="$folder/tmp" "$@" >printed 2>errors
    status=$?
    [ $status -eq "$wanted" ] && { [ -z "$part" ] || grep -qF -- "$part" errors; } && return
    cat errors >&2
    fail "$*: status $status in place of $wanted, or not the words '$part'"
}
mkdir tmp
route=(repo/run route --vrps "$top/samples/list.json" 192.0.2.0/25 64496)
said="rpkirtr $version: delivered program, the same bytes that ./build makes here (proved)"

# The first start unpacks and says so; the next says nothing. So does one after an edit was taken back.
start 0 "$said" "${route[@]}"
[ "$(cat printed)" = invalid ] || fail "the delivered program prints $(cat printed)"
start 0 '' "${route[@]}"
[ ! -s errors ] || fail 'the second start says something'
start 0 "rpkirtrd $version: delivered program" repo/rpkirtrd --version
[ "$(head -n 1 printed)" = "rpkirtrd $version" ] || fail 'rpkirtrd --version prints another version'
start 0 '' repo/rpkirtrd --help
touch repo/crates/prefixes/src/lib.rt
start 0 '' "${route[@]}"
[ ! -s errors ] || fail 'a start after a touched source says something'
start 2 'rpkirtr: bad words' repo/run

# Sources that differ are no sources of the delivered program, and there is no kit to build it.
cp -p repo/crates/prefixes/src/lib.rt kept
echo '// changed' >>repo/crates/prefixes/src/lib.rt
start 3 'the sources here are not those of the delivered program' "${route[@]}"
[ ! -s printed ] || fail 'a program of other sources was run'
cp -p kept repo/crates/prefixes/src/lib.rt
echo 'more: std' >>repo/crates.txt
start 0 '' "${route[@]}"
sed -i 's/^prefixes:.*/& arrayvec/' repo/crates.txt
start 3 'the sources here are not those' "${route[@]}"
cp -p "$top/crates.txt" repo
echo x >repo/crates/prefixes/src/more.rt
start 3 'the sources here are not those' "${route[@]}"
rm repo/crates/prefixes/src/more.rt
start 0 '' "${route[@]}"
# A crate that no program is built from is none of its sources.
echo '// changed' >>repo/crates/rtr_tests/src/lib.rt
start 0 '' "${route[@]}"

# An unpacked program with one byte changed is refused, and unpacked anew once it is removed.
spoil() { # spoil FILE AT
    local byte
    byte=$(od -An -tu1 -j "$2" -N 1 "$1")
    printf "\\$(printf %o $((byte ^ 1)))" | dd of="$1" bs=1 seek="$2" conv=notrunc 2>/dev/null
}
spoil repo/out/rpkirtr 100000
start 3 'repo/out/rpkirtr is not the program of' "${route[@]}"
[ ! -s printed ] || fail 'a spoiled program was run'
rm repo/out/rpkirtr
start 0 "$said" "${route[@]}"

# So is a packed one: of other bytes, cut short, or gone; and nothing is left.
rm repo/out/rpkirtr
for what in 'spoil repo/dist/x86_64-linux/rpkirtr.gz 100000' 'truncate -s 1000 repo/dist/x86_64-linux/rpkirtr.gz' 'rm repo/dist/x86_64-linux/rpkirtr.gz' \
    'cp repo/dist/x86_64-linux/rpkirtrd.gz repo/dist/x86_64-linux/rpkirtr.gz'; do
    $what
    start 3 'repo/dist/x86_64-linux/rpkirtr.gz' "${route[@]}"
    [ "$(ls repo/out)" = rpkirtrd ] || fail "$what: something is left in out/: $(ls repo/out)"
    cp -p "$top/dist/x86_64-linux/rpkirtr.gz" repo/dist/x86_64-linux
done
sed -i 's/^rpkirtr .*/&0/' repo/dist/x86_64-linux/SOURCES
start 3 'does not hold the program of' "${route[@]}"
rm repo/dist/x86_64-linux/SOURCES
start 3 'the sources here are not those' "${route[@]}"
cp -p "$top/dist/x86_64-linux/SOURCES" repo/dist/x86_64-linux

# Without gzip or sha256sum, on another processor or system, and over an older C library.
stub() { # stub COMMAND TEXT: a PATH on which a command prints this
    rm -rf stubs && cp -a path stubs && rm stubs/"$1" && with=$folder/stubs
    [ -z "$2" ] || { printf '#!%s\necho "%s"\n' "$(command -v bash)" "$2" >stubs/"$1" && chmod +x stubs/"$1"; }
}
stub gzip '' && start 3 'the command gzip is not on the PATH' "${route[@]}"
stub sha256sum '' && start 3 'the command sha256sum is not on the PATH' "${route[@]}"
stub uname 'Linux aarch64' && start 3 'this is Linux aarch64' "${route[@]}"
stub uname 'Darwin x86_64' && start 3 'this is Darwin x86_64' "${route[@]}"
stub getconf 'glibc 2.31' && start 3 'this is glibc 2.31' "${route[@]}"
stub getconf '' && start 3 'glibc 2.34 or later' "${route[@]}"
stub getconf 'glibc 2.34' && start 0 "$said" "${route[@]}"
stub getconf 'glibc 2.31' && start 3 'this is glibc 2.31' "${route[@]}"
stub getconf 'glibc 3.0' && start 0 '' "${route[@]}"
unset with
[ -z "$(lacking_flags <(echo 'flags		: fpu cx16 lahf_lm popcnt sse4_1 sse4_2 ssse3 avx'))" ] || fail 'a processor of x86-64-v2 lacks something'
[ "$(lacking_flags <(printf 'model\t: x\nflags\t: fpu cx16 lahf_lm sse4_1 ssse3\nflags\t: sse4_2\n'))" = 'popcnt sse4_2' ] || fail 'an older processor lacks nothing'
[ "$(lacking_flags /dev/null)" = 'cx16 lahf_lm popcnt sse4_1 sse4_2 ssse3' ] || fail 'an unknown processor lacks nothing'

# Where out/ cannot be made, the program is unpacked to a folder of the user's, which is no link and no one else's.
rm -rf repo/out && echo x >repo/out
start 0 "$said" "${route[@]}"
start 0 '' "${route[@]}"
[ ! -s errors ] || fail 'the second start out of a temporary folder says something'
rm -rf tmp/rpkirtr-programs-* && ln -s "$folder" "tmp/rpkirtr-programs-$UID"
start 3 'can be written' "${route[@]}"
rm repo/out tmp/rpkirtr-programs-*

# Many first starts at once: each runs.
for number in 1 2 3 4 5 6 7 8; do
    (env -i PATH="$folder/path" "${route[@]}" >many.$number 2>/dev/null) &
done
wait
for number in 1 2 3 4 5 6 7 8; do
    [ "$(cat many.$number)" = invalid ] || fail 'of eight first starts at once one printed something else'
done
[ "$(ls repo/out)" = rpkirtr ] || fail "something is left in out/: $(ls repo/out)"

# ./build says what it lacks; the words of the scripts.
start 1 'the command rt is not on the PATH' repo/build
start 1 'usage: ./build' repo/build all
start 3 'usage: tools/start.sh' repo/tools/start.sh rpkirtx
start 3 'usage: tools/start.sh' repo/tools/start.sh
start 0 '' repo/tools/start.sh --path rpkirtr
[ "$(cat printed)" = "$folder/repo/out/rpkirtr" ] || fail "the program is said to lie at $(cat printed)"

# tools/deliver.sh makes the same dist/ of the same programs, and refuses what the gate did not prove.
deliver() { # deliver STATUS PART
    bash repo/tools/deliver.sh >printed 2>errors
    [ $? -eq "$1" ] && grep -qF -- "$2" printed errors && return
    cat printed errors >&2
    fail "tools/deliver.sh does not end with status $1 and the words '$2'"
}
in_git() {
    git -C repo -c user.name=test -c user.email=test@example.net "$@" >/dev/null 2>&1 || fail "git $* failed"
}
if [ "$compared" = 'the same bytes as built here' ] && same_linkers; then
    cp -p "$top/.gitignore" repo
    for name in "${programs[@]}" "${libraries[@]}"; do
        built_path "$name"
        path=repo/${built#"$top/"}
        mkdir -p "${path%/*}" && if [ -f "$built" ]; then cp -p "$built" "$path"; else gzip -dc "$delivery/$name.gz" >"$path"; fi || exit 1
    done
    cp -rp "$top/include" repo && mkdir -p repo/tools/librpkirtr && cp -p "$top"/tools/librpkirtr/* repo/tools/librpkirtr || exit 1
    cp -p "$top/crates/rtr_tests/src/lib.rt" repo/crates/rtr_tests/src
    in_git init
    in_git add -A
    in_git commit -m all
    rm -rf repo/dist repo/out
    deliver 1 'the gate has not passed here'
    bash repo/tools/proved.sh note "$(bash repo/tools/proved.sh sources)" || fail 'tools/proved.sh failed'
    deliver 1 'the gate has not proved librpkirtr.a here'
    bash repo/tools/proved.sh note-library "$(bash repo/tools/proved.sh library)" || fail 'tools/proved.sh failed'
    deliver 0 "rpkirtrd $version"
    diff -r "$top/dist" repo/dist >&2 || fail 'tools/deliver.sh makes another dist/ of the same programs'
    # Under a released version the same bytes are delivered, and no others.
    echo "## [$version] - 2026-01-01" >repo/CHANGELOG.md
    in_git add -A
    in_git commit -m released
    deliver 0 "rpkirtrd $version"
    sed -i "s/^\(rpkiobject .* \)[0-9a-f]*$/\1$(printf '%064d' 0)/" repo/dist/x86_64-linux/SOURCES
    in_git commit -am 'other bytes'
    deliver 1 "CHANGELOG.md has version $version as released, and this is not the rpkiobject that was delivered under it"
    in_git reset --hard HEAD~1
    spoil repo/crates/rpkirtr/out/rpkirtr 100000
    deliver 1 'crates/rpkirtr/out/rpkirtr is not the program that the gate built'
    cp -p "$top/crates/rpkirtr/out/rpkirtr" repo/crates/rpkirtr/out
    echo '// changed' >>repo/crates/prefixes/src/lib.rt
    deliver 1 'changes that are not committed'
    in_git commit -am changed
    deliver 1 'the sources of rpkirtr are not those that the gate proved'
fi
echo "delivered: $compared"
