#!/usr/bin/env bash
# The script `run` starts the program in the caller's folder, with its words, its output and its status.
set -u
top=$(cd "$(dirname "${BASH_SOURCE[0]}")/.." && pwd) || exit 1
folder=$(mktemp -d) || exit 1
trap 'rm -rf "$folder"' EXIT
cd "$folder" || exit 1
cp "$top/vrps.json" .

expect() { # expect STATUS OUTPUT WORD..
    local status=$1 output=$2 found
    shift 2
    found=$("$top/run" "$@" 2>errors)
    local got=$?
    [ "$got" -eq "$status" ] && [ "$found" = "$output" ] && return
    echo "run $*: status $got, output:" >&2
    printf '%s\n' "$found" >&2
    exit 1
}

answer='0103123400000008
010400000000001401181800c00002000000fbf0
01071234000000180000000500000e100000025800001c20'
expect 0 "$answer" answer --session 4660 --serial 5 --vrps vrps.json 0102000000000008
expect 0 "$answer" answer --vrps vrps.json 0102000000000008 --serial=5 --session 4660
expect 2 '' answer --session 4660 --serial 05 --vrps vrps.json 0102000000000008
grep -q '^rpkirtr: bad words$' errors || exit 1
expect 3 '' answer --session 4660 --serial 5 --vrps nothing.json 0102000000000008
grep -q '^rpkirtr: device failed$' errors || exit 1
expect 1 'refused list' answer --session 4660 --serial 5 --vrps errors 0102000000000008
expect 0 'valid' route --vrps vrps.json 192.0.2.0/24 64496
expect 0 'invalid' route 192.0.2.0/24 none --vrps=vrps.json
expect 0 'not-found' route --vrps vrps.json 198.51.100.0/24 64496
expect 1 'refused word' route --vrps nothing.json 192.0.2.1/24 64496

# Through a link to the script, the same.
ln -s "$top/run" linked
[ "$(./linked answer --session 4660 --serial 5 --vrps vrps.json 0102000000000008)" = "$answer" ] || exit 1

# Without words the program says its line alone, and on a terminal the usage of each of the ten commands follows.
expect 2 ''
[ "$(cat errors)" = 'rpkirtr: bad words' ] || exit 1
python3 -c 'import os, pty, sys; sys.exit(os.waitstatus_to_exitcode(pty.spawn(sys.argv[1:])))' "$top/run" >shown
[ $? -eq 2 ] || exit 1
[ "$(sed -n '1s/\r$//p' shown)" = 'rpkirtr: bad words' ] || exit 1
[ "$(grep -c '^usage: ./run [a-z]' shown)" -eq 10 ] || exit 1

# The blocks of README and of the page of commands, as a shell runs them that is no bash. A block that is no example of `./run` is left out.
printf '#!/bin/sh\nexec "%s/run" "$@"\n' "$top" >run
chmod +x run
ln -s "$top/samples" samples
blocks() { # blocks FILE
    awk '/^```sh$/ { on = 1; block = ""; next } /^```$/ { if (on && block ~ /\.\/run /) printf "%s", block; on = 0; next } on { block = block $0 "\n" }' "$1"
}
blocks "$top/README.md" >commands.sh
sh -e commands.sh >told 2>errors || exit 1
cat >wanted <<'END'
0103123400000008
010400000000001401181800c00002000000fbf0
01071234000000180000000500000e100000025800001c20
0 empty
0 caught-up
0 4660 5 1
invalid
END
cmp -s told wanted || { diff told wanted >&2; exit 1; }
blocks "$top/docs/COMMANDS.md" >commands.sh
sh -e commands.sh >told 2>errors || exit 1
cat >wanted <<'END'
198.51.100.0/24 26 64497
2001:db8::/32 48 64497
number 01
this 20250101000000Z
next 20250102000000Z
da32bfbe0d8eea0f5d3b56023c55d1c23aa91df50233f89c325086b2b206d5a2 a.roa
a2d157e642da46283b7a613fb14f054a1cd41c2f401f60b6acf37899decd2603 b.roa
[{"asn":64496,"maxLength":24,"prefix":"192.0.2.0/24"},{"asn":64497,"maxLength":26,"prefix":"198.51.100.0/24"},{"asn":64497,"maxLength":48,"prefix":"2001:db8::/32"}]
valid
invalid
cache-response 4660
announce 192.0.2.0/24 24 64496
end-of-data 4660 5 3600 600 7200
cache-response 4660
announce 192.0.2.0/24 24 64496
refused 7 at 28
0103123400000008
01071234000000180000000500000e100000025800001c20
010a00030000001800000008010800000000000800000000
0003077700000008
000707770000000c00000005
committed 4660 5
[{"asn":64496,"maxLength":24,"prefix":"192.0.2.0/24"},{"asn":64497,"maxLength":26,"prefix":"198.51.100.0/24"},{"asn":64497,"maxLength":48,"prefix":"2001:db8::/32"}]
served 1
committed 4660 5
valid
END
cmp -s told wanted || { diff told wanted >&2; exit 1; }
grep -q '^samples/point new$' errors || exit 1
expect 1 'refused 1 at 0' roa /dev/null
expect 1 '[]' payloads --now 20250102000001Z samples/point
grep -q '^samples/point refused 3$' errors || exit 1
# The lists of other programs become the sample's, by the line of the page of commands.
if command -v jq >/dev/null 2>&1; then
    grep '^jq -c' "$top/docs/COMMANDS.md" | sed 's/samples.rpki-client.json > list.json/"$1"/' >line.sh
    for list in rpki-client stayrtr; do
        sh line.sh "samples/$list.json" | cmp -s - samples/list.json || { echo "$list.json is another list" >&2; exit 1; }
    done
fi
expect 1 'refused 7 at 0' answer --session 4660 --serial 5 --vrps vrps.json 01020000000000
expect 1 'refused hex' answer --session 4660 --serial 5 --vrps vrps.json 010

# The picture of a table's life is of what is printed.
rpkirtr=$(bash "$top/tools/start.sh" --path rpkirtr) || exit 1
python3 "$top/tools/figures.py" "$rpkirtr" life.svg || exit 1
cmp -s life.svg "$top/docs/figures/life.svg" || { echo 'docs/figures/life.svg differs: tools/figures.py draws it anew' >&2; exit 1; }
