#!/usr/bin/env bash
# The examples of a cache and of a router over frames: what they come to over two FIFOs, and what they refuse. The gate builds them; without
# them this is skipped.
set -u
top=$(cd "$(dirname "${BASH_SOURCE[0]}")/.." && pwd) || exit 1
folder=$(mktemp -d) || exit 1
trap 'rm -rf "$folder"' EXIT
cd "$top/crates" || exit 1
. "$top/tests/lib/built.bash"
if ! mkfifo "$folder/asked" "$folder/answered"; then
    echo 'example_frames: no FIFO can be made in the folder for temporary files' >&2
    [ -z "${CI:-}" ] && exit 77
    exit 1
fi
for name in example_cache example_router; do
    built $name $name bash -c 'rt run -- $(cat args 2>/dev/null) <stdin' || exit
done
cache=example_cache/out/example_cache
router=example_router/out/example_router

expect() { # expect WHAT FOUND STATUS ERRORS, where FOUND is the status that was found, and the file has the errors
    [ "$2" -eq "$3" ] && diff <(printf '%s' "$4") "$folder/errors" && return
    echo "example_frames: $1: status $2" >&2
    exit 1
}

refuses() { # refuses PROGRAM ERROR HEX
    printf "$(sed 's/ //g; s/../\\x&/g' <<<"$3")" >"$folder/input"
    local words=()
    [ "$1" = "$cache" ] && words=(4660 5)
    timeout 20 "$1" "${words[@]}" <"$folder/input" >"$folder/output" 2>"$folder/errors"
    expect "$1 at $3" $? 1 "Error: $2"$'\n'
}

# Without its names a cache does not start, as they must not be those of the run before.
timeout 20 "$cache" </dev/null >"$folder/output" 2>"$folder/errors"
expect 'a cache without names' $? 1 'Error: usage: example_cache SESSION SERIAL'$'\n'

# Joined, each ends by itself: the router once it holds what the cache has, and the cache where the router's frames end.
timeout 20 "$cache" 4660 5 <"$folder/asked" >"$folder/answered" 2>"$folder/cache" &
timeout 20 "$router" >"$folder/asked" <"$folder/answered" 2>"$folder/errors"
expect 'the router' $? 0 'session 4660, serial 5
192.0.2.0/24 24 64496
198.51.100.0/24 26 64497
2001:db8::/32 48 64497
192.0.2.0/24 64497 is invalid
'
wait $!
status=$?
mv "$folder/cache" "$folder/errors"
expect 'the cache' $status 0 ''

for program in "$cache" "$router"; do
    refuses "$program" 'the frame at byte 0 is empty' '0000'
    refuses "$program" 'the frame at byte 0 is cut short: 1 of 2 bytes came' '00'
    refuses "$program" 'the frame at byte 0 is cut short: 0 of 256 bytes came' '0100'
    refuses "$program" 'the frame at byte 3 is empty' '0001 01 0000 0001 02'
    refuses "$program" 'the frame at byte 3 is cut short: 2 of 3 bytes came' '0001 01 0003 0200'
done

# An input that ends inside a PDU, a PDU of a type that there is not, and an output that takes nothing.
refuses "$cache" 'the input ended inside a PDU' '0003 010200'
refuses "$cache" 'the connection ended by an Error Report' '0008 01630000 00000008'
timeout 20 "$cache" 4660 5 <example_cache/stdin >/dev/full 2>"$folder/errors"
[ $? -eq 1 ] && [ -s "$folder/errors" ] || exit 1

# An input that ends before the End of Data, also behind a Cache Response; that the cache has no data; another Error Report; and a PDU of a
# type that there is not (RFC 8210 section 12).
early='the input ended before the End of Data'
refuses "$router" "$early" ''
refuses "$router" "$early" '0008 01031234 00000008'
refuses "$router" 'the cache has no data' '0010 010a0002 00000010 00000000 00000000'
refuses "$router" 'the cache sent an Error Report of code 1' '0010 010a0001 00000010 00000000 00000000'
refuses "$router" 'the cache was sent an Error Report of code 5' '0008 01630000 00000008'
