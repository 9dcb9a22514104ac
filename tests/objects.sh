#!/usr/bin/env bash
# Among the files of a directory that is offered, only regular ones are opened, a link being what it leads to: a folder, a pipe, a
# socket, and a link to each or to nothing, are passed over in `objects`, and are a failed file in its other places.
set -u
top=$(cd "$(dirname "${BASH_SOURCE[0]}")/.." && pwd) || exit 1
folder=$(mktemp -d) || exit 1
trap 'rm -rf "$folder"' EXIT
cd "$folder" || exit 1
rpkirtr=$(bash "$top/tools/start.sh" --path rpkirtr) || exit 1

mkdir -p point/objects point/contents things/folder
printf '\060\027\002\003\000\373\360\060\020\060\016\004\002\000\001\060\010\060\006\003\004\000\300\000\002' >payload.der
{
    printf '\060\136\002\001\001\030\01720250101000000Z\030\01720250102000000Z'
    printf '\006\011\140\206\110\001\145\003\004\002\001\060\054\060\052\026\005a.roa\003\041\000'
    printf '\332\062\277\276\015\216\352\017\135\073\126\002\074\125\321\302\072\251\035\365\002\063\370\234\062\120\206\262\262\006\325\242'
} >manifest.der
mkfifo things/pipe
python3 -c 'import socket; socket.socket(socket.AF_UNIX).bind("things/socket")' || exit 1
cp manifest.der point
cp payload.der point/objects/a.roa
cp payload.der point/contents/a.roa

offer() { # offer STATUS LINE: what the offer of the directory gives, within ten seconds
    timeout 10 "$rpkirtr" payloads --now 20250101000000Z point >told 2>errors
    [ $? -eq "$1" ] && grep -qx "$2" errors && return
    echo "objects: wanted status $1 and '$2', and found:" >&2
    cat told errors >&2
    exit 1
}

for kind in folder pipe socket nothing; do
    rm -rf point/objects/b.roa point/objects/c.roa
    [ "$kind" = nothing ] || cp -a "things/$kind" point/objects/b.roa
    ln -s "$folder/things/$kind" point/objects/c.roa
    offer 0 'point new'
done
rm -rf point/objects/b.roa point/objects/c.roa

# nor is a link to itself, or through a file, one to a regular file
for target in c.roa "$folder/payload.der/b"; do
    ln -s "$target" point/objects/c.roa
    offer 0 'point new'
    rm point/objects/c.roa
done

# a link to a regular file is that file
mv point/objects/a.roa payload.object
ln -s "$folder/payload.object" point/objects/a.roa
offer 0 'point new'

for kind in folder pipe socket; do
    for place in point/contents/a.roa point/manifest.der; do
        mv "$place" kept
        cp -a "things/$kind" "$place"
        offer 3 'rpkirtr: device failed'
        rm -rf "$place"
        ln -s "$folder/things/$kind" "$place"
        offer 3 'rpkirtr: device failed'
        rm "$place"
        mv kept "$place"
    done
done

# no content: the payload of a ROA is then no ROA, and a link to nothing is none
rm point/contents/a.roa
offer 1 'point refused 9 0'
ln -s "$folder/things/nothing" point/contents/a.roa
offer 1 'point refused 9 0'
