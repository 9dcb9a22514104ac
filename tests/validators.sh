#!/usr/bin/env bash
# What validators and caches of Debian's packages write of a small signed repository (tests/lib/signed.py), compared with the samples of the same
# names; and rpkirtrd serves the samples' list of each. If rpki-client writes rpki.ccr too, its hash is compared, and it is served. A program that is
# not installed is left out, and said so; without any this is skipped.
#
#   tests/validators.sh             compares
#   tests/validators.sh --write     writes the samples anew
#
# Nothing is fetched: the repository is put where the validators keep what they have fetched, and they run offline.
set -u
top=$(cd "$(dirname "${BASH_SOURCE[0]}")/.." && pwd) || exit 1
folder=$(mktemp -d) || exit 1
trap 'jobs -p | xargs -r kill 2>/dev/null; rm -rf "$folder"' EXIT
chmod 755 "$folder" && cd "$folder" || exit 1
if ! command -v rpki-client >/dev/null && ! command -v fort >/dev/null; then
    echo 'validators: neither rpki-client nor fort is installed (Debian: rpki-client, fort-validator, stayrtr)' >&2
    exit 77
fi
python3 "$top/tests/lib/signed.py" "$folder" && mkdir written || exit 1

missing() {
    echo "validators: $1 is not installed, so its sample is not compared"
}

free_port() {
    python3 -c 'import socket; it = socket.socket(); it.bind(("127.0.0.1", 0)); print(it.getsockname()[1])'
}

# rpki-client keeps a repository under its host's name, and runs as a user of its own.
if command -v rpki-client >/dev/null; then
    mkdir -p cache/ta/test client || exit 1
    cp -r repository/rpki.example.net cache && cp repository/rpki.example.net/repo/ta.cer cache/ta/test || exit 1
    if getent passwd _rpki-client >/dev/null; then
        chown -R _rpki-client cache client
    fi
    run=(timeout 60 rpki-client -n -j -t "$folder/test.tal" -d "$folder/cache" "$folder/client")
    if [ "$(id -u)" -eq 0 ] && unshare -u true 2>/dev/null; then
        unshare -u sh -c 'hostname validator.example.net && exec "$@"' sh "${run[@]}"
    else
        "${run[@]}"
    fi >client.log 2>&1 || { cat client.log >&2; exit 1; }
    cp client/json written/rpki-client.json || exit 1
    # (9.9 writes it, 8.2 does not)
    [ ! -f client/rpki.ccr ] || cp client/rpki.ccr written/rpki-client.ccr || exit 1
else
    missing rpki-client
fi

if command -v fort >/dev/null; then
    mkdir fort && cp -r repository/rpki.example.net fort || exit 1
    timeout 60 fort --mode=standalone --tal="$folder/test.tal" --local-repository="$folder/fort" --rsync.enabled=false \
        --http.enabled=false --output.roa="$folder/written/fort.json" --output.format=json >fort.log 2>&1 || { cat fort.log >&2; exit 1; }
else
    missing fort
fi

# StayRTR serves what rpki-client wrote, over RTR and over HTTP; rtrdump is its client.
if command -v stayrtr >/dev/null && [ -f written/rpki-client.json ]; then
    port=$(free_port) pages=$(free_port)
    timeout 60 stayrtr -cache written/rpki-client.json -checktime=false -bind "127.0.0.1:$port" -metrics.addr "127.0.0.1:$pages" \
        -slurm.refresh=false >stayrtr.log 2>&1 &
    for _ in $(seq 100); do
        python3 - "http://127.0.0.1:$pages/rpki.json" >written/stayrtr.json 2>/dev/null <<'END' && break
import sys, urllib.request
text = urllib.request.urlopen(sys.argv[1], timeout=5).read().decode()
assert '"prefix"' in text
sys.stdout.write(text)
END
        sleep 0.1
    done
    [ -s written/stayrtr.json ] || { cat stayrtr.log >&2; exit 1; }
    timeout 30 rtrdump -connect "127.0.0.1:$port" -file written/rtrdump.json >rtrdump.log 2>&1 || { cat rtrdump.log >&2; exit 1; }
else
    missing stayrtr
fi

if [ "${1:-}" = --write ]; then
    cp written/*.json "$top/samples"
    exit
fi

# Times, numbers of the run and paths differ; names, their order and the forms of values do not. Of an rpki-client that writes rpki.ccr the records
# alone are compared, as it has other members than the one of the sample.
python3 - "$top/samples" written <<'END' || exit 1
import json, os, sys

VARY = {"buildmachine", "buildtime", "elapsedtime", "usertime", "systemtime", "talfiles"}


def form(value, name=""):
    if name in VARY:
        return type(value).__name__
    if isinstance(value, dict):
        return [(key, form(it, key)) for key, it in value.items()]
    if isinstance(value, list):
        return sorted((form(it) for it in value), key=repr)
    return value


samples, written = sys.argv[1:]
failed = 0
for name in sorted(it for it in os.listdir(written) if it.endswith(".json")):
    with open(f"{samples}/{name}") as sample, open(f"{written}/{name}") as found:
        one, other = json.load(sample), json.load(found)
    if "ccr_vrps_hash" in other.get("metadata", {}):
        one, other = one["roas"], other["roas"]
    one, other = form(one), form(other)
    if one != other:
        failed += 1
        print(f"validators: samples/{name} is {one}\n  and what is written is {other}", file=sys.stderr)
sys.exit(failed)
END

# The hash of the ROA payloads in a canonical cache representation is that in the metadata of the JSON.
if [ -f written/rpki-client.ccr ]; then
    python3 - "$top/tests/lib" written/rpki-client.ccr written/rpki-client.json <<'END' || exit 1
import base64, json, sys
sys.path.insert(0, sys.argv[1])
import ccr_model

with open(sys.argv[2], "rb") as it:
    found = ccr_model.answer(it.read()).split()[2]
with open(sys.argv[3]) as it:
    told = json.load(it)["metadata"].get("ccr_vrps_hash", "")
if found != base64.b64decode(told).hex():
    sys.exit(f"validators: the hash of rpki.ccr is {found}, and ccr_vrps_hash is {told}")
END
fi

rpkirtrd=$(bash "$top/tools/start.sh" --path rpkirtrd) || exit 1
for file in written/*; do
    age=()
    [ "${file##*.}" != ccr ] || age=(--max-age 86400)
    pages=$(free_port)
    : >daemon.log # (the lines of the daemon before would count)
    timeout 60 "$rpkirtrd" --vrps "$file" "${age[@]}" --listen 127.0.0.1:0 --status "127.0.0.1:$pages" 2>daemon.log &
    daemon=$!
    for _ in $(seq 100); do
        grep -q ' ready' daemon.log && break
        sleep 0.1
    done
    python3 - "http://127.0.0.1:$pages/list.json" "$top/samples/list.json" <<'END' || { echo "validators: $file is served otherwise" >&2; cat daemon.log >&2; exit 1; }
import json, sys, urllib.request
found = json.load(urllib.request.urlopen(sys.argv[1], timeout=10))
with open(sys.argv[2]) as it:
    sys.exit(found != json.load(it))
END
    kill "$daemon"
    wait "$daemon"
done
exit 0
