#!/usr/bin/env bash
# Signed objects made at random, and spoiled ones: tests/signed_objects.py knows the rules of the profile in Python. It drives the program
# rpkiobject; without Python's `cryptography` or `openssl` this is skipped. Each run makes the same objects; SEED=N makes others.
set -u
top=$(cd "$(dirname "${BASH_SOURCE[0]}")/.." && pwd) || exit 1
if ! python3 -c 'import cryptography' 2>/dev/null || ! command -v openssl >/dev/null; then
    echo 'signed_objects: needs python3 with cryptography, and openssl' >&2
    exit 77
fi
program=$(bash "$top/tools/start.sh" --path rpkiobject) || exit 1
folder=$(mktemp -d) || exit 1
trap 'rm -rf "$folder"' EXIT
cd "$folder" || exit 1
exec python3 "$top/tests/signed_objects.py" "$program" --seed "${SEED:-5652}" --count 400 --openssl 40
