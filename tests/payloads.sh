#!/usr/bin/env bash
# Payloads of ROAs and manifests against another DER decoder, Python's pyasn1. Where it is missing, the comparison is skipped, but not in CI.
set -u
top=$(cd "$(dirname "${BASH_SOURCE[0]}")/.." && pwd) || exit 1
python=
for candidate in python3 /usr/bin/python3; do
    "$candidate" -c 'import pyasn1' 2>/dev/null && python=$candidate && break
done
if [ -z "$python" ]; then
    echo 'payloads: python3-pyasn1 is not installed, so payloads are not compared with another decoder' >&2
    [ -z "${CI:-}" ] && exit 77
    exit 1
fi
rpkirtr=$(bash "$top/tools/start.sh" --path rpkirtr) || exit 1
for script in roas manifests; do
    "$python" "$top/tests/$script.py" "$rpkirtr" || exit 1
done
