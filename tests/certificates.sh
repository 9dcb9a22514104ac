#!/usr/bin/env bash
# Certificates, revocation lists and sets of resources that openssl signs or Python makes (tests/certificates.py), and what the program
# certificate_scripts says of them. The gate builds that program; without it, this is skipped.
set -u
top=$(cd "$(dirname "${BASH_SOURCE[0]}")/.." && pwd) || exit 1
. "$top/tests/lib/built.bash"
built certificate_scripts certificate_scripts rt run || exit
exec python3 "$top/tests/certificates.py" "$top/crates/certificate_scripts/out/certificate_scripts"
