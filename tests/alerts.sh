#!/usr/bin/env bash
# The alert rules of docs/alerts.yml: each metric that they name is one of docs/FORMATS.md, which lists those of the daemon's sources. By
# promtool (Debian's package prometheus), each rule can be read, fires, and stays silent, as tests/alerts.yml has it.
set -u
export LC_ALL=C
top=$(cd "$(dirname "${BASH_SOURCE[0]}")/.." && pwd) || exit 1
cd "$top" || exit 1
failed=0

# The first list has no word that the second lacks.
within() { # within MESSAGE WORDS WORDS
    local extra
    extra=$(comm -23 <(sort -u <<<"$2") <(sort -u <<<"$3"))
    [ -n "$2" ] && [ -z "$extra" ] && return
    echo "alerts: $1: ${extra:-nothing is found}" >&2
    failed=1
}

written=$(grep -ho '"rpkirtrd_[a-z0-9_]*' crates/status_pages/src/{metrics,file_metrics,report_metrics,router_metrics}.rt | tr -d '"')
listed=$(sed -n '/^## 19\. Metrics/,$p' docs/FORMATS.md | grep '^|' | cut -d '|' -f 2 | grep -o 'rpkirtrd_[a-z0-9_]*')
named=$(sed 's/#.*//; /summary:/d' docs/alerts.yml | grep -o 'rpkirtrd_[a-z0-9_]*')
within 'metrics of the sources that FORMATS lacks' "$written" "$listed"
within 'metrics of FORMATS that the sources lack' "$listed" "$written"
within 'metrics of the rules that FORMATS lacks' "$named" "$listed"
rules=$(sed -n 's/^ *- alert: //p' docs/alerts.yml)
within 'rules without a test' "$rules" "$(sed -n 's/^ *- alertname: //p' tests/alerts.yml)"
[ "$failed" -eq 0 ] || exit 1

if ! command -v promtool >/dev/null 2>&1; then
    echo 'promtool is not installed (Debian: prometheus)'
    exit 77
fi
promtool check rules docs/alerts.yml >&2 || failed=1
promtool test rules tests/alerts.yml >&2 || failed=1
exit "$failed"
