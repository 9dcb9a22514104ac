#!/usr/bin/env bash
# The dashboard docs/grafana.json: its panels fit the grid, and each metric of its queries is one of docs/FORMATS.md. promtool (Debian's
# package prometheus) parses each query, if it is installed. No Debian release has a package of Grafana, so no test loads the dashboard.
set -u
export LC_ALL=C
top=$(cd "$(dirname "${BASH_SOURCE[0]}")/.." && pwd) || exit 1
cd "$top" || exit 1
python3 tests/grafana.py || exit 1

command -v promtool >/dev/null 2>&1 || exit 0
rules=$(mktemp) || exit 1
trap 'rm -f "$rules"' EXIT
python3 - >"$rules" <<'END'
import json
print("groups:\n- name: panels\n  rules:")
with open("docs/grafana.json", encoding="utf-8") as it:
    board = json.load(it)
for number, query in enumerate(query["expr"] for panel in board["panels"] for query in panel["targets"]):
    print(f"  - record: panel:{number}\n    expr: {json.dumps(query.replace('$instance', '.*'))}")
END
promtool check rules "$rules" >&2
