#!/usr/bin/env bash
# The pages of docs/ that are made from the sources are what the sources make, and pages and comments stay free of the turns that tests/gate/prose.py
# counts.
set -u
top=$(cd "$(dirname "${BASH_SOURCE[0]}")/.." && pwd) || exit 1
failed=0
python3 "$top/tools/pages.py" --check || failed=1
python3 "$top/tests/gate/prose.py" || failed=1
exit "$failed"
