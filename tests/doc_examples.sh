#!/usr/bin/env bash
# The example on the first page of each library is the test that the gate runs.
set -u
exec python3 "$(dirname "${BASH_SOURCE[0]}")/../tools/examples.py" --check
