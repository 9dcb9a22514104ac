#!/usr/bin/env bash
# No name that was replaced is back, and no two libraries declare one public type name for different things.
set -u
exec python3 "$(dirname "${BASH_SOURCE[0]}")/gate/names.py"
