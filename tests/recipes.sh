#!/usr/bin/env bash
# The recipes of docs/RECIPES.md that can be tried without a network and without root: tests/recipes.py has them. What a recipe needs that
# is not installed is named.
set -u
top=$(cd "$(dirname "${BASH_SOURCE[0]}")/.." && pwd) || exit 1
exec timeout 120 python3 "$top/tests/recipes.py"
