#!/usr/bin/env bash
# The clients of examples/ in C, Rust and Python, over the library for C, beside the command `route`: tests/bindings.py. Words are passed on to
# it: --routes 100000 judges more. What is not installed is left out; without the library it is skipped.
set -u
top=$(cd "$(dirname "${BASH_SOURCE[0]}")/.." && pwd) || exit 1
. "$top/tests/lib/library.bash" || exit 1
out=$(mktemp -d) || exit 1
trap 'rm -rf "$out"' EXIT
copy_library
daemon=$(bash "$top/tools/start.sh" --path rpkirtrd) && route=$(bash "$top/tools/start.sh" --path rpkirtr) || exit 1
clients=("env PYTHONPATH=$top/bindings/python PYTHONDONTWRITEBYTECODE=1 python3 $top/examples/python/rov.py")
if command -v gcc >/dev/null 2>&1; then
    gcc -std=c99 -O2 -I"$top/include" -o "$out/rov" "$top/examples/c/rov.c" -L"$out/lib" -lrpkirtr || exit 1
    clients+=("$out/rov")
else
    echo 'gcc is not installed: the client in C is left out'
fi
if command -v cargo >/dev/null 2>&1; then
    RPKIRTR_LIB_DIR=$out/lib CARGO_TARGET_DIR=$out/target \
        cargo build --offline --locked --quiet --release --manifest-path "$top/bindings/rust/example/Cargo.toml" || exit 1
    clients+=("$out/target/release/rov")
else
    echo 'cargo is not installed: the client in Rust is left out'
fi
python3 "$top/tests/bindings.py" "$out/lib" "$daemon" "$route" "${clients[@]}" "$@"
