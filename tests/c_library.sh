#!/usr/bin/env bash
# The library for C: its header against the exports, its layout in C and C++, its symbols, each call and misuse under valgrind and
# AddressSanitizer, look-ups by several threads under helgrind and ThreadSanitizer, and the bindings for Python and Rust. The library is the
# one that is built here, or else the delivered one. It is proved and built here first, with the Rattle kit, if none is delivered of these
# sources, and in ./test --all.
set -u
top=$(cd "$(dirname "${BASH_SOURCE[0]}")/.." && pwd) || exit 1
. "$top/tests/lib/library.bash" || exit 1
python3 "$top/tests/c_library.py" || exit 1
for tool in gcc g++ nm objcopy; do
    command -v "$tool" >/dev/null 2>&1 || { echo "$tool is not installed"; exit 77; }
done
out=$(mktemp -d)
trap 'rm -rf "$out"' EXIT
failed=0
archive=
if [ -z "${QUICK:-}" ] && command -v rt >/dev/null 2>&1 && { [ -n "${ALL:-}" ] || ! is_delivered "${libraries[0]}"; }; then
    sources=$(bash "$top/tools/proved.sh" library) && bash "$top/tools/librpkirtr/make.sh" >"$out/log" 2>&1 || { tail -20 "$out/log"; exit 1; }
    [ ! -f "$top/out/proved" ] || bash "$top/tools/proved.sh" note-library "$sources" || exit 1
    archive=$top/crates/rpkirtr_c/out/librpkirtr_c.a
    heap=$(dirname "$(dirname "$(readlink -f "$(command -v rt)")")")/c/liblibc_c.a
fi
copy_library
try() { # try WHAT COMMAND..
    local what=$1
    shift
    "$@" >"$out/log" 2>&1 && return
    echo "$what failed:"
    head -20 "$out/log"
    failed=1
}

if [ -n "$archive" ]; then
    python3 "$top/tests/c_library.py" "$archive" || failed=1
    "$top/tools/librpkirtr/build.sh" "$archive" "$heap" "$out/again" || exit 1
    for file in "${libraries[@]}"; do
        try "the same bytes again, of $file," cmp "$out/lib/$file" "$out/again/$file"
    done
fi
nm -D --defined-only --with-symbol-versions "$out/lib/librpkirtr.so.0.0.0" | sed 's/^[0-9a-f]* //' | LC_ALL=C sort >"$out/exports"
try "the comparison of the shared library's symbols with tools/librpkirtr/exports" diff "$top/tools/librpkirtr/exports" "$out/exports"
nm -g --defined-only "$out/lib/librpkirtr.a" | awk 'NF == 3 { print $3 }' | grep -v '^rpkirtr_' >"$out/others"
[ -s "$out/others" ] && { echo "other global names in librpkirtr.a:"; head "$out/others"; failed=1; }

strict=(-Wall -Wextra -Wpedantic -Werror -I"$top/include")
for cc in gcc clang; do
    if ! command -v "$cc" >/dev/null 2>&1; then
        echo "$cc is not installed: it is left out"
        continue
    fi
    try "the layout by $cc" "$cc" "${strict[@]}" -std=c99 -o "$out/layout" "$top/tests/c_library/layout.c"
    try "calls.c by $cc" "$cc" "${strict[@]}" -std=c99 -g -o "$out/calls_$cc" "$top/tests/c_library/calls.c" "$out/lib/librpkirtr.a"
    try "calls.c of $cc" "$out/calls_$cc"
    try "rov.c by $cc" "$cc" "${strict[@]}" -std=c99 -o "$out/rov" "$top/examples/c/rov.c" "$out/lib/librpkirtr.a"
done
try "the layout by g++" g++ "${strict[@]}" -x c++ -o "$out/layout" "$top/tests/c_library/layout.c"
try "calls.c with the shared library" gcc "${strict[@]}" -std=c99 -o "$out/calls_shared" "$top/tests/c_library/calls.c" -L"$out/lib" -lrpkirtr
try "calls.c over the shared library" env LD_LIBRARY_PATH="$out/lib" "$out/calls_shared"
try "calls.c with AddressSanitizer" gcc "${strict[@]}" -std=c99 -g -fsanitize=address,undefined -o "$out/calls_asan" "$top/tests/c_library/calls.c" "$out/lib/librpkirtr.a"
try "calls.c under AddressSanitizer" "$out/calls_asan"
try "random_calls.c" gcc "${strict[@]}" -std=c99 -g -O1 -fsanitize=address,undefined -o "$out/random_calls" "$top/tests/c_library/random_calls.c" "$out/lib/librpkirtr.a"
try "1000000 random calls" "$out/random_calls" "${SEED:-1}" 1000000

try "threads.c" gcc "${strict[@]}" -std=c99 -g -O1 -pthread -o "$out/threads" "$top/tests/c_library/threads.c" "$out/lib/librpkirtr.a"
try "look-ups by four threads" "$out/threads" 200
try "threads.c with ThreadSanitizer" gcc "${strict[@]}" -std=c99 -g -O1 -pthread -fsanitize=thread -o "$out/threads_tsan" "$top/tests/c_library/threads.c" "$out/lib/librpkirtr.a"
try "look-ups by four threads under ThreadSanitizer" setarch -R "$out/threads_tsan" 50

try "memory.c" gcc "${strict[@]}" -std=c99 -g -Wl,--wrap=malloc,--wrap=realloc -o "$out/memory" "$top/tests/c_library/memory.c" "$out/lib/librpkirtr.a"
try "memory.c, with each request for memory refused in turn" "$out/memory"

# The example fetches from a cache: the delivered one, if it is here.
served=$top/dist/x86_64-linux/rpkirtr.gz
if [ -f "$served" ]; then
    gunzip -c "$served" >"$out/rpkirtr" && chmod +x "$out/rpkirtr"
    port=$(python3 -c 'import socket; it = socket.socket(); it.bind(("127.0.0.1", 0)); print(it.getsockname()[1])')
    "$out/rpkirtr" serve --port "$port" --session 4660 --session0 4661 --start 5 --vrps "$top/samples/list.json" --connections 1 >/dev/null 2>&1 &
    cache=$!
    for _ in 1 2 3 4 5 6 7 8 9 10; do
        printf '192.0.2.0/24 64496\n192.0.2.0/24 none\n10.0.0.0/8 1\n2001:db8::/32 64496\n192.0.2.0/24 \n' | timeout 20 "$out/rov" 127.0.0.1 "$port" >"$out/states" 2>/dev/null && break
        sleep 0.3
    done
    printf 'valid\ninvalid\nnot-found\ninvalid\nbad route\n' >"$out/wanted"
    try "the states of rov.c" diff "$out/wanted" "$out/states"
    kill "$cache" 2>/dev/null
else
    echo "dist/x86_64-linux/rpkirtr.gz is not here: rov.c fetches nothing"
fi
try "the Python binding" env LD_LIBRARY_PATH="$out/lib" PYTHONDONTWRITEBYTECODE=1 PYTHONPATH="$top/bindings/python" python3 "$top/tests/c_library/binding.py"
if command -v cargo >/dev/null 2>&1; then
    try "the Rust binding" env RPKIRTR_LIB_DIR="$out/lib" LD_LIBRARY_PATH="$out/lib" CARGO_TARGET_DIR="$out/target" \
        cargo test --offline --locked --quiet --manifest-path "$top/bindings/rust/Cargo.toml"
else
    echo "cargo is not installed: the Rust binding is left out"
fi
if command -v valgrind >/dev/null 2>&1; then
    try "calls.c under valgrind" valgrind -q --error-exitcode=9 --leak-check=full "$out/calls_gcc"
    try "threads.c under helgrind" valgrind -q --tool=helgrind --error-exitcode=9 "$out/threads" 2
    try "memory.c under valgrind" valgrind -q --error-exitcode=9 --leak-check=full "$out/memory"
else
    echo "valgrind is not installed: it is left out"
fi
exit $failed
