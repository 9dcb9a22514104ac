# What tests/fresh_library.sh does inside the clean system: /origin.git is what was committed.
export LC_ALL=C HOME=/root MANPAGER=cat MANWIDTH=80
unset PYTHONPATH LD_LIBRARY_PATH PKG_CONFIG_PATH RPKIRTR_LIB_DIR

fail() {
    echo "fresh_library: $1"
    exit 1
}

# The commands of a block below a heading of the page, the first or a later one. (This is root's shell.)
block() { # block HEADING NUMBER
    awk -v heading="## $1" -v number="$2" '
        /^## / { inside = $0 == heading }
        inside && $0 == "```sh" { at++; on = 1; next }
        /^```$/ { on = 0 }
        on && at == number' examples/README.md | sed 's/^sudo //'
}

# The blocks that were run.
declare -A followed

# Runs the commands of a block. All succeed, and the last lines that they print are these.
follow() { # follow HEADING NUMBER LINE..
    local commands found heading=$1 number=$2
    shift 2
    commands=$(block "$heading" "$number")
    [ -n "$commands" ] || fail "the page has no block $number below $heading"
    followed["$heading $number"]=yes
    found=$(bash -eu -o pipefail -c "$commands" 2>/tmp/errors) || fail "a command of block $number below $heading fails: $(cat /tmp/errors)"
    [ $# -eq 0 ] || [ "$(tail -n $# <<<"$found")" = "$(printf '%s\n' "$@")" ] || fail "block $number below $heading prints $found"
    echo "$heading, block $number: ${*:-done}"
}

# No file of the library is left, and no program finds it.
is_clean() {
    local left
    left=$(find / \( -path /proc -o -path /sys -o -path /dev -o -path /repo -o -path /origin.git -o -path /tmp -o -path /var/cache -o -path '/var/lib/dpkg/*' \) -prune -o -name '*rpkirtr*' -print)
    [ -z "$left" ] || fail "this is there: $left"
    ldconfig -p | grep rpkirtr && fail 'ldconfig still has the library'
    pkg-config --exists rpkirtr && fail 'pkg-config still has the library'
    return 0
}

for command in rt rpkirtr rpkirtrd; do
    command -v "$command" && fail "this system is not clean: $command is there"
done
is_clean
git clone -q /origin.git /repo && cd /repo || fail 'the repository cannot be cloned'
version=$(sed -n 's/^## \[\([0-9][0-9.]*\)\].*$/\1/p' CHANGELOG.md | head -n 1)

follow Install 1
[ -z "$(dpkg --audit)" ] || fail "dpkg finds faults: $(dpkg --audit)"
[ "$(pkg-config --modversion rpkirtr)" = "$version" ] || fail 'pkg-config has another version'
[ -f /usr/share/doc/librpkirtr-dev/examples/c/rov.c ] || fail 'the examples are not where the page says'
bash -c "$(block C 1)" >/tmp/log 2>&1
followed["C 1"]=yes
for _ in $(seq 100); do
    grep -q ' ready$' /tmp/log && break
    sleep 0.1
done
grep -q ' ready$' /tmp/log || fail "the daemon is not ready: $(cat /tmp/log)"
follow C 2 valid invalid
ldd /tmp/rov | grep -q "librpkirtr.so.0 => /lib/x86_64-linux-gnu/librpkirtr.so.0 " || fail 'the client runs over another library'
# shellcheck disable=SC2046
cc -static -o /tmp/rov_static examples/c/rov.c $(pkg-config --static --cflags --libs rpkirtr) 2>/tmp/errors || fail "a static client is not built: $(cat /tmp/errors)"
[ "$(echo 192.0.2.0/24 64496 | /tmp/rov_static 127.0.0.1 3323)" = valid ] || fail 'the static client does not judge'

man 3 rpkirtr >/tmp/page && grep -q 'rpkirtr_router_receive()' /tmp/page || fail 'the manual page is not shown'
{
    printf '#include <rpkirtr.h>\nint main(void)\n{\n'
    zcat /usr/share/man/man3/rpkirtr.3.gz | awk '/^\.Sh /{ inside = $0 == ".Sh EXAMPLES" } inside && /^\.Bd/ { on = 1; next } /^\.Ed/ { on = 0 } on'
    printf 'return state == RPKIRTR_VALID ? 0 : 1;\n}\n'
} >/tmp/example.c
# shellcheck disable=SC2046
cc -std=c99 -Wall -Wextra -Werror -o /tmp/example /tmp/example.c $(pkg-config --cflags --libs rpkirtr) && /tmp/example || fail "the manual page's example does not run"

follow Python 1 valid
python3 -c 'import rpkirtr' 2>/dev/null && fail 'the module for Python is installed already'
follow Python 2 valid
python3 tests/c_library/binding.py || fail 'the calls of the packaged module fail'
dpkg -P python3-rpkirtr >/dev/null && ! python3 -c 'import rpkirtr' 2>/dev/null || fail 'the module for Python cannot be removed'
follow Python 3 valid
/tmp/venv/bin/python tests/c_library/binding.py || fail 'the calls of the module in a virtual environment fail'
# (the same as with a registry: pip fetches setuptools, here from a folder)
python3 -m venv /tmp/alone && PIP_NO_INDEX=1 PIP_FIND_LINKS=/usr/share/python-wheels /tmp/alone/bin/pip install --quiet ./bindings/python &&
    /tmp/alone/bin/python tests/c_library/binding.py || fail 'pip install ./bindings/python fails in an environment of its own'

follow Rust 1 valid
cargo test --quiet --manifest-path bindings/rust/Cargo.toml >/tmp/log_of_cargo 2>&1 || fail "the crate's tests fail: $(cat /tmp/log_of_cargo)"
follow FRR 1
ldd /tmp/librtr.so.0 | grep -q 'librpkirtr.so.0 => /' || fail 'librtr.so.0 is not over the library'
bash tests/bindings.sh || fail 'tests/bindings.sh fails'

dpkg -P librpkirtr-dev librpkirtr0 >/dev/null || fail 'the packages cannot be removed'
is_clean
echo 'removed: nothing is left'
follow Install 2
follow C 2 valid invalid
ldd /tmp/rov | grep -q "librpkirtr.so.0 => /usr/local/lib/librpkirtr.so.0 " || fail 'the client runs over another library'
follow Rust 1 valid
bash -c "$(sed -n 's/.*`sudo \(tools\/install.sh --dev --remove\)`.*/\1/p' examples/README.md)" >/dev/null && ldconfig || fail 'tools/install.sh --dev --remove fails'
is_clean
echo 'removed: nothing is left'
kill "$(pidof rpkirtrd)"
[ "$(grep -c '^```sh$' examples/README.md)" -eq ${#followed[@]} ] || fail 'the page has other blocks'
[ -z "$(git status --porcelain)" ] || fail "the clone is changed: $(git status --porcelain)"
echo 'all as it should be'
