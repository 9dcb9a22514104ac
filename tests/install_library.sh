#!/usr/bin/env bash
# What tools/install.sh --dev puts below a folder, that a program is built with it there and runs, and that nothing is left once it was
# removed; and the same of the packages of tools/package_library.sh, below another root. Nothing is touched but a folder of this test. Where
# the library is neither built nor delivered, it is skipped.
set -u
export LC_ALL=C
top=$(cd "$(dirname "${BASH_SOURCE[0]}")/.." && pwd) || exit 1
. "$top/tools/programs.bash" || exit 1
for name in "${libraries[@]}"; do
    find_program "$name" || { echo "$name is neither built here nor delivered of these sources"; exit 77; }
done
for command in cc pkg-config dpkg-deb; do
    command -v $command >/dev/null 2>&1 || { echo "$command is not installed"; exit 77; }
done
folder=$(mktemp -d) || exit 1
trap 'rm -rf "$folder"' EXIT
cd "$folder" || exit 1
test=install_library
. "$top/tests/lib/installed.bash" || exit 1

# The library's own calls, in a program that is built with what a folder holds.
builds() { # builds FOLDER LIBDIR
    local words
    words=$(PKG_CONFIG_PATH=$1/$2/pkgconfig PKG_CONFIG_SYSROOT_DIR=$1 PKG_CONFIG_ALLOW_SYSTEM_CFLAGS=1 PKG_CONFIG_ALLOW_SYSTEM_LIBS=1 \
        pkg-config --cflags --libs rpkirtr) || fail 'pkg-config knows no rpkirtr'
    # shellcheck disable=SC2086
    cc -std=c99 -o rov "$top/examples/c/rov.c" $words || fail 'rov.c is not built'
    # shellcheck disable=SC2086
    cc -std=c99 -o calls "$top/tests/c_library/calls.c" $words || fail 'calls.c is not built'
    LD_LIBRARY_PATH=$1/$2 ./calls || fail 'calls.c does not pass'
    LD_LIBRARY_PATH=$1/$2 ldd ./calls | grep -q "$1/$2/librpkirtr.so.0" || fail 'calls.c runs over another library'
}

examples=$(cd "$top" && find examples -type f)

# Below /usr/local.
bash "$top/tools/install.sh" --dev --destdir "$folder/tree" >told 2>&1 || { cat told >&2; fail 'tools/install.sh --dev failed'; }
{
    printf 'usr/local/%s\n' include/rpkirtr.h lib/librpkirtr.a lib/librpkirtr.so lib/librpkirtr.so.0 lib/librpkirtr.so.0.0.0 lib/pkgconfig/rpkirtr.pc \
        share/man/man3/rpkirtr.3 share/doc/librpkirtr/installed
    # shellcheck disable=SC2086
    printf 'usr/local/share/doc/librpkirtr/%s\n' $examples
} >wanted
holds tree wanted
[ "$(PKG_CONFIG_PATH=tree/usr/local/lib/pkgconfig pkg-config --modversion rpkirtr)" = "$version" ] || fail 'rpkirtr.pc has another version'
builds "$folder/tree" usr/local/lib
bash "$top/tools/install.sh" --dev --destdir "$folder/tree" --remove >told 2>&1 || { cat told >&2; fail 'tools/install.sh --dev --remove failed'; }
[ ! -e tree ] || fail 'something is left'
bash "$top/tools/install.sh" --libdir /usr/lib --destdir "$folder/tree" >/dev/null 2>&1
[ $? -eq 2 ] || fail '--libdir without --dev is not refused'

# The packages.
mkdir made root || exit 1
bash "$top/tools/package_library.sh" made >packages || fail 'no packages were made'
architecture=$(dpkg --print-architecture)
printf "$folder/made/%s_$version""_%s.deb\n" librpkirtr0 "$architecture" librpkirtr-dev "$architecture" python3-rpkirtr all | diff - packages >&2 || fail 'the packages are called otherwise'
lib=usr/lib/x86_64-linux-gnu
{
    printf "$lib/%s\n" librpkirtr.a librpkirtr.so librpkirtr.so.0 librpkirtr.so.0.0.0 pkgconfig/rpkirtr.pc
    printf '%s\n' usr/include/rpkirtr.h usr/share/man/man3/rpkirtr.3.gz usr/lib/python3/dist-packages/rpkirtr.py
    printf 'usr/share/doc/%s\n' {librpkirtr0,librpkirtr-dev,python3-rpkirtr}/{copyright,changelog.gz}
    printf 'usr/share/lintian/overrides/%s\n' librpkirtr0 librpkirtr-dev python3-rpkirtr
    # shellcheck disable=SC2086
    printf 'usr/share/doc/librpkirtr-dev/%s\n' $examples
} >wanted
while IFS= read -r package; do
    dpkg-deb -x "$package" tree.deb || fail "$package cannot be unpacked"
    dpkg-deb --contents "$package" | grep -v ' root/root ' && fail "$package has files of another user"
done <packages
holds tree.deb wanted
builds "$folder/tree.deb" "$lib"
dpkg-deb -e "$(head -n 1 packages)" control && [ "$(grep -c '^ rpkirtr_' control/symbols)" -eq "$(grep -c '^T ' "$top/tools/librpkirtr/exports")" ] || fail 'the symbols file lacks a symbol'
if command -v python3 >/dev/null 2>&1; then
    LD_LIBRARY_PATH=tree.deb/$lib PYTHONPATH=tree.deb/usr/lib/python3/dist-packages PYTHONDONTWRITEBYTECODE=1 python3 "$top/tests/c_library/binding.py" ||
        fail 'the module for Python does not run'
fi
