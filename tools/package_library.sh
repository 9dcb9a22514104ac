#!/usr/bin/env bash
# Makes Debian packages of the library for C, with dpkg-deb: tools/package_library.sh [FOLDER] puts them into FOLDER, or into the caller's, and
# prints their paths. librpkirtr0 has the shared library; librpkirtr-dev has header, static library, pkg-config file, manual page and examples;
# python3-rpkirtr has the module for Python. The status is 0 where all are made, 1 where the library is not built, 2 where the words are wrong,
# and 3 where a file or a command failed.
set -u
top=$(cd "$(dirname "${BASH_SOURCE[0]}")/.." && pwd) || exit 3
script=tools/package_library.sh
. "$top/tools/packages.bash" || exit 3
# (the only machine that the library is built for)
[ "$architecture" = amd64 ] || fail "the library is built for amd64, and this is $architecture"
lib=usr/lib/x86_64-linux-gnu
work=$(mktemp -d) || fail 'no temporary folder could be made'
trap 'rm -rf "$work"' EXIT
bash "$top/tools/install.sh" --dev --prefix /usr --libdir "/$lib" --destdir "$work/all" >/dev/null || exit
version=$(sed -n 's/^Version: //p' "$work/all/$lib/pkgconfig/rpkirtr.pc")
[[ $version =~ ^[0-9][0-9.]*$ ]] || fail "rpkirtr.pc has no version: $version"
glibc=$(newest_glibc "$work/all/$lib/librpkirtr.so.0.0.0")

# Moves files of the whole into the tree of a package.
move() { # move PACKAGE PATH..
    local package=$1 path
    shift
    for path in "$@"; do
        mkdir -p "$work/$package/${path%/*}" && mv "$work/all/$path" "$work/$package/$path" || fail "$path could not be moved"
    done
}

# The documents of each package (Debian policy, sections 12.5 and 12.7).
documents() { # documents PACKAGE
    local pages=$work/$1/usr/share/doc/$1
    mkdir -p "$pages" "$work/$1/DEBIAN" && chmod 755 "$work/$1" "$work/$1/DEBIAN" || fail 'a folder could not be made'
    { debian_copyright && [ "$1" = python3-rpkirtr ] || printf '\n%s\n' \
        'The memory allocation of the Rattle kit (liblibc_c.a), which calls malloc, realloc and free of the C library, is linked in.'
    } >"$pages/copyright"
    debian_changelog "$1" "$version" | gzip -9nc >"$pages/changelog.gz" || fail 'the changelog could not be packed'
    mkdir -p "$work/$1/usr/share/lintian/overrides" && lintian_overrides "$1" >"$work/$1/usr/share/lintian/overrides/$1" || fail 'a file could not be written'
}

# Makes a package of its tree. The rest of its control file is read from standard input.
pack() { # pack PACKAGE ARCHITECTURE
    local tree=$work/$1 package=$target/$1_${version}_$2.deb
    documents "$1"
    { printf 'Package: %s\nVersion: %s\nArchitecture: %s\nMaintainer: %s\nInstalled-Size: %s\nPriority: optional\n' \
        "$1" "$version" "$2" "$maintainer" "$(du -k -s --apparent-size "$tree/usr" | cut -f 1)" && cat; } >"$tree/DEBIAN/control" || fail 'the control file could not be written'
    (cd "$tree" && find usr -type f -exec md5sum {} + | sort -k 2) >"$tree/DEBIAN/md5sums" || fail 'the sums could not be written'
    dpkg-deb --build --root-owner-group "$tree" "$package" >/dev/null || fail "$package could not be made"
    echo "$package"
}

move librpkirtr0 "$lib/librpkirtr.so.0.0.0" "$lib/librpkirtr.so.0"
mkdir -p "$work/librpkirtr0/DEBIAN" || fail 'a folder could not be made'
echo 'librpkirtr 0 librpkirtr0 (>= '"$version"')' >"$work/librpkirtr0/DEBIAN/shlibs"
echo 'activate-noawait ldconfig' >"$work/librpkirtr0/DEBIAN/triggers"
{
    echo 'librpkirtr.so.0 librpkirtr0 #MINVER#'
    sed -n "s/^[AT] \(RPKIRTR_1\)\$/ \1@\1 $version/p; s/^T \(rpkirtr_[a-z0-9_]*\)@@\(RPKIRTR_1\)\$/ \1@\2 $version/p" "$top/tools/librpkirtr/exports"
} >"$work/librpkirtr0/DEBIAN/symbols"
pack librpkirtr0 "$architecture" <<CONTROL
Section: libs
Multi-Arch: same
Depends: libc6${glibc:+ (>= $glibc)}
Description: proved RPKI-to-Router client and origin validation (library)
 A router client of RPKI-to-Router caches (RFC 8210, RFC 6810) and the
 validation of BGP routes (RFC 6811) behind a C interface. The library does no
 input or output. It is proved against its contracts.
CONTROL

move librpkirtr-dev usr/include/rpkirtr.h "$lib/librpkirtr.a" "$lib/librpkirtr.so" "$lib/pkgconfig/rpkirtr.pc" usr/share/man/man3/rpkirtr.3
gzip -9n "$work/librpkirtr-dev/usr/share/man/man3/rpkirtr.3" || fail 'the manual page could not be packed'
mkdir -p "$work/librpkirtr-dev/usr/share/doc/librpkirtr-dev" &&
    mv "$work/all/usr/share/doc/librpkirtr/examples" "$work/librpkirtr-dev/usr/share/doc/librpkirtr-dev/examples" || fail 'the examples could not be moved'
pack librpkirtr-dev "$architecture" <<CONTROL
Section: libdevel
Multi-Arch: same
Depends: librpkirtr0 (= $version)
Description: proved RPKI-to-Router client and origin validation (development)
 The header, the static library, the manual page and examples of librpkirtr:
 a router client of RPKI-to-Router caches (RFC 8210, RFC 6810) and the
 validation of BGP routes (RFC 6811).
CONTROL

mkdir -p "$work/python3-rpkirtr/DEBIAN" "$work/python3-rpkirtr/usr/lib/python3/dist-packages" &&
    install -m 644 "$top/bindings/python/rpkirtr.py" "$work/python3-rpkirtr/usr/lib/python3/dist-packages/rpkirtr.py" || fail 'the module could not be copied'
# (what Python compiles from the module is removed with it)
maintainer_script() { # maintainer_script NAME COMMAND
    printf '#!/bin/sh\nset -e\nif command -v %s >/dev/null; then %s -p python3-rpkirtr; fi\n' "$2" "$2" >"$work/python3-rpkirtr/DEBIAN/$1" &&
        chmod 755 "$work/python3-rpkirtr/DEBIAN/$1" || fail "$1 could not be written"
}
maintainer_script postinst py3compile
maintainer_script prerm py3clean
pack python3-rpkirtr all <<CONTROL
Section: python
Depends: librpkirtr0 (>= $version), python3
Description: proved RPKI-to-Router client and origin validation (Python)
 The module rpkirtr: a router client of RPKI-to-Router caches (RFC 8210,
 RFC 6810) and the validation of BGP routes (RFC 6811), over librpkirtr.
CONTROL

find "$work/all" ! -type d ! -name installed | grep . >&2 && fail 'a file belongs to no package'
exit 0
