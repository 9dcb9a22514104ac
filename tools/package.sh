#!/usr/bin/env bash
# Makes a Debian package of what tools/install.sh installs, below /usr, with dpkg-deb: tools/package.sh [FOLDER] puts it into FOLDER, or into
# the caller's, and prints its path. Its version is the program's. It enables and starts nothing: a user does, once the options are right.
# The status is 0 where it is made, 1 where a program is not built, 2 where the words are wrong, and 3 where a file or a command failed.
set -u
top=$(cd "$(dirname "${BASH_SOURCE[0]}")/.." && pwd) || exit 3
script=tools/package.sh
. "$top/tools/packages.bash" || exit 3
tree=$(mktemp -d) || fail 'no temporary folder could be made'
trap 'rm -rf "$tree"' EXIT
chmod 755 "$tree" || fail "$tree could not be made a folder for all"

bash "$top/tools/install.sh" --prefix /usr --destdir "$tree" >/dev/null || exit
rm "$tree/usr/share/doc/rpkirtr/installed" || fail 'the list of the files could not be removed'
read -r printed < <("$tree/usr/bin/rpkirtrd" --version)
version=${printed#rpkirtrd }
[[ $version =~ ^[0-9][0-9.]*$ ]] || fail "rpkirtrd --version prints no version: $printed"

# Makes of the tree what Debian wants of each package (Debian policy, sections 12.1, 12.5 and 12.7).
for_debian() {
    gzip -9n usr/share/man/man1/*.1 usr/share/man/man8/*.8 &&
        rm usr/share/doc/rpkirtr/LICENSE &&
        debian_copyright >usr/share/doc/rpkirtr/copyright &&
        debian_changelog rpkirtr "$version" | gzip -9nc >usr/share/doc/rpkirtr/changelog.gz &&
        mkdir -p DEBIAN usr/share/lintian/overrides &&
        lintian_overrides rpkirtr >usr/share/lintian/overrides/rpkirtr &&
        find etc usr -type f -exec md5sum {} + | sort -k 2 >DEBIAN/md5sums
}

cd "$tree" || fail "$tree is not there"
size=$(du -k -s --apparent-size etc usr | awk '{ sum += $1 } END { print sum }')
for_debian || fail 'the tree could not be made'
glibc=$(newest_glibc usr/bin/*)

cat >DEBIAN/control <<CONTROL
Package: rpkirtr
Version: $version
Architecture: $architecture
Maintainer: $maintainer
Installed-Size: $size
Depends: libc6${glibc:+ (>= $glibc)}
Recommends: curl, ca-certificates
Suggests: rpki-client, bird2, stunnel4
Section: net
Priority: optional
Description: proved RPKI-to-Router cache, and commands for RPKI data
 rpkirtrd serves validated ROA payloads to routers over the RTR protocol
 (RFC 8210, and RFC 6810), from the files that a validator such as
 rpki-client writes. It follows these files and applies local exceptions
 (RFC 8416). It runs under systemd as a user that systemd makes for it.
 rpkirtrd-fetch follows a file over HTTPS.
 .
 rpkirtr shows what ROAs and manifests say, how routes are judged (RFC 6811)
 and what a cache sends. rpkiobject verifies the digest and the signature of
 a signed object, and prints what it says. All are proved against their
 contracts.
CONTROL
printf '%s\n' /etc/default/rpkirtrd /etc/default/rpkirtrd-fetch >DEBIAN/conffiles

# The units are neither enabled nor started; where they were, they stay so, and an upgrade starts a daemon that runs anew. No user is made: the
# daemon's unit has DynamicUser=yes. Below another root (DPKG_ROOT), and where systemd does not run, no daemon is looked for.
cat >DEBIAN/postinst <<'POSTINST'
#!/bin/sh
set -e
if [ "$1" = configure ] || [ "$1" = abort-upgrade ] || [ "$1" = abort-deconfigure ] || [ "$1" = abort-remove ]; then
    if command -v deb-systemd-helper >/dev/null; then
        for unit in rpkirtrd.service rpkirtrd-fetch.timer; do
            if deb-systemd-helper debian-installed $unit; then
                deb-systemd-helper unmask $unit >/dev/null || true
                if deb-systemd-helper --quiet was-enabled $unit; then
                    deb-systemd-helper enable $unit >/dev/null || true
                fi
            fi
            deb-systemd-helper update-state $unit >/dev/null || true
        done
    fi
    if [ -z "${DPKG_ROOT:-}" ] && [ -d /run/systemd/system ]; then
        systemctl --system daemon-reload >/dev/null || true
        if [ -n "$2" ]; then
            deb-systemd-invoke try-restart rpkirtrd.service rpkirtrd-fetch.timer >/dev/null || true
        fi
    fi
fi
POSTINST
cat >DEBIAN/prerm <<'PRERM'
#!/bin/sh
set -e
if [ "$1" = remove ] && [ -z "${DPKG_ROOT:-}" ] && [ -d /run/systemd/system ]; then
    deb-systemd-invoke stop rpkirtrd-fetch.timer rpkirtrd-fetch.service rpkirtrd.service >/dev/null || true
fi
PRERM
cat >DEBIAN/postrm <<'POSTRM'
#!/bin/sh
set -e
if [ "$1" = purge ]; then
    if command -v deb-systemd-helper >/dev/null; then
        deb-systemd-helper purge rpkirtrd.service rpkirtrd-fetch.timer >/dev/null || true
    fi
    rm -rf "${DPKG_ROOT:-}/var/lib/rpkirtrd-fetch"
fi
if [ "$1" = remove ] && [ -z "${DPKG_ROOT:-}" ] && [ -d /run/systemd/system ]; then
    systemctl --system daemon-reload >/dev/null || true
fi
POSTRM
chmod 755 DEBIAN/postinst DEBIAN/prerm DEBIAN/postrm || fail 'the tree could not be made'
package=$target/rpkirtr_${version}_$architecture.deb
dpkg-deb --build --root-owner-group "$tree" "$package" >/dev/null || fail "$package could not be made"
echo "$package"
