#!/usr/bin/env bash
# A newcomer's first minutes on a clean Debian without the Rattle kit: a clone answers at once, the daemon serves BIRD, and a clone becomes a
# Debian package, each within the seconds that are promised. The Debian is made by debootstrap in a folder of this test, or copied from the
# folder that is named, and run by systemd-nspawn without a network but its own loopback. It wants root and these programs; with --install
# they are installed by apt-get first. What is committed is cloned. This is no part of ./test.
set -u
export LC_ALL=C
top=$(cd "$(dirname "${BASH_SOURCE[0]}")/.." && pwd) || exit 1
. "$top/tests/lib/clean_debian.bash"
clean_debian fresh git,bird2 "$@"
git clone -q --bare "$top" "$folder/root/origin.git" || exit 1
{
    echo 'router id 192.0.2.2;'
    awk '/^##/ { inside = $0 == "### BIRD 2 and 3" } inside && $0 == "```" { fence++; next } inside && fence == 1' "$top/docs/ROUTERS.md" | sed 's/192\.0\.2\.1/127.0.0.1/'
} >"$folder/root/etc/bird/bird.conf"
run_inside 300
