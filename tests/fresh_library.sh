#!/usr/bin/env bash
# The library for C on a clean Debian without the Rattle kit: each command of examples/README.md, in its order, in a clone. The packages are made
# and installed, the clients in C, Python and Rust ask the daemon, and nothing is left once all is removed. The Debian is made by debootstrap in a
# folder of this test, or copied from the folder that is named, and run by systemd-nspawn without a network but its own loopback. It wants root
# and these programs; with --install they are installed by apt-get first. What is committed is cloned. This is no part of ./test.
set -u
export LC_ALL=C
top=$(cd "$(dirname "${BASH_SOURCE[0]}")/.." && pwd) || exit 1
. "$top/tests/lib/clean_debian.bash"
# (what the page has installed by apt-get, and git, the pages of the manual, and the wheels that an isolated build of Python's module takes)
clean_debian fresh_library gcc,libc6-dev,pkg-config,python3,python3-venv,python3-setuptools,python3-wheel,cargo,librtr-dev,git,man-db,python3-wheel-whl "$@"
git clone -q --bare "$top" "$folder/root/origin.git" || exit 1
run_inside 900
