#!/usr/bin/env bash
# Installs the daemon on a clean Debian that systemd runs, by the commands of docs/OPERATING.md, lets BIRD ask it, and removes
# it again; then the same with the package of tools/package.sh. What is left then is what was there before. The package also replaces that of
# the release before it, and is replaced by it: BIRD keeps its records, and comes back to the same session. The Debian is made by debootstrap
# in a folder of this test, or copied from the folder that is named, and run by systemd-nspawn without a network but its own loopback. It
# wants root and these programs; with --install they are installed by apt-get first. This is no part of ./test. A failure says what, at which
# step and what to do, with the last lines of the journal and the console. It takes two minutes with a ready folder, and some more to make one;
# a heavily loaded machine may need a quarter of an hour. It ends within forty minutes.
set -u
export LC_ALL=C
top=$(cd "$(dirname "${BASH_SOURCE[0]}")/.." && pwd) || exit 1
. "$top/tests/lib/clean_debian.bash"
. "$top/tools/programs.bash" || exit 1
clean_debian service systemd,systemd-sysv,dbus,bird2,man-db "$@"
for name in "${programs[@]}"; do
    find_program $name || { cannot "$name is neither built here nor delivered of these sources" "./build $name, or check out a commit that delivers it (git log dist)"; exit 1; }
done
timeout 300 bash "$top/tools/package.sh" "$folder/out" >/dev/null || { cannot 'tools/package.sh makes no package within 300 seconds' 'run it alone'; exit 1; }

# The version of rpkirtrd in a list of what is delivered.
delivered_version() {
    sed -n 's/^rpkirtrd \([0-9.]*\) .*/\1/p'
}

# Makes the package of the release before this one, in out/before: that of the newest commit that delivers another version.
package_before() {
    local commit version list=dist/x86_64-linux/SOURCES
    while IFS= read -r commit; do
        version=$(git -c safe.directory="$top" -C "$top" show "$commit:$list" | delivered_version)
        [ "$version" != "$(delivered_version <"$top/$list")" ] || continue
        mkdir "$folder/before" "$folder/out/before" || return
        git -c safe.directory="$top" -C "$top" archive "$commit" | tar -x -C "$folder/before" || return
        timeout 300 bash "$folder/before/tools/package.sh" "$folder/out/before" >"$folder/before.log" 2>&1 || { cat "$folder/before.log" >&2; return 1; }
        return
    done < <(git -c safe.directory="$top" -C "$top" log --format=%H -- "$list")
    echo 'service: no upgrade is tried, as the history here has no release before this one' >&2
}
package_before || { cannot 'the package of the release before this one cannot be made' 'mend what the lines above name'; exit 1; }

# The first blocks of a language below a heading of a page, one if no number is given.
block() { # block PAGE HEADING LANGUAGE [NUMBER]
    awk -v heading="$2" -v fence="\`\`\`$3" -v most="${4:-1}" '
        /^##/ { inside = $0 == heading }
        inside && $0 == fence { at++; on = 1; next }
        /^```$/ { on = 0 }
        on && at <= most' "$top/docs/$1"
}

cd "$folder" || exit 1
# (a person takes a moment before each command)
{ echo 'set -eu'; block OPERATING.md '## Install, first router, health' sh 2 | sed 's/^sudo //; s/^birdc/sleep 2\n&/'; } >out/install.sh
{ echo 'set -eu'; block OPERATING.md '### Removing' sh | sed 's/^sudo //'; } >out/remove.sh
{ echo 'router id 192.0.2.2;'; block ROUTERS.md '### BIRD 2 and 3' '' | sed 's/192\.0\.2\.1/127.0.0.1/; s/port 3323;/& retry keep 1;/'; } >root/etc/bird/bird.conf
[ "$(grep -c tools/install.sh out/install.sh)" -eq 1 ] && [ "$(grep -c -- --remove out/remove.sh)" -eq 1 ] && grep -q 'retry keep 1' root/etc/bird/bird.conf || {
    cannot 'docs/OPERATING.md or docs/ROUTERS.md has other blocks, so nothing is tried' 'see which headings this script looks for'
    exit 1
}
mkdir -p root/var/lib/rpki-client && cp "$top/samples/rpki-client.json" root/var/lib/rpki-client/json || exit 1
boot_inside 180 900 --bind-ro="$top:/src" || exit 1
cat out/said
