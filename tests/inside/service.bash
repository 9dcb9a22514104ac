# What tests/service.sh has done inside the clean system: /src is this repository, built, /out is read from outside. It turns the system off.
export LC_ALL=C MANPAGER=cat MANWIDTH=80
trap 'systemctl poweroff --no-block' EXIT
exec >/out/said 2>/out/errors </dev/null

# Writes which step begins, for those who wait outside.
step() { # step WHAT
    echo "$1" >/out/step
}

fail() {
    echo "service: $1"
    { birdc show protocols all cache; systemctl list-jobs --no-pager; journalctl --no-pager --lines=20; } >&2
    exit 1
}

# Each file and folder, but for what the system writes for itself.
all_files() {
    find / \( -path /proc -o -path /sys -o -path /dev -o -path /run -o -path /tmp -o -path /var/tmp -o -path /var/log -o -path /var/cache -o -path /src \
        -o -path /out -o -path /root -o -path '/var/lib/systemd/*' -o -path '/var/lib/dpkg/*' -o -path '/var/lib/apt/*' -o -path /var/lib/private \) -prune -o -print | sort
}

# Waits until a command succeeds. (A loaded machine may take its time.)
until_so() { # until_so WHAT COMMAND..
    local what=$1 end=$((SECONDS + 120))
    shift
    while [ $SECONDS -lt $end ]; do
        "$@" >/dev/null 2>&1 && return
        sleep 0.1
    done
    fail "$what"
}

serves_bird() {
    [ "$(birdc show route table r4 count | tail -n 1)" = '2 of 2 routes for 2 networks in table r4' ] &&
        [ "$(birdc show route table r6 count | tail -n 1)" = '1 of 1 routes for 1 networks in table r6' ]
}

# The unit is enabled and runs, under a user that systemd made, and BIRD has the records.
runs() { # runs HOW
    systemctl is-enabled --quiet rpkirtrd || fail "$1: the unit is not enabled"
    systemctl is-active --quiet rpkirtrd || fail "$1: the unit is not active"
    until_so "$1: BIRD has no records" serves_bird
    user=$(stat -c %u "/proc/$(systemctl show --property MainPID --value rpkirtrd)")
    # (the numbers from which systemd takes its own users)
    [ "$user" -ge 61184 ] && [ "$user" -le 65519 ] || fail "$1: the daemon runs as user $user"
    journalctl --no-pager --unit rpkirtrd | grep -q ' ready' || fail "$1: the journal does not say ready"
    man rpkirtrd | grep -A 3 -e '^ *--check SECONDS' | grep -q 'poll' || fail "$1: the manual page does not say what --check does"
    systemctl restart rpkirtrd && sleep 1 || fail "$1: no restart"
    serves_bird || fail "$1: a restart takes records from BIRD"
    echo "$1: BIRD has 3 records; $(journalctl --output cat --no-pager --unit rpkirtrd | grep -m 1 ' published')"
}

# The same files are there as before.
is_clean() { # is_clean HOW
    all_files | diff /root/before - >/out/left || fail "$1: removal leaves or takes something: $(cat /out/left)"
    systemctl cat rpkirtrd >/dev/null 2>&1 && fail "$1: the unit is still known"
    echo "$1: nothing is left"
}

# Session and serial of the cache, as BIRD has them on a connection that is there.
heard() {
    birdc show protocols all cache | awk -F ': *' '
        /^ *Status:/ { up = $2 == "Established" }
        /^ *Session ID:/ { session = $2 }
        /^ *Serial number:/ { serial = $2 }
        END { if (up) print session, serial }'
}

# BIRD is connected, in this session and at a later serial than this one.
came_back() { # came_back SESSION SERIAL
    local session serial
    read -r session serial < <(heard)
    [ "$session" = "$1" ] && [ "$serial" -gt "$2" ]
}

# Notes each moment without all records, until the file /run/over is there.
watch_bird() {
    local looks=0
    while [ ! -e /run/over ]; do
        serves_bird || { date +%T.%N && birdc show route table r4 table r6; } >>/run/lost
        looks=$((looks + 1))
        sleep 0.02
    done
    echo $looks >/run/looks
}

# Another package takes the place of the one that is there. The daemon then runs in that version, and BIRD comes back to the same session at a
# later serial. It has all records all the while.
replace() { # replace HOW PACKAGE WORD..
    local how=$1 package=$2 session serial later version pid
    shift 2
    step "$how"
    read -r session serial < <(heard)
    [ -n "$serial" ] || fail "$how: BIRD is not connected before"
    rm -f /run/over /run/lost
    watch_bird &
    dpkg "$@" -i "$package" || fail "$how: the package cannot be installed"
    until_so "$how: BIRD does not come back to session $session after serial $serial" came_back "$session" "$serial"
    touch /run/over
    wait
    [ ! -e /run/lost ] || fail "$how: BIRD lost records: $(cat /run/lost)"
    pid=$(systemctl show --property MainPID --value rpkirtrd)
    version=$(dpkg-deb --field "$package" Version)
    [ "$("/proc/$pid/exe" --version | head -n 1)" = "rpkirtrd $version" ] || fail "$how: the daemon that runs is not $version"
    systemctl is-enabled --quiet rpkirtrd || fail "$how: the unit is not enabled"
    read -r _ later < <(heard)
    echo "$how: rpkirtrd $version, session $session, serial $serial and then $later; BIRD had 3 records at each of $(cat /run/looks) looks"
}

# The release before this one is replaced by this one, and comes back; and then with options that were changed, which stay.
upgrades() { # upgrades BEFORE AFTER
    step 'the package of the release before'
    dpkg -i "$1" || fail 'the package of the release before cannot be installed'
    systemctl enable --now rpkirtrd || fail 'the unit of the release before cannot be enabled'
    birdc restart cache
    until_so 'the release before: BIRD has no records' serves_bird
    replace upgrade "$2"
    replace 'roll back' "$1"
    echo '# of this machine' >>/etc/default/rpkirtrd
    replace 'upgrade with options of its own' "$2" --force-confold
    grep -q '^# of this machine$' /etc/default/rpkirtrd || fail 'an upgrade changes the options of a machine'
    step 'removal of the package after the upgrades'
    dpkg -P rpkirtr || fail 'the package cannot be removed after an upgrade'
    is_clean upgrade
}

step 'start of BIRD'
systemctl start bird
until_so 'BIRD does not run' birdc show status
all_files >/root/before
cd /src || fail 'the repository is not there'
step 'the commands of OPERATING that install'
bash /out/install.sh || fail 'an installing command failed'
runs tools/install.sh
step 'the commands of OPERATING that remove'
bash /out/remove.sh || fail 'a removing command failed'
is_clean tools/install.sh
[ ! -d /out/before ] || upgrades /out/before/rpkirtr_*.deb /out/rpkirtr_*.deb
step 'the package alone'
dpkg -i /out/rpkirtr_*.deb || fail 'the package cannot be installed'
systemctl is-enabled --quiet rpkirtrd && fail 'the package enables the unit'
systemctl enable --now rpkirtrd || fail 'the unit of the package cannot be enabled'
sleep 2
birdc restart cache
runs tools/package.sh
dpkg -P rpkirtr || fail 'the package cannot be removed'
is_clean tools/package.sh
step 'the system is turned off'
echo 'all as it should be'
