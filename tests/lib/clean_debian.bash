# A clean Debian in a folder, for tests that systemd-nspawn runs in it. To be sourced, with the top of the repository in `top`. Each wait in it
# is bounded, and what fails is said: what, where, and what to do.

# Makes it at root/ in `folder`, a folder of its own, with these packages, by debootstrap, or copies it from the folder that the words name. The
# word --install has what this needs installed by apt-get first. Without root or these programs the test is skipped.
clean_debian() { # clean_debian TEST PACKAGES WORD.., into `folder`, `test` and `packages`
    test=$1 packages=$2
    shift 2
    if [ "${1:-}" = --install ]; then
        { apt-get update && DEBIAN_FRONTEND=noninteractive apt-get install -y --no-install-recommends debootstrap systemd-container; } >/dev/null || exit 1
        shift
    fi
    if [ $# -gt 1 ] || [[ ${1:-} == -* ]]; then
        echo "usage: tests/$test.sh [--install] [FOLDER]" >&2
        exit 2
    fi
    if [ "$(id -u)" -ne 0 ] || ! command -v debootstrap >/dev/null || ! command -v systemd-nspawn >/dev/null; then
        echo "$test: this wants root, debootstrap and systemd-nspawn (--install)" >&2
        exit 77
    fi
    container='' groups=() alone='if the machine is loaded, run this test alone'
    folder=$(mktemp -d) || exit 1
    trap leave EXIT
    trap 'exit 129' HUP
    trap 'exit 130' INT
    trap 'exit 143' TERM
    mkdir "$folder/out" || exit 1
    if [ $# -eq 1 ]; then
        judge_root "${1%/}" || exit 1
        timeout 300 cp -a "$1" "$folder/root" || { cannot "$1 is not copied within 300 seconds" 'see that the disk has room'; exit 1; }
    else
        make_root || exit 1
    fi
}

# Says what failed, and what to do.
cannot() { # cannot WHAT WHAT-TO-DO
    printf '%s\n' "$test: $1" "$test: what to do: $2" >&2
}

debootstrap_command() { # debootstrap_command FOLDER
    echo "debootstrap --variant=minbase --include=$packages bookworm $1"
}

make_root() {
    local log=$folder/debootstrap.log
    echo "$test: a clean Debian is made" >&2
    # (no word of it has a blank, as mktemp made the folder)
    # shellcheck disable=SC2046
    timeout --kill-after=10 900 $(debootstrap_command "$folder/root") >"$log" 2>&1 && return
    tail -n 8 "$log" >&2
    cannot 'debootstrap makes no Debian within 900 seconds; its last lines are above' \
        'see that a mirror of Debian is reached, or name a folder that is ready: '"$(debootstrap_command FOLDER), and then tests/$test.sh FOLDER"
    return 1
}

# Whether a folder is a Debian with the packages, without what a run of such a test leaves.
judge_root() { # judge_root FOLDER
    local name lacking left
    lacking=$(for name in ${packages//,/ }; do
        awk -v name="$name" '$1 == "Package:" { of = $2 } $0 == "Status: install ok installed" && of == name { found = 1 } END { exit !found }' \
            "$1/var/lib/dpkg/status" 2>/dev/null || printf ' %s' "$name"
    done)
    left=$(find "$1" -xdev \( -path "$1/proc" -o -path "$1/sys" -o -path "$1/dev" -o -path "$1/var/log" \) -prune -o \
        \( -name '*rpkirtr*' -o -name inside.service -o -path "$1/inside.sh" -o -path "$1/repo" -o -path "$1/origin.git" \) -print 2>/dev/null | head -n 3)
    [ -n "$lacking$left" ] || return 0
    cannot "$1 is no clean Debian for this test:${lacking:+ it lacks the packages$lacking}${left:+ an earlier run left ${left//$'\n'/, }}" \
        "name a fresh one: $(debootstrap_command FOLDER)"
    return 1
}

# Control groups of its own, if they can be made: nspawn makes those of the container below the group of its caller, where those of another
# container would be the same.
own_groups() { # own_groups, into `groups`
    local number kind path mounted
    while IFS=: read -r number kind path; do
        case $number:$kind in
        0:) set -- /sys/fs/cgroup /sys/fs/cgroup/unified ;;
        *:name=systemd) set -- /sys/fs/cgroup/systemd ;;
        *) continue ;;
        esac
        for mounted in "$@"; do
            [ -e "$mounted/cgroup.procs" ] && mkdir -p "$mounted${path%/}/$machine" 2>/dev/null && groups+=("$mounted${path%/}/$machine")
        done
    done </proc/self/cgroup
}

# Starts systemd-nspawn over root/ with these options, without a network but its own loopback. It halts if this test is killed.
start_container() { # start_container OPTION.., into `container` and `machine`
    machine=rpkirtr-${test//_/-}-$$
    own_groups
    (
        for group in "${groups[@]}"; do
            echo 0 2>/dev/null >"$group/cgroup.procs"
        done
        exec setpriv --pdeathsig TERM systemd-nspawn --quiet --register=no --keep-unit --link-journal=no --machine="$machine" --private-network --directory="$folder/root" "$@"
    ) </dev/null &
    container=$!
}

# Waits until a command succeeds: so many seconds, and no longer than the container runs.
await() { # await SECONDS COMMAND..
    local end=$((SECONDS + $1))
    shift
    until "$@"; do
        if is_over || [ $SECONDS -ge $end ]; then
            "$@"
            return
        fi
        sleep 0.2
    done
}

is_over() {
    [ -n "$container" ] && ! kill -0 "$container" 2>/dev/null
}

# Removes the control groups. Processes that are left in them are killed.
remove_groups() {
    local group left
    for group in "${groups[@]}"; do
        left=$(find "$group" -name cgroup.procs -exec cat {} + 2>/dev/null)
        # shellcheck disable=SC2086
        [ -z "$left" ] || kill -KILL $left 2>/dev/null
        find "$group" -depth -type d -exec rmdir {} + 2>/dev/null
        [ ! -d "$group" ] || return 1
    done
}

remove_folder() {
    rm -rf --one-file-system "$folder" 2>/dev/null
}

# Ends the container if it runs. (The first SIGTERM has it halt, and the second one ends it at once.)
end_container() {
    if [ -n "$container" ] && ! is_over; then
        kill -TERM "$container" 2>/dev/null
        await 3 is_over || kill -TERM "$container" 2>/dev/null
        await 15 is_over || kill -KILL "$container" 2>/dev/null
        wait "$container" 2>/dev/null
    fi
    container=''
    await 20 remove_groups
    groups=()
}

leave() {
    end_container
    await 20 remove_folder || echo "$test: $folder cannot be removed: remove it" >&2
}

# Runs tests/inside/TEST.bash in the clean system, without an init, for at most so many seconds. Its status is that of the script.
run_inside() { # run_inside SECONDS
    local status script=tests/inside/$test.bash
    cp "$top/$script" "$folder/root/inside.sh" || return
    start_container --console=pipe /bin/bash /inside.sh
    if ! await "$1" is_over; then
        end_container
        cannot "$script is not over within $1 seconds; its last lines are above" "see which command it ran; $alone"
        return 1
    fi
    wait "$container"
    status=$?
    end_container
    [ $status -eq 0 ] || cannot "$script ended with status $status; its last lines are above" 'mend what they name; if there are none, see that systemd-nspawn can run here'
    return $status
}

# Boots the clean system. Its systemd runs tests/inside/TEST.bash, which writes its step to out/step, what it says to out/said, and turns the
# system off. It has so many seconds to boot, and then so many to the end.
boot_inside() { # boot_inside SECONDS SECONDS OPTION..
    local boot=$1 most=$2 began booted script=tests/inside/$test.bash units=$folder/root/etc/systemd/system
    shift 2
    cp "$top/$script" "$folder/root/inside.sh" && mkdir -p "$folder/root/var/log/journal" "$units/multi-user.target.wants" || return
    systemd-machine-id-setup --root="$folder/root" >/dev/null 2>&1
    printf '[Unit]\nAfter=basic.target\n[Service]\nType=oneshot\nExecStart=/bin/bash /inside.sh\n' >"$units/inside.service"
    ln -s ../inside.service "$units/multi-user.target.wants/inside.service" || return
    began=$SECONDS
    start_container --boot --console=read-only --bind="$folder/out:/out" "$@" >"$folder/out/console" 2>&1
    if ! await "$boot" test -s "$folder/out/step" && is_over; then
        system_failed 'the system ended before it had booted' 'see the console: what failed in it, or why systemd-nspawn cannot run here'
    elif [ ! -s "$folder/out/step" ]; then
        system_failed "the system did not boot within $boot seconds" "see the console and the journal: what is waited for; $alone"
    elif booted=$SECONDS && ! await "$most" is_over; then
        system_failed "$script is not over within $most seconds" "see the journal: which unit or command is waited for; $alone"
    elif [ "$(tail -n 1 "$folder/out/said")" != 'all as it should be' ]; then
        system_failed "$script failed" 'mend what the last line of said names'
    else
        echo "$test: booted after $((booted - began)) seconds, over after $((SECONDS - began))" >&2
        end_container
        return
    fi
    return 1
}

# Says what failed in a booted system, and at which step, with the last lines; all lines are kept in a file.
system_failed() { # system_failed WHAT WHAT-TO-DO
    local kept step
    kept=$(mktemp --tmpdir "$machine.XXXXXX.log") || kept=/dev/null
    system_log all >"$kept"
    system_log 20 >&2
    read -r step 2>/dev/null <"$folder/out/step" || step='the boot'
    end_container
    cannot "$1; the step was: $step. The last lines are above, all are in $kept" "$2"
}

# The last lines of what a booted system wrote.
system_log() { # system_log NUMBER|all
    local name
    printf '%s\n' '--- journal:'
    timeout 30 journalctl --no-pager --directory="$folder/root/var/log/journal" --lines="$1" 2>&1
    for name in console errors said; do
        printf '\n%s\n' "--- $name:"
        tail -n "${1/all/+1}" "$folder/out/$name" 2>/dev/null | sed 's/\x1b[[]*[0-9;?]*[A-Za-z]//g; s/\r//'
    done
}
