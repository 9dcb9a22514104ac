# Which program ./run, ./rpkirtrd and ./rpkiobject start: the one that was built here, or else the delivered one of dist/. To be sourced by bash, with the
# top folder of the repository in `top`. It calls nothing but bash, gzip and the tools that come with sha256sum (coreutils), and getconf.

delivery=$top/dist/x86_64-linux
# The programs that are built, delivered and installed, and the files of the library for C.
programs=(rpkirtr rpkirtrd rpkiobject)
libraries=(librpkirtr.a librpkirtr.so.0.0.0)

# Whether a word is the name of a program.
is_program() { # is_program NAME
    [[ " ${programs[*]} " == *" $1 "* && $1 != *' '* && -n $1 ]]
}

say() { # say MESSAGE
    printf '%s\n' "$1" >&2
}

# The lines of crates.txt of a program and of the libraries that it is built from, in the order of their names.
crate_lines() { # crate_lines NAME, into the array `lines` and, without what follows the name, `crates`
    local line name word left=("$1")
    local -A all=() taken=()
    while IFS= read -r line || [ -n "$line" ]; do
        line=${line%%#*}
        [[ $line == *:* ]] || continue
        name=${line%%[: ]*}
        all[$name]=$line
    done <"$top/crates.txt" || return
    while [ ${#left[@]} -gt 0 ]; do
        name=${left[0]}
        left=("${left[@]:1}")
        # (what is no crate here is the kit's)
        [ -n "${all[$name]:-}" ] && [ -z "${taken[$name]:-}" ] || continue
        taken[$name]=yes
        # shellcheck disable=SC2086
        left+=(${all[$name]#*:})
    done
    lines=() crates=()
    for word in "${!all[@]}"; do
        [ -z "${taken[$word]:-}" ] || crates+=("$word")
    done
    in_order "${crates[@]}"
    crates=("${ordered[@]}")
    for word in "${crates[@]}"; do
        lines+=("${all[$word]}")
    done
}

# Words in the order of their bytes, into the array `ordered`.
in_order() { # in_order WORD..
    local word at LC_ALL=C
    ordered=()
    for word in "$@"; do
        at=${#ordered[@]}
        while [ "$at" -gt 0 ] && [[ ${ordered[at - 1]} > $word ]]; do
            ordered[at]=${ordered[at - 1]}
            at=$((at - 1))
        done
        ordered[at]=$word
    done
}

# The sources of a program: the files of src/ of each crate that it is built from, in a fixed order. Those of the library for C are also its
# header and what links it.
source_files() { # source_files NAME, into the arrays `lines`, `crates` and `files`
    local crate path name=$1 LC_ALL=C
    files=()
    if [[ $name == librpkirtr.* ]]; then
        name=rpkirtr_c
        files=(include/rpkirtr.h tools/librpkirtr/build.sh tools/librpkirtr/rpkirtr.map)
    fi
    crate_lines "$name" || return
    shopt -s globstar nullglob
    for crate in "${crates[@]}"; do
        for path in "$top/crates/$crate"/src/**; do
            [ ! -f "$path" ] || files+=("${path#"$top/"}")
        done
    done
    shopt -u globstar nullglob
    [ ${#files[@]} -gt 0 ]
}

# The SHA-256 of the sources of a program: of its lines of crates.txt, and of a line for each file, with the file's own sum.
source_sum() { # source_sum NAME, into `sum`
    local lines crates files
    source_files "$1" || return
    sum=$(cd "$top" && set -o pipefail && { printf '%s\n' "${lines[@]}" && sha256sum -b -- "${files[@]}"; } | sha256sum) || return
    sum=${sum%% *}
}

# Whether none of these files is newer than that one.
none_newer() { # none_newer FILE OTHER..
    local path file=$1
    shift
    for path in "$@"; do
        [[ ! $path -nt $file ]] || return
    done
}

# Whether no source of a program is newer than this file. (If no source of any crate is, the program's own need not be told from others.)
is_newest() { # is_newest FILE NAME
    local lines crates files LC_ALL=C
    none_newer "$1" "$top/crates.txt" "$top"/crates/*/src/{*,*/*}.rt && return
    source_files "$2" && none_newer "$1" "$top/crates.txt" "${files[@]/#/$top/}"
}

# What SOURCES says of a program: its version, the sum of its sources and its own.
read_delivery() { # read_delivery NAME, into `version`, `wanted_sources` and `wanted`
    local name
    [ -f "$delivery/SOURCES" ] || return
    while read -r name version wanted_sources wanted; do
        [ "$name" != "$1" ] || return 0
    done <"$delivery/SOURCES"
    return 1
}

# What SOURCES says behind a word.
read_noted() { # read_noted WORD, into `noted`
    local word
    [ -f "$delivery/SOURCES" ] || return
    while read -r word noted; do
        [ "$word" != "$1" ] || return 0
    done <"$delivery/SOURCES"
    return 1
}

# The kit that the delivered programs were built with, as `rt version` prints it.
delivered_kit() { # delivered_kit, into `kit`
    local noted
    read_noted kit && kit=$noted
}

# The linkers here, which write the library for C, and those that wrote the delivered one.
linkers_here() { # linkers_here, into `linkers`
    local compiler linker
    read -r compiler < <(cc --version 2>/dev/null) && read -r linker < <(ld --version 2>/dev/null) && linkers="$compiler, $linker"
}

delivered_linkers() { # delivered_linkers, into `linkers`
    local noted
    read_noted linkers && linkers=$noted
}

# Whether the library that is built here is to have the bytes of the delivered one.
same_linkers() {
    local linkers here
    linkers_here && here=$linkers && delivered_linkers && [ "$linkers" = "$here" ]
}

# Whether the delivered file is of the sources here.
is_delivered() { # is_delivered NAME
    local version wanted_sources wanted sum
    read_delivery "$1" && source_sum "$1" && [ "$sum" = "$wanted_sources" ]
}

# The SHA-256 of a file.
file_sum() { # file_sum FILE, into `sum`
    sum=$(sha256sum -b -- "$1") || return
    sum=${sum#\\}
    sum=${sum%% *}
}

# What a processor lacks of x86-64-v2, by a text of the form of /proc/cpuinfo.
lacking_flags() { # lacking_flags FILE
    local line flag lacking=()
    while IFS= read -r line; do
        [[ $line != flags* ]] || break
    done <"$1"
    for flag in cx16 lahf_lm popcnt sse4_1 sse4_2 ssse3; do
        [[ " ${line#*:} " == *" $flag "* ]] || lacking+=("$flag")
    done
    printf '%s' "${lacking[*]}"
}

# Whether the delivered programs run on this machine; if not, what is missing is said.
machine_suits() { # machine_suits NAME
    local machine lacking glibc major minor
    machine=$(uname -sm)
    if [ "$machine" != 'Linux x86_64' ]; then
        say "$1: the delivered programs are for Linux on x86-64, and this is $machine: run them on such a machine, or a virtual one"
        return 3
    fi
    lacking=$(lacking_flags /proc/cpuinfo)
    if [ -n "$lacking" ]; then
        say "$1: the delivered programs need a processor of x86-64-v2, and this one lacks $lacking: run them on a newer one (2009 or later)"
        return 3
    fi
    glibc=$(getconf GNU_LIBC_VERSION 2>/dev/null) || glibc=
    IFS=. read -r major minor _ <<<"${glibc#glibc }"
    if ! [[ $major.$minor =~ ^[0-9]+\.[0-9]+$ ]] || [ "$major" -lt 2 ] || { [ "$major" -eq 2 ] && [ "$minor" -lt 34 ]; }; then
        say "$1: the delivered programs need the C library glibc 2.34 or later, and this is ${glibc:-another one}: run them on Debian 12, Ubuntu 22.04, RHEL 9 or later, or in a container of one of these"
        return 3
    fi
}

# The folder for the unpacked programs: out/, or a folder of the user's for temporary files where that cannot be written.
unpack_folder() { # unpack_folder, into `folder`
    folder=$top/out
    mkdir -p "$folder" 2>/dev/null && [ -w "$folder" ] && return
    folder=${TMPDIR:-/tmp}/rpkirtr-programs-$UID
    mkdir -m 700 "$folder" 2>/dev/null
    [ -d "$folder" ] && [ ! -h "$folder" ] && [ -O "$folder" ] && [ -w "$folder" ] && return
    say "neither $top/out nor $folder can be written: let TMPDIR name a folder for temporary files"
    return 3
}

# Unpacks a delivered program and checks it, under a name of its own first, as two starts may meet.
unpack() { # unpack NAME FILE
    local packed=$delivery/$1.gz fresh=$2.$$ sum
    if ! command -v gzip >/dev/null 2>&1; then
        say "$1: the command gzip is not on the PATH, and the delivered program is unpacked by it: install gzip"
        return 3
    fi
    if ! gzip -dc -- "$packed" >"$fresh"; then
        rm -f "$fresh"
        say "$1: $packed cannot be unpacked: fetch the repository anew (git checkout -- dist), and see that the disk is not full"
        return 3
    fi
    if ! file_sum "$fresh" || [ "$sum" != "$wanted" ]; then
        rm -f "$fresh"
        say "$1: $packed does not hold the program of $delivery/SOURCES, so it is not run: fetch the repository anew (git checkout -- dist)"
        return 3
    fi
    chmod 755 "$fresh" && mv -f "$fresh" "$2" || { rm -f "$fresh"; say "$1: $2 cannot be written"; return 3; }
    say "$1 $version: delivered program, the same bytes that ./build makes here (proved)"
}

# The delivered program, if the sources here are those that it was built from.
delivered_program() { # delivered_program NAME, into `program`; status 1 if the sources are others, and 3 if it is refused
    local version wanted_sources wanted folder sum
    read_delivery "$1" || return 1
    if ! command -v sha256sum >/dev/null 2>&1; then
        say "$1: the command sha256sum is not on the PATH, and the delivered program is checked by it: install coreutils"
        return 3
    fi
    unpack_folder || return
    program=$folder/$1
    # (a usual start looks at times alone)
    if [[ ! -f $program || $delivery/SOURCES -nt $program || $delivery/$1.gz -nt $program ]]; then
        source_sum "$1" && [ "$sum" = "$wanted_sources" ] || return 1
        machine_suits "$1" && unpack "$1" "$program" || return 3
        return 0
    fi
    if ! is_newest "$program" "$1"; then
        source_sum "$1" && [ "$sum" = "$wanted_sources" ] || return 1
        touch -c "$program" 2>/dev/null
    fi
    machine_suits "$1" || return
    file_sum "$program" && [ "$sum" = "$wanted" ] && [ -x "$program" ] && return
    say "$1: $program is not the program of $delivery/SOURCES, so it is not run: remove it, and it is unpacked anew"
    return 3
}

# Where a program, or a file of the library for C, is built here.
built_path() { # built_path NAME, into `built`
    built=$top/crates/$1/out/$1
    [[ $1 != librpkirtr.* ]] || built=$top/crates/rpkirtr_c/out/lib/$1
}

# The program that is started, or the file of the library: the one built here if no source is newer, else the delivered one.
find_program() { # find_program NAME, into `program`; status 1 if it has to be built, and 3 if it is refused
    local built
    built_path "$1"
    program=$built
    [ -x "$program" ] && is_newest "$program" "$1" && return
    delivered_program "$1"
}
