#!/usr/bin/env bash
# Installs the programs, their manual pages, the systemd units, the pages that a user reads, the samples and the licence: tools/install.sh
# below /usr/local, or below another folder with --prefix. With --dev it installs the library for C in their place: header, static and shared
# library, pkg-config file, manual page and examples; --libdir names the folder of the library. With --destdir all goes below that folder, as a
# package wants it. With --remove what was installed there is removed again, and so are the folders that were made for it, where they are empty.
# The status is 0 where all is done, 1 where a program is not built or nothing is installed, 2 where the words are wrong, and 3 where a file
# or a folder failed.
set -u
umask 022
export LC_ALL=C
top=$(cd "$(dirname "${BASH_SOURCE[0]}")/.." && pwd) || exit 3
. "$top/tools/programs.bash" || exit 3
prefix=/usr/local
destdir=
libdir=
removes=no
dev=no

usage() {
    echo 'usage: tools/install.sh [--dev [--libdir DIR]] [--prefix DIR] [--destdir DIR] [--remove]' >&2
    exit 2
}

while [ $# -gt 0 ]; do
    case $1 in
    --prefix | --destdir | --libdir)
        [ -n "${2:-}" ] || usage
        printf -v "${1#--}" %s "${2%/}"
        shift 2
        ;;
    --dev) dev=yes && shift ;;
    --remove) removes=yes && shift ;;
    *) usage ;;
    esac
done
# (the unit names the prefix, and systemd reads blanks and other signs there in its own way)
is_path() { # is_path OPTION PATH
    [[ $2 =~ ^(/[A-Za-z0-9._+-]+)+$ ]] && return
    echo "install: $1 $2: must be the path of a folder, from / on, of letters, digits and . _ + - alone" >&2
    exit 2
}
is_path --prefix "$prefix"
[ -z "$libdir" ] || [ $dev = yes ] || usage
libdir=${libdir:-$prefix/lib}
is_path --libdir "$libdir"
case $destdir in
*$'\n'*) usage ;;
esac

options=$prefix/etc/default
case $prefix in
/usr | /usr/local) options=/etc/default ;;
esac
pages=$prefix/share/doc/rpkirtr
units=$prefix/lib/systemd/system
[ $dev = no ] || pages=$prefix/share/doc/librpkirtr
record=$pages/installed
made=()
declare -A ready=()

# Keeps what was installed and made so far: a line for each file and folder, without the destdir, each once.
write_record() {
    [ -d "$destdir$pages" ] || return 0
    { [ ! -f "$destdir$record" ] || cat "$destdir$record"; [ ${#made[@]} -eq 0 ] || printf '%s\n' "${made[@]}"; } |
        sort -u >"$destdir$record.new" && mv "$destdir$record.new" "$destdir$record"
}

fail() { # fail MESSAGE
    echo "install: $1" >&2
    write_record
    exit 3
}

# Makes a folder and those above it, where they are not there.
make_folder() { # make_folder FOLDER
    [ -d "$destdir$1/" ] && return
    [ -z "$1" ] || make_folder "${1%/*}"
    mkdir "$destdir$1/" || fail "$destdir$1 could not be made"
    made+=("folder $1/")
}

put() { # put MODE SOURCE TARGET
    make_folder "${3%/*}"
    install -m "$1" "$2" "$destdir$3" || fail "$destdir$3 could not be written"
    made+=("file $3")
}

# The same for a text that is changed by `sed`.
put_text() { # put_text MODE SOURCE TARGET COMMAND..
    local text mode=$1 source=$2 target=$3 command commands=()
    shift 3
    for command in "$@"; do
        commands+=(-e "$command")
    done
    text=$(mktemp) || fail 'no temporary file could be made'
    sed "${commands[@]}" "$source" >"$text" || fail "$source could not be read"
    put "$mode" "$text" "$target"
    rm -f "$text"
}

# The units and the script name the place of the programs and of the options.
put_placed() { # put_placed MODE SOURCE TARGET
    put_text "$1" "$2" "$3" "s|/usr/local/bin/|$prefix/bin/|" "s|/etc/default/|$options/|"
}

# A page is read where there are no sources: what leads to them is a name there, and no link. The programs have their installed names.
put_page() { # put_page SOURCE TARGET
    put_text 644 "$1" "$2" 's|\[\([^]]*\)\]([./]*crates/[^)]*)|\1|g' 's|\./\(rpkirtrd\|rpkiobject\)\b|\1|g' 's|\./run\b|rpkirtr|g'
}

# The options are the user's: where the file is there already, it stays.
put_options() { # put_options NAME
    if [ -e "$destdir$options/$1" ]; then
        cmp -s "$top/tools/$1.default" "$destdir$options/$1" || echo "kept $destdir$options/$1, which was there"
    else
        put 644 "$top/tools/$1.default" "$options/$1"
    fi
}

put_all() {
    local name
    make_folder "$pages"
    for name in "${programs[@]}"; do
        put 755 "${ready[$name]}" "$prefix/bin/$name"
    done
    put 644 "$top/docs/man/rpkirtr.1" "$prefix/share/man/man1/rpkirtr.1"
    put 644 "$top/docs/man/rpkiobject.1" "$prefix/share/man/man1/rpkiobject.1"
    put_placed 755 "$top/tools/rpkirtrd-fetch" "$prefix/bin/rpkirtrd-fetch"
    for name in rpkirtrd rpkirtrd-fetch; do
        put 644 "$top/docs/man/$name.8" "$prefix/share/man/man8/$name.8"
        put_placed 644 "$top/tools/$name.service" "$units/$name.service"
        put_options "$name"
    done
    put_placed 644 "$top/tools/rpkirtrd-fetch.timer" "$units/rpkirtrd-fetch.timer"
    put 644 "$top/LICENSE" "$pages/LICENSE"
    while IFS= read -r name; do
        put_page "$top/$name" "$pages/$name"
    done < <(cd "$top" && ls README.md CHANGELOG.md SECURITY.md docs/*.md samples/README.md examples/README.md)
    while IFS= read -r name; do
        put 644 "$top/$name" "$pages/$name"
    done < <(cd "$top" && find samples examples docs/figures docs/alerts.yml docs/grafana.json docs/Containerfile -type f ! -name README.md | sort)
}

# A link to a file beside it.
put_link() { # put_link TARGET LINK
    make_folder "${2%/*}"
    ln -sfn "$1" "$destdir$2" || fail "$destdir$2 could not be made"
    made+=("file $2")
}

# The library for C, with what belongs to it. The newest version of the changelog is its version.
put_dev() {
    local name version
    version=$(sed -n 's/^## \[\([0-9][0-9.]*\)\].*$/\1/p' "$top/CHANGELOG.md" | head -n 1)
    put 644 "$top/include/rpkirtr.h" "$prefix/include/rpkirtr.h"
    put 644 "${ready[librpkirtr.a]}" "$libdir/librpkirtr.a"
    put 644 "${ready[librpkirtr.so.0.0.0]}" "$libdir/librpkirtr.so.0.0.0"
    put_link librpkirtr.so.0.0.0 "$libdir/librpkirtr.so.0"
    put_link librpkirtr.so.0 "$libdir/librpkirtr.so"
    put_text 644 "$top/tools/librpkirtr/rpkirtr.pc.in" "$libdir/pkgconfig/rpkirtr.pc" "s|@prefix@|$prefix|; s|@libdir@|$libdir|; s|@version@|$version|"
    put 644 "$top/docs/man/rpkirtr.3" "$prefix/share/man/man3/rpkirtr.3"
    while IFS= read -r name; do
        put 644 "$top/$name" "$pages/$name"
    done < <(cd "$top" && find examples -type f | sort)
}

# The program that ./run starts: the one that was built here, or the delivered one.
ready_program() { # ready_program NAME, into `program`
    find_program "$1" && return
    [ $? -eq 3 ] || echo "install: $1 is not built: ./build ${1/#librpkirtr.*/librpkirtr} builds it, in $top" >&2
    return 1
}

install_all() {
    local name program wanted=("${programs[@]}")
    [ $dev = no ] || wanted=("${libraries[@]}")
    for name in "${wanted[@]}"; do
        ready_program "$name" && ready[$name]=$program
    done
    [ ${#ready[@]} -eq ${#wanted[@]} ] || exit 1
    [ -z "$destdir" ] || make_folder ''
    if [ $dev = yes ]; then put_dev; else put_all; fi
    write_record || fail "$destdir$record could not be written"
    echo "installed $(grep -c '^file ' "$destdir$record") files below ${destdir:-/}; $destdir$record lists them"
    [ -n "$destdir" ] && return
    if [ $dev = yes ]; then
        echo "next: ldconfig, and cc \$(pkg-config --cflags --libs rpkirtr) .."
        return
    fi
    case $prefix in
    /usr | /usr/local) echo "next: systemctl daemon-reload && systemctl enable --now rpkirtrd (its options: $options/rpkirtrd)" ;;
    *) echo "next: systemctl enable --now $units/rpkirtrd.service (its options: $options/rpkirtrd)" ;;
    esac
}

# Removes a file, and counts it.
remove_file() { # remove_file FILE
    if [ "${1%/*}" = "$options" ] && [ -f "$destdir$1" ] && ! cmp -s "$top/tools/${1##*/}.default" "$destdir$1"; then
        echo "kept $destdir$1, which was changed"
    elif rm -f "$destdir$1"; then
        removed=$((removed + 1))
    else
        echo "install: $destdir$1 could not be removed" >&2
        return 1
    fi
}

remove_folder() { # remove_folder FOLDER
    [ -d "$destdir$1" ] || return 0
    rmdir "$destdir$1" 2>/dev/null || echo "kept $destdir$1, which is not empty"
}

remove_all() {
    local path list removed=0 status=0
    if [ ! -f "$destdir$record" ]; then
        echo "install: nothing is installed there: $destdir$record is not there" >&2
        exit 1
    fi
    list=$(cat "$destdir$record") || fail "$destdir$record could not be read"
    while IFS= read -r path; do
        remove_file "$path" || status=3
    done < <(sed -n 's|^file /|/|p' <<<"$list")
    [ $status -eq 0 ] || exit $status
    rm -f "$destdir$record" || fail "$destdir$record could not be removed"
    # (the deepest folder first)
    while IFS= read -r path; do
        remove_folder "$path"
    done < <(sed -n 's|^folder /|/|p' <<<"$list" | sort -r)
    echo "removed $removed files below ${destdir:-/}"
}

if [ $removes = yes ]; then remove_all; else install_all; fi
