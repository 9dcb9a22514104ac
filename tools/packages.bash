# What the scripts share that make Debian packages. To be sourced by bash, with the words of the script, its name in `script`, and the top
# folder of the repository in `top`. It sets `target`, the folder for the packages, and `architecture`.
umask 022
export LC_ALL=C
if [ $# -gt 1 ] || [[ ${1:-.} == -* ]]; then
    echo "usage: $script [FOLDER]" >&2
    exit 2
fi
fail() { # fail MESSAGE
    echo "package: $1" >&2
    exit 3
}

target=$(cd "${1:-.}" && pwd) || fail "${1:-.} is no folder"
for command in dpkg dpkg-deb gzip; do
    command -v "$command" >/dev/null 2>&1 || fail "the command $command is not on the PATH"
done
architecture=$(dpkg --print-architecture) || fail 'dpkg --print-architecture prints none'
# (the same files at the same commit make the same package)
export SOURCE_DATE_EPOCH=${SOURCE_DATE_EPOCH:-$(git -C "$top" log -1 --format=%ct 2>/dev/null || date +%s)}

# Whoever makes a package for others is its maintainer, by Debian's variables; otherwise root of the machine. Reports go to the repository.
maintainer="${DEBFULLNAME:-rpkirtr maintainers} <${DEBEMAIL:-root@localhost}>"

# The licences as Debian wants them: the text of the Apache License is in each Debian system (Debian policy, section 12.5).
debian_copyright() {
    sed -n '1p; 3p; 5,27p' "$top/LICENSE"
    echo 'On Debian systems the text of the Apache License, Version 2.0, is in'
    echo '/usr/share/common-licenses/Apache-2.0.'
}

# The newest entry of a changelog in Debian's form (Debian policy, section 4.4).
debian_changelog() { # debian_changelog PACKAGE VERSION
    printf '%s (%s) unstable; urgency=medium\n\n  * CHANGELOG.md has what has changed.\n\n -- %s  %s\n' \
        "$1" "$2" "$maintainer" "$(date -u -R -d "@$SOURCE_DATE_EPOCH")"
}

# What lintian cannot know. The programs and libraries are packed as they were proved and built, byte for byte.
lintian_overrides() { # lintian_overrides PACKAGE
    [[ $1 == python3-* ]] || printf '%s: unstripped-binary-or-object\n' "$1"
    [ -n "${DEBEMAIL:-}" ] || printf "$1: %s\n" bogus-mail-host bogus-mail-host-in-debian-changelog root-in-contact
}

# The newest version of the C library that files name.
newest_glibc() { # newest_glibc FILE..
    grep -aoh 'GLIBC_2\.[0-9]*' "$@" | sed 's/^GLIBC_//' | sort -uV | tail -n 1
}
