#!/usr/bin/env bash
# What tools/install.sh puts below a folder, that it runs there, and that nothing is left once it was removed. Where Debian's tools are, the
# same of the package of tools/package.sh, below another root. Nothing is touched but a folder of this test.
set -u
export LC_ALL=C
top=$(cd "$(dirname "${BASH_SOURCE[0]}")/.." && pwd) || exit 1
folder=$(mktemp -d) || exit 1
trap 'rm -rf "$folder"' EXIT
cd "$folder" || exit 1
. "$top/tools/programs.bash" || exit 1
for name in "${programs[@]}"; do
    bash "$top/tools/start.sh" --path $name >/dev/null || exit 1
done
test=install
. "$top/tests/lib/installed.bash" || exit 1

# The programs below a folder start, and print what they are.
run_all() { # run_all FOLDER
    [ "$("$1/rpkirtrd" --version | head -n 1)" = "rpkirtrd $version" ] || fail "$1/rpkirtrd --version prints something else"
    "$1/rpkirtr" 2>errors
    [ $? -eq 2 ] && [ "$(cat errors)" = 'rpkirtr: bad words' ] || fail "$1/rpkirtr does not refuse to do nothing"
    "$1/rpkirtrd-fetch" '' list 2>errors
    [ $? -eq 2 ] && grep -q '^rpkirtrd-fetch: there is no URL: set URL in /.*etc/default/rpkirtrd-fetch$' errors || fail "$1/rpkirtrd-fetch does not refuse to fetch nothing"
    "$1/rpkiobject" "$top/crates/rpkiobject/data/a.roa" | grep -q '^digest and signature are valid' || fail "$1/rpkiobject does not print an object"
}

install_it() { # install_it STATUS WORD..
    local wanted=$1 got
    shift
    bash "$top/tools/install.sh" "$@" >told 2>&1
    got=$?
    [ $got -eq "$wanted" ] && return
    cat told >&2
    fail "tools/install.sh $*: status $got"
}

# What is installed below a prefix, but for the list of it.
wanted_files() { # wanted_files PREFIX OPTIONS
    printf '%s\n' "$2/rpkirtrd" "$2/rpkirtrd-fetch" "$1"/bin/{rpkirtr,rpkirtrd,rpkiobject,rpkirtrd-fetch} \
        "$1"/lib/systemd/system/rpkirtrd{.service,-fetch.service,-fetch.timer}
    (cd "$top" && ls README.md CHANGELOG.md SECURITY.md docs/*.md docs/alerts.yml docs/grafana.json docs/Containerfile && find samples examples docs/figures -type f) | sed "s|^|$1/share/doc/rpkirtr/|"
}

# Each link of a page below a folder that is no address leads to a file.
links_lead() { # links_lead FOLDER
    local page target dead=no
    while IFS= read -r page; do
        while IFS= read -r target; do
            [ -e "${page%/*}/${target%%#*}" ] || { echo "${page#"$1"/}: $target" >&2 && dead=yes; }
        done < <(grep -o '](\([^)]*\))' "$page" | sed 's/^](//; s/)$//' | grep -v '^#\|^[a-z]*:' | sort -u)
    done < <(find "$1" -name '*.md')
    [ $dead = no ] || fail 'an installed page links to what is not there'
}

# Below /usr/local, where a folder was there, and stays with what it holds.
over_others() {
    { wanted_files usr/local etc/default
        printf 'usr/local/share/%s\n' man/man1/rpkirtr.1 man/man1/rpkiobject.1 man/man8/rpkirtrd.8 man/man8/rpkirtrd-fetch.8 doc/rpkirtr/LICENSE doc/rpkirtr/installed; } >wanted
    mkdir -p tree/usr/local/bin && echo other >tree/usr/local/bin/other
    install_it 0 --destdir tree
    echo usr/local/bin/other >>wanted
    holds tree wanted
    links_lead tree/usr/local/share/doc/rpkirtr
    run_all tree/usr/local/bin
    cmp -s "$top/tools/rpkirtrd.service" tree/usr/local/lib/systemd/system/rpkirtrd.service || fail 'the unit below /usr/local is another'
    # Again, over what is there, with options that were changed: they stay.
    echo 'OPTIONS=--once' >tree/etc/default/rpkirtrd
    echo 'URL=https://localhost/' >tree/etc/default/rpkirtrd-fetch
    install_it 0 --destdir tree/
    holds tree wanted
    install_it 0 --destdir tree --remove
    printf '%s\n' usr/local/bin/other etc/default/rpkirtrd etc/default/rpkirtrd-fetch >wanted
    holds tree wanted
    rm tree/etc/default/rpkirtrd tree/etc/default/rpkirtrd-fetch
    rmdir tree/etc/default tree/etc && [ "$(find tree | sort | tr '\n' ' ')" = 'tree tree/usr tree/usr/local tree/usr/local/bin tree/usr/local/bin/other ' ] ||
        fail 'folders are left'
}

# Below another prefix, in a folder that is made for it: nothing at all is left.
below_another() {
    install_it 0 --destdir other --prefix /opt/rpkirtr
    run_all other/opt/rpkirtr/bin
    { wanted_files opt/rpkirtr opt/rpkirtr/etc/default
        printf 'opt/rpkirtr/share/%s\n' man/man1/rpkirtr.1 man/man1/rpkiobject.1 man/man8/rpkirtrd.8 man/man8/rpkirtrd-fetch.8 doc/rpkirtr/LICENSE doc/rpkirtr/installed; } >wanted
    holds other wanted
    grep -q '^ExecStart=/usr/bin/env --ignore-signal=[A-Z0-9,]* /opt/rpkirtr/bin/rpkirtrd \$OPTIONS$' other/opt/rpkirtr/lib/systemd/system/rpkirtrd.service || fail 'the unit starts another program'
    grep -q '^EnvironmentFile=-/opt/rpkirtr/etc/default/rpkirtrd$' other/opt/rpkirtr/lib/systemd/system/rpkirtrd.service || fail 'the unit reads other options'
    grep -q '^ExecStart=/opt/rpkirtr/bin/rpkirtrd-fetch ' other/opt/rpkirtr/lib/systemd/system/rpkirtrd-fetch.service || fail 'the other unit starts another program'
    grep -q '^EnvironmentFile=-/opt/rpkirtr/etc/default/rpkirtrd-fetch$' other/opt/rpkirtr/lib/systemd/system/rpkirtrd-fetch.service || fail 'the other unit reads other options'
    install_it 0 --prefix /opt/rpkirtr/ --destdir other --remove
    [ ! -e other ] || fail 'something is left below another prefix'
}

# Words that are refused, and programs that are not built: nothing is made.
refusals() {
    install_it 1 --destdir other --remove
    install_it 2 --prefix relative --destdir other
    install_it 2 --destdir
    install_it 2 --destdir other again
    # Where nothing is built or delivered, it says what builds it, and makes nothing.
    mkdir -p bare/tools && cp "$top/tools/install.sh" "$top/tools/programs.bash" bare/tools || exit 1
    bash bare/tools/install.sh --destdir other 2>errors
    [ $? -eq 1 ] && grep -q 'rpkirtr is not built: ./build rpkirtr builds it' errors && grep -q 'rpkirtrd is not built: ./build rpkirtrd builds it' errors ||
        fail 'what is not built is not reported'
    [ ! -e other ] || fail 'a refusal made something'
}

# The package has the same files, of root, and its programs run.
as_package() {
    local package
    mkdir root made || exit 1
    unset DEBEMAIL DEBFULLNAME
    package=$(bash "$top/tools/package.sh" made) || fail 'no package was made'
    [ "$package" = "$folder/made/rpkirtr_${version}_$(dpkg --print-architecture).deb" ] || fail "the package is called $package"
    [ "$(dpkg-deb --field "$package" Package Version Maintainer | tr '\n' ' ')" = \
        "Package: rpkirtr Version: $version Maintainer: rpkirtr maintainers <root@localhost> " ] || fail 'the package is described otherwise'
    { wanted_files usr etc/default
        printf 'usr/share/%s\n' man/man1/rpkirtr.1.gz man/man1/rpkiobject.1.gz man/man8/rpkirtrd.8.gz man/man8/rpkirtrd-fetch.8.gz doc/rpkirtr/copyright doc/rpkirtr/changelog.gz lintian/overrides/rpkirtr; } >wanted
    dpkg-deb --contents "$package" >contents || fail 'the contents of the package cannot be listed'
    grep -q -v ' root/root ' contents && fail 'the package has files of another user'
    [[ $(head -n 1 contents) == 'drwxr-xr-x root/root '*' ./' ]] || fail 'the package closes the root to others'
    dpkg-deb -x "$package" tree.deb || fail 'the package cannot be unpacked'
    holds tree.deb wanted
    links_lead tree.deb/usr/share/doc/rpkirtr
    run_all tree.deb/usr/bin
    if command -v lintian >/dev/null 2>&1; then
        lintian "$package" >found 2>errors
        ! grep '^[EW]: ' found >&2 || fail 'lintian finds something wrong with the package'
    fi
    if [ "$(id -u)" -eq 0 ]; then
        install_package "$package"
    fi
}

# Installs the package below another root, over itself, and removes it. What it needs is not there, and its scripts see that other root.
install_package() { # install_package FILE
    local step
    mkdir -p root/var/lib/dpkg/updates root/var/lib/dpkg/info && touch root/var/lib/dpkg/status || exit 1
    for step in "-i $1" "-i $1" '-r rpkirtr' '-P rpkirtr'; do
        # (the path of the package has no blanks, as mktemp made it)
        # shellcheck disable=SC2086
        dpkg --root="$folder/root" --log=/dev/null --force-not-root --force-script-chrootless --force-depends $step >told 2>&1 || {
            cat told >&2
            fail "dpkg $step failed"
        }
        case $step in
        -i*)
            (cd root && find . -path ./var -prune -o ! -type d -print | sed 's|^\./||' | sort) >found
            sort wanted | cmp -s - found || fail 'dpkg installs other files'
            run_all root/usr/bin
            ;;
        -r*) [ -e root/etc/default/rpkirtrd ] && [ -e root/etc/default/rpkirtrd-fetch ] && [ ! -e root/usr ] || fail 'dpkg -r leaves something, or removes options' ;;
        -P*) [ -z "$(find root -path root/var/lib/dpkg -prune -o ! -type d -print)" ] || fail 'dpkg -P leaves something' ;;
        esac
    done
}

over_others
below_another
refusals
if command -v dpkg >/dev/null 2>&1 && command -v dpkg-deb >/dev/null 2>&1; then
    as_package
fi
