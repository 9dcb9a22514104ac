# What the tests of an installation share. To be sourced, with the top of the repository in `top` and the name of the test in `test`.

# The newest version of the changelog is that of all that is installed.
version=$(sed -n 's/^## \[\([0-9][0-9.]*\)\].*$/\1/p' "$top/CHANGELOG.md" | head -n 1)

fail() { # fail MESSAGE
    echo "$test: $1" >&2
    exit 1
}

# The files and links below a folder are these lines.
holds() { # holds FOLDER WANTED
    find "$1" ! -type d | sed "s|^$1/||" | sort >found
    sort "$2" | cmp -s - found && return
    sort "$2" | diff - found >&2
    fail "$1 holds other files"
}
