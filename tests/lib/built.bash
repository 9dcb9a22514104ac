# What the gate builds besides the two programs: tests of libraries, and examples. To be sourced, with the top of the repository in `top`.
. "$top/tools/programs.bash"

# A file in a crate's folder out/ that is not older than the sources. If it is missing, this command makes it in the crate's folder; without
# the Rattle kit, and in ./test --quick, the status is 77, and a line says why.
built() { # built CRATE FILE COMMAND..
    local crate=$1 file=$top/crates/$1/out/$2
    shift 2
    [ -x "$file" ] && is_newest "$file" "$crate" && return
    if [ -n "${QUICK:-}" ] || ! command -v rt >/dev/null 2>&1; then
        echo "$crate is not built here: ./test builds it, with the Rattle kit"
        return 77
    fi
    (cd "$top/crates/$crate" && "$@" >/dev/null) && [ -x "$file" ] || return 1
}
