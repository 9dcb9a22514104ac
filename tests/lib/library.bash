# The library for C, for a test. To be sourced, with the top of the repository in `top`, and in `out` a folder of the test.
. "$top/tools/programs.bash" || exit 1

# Copies the library that is built here, or else the delivered one, into the folder lib/ of `out`, with its links. Without either the status
# of the test is 77.
copy_library() {
    local name program
    mkdir "$out/lib" || exit 1
    for name in "${libraries[@]}"; do
        find_program "$name" || { echo "$name is neither built here nor delivered of these sources"; exit 77; }
        cp "$program" "$out/lib/$name" || exit 1
    done
    ln -s librpkirtr.so.0.0.0 "$out/lib/librpkirtr.so.0" && ln -s librpkirtr.so.0 "$out/lib/librpkirtr.so" || exit 1
}
