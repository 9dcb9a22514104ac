#!/bin/sh
# build.sh ARCHIVE HEAP OUT: librpkirtr.a and librpkirtr.so.0.0.0 in the folder OUT, from the archive of the crate rpkirtr_c and the kit's
# heap, which calls malloc, realloc and free. Two runs make the same bytes.
set -eu
archive=$1 heap=$2 out=$3
here=$(cd "$(dirname "$0")" && pwd)
mkdir -p "$out"
# One object whose only global names are the library's: two Rattle libraries in one program would have others in common.
ld -r -o "$out/rpkirtr.o" --whole-archive "$archive" --no-whole-archive "$heap"
objcopy -w --keep-global-symbol='rpkirtr_*' "$out/rpkirtr.o"
rm -f "$out/librpkirtr.a"
ar rcsD "$out/librpkirtr.a" "$out/rpkirtr.o"
# The soname stays at 0 until a release freezes the header.
cc -shared -o "$out/librpkirtr.so.0.0.0" -Wl,-soname,librpkirtr.so.0 -Wl,--version-script="$here/rpkirtr.map" \
    -Wl,-z,defs,-z,relro,-z,now,-z,noexecstack,--build-id=sha1,--hash-style=gnu "$out/rpkirtr.o"
rm -f "$out/rpkirtr.o"
