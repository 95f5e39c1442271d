#!/bin/sh
# Builds the core for C and Python: c/out/libubi.a, c/out/libubi.so and c/out/ubi.h. Proves what ./ubi_tool hasn't proved yet;
# without that it takes about as long as the first build of the program (docs/MEASUREMENTS.md). Needs rt of the kit on the
# PATH, and cc.
# With --link it takes the existing archive of crates/ubi_c. docs/C.md says how to use them.
set -eu
top=$(cd "$(dirname "$0")/.." && pwd)
out=$top/c/out
command -v rt >/dev/null || {
    echo "c/build.sh: needs rt of the kit on the PATH (README.md, Install)" >&2
    exit 1
}
archive=$top/crates/ubi_c/out/libubi_c.a
if [ "${1-}" = --link ]; then
    kit=$(dirname "$(rt doc)")
else
    here=$top
    . "$top/prove.sh"
    mkdir -p "$top/crates/ubi_c/out"
    prove_below ubi_c >&2
    (compile ubi_c src/lib.rt --crate-type staticlib --toolchain "$kit/toolchain" --backend llvm -o "$archive") >&2
fi

mkdir -p "$out"
cp "$top/c/include/ubi.h" "$out/ubi.h"
# One archive: the crate, and the library that allocates for it.
printf 'create %s\naddlib %s\naddlib %s\nsave\nend\n' \
    "$out/libubi.new.a" "$archive" "$kit/c/liblibc_c.a" | ar -M
mv "$out/libubi.new.a" "$out/libubi.a"
# The same as a shared object, which exports only the calls of ubi.h.
printf '{ global: ubi_*; local: *; };\n' >"$out/exports"
cc -shared -o "$out/libubi.new.so" -Wl,--whole-archive "$out/libubi.a" -Wl,--no-whole-archive \
    -Wl,--version-script="$out/exports" -Wl,-soname,libubi.so
mv "$out/libubi.new.so" "$out/libubi.so"
rm "$out/exports"
