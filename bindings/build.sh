#!/bin/sh
# Makes one folder of what a program that calls the cache needs: libdilluvas.a, libdilluvas.so and dilluvas.h, and of what reads and writes
# a file for it, dilluvas_file.h, dilluvas_file.c and dilluvas_rewriting.h. It takes the proved library as tools/build.sh left it in
# crates/sled_c, and has that make it first where it isn't of these sources; dilluvas_rewriting.c, which isn't proved, is compiled into it. It
# prints nothing but faults, and what tools/build.sh tells on standard error.
#
#     bindings/build.sh [FOLDER]
#
# FOLDER is bindings/out if none is given. The proved library needs malloc, realloc and free, memcpy, memmove and memset of the C library, and
# the rewriting of files step by step what POSIX has for files. The status is 0 where all is there, and else 1: what was there before is there
# still, whole.
set -eu

top=$(CDPATH='' cd -- "$(dirname -- "$0")/.." && pwd)
mkdir -p "${1:-$top/bindings/out}"
folder=$(CDPATH='' cd -- "${1:-$top/bindings/out}" && pwd)
archive=$top/crates/sled_c/out/libsled_c.a

fail() {
    echo "build.sh: $1" >&2
    exit 1
}

for tool in ar "${CC:-cc}"; do
    command -v "$tool" >/dev/null || fail "there is no $tool, which makes the folder of the library"
done
command -v rt >/dev/null || fail "the toolchain's command rt is not on the PATH: README.md says under 'First look' where it and a release come from"
"$top/tools/built.sh" is sled_c libsled_c.a || "$top/tools/build.sh" sled_c

# What calls the heap is the kit's, one object.
kit=$(dirname "$(dirname "$(readlink -f "$(command -v rt)")")")
new=$(mktemp -d "$folder/new.XXXXXX") || fail "there is no room in $folder"
trap 'rm -rf "$new"' EXIT
trap 'exit 1' HUP INT PIPE TERM
"${CC:-cc}" -std=c11 -O2 -fPIC -I"$top/bindings/c" -c -o "$new/dilluvas_rewriting.o" "$top/bindings/c/dilluvas_rewriting.c"
ar -M <<SCRIPT
create $new/libdilluvas.a
addlib $archive
addlib $kit/c/liblibc_c.a
addmod $new/dilluvas_rewriting.o
save
end
SCRIPT
rm "$new/dilluvas_rewriting.o"
"${CC:-cc}" -shared -o "$new/libdilluvas.so" -Wl,--whole-archive "$new/libdilluvas.a" -Wl,--no-whole-archive
for file in dilluvas.h dilluvas_file.h dilluvas_file.c dilluvas_rewriting.h; do
    cp "$top/bindings/c/$file" "$new/"
done
chmod 644 "$new"/*.a "$new"/*.h "$new"/*.c
mv -f "$new"/* "$folder/"
