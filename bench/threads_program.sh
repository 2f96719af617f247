#!/bin/sh
# threads_program.sh FILE: proves and builds the program of the calls of measure_threads.sh, whose sources are in the folder threads, and
# puts the binary into the file. They are a crate in a copy of this checkout, since no crate of the checkout serves measurements alone.
set -eu

top=$(CDPATH='' cd -- "$(dirname -- "$(readlink -f -- "$0")")/.." && pwd)
file=$1
. "$top/bench/copied.sh"

cp "$top/HANDLES" "$copy"
crates=$(sed -n 's/^sled_shared: *//p' "$top/crates.txt")
for crate in $crates sled_shared; do
    grep "^$crate:" "$top/crates.txt" >>"$copy/crates.txt"
    copy_crate "$crate"
done
echo "sled_threads: $crates sled_shared" >>"$copy/crates.txt"

# put SOURCE TARGET: a source of the crate
put() {
    mkdir -p "$(dirname "$copy/crates/sled_threads/$2")"
    cp "$top/bench/threads/$1" "$copy/crates/sled_threads/$2"
}

put main.rt.in src/main.rt
put calls.rt.in src/calls.rt
put make.antt.in proofs/make/Invariants.antt
: >"$copy/crates/sled_threads/proofs/Lib.antt"

# With no calls the program makes its cache and ends.
build_copied sled_threads "$file" ids 1 0
