#!/bin/sh
# with_interval.sh INTERVAL FILE: proves and builds the program with this interval of ids in place of 10, and puts the binary into the
# file. It is a copy of this checkout's sources in which two numbers differ, so what was proved here serves it.
set -eu

top=$(CDPATH='' cd -- "$(dirname -- "$(readlink -f -- "$0")")/.." && pwd)
interval=$1 file=$2
. "$top/bench/copied.sh"

# put_interval FILE FRONT: the number after the front is the interval
put_interval() {
    grep -q "$2"'10\>' "$1" || {
        echo "with_interval.sh: $1 has no interval of 10" >&2
        exit 1
    }
    sed -i "s/$2"'10\>'"/$2$interval/" "$1"
}

cp "$top/crates.txt" "$top/HANDLES" "$copy"
for crate in "$top"/crates/*; do
    copy_crate "${crate##*/}"
done
put_interval "$copy/crates/sled_script/src/program.rt" 'idgen_persist_interval: '
put_interval "$copy/crates/sled_script/specs/Settings.antt" 'idgen_persist_interval = '

# Over an empty script the program does nothing.
build_copied sledpc "$file" mem
