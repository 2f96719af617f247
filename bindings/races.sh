#!/bin/sh
# Runs processes over one path at the same time, which open its file or make it, and rewrite it, and looks whether a page is lost that one said
# is flushed (c/races.c). `sledpc` is among them where it was built.
#
#     bindings/races.sh [one|both|SECONDS [SEED]]
#
# Two run, of which one stops before each of its calls in turn or is killed there, which takes some seconds; with `both` the other one does so
# too, which takes some minutes. With SECONDS three run for so long, in an order that SEED draws. The status is 0 where no page is lost.
set -eu

here=$(CDPATH='' cd -- "$(dirname -- "$0")" && pwd)
out=$here/out
"$here/build.sh" "$out"
warnings='-std=c11 -Wall -Wextra -Wpedantic -Werror -O2 -g'
# shellcheck disable=SC2086 # options
"${CC:-cc}" $warnings -fPIC -shared -o "$out/delay.so" "$here/c/delay.c" -ldl
# shellcheck disable=SC2086 # options
"${CC:-cc}" $warnings -I"$out" -o "$out/races" "$here/c/races.c" "$out/dilluvas_file.c" "$out/libdilluvas.a"

# The files are in memory where they may: nothing is to outlive the machine here.
if [ -z "${TMPDIR-}" ] && [ -w /dev/shm ]; then
    export TMPDIR=/dev/shm
fi
files=$(mktemp -d)
trap 'rm -rf "$files"' EXIT
trap 'exit 1' HUP INT PIPE TERM
set -- "$files" "${1:-one}" "${2:-1}"
sledpc=$here/../crates/sledpc/out/sledpc
[ ! -x "$sledpc" ] || set -- "$@" "$sledpc"
LD_PRELOAD=$out/delay.so "$out/races" "$@"
