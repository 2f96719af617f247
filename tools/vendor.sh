#!/bin/sh
# Copies libraries of this repository, with those below them, into a Rattle repository of your own: their sources, contracts and proofs, their
# lines of crates.txt, and the file HANDLES where there is none. A crate there can name them then.
#
#     tools/vendor.sh REPOSITORY [CRATE..]
#
# CRATE is sled_pagecache if none is given; sled_tree has the ordered maps, and sled_shared the cache for threads. A crate that is there and has
# the same files is left as it is, so a second call changes nothing. Where one differs nothing is copied, and its name is told.
#
# The status is 0 where all of them are there, and else 1 with a line that says why.
set -eu

top=$(CDPATH='' cd -- "$(dirname -- "$0")/.." && pwd)
fail() {
    echo "vendor.sh: $1" >&2
    exit 1
}
[ "$#" -ge 1 ] || fail 'it takes a repository, and names of crates'
[ -d "$1" ] || fail "there is no folder $1"
to=$(CDPATH='' cd -- "$1" && pwd)
shift
[ "$to" != "$top" ] || fail 'that is this repository'
[ -e "$to/.git" ] || fail "$to is the top of no repository: git init makes it one"
[ "$#" -gt 0 ] || set -- sled_pagecache

for crate; do
    grep -q "^$crate:" "$top/crates.txt" || fail "there is no library $crate"
done
crates=$(for crate; do "$top/tools/sum.sh" --crates "$crate"; done | awk '!seen[$0]++')

# The parts of a crate that a proof reads.
parts() {
    for part in src specs proofs; do
        [ ! -d "$top/crates/$1/$part" ] || echo "$part"
    done
}

differs() {
    for part in $(parts "$1"); do
        diff -rq "$top/crates/$1/$part" "$to/crates/$1/$part" >/dev/null 2>&1 || return 0
    done
    return 1
}

for crate in $crates; do
    [ ! -e "$to/crates/$crate" ] || ! differs "$crate" || fail "$to/crates/$crate has other files: nothing was copied"
done
for crate in $crates; do
    if [ ! -e "$to/crates/$crate" ]; then
        mkdir -p "$to/crates/$crate"
        for part in $(parts "$crate"); do
            cp -R "$top/crates/$crate/$part" "$to/crates/$crate/$part"
        done
    fi
    [ -f "$to/crates.txt" ] && grep -q "^$crate:" "$to/crates.txt" || grep "^$crate:" "$top/crates.txt" >>"$to/crates.txt"
done
[ -e "$to/HANDLES" ] || cp "$top/HANDLES" "$to/HANDLES"
# shellcheck disable=SC2086 # several crates
echo "vendor.sh: $to/crates has" $crates
