#!/bin/sh
# Prints a sum of what a crate is made of: the sources of the crate and of those below it (src, specs and proofs), and their lines of
# crates.txt. It tells contents and names alone, so neither the times of the files nor the place of the checkout change it.
#
#     tools/sum.sh CRATE
#     tools/sum.sh --crates CRATE
#
# With --crates it prints the names of these crates instead, in the order of crates.txt. The status is 0, or else 1 where crates.txt has no
# such crate or a source can't be read.
set -eu

cd "$(CDPATH='' cd -- "$(dirname -- "$0")/.." && pwd)"
only_names=
[ "${1-}" != --crates ] || { only_names=1; shift; }
crate=$1

# The line of each of these crates, without its comment.
lines=$(awk -v crate="$crate" '
    { sub(/#.*/, "") }
    NF { name = $1; sub(/:.*/, "", name); order[++count] = name; line[name] = $0 }
    function walk(name, used, i, at) {
        if (!(name in line) || name in seen) return
        seen[name] = 1
        at = line[name]
        sub(/^[^:]*:?/, "", at)
        for (i = split(at, used, /[ \t,]+/); i > 0; i--) walk(used[i])
    }
    END { walk(crate); for (i = 1; i <= count; i++) if (order[i] in seen) print line[order[i]] }
' crates.txt)
[ -n "$lines" ] || { echo "sum.sh: crates.txt has no crate $crate" >&2; exit 1; }
names=$(printf '%s\n' "$lines" | sed 's/[ :].*//')
if [ -n "$only_names" ]; then
    printf '%s\n' "$names"
    exit
fi

cd crates
folders=
for name in $names; do
    for part in src specs proofs; do
        [ ! -d "$name/$part" ] || folders="$folders $name/$part"
    done
done
# shellcheck disable=SC2086 # several folders
sums=$(find $folders -type f -exec sha256sum {} +)
{ printf '%s\n' "$lines"; printf '%s\n' "$sums" | LC_ALL=C sort; } | sha256sum | cut -d ' ' -f 1
