#!/bin/sh
# Prints what a run of `rt ci` proved: the commit, the toolchain's line, and of each crate the sum of its sources (tools/sum.sh) and the last
# line of its proof. Of one that `rt ci` took from an earlier run on the machine, by the sums of all that the proof reads, it has what that says.
#
#     tools/proved.sh FILE
#
# FILE has what `rt ci` said. The status is 0, or else 1 where a crate of crates.txt has no such line.
set -eu

said=$(readlink -f -- "$1")
cd "$(CDPATH='' cd -- "$(dirname -- "$0")/.." && pwd)"
commit=$(git rev-parse HEAD 2>/dev/null || echo unknown)
[ -z "$(git status --porcelain --untracked-files=no 2>/dev/null)" ] || commit="$commit with changes"
echo "commit $commit"
echo "toolchain $(tools/built.sh toolchain)"
sed 's/[ :#].*//' crates.txt | while read -r crate; do
    [ -n "$crate" ] || continue
    # a crate of tests alone has its line under them
    line=$(awk -v name="$crate" '
        index($0, "rt: " name " is kept: ") == 1 { line = substr($0, length("rt: " name " is ") + 1) }
        /^== / { inside = $2 == name || $2 == name ":"; own = $2 == name }
        inside && /^logic=proved / { if (own) line = $0; else if (line == "") line = $0 }
        END { print line }
    ' "$said")
    [ -n "$line" ] || { echo "proved.sh: $crate has no line of its proof" >&2; exit 1; }
    echo "$crate sources=$(tools/sum.sh "$crate") $line"
done
