#!/bin/sh
# Puts what a measurement printed into the pages that it is for:
#
#     bench/measure.sh >tables.md && bench/publish.sh tables.md
#
# A line `<!-- part: NAME PAGE -->` begins a part, which ends at the next one. It takes the place of what the page has between its lines
# `<!-- measured: NAME -->` and `<!-- end: NAME -->`. The files that are named are read one after another. Where one has no part, or a
# page has no place for a part, no page is changed, and the status is 1.
set -eu

[ "${1-}" != --help ] || { sed -n '2,/^[^#]/s/^# \{0,1\}//p' "$0"; exit; }

top=$(CDPATH='' cd -- "$(dirname -- "$(readlink -f -- "$0")")/.." && pwd)
work=$(mktemp -d)
trap 'rm -rf "$work"' EXIT
trap 'exit 1' HUP INT TERM

die() {
    echo "publish.sh: $1" >&2
    exit 1
}

for file in "$@"; do
    grep -q '^<!-- part: ' "$file" || die "$file has no part"
done
[ $# -gt 0 ] || die 'it wants the files that measurements printed'

# $work/parts: a line `NUMBER NAME PAGE` for each part, which is $work/NUMBER
awk -v work="$work" '
    /^<!-- part: / { number++; print number, $3, $4 >(work "/parts"); next }
    number { print >(work "/" number) }
' "$@"

while read -r number name page; do
    new=$work/pages/$page
    mkdir -p "$(dirname "$new")"
    [ -s "$work/$number" ] || die "the part $name of $page is empty"
    [ -f "$new" ] || cp "$top/$page" "$new" || die "there is no page $page"
    awk -v name="$name" -v part="$work/$number" '
        $1 == "<!--" && $2 == "end:" && $3 == name && inside { inside = 0; places++ }
        !inside
        $1 == "<!--" && $2 == "measured:" && $3 == name { inside = 1; while ((getline line <part) > 0) print line }
        END { exit inside || places != 1 }
    ' "$new" >"$work/new" || die "$page has no place for $name"
    mv "$work/new" "$new"
done <"$work/parts"
cp -R "$work/pages/." "$top"
