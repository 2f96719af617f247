#!/bin/sh
# Compares the sessions of docs/KEYS.md and README with the tests of `dilluvas`, word for word, and prints what differs. Of README it takes those
# that begin with this program, without what tools/run.sh says of it.
#
# Over maps in memory a session is a row of crates/sled_keys_tests/src/tests/scripts.rt; over a file the runs of a block are the first rows of a test
# of crates/sled_keys_tests/src/tests/files.rt, one after another. The status is 0 where nothing differs, and else 1.
set -eu

cd "$(CDPATH='' cd -- "$(dirname -- "$0")/.." && pwd)"
tests=crates/sled_keys_tests/src/tests
work=$(mktemp -d)
trap 'rm -rf "$work"' EXIT
trap 'exit 1' HUP INT PIPE TERM

# The rows of a file of tests on one line, as ("..","..") without what is between them.
rows_of() {
    awk '
        { sub(/^ */, "") }
        /^\/\// { next }
        { rows = rows $0 }
        END { gsub(/", "/, "\",\"", rows); gsub(/",\)/, "\")", rows); gsub(/\), \(/, "),(", rows); print rows }
    ' "$tests/$1.rt"
}

# The sessions of a page, a line each: where it stands, the program's word, and the row. Those over one file in a block are one.
sessions() {
    awk -v page="$1" '
        function end_run() {
            if (word == "") return
            row = "(\"" asked "\",\"" wanted "\")"
            if (word == ":memory:") print place "\t" row
            else if (word == file) rows = rows "," row
            else { end_file(); file = word; at = place; rows = row }
            word = ""
        }
        function end_file() { if (file != "") print at "\t&[" rows; file = "" }
        /^```/ { inside = !inside; other = 0; end_run(); end_file(); next }
        !inside { next }
        /^\$ / {
            end_run()
            text = $0
            place = page ":" FNR
            other = text !~ /^\$ printf \047.*\047 \| \.\/dilluvas [^ ]+$/
            if (other && page != "README.md") print place "\tnothing is known of the command " text
            if (other) next
            sub(/^\$ printf \047/, "", text)
            word = text
            sub(/.* /, "", word)
            sub(/\047 \| \.\/dilluvas [^ ]+$/, "", text)
            asked = text
            wanted = ""
            next
        }
        other || /^dilluvas: / { next }
        word == "" && page == "README.md" { next }
        word == "" { print page ":" FNR "\ta session begins with no command"; next }
        { gsub(/\\/, "&&"); wanted = wanted $0 "\\n" }
        END { end_run(); end_file() }
    ' "$1"
}

{ rows_of scripts; rows_of files; } >"$work/rows"
for page in docs/KEYS.md README.md; do
    sessions "$page" >"$work/of_page"
    [ -s "$work/of_page" ] || echo "$page: it has no session of dilluvas" >>"$work/differ"
    cat "$work/of_page" >>"$work/sessions"
done
while IFS='	' read -r place row; do
    grep -qF -- "$row" "$work/rows" || printf '%s: no test has this row: %s\n' "$place" "$row"
done <"$work/sessions" >>"$work/differ"
cat "$work/differ"
[ ! -s "$work/differ" ]
