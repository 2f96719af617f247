#!/bin/sh
# Compares the man page of the command, docs/dilluvas.1, with the sources of the command, and prints what differs:
#
# - each command with its words, in the order of the text that `dilluvas --help` writes (HELP in bindings/rust/src/bin/dilluvas/words.rs);
# - each option that the same file reads;
# - each exit status of that text.
#
# Where there is a mandoc, it has no warning and no error of the page. The status is 0 where nothing differs, and else 1.
#
#     tools/man.sh [PAGE]
set -eu

page=$(readlink -f -- "${1:-$(dirname -- "$0")/../docs/dilluvas.1}")
cd "$(CDPATH='' cd -- "$(dirname -- "$0")/.." && pwd)"
words=bindings/rust/src/bin/dilluvas/words.rs
work=$(mktemp -d)
trap 'rm -rf "$work"' EXIT
trap 'exit 1' HUP INT PIPE TERM
status=0

# Compares what the page has (<) with what the source has (>): $1 says what it is.
compare() {
    [ -s "$work/source" ] || echo "no $1 is found in $words" >>"$work/source"
    diff "$work/page" "$work/source" >"$work/diff" && return
    echo "docs/dilluvas.1: its $1 (<) differ from those of $words (>):"
    cat "$work/diff"
    status=1
}

# The tags of the page's lists whose first macro is $1, as plain text: `.It Cm dump Op Ar MAP` is `dump [MAP]`.
tags() {
    awk -v wanted="$1" '
        $1 != ".It" || $2 != wanted { next }
        {
            text = ""; closing = ""
            for (i = 3; i <= NF; i++) {
                if ($i == "Ar" || $i == "Fl" || $i == ",") continue
                if ($i == "Oc") text = text "]"
                else if ($i == "Oo" || $i == "Op") { text = text " ["; closing = closing ($i == "Op" ? "]" : "") }
                else text = text (text == "" || text ~ /\[$/ ? "" : " ") $i
            }
            print text closing
        }
    ' "$page"
}

# The lines of the text of `--help`.
help_text() {
    sed -n '/^pub const HELP/,/^";/p' "$words"
}

compare_commands() {
    tags Cm >"$work/page"
    help_text | sed -n 's/^  \([a-z][a-z]* *[][A-Z ]*\)  .*/\1/p' | sed 's/ *$//' >"$work/source"
    compare commands
}

compare_options() {
    tags Fl | tr ' ' '\n' | sed 's/^/-/' | LC_ALL=C sort >"$work/page"
    grep -o 'b"-[-a-zA-Z]*"' "$words" | sed 's/^b"//; s/"$//' | grep -vx -- - | LC_ALL=C sort -u >"$work/source"
    compare options
}

compare_statuses() {
    sed -n '/^\.Sh EXIT STATUS/,/^\.El/ s/^\.It \([0-9]\)$/\1/p' "$page" >"$work/page"
    help_text | sed -n '/^exit status/,$p' | tr ':;' '\n\n' | sed -n 's/^ *\([0-9]\) .*/\1/p' >"$work/source"
    compare 'exit statuses'
}

compare_commands
compare_options
compare_statuses
if command -v mandoc >/dev/null; then
    mandoc -T lint -W warning "$page" || status=1
fi
exit $status
