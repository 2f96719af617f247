#!/bin/sh
# Makes the sessions of README's section 'From Rust, C and Python', word for word, and compares what they print with what stands there.
# What a session needs and isn't there is said. The status is 0 where nothing differs, and else 1.
set -eu

top=$(CDPATH='' cd -- "$(dirname -- "$0")/.." && pwd)
cd "$top"
work=$(mktemp -d)
# the file of these programs
trap 'rm -rf "$work" fruit.db' EXIT
trap 'exit 1' HUP INT PIPE TERM
[ ! -e fruit.db ] || { echo 'readme.sh: there is a file fruit.db, which the programs of the README make'; exit 1; }
status=0

# NUMBER.command for each command, and NUMBER.replies for what is below it
awk -v work="$work" '
    /^## / { inside = $0 == "## From Rust, C and Python" }
    !inside { next }
    /^```/ { is_block = !is_block; is_session = is_block && $0 == "```"; next }
    is_session && /^\$ / {
        count++
        printf "" > sprintf("%s/%02d.replies", work, count)
        print substr($0, 3) > sprintf("%s/%02d.command", work, count)
        next
    }
    is_session { print > sprintf("%s/%02d.replies", work, count) }
' README.md

for command in "$work"/*.command; do
    text=$(cat "$command")
    tool=${text%% *}
    case $text in
    PYTHONPATH=*) tool=python3 ;;
    esac
    if ! command -v "$tool" >/dev/null; then
        echo "readme.sh: left out, since $tool isn't there: $text"
    elif ! sh -c "$text" >"$work/printed" 2>"$work/faults" || ! diff "${command%.command}.replies" "$work/printed" >"$work/diff"; then
        echo "readme.sh: '$text' prints otherwise:"
        cat "$work/printed" "$work/faults"
        status=1
    fi
done
exit $status
