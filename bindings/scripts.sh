#!/bin/sh
# Runs scripts (docs/SCRIPT.md) through the programs that answer them by the library, in C, Rust and Python, and through `sledpc`,
# over a log in memory and over a file, and compares the replies byte for byte: those of bench/examples and of the gate's run of `sledpc`,
# and random ones (scripts.awk). It takes the programs that check.sh and `rt run` have built, and leaves out those that aren't there.
#
#     bindings/scripts.sh [SEED [COUNT]]
#
# From SEED on (1) each of COUNT seeds (20) makes a script of 300 lines over a log in memory, and one over a file. `bindings/scripts.sh 1
# 10000` takes an hour, and with WITHOUT=python a quarter of one. A script over a file comes in two or three parts, each of which opens
# the file again; what a part hasn't flushed is lost, as in a crash. Each program has a file of its own, and the files are compared too.
#
# Left out are lines of two kinds:
#
# - A `cas` that names a root page 0: the library has no call for that, since 0 stands for no root.
# - `gc` over a file, where the library moves no page. `sledpc` moves one as a page is replaced, or linked ten times, which adds a message to
#   the log. So half of the scripts over a file have no such change and end anywhere. The other half have them, and flush at the end of each
#   part; what `sledpc` replies to these is compared without the numbers of `flushed N` and `size N` and the first of `amp N N`, which are of
#   the log, and its file isn't.
#
# With KEEP=1 the files of a difference stay. The status is 0 where nothing differs, and else 1.
set -eu

here=$(CDPATH='' cd -- "$(dirname -- "$0")" && pwd)
top=$(dirname "$here")
out=$here/out
seed=${1:-1}
count=${2:-20}

# The files are in memory where they may: nothing is to outlive the machine here, and syncs would take most of the time.
if [ -z "${TMPDIR-}" ] && [ -w /dev/shm ]; then
    export TMPDIR=/dev/shm
fi
work=$(mktemp -d)
trap '[ -n "${KEEP-}" ] || rm -rf "$work"' EXIT
trap 'exit 1' HUP INT PIPE TERM
cd "$work"

# ---- the programs

# itself, and no wrapper that looks for it each time
python=$(python3 -c 'import sys; print(sys.executable)' 2>/dev/null) || python=

is_there() {
    case $1 in
    "${WITHOUT-}") false ;;
    sledpc) [ -x "$top/crates/sledpc/out/sledpc" ] ;;
    c) [ -x "$out/script" ] ;;
    rust) [ -x "$out/target/debug/examples/script" ] ;;
    python) [ -n "$python" ] ;;
    esac
}

run() {
    program=$1
    shift
    case $program in
    sledpc) "$top/crates/sledpc/out/sledpc" "$@" ;;
    c) "$out/script" "$@" ;;
    rust) "$out/target/debug/examples/script" "$@" ;;
    python) DILLUVAS_SO=$out/libdilluvas.so PYTHONDONTWRITEBYTECODE=1 "$python" "$here/python/script.py" "$@" ;;
    esac
}

# fail WHY: tells it, and what is read, and ends.
fail() {
    echo "scripts: $script: $1"
    cat
    [ -z "${KEEP-}" ] || echo "its files are in $work"
    exit 1
}

# reply PROGRAM FILE WORDS: has a program answer the script in a file.
reply() {
    replies=replies.$1
    program=$1
    file=$2
    shift 2
    run "$program" "$@" <"$file" >"$replies" 2>faults || fail "$program ended with status $?" <faults
}

# ---- comparisons

# Tells the first line of a script at which two files of replies differ.
first_difference() {
    awk '
        FILENAME == ARGV[1] { line[FNR] = $0 }
        FILENAME == ARGV[2] { one[FNR] = $0 }
        FILENAME == ARGV[3] { other[FNR] = $0 }
        END {
            for (i = 1; i in one || i in other; i++) {
                if (i in one && i in other && one[i] "" == other[i] "") continue
                printf "line %d: %.200s\n< %.200s\n> %.200s\n", i, line[i], one[i], other[i]
                exit
            }
        }
    ' "$1" "$2" "$3"
}

# same_replies FILE ONE OTHER
same_replies() {
    cmp -s "$2" "$3" && return
    first_difference "$1" "$2" "$3" >difference
    fail "$2 (<) and $3 (>) differ" <difference
}

same_logs() {
    cmp "$1" "$2" >difference 2>&1 || fail "the files differ" <difference
}

without_numbers() {
    sed 's/^flushed .*/flushed/; s/^size .*/size/; s/^amp [0-9]* /amp /' "$1"
}

# over_memory FILE: what each program replies is what the one in C does.
over_memory() {
    for name in $programs; do
        reply "$name" "$1" mem
        same_replies "$1" replies.c "replies.$name"
    done
}

# over_file FILE MOVES: the same of one part, in which `sledpc` moves pages or moves none.
over_file() {
    for name in $programs; do
        reply "$name" "$1" file "log.$name"
        if [ "$name" = sledpc ] && [ "$2" -eq 1 ]; then
            without_numbers replies.c >masked.c
            without_numbers replies.sledpc >masked.sledpc
            same_replies "$1" masked.c masked.sledpc
        else
            same_replies "$1" replies.c "replies.$name"
            same_logs log.c "log.$name"
        fi
    done
}

# ---- scripts

examples() {
    for script in "$top"/bench/examples/*.script "$top/crates/sledpc/stdin"; do
        grep -v -e '^cas [^ ]* 0 ' -e '^cas [^ ]* [^ ]* 0$' "$script" >example || :
        over_memory example
        rm -f log.*
        over_file example 0
    done
}

# random SEED: the scripts of a seed.
random() {
    moves=$(($1 % 2))
    parts=$((2 + $1 / 2 % 2))
    script="memory.1 of seed $1"
    awk -v seed="$1" -v lines=300 -v parts=1 -v name=memory -v over_file=0 -v moves=1 -f "$here/scripts.awk"
    over_memory memory.1
    awk -v seed="$1" -v lines=300 -v parts="$parts" -v name=file -v over_file=1 -v moves="$moves" -f "$here/scripts.awk"
    rm -f log.*
    part=1
    while [ "$part" -le "$parts" ]; do
        script="file.$part of seed $1"
        over_file "file.$part" "$moves"
        part=$((part + 1))
    done
}

is_there c || { echo "scripts: there is no $out/script, which check.sh builds"; exit 1; }
# the one in C first
programs=
for name in c rust python sledpc; do
    if is_there "$name"; then
        programs="$programs $name"
    else
        echo "scripts: $name isn't compared: it isn't there, or was left out"
    fi
done

examples
last=$((seed + count))
while [ "$seed" -lt "$last" ]; do
    random "$seed"
    seed=$((seed + 1))
done
KEEP=
echo "scripts: passed (the examples and those of $count seeds, by$programs)"
