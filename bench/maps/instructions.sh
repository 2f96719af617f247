#!/bin/sh
# Prints how many instructions a line of each script of maps takes a program, by valgrind, without those of its setup: a table, of `dilluvas`
# or of a store that `bench/build.sh FOLDER maps` built, which are steadier than times.
#
#     bench/maps/instructions.sh crates/dilluvas/out/dilluvas :memory:
#     bench/maps/instructions.sh /tmp/bench/lmdb
#
# COUNT is how many keys there are (100,000), SIZE how many bytes a key and a value have (8/8), and KINDS which of `random rising gets scans
# removals`. KEEP=FOLDER leaves there what callgrind_annotate reads, a file callgrind.KIND for each, and one for the setup.
set -eu
export LC_ALL=C

[ "${1-}" != --help ] || { sed -n '2,/^[^#]/s/^# \{0,1\}//p' "$0"; exit; }

bench=$(CDPATH='' cd -- "$(dirname -- "$(readlink -f -- "$0")")/.." && pwd)
counts=${COUNT:-100000}
sizes=${SIZE:-8/8}
kinds=${KINDS:-random rising gets scans removals}

die() {
    echo "instructions.sh: $1" >&2
    exit 1
}

. "$bench/scripts.sh"
. "$bench/maps/scripts.sh"

[ $# -gt 0 ] || die 'it wants a program, and its words'
for tool in valgrind awk; do
    command -v "$tool" >/dev/null || die "it needs $tool"
done
work=$(mktemp -d /dev/shm/instructions-XXXXXX)
trap 'rm -rf "$work"' EXIT
trap 'exit 1' HUP INT TERM
kept=${KEEP:-$work}
unset KEEP
list_scripts >"$work/list"

# instructions SCRIPT WORD..: those of the program over the whole script, which is run once
instructions() {
    script=$1
    shift
    if [ ! -f "$work/of_$script" ]; then
        whole_script "$script" >"$work/input"
        TMPDIR=$work valgrind --tool=callgrind --callgrind-out-file="$kept/callgrind.${script%%-*}" "$@" <"$work/input" 2>"$work/said" >"$work/out" ||
            die "the program failed at the script $script: $(tail -n 1 "$work/said")"
        sed -n 's/.*Collected : \([0-9]*\).*/\1/p' "$work/said" >"$work/of_$script"
    fi
    cat "$work/of_$script"
}

echo '| script | keys | bytes of a key | of a value | instructions a line |'
echo '|---|---|---|---|---|'
while read -r listed setup title; do
    case " $kinds " in
    *" ${listed%%-*} "*) ;;
    *) continue ;;
    esac
    whole=$(instructions "$listed" "$@")
    before=$(instructions "$setup" "$@")
    lines=$(script_lines "$listed" | wc -l)
    echo "| $title | $(awk -v own="$((whole - before))" -v lines="$lines" 'BEGIN { printf "%.0f", own / lines }') |"
done <"$work/list"
