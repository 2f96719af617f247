#!/bin/sh
# Measures some scripts of measure.sh with more and with fewer lines, and prints the table of bench/results/counts.md, which shows whose cost
# of a line depends on how many there are, and which publish.sh puts there:
#
#     bench/measure_counts.sh >counts_table.md && bench/publish.sh counts_table.md
#
# COUNTS is about how many lines the scripts have (`60000 300000`), and SCRIPTS which of memory.list they are (`absent gets links_1000
# links_10000 links_1000000 sets flushes_10`). Each program runs each script RUNS times (3). PROGRAM is as in measure.sh, and so is how replies
# are compared and what ends all.
set -eu

[ "${1-}" != --help ] || { sed -n '2,/^[^#]/s/^# \{0,1\}//p' "$0"; exit; }

top=$(CDPATH='' cd -- "$(dirname -- "$(readlink -f -- "$0")")/.." && pwd)
counts=${COUNTS:-60000 300000}
scripts=${SCRIPTS:-absent gets links_1000 links_10000 links_1000000 sets flushes_10}
count=$counts
RUNS=${RUNS:-3}
. "$top/bench/shared.sh"

# Over files in memory, which the program itself removes.
start() {
    name=$1 input=$3
    case $name in
    sledpc) set -- "$program" mem ;;
    *) set -- "$work/$name" ;;
    esac
    TMPDIR=$work "$work/timed" "$input" "$work/out" "$work/report" "$@"
}

# list_scripts: the line of each script in memory.list, once for each count, which its name ends with
list_scripts() {
    for script in $scripts; do
        for lines in $counts; do
            grep "^$script " "$bench/memory.list" | sed "s/ /-$lines /" | grep . || die "there is no script $script"
        done
    done
}

need g++ awk
[ -d /dev/shm ] || die 'it needs /dev/shm, where all files are in memory'
work_in /dev/shm
list=$work/list
list_scripts >"$list"
build_peers
build_program
programs="sledpc $peers"

check_examples
measure_listed

print_machine | sed 's/COUNT=/COUNTS=/' >"$work/machine"
part counts bench/results/counts.md
draw counts_tables.awk
