#!/bin/sh
# Measures `sledpc mem` beside other stores under the same scripts, and prints the tables of docs/BENCHMARKS.md and of
# bench/results/memory.md, which publish.sh puts there:
#
#     bench/measure.sh >tables.md && bench/publish.sh tables.md
#
# Each program runs each script RUNS times (5), and every reply of each run is compared with the plain map's. A program that fails, or
# replies otherwise, ends all with a message. It needs g++ and awk; a store whose package is missing is left out, and named as that.
# COUNT is about how many lines most scripts have (300,000), PROGRAM a binary to measure in place of this checkout's, LONG one whose
# interval of ids is 1,000 in place of 10 (without it one is built), and CHART where the chart goes (docs/benchmarks.svg).
set -eu

[ "${1-}" != --help ] || { sed -n '2,/^[^#]/s/^# \{0,1\}//p' "$0"; exit; }

top=$(CDPATH='' cd -- "$(dirname -- "$(readlink -f -- "$0")")/.." && pwd)
count=${COUNT:-300000}
list=$top/bench/memory.list
. "$top/bench/shared.sh"
chart=${CHART:-$top/docs/benchmarks.svg}

# Over files in memory, which the program itself removes.
start() {
    name=$1 interval=$(interval_of "$2") input=$3
    case $name-$interval in
    sledpc-10) set -- "$program" mem ;;
    sledpc-*) set -- "$long" mem ;;
    *) set -- "$work/$name" ;;
    esac
    INTERVAL=$interval TMPDIR=$work "$work/timed" "$input" "$work/out" "$work/report" "$@"
}

need g++ awk
[ -d /dev/shm ] || die 'it needs /dev/shm, where all files are in memory'
work_in /dev/shm
build_peers
build_program
programs="sledpc $peers"
long=${LONG:-$work/long}
[ -n "${LONG:-}" ] || "$bench/with_interval.sh" 1000 "$long"

check_examples
measure nothing nothing
measure_listed

print_machine >"$work/machine"
part memory docs/BENCHMARKS.md
draw memory_tables.awk page
part memory bench/results/memory.md
draw memory_tables.awk others
draw_chart "$chart" 'gets links_1000 pairs_1000000 large_1000 flushes_10' "$programs" one
