#!/bin/sh
# Measures threads that share a cache beside threads that share other stores, and prints the table of docs/BENCHMARKS.md's section
# 'Threads' and those of bench/results/threads.md, which publish.sh puts there:
#
#     bench/measure_threads.sh >threads_tables.md && bench/publish.sh threads_tables.md
#
# COUNT is how many calls the threads of a run make together (1,000,000). The program of our calls is proved and built for it, unless
# CALLS gives the binary of an earlier time (`bench/threads_program.sh FILE` makes one). RUNS is as in measure.sh. Each program tells how
# many calls it made, and fails where one was answered otherwise than it should be; either ends all with a message.
set -eu

[ "${1-}" != --help ] || { sed -n '2,/^[^#]/s/^# \{0,1\}//p' "$0"; exit; }

top=$(CDPATH='' cd -- "$(dirname -- "$(readlink -f -- "$0")")/.." && pwd)
count=${COUNT:-1000000}
list=$top/bench/threads.list
. "$top/bench/shared.sh"

# A name of the list is its work and how many threads do it; that of its setup begins with `no_`, and they make no call there.
threads_of() {
    echo "${1##*_}"
}

calls_of() {
    case $1 in
    no_*) echo 0 ;;
    *) echo $((count / $(threads_of "$1"))) ;;
    esac
}

# Over files in memory, which the program itself removes.
start() {
    name=$1 threads=$(threads_of "$2") each_calls=$(calls_of "$2") input=$3
    kind=${2#no_}
    kind=${kind%_*}
    case $name in
    shared) set -- "$calls" "$kind" "$threads" "$each_calls" ;;
    plain) set -- "$calls" "plain_$kind" "$each_calls" ;;
    *) set -- "$work/$name" "$kind" "$threads" "$each_calls" ;;
    esac
    TMPDIR=$work "$work/timed" "$input" "$work/out" "$work/report" "$@"
}

# The cache that isn't shared has one thread.
can_run() {
    case $1-$2 in
    plain-*_1) ;;
    plain-*) return 1 ;;
    esac
}

# measure_calls NAME SETUP: all programs in turn do the work, RUNS times
measure_calls() {
    say "$1"
    made=$(($(calls_of "$1") * $(threads_of "$1")))
    echo "script $1 $2 $made" >>"$work/results"
    echo "$made calls" >"$work/want"
    run_all "$1"
}

need g++ awk
[ -d /dev/shm ] || die 'it needs /dev/shm, where all files are in memory'
work_in /dev/shm
: >"$work/input"
build_peers threads
calls=${CALLS:-$work/calls}
[ -n "${CALLS:-}" ] || "$bench/threads_program.sh" "$calls"
programs="shared plain $peers"

while read -r listed setup_of_listed _; do
    measure_calls "$setup_of_listed" nothing
    measure_calls "$listed" "$setup_of_listed"
done <"$list"

print_machine >"$work/machine"
part threads docs/BENCHMARKS.md
draw threads_tables.awk page
part threads bench/results/threads.md
draw threads_tables.awk others
