#!/bin/sh
# Measures `dilluvas` beside other stores of keys and values under the same scripts, in memory and over a file with syncs, and prints the
# tables of docs/BENCHMARKS.md's section 'Ordered maps' and of bench/results/maps.md, which publish.sh puts there:
#
#     bench/measure_maps.sh >maps_tables.md && bench/publish.sh maps_tables.md
#
# Each program runs each script RUNS times (5), and every reply of each run is compared with the plain map's. A program that fails, or
# replies otherwise, ends all with a message. It needs g++ and awk; a store whose package is missing is left out, and named as that.
# COUNTS is how many keys the scripts have (`10000 100000`), SIZES how many bytes a key and a value have (`8/8 8/100 16/8 16/100`), FOLDER a
# folder on a disk (/var/tmp), PROGRAM a binary to measure in place of this checkout's, PROGRAMS which of `dilluvas plain_map lmdb lmdb_each
# sqlite rocksdb` run, in order, KINDS which of `random rising gets scans removals filled flushes_1 flushes_100 flushes_10000`, and CHART where
# the chart goes (docs/maps.svg), which has inserts, gets and scans with the greatest of COUNTS and the first of SIZES.
set -eu

[ "${1-}" != --help ] || { sed -n '2,/^[^#]/s/^# \{0,1\}//p' "$0"; exit; }

top=$(CDPATH='' cd -- "$(dirname -- "$(readlink -f -- "$0")")/.." && pwd)
counts=${COUNTS:-10000 100000}
sizes=${SIZES:-8/8 8/100 16/8 16/100}
kinds=${KINDS:-random rising gets scans removals filled flushes_1 flushes_100 flushes_10000}
folder=${FOLDER:-/var/tmp}
count=$counts
chart=${CHART:-$top/docs/maps.svg}
. "$top/bench/shared.sh"
. "$bench/maps/scripts.sh"
program=${PROGRAM:-$top/crates/dilluvas/out/dilluvas}

# In memory, over files which the program itself removes; or over a new store on the disk, whose bytes are counted behind the run.
start() {
    name=$1 script=$2 input=$3 place=:memory:
    ! is_over_file "$script" || place=$store
    case $name in
    dilluvas) set -- "$program" "$place" ;;
    *) set -- "$work/$name" ;;
    esac
    set -- "$work/timed" "$input" "$work/out" "$work/report" "$@"
    if [ "$place" = :memory: ]; then
        TMPDIR=$work "$@"
    else
        rm -rf "$store"
        SYNC=1 KEEP=$store "$@" && echo "bytes $script $name $(bytes_of "$store")" >>"$work/results"
    fi
}

# bytes_of FILE: how many bytes the file has on the disk, or all files of the folder: of one with reserved room only up to its end
bytes_of() {
    find "$1" -type f -printf '%s %b\n' | awk '{ taken = $2 * 512; sum += $1 < taken ? $1 : taken } END { printf "%.0f\n", sum }'
}

# The plain map keeps nothing, so it has no figures over a file.
can_run() {
    [ "$1" != plain_map ] || ! is_over_file "$2"
}

build_program() {
    # The first use builds it.
    [ -n "${PROGRAM:-}" ] || "$top/dilluvas" :memory: </dev/null
}

# chosen: the lines of standard input whose script is of one of the kinds
chosen() {
    while read -r listed rest; do
        case " $kinds " in
        *" ${listed%%-*} "*) echo "$listed $rest" ;;
        esac
    done
}

# both LIST OTHER: the words of the first list that are in the other too
both() {
    for word in $1; do
        ! echo "$2" | tr ' ' '\n' | grep -qx "$word" || printf '%s ' "$word"
    done
}

# The chart: of the greatest count and the first size, if `dilluvas` and one of its scripts ran.
draw_maps() {
    most=$(echo "$counts" | tr ' ' '\n' | sort -n | tail -n 1)
    cells=$most-$(echo "${sizes%% *}" | tr / -)
    drawn=$(both "random-$cells gets-$cells scans-$cells" "$(cut -d ' ' -f 1 "$list")")
    shown=$(both 'dilluvas lmdb sqlite rocksdb' "$programs")
    case $shown-$drawn in
    dilluvas*-?*) draw_chart "$chart" "$drawn" "$shown" each ;;
    esac
}

need g++ awk find
[ -d /dev/shm ] || die 'it needs /dev/shm, where all files are in memory'
[ -d "$folder" ] || die "there is no folder $folder, which FOLDER names"
work_in /dev/shm
disk=$(mktemp -d "$folder/measure-XXXXXX") || die "no folder can be made in $folder"
trap 'rm -rf "$work" "$disk"' EXIT
store=$disk/store
list=$work/list
{ list_scripts && list_over_file; } | chosen >"$list"
build_peers maps
programs=${PROGRAMS:-dilluvas $peers}
case " $programs " in
*" dilluvas "*) build_program ;;
esac

check_examples "$bench/maps/examples"
measure_listed

print_machine | sed 's/COUNT=/COUNTS=/' >"$work/machine"
echo "Files on $(df -PT "$folder" | awk 'NR == 2 { print $2, $1 }'), below $folder." >>"$work/machine"
part maps docs/BENCHMARKS.md
draw maps/tables.awk page
part maps bench/results/maps.md
draw maps/tables.awk others
draw_maps
