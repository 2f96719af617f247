#!/bin/sh
# Measures `sledpc file` beside other stores on a disk, with their syncs on, and prints the table of docs/BENCHMARKS.md's section
# 'Over a file' and those of bench/results/file.md, which publish.sh puts there:
#
#     bench/measure_file.sh >file_tables.md && bench/publish.sh file_tables.md
#
# FOLDER is a folder on the disk (/var/tmp). Everything is made in a new folder there, which goes at the end. COUNT is about how many
# lines most scripts have (30,000), and PROGRAMS which of `sledpc lmdb sqlite leveldb rocksdb` run, in order. RUNS and PROGRAM are as in
# measure.sh, and so is how replies are compared and what ends all. Syncs are counted in one more run of each, where strace is there.
set -eu

[ "${1-}" != --help ] || { sed -n '2,/^[^#]/s/^# \{0,1\}//p' "$0"; exit; }

top=$(CDPATH='' cd -- "$(dirname -- "$(readlink -f -- "$0")")/.." && pwd)
count=${COUNT:-30000}
list=$top/bench/file.list
. "$top/bench/shared.sh"
folder=${FOLDER:-/var/tmp}
syncs=fsync,fdatasync,msync,sync_file_range

# Over a new store, or over a copy of the one that was kept for a reopening. The copy is on the disk before the program begins.
start() {
    name=$1 interval=$(interval_of "$2") input=$3 store=$work/store
    rm -rf "$store"
    case $2 in
    reopened_*) cp -R "$work/kept/$name" "$store" && sync ;;
    esac
    case $name in
    sledpc) set -- "$program" file "$store" ;;
    *) set -- "$work/$name" ;;
    esac
    set -- "$work/timed" "$input" "$work/out" "$work/report" "$@"
    [ "$is_traced" = no ] || set -- strace -f -c -e "trace=$syncs" -o "$work/trace" "$@"
    INTERVAL=$interval SYNC=1 KEEP=$store "$@"
}

# The file system of the folder: its type and its device.
file_system() {
    df -PT "$folder" | awk 'NR == 2 { print $2, $1 }'
}

check_folder() {
    [ -d "$folder" ] || die "there is no folder $folder, which FOLDER names"
    case $(file_system) in
    tmpfs\ * | ramfs\ * | *\ /dev/ram* | *\ /dev/zram*) die "$folder is in memory ($(file_system)); FOLDER has to be on a disk" ;;
    esac
}

can_trace() {
    command -v strace >/dev/null && strace -f -c -o "$work/trace" true 2>"$work/faults"
}

# count_syncs SCRIPT: runs all programs once more on $work/input, and puts how often each synced into $work/results, and how many lines
# of the script have to be durable when they are answered.
count_syncs() {
    [ "$traces" = yes ] && ! grep -q "^flushes $1 " "$work/results" || return 0
    is_traced=yes
    for each in $programs; do
        can_run "$each" "$1" || continue
        run_once "$each" "$1" "$work/input"
        echo "syncs $1 $each $(awk -v names="$syncs" 'index("," names ",", "," $NF ",") { n += $4 } END { print n + 0 }' "$work/trace")" >>"$work/results"
    done
    is_traced=no
    echo "flushes $1 $(flushes_in "$1" <"$work/lines")" >>"$work/results"
}

# flushes_in SCRIPT: how many lines of standard input are `flush`, or an `id` that puts the counter
flushes_in() {
    awk -v interval="$(interval_of "$1")" '
        $0 == "flush" { n++ }
        $0 == "id" && ids++ % interval == 0 && ids > 1 { n++ }
        END { print n + 0 }
    '
}

# reopen SCRIPT SETUP: each program makes a store by the setup, and then runs the script over copies of it
reopen() {
    say "$1"
    mkdir -p "$work/kept"
    whole_script "$2" >"$work/input"
    want "$2"
    for each in $programs; do
        run_once "$each" "$2" "$work/input"
        rm -rf "$work/kept/$each"
        mv "$work/store" "$work/kept/$each" || die "$each kept nothing of the script $2"
        echo "kept $1 $each $(du -sk "$work/kept/$each" | cut -f 1)" >>"$work/results"
    done
    script_lines "$1" >"$work/lines"
    cat "$work/lines" >>"$work/input"
    want "$1"
    tail -n "$(wc -l <"$work/lines")" "$work/want" >"$work/last"
    mv "$work/last" "$work/want"
    cp "$work/lines" "$work/input"
    echo "script $1 nothing $(wc -l <"$work/lines")" >>"$work/results"
    run_all "$1"
    count_syncs "$1"
}

# How many milliseconds a write of half a kilobyte takes with its sync: the least of five means, of 200 writes each.
sync_time() {
    for probe in 1 2 3 4 5; do
        dd if=/dev/zero of="$work/probe$probe" bs=512 count=200 oflag=dsync 2>&1 |
            awk '/copied/ { for (i = 2; i <= NF; i++) if ($i == "s,") printf "%.3f\n", $(i - 1) / 200 * 1000 }'
    done | sort -n | head -n 1
}

check_folder
need g++ awk df dd
work_in "$folder"
is_traced=no traces=no
if can_trace; then traces=yes; fi
build_peers
programs=${PROGRAMS:-sledpc $(echo "$peers" | sed 's/plain_map //')}
case " $programs " in
*" sledpc "*) build_program ;;
esac

check_examples
while read -r listed setup_of_listed _; do
    case $listed in
    reopened_*) reopen "$listed" "$setup_of_listed" ;;
    *)
        for each_script in nothing "$setup_of_listed"; do
            measure "$each_script" nothing
            count_syncs "$each_script"
        done
        measure "$listed" "$setup_of_listed"
        count_syncs "$listed"
        ;;
    esac
done <"$list"

print_machine strace >"$work/machine"
echo "Files on $(file_system), below $folder, where a synced write of 512 bytes takes $(sync_time) ms." >>"$work/machine"
part file docs/BENCHMARKS.md
draw file_tables.awk page
part file bench/results/file.md
draw file_tables.awk others
