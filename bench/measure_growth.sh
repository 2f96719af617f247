#!/bin/sh
# Counts how many instructions a line takes `sledpc`, `dilluvas` and LMDB as there are more pages or keys, and prints the table of
# docs/BENCHMARKS.md's section 'As the data grows', which publish.sh puts there:
#
#     bench/measure_growth.sh >growth_table.md && bench/publish.sh growth_table.md
#
# Valgrind counts them, and whatever else the machine does changes nothing. All is in memory, and LMDB makes one transaction of all. It needs
# g++, awk, valgrind and liblmdb-dev, and a quarter of an hour. COUNTS is how many pages or keys there are (`1000 10000 100000 1000000`), LINES how
# many lines are counted at most behind the setup of a script (20000), PROGRAM and MAPS are binaries in place of this checkout's `sledpc` and
# `dilluvas`, and CHART is where the chart goes (docs/growth.svg).
set -eu

[ "${1-}" != --help ] || { sed -n '2,/^[^#]/s/^# \{0,1\}//p' "$0"; exit; }

top=$(CDPATH='' cd -- "$(dirname -- "$(readlink -f -- "$0")")/.." && pwd)
counts=${COUNTS:-1000 10000 100000 1000000}
most=${LINES:-20000}
chart=${CHART:-$top/docs/growth.svg}
count=$((3 * most))
sizes=8/8
. "$top/bench/shared.sh"
maps=${MAPS:-$top/crates/dilluvas/out/dilluvas}

# instructions FILE WORD..: those of a program over the lines of a file
instructions() {
    input=$1
    shift
    TMPDIR=$work valgrind --tool=cachegrind --cache-sim=no --cachegrind-out-file=/dev/null "$@" <"$input" 2>"$work/said" >/dev/null ||
        die "$1 failed: $(tail -n 1 "$work/said")"
    sed -n 's/.*I *refs: *//p' "$work/said" | tr -d ,
}

# count_row SCRIPT SETUP NUMBER LMDB WORD..: a line `count ROW NUMBER STORE INSTRUCTIONS` for us and for LMDB, of a line of the script
# without its setup. Of a script with a setup the first lines are counted, since each is about a page or a key drawn at random.
count_row() {
    script=$1 setup=$2 number=$3 lmdb=$4
    shift 4
    say "$script"
    whole_script "$setup" >"$work/setup"
    script_lines "$script" >"$work/lines"
    [ "$setup" = nothing ] || { head -n "$most" "$work/lines" >"$work/first" && mv "$work/first" "$work/lines"; }
    lines=$(wc -l <"$work/lines")
    cat "$work/setup" "$work/lines" >"$work/whole"
    for store in dilluvas lmdb; do
        [ "$store" = dilluvas ] || set -- "$lmdb"
        of_setup=$work/of-$store-$setup
        [ -f "$of_setup" ] || instructions "$work/setup" "$@" >"$of_setup"
        own=$(($(instructions "$work/whole" "$@") - $(cat "$of_setup")))
        echo "count ${script%%[-_]*} $number $store $(((own + lines / 2) / lines))" >>"$work/results"
    done
    rm -f "$work/whole"
}

need g++ awk valgrind
[ -d /dev/shm ] || die 'it needs /dev/shm, where all files are in memory'
work_in /dev/shm
list=$work/list
load_before=$(load)
for kind in script maps; do
    mkdir "$work/$kind"
    "$bench/build.sh" "$work/$kind" "$kind" >"$work/built"
done
[ -x "$work/maps/lmdb" ] || die 'it needs liblmdb-dev'
[ -x "$program" ] && [ -x "$maps" ] || die 'there is no program: build it by tools/build.sh sledpc dilluvas'

for number in $counts; do
    for script in links pairs; do
        setup=nothing
        [ "$script" = pairs ] || setup=pages_$number
        echo "${script}_$number $setup" >"$list"
        echo "$setup nothing" >>"$list"
        count_row "${script}_$number" "$setup" "$number" "$work/script/lmdb" "$program" mem
    done
done
. "$bench/maps/scripts.sh"
for number in $counts; do
    for script in random gets scans; do
        each=$script-$number-8-8
        count_row "$each" "$(setup_of "$each")" "$number" "$work/maps/lmdb" "$maps" :memory:
    done
done

echo "<!-- part: growth docs/BENCHMARKS.md -->"
echo "Counted on $(date +%Y-%m-%d): $(valgrind --version); LMDB $(dpkg-query -W -f '${Version}' liblmdb-dev 2>/dev/null || echo of an unknown version)."
echo
awk -f "$bench/growth.awk" -v part=table -v counts="$counts" "$work/results"
awk -f "$bench/growth.awk" -v part=chart -v counts="$counts" "$work/results" >"$work/chart"
mv "$work/chart" "$chart"
