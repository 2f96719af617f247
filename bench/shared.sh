# What measure.sh, measure_counts.sh, measure_file.sh, measure_threads.sh and measure_maps.sh share. Each sets `top`, `count` and `list`, sources this, and then has
#
#     start NAME SCRIPT INPUT    runs the program over the file INPUT with `timed`, from nothing kept; $work/out gets its replies,
#                                and $work/report what `timed` says
#
# $work is the folder of all that is made, and $work/results is what figures.awk reads.
export LC_ALL=C

bench=$top/bench
runs=${RUNS:-5}
program=${PROGRAM:-$top/crates/sledpc/out/sledpc}
. "$bench/scripts.sh"

say() {
    echo "${0##*/}: $1" >&2
}

die() {
    say "$1"
    exit 1
}

# need TOOL..: dies where one isn't there
need() {
    for tool in "$@"; do
        command -v "$tool" >/dev/null || die "it needs $tool"
    done
}

# work_in FOLDER: makes $work there, which goes at the end
work_in() {
    work=$(mktemp -d "$1/measure-XXXXXX") || die "no folder can be made in $1"
    trap 'rm -rf "$work"' EXIT
    trap 'exit 1' HUP INT TERM
    : >"$work/results"
}

# build_peers [threads | maps]: builds the peers into $work. Their names are $peers.
build_peers() {
    load_before=$(load)
    "$bench/build.sh" "$work" "$@" >"$work/built"
    peers=$(grep -v '^left out ' "$work/built" | tr '\n' ' ')
}

# Builds the checkout's program, unless PROGRAM gives another.
build_program() {
    # The first use builds it.
    [ -n "${PROGRAM:-}" ] || "$top/sledpc" mem </dev/null
}

load() {
    cut -d ' ' -f 1-3 /proc/loadavg
}

# without_own SCRIPT: standard input without what is each program's own, which isn't compared: how many bytes a flush wrote and, where a
# store is reopened, the stamps of its pages, which begin at 0 again in `sledpc`
without_own() {
    case $1 in
    reopened_*) sed 's/^leaf [0-9][0-9]*/leaf/' ;;
    *) sed 's/^flushed [0-9][0-9]*$/flushed/' ;;
    esac
}

# want SCRIPT: $work/want gets what the plain map replies to $work/input
want() {
    INTERVAL=$(interval_of "$1") "$work/plain_map" <"$work/input" | without_own "$1" >"$work/want"
}

# The first reply in $work/got that is not the one in $work/want.
first_difference() {
    awk -v want="$work/want" '
        { wanted = "nothing"; getline wanted <want }
        wanted != $0 { found = 1; print "its reply " NR " is `" substr($0, 1, 80) "`, and should be `" substr(wanted, 1, 80) "`"; exit }
        END { if (!found) print "it has " NR " replies, and should have more" }
    ' "$work/got"
}

# compare_replies PROGRAM SCRIPT: dies unless the replies in $work/out are those in $work/want.
compare_replies() {
    without_own "$2" <"$work/out" >"$work/got"
    cmp -s "$work/got" "$work/want" || die "$1 replies otherwise to the script $2: $(first_difference)"
}

# run_once PROGRAM SCRIPT INPUT: runs a program and compares its replies. $work/faults has then what it said.
run_once() {
    status=0
    start "$1" "$2" "$3" 2>"$work/faults" || status=$?
    [ "$status" = 0 ] || die "$1 ended with status $status at the script $2: $(head -n 1 "$work/faults")"
    compare_replies "$1" "$2"
}

# check_examples [FOLDER]: every program replies to these examples (examples) as the page of its script says, docs/SCRIPT.md or docs/KEYS.md.
check_examples() {
    for example in "${1:-$bench/examples}"/*.script; do
        without_own example <"${example%.script}.replies" >"$work/want"
        for name in $programs; do
            run_once "$name" "$(basename "$example")" "$example"
        done
    done
}

# run_all SCRIPT: all programs in turn run $work/input, RUNS times. A line for each run goes to $work/results.
run_all() {
    round=0
    while [ "$round" -lt "$runs" ]; do
        round=$((round + 1))
        for each in $programs; do
            can_run "$each" "$1" || continue
            run_once "$each" "$1" "$work/input"
            echo "run $1 $each $(cat "$work/report") $(awk '/^files / { kb = $2 } END { print kb + 0 }' "$work/faults")" >>"$work/results"
        done
    done
}

# measure SCRIPT SETUP: runs all programs, if that wasn't done. A line `script` goes to $work/results before those of the runs.
measure() {
    ! grep -q "^script $1 " "$work/results" || return 0
    say "$1"
    whole_script "$2" >"$work/input"
    script_lines "$1" >"$work/lines"
    echo "script $1 $2 $(wc -l <"$work/lines")" >>"$work/results"
    cat "$work/lines" >>"$work/input"
    want "$1"
    run_all "$1"
}

# measure_listed: measures each script of the list after its setup
measure_listed() {
    while read -r listed setup_of_listed _; do
        measure "$setup_of_listed" "$(setup_of "$setup_of_listed")"
        measure "$listed" "$setup_of_listed"
    done <"$list"
}

# print_machine [PACKAGE..]: where and when it was measured, and with which packages, these among them
print_machine() {
    echo "Measured on $(date +%Y-%m-%d): $(sed -n 's/^model name[^:]*: //p' /proc/cpuinfo | head -n 1)," \
        "$(grep -c '^processor' /proc/cpuinfo) processors, Linux $(uname -r), load average $load_before at the start and $(load) at the end;" \
        "COUNT=$count, $runs runs of each script by each program."
    if command -v dpkg-query >/dev/null; then
        echo "Packages: $(dpkg-query -W -f '${Package} ${Version}, ' g++ liblmdb-dev libsqlite3-dev libleveldb-dev librocksdb-dev "$@" 2>/dev/null | sed 's/, $//')."
    fi
    sed -n 's/^left out \([^ ]*\) \(.*\)/Left out, as the package \2 is missing: \1./p' "$work/built"
}

# part NAME PAGE: begins what publish.sh puts into this page: where and when it was measured, by $work/machine, and then tables
part() {
    echo "<!-- part: $1 $2 -->"
    cat "$work/machine"
    echo
}

# draw FILE [TABLES]: what this file of awk prints of the results: of the tables the one for docs/BENCHMARKS.md (page), or the others
draw() {
    awk -f "$bench/figures.awk" -f "$bench/tables.awk" -f "$bench/$1" -v programs="$programs" -v tables="${2-}" "$list" "$work/results"
}

# draw_chart FILE SCRIPTS PROGRAMS SCALES: the file gets the chart of these scripts and programs. SCALES is `one` where all bars have one
# scale, or `each` where each script has its own.
draw_chart() {
    awk -f "$bench/figures.awk" -f "$bench/chart.awk" -v scripts="$2" -v programs="$3" -v scales="$4" "$list" "$work/results" >"$work/chart"
    mv "$work/chart" "$1"
    say "the chart is in $1"
}
