#!/bin/sh
# Proves the programs and the library for other languages, and builds them: crates/sledpc/out/sledpc and crates/dilluvas/out/dilluvas, which
# ./sledpc and ./dilluvas run then, and crates/sled_c/out/libsled_c.a with the folder bindings/out (bindings/build.sh).
#
#     tools/build.sh [CRATE..]
#
# CRATE is sledpc, dilluvas or sled_c: that alone is made, and no folder. What was built of these sources by this toolchain stays. The libraries that
# a release has proved are taken from its archive, where one is named by DILLUVAS_PROVED or lies beside the checkout (tools/take.sh).
#
# It tells on standard error which crate is proved, each tenth of its functions, and what is left by the processor minutes of
# docs/dev/GATE.md; what the toolchain says goes to out/build.log. The status is 0 where all is built, and else 1: then what was built before
# and is of other sources stands there, and is noted as such (tools/built.sh).
set -eu

top=$(CDPATH='' cd -- "$(dirname -- "$0")/.." && pwd)
case ${DILLUVAS_PROVED-} in
'' | /*) ;;
*) export DILLUVAS_PROVED="$PWD/$DILLUVAS_PROVED" ;;
esac
cd "$top"
log=out/build.log

say() {
    echo "build.sh: $1" >&2
}

fail() {
    say "$1"
    exit 1
}

# ---- what there is to do

product() {
    case $1 in
    sledpc | dilluvas) echo "$1" ;;
    sled_c) echo libsled_c.a ;;
    *) fail "there is nothing to build of '$1': sledpc, dilluvas and sled_c are" ;;
    esac
}

# The crates of those that are given which were not built of these sources.
not_built() {
    for crate in "$@"; do
        file=$(product "$crate")
        if tools/built.sh is "$crate" "$file"; then
            say "crates/$crate/out/$file was built of these sources before"
        else
            echo "$crate"
        fi
    done
}

# The processor minutes of a crate's proof by the table of the gate, in tenths; one minute for a crate that has no row yet.
cell() {
    awk -v name="$1" '
        /^## / { inside = $0 == "## Budget" }
        inside && split($0, part, /[|`]/) > 4 && part[3] == name && part[5] + 0 > 0 { found = int(part[5] * 10 + 0.5) }
        END { print found ? found : 10 }
    ' docs/dev/GATE.md
}

# Tenths of minutes as minutes.
minutes() {
    echo "$(($1 / 10)).$(($1 % 10))"
}

# Seconds as minutes, or as seconds where they are few.
span() {
    if [ "$1" -lt 100 ]; then
        echo "$1 s"
    else
        echo "$((($1 + 30) / 60)) min"
    fi
}

# ---- what is told

# After so many seconds this part of the crate's functions is proved: tells what is left if the rest takes as long by the table.
tell_rest() {
    seconds=$1
    ended=$2
    all=$3
    rest=$((cell * (all - ended) + all * cells_left))
    say "$crate: $ended of $all functions in $(span "$seconds"), and $(span $((seconds * rest / (cell * ended)))) are left if all goes on so"
}

# Hands on what the toolchain says to the log, and tells each tenth.
watch() {
    tenth=0
    while IFS= read -r line; do
        printf '%s\n' "$line" >&3
        case $line in
        'so far: '*' of '*' functions checked'*)
            ended=${line#so far: }
            ended=${ended%% *}
            all=${line#*' of '}
            all=${all%% *}
            if [ "${all:-0}" -gt 0 ] && [ "$((10 * ended / all))" -gt "$tenth" ]; then
                tenth=$((10 * ended / all))
                tell_rest "$(($(date +%s) - began))" "$ended" "$all"
            fi
            ;;
        'rt: waiting for another rt'*) say "$crate: another rt works in this checkout, and is waited for" ;;
        esac
    done 3>>"$log"
}

# ---- proofs

# The command that proves a crate and builds it. Over an empty script a program does nothing.
prove() {
    cd "crates/$crate" || return 1
    case $crate in
    sledpc) rt run -- mem </dev/null ;;
    dilluvas) rt run -- :memory: </dev/null ;;
    *) rt lib </dev/null ;;
    esac
}

# Why it failed, if that can be told.
why() {
    if grep -qi 'no space left' "$log" 2>/dev/null; then
        echo ': there is no room on the disk'
    fi
}

prove_crate() {
    say "$crate ($number of $count), which took $(minutes "$cell") processor minutes elsewhere"
    began=$(date +%s)
    echo "== $crate" >>"$log"
    : >"$work/status"
    { status=0; (prove) 2>&1 || status=$?; echo "$status" >"$work/status"; } | watch || :
    if [ "$(cat "$work/status")" != 0 ]; then
        tail -n 20 "$log" >&2
        fail "$crate was not built$(why); all that was said is in $log"
    fi
    if awk -v mark="== $crate" 'behind && /^logic=proved / { found = 1 } $0 == mark { behind = 1 } END { exit !found }' "$log"; then
        say "$crate: proved and built, after $(span "$(($(date +%s) - began))")"
    else
        say "$crate: was proved before"
    fi
}

# Each crate once, the lowest first.
prove_all() {
    crates=$(for crate in "$@"; do tools/sum.sh --crates "$crate"; done | awk '!seen[$0]++ { print }' |
        awk 'NR == FNR { wanted[$0]; next } { sub(/[ :].*/, "") } $0 in wanted' - crates.txt)
    count=0
    cells_left=0
    for crate in $crates; do
        count=$((count + 1))
        cells_left=$((cells_left + $(cell "$crate")))
    done
    say "$count crates have to be proved, which took $(minutes "$cells_left") processor minutes elsewhere, but for those that were"
    number=0
    for crate in $crates; do
        number=$((number + 1))
        cell=$(cell "$crate")
        cells_left=$((cells_left - cell))
        prove_crate
    done
}

build() {
    # another run may have built them meanwhile
    todo=$(not_built "$@")
    [ -n "$todo" ] || return 0
    command -v rt >/dev/null || fail "the toolchain's command rt is not on the PATH: README.md says under 'First look' where it and a release come from"
    : >"$log" || fail "there is no room for $log"
    # shellcheck disable=SC2086 # several crates
    sums=$(for crate in $todo; do tools/sum.sh "$crate"; done)
    tools/take.sh
    # shellcheck disable=SC2086 # several crates
    prove_all $todo
    # shellcheck disable=SC2086 # several sums
    set -- $sums
    for crate in $todo; do
        tools/built.sh note "$crate" "$(product "$crate")" "$1" || fail "sources of $crate changed during the build, or there is no room to note that it was built"
        shift
    done
}

# ---- all of it

[ "$#" -gt 0 ] || whole=1
[ "$#" -gt 0 ] || set -- sledpc dilluvas sled_c
mkdir -p out 2>/dev/null || fail "no folder out can be made in $top"
work=$(mktemp -d) || fail 'there is no folder for a file: set TMPDIR to one that can be written'
trap 'rm -rf "$work"' EXIT
trap 'exit 1' HUP INT PIPE TERM
# one builds, and the others wait for it, where the system has flock
(
    if command -v flock >/dev/null && ! flock -n 9; then
        say 'another build is under way in this checkout, and is waited for'
        flock 9
    fi
    build "$@"
) 9>out/build.lock
[ -z "${whole-}" ] || bindings/build.sh
