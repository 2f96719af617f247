#!/bin/sh
# Kills the program at random moments while it changes a file, over and over, and opens the file with the program each time. Prints what
# differs: the file holds the pages after a prefix of the script's changes that splits no batch and has all that a reply had confirmed,
# and no id comes twice (kill.awk says how that is judged). Some batches have ten segments and more, so that some kills leave a part of one in
# the file.
#
#     tools/kill.sh [PROGRAM [KILLS [SEED]]]
#
# The seed decides the choices in the scripts and the moments, as far as the machine keeps time; what a kill left decides the rest. With
# KEEP=1 the files of a failure stay: the state before its script, the script, the replies, the file of the log, and what was found in it.
# The status is 0 where nothing differs, and else 1.
set -eu

top=$(CDPATH='' cd -- "$(dirname -- "$0")/.." && pwd)
program=$(readlink -f -- "${1:-$top/crates/sledpc/out/sledpc}")
wanted=${2:-150}
seed=${3:-$(date +%s)}
# scripts over one file before a new one is begun
rounds=30
# seconds from the start of the program to the latest kill
latest=0.12

work=$(mktemp -d)
running=
trap '[ -n "${KEEP-}" ] || rm -rf "$work"' EXIT
trap '[ -z "$running" ] || kill -9 "$running"; exit 1' HUP INT PIPE TERM
cd "$work"

# The script, a piece at a time.
feed() {
    awk '{ print } NR % 16 == 0 { fflush(); system("sleep 0.002") }' script 2>feeding
}

# Gives the program the script, and kills it after so many seconds, unless the script has ended by then.
crash() {
    # a kill may come before the program has them
    : >replies
    : >faults
    feed | "$program" file log >replies 2>faults &
    running=$!
    sleep "$1"
    kill -9 "$running" 2>feeding || :
    ended=0
    wait "$running" 2>feeding || ended=$?
    running=
    wait
    # 128 and the number of the signal
    [ "$ended" -ne 137 ] || kills=$((kills + 1))
}

# How many batches the file says were abandoned: records of kind 14 with the page of batches and a payload of 8 bytes.
count_abandoned() {
    od -An -v -tx1 log | tr -d ' \n' | awk '{ count = gsub(/0e65fdffffffffffff0800000000000000/, "") } END { print count + 0 }'
}

[ -x "$program" ] || { echo "kill.sh: there is no program $program"; exit 1; }
round=0
kills=0
parts=0
while [ "$kills" -lt "$wanted" ]; do
    if [ $((round % rounds)) -eq 0 ]; then
        rm -f log
        : >state
        abandoned=0
    fi
    round=$((round + 1))
    delay=$(awk -v task=make -v seed="$((seed + round))" -v latest="$latest" -f "$top/tools/kill.awk" state)
    crash "$delay"
    # what ends in no newline is no reply yet
    printf . >>replies
    timeout 10 "$program" file log <reading >found 2>>faults || echo "the program ended with status $?" >>faults
    if ! awk -v task=judge -f "$top/tools/kill.awk" found state script replies faults >judged; then
        echo "kill.sh: round $round of seed $seed, killed after $delay seconds:"
        cat judged
        [ -z "${KEEP-}" ] || echo "its files are in $work"
        exit 1
    fi
    mv judged state
    before=$abandoned
    abandoned=$(count_abandoned)
    parts=$((parts + abandoned - before))
done
if [ "$kills" -ge 100 ] && [ "$parts" -eq 0 ]; then
    echo "kill.sh: of $kills kills none left a part of a batch in the file"
    exit 1
fi
KEEP=
echo "kill.sh: $kills kills in $round rounds, of which $parts left a part of a batch in the file, seed $seed: nothing is lost"
