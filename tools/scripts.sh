#!/bin/sh
# Runs scripts (docs/SCRIPT.md) through the program, and compares what it replies with what is wanted, byte for byte. Prints what differs.
#
#     tools/scripts.sh [PROGRAM]
#
# - The rows of scripts/memory.rows go through it over a log in memory, and those of scripts/file.rows over files, and so do many more that
#   scripts/corners.awk makes.
# - It opens files that hold no byte, or that an older program wrote, and refuses those that are no log or no file, or that are in use.
# - It draws ids in crews of threads, and is given words that are wrong.
#
# With KEEP=1 the files of a difference stay. The status is 0 where nothing differs, and else 1.
set -eu

top=$(CDPATH='' cd -- "$(dirname -- "$0")/.." && pwd)
program=$(readlink -f -- "${1:-$top/crates/sledpc/out/sledpc}")
[ -x "$program" ] || { echo "scripts.sh: there is no program $program"; exit 1; }

# The files are in memory where they may: nothing is to outlive the machine here, and syncs would take most of the time.
if [ -z "${TMPDIR-}" ] && [ -w /dev/shm ]; then
    export TMPDIR=/dev/shm
fi
work=$(mktemp -d)
holder=
trap '[ -z "$holder" ] || kill "$holder" 2>/dev/null || :; [ -n "${KEEP-}" ] || rm -rf "$work"' EXIT
trap 'exit 1' HUP INT PIPE TERM
cd "$work"
runs=0

fail() {
    echo "scripts.sh: $*"
    [ -z "${KEEP-}" ] || echo "its files are in $work"
    exit 1
}

# Has the program with these words read a file, and puts its replies into `got` and what it says of a fault into `said`.
run() {
    input=$1
    shift
    status=0
    "$program" "$@" <"$input" >got 2>said || status=$?
    runs=$((runs + 1))
}

# ends STATUS SAID: how the last run has to have ended.
ends() {
    [ "$status" -eq "$1" ] || fail "the run of $input ends with status $status and says: $(cat said)"
    printf '%b' "$2" | cmp -s - said || fail "the run of $input says: $(cat said)"
}

# The line of a script at which two files of replies first differ.
first_difference() {
    awk '
        FILENAME == ARGV[1] { line[FNR] = $0 }
        FILENAME == ARGV[2] { one[FNR] = $0 }
        FILENAME == ARGV[3] { other[FNR] = $0 }
        END {
            for (i = 1; i in one || i in other; i++) {
                if (i in one && i in other && one[i] "" == other[i] "") continue
                printf "line %d: %.200s\nwanted: %.200s\nreplied: %.200s\n", i, line[i], one[i], other[i]
                exit
            }
        }
    ' "$1" "$2" "$3"
}

# answers SCRIPT REPLIES WORDS..: the program with these words replies so.
answers() {
    script=$1
    replies=$2
    shift 2
    run "$script" "$@"
    ends 0 ''
    cmp -s "$replies" got || fail "$(first_difference "$script" "$replies" got)"
}

# answer_to SCRIPT REPLIES WORDS..: the same of texts, in which printf's signs stand.
answer_to() {
    printf '%b' "$1" >script
    printf '%b' "$2" >wanted
    shift 2
    answers script wanted "$@"
}

# refuses STATUS SAID WORDS..: the program with these words replies nothing, and ends so.
refuses() {
    wanted_status=$1
    wanted_said=$2
    shift 2
    printf 'alloc\nflush\n' >script
    run script "$@"
    ends "$wanted_status" "$wanted_said"
    [ ! -s got ] || fail "the program with the words $* replies: $(cat got)"
}

# ---- rows

# groups NAME: the rows of standard input as files of a folder.
groups() {
    mkdir "$1"
    awk -v work="$1" -f "$top/tools/scripts/rows.awk"
}

over_memory() {
    for script in "$1"/*.script; do
        answers "$script" "${script%.script}.replies" mem
    done
}

# The runs of a group are over one file, which isn't there at first.
over_file() {
    for script in "$1"/*.script; do
        case $script in
        *.01.script) rm -f log ;;
        esac
        answers "$script" "${script%.script}.replies" file log
    done
    rm -f log
}

groups memory <"$top/tools/scripts/memory.rows"
groups corners <<ROWS
$(awk -v over=memory -f "$top/tools/scripts/corners.awk")
ROWS
over_memory memory
over_memory corners
groups file <"$top/tools/scripts/file.rows"
groups pending <<ROWS
$(awk -v over=file -f "$top/tools/scripts/corners.awk")
ROWS
over_file file
over_file pending

# ---- files

# The path is one word, whatever is in it.
answers file/001.01.script file/001.01.replies file 'a path with = and -- in it'
answers file/001.02.script file/001.02.replies file 'a path with = and -- in it'

# An empty file is a new one.
: >empty
answers file/001.01.script file/001.01.replies file empty
answers file/001.02.script file/001.02.replies file empty

# zeros COUNT: so many bytes of zero, as printf writes them.
zeros() {
    awk -v count="$1" 'BEGIN { for (i = 0; i < count; i++) printf "%s", "\\0000" }'
}

# A file as it was written before a batch could go over several frames: a page with a pair, and a batch of one link, whose mark stands at 117
# and names the link, at 142.
{
    printf 'SLPCLOG1'
    # the record of page 0, and that of the counter of ids
    printf '%b' "\\0001\\0043$(zeros 7)\\0006$(zeros 16)\\0005\\0001$(zeros 7)\\0001$(zeros 8)"
    # page 2, and the link that puts 62=76 there
    printf '%b' "\\0001\\0057$(zeros 7)\\0010\\0002$(zeros 7)\\0010$(zeros 15)\\0012\\0002$(zeros 7)\\0005$(zeros 8)\\0001b\\0001v"
    # the mark, and the link that puts 63=77 there
    printf '%b' "\\0001\\0057$(zeros 7)\\0003e\\0375\\0377\\0377\\0377\\0377\\0377\\0377\\0010$(zeros 7)\\0216$(zeros 7)"
    printf '%b' "\\0012\\0002$(zeros 7)\\0005$(zeros 8)\\0001c\\0001w\\0000"
} >older
[ "$(wc -c <older)" -eq 165 ] || fail "the file of the older kind has $(wc -c <older) bytes"
answer_to 'get 2\nalloc\nflush\n' 'leaf 0 62=76 63=77\npage 3 1\nflushed 35\n' file older
answer_to 'get 3\nsize\n' 'leaf 0\nsize 199\n' file older

# Bytes that are no log: the file is left as it is. The first eight are what a crash in a file's first moment may leave.
for bytes in S SLPCLOG1 'SLPCLOG2\0000' 'SLPCLOG1\0001' "SLPCLOG1\\0001$(zeros 9)" 'alloc\nset 2 1 62 76\n'; do
    printf '%b' "$bytes" >before
    cp before log
    refuses 1 'sledpc: error corruption\n' file log
    cmp -s before log || fail "a file of the bytes $bytes is changed"
done

# Paths of no file: none, folders, one in a folder that is not there, and a device.
for path in '' . / absent/log absent/ /dev/null; do
    refuses 1 'sledpc: error read\n' file "$path"
done

# A file that another process has open.
mkfifo held.script
"$program" file held <held.script >held.replies 2>held.said &
holder=$!
exec 9>held.script
echo size >&9
while [ ! -s held.replies ] && kill -0 "$holder" 2>/dev/null; do
    sleep 0.01
done
cp held before
refuses 1 'sledpc: error read\n' file held
cmp -s before held || fail 'a file that is in use is changed'
exec 9>&-
wait "$holder" || fail "the program that holds a file ends with status $?: $(cat held.said)"
holder=
answer_to 'size\n' 'size 53\n' file held

# ---- crews

# crew WORKERS CALLS TOLD: what is told, and that no input is read: a folder can't be.
crew() {
    run / crew "$1" "$2"
    ends 0 ''
    [ "$(cat got)" = "$3" ] || fail "the crew of $1 and $2 tells: $(cat got)"
}

crew 1 0 '0 calls'
crew 64 0 '0 calls'
crew 1 1 '1 calls'
crew 4 100 '400 calls'
crew 64 3 '192 calls'
crew 2 10000 '20000 calls'

# ---- words

usage='usage: sledpc mem | file PATH | crew N M\n'
refuses 2 "$usage"
refuses 2 "$usage" "$(printf '\377')"
while read -r words; do
    # shellcheck disable=SC2086 # several words
    refuses 2 "$usage" $words
done <<WORDS
memory
mem x
file
file a b
files a
mem file
crew
crew 4
crew 4 5 6
Crew 4 5
crew 0 5
crew 65 1
crew 1 10001
crew 01 5
crew 1 05
crew 1 00
crew +1 5
crew 1 -1
crew four 5
crew 18446744073709551617 5
crew 1 18446744073709551616
WORDS
refuses 2 "$usage" crew '' 5
refuses 2 "$usage" crew 1 ''
refuses 2 "$usage" crew '1 ' 5

echo "scripts.sh: $runs runs, each of which replies as it has to"
