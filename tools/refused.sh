#!/bin/sh
# Runs what was proved with one request for memory refused, the first, then the second, and so on, until none is left to refuse:
#
# - a script through `sledpc`, over a log in memory and over a file: what it replies, and the file, are those of the script without the line
#   that is replied to by `error memory`;
# - `sledpc crew`, which answers all its calls or `error memory`;
# - tests of nodes, of the log on a disk, of the cache, of ordered maps, and of the cache that threads share, whose calls change nothing where
#   they are refused, and are made again.
#
#     tools/refused.sh
#
# It takes the program and the tests that `rt ci` has built, or `rt run` in crates/sledpc and `rt test` in crates/sled_node_tests, in
# crates/sled_disk_tests, in crates/sled_pagecache_fault_tests, in crates/sled_pagecache_move_tests, in crates/sled_tree_fault_tests and in
# crates/sled_shared_tests. The status is 0 where all is so.
set -eu

top=$(CDPATH='' cd -- "$(dirname -- "$0")/.." && pwd)
program=$top/crates/sledpc/out/sledpc
node=$top/crates/sled_node_tests/out/sled_node_tests_tests
disk=$top/crates/sled_disk_tests/out/sled_disk_tests_tests
cache=$top/crates/sled_pagecache_fault_tests/out/sled_pagecache_fault_tests_tests
moves=$top/crates/sled_pagecache_move_tests/out/sled_pagecache_move_tests_tests
tree=$top/crates/sled_tree_fault_tests/out/sled_tree_fault_tests_tests
shared=$top/crates/sled_shared_tests/out/sled_shared_tests_tests
for built in "$program" "$node" "$disk" "$cache" "$moves" "$tree" "$shared"; do
    [ -x "$built" ] || { echo "refused.sh: there is no program $built"; exit 1; }
done

# The files are in memory where they may: nothing is to outlive the machine here.
if [ -z "${TMPDIR-}" ] && [ -w /dev/shm ]; then
    export TMPDIR=/dev/shm
fi
work=$(mktemp -d)
trap '[ -n "${KEEP-}" ] || rm -rf "$work"' EXIT
trap 'exit 1' HUP INT PIPE TERM
cd "$work"
"${CC:-cc}" -O2 -Wall -Wextra -shared -fPIC -o refuse.so "$top/tools/refuse.c"

# also where what a command tells goes elsewhere
exec 3>&1
fail() {
    echo "refused.sh: $*" >&3
    exit 1
}

# number N: its 8 bytes, as octal escapes
number() {
    printf '\\%03o\\%03o\\%03o\\0\\0\\0\\0\\0' $(($1 % 256)) $(($1 / 256 % 256)) $(($1 / 65536 % 256))
}

# refusing N COMMAND..: runs it with the Nth request refused, and sets `status`, and `asked` to how many were made.
refusing() {
    # shellcheck disable=SC2059 # the escapes are the format
    printf "$(number "$1")$(number 0)" >numbers
    shift
    status=0
    REFUSE=$work/numbers LD_PRELOAD=$work/refuse.so "$@" || status=$?
    asked=$(od -An -t u8 -j 8 numbers)
    [ "$asked" -gt 0 ] || fail "no request is counted of $1: is it linked statically?"
}

# ---- scripts

# The script: its changes, and then what is to be seen of them.
cat >changes <<'END'
alloc
alloc
set 2 1 61 31
set 2 2 62 32
set 2 3 63 33
set 2 4 64 34
set 2 5 65 35
set 2 6 66 36
set 2 7 67 37
set 2 8 68 38
set 2 9 69 39
set 2 10 6a 30
set 2 11 6b 31
pin
replace 2 12 6b=76
free 3 1
seal
open 74
cas 74 4 2
id
id
id
id
id
id
id
id
id
id
id
alloc 61=62 63=64 65666768696a6b6c6d6e6f707172737475767778797a=-
alloc
del 2 13 6b
replace 5 1 7a=79
alloc
alloc
alloc
alloc
gc
amp
pin
set 2 14 6b 32
cancel
cas 6162636465666768696a6b6c6d6e6f707172737475767778797a - 5
flush
END
cat >sights <<'END'
get 2
get 3
get 4
get 5
get 6
get 7
get 8
get 9
get 10
get 11
root 74
root 6162636465666768696a6b6c6d6e6f707172737475767778797a
open 74
open 75
size
id
alloc
flush
END

# Over the log in memory both are one script, `script`, and none is left to be `seen` after it; over a file that comes in a second opening.
take() {
    kind=$1
    if [ "$kind" = mem ]; then
        cat changes sights >script
        : >seen
    else
        cp changes script
        cp sights seen
    fi
}

# answer SCRIPT NAME: what `sledpc` replies to it, and to what is to be seen then, in NAME.replies. The file is NAME.log.
answer() {
    if [ "$kind" = mem ]; then
        "$program" mem <"$1" >"$2.replies"
    else
        rm -f "$2.log"
        "$program" file "$2.log" <"$1" >"$2.replies"
        "$program" file "$2.log" <seen >>"$2.replies"
    fi
}

# refuse N: the same of the script with a request refused, and nothing of what is to be seen.
refuse() {
    rm -f refused.log
    if [ "$kind" = mem ]; then
        refusing "$1" "$program" mem <script >refused.replies 2>faults
    else
        refusing "$1" "$program" file refused.log <script >refused.replies 2>faults
    fi
}

# What depends on how many messages the log has.
without_sizes() {
    sed 's/^flushed .*/flushed/; s/^size .*/size/; s/^amp .*/amp/' "$1"
}

# same NAME: whether the refused run replied as this one, whose replies lack those of the refused line.
same() {
    grep -v '^error memory$' refused.replies >left.replies || :
    cmp -s left.replies "$1.replies" && { [ "$kind" = mem ] || cmp -s refused.log "$1.log"; }
}

# The same but for how many messages there are.
similar() {
    grep -v '^error memory$' refused.replies >left.replies || :
    without_sizes left.replies >left.masked
    without_sizes "$1.replies" >masked
    cmp -s left.masked masked
}

# The pages of a tree come one by one, so where its opening was refused some of them may stand: that of an `alloc`, or those of a tree whose
# name was taken away again, but for the messages of its page. The replies to that are the first of those that follow.
tree_stands() {
    sed "${line}s/.*/alloc/" script >changed
    answer changed other
    sed -i "${line}d" other.replies
    same other && return
    name=$(sed -n "${line}s/^open //p" script)
    root=$(sed -n "${line}s/^page //p" plain.replies)
    sed "${line}s/.*/open $name\ncas $name $root -/" script >changed
    answer changed other
    sed -i "${line}d" other.replies
    sed -i "${line}d" other.replies
    similar other
}

# What a run shows in which the line of this number was refused.
check_line() {
    sed "${line}d" script >changed
    answer changed other
    same other && return
    case $(sed -n "${line}p" script) in
    open*) tree_stands ;;
    *) return 1 ;;
    esac
}

# What a run shows that ended: what it had replied, and the fault. Where its words were refused, it has none.
check_ended() {
    case $status:$(cat faults) in
    '1:sledpc: error memory') ;;
    2:usage:*) [ ! -s refused.replies ] || return 1 ;;
    *) return 1 ;;
    esac
    head -n "$(wc -l <refused.replies)" plain.replies | cmp -s - refused.replies
}

# What was left by a run that ended as it should.
see() {
    [ "$kind" = mem ] || "$program" file refused.log <seen >>refused.replies
}

each_of_script() {
    take "$1"
    answer script plain
    n=1
    refused=0
    ended=0
    passed=0
    while refuse "$n" && [ "$n" -le "$asked" ]; do
        line=$(awk '$0 == "error memory" { print NR; exit }' refused.replies)
        if [ "$status" -ne 0 ]; then
            ended=$((ended + 1))
            check_ended || fail "$kind: request $n refused: it ended with status $status and $(cat faults)"
        elif [ -z "$line" ]; then
            passed=$((passed + 1))
            see
            similar plain || fail "$kind: request $n refused, which no reply says: $(diff left.masked masked | head -4)"
        else
            refused=$((refused + 1))
            see
            check_line || fail "$kind: request $n refused in line $line: $(diff left.replies other.replies | head -4)"
        fi
        n=$((n + 1))
    done
    [ "$refused" -gt 0 ] || fail "$kind: no request of a call was refused"
    [ "$ended" -gt 0 ] || fail "$kind: no other request was refused"
    echo "refused.sh: $kind: $((n - 1)) requests refused: $refused lines left out, $ended runs ended, $passed went on without"
}

# ---- a crew

each_of_crew() {
    n=1
    while refusing "$n" "$program" crew 2 11 >told 2>faults </dev/null; [ "$n" -le "$asked" ]; do
        case $status:$(cat told):$(cat faults) in
        '0:22 calls:') ;;
        '1::sledpc: error memory') ;;
        2::usage:*) ;;
        *) fail "crew: request $n refused: status $status, $(cat told) $(cat faults)" ;;
        esac
        n=$((n + 1))
    done
    echo "refused.sh: crew: passed, with each of $((n - 1)) requests refused"
}

# ---- tests

# each_of_test TESTS NAME: it passes, and makes requests enough to have made its calls.
each_of_test() {
    n=1
    while refusing "$n" "$1" "tests::$2" >told 2>faults </dev/null; [ "$n" -le "$asked" ]; do
        [ "$status:$(tail -n 1 told)" = '0:test result: ok' ] || fail "$2: request $n refused: status $status, $(cat told faults)"
        n=$((n + 1))
    done
    [ "$n" -gt 10 ] || fail "$2: it makes $((n - 1)) requests only"
    refused=$((refused + n - 1))
}

each_of_tests() {
    refused=0
    each_of_test "$node" refused::a_refused_allocation_leaves_a_leaf
    for name in closing::a_refused_allocation_leaves_the_changes_of_a_batch \
        staged::logs::a_staged_log_abandons_a_batch_as_a_log_in_memory_does \
        staged::logs::a_staged_log_writes_what_a_log_in_memory_does; do
        each_of_test "$disk" "$name"
    done
    for name in faults::refuse_each_allocation memory::a_refused_allocation_leaves_a_batch_whole \
        memory::a_refused_allocation_leaves_what_was_made_of_a_tree memory::a_refused_allocation_uses_no_id \
        memory::refused_allocations_change_nothing; do
        each_of_test "$cache" "$name"
    done
    for name in rewriting::a_refused_allocation_leaves_the_next_rewriting sizes::a_refused_allocation_leaves_the_next_measure \
        snapshots::a_refused_allocation_leaves_the_next_snapshot; do
        each_of_test "$moves" "$name"
    done
    each_of_test "$tree" faults::refuse_each_allocation
    each_of_test "$tree" batches::refuse_each_allocation
    each_of_test "$shared" refuse_each_allocation
    echo "refused.sh: tests: passed, with each of $refused requests refused"
}

each_of_script mem
each_of_script file
each_of_crew
each_of_tests
