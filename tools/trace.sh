#!/bin/sh
# Looks at the calls of the system that the program makes of its file, which no proof sees: by `strace` where it is there, and it says so where
# it isn't. Where there is a C compiler the system does a part of each read and write, and interrupts some. And the program runs into a limit
# on the size of its files.
#
#     tools/trace.sh [PROGRAM]
#
# The status is 0 where all is as it has to be.
set -eu

top=$(CDPATH='' cd -- "$(dirname -- "$0")/.." && pwd)
program=$(readlink -f -- "${1:-$top/crates/sledpc/out/sledpc}")
[ -x "$program" ] || { echo "trace.sh: there is no program $program"; exit 1; }
work=$(mktemp -d)
trap 'rm -rf "$work"' EXIT
trap 'exit 1' HUP INT PIPE TERM
cd "$work"

fail() {
    echo "trace.sh: $*"
    exit 1
}

# ---- calls

# The calls of a trace from the first on that names the file: what is done, with the length and the place of a write. A read, and a look at what
# is open, is left out.
calls_of() {
    awk '
    /^(openat|statx|newfstatat).*"log"/ { begun = 1 }
    !begun { next }
    /^openat\(AT_FDCWD, "log"/ { print "open", ($0 ~ /O_TRUNC/ ? "and cut" : "and keep") }
    /^openat\(AT_FDCWD, "\."/ { folder = $NF; print "open the folder" }
    /^flock\(/ { print "lock", ($0 ~ /LOCK_EX\|LOCK_NB/ ? "at once" : "otherwise"); locked = 1 }
    /^(statx|newfstatat)\(AT_FDCWD, "log"/ && locked && !looked { print "look where the path leads"; looked = 1 }
    /^fsync\(/ { print "fsync", ($0 ~ "^fsync\\(" folder "\\)" && folder != "" ? "the folder" : "the file") }
    /^fdatasync\(/ { print "fdatasync" }
    /^pwrite64\(/ { n = split($0, part, /, /); split(part[n], place, /\)/); print "pwrite", part[n - 1], "at", place[1] }
    /^(ftruncate|truncate|rename|renameat|renameat2|unlink|unlinkat|write|pwritev|fallocate)\(/ && $0 !~ /^write\([12],/ { print "also", $0 }
    ' "$1"
}

# What the program is asked, and which calls it makes then.
is_called() {
    strace -o calls "$program" file log <script >replies
    calls_of calls >found
    cmp -s found expected || { diff expected found || :; fail "$1: other calls than expected"; }
}

# How each opening begins: another file may have taken the place before the lock, and nobody knows whether the name is durable.
opens() {
    printf 'open and keep\nlock at once\nlook where the path leads\n%sopen the folder\nfsync the folder\n' "$1"
}

# A frame of so many bytes of records behind the gate at a place: length, records and next gate, and then the gate.
frame() {
    printf 'pwrite %s at %s\nfdatasync\npwrite 1 at %s\nfdatasync\n' "$(($2 + 9))" "$(($1 + 1))" "$1"
}

# The byte of the last open gate, or of the first: a sync that failed may have left the system in the belief that it is durable.
writes_again() {
    printf 'pwrite 1 at %s\nfdatasync\n' "$1"
}

trace() {
    # a new file: the opening bytes, the cache's own pages (35 bytes), and a page with a pair (29)
    printf 'alloc 61=62\nflush\n' >script
    { opens 'fsync the file
' && printf 'pwrite 9 at 0\nfdatasync\n' && writes_again 8 && frame 8 35 && frame 52 29; } >expected
    is_called 'a new file'
    # a change of one byte and one byte (22), which is flushed, and one that isn't
    printf 'set 2 0 61 63\nflush\nset 2 1 61 64\n' >script
    { opens '' && writes_again 52 && frame 90 22; } >expected
    is_called 'a file with pages'
    printf 'get 2\nsize\n' >script
    { opens '' && writes_again 90; } >expected
    is_called 'a file that is only read'
    # a batch that the end of the script cancels, with two changes of one byte and 3,000 (3,023 each): a frame in it is written
    printf 'pin\nset 2 0 61 %06000d\nset 2 1 61 %06000d\n' 0 0 >script
    { opens '' && writes_again 90 && frame 121 6063; } >expected
    is_called 'a batch that is written in part'
    # the frame that says that it was abandoned
    printf 'get 2\n' >script
    { opens '' && writes_again 121 && frame 6193 25; } >expected
    is_called 'a file that ends inside a batch'
    { opens '' && writes_again 6193; } >expected
    is_called 'a file with an abandoned batch'
    echo 'trace.sh: the calls of six runs are as they have to be'
}

if command -v strace >/dev/null && strace -o calls true 2>/dev/null; then
    trace
else
    echo 'trace.sh: there is no strace that works: the calls of the system were not looked at'
fi

# ---- reads and writes of which a part is done

# The replies and the file are those of a run in which each is done at once. Two runs, since the second one reads.
short() {
    "${CC:-cc}" -O2 -Wall -Wextra -shared -fPIC -o short.so "$top/tools/short.c"
    awk 'BEGIN { for (i = 2; i < 200; i++) printf "alloc 61=%0*d\nset %d 1 62 63\n", 2 * i, 0, i; print "flush" }' >first
    awk 'BEGIN { for (i = 2; i < 200; i++) print "get", i; print "id\nflush" }' >second
    for run in first second; do
        "$program" file whole <"$run" >"whole.$run"
        LD_PRELOAD=$work/short.so "$program" file parted <"$run" >"parted.$run" || fail "the $run run fails where a part of each read and write is done"
        cmp "whole.$run" "parted.$run" && cmp whole parted || fail "the $run run differs where a part of each read and write is done"
    done
    [ "$(tail -n 1 parted.first)" != 'error write' ] || fail 'a write of which a part is done fails'
    echo 'trace.sh: of reads and writes a part is done, and all is as it was'
}

if command -v "${CC:-cc}" >/dev/null; then
    short
else
    echo 'trace.sh: no C compiler: no read or write was cut short'
fi

# ---- a limit on the size of files

# 60 pages of some 50 bytes pass 2 KiB, or 1 KiB where the shell counts so: each call behind that answers so, and no signal ends the program.
rm -f log
awk 'BEGIN { for (i = 0; i < 60; i++) print "alloc 61626364656667=6162636465666768"; print "flush\nget 2" }' >script
status=0
(ulimit -f 2 && exec "$program" file log <script >replies 2>faults) || status=$?
[ "$status" -eq 0 ] && [ ! -s faults ] || fail "a limit on the size of files ends the program with status $status: $(cat faults)"
[ "$(tail -n 2 replies)" = "$(printf 'error write\nerror write')" ] || fail "a limit on the size of files is replied to by: $(tail -n 2 replies)"
echo 'get 2' >script
[ "$("$program" file log <script)" = none ] || fail 'what was not flushed is there behind a limit on the size of files'
echo 'trace.sh: a limit on the size of files is a write error'
