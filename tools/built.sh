#!/bin/sh
# Says whether a file was built of the very sources that stand here, by the toolchain that is on the PATH, and notes that one was.
#
#     tools/built.sh is CRATE FILE        the status is 0 where it was, and else 1
#     tools/built.sh note CRATE FILE SUM  notes that it was, where SUM (tools/sum.sh CRATE) was taken before
#     tools/built.sh toolchain            prints the toolchain's line
#
# FILE is a name in the folder out of the crate. What is noted stands beside it in FILE.built, which nothing else writes:
#
#     file SUM        of the file
#     sources SUM     of the sources
#     toolchain LINE  of the toolchain
#     rt FILE         the command, where it was then
#     crates NAME..   of whose sources the file is made
#
# A note is as old as the moment before its sums were taken, so what is newer than it may have changed since. Without a toolchain on the
# PATH the file and the sources decide alone.
set -eu

top=$(CDPATH='' cd -- "$(dirname -- "$0")/.." && pwd)

sum_of() {
    sha256sum "$1" | cut -d ' ' -f 1
}

# A path that leads to the command itself, or nothing.
command_rt() {
    ! rt=$(command -v rt) || readlink -f -- "$rt"
}

toolchain() {
    (cd / && rt version)
}

# noted WORD: what the note has of it.
noted() {
    sed -n "s/^$1 //p" "$note"
}

# Puts what is read from standard input in the place of the note, as old as the moment that began.
replace_note() {
    cat >"$note.$$" && touch -r "$began" "$note.$$" && mv -f "$note.$$" "$note"
}

# Gives the note of an unchanged file the time at which that was found, so that the next look is short. Where it can't be written, the next
# look is as long.
renew() {
    [ -f "$began" ] || return 0
    rt=$(command_rt)
    sed "s|^rt .*|rt ${rt:-$(noted rt)}|" "$note" | replace_note || :
}

# Whether two texts are one, and not nothing.
same() {
    [ -n "$1" ] && [ "$1" = "$2" ]
}

is_built() {
    [ -f "$file" ] && [ -f "$note" ] || return 1
    same "$(noted sources)" "$("$top/tools/sum.sh" "$crate")" || return 1
    same "$(noted file)" "$(sum_of "$file")" || return 1
    [ -z "$(command_rt)" ] || same "$(noted toolchain)" "$(toolchain)"
}

write_note() {
    {
        echo "file $(sum_of "$file")"
        echo "sources $1"
        echo "toolchain $(toolchain)"
        echo "rt $(command_rt)"
        echo "crates $("$top/tools/sum.sh" --crates "$crate" | tr '\n' ' ')"
    } | replace_note
}

verb=$1
if [ "$verb" = toolchain ]; then
    toolchain
    exit
fi
crate=$2
file=$top/crates/$crate/out/$3
note=$file.built
began=$note.$$.began
trap 'rm -f "$began" "$note.$$"' EXIT
trap 'exit 1' HUP INT PIPE TERM
# (a folder that isn't there or isn't to be written has no room for it)
: 2>/dev/null >"$began" || :
case $verb in
is) is_built && renew ;;
note) same "$4" "$("$top/tools/sum.sh" "$crate")" && write_note "$4" ;;
*) exit 1 ;;
esac
