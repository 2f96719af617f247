#!/bin/sh
# Runs a program from a checkout: the proved one, where tools/build.sh or ./check has built it from the sources that are here, with the
# toolchain that is on the PATH. Otherwise `rt try` builds and runs the sources without a proof, which takes half a minute to a minute each
# time, and one line on standard error says so.
#
#     tools/run.sh PROGRAM [WORD..]
#
# PROGRAM is a crate of that name, sledpc or dilluvas, and its words stand behind it. The status is that of the program, or 1.
set -eu

self=$(readlink -f -- "$0")
top=${self%/tools/*}
program=$1
shift
crate=$top/crates/$program
binary=$crate/out/$program
# what tools/built.sh has noted of it
note=$binary.built

say() {
    echo "$program: $1" >&2
}

fail() {
    say "$1"
    exit 1
}

# Whether nothing that the program is made of has changed since the note was made: neither a source, nor a folder of sources, nor the
# toolchain. Where something may have, tools/built.sh looks at what it is.
is_untouched() {
    [ -x "$binary" ] && [ -r "$note" ] || return 1
    names=
    noted=
    while read -r word rest; do
        case $word in
        crates) names=$rest ;;
        rt) noted=$rest ;;
        esac
    done <"$note"
    rt=$(command -v rt) && rt=$(readlink -f -- "$rt") || rt=$noted
    [ "$rt" = "$noted" ] && [ -n "$names" ] || return 1
    [ -e "$rt" ] || rt=
    cd "$top/crates"
    folders=
    for name in $names; do
        for part in src specs proofs; do
            [ ! -d "$name/$part" ] || folders="$folders $name/$part"
        done
    done
    # shellcheck disable=SC2086 # several folders
    newer=$(find ../crates.txt "$binary" ${rt:+"$rt"} $folders -cnewer "$note" -print -quit 2>&1) && [ -z "$newer" ]
}

# Whether the last of the program's words names a file.
names_file() {
    case $program/$#/${1-} in
    sledpc/2/file) ;;
    dilluvas/1/:memory:) return 1 ;;
    dilluvas/1/*) ;;
    *) return 1 ;;
    esac
}

# Whether the program with these words reads a script.
reads_script() {
    case $program/$#/${1-} in
    sledpc/*/mem | sledpc/*/file | dilluvas/1/*) ;;
    *) return 1 ;;
    esac
}

# Runs it by `rt try`, which passes to the program only what comes on standard input within two seconds, and prints at the end: so all input
# is read first. `rt try` runs it in a folder of its own, with a copy of each file whose path starts at the crate. A file of the user is named
# by its whole path, and so is changed itself, by the one run that a program with arguments gets.
try() {
    work=$(mktemp -d) || fail 'no temporary folder could be made: set TMPDIR to a folder that can be written'
    trap 'rm -rf "$work"' EXIT
    trap 'exit 1' HUP INT PIPE TERM
    : >"$work/input"
    stands=
    if names_file "$@"; then
        stands='. Everything that it flushed is in the file'
        case ${2-$1} in
        '' | /*) ;;
        *) set -- ${2+"$1"} "$PWD/${2-$1}" ;;
        esac
    fi
    if reads_script "$@"; then
        cat >"$work/input" || fail "the script could not be written to $work"
        [ "$(wc -c <"$work/input")" -lt 67108864 ] || fail 'without a proof a script must be shorter than 64 MiB: run tools/build.sh, whose program has no such limit'
    fi
    (cd "$crate" && rt try --seconds 600 -- "$@") <"$work/input" >"$work/output" 2>"$work/said" || :
    last=$(tail -n 1 "$work/said")
    case $last in
    'run=ended status='*) ;;
    *)
        grep -v -e '^| ' -e '^the end of ' -e '^interpreter: ' -e '^races: ' "$work/said" | tail -n 20 >&2 || :
        fail 'the run did not finish: without a proof it is limited to ten minutes, 1 MiB of output and the room in TMPDIR. The program that tools/build.sh builds has no such limits'"$stands"
        ;;
    esac
    cat "$work/output" || exit 1
    # the program's own lines come before those of the toolchain
    sed '/^checked: /,$d' "$work/said" >&2
    status=${last#run=ended status=}
    exit "${status%% *}"
}

if ! (is_untouched) && ! "$top/tools/built.sh" is "$program" "$program"; then
    command -v rt >/dev/null ||
        fail "there is no proved program here, and the toolchain's command rt is not on the PATH: README.md says under 'First look' where to get a release or the toolchain"
    say 'these sources are not proved on this machine yet (run tools/build.sh for that): this run builds them without a proof, in about a minute'
    try "$@"
fi
# output beyond the limit on the size of files is a write error, not a signal
trap '' XFSZ 2>/dev/null || :
exec "$binary" "$@"
