# What with_interval.sh and threads_program.sh share: a copy of this checkout's sources, from which a program is proved and built. What
# was proved of the same sources here serves it. Each sets `top` before it sources this. $copy is the copy, which goes at the end.

copy=$(mktemp -d "${TMPDIR:-/tmp}/copied-XXXXXX")
trap 'rm -rf "$copy"' EXIT
trap 'exit 1' HUP INT TERM

# copy_crate NAME: its sources, without its tests of must-fail edits and without its runs
copy_crate() {
    mkdir -p "$copy/crates/$1"
    for part in src specs proofs; do
        [ ! -d "$top/crates/$1/$part" ] || cp -R "$top/crates/$1/$part" "$copy/crates/$1"
    done
}

# build_copied NAME FILE WORD..: proves and builds a program there, which is run once with these words, and puts the binary into the file
build_copied() {
    name=$1 file=$2
    shift 2
    (cd "$copy/crates/$name" && rt run -- "$@") </dev/null >"$copy/log" 2>&1 || {
        tail -n 20 "$copy/log" >&2
        exit 1
    }
    cp "$copy/crates/$name/out/$name" "$file"
}
