#!/bin/sh
# Takes the libraries that a release has proved into a checkout: `rt` then proves what stands above them alone. Called by tools/build.sh
# before it proves anything.
#
#     tools/take.sh
#
# The archive is the file that DILLUVAS_PROVED names by its whole path, or else dilluvas-VERSION-proved.tar.zst beside the checkout; where there is none, or the
# variable is empty, nothing is said and nothing taken. A library is taken if its sources and those below it are the ones that stand here. Nothing is taken of an archive that is
# damaged, of something else, or of another toolchain, and none over proofs that were made here of these sources.
#
# What is taken is trusted as the toolchain's own libraries are: the sums in the archive show damage, and not who made it.
#
# It says on standard error what it takes, or why it doesn't. The status is 0, or else 1 where DILLUVAS_PROVED names no file or there is no
# room, and then nothing is half taken.
set -eu

top=$(CDPATH='' cd -- "$(dirname -- "$0")/.." && pwd)
cd "$top"
version=$(tools/version.sh)
archive=${DILLUVAS_PROVED:-$(dirname "$top")/dilluvas-$version-proved.tar.zst}

say() {
    echo "take.sh: $1" >&2
}

fail() {
    say "$1"
    exit 1
}

# Nothing is taken, and all is proved here.
pass() {
    say "$archive $1: nothing of it is taken"
    exit 0
}

if [ "${DILLUVAS_PROVED-set}" = '' ]; then
    exit 0
elif [ ! -f "$archive" ]; then
    [ -z "${DILLUVAS_PROVED-}" ] || fail "DILLUVAS_PROVED names $archive, which is no file"
    exit 0
fi
command -v zstd >/dev/null || pass 'is not read, since there is no zstd'

# In the folder out of a crate, since the toolchain reads all others.
mkdir -p crates/sled_base/out
room=$(mktemp -d crates/sled_base/out/taken.XXXXXX) || fail 'there is no room to unpack it'
trap 'rm -rf "$room"' EXIT
trap 'exit 1' HUP INT PIPE TERM

# ---- what the archive is

# What a command of these says is a fault of the disk or of the archive.
judge() {
    case $1 in
    *[Nn]'o space left'* | *'Disk quota'*) fail "there is no room to unpack $archive" ;;
    *) pass 'is damaged, or no archive of a release' ;;
    esac
}

said=$(zstd -qdc -- "$archive" 2>&1 >"$room/tar") || judge "$said"
mkdir "$room/in"
said=$(tar -xf "$room/tar" --no-same-owner -C "$room/in" 2>&1) || judge "$said"
rm "$room/tar"
from=$room/in/dilluvas-$version-proved
if [ ! -f "$from/SUMS" ] || [ ! -f "$from/PROVED" ]; then
    pass "is no archive of release $version"
fi

# Plain files alone, those of the sums and no others, each with its sum.
is_whole() (
    cd "$from" || return 1
    [ -z "$(find . ! -type f ! -type d)" ] || return 1
    find . -type f ! -path ./SUMS | LC_ALL=C sort >../found
    sed 's/^[0-9a-f]*  //' SUMS | LC_ALL=C sort | cmp -s - ../found && sha256sum --quiet --strict -c SUMS >/dev/null 2>&1
)
is_whole || pass 'is damaged'
there=$(sed -n 's/^toolchain //p' "$from/PROVED")
here=$(tools/built.sh toolchain)
[ "$there" = "$here" ] || pass "is of another toolchain ($there, and here $here)"

# ---- what of it is taken

# A sum is of the crates below too, so with a crate these are taken as well.
taken=
left=
same=1
for folder in "$from"/crates/*; do
    crate=${folder##*/}
    if [ "$(cat "$folder/sum")" = "$(tools/sum.sh "$crate" 2>/dev/null)" ]; then
        taken="$taken $crate"
        cmp -s "$folder/rlib/stamp" "crates/$crate/out/rlib/stamp" || same=
    else
        left="$left $crate"
    fi
done
[ -n "$taken" ] || pass 'is of other sources'
if [ -n "$same" ]; then
    say "the libraries of $archive stand here already"
    exit 0
fi

# The toolchain takes a library by its stamp, so the stamps go first, and come last, the lowest first. One that was built here over others
# than these is built over these again.
for crate in $taken $left; do
    rm -f "crates/$crate/out/rlib/stamp"
done
for crate in $taken; do
    mv "$from/crates/$crate/rlib/stamp" "$from/crates/$crate/stamp"
    mkdir -p "crates/$crate/out"
    rm -rf "crates/$crate/out/rlib"
    mv "$from/crates/$crate/rlib" "crates/$crate/out/rlib"
done
sed 's/[ :#].*//' crates.txt | while read -r crate; do
    # a line of crates.txt may be a comment
    [ -n "$crate" ] || continue
    case " $taken " in
    *" $crate "*) mv "$from/crates/$crate/stamp" "crates/$crate/out/rlib/stamp" ;;
    esac
done
say "took$taken from $archive, and proves none of these"
[ -z "$left" ] || say "the sources of$left here are others, so these are proved"
