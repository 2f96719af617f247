#!/bin/sh
# Makes a release of a fresh clone in which ./check passed:
#
# - dilluvas-VERSION-x86_64-linux.tar.gz, the program and the library, which need no toolchain (tools/package.sh);
# - dilluvas-VERSION-proved.tar.zst, the libraries' statements as the gate proved them, which tools/build.sh takes in place of proving these
#   (tools/take.sh);
# - SUMS, the sums of both.
#
#     tools/release.sh [FOLDER]
#
# FOLDER is out/release if none is given. The status is 0 where all three are there, and else 1 with a line that says why: where the gate did
# not pass, or something was changed since, and then nothing in FOLDER is new.
set -eu

top=$(CDPATH='' cd -- "$(dirname -- "$0")/.." && pwd)
mkdir -p "${1:-$top/out/release}"
folder=$(CDPATH='' cd -- "${1:-$top/out/release}" && pwd)
cd "$top"
version=$(tools/version.sh)
proved=out/gate/PROVED

fail() {
    echo "release.sh: $1" >&2
    exit 1
}

# ---- what stands here is what passed

for file in "$proved" out/gate/passed; do
    [ -f "$file" ] || fail './check has not passed here'
done
commit=$(git rev-parse HEAD)
[ -z "$(git status --porcelain)" ] || fail 'there are changes that are in no commit'
grep -qxF "commit $commit" "$proved" || fail "./check passed at $(sed -n 's/^commit //p' "$proved"), and this is $commit"
grep -qxF "toolchain $(tools/built.sh toolchain)" "$proved" || fail './check passed with another toolchain'
while read -r crate sum _; do
    case $sum in
    sources=*) [ "${sum#sources=}" = "$(tools/sum.sh "$crate")" ] || fail "the sources of $crate have changed since ./check passed" ;;
    esac
done <"$proved"
[ -f out/gate/statements ] || fail './check kept no statements, since libraries had been proved here before it: run it in a fresh clone'
tools/release/statements.sh | cmp -s - out/gate/statements || fail 'the statements of the libraries are not those that ./check left'
command -v zstd >/dev/null || fail 'there is no zstd'

# ---- the archives

work=$(mktemp -d "$folder/new.XXXXXX") || fail "there is no room in $folder"
trap 'rm -rf "$work"' EXIT
trap 'exit 1' HUP INT PIPE TERM
tools/package.sh "$work"

name=dilluvas-$version-proved
for crate in $(tools/release/libraries.sh); do
    mkdir -p "$work/$name/crates/$crate"
    cp -R "crates/$crate/out/rlib" "$work/$name/crates/$crate/rlib"
    tools/sum.sh "$crate" >"$work/$name/crates/$crate/sum"
done
cp "$proved" LICENSE "$work/$name/"
find "$work/$name" -type d -exec chmod 755 {} +
find "$work/$name" -type f -exec chmod 644 {} +
(cd "$work/$name" && find . -type f -exec sha256sum {} + | LC_ALL=C sort -k 2 >../SUMS && mv ../SUMS SUMS)
tools/release/archive.sh "$work" "$name" >"$work/tar"
zstd -q -12 "$work/tar" -o "$work/$name.tar.zst"

tools/released.sh "$work/dilluvas-$version-x86_64-linux.tar.gz" >&2
(cd "$work" && sha256sum dilluvas-*.tar.* >SUMS)
mv -f "$work"/dilluvas-*.tar.* "$work/SUMS" "$folder/"
echo "release.sh: made dilluvas-$version-x86_64-linux.tar.gz, $name.tar.zst and SUMS in $folder" >&2
