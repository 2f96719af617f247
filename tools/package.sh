#!/bin/sh
# Makes the archive of the programs and the library that runs without the toolchain, of what was built of the sources that stand here.
#
#     tools/package.sh FOLDER
#
# It is FOLDER/dilluvas-VERSION-x86_64-linux.tar.gz, and its own page (tools/release/README.md) says what is in it. What was proved is told by
# out/gate/PROVED, which ./check writes. It takes the programs and bindings/out as they are. The status is 0, or else 1, and then no archive
# of this name is new.
set -eu

top=$(CDPATH='' cd -- "$(dirname -- "$0")/.." && pwd)
folder=$(CDPATH='' cd -- "$1" && pwd)
cd "$top"
version=$(tools/version.sh)
name=dilluvas-$version-x86_64-linux

fail() {
    echo "package.sh: $1" >&2
    exit 1
}

[ -f out/gate/PROVED ] || fail 'there is no out/gate/PROVED, which ./check writes: run that'
tools/built.sh is sledpc sledpc && tools/built.sh is dilluvas dilluvas || fail 'a program was not built of these sources: run tools/build.sh'
tools/built.sh is sled_c libsled_c.a || fail 'the library was not built of these sources: run tools/build.sh'
for file in libdilluvas.a libdilluvas.so dilluvas.h dilluvas_file.h dilluvas_file.c dilluvas_rewriting.h; do
    [ -f "bindings/out/$file" ] || fail "there is no bindings/out/$file: run bindings/build.sh"
done
tools/man.sh || fail 'the man page is not that of the command'
work=$(mktemp -d "$folder/new.XXXXXX") || fail "there is no room in $folder"
trap 'rm -rf "$work"' EXIT
trap 'exit 1' HUP INT PIPE TERM
made=$work/$name

# put FILE.. FOLDER: copies, with the same modes wherever this is made.
put() {
    for to; do :; done
    mkdir -p "$made/$to"
    while [ "$#" -gt 1 ]; do
        cp "$1" "$made/$to/"
        shift
    done
}

# The same with the version filled in.
fill() {
    sed "s/@VERSION@/$version/g" "$1" >"$made/$2"
}

# check_page PAGE LANGUAGE PROGRAM: the block of that language in a page is the program, byte for byte.
check_page() {
    awk -v begin="\`\`\`$2" '/^```/ { inside = $0 == begin; next } inside' "$1" | cmp -s - "$3" || fail "the program in $1 is not $3"
}

# The package that cargo makes of the crate has sources alone.
check_crate() {
    command -v cargo >/dev/null || return 0
    cargo package -q --list --offline --allow-dirty --manifest-path bindings/rust/Cargo.toml >"$work/list" 2>"$work/why" ||
        fail "cargo can't list the files of the crate's package: $(cat "$work/why")"
    for file in README.md LICENSE build.rs src/lib.rs src/bin/dilluvas/main.rs examples/readme.rs; do
        grep -qxF "$file" "$work/list" || fail "the crate's package has no $file"
    done
    ! grep -Ev '^(\.cargo_vcs_info\.json|Cargo\.(toml|toml\.orig|lock)|README\.md|LICENSE|build\.rs|(src|examples)/.*\.rs)$' "$work/list" >"$work/more" ||
        fail "the crate's package has more than sources: $(tr '\n' ' ' <"$work/more")"
}

# The wheel that pip makes of the checkout is the one that was made here.
check_wheel() {
    python3 -m pip --version >/dev/null 2>&1 || return 0
    PYTHONDONTWRITEBYTECODE=1 DILLUVAS_SO=$top/bindings/out/libdilluvas.so python3 -m pip wheel -q --no-cache-dir --no-index --no-deps \
        --disable-pip-version-check --wheel-dir "$work/wheel" bindings/python || fail 'pip makes no wheel of bindings/python'
    cmp "$work"/wheel/*.whl "$made"/python/*.whl || fail 'pip makes another wheel of bindings/python'
}

# The command for files of maps, where there is a cargo that builds it.
put_command() {
    if ! command -v cargo >/dev/null; then
        echo 'package.sh: there is no cargo, so the archive has no command for files of maps' >&2
        return
    fi
    DILLUVAS_LIB_DIR=$top/bindings/out CARGO_TARGET_DIR=$top/bindings/out/target \
        cargo build -q --release --offline --manifest-path bindings/rust/Cargo.toml --bin dilluvas || fail 'cargo could not build the command'
    cp bindings/out/target/release/dilluvas "$made/libexec/dilluvas/command"
}

check_page bindings/rust/README.md rust bindings/rust/examples/readme.rs
check_page bindings/python/README.md python bindings/python/readme.py
check_crate
mkdir "$made"
put crates/sledpc/out/sledpc bin
put crates/dilluvas/out/dilluvas libexec/dilluvas
mv "$made/libexec/dilluvas/dilluvas" "$made/libexec/dilluvas/script"
cp tools/release/dilluvas.sh "$made/bin/dilluvas"
put_command
put bindings/out/dilluvas.h bindings/out/dilluvas_file.h bindings/out/dilluvas_rewriting.h include
put bindings/out/libdilluvas.a bindings/out/libdilluvas.so lib
put bindings/out/dilluvas_file.c share/dilluvas
put docs/dilluvas.1 share/man/man1
put bindings/c/readme.c bindings/python/readme.py examples
put bindings/rust/Cargo.toml bindings/rust/Cargo.lock bindings/rust/build.rs bindings/rust/README.md bindings/rust/LICENSE rust
put bindings/rust/examples/readme.rs bindings/rust/examples/key_value.rs bindings/rust/examples/job_queue.rs rust/examples
cp -R bindings/rust/src "$made/rust/src"
put LICENSE out/gate/PROVED .
mkdir "$made/lib/pkgconfig" "$made/python"
fill tools/release/dilluvas.pc lib/pkgconfig/dilluvas.pc
fill tools/release/README.md README.md
python3 tools/release/wheel.py "$version" bindings/out/libdilluvas.so "$made/python"
check_wheel
find "$made" -type d -exec chmod 755 {} +
find "$made" -type f -exec chmod 644 {} +
chmod 755 "$made"/bin/* "$made"/libexec/dilluvas/* "$made/lib/libdilluvas.so"
(cd "$made" && find . -type f ! -name SUMS -exec sha256sum {} + | LC_ALL=C sort -k 2 >"$work/SUMS" && mv "$work/SUMS" SUMS)
tools/release/archive.sh "$work" "$name" >"$work/tar"
gzip -n -9 "$work/tar"
mv -f "$work/tar.gz" "$folder/$name.tar.gz"
