#!/bin/sh
# Unpacks the archive of a release into an empty folder, with no toolchain on the PATH, and uses it as a user would: its sums are right, the
# programs answer scripts, the man page is there, and README's three programs, in C, Rust and Python, are built against it and run. cargo
# makes a package of the crate and builds it, pkg-config finds the library, and pip installs the wheel, which says of itself what it has to.
# It says which tool isn't there.
#
#     tools/released.sh ARCHIVE
#
# The status is 0 where all is as it has to be, and else 1.
set -eu

top=$(CDPATH='' cd -- "$(dirname -- "$0")/.." && pwd)
archive=$(readlink -f -- "$1")
work=$(mktemp -d)
trap 'rm -rf "$work"' EXIT
trap 'exit 1' HUP INT PIPE TERM
cd "$work"

fail() {
    echo "released.sh: $1"
    exit 1
}

# The PATH, where each folder that has the toolchain's command is one of links to all else.
path_without_rt() {
    number=0
    IFS=:
    for folder in $PATH; do
        if [ -e "$folder/rt" ]; then
            number=$((number + 1))
            mkdir "$work/path.$number"
            ln -s "$folder"/* "$work/path.$number/"
            rm "$work/path.$number/rt"
            folder=$work/path.$number
        fi
        printf '%s:' "$folder"
    done
}

# what the programs in Rust and Python print
both=$(printf 'fig = violet\nlime = green')

# says NAME TEXT: what a program has printed is what README says of it.
says() {
    [ "$(cat said)" = "$2" ] || fail "README's program in $1 prints otherwise: $(cat said)"
    rm -f fruit.db
    tried="$tried $1"
}

in_c() {
    "${CC:-cc}" -I"$to/include" -o readme "$top/bindings/c/readme.c" "$to/share/dilluvas/dilluvas_file.c" "$to/lib/libdilluvas.a"
    ./readme >said
    says C 'lime = green'
    if command -v pkg-config >/dev/null; then
        export PKG_CONFIG_PATH="$to/lib/pkgconfig"
        [ "$(pkg-config --modversion dilluvas)" = "$version" ] || fail 'pkg-config tells another version'
        # shellcheck disable=SC2046 # several words
        "${CC:-cc}" -o readme "$top/bindings/c/readme.c" "$(pkg-config --variable=file_c dilluvas)" $(pkg-config --cflags --libs dilluvas)
        LD_LIBRARY_PATH=$to/lib ./readme >said
        says pkg-config 'lime = green'
    fi
}

in_rust() {
    mkdir -p program/src
    cp "$top/bindings/rust/examples/readme.rs" program/src/main.rs
    printf '[package]\nname = "program"\nversion = "0.0.0"\nedition = "2024"\n\n[dependencies]\ndilluvas = { path = "%s/rust" }\n' "$to" >program/Cargo.toml
    CARGO_TARGET_DIR=$work/target cargo run -q --offline --manifest-path program/Cargo.toml >said
    says Rust "$both"
    DILLUVAS_LIB_DIR=$to/lib CARGO_TARGET_DIR=$work/target cargo package -q --offline --manifest-path "$to/rust/Cargo.toml" ||
        fail 'cargo makes no package of the crate, or its package does not build'
    tried="$tried cargo-package"
}

# What the installed package in a folder says of itself.
has_metadata() {
    python3 - "$1" "$version" <<'PROGRAM'
import sys
from importlib.metadata import Distribution

folder, version = sys.argv[1:]
(found,) = Distribution.discover(name="dilluvas", path=[folder])
said = found.metadata
assert found.version == version, found.version
assert said["License-Expression"] == "Apache-2.0 OR MIT" and said["Requires-Python"] == ">=3.10" and said["Summary"], said.items()
assert "Typing :: Typed" in said.get_all("Classifier"), said.items()
assert said["Description-Content-Type"] == "text/markdown" and "import dilluvas\n" in said.get_payload(), said.get_payload()
there = {str(file) for file in found.files if file.locate().is_file()}
assert {"dilluvas/py.typed", f"dilluvas-{version}.dist-info/licenses/LICENSE"} <= there, there
PROGRAM
}

in_python() {
    python3 -m zipfile -e "$to"/python/dilluvas-*.whl site
    PYTHONPATH=$work/site python3 "$top/bindings/python/readme.py" >said
    says Python "$both"
    if python3 -m pip --version >/dev/null 2>&1; then
        python3 -m pip install -q --no-cache-dir --no-index --no-deps --disable-pip-version-check --root-user-action ignore --target installed "$to"/python/dilluvas-*.whl
        PYTHONPATH=$work/installed python3 "$top/bindings/python/readme.py" >said
        says pip "$both"
        has_metadata installed || fail 'the installed package says otherwise of itself'
    fi
}

PATH=$(path_without_rt)
export PATH PYTHONDONTWRITEBYTECODE=1
unset DILLUVAS_SO DILLUVAS_LIB_DIR
! command -v rt >/dev/null || fail "the toolchain's command is still on the PATH"
tar -xzf "$archive"
to=$work/$(basename "$archive" .tar.gz)
version=${to##*/dilluvas-}
version=${version%-x86_64-linux}
(cd "$to" && sha256sum --quiet --strict -c SUMS) || fail 'its sums are wrong'
grep -Eq '^sledpc sources=[0-9a-f]{64} (logic=proved |kept: )' "$to/PROVED" || fail 'PROVED has no line of the program'

printf 'alloc\nset 2 1 62 76\nget 2\nset 2 1 63 77\n' | "$to/bin/sledpc" mem >said
[ "$(cat said)" = "$(printf 'page 2 1\nok 2\nleaf 2 62=76\nstale 2')" ] || fail "the program replies otherwise: $(cat said)"
printf 'alloc 61=62\nflush\n' | "$to/bin/sledpc" file pages.log >said
[ "$(echo 'get 2' | "$to/bin/sledpc" file pages.log)" = 'leaf 0 61=62' ] || fail 'what was flushed is not there'
printf 'set fruit lime green\nflush\n' | "$to/bin/dilluvas" fruit.maps >said
[ "$(echo 'get fruit lime' | "$to/bin/dilluvas" fruit.maps)" = 'value green' ] || fail 'a pair that was flushed is not there'
if [ -x "$to/libexec/dilluvas/command" ]; then
    [ "$("$to/bin/dilluvas" fruit.maps get fruit lime)" = green ] || fail 'the command does not find the pair'
    [ "$("$to/bin/dilluvas" -V)" = "dilluvas $version" ] || fail 'the command tells another version'
fi

[ -s "$to/share/man/man1/dilluvas.1" ] || fail 'there is no man page'
tried=' the program'
for tool in "${CC:-cc}" cargo python3; do
    if ! command -v "$tool" >/dev/null; then
        echo "released.sh: there is no $tool, so a program was left out"
        continue
    fi
    case $tool in
    cargo) in_rust ;;
    python3) in_python ;;
    *) in_c ;;
    esac
done
echo "released.sh: passed (${tried# })"
