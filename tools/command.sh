#!/bin/sh
# Runs the command for files of maps (docs/COMMAND.md) from a checkout: cargo builds it of the crate in bindings/rust, where that has changed,
# over the library that bindings/build.sh has put into bindings/out.
#
#     tools/command.sh [WORD..]
#
# The words are those of the command, and the status is its own. Without the library, or without a cargo, one line on standard error says
# so, and the status is 1.
set -eu

self=$(readlink -f -- "$0")
top=${self%/tools/*}
out=$top/bindings/out

fail() {
    echo "dilluvas: $1" >&2
    exit 1
}

[ -f "$out/libdilluvas.a" ] || fail 'the library was not proved and built here yet, which bindings/build.sh does; a script, by one word, needs none'
command -v cargo >/dev/null || fail 'there is no cargo, which builds this command; a script, by one word, needs none'
DILLUVAS_LIB_DIR=$out CARGO_TARGET_DIR=$out/target \
    cargo build -q --release --offline --manifest-path "$top/bindings/rust/Cargo.toml" --bin dilluvas >&2 || fail 'cargo could not build the command'
exec "$out/target/release/dilluvas" "$@"
