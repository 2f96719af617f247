#!/bin/sh
# Prints the version of this checkout, as bindings/rust/Cargo.toml has it.
set -eu

top=$(CDPATH='' cd -- "$(dirname -- "$0")/.." && pwd)
version=$(sed -n '/^\[package\]/,/^\[lints/ s/^version = "\([0-9A-Za-z.+-]*\)"$/\1/p' "$top/bindings/rust/Cargo.toml")
[ -n "$version" ] || { echo 'version.sh: bindings/rust/Cargo.toml has no version' >&2; exit 1; }
echo "$version"
