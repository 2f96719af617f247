#!/bin/sh
# Prints the sums of the libraries' statements as they stand in crates/NAME/out/rlib.
set -eu

cd "$(CDPATH='' cd -- "$(dirname -- "$0")/../.." && pwd)"
for crate in $(tools/release/libraries.sh); do
    find "crates/$crate/out/rlib" -type f -exec sha256sum {} +
done | LC_ALL=C sort -k 2
