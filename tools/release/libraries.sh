#!/bin/sh
# Prints the libraries whose statements the gate keeps and a release has, the lowest first: those that a program in Rattle names, and those over
# which the programs and the library for other languages are built.
set -eu

cd "$(CDPATH='' cd -- "$(dirname -- "$0")/../.." && pwd)"
for top in sled_shared sled_tree sled_script sled_keys sled_handle; do
    tools/sum.sh --crates "$top"
done | awk '!seen[$0]++'
