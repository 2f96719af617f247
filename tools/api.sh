#!/bin/sh
# Prints docs/API.md: what a user of the cache, of maps in it, of the shared cache, and of the traits of logs and disks meets, made from the sources
# (api.awk) and two files that are written by hand.
#
#     tools/api.sh >docs/API.md
#
# docs/api/page.md has the order and the words between. A line of it that begins with @ names items by their crates:
#
#     @item CRATE/NAME              a type, a trait, a function or a constant
#     @calls CRATE/NAME CALL..      these calls of a type or a trait
#     @all CRATE/NAME               the type or trait, and all of its calls in the order of the sources
#
# Each item is printed with its signature, without its clauses, and with its text. A function with preconditions has a list of these, and
# docs/api/preconditions.txt has a row for each of them, with what meets it.
#
# It fails where an item has no text, a precondition no row or a row no precondition, and where page.md leaves out an item: a call of a type
# that it names, what sled_pagecache or sled_shared hands on, or what their public modules show.
#
# The status is 0 where all is there, and else 1.
set -eu

cd "$(CDPATH='' cd -- "$(dirname -- "$0")/.." && pwd)"
export LC_ALL=C

# The sources of the crates, the root of each before its modules.
sources() {
    for crate in sled_base sled_node sled_log sled_disk sled_pagecache sled_tree sled_shared; do
        echo "crates/$crate/src/lib.rt"
        find "crates/$crate/src" -name '*.rt' ! -name lib.rt ! -name tests.rt ! -path '*/tests/*' | sort
    done
}

# shellcheck disable=SC2046 # no path has a space
awk -f tools/api.awk $(sources) docs/api/preconditions.txt docs/api/page.md
