#!/bin/sh
# Has the programs that were built make each thing that grows as large as 2^16 and 2^17, with ample memory, and compares what they reply with
# what the commands say (docs/SCRIPT.md, docs/KEYS.md): a container that refuses, loses or mixes up something from such a size on is in no
# contract that says so, and the prover's tests are too slow for that size. Each is looked at from three below to three above these powers,
# in memory and in a file that is opened again at each of these sizes.
#
#     tools/sizes.sh [SLEDPC [DILLUVAS]]
#
# What meets what (sizes/pages.py, keys.py, crafted.py, lines.py):
#
#     the table of pages          `alloc`, up to 2^18 too, where a second chunk begins; with `amp`, which reads all of them
#     a file's heads of pages     the same over a file, at its opening too
#     free ids                    `free`, and `alloc` takes the greatest
#     messages of a log           `set` of one page, and of pages that have up to ten each (their chains); with `gc`, moves
#     frames of a file            `flush` behind each `set`
#     batches, and their marks    `pin`, `set` and `seal` or `cancel`; files of as many old marks and of cancelled batches
#     a batch                     `pin`, as many times `alloc`, and `seal`; files that end in a batch of as many changes
#     ids                         `id`
#     names                       files with as many, less some: `cas` adds one, and takes another out and puts it in again; `maps`
#     a leaf, an index            files with as many pairs or children, less some: `set`, `del` and `get`
#     keys of a map               `set`, `len`, `get`, `first`, `last`, `scan`, then `del` of each, and `drop`; and `set` in one batch
#     lines of a script           as many `root`
#     bytes of a line             `set` of as long a value; and the same with each read of a single byte, where there is a C compiler
#     pieces of a reply           the `get` of a leaf, of an index, and `maps`
#     the book of a shared cache  `crew`, up to 131,075 entries (131,073 and 131,071 are no products of what it takes)
#
# The rewriting of as many pages and free pages, in memory and over a file, leaves that come whole, keys, values and names of as many bytes, and
# bytes of a file that are handed in one by one are met by bindings/c/sizes.c. A list of recent use, which in a cache has a 256th of all pages,
# and a snapshot, which no program asks for, are met at 2^17 by tests of sled_base_tests and sled_pagecache_move_tests. Not met: names in memory,
# where each change keeps all of them again; and what a book says.
#
# Without a python3 nothing is tried, and it says so. The status is 0 where nothing differs, and else 1.
set -eu

top=$(CDPATH='' cd -- "$(dirname -- "$0")/.." && pwd)
cache=$(readlink -m -- "${1:-$top/crates/sledpc/out/sledpc}")
maps=$(readlink -m -- "${2:-$top/crates/dilluvas/out/dilluvas}")
for program in "$cache" "$maps"; do
    [ -x "$program" ] || { echo "sizes.sh: there is no program $program"; exit 1; }
done
if ! command -v python3 >/dev/null; then
    echo 'sizes.sh: there is no python3, so nothing is tried' >&2
    exit 0
fi
work=$(mktemp -d)
trap 'rm -rf "$work"' EXIT
trap 'exit 1' HUP INT PIPE TERM
single=
if command -v "${CC:-cc}" >/dev/null; then
    single=$work/single.so
    "${CC:-cc}" -O2 -Wall -Wextra -shared -fPIC -o "$single" "$top/tools/single.c"
else
    echo 'sizes.sh: no C compiler: no line was read byte by byte' >&2
fi
PYTHONDONTWRITEBYTECODE=1 python3 "$top/tools/sizes/sizes.py" "$cache" "$maps" ${single:+"$single"}
