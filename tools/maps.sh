#!/bin/sh
# Compares the program of keys and values with plain sorted dictionaries (maps/, in Python): maps of very many keys, and random lists of all its
# lines, each in memory and in a file that is opened again. Then it kills the program at random moments while it changes a file, and opens the
# file: that holds the maps after a prefix of the script's changes which has all that a reply to a flush had confirmed and splits no batch, and
# no id comes twice.
#
#     tools/maps.sh [PROGRAM [SEED [KEYS [LISTS [KILLS]]]]]
#
# The seed (1) decides the lines, and the moments of the kills as far as the machine keeps time; what a kill left decides the rest. Without a
# python3 nothing is tried, and it says so. The status is 0 where nothing differs, and else 1.
set -eu

top=$(CDPATH='' cd -- "$(dirname -- "$0")/.." && pwd)
program=$(readlink -f -- "${1:-$top/crates/dilluvas/out/dilluvas}")
[ -x "$program" ] || { echo "maps.sh: there is no program $program"; exit 1; }
if ! command -v python3 >/dev/null; then
    echo 'maps.sh: there is no python3, so nothing is tried' >&2
    exit 0
fi
PYTHONDONTWRITEBYTECODE=1 exec python3 "$top/tools/maps/maps.py" "$program" "${2:-1}" "${3:-1000000}" "${4:-60}" "${5:-60}"
