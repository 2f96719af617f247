#!/bin/sh
# Gives the program hostile files, scripts and words, and prints what it does that it may not: each run ends within ten seconds and 64 MiB,
# by no signal; its status, its replies and what it reports are those that a plain model of the file and the script says (fuzz/, which reads
# by bindings/python); a file that it refuses stays as it was, and one that it opened holds what it flushed.
#
#     tools/fuzz.sh [SECONDS [SEED [CASE]]]
#
# It goes on for so many seconds (60). The seed (the time, if none is given) and the number of a case decide all of it, but for how many
# cases are made; a failure names both, and with both that case alone is made. PROGRAM=FILE tries another program. Without a python3
# nothing is tried, and it says so. The status is 0 where nothing differs, and else 1.
set -eu

top=$(CDPATH='' cd -- "$(dirname -- "$0")/.." && pwd)
program=$(readlink -f -- "${PROGRAM:-$top/crates/sledpc/out/sledpc}")
[ -x "$program" ] || { echo "fuzz.sh: there is no program $program"; exit 1; }
if ! command -v python3 >/dev/null; then
    echo 'fuzz.sh: there is no python3, so nothing is tried' >&2
    exit 0
fi
PYTHONDONTWRITEBYTECODE=1 exec python3 "$top/tools/fuzz/fuzz.py" "$program" "${1:-60}" "${2:-$(date +%s)}" ${3:+"$3"}
