#!/bin/sh
# Runs the gate and prints the cells of docs/dev/GATE.md's table: the processor minutes of each crate's proof, tests and mutants. It
# looks at the processes of the toolchain once a second, so of each the last second may be missing; the last line tells how much of the
# processor time is in no cell, with what the programs, the tests' runs and the shell took.
#
#     tools/cells.sh [COMMAND ARGUMENT..]
#
# COMMAND is ./check if none is given. What it prints goes to standard error, and its status is that of this script, or else 1 without
# a python3. The gate itself prints the same rows right before its closing lines, and keeps them in out/gate/cells.
set -eu

top=$(CDPATH='' cd -- "$(dirname -- "$0")/.." && pwd)
command -v python3 >/dev/null || { echo 'cells.sh: there is no python3' >&2; exit 1; }
[ "$#" -gt 0 ] || set -- "$top/check"
PYTHONDONTWRITEBYTECODE=1 exec python3 "$top/tools/cells/cells.py" "$top" "$@"
