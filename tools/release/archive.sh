#!/bin/sh
# Writes an archive of a folder to standard output, the same bytes for the same files: as old as the last commit, and nobody's.
#
#     archive.sh PARENT NAME
set -eu

top=$(CDPATH='' cd -- "$(dirname -- "$0")/../.." && pwd)
time=$(git -C "$top" log -1 --format=%ct 2>/dev/null || echo 0)
tar -C "$1" --sort=name --format=gnu --owner=0 --group=0 --numeric-owner --mtime="@$time" -cf - "$2"
