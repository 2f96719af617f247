#!/bin/sh
# Measures what one batch takes over a file from Rust, by the length of a segment, beside one transaction of LMDB with the same changes, and
# prints the table of docs/BENCHMARKS.md's section 'Batches larger than memory', which publish.sh puts there:
#
#     bench/measure_batches.sh >batches_table.md && bench/publish.sh batches_table.md
#
# DISK is a folder on a disk (/var/tmp), in which all is made in a new one that goes at the end. CHANGES says how many a batch has (`1000 10000
# 100000 1000000`), and RUNS how often each is made (3). DILLUVAS_LIB_DIR is as in measure_library.sh. It needs cargo, strace and liblmdb-dev.
set -eu

[ "${1-}" != --help ] || { sed -n '2,/^[^#]/s/^# \{0,1\}//p' "$0"; exit; }

top=$(CDPATH='' cd -- "$(dirname -- "$(readlink -f -- "$0")")/.." && pwd)
for tool in cargo awk strace; do
    command -v "$tool" >/dev/null || { echo "measure_batches.sh: it needs $tool" >&2; exit 1; }
done
disk=$(mktemp -d "${DISK:-/var/tmp}/batches-XXXXXX")
trap 'rm -rf "$disk"' EXIT
trap 'exit 1' HUP INT TERM

[ -n "${DILLUVAS_LIB_DIR:-}" ] || "$top/bindings/build.sh" >&2
target=${CARGO_TARGET_DIR:-$top/bindings/out/target}
(cd "$top/bench/library" && CARGO_TARGET_DIR=$target cargo build --release --offline -q)
program=$target/release/library

# The syncs of a run. LMDB ends a transaction by a write that is synced by itself.
syncs_of() {
    strace -f -e trace=fsync,fdatasync,msync,pwrite64,openat -o "$disk/calls" "$program" --batch "$disk" "$1" "$2" >"$disk/traced"
    awk '/ openat\(.*O_DSYNC/ { dsync[$NF] = 1 }
        / (fsync|fdatasync|msync)\(/ { n++ }
        / pwrite64\(/ { split($0, part, /pwrite64\(|,/); n += part[2] in dsync }
        END { print n + 0 }' "$disk/calls"
}

load_before=$(cut -d ' ' -f 1-3 /proc/loadavg)
for changes in ${CHANGES:-1000 10000 100000 1000000}; do
    for segment in 4096 1048576 16777216 0; do
        run=0
        : >"$disk/runs"
        while [ "$run" -lt "${RUNS:-3}" ]; do
            "$program" --batch "$disk" "$segment" "$changes" >>"$disk/runs"
            run=$((run + 1))
        done
        # a batch of one change makes two, as its transaction does, and the file of the other one is there behind it
        syncs=$((2 - $(syncs_of "$segment" 1) + $(syncs_of "$segment" "$changes")))
        opened=0
        [ "$segment" -eq 0 ] || opened=$("$program" --batch "$disk" "$segment" 0 | cut -d ' ' -f 2)
        awk -v row="$changes $segment $syncs $opened" 'NR == 1 || $1 < least { least = $1 } $2 > most { most = $2 } END { print row, least, most }' "$disk/runs"
    done
done >"$disk/figures"
echo '<!-- part: batches docs/BENCHMARKS.md -->'
printf 'Measured on %s: %s, %s processors, Linux %s, load average %s at the start and %s at the end; %s runs of each; LMDB %s.\n\n' "$(date -u +%F)" \
    "$(sed -n 's/^model name[^:]*: //p' /proc/cpuinfo | head -n 1)" "$(nproc)" "$(uname -r)" "$load_before" \
    "$(cut -d ' ' -f 1-3 /proc/loadavg)" "${RUNS:-3}" "$(dpkg-query -W -f '${Version}' liblmdb-dev 2>/dev/null || echo unknown)"
awk '
    function name() {
        return $2 == 0 ? "LMDB, one transaction" : $2 >= 1048576 ? "segments of " $2 / 1048576 " MiB" : "segments of " thousands($2) " bytes"
    }
    function thousands(n) {
        return n >= 1000 ? sprintf("%s,%03d", thousands(int(n / 1000)), n % 1000) : n
    }
    BEGIN {
        print "| changes | store | syncs | ms | MB at most | MB at most to open the file |"
        print "|---|---|---|---|---|---|"
    }
    { printf "| %s | %s | %s | %s | %.1f | %s |\n", thousands($1), name(), thousands($3), thousands(int($5 + 0.5)), $6 / 1000, $4 ? sprintf("%.1f", $4 / 1000) : "-" }
' "$disk/figures"
