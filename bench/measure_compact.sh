#!/bin/sh
# Measures how long it takes to rewrite a file from Rust, and how many bytes that takes before and then, beside LMDB's copy with compaction,
# and prints the table of docs/BENCHMARKS.md's section 'Rewriting a file', which publish.sh puts there:
#
#     bench/measure_compact.sh >compact_table.md && bench/publish.sh compact_table.md
#
# DISK is a folder on a disk (/var/tmp), in which all is made in a new one that goes at the end. DILLUVAS_LIB_DIR is as in
# measure_library.sh. It needs cargo and liblmdb-dev.
set -eu

[ "${1-}" != --help ] || { sed -n '2,/^[^#]/s/^# \{0,1\}//p' "$0"; exit; }

top=$(CDPATH='' cd -- "$(dirname -- "$(readlink -f -- "$0")")/.." && pwd)
for tool in cargo awk; do
    command -v "$tool" >/dev/null || { echo "measure_compact.sh: it needs $tool" >&2; exit 1; }
done
disk=$(mktemp -d "${DISK:-/var/tmp}/compact-XXXXXX")
trap 'rm -rf "$disk"' EXIT
trap 'exit 1' HUP INT TERM

[ -n "${DILLUVAS_LIB_DIR:-}" ] || "$top/bindings/build.sh" >&2
(cd "$top/bench/library" && CARGO_TARGET_DIR=$top/bindings/out/target cargo build --release --offline -q)
load_before=$(cut -d ' ' -f 1-3 /proc/loadavg)
"$top/bindings/out/target/release/library" --compact "$disk" >"$disk/figures"
echo '<!-- part: compact docs/BENCHMARKS.md -->'
printf 'Measured on %s: %s, %s processors, Linux %s, load average %s at the start and %s at the end; LMDB %s.\n\n' "$(date -u +%F)" \
    "$(sed -n 's/^model name[^:]*: //p' /proc/cpuinfo | head -n 1)" "$(nproc)" "$(uname -r)" "$load_before" \
    "$(cut -d ' ' -f 1-3 /proc/loadavg)" "$(dpkg-query -W -f '${Version}' liblmdb-dev 2>/dev/null || echo unknown)"
awk '
    function name() {
        if ($1 == "lmdb") return "LMDB"
        return $2 ? "dilluvas, all pages in memory" : "dilluvas, next to none in memory"
    }
    BEGIN {
        print "| store | MB before | MB after | ms |"
        print "|---|---|---|---|"
    }
    { printf "| %s | %.1f | %.1f | %.0f |\n", name(), $3 / 1e6, $4 / 1e6, $5 }
' "$disk/figures"
