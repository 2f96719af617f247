#!/bin/sh
# Measures calls of the library from Rust beside LMDB through its C interface, and prints the table of docs/BENCHMARKS.md's section
# 'From Rust', which publish.sh puts there:
#
#     bench/measure_library.sh >library_table.md && bench/publish.sh library_table.md
#
# MEMORY is a folder in memory (/dev/shm) and DISK one on a disk (/var/tmp). Everything is made in new folders there, which go at
# the end. DILLUVAS_LIB_DIR is a folder with a built library in place of this checkout's. It needs cargo and liblmdb-dev.
set -eu

[ "${1-}" != --help ] || { sed -n '2,/^[^#]/s/^# \{0,1\}//p' "$0"; exit; }

top=$(CDPATH='' cd -- "$(dirname -- "$(readlink -f -- "$0")")/.." && pwd)
for tool in cargo awk; do
    command -v "$tool" >/dev/null || { echo "measure_library.sh: it needs $tool" >&2; exit 1; }
done
memory=$(mktemp -d "${MEMORY:-/dev/shm}/library-XXXXXX")
disk=$(mktemp -d "${DISK:-/var/tmp}/library-XXXXXX")
trap 'rm -rf "$memory" "$disk"' EXIT
trap 'exit 1' HUP INT TERM

[ -n "${DILLUVAS_LIB_DIR:-}" ] || "$top/bindings/build.sh" >&2
(cd "$top/bench/library" && CARGO_TARGET_DIR=$top/bindings/out/target cargo build --release --offline -q)
load_before=$(cut -d ' ' -f 1-3 /proc/loadavg)
"$top/bindings/out/target/release/library" "$memory" "$disk" >"$memory/figures"
echo '<!-- part: library docs/BENCHMARKS.md -->'
printf 'Measured on %s: %s, %s processors, Linux %s, load average %s at the start and %s at the end; LMDB %s.\n\n' "$(date -u +%F)" \
    "$(sed -n 's/^model name[^:]*: //p' /proc/cpuinfo | head -n 1)" "$(nproc)" "$(uname -r)" "$load_before" \
    "$(cut -d ' ' -f 1-3 /proc/loadavg)" "$(dpkg-query -W -f '${Version}' liblmdb-dev 2>/dev/null || echo unknown)"
awk '
    $5 == "dilluvas" { ours = $6 }
    $5 == "lmdb" { lmdb = $6 }
    $5 == "lmdb" && $2 == 1000 {
        calls[$1] = calls[$1] sprintf("| `%s`%s | %.0f | %.0f | %.2f |\n", $4, $1 == "disk" ? ", over a file" : "", ours, lmdb, ours / lmdb)
    }
    $5 == "lmdb" && $1 == "memory" && $2 != 1000 {
        pages = pages sprintf("| %d | %d | %.0f | %.0f | %.2f |\n", $2, $3, ours, lmdb, ours / lmdb)
    }
    $5 == "pread" { away = sprintf("| %.0f | %.0f | %.0f | %.2f | %.2f |\n", ours, lmdb, $6, ours / lmdb, ours / $6) }
    END {
        print "| call | dilluvas, ns | LMDB, ns | ratio |"
        print "|---|---|---|---|"
        printf "%s%s", calls["memory"], calls["disk"]
        print "\nTwo sets and a read of a page, nanoseconds a call:\n"
        print "| pages | cache, MiB | dilluvas | LMDB | ratio |"
        print "|---|---|---|---|---|"
        printf "%s", pages
        print "\nReads of 100,000 pages over a file with a cache of 1 MiB, which are away from memory nearly always, nanoseconds a call:\n"
        print "| dilluvas | LMDB | `pread` | over LMDB | over `pread` |"
        print "|---|---|---|---|---|"
        printf "%s", away
    }
' "$memory/figures"
