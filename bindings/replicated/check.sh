#!/bin/sh
# Tests the devices on real servers: PostgreSQL, and nbdkit for block devices. Where one of them isn't installed it says that it looks at nothing
# there. `check.sh RUNS` makes RUNS failovers, or 8, and cuts the network at each byte where RUNS is 100 or more. The library
# is in DILLUVAS_LIB_DIR, or in bindings/out. The status is 0 where all pass.
set -eu

here=$(CDPATH='' cd -- "$(dirname -- "$0")" && pwd)
runs=${1:-8}
DILLUVAS_LIB_DIR=${DILLUVAS_LIB_DIR:-$here/../out}
CARGO_TARGET_DIR=${CARGO_TARGET_DIR:-$here/../out/target}
export DILLUVAS_LIB_DIR CARGO_TARGET_DIR

skip() {
    echo "replicated: $1, so nothing was tested there"
}

# Whether programs that use a library can be linked.
links() {
    echo 'int main(void) { return 0; }' | "${CC:-cc}" -x c - -o /dev/null -Wl,--no-as-needed "-l$1" 2>/dev/null
}

command -v cargo >/dev/null || { skip 'there is no cargo'; exit 0; }
links pq || { skip 'libpq is missing'; exit 0; }

PG_BIN=${PG_BIN:-$(pg_config --bindir 2>/dev/null || true)}
for program in initdb postgres psql pg_ctl pg_basebackup; do
    [ -x "$PG_BIN/$program" ] || { skip "$program of PostgreSQL isn't installed"; PG_BIN=; break; }
done
if [ "$(id -u)" = 0 ] && ! id postgres >/dev/null 2>&1; then
    skip 'there is no user postgres, as whom servers run that root starts'
    PG_BIN=
fi
export PG_BIN

place=/tmp
[ -d /dev/shm ] && place=/dev/shm
folder=$(mktemp -d "$place/dilluvas-replicated-XXXXXX")
trap 'rm -rf "$folder"' EXIT
chmod 755 "$folder"
export DILLUVAS_REPLICATED_FOLDER="$folder" DILLUVAS_REPLICATED_RUNS="$runs"
[ "$runs" -lt 100 ] || export DILLUVAS_REPLICATED_STEP=1

cd "$here"
cargo test --offline -q --lib --examples
if [ -n "$PG_BIN" ]; then
    cargo test --offline -q --test engine -- --nocapture
    echo 'PostgreSQL: passed'
fi
if ! links nbd; then
    skip 'libnbd is missing'
elif ! command -v nbdkit >/dev/null; then
    skip "nbdkit isn't installed"
else
    cargo test --offline -q --features nbd --test nbd
    echo 'nbdkit: passed'
fi
