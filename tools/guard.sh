#!/bin/sh
# Tries programs that let the guard of a batch go, or use the cache beside it, and prints what differs: the compiler refuses each at
# the line that is marked here, by the error that is named there, and refuses nothing else. Nothing is proved for it. The gate's
# mutants can't show this, since a mutant has to compile.
#
# The status is 0 where nothing differs, and else 1.
set -eu

cd "$(CDPATH='' cd -- "$(dirname -- "$0")/.." && pwd)"
work=$(mktemp -d)
trap 'rm -rf "$work"' EXIT
trap 'exit 1' HUP INT PIPE TERM
status=0

# The cache and the crates that it stands on, with a program beside them.
library=$(awk '$1 == "sled_pagecache:" { $1 = "sled_pagecache"; print }' crates.txt)
mkdir -p "$work/crates/refused/src"
for crate in $library; do
    grep "^$crate:" crates.txt >>"$work/crates.txt"
    mkdir "$work/crates/$crate"
    cp -R "crates/$crate/src" "crates/$crate/specs" "crates/$crate/proofs" "$work/crates/$crate"
done
echo "refused: $library" >>"$work/crates.txt"
program=$work/crates/refused/src/main.rt

# try: the program on standard input, after what each begins with. A line that is to be refused ends in `// error: NAME`.
try() {
    {
        printf '#![tactic(auto)]\n\nuse sled_pagecache::{Error, Log, PageCache};\n\nfn main() {}\n\n'
        cat
    } >"$program"
    sed -n '=;s/.*\/\/ error: //p' "$program" | awk '/^[0-9]+$/ { line = $0; next } { print line, $0 }' >"$work/wanted"
    (cd "$work/crates/refused" && rt try) >"$work/said" 2>&1 || true
    sed -n 's/^src\/main\.rt:\([0-9]*\):[0-9]*: error\[\([a-z0-9-]*\)\].*/\1 \2/p' "$work/said" | sort -n >"$work/found"
    if ! diff "$work/wanted" "$work/found" >"$work/differs"; then
        echo 'guard.sh: the lines to be refused (<) differ from those that are (>) in this program:'
        cat "$work/differs" "$program"
        tail -n 20 "$work/said"
        status=1
    fi
}

try <<'END'
fn dropped<L: Log>(cache: &mut PageCache<L>) -> Result<(), Error> {
    drop(cache.pin_log()?); // error: unsatisfied-bound
    Ok(())
}

fn forgotten<L: Log>(cache: &mut PageCache<L>) -> Result<(), Error> {
    std::mem::forget(cache.pin_log()?); // error: unsatisfied-bound
    Ok(())
}
END

try <<'END'
fn let_go_where_its_block_ends<L: Log>(cache: &mut PageCache<L>) -> Result<(), Error> {
    let mut guard = cache.pin_log()?; // error: linear-value-let-go
    let _ = guard.cache().size_on_disk();
    Ok(())
}

fn passed_over<L: Log>(cache: &mut PageCache<L>) -> Result<(), Error> {
    let _ = cache.pin_log(); // error: linear-value-let-go
    Ok(())
}

fn let_go_by_an_error<L: Log>(cache: &mut PageCache<L>) -> Result<(), Error> {
    let mut guard = cache.pin_log()?;
    let _ = guard.cache().size_on_disk()?; // error: linear-value-let-go
    guard.seal_batch()
}

fn spent<L: Log>(cache: &mut PageCache<L>) -> Result<(), Error> {
    let mut guard = cache.pin_log()?;
    let _ = guard.cache().size_on_disk();
    guard.seal_batch()
}
END

try <<'END'
fn used_beside<L: Log>(cache: &mut PageCache<L>) -> Result<(), Error> {
    let guard = cache.pin_log()?;
    let _ = cache.flush(); // error: borrow-e0499
    guard.seal_batch()
}

fn asked_beside<L: Log>(cache: &mut PageCache<L>) -> Result<(), Error> {
    let guard = cache.pin_log()?;
    let _ = cache.batch_open(); // error: borrow-e0502
    guard.seal_batch()
}

fn lent_for_too_long<L: Log>(cache: &mut PageCache<L>) -> Result<(), Error> {
    let mut guard = cache.pin_log()?;
    let lent = guard.cache();
    guard.seal_batch()?; // error: borrow-e0505
    let _ = lent.flush();
    Ok(())
}

fn spent_twice<L: Log>(cache: &mut PageCache<L>) -> Result<(), Error> {
    let guard = cache.pin_log()?;
    guard.cancel()?;
    guard.seal_batch() // error: borrow-e0382
}

fn settled<L: Log>(cache: &mut PageCache<L>) -> Result<u64, Error> {
    let mut guard = cache.pin_log()?;
    let size = guard.cache().size_on_disk();
    guard.settle(size)
}
END

exit $status
