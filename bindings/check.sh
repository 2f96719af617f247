#!/bin/sh
# Builds the library (build.sh) and runs the programs that call it: those in C, under valgrind too where it is there, and the tests of the
# crate and of the module, where there is a cargo and a python3. Those of full disks mount a file system in memory, which root may; else they
# say that they look at nothing. Then it compares what they reply to scripts with what `sledpc` does
# (scripts.sh). The status is 0 where all pass.
set -eu

here=$(CDPATH='' cd -- "$(dirname -- "$0")" && pwd)
out=$here/out
"$here/build.sh" "$out"

# Compiles a program of bindings/c.
compile() {
    name=$1
    shift
    "${CC:-cc}" -std=c11 -Wall -Wextra -Wpedantic -Werror -O2 -g -I"$out" -o "$out/$name" "$here/c/$name.c" "$@" "$out/libdilluvas.a"
}

# A program may be compiled with more warnings than these, or as C++.
strict='-Wall -Wextra -Wpedantic -Wconversion -Wsign-conversion -Wshadow -Werror -fsyntax-only'
# shellcheck disable=SC2086 # options
"${CC:-cc}" -std=c11 $strict -x c -I"$out" "$out/dilluvas_file.h" "$out/dilluvas_file.c" "$out/dilluvas_rewriting.h" "$here/c/dilluvas_rewriting.c"
if command -v "${CXX:-c++}" >/dev/null; then
    # shellcheck disable=SC2086 # options
    "${CXX:-c++}" -std=c++11 $strict -x c++ -I"$out" "$out/dilluvas_file.h" "$out/dilluvas_rewriting.h"
fi

compile calls
"$out/calls"
files=$(mktemp -d)
# Programs that flush after each few changes have their files in memory where the system has a place for that: a disk takes some milliseconds
# for each sync. They kill processes, and take the power from no machine.
quick=$files
[ ! -d /dev/shm ] || quick=$(mktemp -d /dev/shm/dilluvas.XXXXXX)
trap 'rm -rf "$files" "$quick"' EXIT
chmod 755 "$files" "$quick"
compile no_memory "$out/dilluvas_file.c" -Wl,--wrap=malloc,--wrap=calloc,--wrap=realloc,--wrap=free
"$out/no_memory" "$quick"
failing=-Wl,--wrap=pread,--wrap=pwrite,--wrap=fdatasync,--wrap=fsync,--wrap=rename,--wrap=link
compile file "$here/c/failing.c" "$out/dilluvas_file.c" "$failing"
"$out/file" "$files"
for name in compact compact_failing full_disk abandoned processes; do
    compile "$name" "$here/c/steps.c" "$here/c/failing.c" "$out/dilluvas_file.c" "$failing"
    "$out/$name" "$files"
done
for name in space rewriting; do
    compile "$name" "$here/c/steps.c" "$here/c/failing.c" "$out/dilluvas_file.c" "$failing"
    "$out/$name" "$quick"
done
for name in space_steps space_processes space_failing; do
    compile "$name" "$here/c/steps.c" "$here/c/stepping.c" "$here/c/failing.c" "$out/dilluvas_file.c" "$failing"
    "$out/$name" "$quick"
done
compile rewriting_damaged "$here/c/steps.c" "$here/c/by_hand.c" "$here/c/failing.c" "$out/dilluvas_file.c" "$failing"
"$out/rewriting_damaged" "$quick"
compile sizes "$here/c/steps.c" "$here/c/failing.c" "$out/dilluvas_file.c" "$failing"
"$out/sizes" "$files"
compile amplification "$here/c/steps.c" "$here/c/failing.c" "$out/dilluvas_file.c" "$failing"
"$out/amplification" "$quick"
compile meanwhile "$here/c/steps.c" "$here/c/failing.c" "$out/dilluvas_file.c" "$failing,--wrap=open"
"$out/meanwhile" "$files"
compile paths "$out/dilluvas_file.c" -Wl,--wrap=pread,--wrap=fdatasync,--wrap=fsync
"$out/paths" "$files"
rm -rf "$files/paths"
compile maps "$here/c/failing.c" "$out/dilluvas_file.c" "$failing"
"$out/maps" "$files"
compile maps_model "$here/c/failing.c" "$out/dilluvas_file.c" "$failing"
"$out/maps_model" "$files"
compile killed "$out/dilluvas_file.c" -Wl,--wrap=pwrite,--wrap=fdatasync,--wrap=fsync,--wrap=rename
"$out/killed" "$files" 300
"$here/races.sh"
"$here/races.sh" 2
compile example_job_queue "$out/dilluvas_file.c" -Wconversion
compile script "$here/c/script_lines.c" "$out/dilluvas_file.c"
awk -v seed=1 -v lines=300 -v parts=1 -v name="$files/script" -v over_file=0 -v moves=1 -f "$here/scripts.awk"
if command -v valgrind >/dev/null; then
    for program in calls "no_memory $quick" "file $files" "compact $files" \
        "compact_failing $files" "space $quick" "rewriting $quick 1" "rewriting_damaged $quick 100" "space_steps $quick" \
        "space_processes $quick" "space_failing $quick" "full_disk $files" "maps $files" "maps_model $files 400" "amplification $quick few" "abandoned $files" "processes $files" "meanwhile $files" "paths $files" 'script mem' "script file $files/log"; do
        # shellcheck disable=SC2086 # a program and its arguments
        valgrind -q --child-silent-after-fork=yes --error-exitcode=1 --leak-check=full --show-leak-kinds=all "$out/"$program \
            <"$files/script.1" >/dev/null
    done
    echo 'valgrind: passed'
fi
echo 'C: passed'

if command -v cargo >/dev/null; then
    (cd "$here/rust" && DILLUVAS_LIB_DIR=$out CARGO_TARGET_DIR=$out/target cargo test --offline -q)
    echo 'Rust: passed'
fi
if command -v python3 >/dev/null; then
    export PYTHONDONTWRITEBYTECODE=1
    for name in calls paths races interrupted threads forked objects maps maps_shared maps_walked maps_batches maps_failing maps_space maps_attacked full_disk programs; do
        DILLUVAS_SO=$out/libdilluvas.so python3 "$here/python/$name.py"
    done
    DILLUVAS_SO=$out/libdilluvas.so python3 "$here/python/examples_killed.py" "$out/example_job_queue"
    # the loop in Python and then that in C, with failing devices and refused memory
    DILLUVAS_SO=$out/libdilluvas.so python3 "$here/python/model.py"
    "${CC:-cc}" -std=c11 -Wall -Wextra -Wpedantic -Werror -O2 -fPIC -shared -o "$out/libhooked.so" "$here/c/hooks.c" -I"$out" \
        -Wl,--whole-archive "$out/libdilluvas.a" -Wl,--no-whole-archive -Wl,--wrap=malloc,--wrap=calloc,--wrap=realloc,--wrap=pread,--wrap=pwrite
    DILLUVAS_SO=$out/libhooked.so python3 "$here/python/model.py" 0 50
    for name in dilluvas hooked; do
        DILLUVAS_SO=$out/lib$name.so python3 "$here/python/abandoned.py"
        DILLUVAS_SO=$out/lib$name.so python3 "$here/python/forgetful.py"
    done
    echo 'Python: passed'
fi
"$here/readme.sh"
echo "README's sessions: passed"
"$here/scripts.sh"
DILLUVAS_LIB_DIR=$out CARGO_TARGET_DIR=$out/target "$here/replicated/check.sh"
