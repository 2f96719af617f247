#!/bin/sh
# build.sh FOLDER [threads | maps]: builds into the folder the programs that measure.sh and measure_file.sh need, or measure_threads.sh, or
# measure_maps.sh: `timed`, and the peers of the script, or those of threads, or those of maps. It prints the names of the peers that were
# built, and a line `left out NAME PACKAGE` for each whose package is missing.
set -eu

here=$(CDPATH='' cd -- "$(dirname -- "$(readlink -f -- "$0")")" && pwd)
folder=$1

compile() {
    source=$1
    target=$2
    shift 2
    g++ -std=c++17 -O2 -pthread -Wall -Wextra -Werror "$here/$source" -o "$folder/$target" "$@"
}

# peer SOURCE HEADER PACKAGE LIBRARY
peer() {
    name=${1##*/}
    if printf '#if !__has_include(<%s>)\n#error\n#endif\n' "$2" | g++ -std=c++17 -E -x c++ - >/dev/null 2>&1; then
        compile "peers/$1.cpp" "$name" "$4"
        echo "$name"
    else
        echo "left out $name $3"
    fi
}

compile timed.cpp timed
case ${2:-script} in
script)
    compile peers/plain_map.cpp plain_map
    echo plain_map
    peer lmdb lmdb.h liblmdb-dev -llmdb
    peer sqlite sqlite3.h libsqlite3-dev -lsqlite3
    peer leveldb leveldb/db.h libleveldb-dev -lleveldb
    peer rocksdb rocksdb/db.h librocksdb-dev -lrocksdb
    ;;
threads)
    compile peers/threads/plain_map.cpp plain_map
    echo plain_map
    peer threads/lmdb lmdb.h liblmdb-dev -llmdb
    peer threads/lmdb_own lmdb.h liblmdb-dev -llmdb
    peer threads/sqlite sqlite3.h libsqlite3-dev -lsqlite3
    peer threads/sqlite_own sqlite3.h libsqlite3-dev -lsqlite3
    ;;
maps)
    compile maps/plain_map.cpp plain_map
    echo plain_map
    peer ../maps/lmdb lmdb.h liblmdb-dev -llmdb
    peer ../maps/lmdb_each lmdb.h liblmdb-dev -llmdb
    peer ../maps/sqlite sqlite3.h libsqlite3-dev -lsqlite3
    peer ../maps/rocksdb rocksdb/db.h librocksdb-dev -lrocksdb
    ;;
esac
