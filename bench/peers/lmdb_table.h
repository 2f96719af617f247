// The rows of rows.h in one B+ tree of LMDB. All that stands between two flushes is one transaction. Without SYNC the file is written
// through a map of memory. With it a commit is durable: it writes the pages that changed, syncs them, and then writes the page that
// names the new root to a file opened with O_DSYNC. (Through a map both would be an msync, which takes longer.) LMDB takes keys of up to
// 511 bytes, so a page's keys and names have up to 502.
#pragma once

#include "folder.h"
#include "rows.h"

#include <lmdb.h>

namespace lmdb {

constexpr std::size_t map_size = std::size_t(16) << 30; // room of the file's map, of which only what is written is taken

inline void check(int status) {
    if (status != MDB_SUCCESS) throw std::runtime_error(std::string("LMDB: ") + mdb_strerror(status));
}

inline MDB_val given(std::string_view bytes) { return {bytes.size(), const_cast<char *>(bytes.data())}; }

inline std::string_view taken(const MDB_val &bytes) { return {static_cast<const char *>(bytes.mv_data), bytes.mv_size}; }

// LMDB's files, with flags beside those that SYNC asks for.
class Environment {
  public:
    explicit Environment(unsigned flags) {
        check(mdb_env_create(&opened));
        check(mdb_env_set_mapsize(opened, map_size));
        const unsigned kind = wants_syncs() ? 0 : MDB_NOSYNC | MDB_WRITEMAP;
        check(mdb_env_open(opened, folder.path().c_str(), kind | flags, 0600));
    }

    ~Environment() { mdb_env_close(opened); }

    Environment(const Environment &) = delete;
    Environment &operator=(const Environment &) = delete;

    // A transaction that writes, or with MDB_RDONLY one that reads.
    MDB_txn *begin(unsigned flags = 0) {
        MDB_txn *begun = nullptr;
        check(mdb_txn_begin(opened, nullptr, flags, &begun));
        return begun;
    }

    // All that was committed is durable.
    void sync() { check(mdb_env_sync(opened, 1)); }

  private:
    Folder folder;
    MDB_env *opened = nullptr;
};

class Table {
  public:
    Table() { begin(); }

    ~Table() {
        mdb_cursor_close(cursor);
        mdb_txn_abort(transaction);
    }

    bool read(std::string_view key, std::string &value) {
        MDB_val wanted = given(key), found;
        const int status = mdb_cursor_get(cursor, &wanted, &found, MDB_SET);
        if (status == MDB_NOTFOUND) return false;
        check(status);
        value = taken(found);
        return true;
    }

    // The cursor stays where it was, which makes the next row of the same page cheap to find.
    void put(std::string_view key, std::string_view value) {
        MDB_val row = given(key), bytes = given(value);
        check(mdb_cursor_put(cursor, &row, &bytes, 0));
    }

    void remove(std::string_view key) {
        MDB_val row = given(key), found;
        const int status = mdb_cursor_get(cursor, &row, &found, MDB_SET);
        if (status == MDB_NOTFOUND) return;
        check(status);
        check(mdb_cursor_del(cursor, 0));
    }

    void apply() {}

    template <typename Visit> void scan(std::string_view from, std::string_view end, Visit visit) {
        MDB_val key = given(from), value;
        int status = mdb_cursor_get(cursor, &key, &value, MDB_SET_RANGE);
        while (status == MDB_SUCCESS && taken(key) < end) {
            visit(taken(key), taken(value));
            status = mdb_cursor_get(cursor, &key, &value, MDB_NEXT);
        }
        if (status != MDB_NOTFOUND) check(status);
    }

    void flush() {
        mdb_cursor_close(cursor);
        check(mdb_txn_commit(transaction));
        begin();
    }

  private:
    void begin() {
        transaction = environment.begin();
        check(mdb_dbi_open(transaction, nullptr, 0, &table));
        check(mdb_cursor_open(transaction, table, &cursor));
    }

    Environment environment{MDB_NOLOCK};
    MDB_txn *transaction = nullptr;
    MDB_dbi table = 0;
    MDB_cursor *cursor = nullptr;
};

} // namespace lmdb
