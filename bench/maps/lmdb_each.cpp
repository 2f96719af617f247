// The script over LMDB, with a transaction for each change, and one that reads, which is taken up again, for each `get` and `scan`. With
// SYNC a flush syncs the file: what was committed before is durable then, and until then a crash of the machine may spoil the file.
#include "../peers/lmdb_table.h"
#include "keys.h"

namespace {

using lmdb::check, lmdb::given, lmdb::taken;

class LmdbEach {
  public:
    LmdbEach() {
        write([&](MDB_txn *transaction) { check(mdb_dbi_open(transaction, nullptr, 0, &table)); });
        reading = environment.begin(MDB_RDONLY);
        check(mdb_cursor_open(reading, table, &cursor));
        mdb_txn_reset(reading);
    }

    ~LmdbEach() {
        mdb_cursor_close(cursor);
        mdb_txn_abort(reading);
    }

    LmdbEach(const LmdbEach &) = delete;
    LmdbEach &operator=(const LmdbEach &) = delete;

    template <typename Visit> bool get(std::string_view key, Visit visit) {
        check(mdb_txn_renew(reading));
        const bool is_found = look_up(reading, key, visit);
        mdb_txn_reset(reading);
        return is_found;
    }

    template <typename Visit> bool set(std::string_view key, std::string_view value, Visit visit) {
        bool is_there = false;
        write([&](MDB_txn *transaction) {
            MDB_val row = given(key), bytes = given(value);
            const int status = mdb_put(transaction, table, &row, &bytes, MDB_NOOVERWRITE);
            is_there = status == MDB_KEYEXIST;
            if (!is_there) return check(status);
            visit(taken(bytes));
            bytes = given(value);
            check(mdb_put(transaction, table, &row, &bytes, 0));
        });
        return is_there;
    }

    template <typename Visit> bool del(std::string_view key, Visit visit) {
        bool is_there = false;
        write([&](MDB_txn *transaction) {
            is_there = look_up(transaction, key, visit);
            MDB_val row = given(key);
            if (is_there) check(mdb_del(transaction, table, &row, nullptr));
        });
        return is_there;
    }

    template <typename Visit> void scan(std::string_view from, std::uint64_t count, Visit visit) {
        check(mdb_txn_renew(reading));
        check(mdb_cursor_renew(reading, cursor));
        MDB_val key = given(from), value;
        int status = mdb_cursor_get(cursor, &key, &value, from.empty() ? MDB_FIRST : MDB_SET_RANGE);
        while (status == MDB_SUCCESS) {
            visit(taken(key), taken(value));
            if (--count == 0) break;
            status = mdb_cursor_get(cursor, &key, &value, MDB_NEXT);
        }
        if (status != MDB_NOTFOUND) check(status);
        mdb_txn_reset(reading);
    }

    void flush() {
        if (wants_syncs()) environment.sync();
    }

  private:
    template <typename Visit> bool look_up(MDB_txn *transaction, std::string_view key, Visit visit) {
        MDB_val wanted = given(key), found;
        const int status = mdb_get(transaction, table, &wanted, &found);
        if (status == MDB_NOTFOUND) return false;
        check(status);
        visit(taken(found));
        return true;
    }

    template <typename Change> void write(Change change) {
        MDB_txn *transaction = environment.begin();
        change(transaction);
        check(mdb_txn_commit(transaction));
    }

    lmdb::Environment environment{MDB_NOLOCK | MDB_NOSYNC};
    MDB_dbi table = 0;
    MDB_txn *reading = nullptr;
    MDB_cursor *cursor = nullptr;
};

} // namespace

int main() { return keys::run<LmdbEach>(); }
