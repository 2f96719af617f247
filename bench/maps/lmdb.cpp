// The script over LMDB: all that stands between two flushes is one transaction, by one cursor, which finds a key near the last one without
// a walk from the root. With SYNC a flush commits durably, as ../peers/lmdb_table.h says.
#include "../peers/lmdb_table.h"
#include "keys.h"

namespace {

using lmdb::check, lmdb::given, lmdb::taken;

class Lmdb {
  public:
    Lmdb() { begin(); }

    ~Lmdb() {
        mdb_cursor_close(cursor);
        mdb_txn_abort(transaction);
    }

    Lmdb(const Lmdb &) = delete;
    Lmdb &operator=(const Lmdb &) = delete;

    template <typename Visit> bool get(std::string_view key, Visit visit) {
        MDB_val wanted = given(key), found;
        const int status = mdb_cursor_get(cursor, &wanted, &found, MDB_SET);
        if (status == MDB_NOTFOUND) return false;
        check(status);
        visit(taken(found));
        return true;
    }

    template <typename Visit> bool set(std::string_view key, std::string_view value, Visit visit) {
        MDB_val row = given(key), bytes = given(value);
        const int status = mdb_cursor_put(cursor, &row, &bytes, MDB_NOOVERWRITE);
        if (status != MDB_KEYEXIST) {
            check(status);
            return false;
        }
        visit(taken(bytes));
        bytes = given(value);
        check(mdb_cursor_put(cursor, &row, &bytes, 0));
        return true;
    }

    template <typename Visit> bool del(std::string_view key, Visit visit) {
        if (!get(key, visit)) return false;
        check(mdb_cursor_del(cursor, 0));
        return true;
    }

    template <typename Visit> void scan(std::string_view from, std::uint64_t count, Visit visit) {
        MDB_val key = given(from), value;
        int status = mdb_cursor_get(cursor, &key, &value, from.empty() ? MDB_FIRST : MDB_SET_RANGE);
        while (status == MDB_SUCCESS) {
            visit(taken(key), taken(value));
            if (--count == 0) return;
            status = mdb_cursor_get(cursor, &key, &value, MDB_NEXT);
        }
        if (status != MDB_NOTFOUND) check(status);
    }

    void flush() {
        mdb_cursor_close(cursor);
        check(mdb_txn_commit(transaction));
        begin();
    }

  private:
    void begin() {
        transaction = environment.begin();
        check(mdb_dbi_open(transaction, nullptr, 0, &table));
        check(mdb_cursor_open(transaction, table, &cursor));
    }

    lmdb::Environment environment{MDB_NOLOCK};
    MDB_txn *transaction = nullptr;
    MDB_dbi table = 0;
    MDB_cursor *cursor = nullptr;
};

} // namespace

int main() { return keys::run<Lmdb>(); }
