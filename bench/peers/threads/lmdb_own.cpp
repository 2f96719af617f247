// Threads over LMDB, each with transactions of its own: each call is one. LMDB has one transaction that writes at a time, and threads wait
// for it at a lock of LMDB's.
#include "../lmdb_table.h"
#include "crew.h"

namespace {

class OwnTransactions {
  public:
    explicit OwnTransactions(lmdb::Environment &environment) : environment(environment) {}

    ~OwnTransactions() { mdb_txn_abort(transaction); }

    bool read(std::string_view key, std::string &value) {
        begin();
        MDB_val wanted = lmdb::given(key), found;
        const int status = mdb_get(transaction, table, &wanted, &found);
        if (status == MDB_NOTFOUND) return false;
        lmdb::check(status);
        value = lmdb::taken(found);
        return true;
    }

    void put(std::string_view key, std::string_view value) {
        begin();
        MDB_val row = lmdb::given(key), bytes = lmdb::given(value);
        lmdb::check(mdb_put(transaction, table, &row, &bytes, 0));
    }

    void apply() {
        MDB_txn *ended = transaction;
        transaction = nullptr;
        lmdb::check(mdb_txn_commit(ended));
    }

  private:
    void begin() {
        if (transaction) return;
        transaction = environment.begin();
        lmdb::check(mdb_dbi_open(transaction, nullptr, 0, &table));
    }

    lmdb::Environment &environment;
    MDB_txn *transaction = nullptr;
    MDB_dbi table = 0;
};

class Session {
  public:
    struct Shared {
        lmdb::Environment environment{0};
    };

    explicit Session(Shared &shared) : rows(shared.environment) {}

    void allocate(std::uint64_t id) { rows.allocate(id, 1, {}); }

    crew::Change set(std::uint64_t id, std::uint64_t stamp, const std::string &key, const std::string &value) {
        return rows.set(id, stamp, key, value);
    }

    void put_counter(std::uint64_t number) { rows.put_counter(number); }

  private:
    rows::Rows<OwnTransactions> rows;
};

} // namespace

int main(int count, char **words) { return crew::run<Session>(count, words); }
