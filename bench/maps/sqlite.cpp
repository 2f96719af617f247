// The script over SQLite: a table WITHOUT ROWID, so a row stands in the tree of its keys. All that stands between two flushes is one
// transaction, which a flush commits to the write-ahead log. The settings are those of ../peers/sqlite_tables.h.
#include "../peers/sqlite_tables.h"
#include "keys.h"

namespace {

using sqlite::Database, sqlite::Statement;

struct Opened {
    Opened() {
        connection.run("PRAGMA locking_mode = EXCLUSIVE");
        connection.run("CREATE TABLE IF NOT EXISTS pair (key BLOB PRIMARY KEY, value BLOB NOT NULL) WITHOUT ROWID");
        connection.run("BEGIN");
    }

    Folder folder;
    Database connection{folder};
};

class Sqlite : private Opened {
  public:
    template <typename Visit> bool get(std::string_view key, Visit visit) {
        select.with(key);
        const bool is_found = select.step();
        if (is_found) visit(select.bytes(0));
        select.reset();
        return is_found;
    }

    template <typename Visit> bool set(std::string_view key, std::string_view value, Visit visit) {
        insert.with(key).with(value).run();
        if (connection.has_changed()) return false;
        get(key, visit);
        update.with(value).with(key).run();
        return true;
    }

    template <typename Visit> bool del(std::string_view key, Visit visit) {
        const bool is_found = get(key, visit);
        if (is_found) remove.with(key).run();
        return is_found;
    }

    template <typename Visit> void scan(std::string_view from, std::uint64_t count, Visit visit) {
        range.with(from).with(count);
        while (range.step()) visit(range.bytes(0), range.bytes(1));
        range.reset();
    }

    void flush() { connection.run("COMMIT; BEGIN"); }

  private:
    Statement select{connection, "SELECT value FROM pair WHERE key = ?"};
    Statement insert{connection, "INSERT INTO pair VALUES (?, ?) ON CONFLICT DO NOTHING"};
    Statement update{connection, "UPDATE pair SET value = ? WHERE key = ?"};
    Statement remove{connection, "DELETE FROM pair WHERE key = ?"};
    Statement range{connection, "SELECT key, value FROM pair WHERE key >= ? ORDER BY key LIMIT ?"};
};

} // namespace

int main() { return keys::run<Sqlite>(); }
