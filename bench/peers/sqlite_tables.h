// Pages in tables of SQLite: of pages with their stamps, of pairs by page and key, and of roots by name, and one row with the counter of
// ids. With SYNC each commit syncs its write-ahead log (`synchronous = FULL`), which makes it durable. The cache has 256 MB, and
// statements are prepared once.
#pragma once

#include "folder.h"
#include "script.h"

#include <sqlite3.h>

namespace sqlite {

using script::Change;
using script::Root;

constexpr const char *settings = "PRAGMA journal_mode = WAL; PRAGMA cache_size = -262144; PRAGMA temp_store = MEMORY;";
constexpr int patience = 600000; // how many milliseconds a connection waits for another
constexpr const char *layout = "BEGIN;"
                               "CREATE TABLE IF NOT EXISTS page (id INTEGER PRIMARY KEY, stamp INTEGER NOT NULL);"
                               "CREATE TABLE IF NOT EXISTS pair (page INTEGER NOT NULL, key BLOB NOT NULL, value BLOB NOT NULL,"
                               "                                 PRIMARY KEY (page, key)) WITHOUT ROWID;"
                               "CREATE TABLE IF NOT EXISTS root (name BLOB PRIMARY KEY, page INTEGER NOT NULL) WITHOUT ROWID;"
                               "CREATE TABLE IF NOT EXISTS counter (number INTEGER NOT NULL);"
                               "INSERT INTO counter SELECT 0 WHERE NOT EXISTS (SELECT * FROM counter);"
                               "COMMIT;";

// A connection to the file in a folder.
class Database {
  public:
    explicit Database(const Folder &folder) {
        check(sqlite3_open((folder.path() + "/pages").c_str(), &handle));
        check(sqlite3_busy_timeout(handle, patience));
        run(settings);
        run(wants_syncs() ? "PRAGMA synchronous = FULL" : "PRAGMA synchronous = OFF");
    }

    ~Database() { sqlite3_close_v2(handle); }

    Database(const Database &) = delete;
    Database &operator=(const Database &) = delete;

    void check(int status) const {
        if (status != SQLITE_OK) throw std::runtime_error(std::string("SQLite: ") + sqlite3_errmsg(handle));
    }

    void run(const char *text) { check(sqlite3_exec(handle, text, nullptr, nullptr, nullptr)); }

    // Whether the last statement changed a row.
    bool has_changed() const { return sqlite3_changes(handle) > 0; }

    sqlite3_stmt *prepare(const char *text) {
        sqlite3_stmt *made = nullptr;
        check(sqlite3_prepare_v3(handle, text, -1, SQLITE_PREPARE_PERSISTENT, &made, nullptr));
        return made;
    }

  private:
    sqlite3 *handle = nullptr;
};

// A statement whose places are filled in order. Bytes that fill one live until it is done.
class Statement {
  public:
    Statement(Database &database, const char *text) : database(database), made(database.prepare(text)) {}

    ~Statement() { sqlite3_finalize(made); }

    Statement(const Statement &) = delete;
    Statement &operator=(const Statement &) = delete;

    Statement &with(std::uint64_t number) {
        database.check(sqlite3_bind_int64(made, ++filled, static_cast<sqlite3_int64>(number)));
        return *this;
    }

    // No bytes are a value too, and so never at no address, which would be NULL.
    Statement &with(std::string_view bytes) {
        database.check(sqlite3_bind_blob64(made, ++filled, bytes.empty() ? "" : bytes.data(), bytes.size(), SQLITE_STATIC));
        return *this;
    }

    // Whether there is one more row.
    bool step() {
        const int status = sqlite3_step(made);
        if (status != SQLITE_ROW && status != SQLITE_DONE) database.check(status);
        return status == SQLITE_ROW;
    }

    std::uint64_t number(int column) { return static_cast<std::uint64_t>(sqlite3_column_int64(made, column)); }

    std::string_view bytes(int column) {
        const auto data = static_cast<const char *>(sqlite3_column_blob(made, column));
        return {data, static_cast<std::size_t>(sqlite3_column_bytes(made, column))};
    }

    void reset() {
        database.check(sqlite3_reset(made));
        filled = 0;
    }

    void run() {
        step();
        reset();
    }

  private:
    Database &database;
    sqlite3_stmt *made;
    int filled = 0;
};

// The tables, as one connection sees them.
class Tables {
  public:
    explicit Tables(Database &database) : database(database) {}

    void allocate(std::uint64_t id, std::uint64_t stamp, script::Pairs &&pairs) {
        insert_page.with(id).with(stamp).run();
        put_pairs(id, pairs);
    }

    bool get(std::uint64_t id, script::Leaf &leaf) {
        const auto present = stamp_of(id);
        if (!present) return false;
        leaf.stamp(*present);
        select_pairs.with(id);
        while (select_pairs.step()) leaf.pair(select_pairs.bytes(0), select_pairs.bytes(1));
        select_pairs.reset();
        return true;
    }

    Change set(std::uint64_t id, std::uint64_t stamp, const std::string &key, const std::string &value) {
        return change(raise_stamp, id, stamp, [&] { put_pair.with(id).with(key).with(value).run(); });
    }

    Change del(std::uint64_t id, std::uint64_t stamp, const std::string &key) {
        return change(raise_stamp, id, stamp, [&] { delete_pair.with(id).with(key).run(); });
    }

    Change replace(std::uint64_t id, std::uint64_t stamp, script::Pairs &&pairs) {
        return change(raise_stamp, id, stamp, [&] {
            delete_pairs.with(id).run();
            put_pairs(id, pairs);
        });
    }

    Change free(std::uint64_t id, std::uint64_t stamp) {
        return change(delete_page, id, stamp, [&] { delete_pairs.with(id).run(); });
    }

    Root root(const std::string &name) { return number_in(select_root.with(name)); }

    void put_root(const std::string &name, Root root) {
        if (root) put_named.with(name).with(*root).run();
        else delete_named.with(name).run();
    }

    void put_counter(std::uint64_t number) { raise_counter.with(number).run(); }

  private:
    // The number that a filled statement selects, if there is one.
    static std::optional<std::uint64_t> number_in(Statement &statement) {
        std::optional<std::uint64_t> number;
        if (statement.step()) number = statement.number(0);
        statement.reset();
        return number;
    }

    std::optional<std::uint64_t> stamp_of(std::uint64_t id) { return number_in(select_stamp.with(id)); }

    // The first statement finds its row where the stamp is the present one.
    template <typename Edit> Change change(Statement &first, std::uint64_t id, std::uint64_t stamp, Edit edit) {
        first.with(id).with(stamp).run();
        if (!database.has_changed()) {
            const auto present = stamp_of(id);
            return present ? Change::stale(*present) : Change::gone();
        }
        edit();
        return Change::made(stamp + 1);
    }

    void put_pairs(std::uint64_t id, const script::Pairs &pairs) {
        for (const auto &[key, value] : pairs) put_pair.with(id).with(key).with(value).run();
    }

    Database &database;
    Statement insert_page{database, "INSERT INTO page VALUES (?, ?)"};
    Statement select_stamp{database, "SELECT stamp FROM page WHERE id = ?"};
    Statement raise_stamp{database, "UPDATE page SET stamp = stamp + 1 WHERE id = ? AND stamp = ?"};
    Statement delete_page{database, "DELETE FROM page WHERE id = ? AND stamp = ?"};
    Statement select_pairs{database, "SELECT key, value FROM pair WHERE page = ? ORDER BY key"};
    Statement put_pair{database, "INSERT OR REPLACE INTO pair VALUES (?, ?, ?)"};
    Statement delete_pair{database, "DELETE FROM pair WHERE page = ? AND key = ?"};
    Statement delete_pairs{database, "DELETE FROM pair WHERE page = ?"};
    Statement select_root{database, "SELECT page FROM root WHERE name = ?"};
    Statement put_named{database, "INSERT OR REPLACE INTO root VALUES (?, ?)"};
    Statement delete_named{database, "DELETE FROM root WHERE name = ?"};
    Statement raise_counter{database, "UPDATE counter SET number = ?"};
};

// What the tables of one connection stand on, which no other may have beside it.
struct Alone {
    Alone() {
        connection.run("PRAGMA locking_mode = EXCLUSIVE");
        connection.run(layout);
        connection.run("BEGIN");
    }

    Folder folder;
    Database connection{folder};
};

// The tables by one connection. All that stands between two flushes is one transaction, which a flush commits to the write-ahead log.
class Sqlite : private Alone, public Tables {
  public:
    Sqlite() : Tables(connection) {}

    void flush() { connection.run("COMMIT; BEGIN"); }
};

} // namespace sqlite
