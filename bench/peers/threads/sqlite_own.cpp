// Threads over SQLite, each with a connection of its own: each call is one transaction. SQLite has one that writes at a time, and a
// connection that meets another sleeps and tries again.
#include "../sqlite_tables.h"
#include "crew.h"

namespace {

class Session {
  public:
    struct Shared {
        Shared() { first.run(sqlite::layout); }

        Folder folder;
        sqlite::Database first{folder};
    };

    explicit Session(Shared &shared) : database(shared.folder) {}

    void allocate(std::uint64_t id) {
        in_transaction([&] { tables.allocate(id, 1, {}); });
    }

    crew::Change set(std::uint64_t id, std::uint64_t stamp, const std::string &key, const std::string &value) {
        auto change = crew::Change::gone();
        in_transaction([&] { change = tables.set(id, stamp, key, value); });
        return change;
    }

    void put_counter(std::uint64_t number) {
        in_transaction([&] { tables.put_counter(number); });
    }

  private:
    template <typename Work> void in_transaction(Work work) {
        begin.run();
        work();
        commit.run();
    }

    sqlite::Database database;
    sqlite::Tables tables{database};
    sqlite::Statement begin{database, "BEGIN IMMEDIATE"}, commit{database, "COMMIT"};
};

} // namespace

int main(int count, char **words) { return crew::run<Session>(count, words); }
