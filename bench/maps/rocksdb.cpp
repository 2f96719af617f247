// The script over RocksDB: its memory table, tables and log. The log is kept in the process until `flush` writes it to its file, and with
// SYNC syncs it, with each file of the log that isn't synced yet. The other settings are the default ones, but nothing is compressed.
#include "../peers/folder.h"
#include "keys.h"

#include <rocksdb/db.h>

#include <memory>

namespace {

void check(const rocksdb::Status &status) {
    if (!status.ok()) throw std::runtime_error("RocksDB: " + status.ToString());
}

rocksdb::Slice given(std::string_view bytes) { return {bytes.data(), bytes.size()}; }

std::string_view taken(const rocksdb::Slice &bytes) { return {bytes.data(), bytes.size()}; }

class RocksDb {
  public:
    RocksDb() {
        rocksdb::Options options;
        options.create_if_missing = true;
        options.compression = rocksdb::kNoCompression;
        options.manual_wal_flush = true;
        rocksdb::DB *opened = nullptr;
        check(rocksdb::DB::Open(options, folder.path(), &opened));
        db.reset(opened);
    }

    template <typename Visit> bool get(std::string_view key, Visit visit) {
        found.Reset();
        const auto status = db->Get({}, db->DefaultColumnFamily(), given(key), &found);
        if (status.IsNotFound()) return false;
        check(status);
        visit(taken(found));
        return true;
    }

    template <typename Visit> bool set(std::string_view key, std::string_view value, Visit visit) {
        const bool is_there = get(key, visit);
        check(db->Put({}, given(key), given(value)));
        return is_there;
    }

    template <typename Visit> bool del(std::string_view key, Visit visit) {
        const bool is_there = get(key, visit);
        if (is_there) check(db->Delete({}, given(key)));
        return is_there;
    }

    template <typename Visit> void scan(std::string_view from, std::uint64_t count, Visit visit) {
        const std::unique_ptr<rocksdb::Iterator> pairs(db->NewIterator({}));
        for (pairs->Seek(given(from)); pairs->Valid() && count > 0; --count) {
            visit(taken(pairs->key()), taken(pairs->value()));
            if (count > 1) pairs->Next();
        }
        check(pairs->status());
    }

    void flush() { check(db->FlushWAL(is_synced)); }

  private:
    Folder folder;
    const bool is_synced = wants_syncs();
    std::unique_ptr<rocksdb::DB> db;
    rocksdb::PinnableSlice found;
};

} // namespace

int main() { return keys::run<RocksDb>(); }
