// The script over RocksDB: the rows of rows.h in its memory table, tables and log. A change is one batch; the log is kept in the
// process until `flush` writes it to its file. With SYNC the flush then syncs each file of the log that isn't synced yet, so what was
// written before is durable. The other settings are the default ones, but nothing is compressed.
#include "folder.h"
#include "rows.h"

#include <rocksdb/db.h>
#include <rocksdb/write_batch.h>

#include <memory>

namespace {

void check(const rocksdb::Status &status) {
    if (!status.ok()) throw std::runtime_error("RocksDB: " + status.ToString());
}

rocksdb::Slice given(std::string_view bytes) { return {bytes.data(), bytes.size()}; }

std::string_view taken(const rocksdb::Slice &bytes) { return {bytes.data(), bytes.size()}; }

class RocksDb {
  public:
    RocksDb() {
        rocksdb::Options options;
        options.create_if_missing = true;
        options.compression = rocksdb::kNoCompression;
        options.manual_wal_flush = true;
        rocksdb::DB *opened = nullptr;
        check(rocksdb::DB::Open(options, folder.path(), &opened));
        db.reset(opened);
    }

    bool read(std::string_view key, std::string &value) {
        const auto status = db->Get(rocksdb::ReadOptions(), given(key), &value);
        if (status.IsNotFound()) return false;
        check(status);
        return true;
    }

    void put(std::string_view key, std::string_view value) { check(batch.Put(given(key), given(value))); }

    void remove(std::string_view key) { check(batch.Delete(given(key))); }

    void apply() {
        check(db->Write(rocksdb::WriteOptions(), &batch));
        batch.Clear();
    }

    template <typename Visit> void scan(std::string_view from, std::string_view end, Visit visit) {
        const rocksdb::Slice bound = given(end);
        rocksdb::ReadOptions options;
        options.iterate_upper_bound = &bound;
        const std::unique_ptr<rocksdb::Iterator> rows(db->NewIterator(options));
        for (rows->Seek(given(from)); rows->Valid(); rows->Next()) visit(taken(rows->key()), taken(rows->value()));
        check(rows->status());
    }

    void flush() { check(db->FlushWAL(is_synced)); }

  private:
    Folder folder;
    const bool is_synced = wants_syncs();
    std::unique_ptr<rocksdb::DB> db;
    rocksdb::WriteBatch batch;
};

} // namespace

int main() { return script::run<rows::Rows<RocksDb>>(); }
