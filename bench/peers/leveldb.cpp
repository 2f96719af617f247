// The script over LevelDB: the rows of rows.h in its memory table, tables and log. A change is one batch, which is written to the
// log file at once and without fsync, so `flush` finds nothing left to do. With SYNC a flush writes an empty batch and syncs, which
// makes durable whatever stands before it in the same log file. A log file that is full is closed without a sync, and the next begun;
// here it is synced as it is closed, so that a flush is durable there too. The settings are the default ones, but nothing is compressed.
#include "folder.h"
#include "rows.h"

#include <leveldb/db.h>
#include <leveldb/env.h>
#include <leveldb/write_batch.h>

#include <memory>

namespace {

void check(const leveldb::Status &status) {
    if (!status.ok()) throw std::runtime_error("LevelDB: " + status.ToString());
}

leveldb::Slice given(std::string_view bytes) { return {bytes.data(), bytes.size()}; }

std::string_view taken(const leveldb::Slice &bytes) { return {bytes.data(), bytes.size()}; }

// A file that is synced at the end of its life. LevelDB hears of no error then, so one ends the program.
class SyncedFile : public leveldb::WritableFile {
  public:
    explicit SyncedFile(leveldb::WritableFile *file) : file(file) {}

    ~SyncedFile() override {
        if (!file->Sync().ok()) std::abort();
    }

    leveldb::Status Append(const leveldb::Slice &data) override { return file->Append(data); }
    leveldb::Status Close() override { return file->Close(); }
    leveldb::Status Flush() override { return file->Flush(); }
    leveldb::Status Sync() override { return file->Sync(); }

  private:
    std::unique_ptr<leveldb::WritableFile> file;
};

// The system's files, of which those of the log are synced as they are closed.
class SyncedLogs : public leveldb::EnvWrapper {
  public:
    SyncedLogs() : EnvWrapper(leveldb::Env::Default()) {}

    leveldb::Status NewWritableFile(const std::string &name, leveldb::WritableFile **made) override {
        const auto status = target()->NewWritableFile(name, made);
        if (status.ok() && std::filesystem::path(name).extension() == ".log") *made = new SyncedFile(*made);
        return status;
    }
};

class LevelDb {
  public:
    LevelDb() {
        leveldb::Options options;
        if (is_synced) options.env = &files;
        options.create_if_missing = true;
        options.compression = leveldb::kNoCompression;
        leveldb::DB *opened = nullptr;
        check(leveldb::DB::Open(options, folder.path(), &opened));
        db.reset(opened);
    }

    bool read(std::string_view key, std::string &value) {
        const auto status = db->Get(leveldb::ReadOptions(), given(key), &value);
        if (status.IsNotFound()) return false;
        check(status);
        return true;
    }

    void put(std::string_view key, std::string_view value) { batch.Put(given(key), given(value)); }

    void remove(std::string_view key) { batch.Delete(given(key)); }

    void apply() {
        check(db->Write(leveldb::WriteOptions(), &batch));
        batch.Clear();
    }

    template <typename Visit> void scan(std::string_view from, std::string_view end, Visit visit) {
        const std::unique_ptr<leveldb::Iterator> rows(db->NewIterator(leveldb::ReadOptions()));
        for (rows->Seek(given(from)); rows->Valid() && taken(rows->key()) < end; rows->Next())
            visit(taken(rows->key()), taken(rows->value()));
        check(rows->status());
    }

    void flush() {
        if (!is_synced) return;
        leveldb::WriteOptions options;
        options.sync = true;
        leveldb::WriteBatch nothing;
        check(db->Write(options, &nothing));
    }

  private:
    Folder folder;
    const bool is_synced = wants_syncs();
    SyncedLogs files;
    std::unique_ptr<leveldb::DB> db;
    leveldb::WriteBatch batch;
};

} // namespace

int main() { return script::run<rows::Rows<LevelDb>>(); }
