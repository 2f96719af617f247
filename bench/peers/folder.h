// The folder of a program's files. The environment says where it is and what becomes of it:
//
//     KEEP      the folder itself. It is made where it isn't there, and stays, so a later run opens the files that are in it
//     TMPDIR    without KEEP: where a new folder is made (/dev/shm, where files are in memory). It is removed at the end of its life
//     SYNC      1: a flush is durable when it is answered. Without it no store waits for a disk
//
// At the end of its life the folder says on standard error how many kilobytes its files had, since a process's own peak memory counts
// no files but mapped ones.
#pragma once

#include <algorithm>
#include <cstdio>
#include <cstdlib>
#include <filesystem>
#include <stdexcept>
#include <string>
#include <string_view>
#include <sys/stat.h>

inline bool wants_syncs() {
    const char *asked = std::getenv("SYNC");
    return asked && std::string_view(asked) == "1";
}

class Folder {
  public:
    Folder() {
        const char *kept = std::getenv("KEEP"), *parent = std::getenv("TMPDIR");
        is_kept = kept;
        if (is_kept) {
            name = kept;
            std::filesystem::create_directories(name);
            return;
        }
        name = std::string(parent ? parent : "/dev/shm") + "/bench-XXXXXX";
        if (!mkdtemp(name.data())) throw std::runtime_error("no folder can be made for " + name);
    }

    Folder(const Folder &) = delete;
    Folder &operator=(const Folder &) = delete;

    ~Folder() {
        std::error_code ignored;
        std::fprintf(stderr, "files %lld\n", bytes() / 1024);
        if (!is_kept) std::filesystem::remove_all(name, ignored);
    }

    const std::string &path() const { return name; }

  private:
    // Of a file whose end is beyond what was written only that counts, and of one with reserved room only up to its end.
    long long bytes() const {
        long long sum = 0;
        std::error_code ignored;
        for (const auto &entry : std::filesystem::recursive_directory_iterator(name, ignored)) {
            struct stat found;
            if (stat(entry.path().c_str(), &found) != 0 || !S_ISREG(found.st_mode)) continue;
            sum += std::min<long long>(found.st_size, found.st_blocks * 512LL);
        }
        return sum;
    }

    std::string name;
    bool is_kept = false;
};
