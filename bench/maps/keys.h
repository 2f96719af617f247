// docs/KEYS.md's script over one map of a store in C++: reads lines from standard input, asks the store, and writes the replies. A program
// has its store alone, and calls `keys::run<Store>()`. A store has
//
//     bool get(key, visit)                 gives `visit` the value, if there is one
//     bool set(key, value, visit)          puts the pair, and gives `visit` the value that the key had, if it had one
//     bool del(key, visit)                 takes the key out, and does the same
//     void scan(from, count, visit)        gives `visit` up to so many pairs, in order, from the first key not below `from` on
//     void flush()                         ends a transaction, in a store that has them
//
// and throws what it can't answer, which ends the program with status 1. What `visit` is given need only live while it runs. The lines
// are `set`, `get`, `del`, `scan` and `flush`, and each has the map `m`: it is the store's only one, so no store pays for names. Any other
// line is answered by `error line`.
#pragma once

#include "../peers/script.h"

#include <algorithm>
#include <cstring>

namespace keys {

using script::Words;

constexpr std::string_view only_map = "m";
constexpr std::uint64_t longest_scan = 1000;

// Whether the byte stands for itself in a word.
constexpr bool is_plain(unsigned char byte) { return byte >= 0x21 && byte <= 0x7e && byte != '\\'; }

constexpr std::uint64_t eight_times(unsigned char byte) { return byte * UINT64_C(0x0101010101010101); }

// The same of eight bytes at once: each of the four terms has the highest bit of a byte where that isn't plain, as it is below the first
// one, above the last, beyond ASCII, or a backslash.
inline bool are_plain(const char *bytes) {
    std::uint64_t eight;
    std::memcpy(&eight, bytes, sizeof eight);
    const std::uint64_t from_backslash = eight ^ eight_times('\\');
    const std::uint64_t others =
        (eight - eight_times(0x21)) | (eight + eight_times(1)) | eight | ((from_backslash - eight_times(1)) & ~from_backslash);
    return (others & eight_times(0x80)) == 0;
}

inline bool is_all_plain(std::string_view bytes) {
    if (bytes.size() < 8) return std::all_of(bytes.begin(), bytes.end(), is_plain);
    for (std::size_t at = 0; at + 8 < bytes.size(); at += 8)
        if (!are_plain(bytes.data() + at)) return false;
    return are_plain(bytes.data() + bytes.size() - 8);
}

// The bytes of a word. They are the word's own where all are plain, and else this object's.
class Word {
  public:
    explicit Word(std::string_view word) {
        if (word == "-") return;
        is_valid = !word.empty();
        if (is_all_plain(word)) bytes = word;
        else is_valid = read(word);
    }

    Word(const Word &) = delete;
    Word &operator=(const Word &) = delete;

    explicit operator bool() const { return is_valid; }
    std::string_view operator*() const { return bytes; }

  private:
    bool read(std::string_view word) {
        for (std::size_t at = 0; at < word.size(); at++) {
            if (is_plain(word[at])) own.push_back(word[at]);
            else if (word[at] != '\\' || !read_escape(word, at)) return false;
        }
        bytes = own;
        return true;
    }

    // What follows a backslash: another one, or the digits of a byte that isn't plain, or of a `-` that is all there is.
    bool read_escape(std::string_view word, std::size_t &at) {
        if (word.substr(at, 2) == "\\\\") {
            own.push_back('\\');
            at++;
            return true;
        }
        if (at + 3 > word.size()) return false;
        const int high = script::hex_value(word[at + 1]), low = script::hex_value(word[at + 2]);
        if (high < 0 || low < 0) return false;
        const auto byte = static_cast<unsigned char>(high * 16 + low);
        if (byte == '\\' || (is_plain(byte) && word != "\\2d")) return false;
        own.push_back(static_cast<char>(byte));
        at += 2;
        return true;
    }

    std::string own;
    std::string_view bytes;
    bool is_valid = true;
};

inline void put_word(std::string &out, std::string_view bytes) {
    constexpr char digits[] = "0123456789abcdef";
    if (bytes.empty()) out.push_back('-');
    else if (bytes == "-") out += "\\2d";
    else if (is_all_plain(bytes)) out += bytes;
    else
        for (const unsigned char byte : bytes) {
            if (!is_plain(byte)) out.push_back('\\');
            if (is_plain(byte) || byte == '\\') out.push_back(static_cast<char>(byte));
            else (out += digits[byte / 16]) += digits[byte % 16];
        }
}

template <typename Store> class Keys {
  public:
    void serve(std::string_view line, std::string &out) {
        if (line.size() > script::longest_line || !reply(Words(line), out)) out += "error line";
        out.push_back('\n');
    }

  private:
    // Nothing is written where it is false: the line is none of these.
    bool reply(Words words, std::string &out) {
        const auto call = words.next();
        if (call == "flush") return words.are_done() && flush(out);
        if (words.next() != only_map) return false;
        const Word key(words.next());
        if (!key) return false;
        if (call == "get") return words.are_done() && get(*key, out);
        if (call == "del") return words.are_done() && del(*key, out);
        if (call == "set") return set(*key, words, out);
        return call == "scan" && scan(*key, words, out);
    }

    bool get(std::string_view key, std::string &out) {
        if (!store.get(key, put_after("value ", out))) out += "none";
        return true;
    }

    bool del(std::string_view key, std::string &out) {
        if (!store.del(key, put_after("was ", out))) out += "none";
        return true;
    }

    bool set(std::string_view key, Words &words, std::string &out) {
        const Word value(words.next());
        if (!value || !words.are_done()) return false;
        if (!store.set(key, *value, put_after("was ", out))) out += "new";
        return true;
    }

    // How many pairs there are is only known behind them.
    bool scan(std::string_view from, Words &words, std::string &out) {
        const auto count = script::number_of(words.next());
        if (!count || *count == 0 || *count > longest_scan || !words.are_done()) return false;
        pairs.clear();
        std::uint64_t found = 0;
        store.scan(from, *count, [&](std::string_view key, std::string_view value) {
            found++;
            pairs.push_back(' ');
            put_word(pairs, key);
            pairs.push_back(' ');
            put_word(pairs, value);
        });
        out += "pairs ";
        script::put_number(out, found);
        out += pairs;
        return true;
    }

    bool flush(std::string &out) {
        store.flush();
        out += "flushed 0";
        return true;
    }

    static auto put_after(std::string_view front, std::string &out) {
        return [front, &out](std::string_view value) {
            out += front;
            put_word(out, value);
        };
    }

    Store store;
    std::string pairs;
};

template <typename Store> int run() { return script::run_server<Keys<Store>>(); }

} // namespace keys
