// docs/SCRIPT.md's script over a store in C++: reads lines from standard input, asks the store, and writes the replies. A program has
// its store alone, and calls `script::run<Store>()`. A store has
//
//     void allocate(id, stamp, Pairs &&)     makes a page of an id that has none: a free one, or the next, from 2 on
//     bool get(id, Leaf &)                   gives the reply the page's stamp and then its pairs; false where there is no page
//     Change set(id, stamp, key, value)      the pair is put, and the stamp raised by one, where the stamp is the present one
//     Change del(id, stamp, key)             the same: the key is taken out
//     Change replace(id, stamp, Pairs &&)    the same: the page has these pairs alone
//     Change free(id, stamp)                 the same, but there is no page then
//     Root root(name)                        the root page of the name, if it has one
//     void put_root(name, Root)              gives the name this root page, or none
//     void flush()                           ends a transaction, in a store that has them
//     void put_counter(number)               keeps the counter of ids, which a flush makes durable
//
// and throws what it can't answer, which ends the program with status 1. `size` and `open` are no commands here. Which ids of pages
// are free is known here, and in no store, and so is whether a batch is open, which ends with a flush. That is not
// read back, nor are the next page and the next id, so a script over files of an earlier run does without `alloc`, `free` and `id`.
// Ids of `id` come in intervals, of a length that the environment gives as INTERVAL (10).
#pragma once

#include <cerrno>
#include <charconv>
#include <cstdint>
#include <cstdio>
#include <cstdlib>
#include <exception>
#include <iterator>
#include <limits>
#include <map>
#include <optional>
#include <stdexcept>
#include <string>
#include <string_view>
#include <unistd.h>
#include <utility>
#include <vector>

namespace script {

struct Pair {
    std::string key, value;
};
using Pairs = std::vector<Pair>;
using Root = std::optional<std::uint64_t>;

constexpr std::uint64_t first_id = 2;
constexpr std::size_t longest_line = 65536;
constexpr std::string_view reserved_id = "1", batch_open = "8"; // reasons of `error unsupported`

// What came of a change: the new stamp, or the present one where the given one is stale, or neither where there is no page.
struct Change {
    enum class Kind { made, stale, gone } kind;
    std::uint64_t stamp;

    static Change made(std::uint64_t stamp) { return {Kind::made, stamp}; }
    static Change stale(std::uint64_t stamp) { return {Kind::stale, stamp}; }
    static Change gone() { return {Kind::gone, 0}; }
};

inline std::optional<std::uint64_t> number_of(std::string_view word) {
    if (word.size() > 1 && word[0] == '0') return std::nullopt;
    std::uint64_t number = 0;
    const auto end = word.data() + word.size();
    const auto [stop, error] = std::from_chars(word.data(), end, number);
    if (error != std::errc() || stop != end) return std::nullopt;
    return number;
}

inline int hex_value(char digit) {
    if (digit >= '0' && digit <= '9') return digit - '0';
    if (digit >= 'a' && digit <= 'f') return digit - 'a' + 10;
    return -1;
}

inline std::optional<std::string> bytes_of(std::string_view word) {
    if (word == "-") return std::string();
    if (word.empty() || word.size() % 2 != 0) return std::nullopt;
    std::string bytes(word.size() / 2, '\0');
    for (std::size_t at = 0; at < bytes.size(); at++) {
        const int high = hex_value(word[2 * at]), low = hex_value(word[2 * at + 1]);
        if (high < 0 || low < 0) return std::nullopt;
        bytes[at] = static_cast<char>(high * 16 + low);
    }
    return bytes;
}

// The id of a root page, or none for `-`.
inline std::optional<Root> root_of(std::string_view word) {
    if (word == "-") return Root();
    const auto id = number_of(word);
    if (!id) return std::nullopt;
    return Root(*id);
}

inline void put_number(std::string &out, std::uint64_t number) {
    char digits[20];
    const auto end = std::to_chars(digits, digits + sizeof digits, number).ptr;
    out.append(digits, end);
}

inline void put_bytes(std::string &out, std::string_view bytes) {
    constexpr char digits[] = "0123456789abcdef";
    if (bytes.empty()) out.push_back('-');
    for (const unsigned char byte : bytes) {
        out.push_back(digits[byte / 16]);
        out.push_back(digits[byte % 16]);
    }
}

// The words of a line. No word of the script is empty, so an empty one stands for none.
class Words {
  public:
    explicit Words(std::string_view line) : left(line) {}

    bool are_done() const { return done; }

    std::string_view next() {
        const auto end = left.find(' ');
        const auto word = left.substr(0, end);
        done = end == std::string_view::npos;
        left = done ? std::string_view() : left.substr(end + 1);
        return word;
    }

    // The rest as pairs with ascending keys, if it is that.
    std::optional<Pairs> pairs() {
        Pairs pairs;
        while (!done) {
            const auto word = next();
            const auto mark = word.find('=');
            if (mark == std::string_view::npos) return std::nullopt;
            auto key = bytes_of(word.substr(0, mark)), value = bytes_of(word.substr(mark + 1));
            if (!key || !value || (!pairs.empty() && pairs.back().key >= *key)) return std::nullopt;
            pairs.push_back({std::move(*key), std::move(*value)});
        }
        return pairs;
    }

  private:
    std::string_view left;
    bool done = false;
};

// The reply to `get`, as the store fills it.
class Leaf {
  public:
    explicit Leaf(std::string &out) : out(out) {}

    void stamp(std::uint64_t stamp) {
        out += "leaf ";
        put_number(out, stamp);
    }

    void pair(std::string_view key, std::string_view value) {
        out.push_back(' ');
        put_bytes(out, key);
        out.push_back('=');
        put_bytes(out, value);
    }

  private:
    std::string &out;
};

template <typename Store> class Script {
  public:
    void serve(std::string_view line, std::string &out) {
        if (line.size() > longest_line || !reply(Words(line), out)) out += "error line";
        out.push_back('\n');
    }

  private:
    // Nothing is written where it is false: the line is no command.
    bool reply(Words words, std::string &out) {
        const auto name = words.next();
        if (name == "get") return get(words, out);
        if (name == "set" || name == "del" || name == "replace" || name == "free") return change(name, words, out);
        if (name == "alloc") return allocate(words, out);
        if (name == "root") return root(words, out);
        if (name == "cas") return swap(words, out);
        if (name == "id") return draw(words, out);
        if (name == "flush") return flush(words, out);
        if (name == "pin") return open_batch(words, out);
        return (name == "seal" || name == "cancel") && close_batch(words, out);
    }

    bool flush(Words &words, std::string &out) {
        if (!words.are_done()) return false;
        if (is_batch_open) return refuse(out, batch_open);
        store.flush();
        out += "flushed 0";
        return true;
    }

    bool open_batch(Words &words, std::string &out) {
        if (!words.are_done()) return false;
        if (is_batch_open) return refuse(out, batch_open);
        is_batch_open = true;
        out += "ok";
        return true;
    }

    // No change is taken back where a batch is cancelled.
    bool close_batch(Words &words, std::string &out) {
        if (!words.are_done() || !is_batch_open) return false;
        is_batch_open = false;
        store.flush();
        out += "ok";
        return true;
    }

    static bool refuse(std::string &out, std::string_view reason) {
        out += "error unsupported ";
        out += reason;
        return true;
    }

    bool allocate(Words &words, std::string &out) {
        auto pairs = words.pairs();
        if (!pairs) return false;
        const auto [id, stamp] = next_page();
        store.allocate(id, stamp, std::move(*pairs));
        out += "page ";
        put_number(out, id);
        out.push_back(' ');
        put_number(out, stamp);
        return true;
    }

    // The greatest free id at its next stamp, or else a new id at the first.
    std::pair<std::uint64_t, std::uint64_t> next_page() {
        if (free_pages.empty()) return {next_id++, 1};
        const auto [id, stamp] = *free_pages.rbegin();
        free_pages.erase(std::prev(free_pages.end()));
        return {id, stamp + 1};
    }

    bool root(Words &words, std::string &out) {
        const auto name = bytes_of(words.next());
        if (!name || !words.are_done()) return false;
        const Root present = store.root(*name);
        out += present ? "page " : "none";
        if (present) put_number(out, *present);
        return true;
    }

    bool swap(Words &words, std::string &out) {
        const auto name = bytes_of(words.next());
        const auto old = root_of(words.next()), wanted = root_of(words.next());
        if (!name || !old || !wanted || !words.are_done()) return false;
        const Root present = store.root(*name);
        if (present == *old) {
            store.put_root(*name, *wanted);
            out += "ok";
        } else if (present) {
            out += "is ";
            put_number(out, *present);
        } else {
            out += "is -";
        }
        return true;
    }

    // The first id of an interval is answered only once the start of the interval is the counter, and that is durable.
    bool draw(Words &words, std::string &out) {
        if (!words.are_done()) return false;
        const auto start = next_drawn / interval * interval;
        if (start > counter) {
            if (is_batch_open) return refuse(out, batch_open);
            store.put_counter(start);
            store.flush();
            counter = start;
        }
        out += "id ";
        put_number(out, next_drawn++);
        return true;
    }

    static std::uint64_t asked_interval() {
        const char *asked = std::getenv("INTERVAL");
        const auto interval = number_of(asked ? asked : "10");
        if (!interval || *interval == 0) throw std::runtime_error("INTERVAL is no interval of ids");
        return *interval;
    }

    bool get(Words &words, std::string &out) {
        const auto id = number_of(words.next());
        if (!id || !words.are_done()) return false;
        Leaf leaf(out);
        if (is_own(*id)) return refuse(out, reserved_id);
        if (!store.get(*id, leaf)) out += "none";
        return true;
    }

    bool change(std::string_view name, Words &words, std::string &out) {
        const auto id = number_of(words.next()), stamp = number_of(words.next());
        if (!id || !stamp) return false;
        if (name == "free") return words.are_done() && put_change(out, *id, [&] { return free(*id, *stamp); });
        if (name == "replace") {
            auto pairs = words.pairs();
            return pairs && put_change(out, *id, [&] { return store.replace(*id, *stamp, std::move(*pairs)); });
        }
        const auto key = bytes_of(words.next());
        if (!key) return false;
        if (name == "del") return words.are_done() && put_change(out, *id, [&] { return store.del(*id, *stamp, *key); });
        const auto value = bytes_of(words.next());
        if (!value || !words.are_done()) return false;
        return put_change(out, *id, [&] { return store.set(*id, *stamp, *key, *value); });
    }

    Change free(std::uint64_t id, std::uint64_t stamp) {
        const auto change = store.free(id, stamp);
        if (change.kind == Change::Kind::made) free_pages.emplace(id, change.stamp);
        return change;
    }

    // The pages of named roots, of the counter of ids, and the mark of a batch.
    static bool is_own(std::uint64_t id) { return id < first_id || id == std::numeric_limits<std::uint64_t>::max() - 666; }

    // Makes a change of a page that is not an own one, and writes what came of it.
    template <typename Make> static bool put_change(std::string &out, std::uint64_t id, Make make) {
        if (is_own(id)) return refuse(out, reserved_id);
        const Change change = make();
        if (change.kind == Change::Kind::gone) {
            out += "gone";
            return true;
        }
        out += change.kind == Change::Kind::made ? "ok " : "stale ";
        put_number(out, change.stamp);
        return true;
    }

    Store store;
    std::map<std::uint64_t, std::uint64_t> free_pages; // by their ids, each with its stamp
    bool is_batch_open = false;
    std::uint64_t next_id = first_id;
    std::uint64_t interval = asked_interval(), counter = 0, next_drawn = 0;
};

inline void write_out(std::string &out) {
    std::string_view left = out;
    while (!left.empty()) {
        const auto count = ::write(STDOUT_FILENO, left.data(), left.size());
        if (count < 0 && errno != EINTR) throw std::runtime_error("standard output can't be written");
        if (count > 0) left.remove_prefix(static_cast<std::size_t>(count));
    }
    out.clear();
}

// Serves all of standard input: a server appends the reply to each line. Replies go out before a read that may wait, so a program at the
// other end of a pipe gets them.
template <typename Server> void serve_input() {
    Server server;
    std::vector<char> chunk(65536);
    std::string input, out;
    for (;;) {
        const auto count = ::read(STDIN_FILENO, chunk.data(), chunk.size());
        if (count < 0 && errno == EINTR) continue;
        if (count < 0) throw std::runtime_error("standard input can't be read");
        if (count == 0) break;
        input.append(chunk.data(), static_cast<std::size_t>(count));
        std::size_t at = 0;
        for (auto end = input.find('\n'); end != std::string::npos; end = input.find('\n', at)) {
            server.serve(std::string_view(input).substr(at, end - at), out);
            at = end + 1;
            if (out.size() >= chunk.size()) write_out(out);
        }
        input.erase(0, at);
        write_out(out);
    }
    if (!input.empty()) server.serve(input, out);
    write_out(out);
}

template <typename Server> int run_server() {
    try {
        serve_input<Server>();
    } catch (const std::exception &fault) {
        std::fprintf(stderr, "%s\n", fault.what());
        return 1;
    }
    return 0;
}

template <typename Store> int run() { return run_server<Script<Store>>(); }

} // namespace script
