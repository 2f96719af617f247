// Pages as rows of an ordered table of byte strings. A page's id is eight bytes, big-endian, so the rows of a page stand together,
// in the order of its keys, after the row of its stamp:
//
//     id 0         stamp, in eight bytes
//     id 1 KEY     value
//
// The root page of a name, in eight bytes, is the value of a key of page 0, and the counter of ids the stamp of page 1: neither is a
// page of scripts. A `set` looks up the stamp and writes two rows, however many pairs the page has; a `get` is one walk from the row
// of the stamp. A table has
//
//     bool read(key, std::string &value)     whether there is such a row
//     void put(key, value), void remove(key) what a change is made of; there may be no row to remove
//     void apply()                           the change is made, as one
//     void scan(from, end, visit)            gives `visit` the rows from there up to `end`, which isn't among them, in order
//     void flush()
#pragma once

#include "script.h"

namespace rows {

using script::Change;
using script::Root;

inline void put_big_endian(std::string &out, std::uint64_t number) {
    for (int shift = 56; shift >= 0; shift -= 8) out.push_back(static_cast<char>(number >> shift));
}

inline std::string big_endian(std::uint64_t number) {
    std::string out;
    put_big_endian(out, number);
    return out;
}

inline std::uint64_t number_of(std::string_view bytes) {
    std::uint64_t number = 0;
    for (const unsigned char byte : bytes) number = number << 8 | byte;
    return number;
}

constexpr char stamp_mark = 0, pair_mark = 1, end_mark = 2;
constexpr std::size_t front = 9; // an id and a mark
constexpr std::uint64_t roots_id = 0, counter_id = 1;

template <typename Table> class Rows {
  public:
    // What is given goes to the table.
    template <typename... Given> explicit Rows(Given &...given) : table(given...) {}

    void allocate(std::uint64_t id, std::uint64_t stamp, script::Pairs &&pairs) {
        put_stamp(id, stamp);
        put_pairs(id, pairs);
        table.apply();
    }

    bool get(std::uint64_t id, script::Leaf &leaf) {
        bool is_found = false;
        table.scan(key_of(id, stamp_mark), key_of(id, end_mark), [&](std::string_view key, std::string_view value) {
            is_found = true;
            if (key[front - 1] == stamp_mark) leaf.stamp(number_of(value));
            else leaf.pair(key.substr(front), value);
        });
        return is_found;
    }

    Change set(std::uint64_t id, std::uint64_t stamp, const std::string &key, const std::string &value) {
        return change(id, stamp, [&] { table.put(key_of(id, pair_mark, key), value); });
    }

    Change del(std::uint64_t id, std::uint64_t stamp, const std::string &key) {
        return change(id, stamp, [&] { table.remove(key_of(id, pair_mark, key)); });
    }

    Change replace(std::uint64_t id, std::uint64_t stamp, script::Pairs &&pairs) {
        return change(id, stamp, [&] {
            remove_others(id, pairs);
            put_pairs(id, pairs);
        });
    }

    Change free(std::uint64_t id, std::uint64_t stamp) {
        return judge(id, stamp, [&] {
            table.remove(key_of(id, stamp_mark));
            remove_others(id, {});
        });
    }

    Root root(const std::string &name) {
        std::string present;
        if (!table.read(key_of(roots_id, pair_mark, name), present)) return std::nullopt;
        return number_of(present);
    }

    void put_root(const std::string &name, Root root) {
        const std::string row = key_of(roots_id, pair_mark, name);
        if (root) table.put(row, big_endian(*root));
        else table.remove(row);
        table.apply();
    }

    void flush() { table.flush(); }

    void put_counter(std::uint64_t number) {
        put_stamp(counter_id, number);
        table.apply();
    }

  private:
    static std::string key_of(std::uint64_t id, char mark, std::string_view key = {}) {
        std::string row;
        row.reserve(front + key.size());
        put_big_endian(row, id);
        row.push_back(mark);
        return row.append(key);
    }

    template <typename Edit> Change change(std::uint64_t id, std::uint64_t stamp, Edit edit) {
        return judge(id, stamp, [&] {
            put_stamp(id, stamp + 1);
            edit();
        });
    }

    // Makes an edit where the stamp is the present one.
    template <typename Edit> Change judge(std::uint64_t id, std::uint64_t stamp, Edit edit) {
        std::string present;
        if (!table.read(key_of(id, stamp_mark), present)) return Change::gone();
        if (number_of(present) != stamp) return Change::stale(number_of(present));
        edit();
        table.apply();
        return Change::made(stamp + 1);
    }

    void put_stamp(std::uint64_t id, std::uint64_t stamp) { table.put(key_of(id, stamp_mark), big_endian(stamp)); }

    void put_pairs(std::uint64_t id, const script::Pairs &pairs) {
        for (const auto &[key, value] : pairs) table.put(key_of(id, pair_mark, key), value);
    }

    // Removes the pairs of the page whose keys are not among these, which ascend.
    void remove_others(std::uint64_t id, const script::Pairs &kept) {
        std::vector<std::string> others;
        auto next = kept.begin();
        table.scan(key_of(id, pair_mark), key_of(id, end_mark), [&](std::string_view key, std::string_view) {
            while (next != kept.end() && next->key < key.substr(front)) next++;
            if (next == kept.end() || next->key != key.substr(front)) others.emplace_back(key);
        });
        for (const auto &key : others) table.remove(key);
    }

    Table table;
};

} // namespace rows
