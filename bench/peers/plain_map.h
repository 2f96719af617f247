// Pages in a plain map: a page is a stamp and a std::map of its pairs, and pages are in a std::vector by their ids. A std::map has the
// roots. It keeps no log, so a flush does nothing.
#pragma once

#include "script.h"

#include <map>

namespace plain {

using script::Change;
using script::Root;

// A free page has stamp 0, which no other has.
struct Page {
    std::uint64_t stamp = 0;
    std::map<std::string, std::string, std::less<>> pairs;
};

class PlainMap {
  public:
    void allocate(std::uint64_t id, std::uint64_t stamp, script::Pairs &&pairs) {
        const auto place = id - script::first_id;
        if (place == pages.size()) pages.emplace_back();
        pages[place].stamp = stamp;
        fill(pages[place], std::move(pairs));
    }

    bool get(std::uint64_t id, script::Leaf &leaf) const {
        if (!has(id)) return false;
        const Page &page = pages[id - script::first_id];
        leaf.stamp(page.stamp);
        for (const auto &[key, value] : page.pairs) leaf.pair(key, value);
        return true;
    }

    Change set(std::uint64_t id, std::uint64_t stamp, const std::string &key, const std::string &value) {
        return change(id, stamp, [&](Page &page) { page.pairs[key] = value; });
    }

    Change del(std::uint64_t id, std::uint64_t stamp, const std::string &key) {
        return change(id, stamp, [&](Page &page) { page.pairs.erase(key); });
    }

    Change replace(std::uint64_t id, std::uint64_t stamp, script::Pairs &&pairs) {
        return change(id, stamp, [&](Page &page) {
            page.pairs.clear();
            fill(page, std::move(pairs));
        });
    }

    Change free(std::uint64_t id, std::uint64_t stamp) {
        return change(id, stamp, [](Page &page) { page = Page(); });
    }

    Root root(const std::string &name) const {
        const auto found = roots.find(name);
        return found == roots.end() ? Root() : Root(found->second);
    }

    void put_root(const std::string &name, Root root) {
        if (root) roots[name] = *root;
        else roots.erase(name);
    }

    void flush() {}

    void put_counter(std::uint64_t number) { counter = number; }

  private:
    bool has(std::uint64_t id) const {
        return id >= script::first_id && id - script::first_id < pages.size() && pages[id - script::first_id].stamp != 0;
    }

    template <typename Edit> Change change(std::uint64_t id, std::uint64_t stamp, Edit edit) {
        if (!has(id)) return Change::gone();
        Page &page = pages[id - script::first_id];
        if (page.stamp != stamp) return Change::stale(page.stamp);
        page.stamp = stamp + 1;
        edit(page);
        return Change::made(stamp + 1);
    }

    static void fill(Page &page, script::Pairs &&pairs) {
        for (auto &[key, value] : pairs) page.pairs.emplace_hint(page.pairs.end(), std::move(key), std::move(value));
    }

    std::vector<Page> pages;
    std::map<std::string, std::uint64_t> roots;
    std::uint64_t counter = 0;
};

} // namespace plain
