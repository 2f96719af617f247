// A program with the words `ids N M` or `sets N M`: N threads make M calls each of one store, which draw an id, or put a pair of one byte
// to one byte on a page. It prints how many calls were made, and fails where one was answered otherwise than it should be.
//
// Of 1,000 pages each thread has its part, whose stamps it keeps. Each tenth id is answered only once the counter is put. Each thread has
// a session of its own; a session is made of `Session::Shared`, which there is once, and has
//
//     void allocate(id)                      makes an empty page at stamp 1. Ids come in order, from 2 on
//     Change set(id, stamp, key, value)      as a store of script.h
//     void put_counter(number)               keeps the counter of ids; behind it a flush would be no more
#pragma once

#include "../script.h"

#include <future>
#include <mutex>

namespace crew {

using script::Change;

constexpr std::uint64_t page_count = 1000, interval = 10;

// A store of script.h behind one mutex.
template <typename Store> class Locked {
  public:
    struct Shared {
        std::mutex lock;
        Store store;
    };

    explicit Locked(Shared &shared) : shared(shared) {}

    void allocate(std::uint64_t id) {
        const std::lock_guard held(shared.lock);
        shared.store.allocate(id, 1, {});
    }

    Change set(std::uint64_t id, std::uint64_t stamp, const std::string &key, const std::string &value) {
        const std::lock_guard held(shared.lock);
        return shared.store.set(id, stamp, key, value);
    }

    void put_counter(std::uint64_t number) {
        const std::lock_guard held(shared.lock);
        shared.store.put_counter(number);
        shared.store.flush();
    }

  private:
    Shared &shared;
};

template <typename Session> class Crew {
  public:
    std::uint64_t draw(std::uint64_t threads, std::uint64_t calls) {
        in_threads(threads, [&](Session &session, std::uint64_t) {
            for (std::uint64_t call = 0; call < calls; call++) next_id(session);
        });
        return next;
    }

    std::uint64_t set(std::uint64_t threads, std::uint64_t calls) {
        const auto part = page_count / threads;
        Session own(shared);
        for (std::uint64_t place = 0; place < part * threads; place++) own.allocate(script::first_id + place);
        in_threads(threads, [&](Session &session, std::uint64_t thread) {
            set_pages(session, script::first_id + thread * part, part, calls);
        });
        return threads * calls;
    }

  private:
    // What a thread throws is thrown on.
    template <typename Work> void in_threads(std::uint64_t threads, Work work) {
        std::vector<std::future<void>> running;
        for (std::uint64_t thread = 0; thread < threads; thread++) {
            running.push_back(std::async(std::launch::async, [this, &work, thread] {
                Session session(shared);
                work(session, thread);
            }));
        }
        for (auto &thread : running) thread.get();
    }

    std::uint64_t next_id(Session &session) {
        const std::lock_guard held(ids);
        const auto start = next / interval * interval;
        if (start > counter) {
            session.put_counter(start);
            counter = start;
        }
        return next++;
    }

    static void set_pages(Session &session, std::uint64_t first, std::uint64_t part, std::uint64_t calls) {
        std::vector<std::uint64_t> stamps(part, 1);
        const std::string value = "b";
        for (std::uint64_t call = 0; call < calls; call++) {
            auto &stamp = stamps[call % part];
            const std::string key(1, static_cast<char>('`' + stamp % 4));
            const Change change = session.set(first + call % part, stamp, key, value);
            if (change.kind != Change::Kind::made) throw std::runtime_error("a set was not made");
            stamp = change.stamp;
        }
    }

    typename Session::Shared shared;
    std::mutex ids;
    std::uint64_t next = 0, counter = 0;
};

template <typename Session> int run(int count, char **words) {
    try {
        const std::string_view work = count == 4 ? words[1] : "";
        const auto threads = script::number_of(count == 4 ? words[2] : ""), calls = script::number_of(count == 4 ? words[3] : "");
        if ((work != "ids" && work != "sets") || !threads || *threads < 1 || *threads > page_count || !calls)
            throw std::runtime_error("the words are ids N M or sets N M");
        Crew<Session> crew;
        const auto made = work == "ids" ? crew.draw(*threads, *calls) : crew.set(*threads, *calls);
        std::printf("%llu calls\n", static_cast<unsigned long long>(made));
    } catch (const std::exception &fault) {
        std::fprintf(stderr, "%s\n", fault.what());
        return 1;
    }
    return 0;
}

} // namespace crew
