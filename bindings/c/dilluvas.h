/* Dilluvas: ordered maps over a page cache for embedded stores, whose calls are proved to meet their contracts.
 *
 * A map keeps pairs of a key and a value, which are byte strings, in the order of the keys by their bytes. Each call names its map by a
 * byte string: dilluvas_map_set sets a value, and dilluvas_map_get gets it. Maps are kept in pages.
 *
 * A cache keeps pages, which have numbers. A page holds pairs of a key and a value, which are byte strings, and has a stamp that each
 * change raises by one: a change names the stamp that it expects, and is refused if the page has another one. A program that keeps maps
 * needs none of that, and one that changes the pages of a map by their numbers breaks the map.
 *
 * Every call returns a status, whatever numbers, lengths, bytes and null pointers it is given. None of them aborts, and none prints. A call
 * that doesn't return DILLUVAS_OK leaves every page, stamp and name unchanged, and also the program's memory that it would have written to,
 * unless it says otherwise.
 *
 * What a program owes, since no call can test it:
 *
 * - A handle is DILLUVAS_CLOSED (all zeros) before its first call, and only these calls write to it. It may be moved, but not copied while
 *   it is open: two copies would own one cache.
 * - One call at a time uses a handle. A handle may go to another thread, if a lock or the start or the end of a thread orders the calls.
 *   Handles share nothing with one another.
 * - A pointer that isn't null points to a value of its type, or to as many bytes as the length beside it says, which the program has
 *   initialised. It stays the program's: no call keeps a pointer, or frees what one points to. What a call writes to overlaps nothing else
 *   that the call is given. A `bool` is 0 or 1.
 * - `malloc`, `realloc` and `free` are one allocator, with blocks aligned as C demands. No call is made from a signal handler, or in a
 *   forked child of a process with threads.
 *
 * A null pointer is harmless only where a call allows it: for every other one the call returns DILLUVAS_ARGUMENTS.
 */
#ifndef DILLUVAS_H
#define DILLUVAS_H

#include <stdbool.h>
#include <stddef.h>
#include <stdint.h>
#include <string.h>

#ifdef __cplusplus
extern "C" {
#endif

/* ---- Statuses. `dilluvas_text` has a text for each. */

typedef uint32_t dilluvas_status;

enum {
    DILLUVAS_OK = 0,           /* The call did what it says. */
    DILLUVAS_STALE = 1,        /* The page has another stamp, or the name another root, which replaces the one that was given; or the key has
                                * another value. */
    DILLUVAS_GONE = 2,         /* There is no such page: it was never allocated, or is free. */
    DILLUVAS_NONE = 3,         /* There is no such key, root, name or pair. */
    DILLUVAS_SHORT = 4,        /* The buffer is too short, and nothing was written to it; the number of bytes needed was written. */
    DILLUVAS_NOT_OPEN = 5,     /* The handle has no open cache. */
    DILLUVAS_ALREADY_OPEN = 6, /* The handle has an open cache, which stays. */
    DILLUVAS_ARGUMENTS = 7,    /* A pointer is null, the bytes encode no pairs that a leaf can hold, or a number names no bound or side. */
    DILLUVAS_NO_BATCH = 8,     /* No batch is open. */
    DILLUVAS_INDEX = 9,        /* The page is an index, whose pairs have no values. */
    DILLUVAS_NOT_OVER_FILE = 10, /* The call isn't available over a file. */
    DILLUVAS_KEY_TOO_LONG = 11,   /* The key has 2^31 bytes or more. */
    DILLUVAS_VALUE_TOO_LONG = 12, /* The value has 2^31 bytes or more. */

    DILLUVAS_MEMORY = 16,     /* An allocation failed. The call may be repeated. */
    DILLUVAS_READ = 17,       /* A read failed. The call may be repeated. Never with a cache in memory. */
    DILLUVAS_WRITE = 18,      /* A write failed, now or earlier: every later call returns this, until the store is reopened. */
    DILLUVAS_CORRUPTION = 19, /* No cache wrote the records of the page, or the bytes of the file. Never with a cache in memory. */
    DILLUVAS_NEEDS = 20,      /* Bytes of the file are needed: repeat the call with them. Never with a cache in memory. */

    /* What dilluvas_file.h reports of a file, and no call of this header, */
    DILLUVAS_NO_FILE = 32,   /* It is a folder, or something else that is no file. */
    DILLUVAS_NO_ACCESS = 33, /* The file may not be read and written, or can't be made. */
    DILLUVAS_HELD = 34,      /* Another process has the file open, or this one has. */
    DILLUVAS_DISK_FULL = 35, /* The disk has no room for the change, which was not begun. */

    /* what isn't supported, from 101 on, */
    DILLUVAS_RESERVED_ID = 101,        /* The page is the cache's own: 0, 1 or 2^64 - 667. */
    DILLUVAS_CAPACITY_TOO_SMALL = 102, /* The capacity of the cache is below 256. */
    DILLUVAS_INTERVAL_ZERO = 103,      /* The interval of ids is 0. */
    DILLUVAS_SEGMENT_ZERO = 104,       /* The size of a segment is 0. */
    DILLUVAS_PAGES_USED_UP = 105,      /* No page is free, and there are 2^37 of them. */
    DILLUVAS_IDS_USED_UP = 106,        /* No id is left below 2^64. */
    DILLUVAS_STAMP_USED_UP = 107,      /* The stamp of the page is 2^64 - 1. */
    DILLUVAS_BATCH_OPEN = 108,         /* A batch is open: it takes no flush, no second pin, no id that needs a new counter, and no rewrite. */
    DILLUVAS_TOO_MANY_NAMES = 109,     /* There are 2^24 other names. */
    DILLUVAS_NAME_TOO_LONG = 110,      /* The name has 2^31 bytes or more. */
    DILLUVAS_LOG_FULL = 111,           /* The log has no room for the record. */
    DILLUVAS_BOOK_FULL = 112,          /* No call of this library returns this, */

    /* and what should never be seen, from 201 on. */
    DILLUVAS_MISSING_META = 201,    /* nor this, */
    DILLUVAS_MISSING_COUNTER = 202, /* nor this, */
    DILLUVAS_LINK_REFUSED = 203,    /* The node doesn't accept the link: it is an index, the key is out of its range, or the leaf is full. */
    DILLUVAS_FREE_IN_PULL = 204     /* nor this. */
};

/* ---- Handles. */

/* A program's handle of a cache. Its fields are the library's. */
typedef struct dilluvas {
    void *at;
    bool is_open;
} dilluvas;

/* A handle before its first call, and after dilluvas_close. */
#define DILLUVAS_CLOSED {NULL, false}

/* The settings of a cache over a log in memory. */
typedef struct dilluvas_settings {
    uint64_t cache_capacity;         /* bytes of the records whose pages stay in memory as nodes, at least 256 */
    uint64_t idgen_persist_interval; /* how many ids one counter covers, at least 1 */
    size_t segment_size;             /* bytes, at least 1 */
    size_t blob_limit;               /* payloads of more bytes are kept beside the log */
    uint64_t clean_every;            /* one page is due to be moved for each so many records, and none if this is 0 */
} dilluvas_settings;

#define DILLUVAS_SETTINGS {1048576, 10, 4096, 512, 16}

/* The settings of a cache over a file. It may be opened with other settings than it was made with, except for a smaller interval of ids: an
 * id could then come twice. */
typedef struct dilluvas_file_settings {
    uint64_t cache_capacity;         /* as above */
    uint64_t idgen_persist_interval; /* as above: an opening skips at most twice as many ids, and it is never made smaller */
    size_t segment_size;             /* how many bytes may be pending before they are written, at least 1: a write takes two syncs */
} dilluvas_file_settings;

#define DILLUVAS_FILE_SETTINGS {1048576, 10, 1048576}

/* What a program has to do next with the file of a cache. */
typedef struct dilluvas_task {
    uint32_t kind; /* DILLUVAS_NOTHING, DILLUVAS_WRITE_BYTES or DILLUVAS_SYNC */
    uint64_t at;   /* the place of the first byte of a write */
    size_t len;    /* how many bytes a write has */
} dilluvas_task;

enum {
    DILLUVAS_NOTHING = 0,
    DILLUVAS_WRITE_BYTES = 1,
    DILLUVAS_SYNC = 2
};

/* What dilluvas_get reports of a page. */
typedef struct dilluvas_found {
    uint64_t stamp; /* the page's stamp */
    size_t count;   /* how many pairs there are */
    size_t needed;  /* how many bytes they take */
    bool is_index;  /* the page is an index: the value of each pair is a page, in 8 bytes, the lowest first */
} dilluvas_found;

/* The kinds of a bound. */
enum {
    DILLUVAS_INCLUDED = 0, /* the key and what is on its inner side */
    DILLUVAS_EXCLUDED = 1, /* only what is on its inner side */
    DILLUVAS_UNBOUNDED = 2 /* no bound: the key is ignored */
};

/* Where dilluvas_map_next looks for a pair. */
enum {
    DILLUVAS_ABOVE = 0, /* the next greater key */
    DILLUVAS_FROM = 1,  /* the key itself, or the next greater one */
    DILLUVAS_BELOW = 2, /* the next smaller key */
    DILLUVAS_UP_TO = 3, /* the key itself, or the next smaller one */
    DILLUVAS_FIRST = 4, /* the least key of the map: the bound is ignored */
    DILLUVAS_LAST = 5   /* the greatest one, likewise */
};

/* What dilluvas_map_range reports of a piece of a map besides its pairs. */
typedef struct dilluvas_piece {
    size_t count;     /* how many pairs there are */
    size_t pairs_len; /* how many bytes they take */
    size_t rest_len;  /* how many bytes the key has at which the others begin */
    bool more;        /* whether there are others: that key may have no bytes */
} dilluvas_piece;

/* ---- The library's functions, whose pointers aren't null unless the length beside them is 0. Call the ones below instead. */

dilluvas_status dilluvas_raw_open_memory(dilluvas *d, const dilluvas_settings *settings);
dilluvas_status dilluvas_raw_open_file(dilluvas *d, const dilluvas_file_settings *settings, uint64_t len);
dilluvas_status dilluvas_raw_new_log(dilluvas *d, const dilluvas_file_settings *settings);
dilluvas_status dilluvas_raw_rewrite(dilluvas *d, dilluvas *into);
dilluvas_status dilluvas_raw_compact(dilluvas *d, const dilluvas_settings *settings);
dilluvas_status dilluvas_raw_next_task(dilluvas *d, dilluvas_task *task, uint8_t *buffer, size_t room);
dilluvas_status dilluvas_raw_needs(dilluvas *d, uint64_t *at, size_t *len);
dilluvas_status dilluvas_raw_hand_in(dilluvas *d, uint64_t at, const uint8_t *bytes, size_t len);
dilluvas_status dilluvas_raw_forget(dilluvas *d);
dilluvas_status dilluvas_raw_failed(dilluvas *d);
dilluvas_status dilluvas_raw_close(dilluvas *d);
dilluvas_status dilluvas_raw_text(dilluvas_status status, uint8_t *buffer, size_t room, size_t *needed);
dilluvas_status dilluvas_raw_allocate(dilluvas *d, const uint8_t *pairs, size_t pairs_len, uint64_t *page, uint64_t *stamp);
dilluvas_status dilluvas_raw_get(dilluvas *d, uint64_t page, dilluvas_found *found, uint8_t *buffer, size_t room);
dilluvas_status dilluvas_raw_value(dilluvas *d, uint64_t page, const uint8_t *key, size_t key_len, uint64_t *stamp, uint8_t *buffer,
                                   size_t room, size_t *needed);
dilluvas_status dilluvas_raw_set(dilluvas *d, uint64_t page, uint64_t *stamp, const uint8_t *key, size_t key_len, const uint8_t *value,
                                 size_t value_len);
dilluvas_status dilluvas_raw_del(dilluvas *d, uint64_t page, uint64_t *stamp, const uint8_t *key, size_t key_len);
dilluvas_status dilluvas_raw_replace(dilluvas *d, uint64_t page, uint64_t *stamp, const uint8_t *pairs, size_t pairs_len);
dilluvas_status dilluvas_raw_free(dilluvas *d, uint64_t page, uint64_t *stamp);
dilluvas_status dilluvas_raw_root(dilluvas *d, const uint8_t *name, size_t name_len, uint64_t *page);
dilluvas_status dilluvas_raw_cas_root(dilluvas *d, const uint8_t *name, size_t name_len, uint64_t *root, uint64_t next);
dilluvas_status dilluvas_raw_open_tree(dilluvas *d, const uint8_t *name, size_t name_len, uint64_t *page);
dilluvas_status dilluvas_raw_map_get(dilluvas *d, const uint8_t *name, size_t name_len, const uint8_t *key, size_t key_len, uint8_t *buffer,
                                     size_t room, size_t *needed);
dilluvas_status dilluvas_raw_map_set(dilluvas *d, const uint8_t *name, size_t name_len, const uint8_t *key, size_t key_len,
                                     const uint8_t *value, size_t value_len, bool *had);
dilluvas_status dilluvas_raw_map_del(dilluvas *d, const uint8_t *name, size_t name_len, const uint8_t *key, size_t key_len, bool *had);
dilluvas_status dilluvas_raw_map_cas(dilluvas *d, const uint8_t *name, size_t name_len, const uint8_t *key, size_t key_len, bool has_old,
                                     const uint8_t *old_value, size_t old_len, bool has_new, const uint8_t *new_value, size_t new_len);
dilluvas_status dilluvas_raw_map_next(dilluvas *d, const uint8_t *name, size_t name_len, uint32_t side, const uint8_t *bound,
                                      size_t bound_len, uint8_t *buffer, size_t room, size_t *needed);
dilluvas_status dilluvas_raw_map_range(dilluvas *d, const uint8_t *name, size_t name_len, uint32_t from_kind, const uint8_t *from,
                                       size_t from_len, uint32_t to_kind, const uint8_t *to, size_t to_len, uint8_t *buffer, size_t room,
                                       dilluvas_piece *piece);
dilluvas_status dilluvas_raw_map_count(dilluvas *d, const uint8_t *name, size_t name_len, uint32_t from_kind, const uint8_t *from,
                                       size_t from_len, uint32_t to_kind, const uint8_t *to, size_t to_len, uint8_t *buffer, size_t room,
                                       dilluvas_piece *piece);
dilluvas_status dilluvas_raw_map_drop(dilluvas *d, const uint8_t *name, size_t name_len, bool *had);
dilluvas_status dilluvas_raw_map_name(dilluvas *d, bool has_after, const uint8_t *after, size_t after_len, uint8_t *buffer, size_t room,
                                      size_t *needed);
dilluvas_status dilluvas_raw_generate_id(dilluvas *d, uint64_t *id);
dilluvas_status dilluvas_raw_pin(dilluvas *d);
dilluvas_status dilluvas_raw_seal(dilluvas *d);
dilluvas_status dilluvas_raw_cancel(dilluvas *d);
dilluvas_status dilluvas_raw_flush(dilluvas *d, size_t *written);
dilluvas_status dilluvas_raw_size(dilluvas *d, uint64_t *bytes);
dilluvas_status dilluvas_raw_live(dilluvas *d, uint64_t *bytes);
dilluvas_status dilluvas_raw_amp(dilluvas *d, uint64_t *log, uint64_t *pages);
dilluvas_status dilluvas_raw_page_count(dilluvas *d, uint64_t *pages);
dilluvas_status dilluvas_raw_page_size(dilluvas *d, uint64_t page, uint64_t *bytes);
dilluvas_status dilluvas_raw_gc(dilluvas *d, bool *moved);
dilluvas_status dilluvas_raw_was_recovered(dilluvas *d, bool *recovered);

/* Whether the pointer isn't null, or the length is 0. */
static inline bool dilluvas_are_bytes(const void *bytes, size_t len) {
    return bytes || !len;
}

/* ---- Opening and closing. */

/* Opens a cache over a new log in memory. The handle must be closed, and then owns the cache: dilluvas_close frees it.
 *
 * Returns ALREADY_OPEN; CAPACITY_TOO_SMALL, INTERVAL_ZERO or SEGMENT_ZERO for the settings; MEMORY. The handle is then unchanged. */
static inline dilluvas_status dilluvas_open_memory(dilluvas *d, const dilluvas_settings *settings) {
    if (!d || !settings) return DILLUVAS_ARGUMENTS;
    return dilluvas_raw_open_memory(d, settings);
}

/* Closes the cache and frees everything that it owns. Nothing is flushed: a cache in memory leaves nothing, and one over a file leaves what
 * is durable. An open batch is lost.
 *
 * Returns NOT_OPEN. The handle is then closed, whatever the status. */
static inline dilluvas_status dilluvas_close(dilluvas *d) {
    if (!d) return DILLUVAS_ARGUMENTS;
    return dilluvas_raw_close(d);
}

/* Writes an English text for a status, without a terminating zero, into a buffer of `room` bytes, and its length to `needed`. Every number
 * has a text. It needs no cache.
 *
 * Returns SHORT. */
static inline dilluvas_status dilluvas_text(dilluvas_status status, uint8_t *buffer, size_t room, size_t *needed) {
    if (!dilluvas_are_bytes(buffer, room) || !needed) return DILLUVAS_ARGUMENTS;
    return dilluvas_raw_text(status, buffer, room, needed);
}

/* ---- A file. The library doesn't read or write it: the program does so between the calls, and dilluvas_file.h has the loop for a file of
 * the system. After each call over a file, whatever it returned, and before its status counts, the program
 *
 * 1. does what dilluvas_next_task says until there is nothing; if a task fails, it calls dilluvas_failed, and the result is WRITE;
 * 2. at NEEDS reads the bytes that dilluvas_needs says, hands them in with dilluvas_hand_in, and repeats the same call; if they can't be
 *    read, it calls dilluvas_forget, and the result is READ.
 *
 * What is durable once all tasks are done is as durable as the file: a sync has to reach the device, and nobody else writes to the file. */

/* Opens a cache over a file of `len` bytes; an empty file gets an empty log. The handle must be closed. At NEEDS it is being opened: the
 * repeated call continues, with the settings and the length that it began with, and every other call returns NOT_OPEN.
 *
 * Returns NEEDS; ALREADY_OPEN; CAPACITY_TOO_SMALL, INTERVAL_ZERO or SEGMENT_ZERO for the settings; MEMORY, READ, WRITE; CORRUPTION if no
 * cache wrote the file; LOG_FULL. After any status but OK, NEEDS and ALREADY_OPEN the handle is closed. */
static inline dilluvas_status dilluvas_open_file(dilluvas *d, const dilluvas_file_settings *settings, uint64_t len) {
    if (!d || !settings) return DILLUVAS_ARGUMENTS;
    return dilluvas_raw_open_file(d, settings, len);
}

/* Writes the next task for the file, and the bytes of a write into a buffer of `room` bytes: if there are more, the rest comes next. The task
 * then counts as done. A cache in memory has none.
 *
 * Returns NOT_OPEN; WRITE once dilluvas_failed was called. */
static inline dilluvas_status dilluvas_next_task(dilluvas *d, dilluvas_task *task, uint8_t *buffer, size_t room) {
    if (!d || !task || !buffer || !room) return DILLUVAS_ARGUMENTS;
    return dilluvas_raw_next_task(d, task, buffer, room);
}

/* Writes the place of the bytes that are needed and how many they are, or 0 if none are.
 *
 * Returns NOT_OPEN; WRITE once dilluvas_failed was called. */
static inline dilluvas_status dilluvas_needs(dilluvas *d, uint64_t *at, size_t *len) {
    if (!d || !at || !len) return DILLUVAS_ARGUMENTS;
    return dilluvas_raw_needs(d, at, len);
}

/* Hands in bytes of the file from a place on, once no task is left. There may be more than are needed, and the needed ones may come in
 * pieces.
 *
 * Returns NOT_OPEN, MEMORY; WRITE once dilluvas_failed was called. */
static inline dilluvas_status dilluvas_hand_in(dilluvas *d, uint64_t at, const uint8_t *bytes, size_t len) {
    if (!d || !dilluvas_are_bytes(bytes, len)) return DILLUVAS_ARGUMENTS;
    return dilluvas_raw_hand_in(d, at, bytes, len);
}

/* The call will not be repeated: drops what was needed and what was handed in.
 *
 * Returns NOT_OPEN. */
static inline dilluvas_status dilluvas_forget(dilluvas *d) {
    if (!d) return DILLUVAS_ARGUMENTS;
    return dilluvas_raw_forget(d);
}

/* A write or a sync failed: no task is left, and every later call over the file returns WRITE, until it is reopened.
 *
 * Returns NOT_OPEN. */
static inline dilluvas_status dilluvas_failed(dilluvas *d) {
    if (!d) return DILLUVAS_ARGUMENTS;
    return dilluvas_raw_failed(d);
}

/* ---- Maps. Each call from here on returns NOT_OPEN if the handle is closed, and WRITE if a write failed, now or earlier. Over a file each
 * call of a map may return NEEDS, and is then repeated with the bytes.
 *
 * Names and keys are any byte strings. A name without a map reads as an empty map, and gets a map when a value is set. A map whose keys
 * were all removed is there until it is dropped. Each call of a map returns CORRUPTION if the pages of the name hold no map, and MEMORY. */

/* Writes the value of a key into a buffer of `room` bytes, and its length to `needed`.
 *
 * Returns SHORT, with `needed` written; NONE if the key has no value; READ. */
static inline dilluvas_status dilluvas_map_get(dilluvas *d, const uint8_t *name, size_t name_len, const uint8_t *key, size_t key_len,
                                               uint8_t *buffer, size_t room, size_t *needed) {
    if (!d || !dilluvas_are_bytes(name, name_len) || !dilluvas_are_bytes(key, key_len) || !dilluvas_are_bytes(buffer, room) || !needed)
        return DILLUVAS_ARGUMENTS;
    return dilluvas_raw_map_get(d, name, name_len, key, key_len, buffer, room, needed);
}

/* Sets the value of a key, and writes to `had` whether it had one before.
 *
 * Returns KEY_TOO_LONG and VALUE_TOO_LONG; NAME_TOO_LONG and TOO_MANY_NAMES if the name has no map; PAGES_USED_UP, STAMP_USED_UP, LOG_FULL,
 * MEMORY and READ: then no pair changes, but the name may have got its map. */
static inline dilluvas_status dilluvas_map_set(dilluvas *d, const uint8_t *name, size_t name_len, const uint8_t *key, size_t key_len,
                                               const uint8_t *value, size_t value_len, bool *had) {
    if (!d || !dilluvas_are_bytes(name, name_len) || !dilluvas_are_bytes(key, key_len) || !dilluvas_are_bytes(value, value_len) || !had)
        return DILLUVAS_ARGUMENTS;
    return dilluvas_raw_map_set(d, name, name_len, key, key_len, value, value_len, had);
}

/* Removes a key, and writes to `had` whether it had a value. A page with few pairs left is merged with a neighbour; if that can't be done now,
 * for example because more bytes of the file are needed, it is left for a later removal.
 *
 * Returns KEY_TOO_LONG; STAMP_USED_UP, LOG_FULL, READ. */
static inline dilluvas_status dilluvas_map_del(dilluvas *d, const uint8_t *name, size_t name_len, const uint8_t *key, size_t key_len,
                                               bool *had) {
    if (!d || !dilluvas_are_bytes(name, name_len) || !dilluvas_are_bytes(key, key_len) || !had) return DILLUVAS_ARGUMENTS;
    return dilluvas_raw_map_del(d, name, name_len, key, key_len, had);
}

/* If a key has the old value, or if it has none and `has_old` is false, sets it to the new value, or removes it if `has_new` is false. The
 * bytes of a value that isn't given are ignored.
 *
 * Returns STALE if the key has another value, or none, and otherwise as dilluvas_map_set does. */
static inline dilluvas_status dilluvas_map_cas(dilluvas *d, const uint8_t *name, size_t name_len, const uint8_t *key, size_t key_len,
                                               bool has_old, const uint8_t *old_value, size_t old_len, bool has_new,
                                               const uint8_t *new_value, size_t new_len) {
    if (!d || !dilluvas_are_bytes(name, name_len) || !dilluvas_are_bytes(key, key_len) || !dilluvas_are_bytes(old_value, old_len) ||
        !dilluvas_are_bytes(new_value, new_len))
        return DILLUVAS_ARGUMENTS;
    return dilluvas_raw_map_cas(d, name, name_len, key, key_len, has_old, old_value, old_len, has_new, new_value, new_len);
}

/* Writes the nearest pair on a side of a key, DILLUVAS_ABOVE, FROM, BELOW or UP_TO, or at an end of the map, DILLUVAS_FIRST or LAST, into a
 * buffer of `room` bytes, and its length to `needed`. dilluvas_next reads it.
 *
 * Returns SHORT, with `needed` written; NONE if there is no pair; ARGUMENTS if `side` is none of these; READ. */
static inline dilluvas_status dilluvas_map_next(dilluvas *d, const uint8_t *name, size_t name_len, uint32_t side, const uint8_t *bound,
                                                size_t bound_len, uint8_t *buffer, size_t room, size_t *needed) {
    if (!d || !dilluvas_are_bytes(name, name_len) || !dilluvas_are_bytes(bound, bound_len) || !dilluvas_are_bytes(buffer, room) || !needed)
        return DILLUVAS_ARGUMENTS;
    return dilluvas_raw_map_next(d, name, name_len, side, bound, bound_len, buffer, room, needed);
}

/* Writes the first pairs between two bounds, in order, into a buffer of `room` bytes: those of one page. Their `piece->pairs_len` bytes, which
 * dilluvas_next reads, are followed by the `piece->rest_len` bytes of the key at which the others begin, if `piece->more` is true. A call
 * from that key, DILLUVAS_INCLUDED, continues; so does one from the last key that was read, DILLUVAS_EXCLUDED. There is no pair only if the
 * map has none there, and then there are no others.
 *
 * Returns SHORT, with `piece` written: both together need room; ARGUMENTS if a kind is none of a bound; READ. */
static inline dilluvas_status dilluvas_map_range(dilluvas *d, const uint8_t *name, size_t name_len, uint32_t from_kind, const uint8_t *from,
                                                 size_t from_len, uint32_t to_kind, const uint8_t *to, size_t to_len, uint8_t *buffer,
                                                 size_t room, dilluvas_piece *piece) {
    if (!d || !dilluvas_are_bytes(name, name_len) || !dilluvas_are_bytes(from, from_len) || !dilluvas_are_bytes(to, to_len) ||
        !dilluvas_are_bytes(buffer, room) || !piece)
        return DILLUVAS_ARGUMENTS;
    return dilluvas_raw_map_range(d, name, name_len, from_kind, from, from_len, to_kind, to, to_len, buffer, room, piece);
}

/* The same without the pairs: `piece->pairs_len` is 0, and the buffer gets the key at which the others begin. This counts a map page by page.
 *
 * Returns what dilluvas_map_range does. */
static inline dilluvas_status dilluvas_map_count(dilluvas *d, const uint8_t *name, size_t name_len, uint32_t from_kind, const uint8_t *from,
                                                 size_t from_len, uint32_t to_kind, const uint8_t *to, size_t to_len, uint8_t *buffer,
                                                 size_t room, dilluvas_piece *piece) {
    if (!d || !dilluvas_are_bytes(name, name_len) || !dilluvas_are_bytes(from, from_len) || !dilluvas_are_bytes(to, to_len) ||
        !dilluvas_are_bytes(buffer, room) || !piece)
        return DILLUVAS_ARGUMENTS;
    return dilluvas_raw_map_count(d, name, name_len, from_kind, from, from_len, to_kind, to, to_len, buffer, room, piece);
}

/* Drops the map of a name with all its pairs, and writes to `had` whether there was one. It first reads all pages of the map.
 *
 * Returns READ, LOG_FULL, STAMP_USED_UP: then the map is unchanged. */
static inline dilluvas_status dilluvas_map_drop(dilluvas *d, const uint8_t *name, size_t name_len, bool *had) {
    if (!d || !dilluvas_are_bytes(name, name_len) || !had) return DILLUVAS_ARGUMENTS;
    return dilluvas_raw_map_drop(d, name, name_len, had);
}

/* Writes the first name of a map after another one, by its bytes, or the first of all if `has_after` is false, into a buffer of `room` bytes,
 * and its length to `needed`. Names to which dilluvas_cas_root or dilluvas_open_tree gave a root are included.
 *
 * Returns SHORT, with `needed` written; NONE if there is no further name. */
static inline dilluvas_status dilluvas_map_name(dilluvas *d, bool has_after, const uint8_t *after, size_t after_len, uint8_t *buffer,
                                                size_t room, size_t *needed) {
    if (!d || !dilluvas_are_bytes(after, after_len) || !dilluvas_are_bytes(buffer, room) || !needed) return DILLUVAS_ARGUMENTS;
    return dilluvas_raw_map_name(d, has_after, after, after_len, buffer, room, needed);
}

/* ---- Pages. Each call from here on returns NOT_OPEN if the handle is closed, and WRITE if a write failed, now or earlier.
 * Over a file get, value, set and del may return NEEDS. */

/* Puts a leaf of the pairs on a page, and writes the page's number and its stamp. `pairs` are `pairs_len` bytes: for each pair the length
 * of the key and that of the value, in 4 bytes each, the lowest first, then the key and the value; the keys ascend by their bytes.
 * dilluvas_put writes a pair. No bytes are no pairs.
 *
 * Returns ARGUMENTS if the bytes are no such pairs; PAGES_USED_UP, STAMP_USED_UP, LOG_FULL, MEMORY. */
static inline dilluvas_status dilluvas_allocate(dilluvas *d, const uint8_t *pairs, size_t pairs_len, uint64_t *page, uint64_t *stamp) {
    if (!d || !dilluvas_are_bytes(pairs, pairs_len) || !page || !stamp) return DILLUVAS_ARGUMENTS;
    return dilluvas_raw_allocate(d, pairs, pairs_len, page, stamp);
}

/* Writes what a page is, and its pairs in the same form into a buffer of `room` bytes. dilluvas_next reads a pair. If all of them fit,
 * `found->needed` bytes are written.
 *
 * Returns SHORT, with `found` written; GONE, RESERVED_ID, MEMORY, READ, CORRUPTION. */
static inline dilluvas_status dilluvas_get(dilluvas *d, uint64_t page, dilluvas_found *found, uint8_t *buffer, size_t room) {
    if (!d || !found || !dilluvas_are_bytes(buffer, room)) return DILLUVAS_ARGUMENTS;
    return dilluvas_raw_get(d, page, found, buffer, room);
}

/* Writes the value of one key of a leaf into a buffer of `room` bytes, its length to `needed`, and the page's stamp.
 *
 * Returns SHORT, with `needed` and the stamp written; NONE and INDEX, with the stamp written; GONE, RESERVED_ID, MEMORY, READ,
 * CORRUPTION. */
static inline dilluvas_status dilluvas_value(dilluvas *d, uint64_t page, const uint8_t *key, size_t key_len, uint64_t *stamp,
                                             uint8_t *buffer, size_t room, size_t *needed) {
    if (!d || !dilluvas_are_bytes(key, key_len) || !stamp || !dilluvas_are_bytes(buffer, room) || !needed) return DILLUVAS_ARGUMENTS;
    return dilluvas_raw_value(d, page, key, key_len, stamp, buffer, room, needed);
}

/* In these four `stamp` has the stamp that the page is expected to have, and afterwards the one that it has now. */

/* Sets a key of a leaf to a value.
 *
 * Returns STALE, with the present stamp written; GONE, RESERVED_ID, LINK_REFUSED, STAMP_USED_UP, LOG_FULL, MEMORY, READ, CORRUPTION. */
static inline dilluvas_status dilluvas_set(dilluvas *d, uint64_t page, uint64_t *stamp, const uint8_t *key, size_t key_len,
                                           const uint8_t *value, size_t value_len) {
    if (!d || !stamp || !dilluvas_are_bytes(key, key_len) || !dilluvas_are_bytes(value, value_len)) return DILLUVAS_ARGUMENTS;
    return dilluvas_raw_set(d, page, stamp, key, key_len, value, value_len);
}

/* Removes a key from a leaf, whether or not it is there.
 *
 * Returns what dilluvas_set does. */
static inline dilluvas_status dilluvas_del(dilluvas *d, uint64_t page, uint64_t *stamp, const uint8_t *key, size_t key_len) {
    if (!d || !stamp || !dilluvas_are_bytes(key, key_len)) return DILLUVAS_ARGUMENTS;
    return dilluvas_raw_del(d, page, stamp, key, key_len);
}

/* Replaces the contents of a page with a leaf of the pairs. Then the page that is due is moved, as by dilluvas_gc, whatever the result.
 *
 * Returns STALE, with the present stamp written; ARGUMENTS if the bytes are no pairs; GONE, RESERVED_ID, STAMP_USED_UP, LOG_FULL, MEMORY. */
static inline dilluvas_status dilluvas_replace(dilluvas *d, uint64_t page, uint64_t *stamp, const uint8_t *pairs, size_t pairs_len) {
    if (!d || !stamp || !dilluvas_are_bytes(pairs, pairs_len)) return DILLUVAS_ARGUMENTS;
    return dilluvas_raw_replace(d, page, stamp, pairs, pairs_len);
}

/* Frees a page: it is GONE for every other call, until dilluvas_allocate reuses its number, at the next stamp.
 *
 * Returns STALE, with the present stamp written; GONE, RESERVED_ID, STAMP_USED_UP, LOG_FULL, MEMORY. */
static inline dilluvas_status dilluvas_free(dilluvas *d, uint64_t page, uint64_t *stamp) {
    if (!d || !stamp) return DILLUVAS_ARGUMENTS;
    return dilluvas_raw_free(d, page, stamp);
}

/* ---- Named roots. A name is any byte string, and page 0 means no root. */

/* Writes the root page of a name.
 *
 * Returns NONE, MEMORY. */
static inline dilluvas_status dilluvas_root(dilluvas *d, const uint8_t *name, size_t name_len, uint64_t *page) {
    if (!d || !dilluvas_are_bytes(name, name_len) || !page) return DILLUVAS_ARGUMENTS;
    return dilluvas_raw_root(d, name, name_len, page);
}

/* If the root of a name is `root`, or if it has none and `root` is 0, gives it the root `next`, or removes the name if `next` is 0.
 *
 * Returns STALE, with the present root, or 0 for none, written to `root`; TOO_MANY_NAMES, NAME_TOO_LONG, STAMP_USED_UP, LOG_FULL, MEMORY. */
static inline dilluvas_status dilluvas_cas_root(dilluvas *d, const uint8_t *name, size_t name_len, uint64_t *root, uint64_t next) {
    if (!d || !dilluvas_are_bytes(name, name_len) || !root) return DILLUVAS_ARGUMENTS;
    return dilluvas_raw_cas_root(d, name, name_len, root, next);
}

/* Writes the root page of a name. A name that has none gets an index over an empty leaf.
 *
 * Returns TOO_MANY_NAMES, NAME_TOO_LONG, and after these PAGES_USED_UP, STAMP_USED_UP, LOG_FULL and MEMORY, where the leaf that was made, or
 * the leaf and the index, stay: nothing leads to them. */
static inline dilluvas_status dilluvas_open_tree(dilluvas *d, const uint8_t *name, size_t name_len, uint64_t *page) {
    if (!d || !dilluvas_are_bytes(name, name_len) || !page) return DILLUVAS_ARGUMENTS;
    return dilluvas_raw_open_tree(d, name, name_len, page);
}

/* ---- Batches: a crash leaves all of a batch or nothing. */

/* Opens a batch. Over a file it is written while it is open, so it may be larger than memory.
 *
 * Returns BATCH_OPEN, LOG_FULL, MEMORY. */
static inline dilluvas_status dilluvas_pin(dilluvas *d) {
    if (!d) return DILLUVAS_ARGUMENTS;
    return dilluvas_raw_pin(d);
}

/* Closes the open batch: a crash leaves all of it or nothing, and all once a flush has returned OK.
 *
 * Returns NO_BATCH. The batch is then closed, whatever the status. */
static inline dilluvas_status dilluvas_seal(dilluvas *d) {
    if (!d) return DILLUVAS_ARGUMENTS;
    return dilluvas_raw_seal(d);
}

/* Closes the open batch, of which a crash may leave a part. Its changes remain: nothing is undone.
 *
 * Returns NO_BATCH. The batch is then closed, whatever the status. */
static inline dilluvas_status dilluvas_cancel(dilluvas *d) {
    if (!d) return DILLUVAS_ARGUMENTS;
    return dilluvas_raw_cancel(d);
}

/* ---- Ids, and the whole log. */

/* Writes an id that was never given.
 *
 * Returns IDS_USED_UP, BATCH_OPEN, STAMP_USED_UP, LOG_FULL, MEMORY: then no id is used up. */
static inline dilluvas_status dilluvas_generate_id(dilluvas *d, uint64_t *id) {
    if (!d || !id) return DILLUVAS_ARGUMENTS;
    return dilluvas_raw_generate_id(d, id);
}

/* Makes all that is pending durable, and writes how many bytes that wrote.
 *
 * Returns BATCH_OPEN. */
static inline dilluvas_status dilluvas_flush(dilluvas *d, size_t *written) {
    if (!d || !written) return DILLUVAS_ARGUMENTS;
    return dilluvas_raw_flush(d, written);
}

/* Writes how many bytes the log has. */
static inline dilluvas_status dilluvas_size(dilluvas *d, uint64_t *bytes) {
    if (!d || !bytes) return DILLUVAS_ARGUMENTS;
    return dilluvas_raw_size(d, bytes);
}

/* Writes how many bytes of the log make the pages, which is about what a rewrite leaves; 2^64 - 1 means that or more. It reads nothing. In
 * memory it doesn't return WRITE. */
static inline dilluvas_status dilluvas_live(dilluvas *d, uint64_t *bytes) {
    if (!d || !bytes) return DILLUVAS_ARGUMENTS;
    return dilluvas_raw_live(d, bytes);
}

/* Writes how many bytes the log has, and how many the pages would take by their contents, including a segment; 2^64 - 1 means that or more.
 * It reads the pages that aren't in memory.
 *
 * Returns NOT_OVER_FILE, where dilluvas_file_amp of dilluvas_file.h does it; MEMORY, READ, CORRUPTION. */
static inline dilluvas_status dilluvas_amp(dilluvas *d, uint64_t *log, uint64_t *pages) {
    if (!d || !log || !pages) return DILLUVAS_ARGUMENTS;
    return dilluvas_raw_amp(d, log, pages);
}

/* Writes how many pages there are. Their numbers are those below it, the cache's own and the free ones among them.
 *
 * It reads nothing, but takes 16 bytes of memory for each page until it returns.
 *
 * Returns MEMORY. */
static inline dilluvas_status dilluvas_page_count(dilluvas *d, uint64_t *pages) {
    if (!d || !pages) return DILLUVAS_ARGUMENTS;
    return dilluvas_raw_page_count(d, pages);
}

/* Writes how many bytes a page takes by its contents: a leaf or an index takes 128, the lengths of its bounds, and for each pair what is
 * stored of the key, and the value, or 8 for a page; page 0, which has the names, takes for each the name and 8; page 1, which counts ids,
 * takes 8. A page that is free, or that was never allocated, takes none. A page that isn't in memory is read, and is in memory then, as by
 * dilluvas_get.
 *
 * The sizes of all pages and one segment are what dilluvas_amp writes to `pages`, if nothing is changed between the calls. Over a file
 * dilluvas_file_amp adds them.
 *
 * Returns NEEDS over a file; RESERVED_ID for page 2^64 - 667; MEMORY, READ, CORRUPTION. */
static inline dilluvas_status dilluvas_page_size(dilluvas *d, uint64_t page, uint64_t *bytes) {
    if (!d || !bytes) return DILLUVAS_ARGUMENTS;
    return dilluvas_raw_page_size(d, page, bytes);
}

/* Moves the page that is due, if one is, and writes whether one was. No page, stamp or id changes.
 *
 * Returns NOT_OVER_FILE: no page is due there; LOG_FULL, MEMORY, READ, CORRUPTION: then the page isn't due again. */
static inline dilluvas_status dilluvas_gc(dilluvas *d, bool *moved) {
    if (!d || !moved) return DILLUVAS_ARGUMENTS;
    return dilluvas_raw_gc(d, moved);
}

/* Writes whether the log had the cache's own pages when it was opened: a new one hasn't. In memory it doesn't return WRITE. */
static inline dilluvas_status dilluvas_was_recovered(dilluvas *d, bool *recovered) {
    if (!d || !recovered) return DILLUVAS_ARGUMENTS;
    return dilluvas_raw_was_recovered(d, recovered);
}

/* ---- Rewriting the log, which only grows, into another one that has each page as one record. */

/* Rewrites a cache in memory into a new log, and continues on that, with these settings. The memory of the old one is freed.
 *
 * The cache is then one that was opened over that log: the pages, the free ones and the roots are what they were, and each page has stamp 0.
 * Discard stamps from before, since a page may get the same stamp again with other pairs. No id comes twice, if the interval isn't smaller
 * than it was.
 *
 * Returns NOT_OVER_FILE, where dilluvas_file_compact of dilluvas_file.h does it; CAPACITY_TOO_SMALL, INTERVAL_ZERO or SEGMENT_ZERO for the
 * settings; BATCH_OPEN; LOG_FULL, MEMORY. The cache is then as it was. */
static inline dilluvas_status dilluvas_compact(dilluvas *d, const dilluvas_settings *settings) {
    if (!d || !settings) return DILLUVAS_ARGUMENTS;
    return dilluvas_raw_compact(d, settings);
}

/* Makes a new log in an empty file, and opens no cache over it: dilluvas_rewrite puts pages there. It continues at NEEDS, and over an opening
 * that was begun, as dilluvas_open_file does, until the log was read.
 *
 * Returns what dilluvas_open_file does. Even at OK the handle is that of a file that is being opened. */
static inline dilluvas_status dilluvas_new_log(dilluvas *d, const dilluvas_file_settings *settings) {
    if (!d || !settings) return DILLUVAS_ARGUMENTS;
    return dilluvas_raw_new_log(d, settings);
}

/* Writes the pages of a cache to the log that dilluvas_new_log made with the handle `into`. They are durable there once the tasks of that
 * handle are done. The cache may be in memory. It stays as it is, and so do its own file, its pages and its stamps.
 *
 * After OK dilluvas_open_file opens a cache over the new log, with the settings that it was made with. After ARGUMENTS, NOT_OPEN and
 * ALREADY_OPEN `into` is as it was, and so it is after WRITE if a write or a sync of the cache's own file had failed before the call: close
 * it then. After any other status `into` is closed: what would have been written to its file is dropped. At NEEDS bytes of the cache's own
 * file are needed, and the call is repeated over a new log. It then starts over, so hand in as many bytes at once as there is room for.
 *
 * Returns NOT_OPEN if one of the handles has no cache, or no new log; ALREADY_OPEN if `into` has a cache; NEEDS; BATCH_OPEN; MEMORY, READ,
 * WRITE; CORRUPTION if a page can't be read, and no page is skipped; LOG_FULL. */
static inline dilluvas_status dilluvas_rewrite(dilluvas *d, dilluvas *into) {
    if (!d || !into || d == into) return DILLUVAS_ARGUMENTS;
    return dilluvas_raw_rewrite(d, into);
}

/* ---- Pairs as bytes. */

/* A pair. It points into the buffer that it was read from. */
typedef struct dilluvas_pair {
    const uint8_t *key, *value;
    size_t key_len, value_len;
} dilluvas_pair;

static inline size_t dilluvas_length_at(const uint8_t *p) {
    return (size_t)p[0] | (size_t)p[1] << 8 | (size_t)p[2] << 16 | (size_t)p[3] << 24;
}

/* Reads the pair that begins at `*at` of `len` bytes, and moves `*at` past it. `*at` begins at 0. Returns false at the end, and if the bytes
 * are no pair: then nothing is written. */
static inline bool dilluvas_next(const uint8_t *pairs, size_t len, size_t *at, dilluvas_pair *pair) {
    if (!pairs || !at || !pair || len < *at || len - *at < 8) return false;
    size_t key_len = dilluvas_length_at(pairs + *at), value_len = dilluvas_length_at(pairs + *at + 4), rest = len - *at - 8;
    if (rest < key_len || rest - key_len < value_len) return false;
    pair->key = pairs + *at + 8;
    pair->key_len = key_len;
    pair->value = pair->key + key_len;
    pair->value_len = value_len;
    *at += 8 + key_len + value_len;
    return true;
}

/* The page that a pair of an index leads to. */
static inline uint64_t dilluvas_child(const dilluvas_pair *pair) {
    uint64_t page = 0;
    for (size_t i = 0; i < 8 && i < pair->value_len; i++) page |= (uint64_t)pair->value[i] << 8 * i;
    return page;
}

/* Writes a pair at `at` of `room` bytes, and returns the place after it; or 0 if there is no room, and then nothing is written. */
static inline size_t dilluvas_put(uint8_t *pairs, size_t room, size_t at, const void *key, uint32_t key_len, const void *value,
                                  uint32_t value_len) {
    if (!pairs || room < at || room - at < 8 || room - at - 8 < key_len || room - at - 8 - key_len < value_len) return 0;
    for (size_t i = 0; i < 4; i++) {
        pairs[at + i] = (uint8_t)(key_len >> 8 * i);
        pairs[at + 4 + i] = (uint8_t)(value_len >> 8 * i);
    }
    if (key_len) memcpy(pairs + at + 8, key, key_len);
    if (value_len) memcpy(pairs + at + 8 + key_len, value, value_len);
    return at + 8 + key_len + value_len;
}

#ifdef __cplusplus
}
#endif
#endif
