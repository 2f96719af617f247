/* Makes things of so many parts as no other test has, from three below to three above 2^16 and 2^17: caches of so many pages and free pages,
 * which are rewritten, leaves of so many pairs, strings of so many bytes, and bytes of a file that are handed in one by one. The first two and
 * the strings are in memory and over a file, and memory and capacity are ample. Prints the line of each check that fails: the status is 1 then.
 * Linked with steps.c and failing.c. Usage: sizes FOLDER, in which it makes its files. */
#include "steps.h"
#include <stdio.h>
#include <stdlib.h>
#include <time.h>
#include <unistd.h>

enum { AROUND = 3, MOST = 131072 + AROUND };

static const dilluvas_settings ample = {(uint64_t)1 << 40, 10, 1 << 20, 512, 0};
static const dilluvas_file_settings ample_file = {(uint64_t)1 << 40, 10, 1 << 20};

/* Each of these sizes, ascending. */
#define EACH_SIZE(size) \
    for (size_t power = 65536; power <= 131072; power *= 2) \
        for (size_t size = power - AROUND; size <= power + AROUND; size++)

static dilluvas_file opened_as(bool is_over_file) {
    dilluvas_file file = DILLUVAS_FILE_CLOSED;
    IS(is_over_file ? dilluvas_file_open(&file, path, &ample_file) : dilluvas_open_memory(&file.cache, &ample), DILLUVAS_OK);
    return file;
}

static void rewrites(dilluvas_file *file) {
    IS(file->buffer ? dilluvas_file_compact(file) : dilluvas_compact(&file->cache, &ample), DILLUVAS_OK);
}

/* ---- Caches that are rewritten. */

/* Pages 2 to the last, all of which were there when the cache was rewritten. */
static void are_leaves(dilluvas_file *file, uint64_t last) {
    for (uint64_t page = 2; page <= last; page++) is_leaf(file, page, 0, 0);
    is_leaf(file, last + 1, -1, 0);
}

static void pages_are_rewritten(bool is_over_file) {
    dilluvas_file at = opened_as(is_over_file), *file = &at;
    uint64_t next = 2;
    EACH_SIZE(size) {
        for (; next < size + 2; next++) allocates(file, next, 1);
        rewrites(file);
        is_leaf(file, 2, 0, 0);
        is_leaf(file, next - 1, 0, 0);
        is_leaf(file, next, -1, 0);
        frees(file, 2, 0);
        allocates(file, 2, 2);
    }
    rewrites(file);
    are_leaves(file, MOST + 1);
    end(file);
}

/* The free pages are those with the greatest ids, and are taken from the greatest on. */
static void free_pages_are_rewritten(bool is_over_file) {
    dilluvas_file at = opened_as(is_over_file), *file = &at;
    uint64_t least = MOST + 2;
    for (uint64_t page = 2; page < MOST + 2; page++) allocates(file, page, 1);
    rewrites(file);
    EACH_SIZE(size) {
        while (least > MOST + 2 - size) frees(file, --least, 0);
        rewrites(file);
        is_leaf(file, least, -1, 0);
        if (least > 2) is_leaf(file, least - 1, 0, 0);
        allocates(file, MOST + 1, 1);
        frees(file, MOST + 1, 1);
    }
    for (uint64_t page = MOST + 1; page >= 2; page--) allocates(file, page, page > MOST ? 3 : 1);
    allocates(file, MOST + 2, 1);
    end(file);
}

/* ---- Leaves. */

/* The bytes of so many pairs with ascending keys of four bytes, from one on. */
static size_t put_pairs(uint8_t *pairs, size_t room, size_t first, size_t last) {
    size_t end = 0;
    for (size_t at = first; at <= last; at++) {
        uint8_t key[4] = {(uint8_t)(at >> 24), (uint8_t)(at >> 16), (uint8_t)(at >> 8), (uint8_t)at};
        end = dilluvas_put(pairs, room, end, key, sizeof key, "v", 1);
    }
    return end;
}

enum { PAIR = 13, ROOM = (MOST + 1) * PAIR };
static uint8_t pairs[ROOM], got[ROOM];

static void has_pairs(dilluvas_file *file, uint64_t page, uint64_t stamp, size_t first, size_t last) {
    dilluvas_found found = {0, 0, 0, true};
    size_t len = put_pairs(pairs, ROOM, first, last);
    CALL(dilluvas_get(&file->cache, page, &found, got, ROOM));
    IS(found.stamp, stamp);
    IS(found.count, last - first + 1);
    IS(found.needed, len);
    IS(memcmp(got, pairs, len), 0);
}

static void leaves_have_pairs(void) {
    dilluvas_file at = opened_as(false), *file = &at;
    EACH_SIZE(size) {
        uint64_t page, stamp;
        const uint8_t first[4] = {0, 0, 0, 1}, next[4] = {0, (uint8_t)((size + 1) >> 16), (uint8_t)((size + 1) >> 8), (uint8_t)(size + 1)};
        size_t len = put_pairs(pairs, ROOM, 1, size);
        CALL(dilluvas_allocate(&file->cache, pairs, len, &page, &stamp));
        has_pairs(file, page, 1, 1, size);
        CALL(dilluvas_set(&file->cache, page, &stamp, next, sizeof next, (const uint8_t *)"v", 1));
        has_pairs(file, page, 2, 1, size + 1);
        CALL(dilluvas_del(&file->cache, page, &stamp, first, sizeof first));
        has_pairs(file, page, 3, 2, size + 1);
        len = put_pairs(pairs, ROOM, 1, size);
        CALL(dilluvas_replace(&file->cache, page, &stamp, pairs, len));
        has_pairs(file, page, 4, 1, size);
    }
    end(file);
}

/* ---- Strings. */

static void has_value(dilluvas_file *file, uint64_t page, const uint8_t *key, size_t len) {
    uint64_t stamp;
    size_t needed = 0;
    memset(got, 0, len);
    CALL(dilluvas_value(&file->cache, page, key, len, &stamp, got, ROOM, &needed));
    IS(needed, len);
    IS(memcmp(got, key, len), 0);
}

/* A key, a value and a name of so many bytes. */
static void strings_are_long(bool is_over_file) {
    dilluvas_file at = opened_as(is_over_file), *file = &at;
    uint64_t last = 1;
    EACH_SIZE(size) {
        uint64_t page, stamp, root = 0;
        memset(pairs, 's', size);
        CALL(dilluvas_allocate(&file->cache, NULL, 0, &page, &stamp));
        IS(page, ++last);
        CALL(dilluvas_set(&file->cache, page, &stamp, pairs, size, pairs, size));
        has_value(file, page, pairs, size);
        CALL(dilluvas_cas_root(&file->cache, pairs, size, &root, page));
    }
    rewrites(file);
    EACH_SIZE(size) {
        uint64_t root = 0;
        CALL(dilluvas_root(&file->cache, pairs, size, &root));
        has_value(file, root, pairs, size);
        IS(dilluvas_cas_root(&file->cache, pairs, size, &root, 0), DILLUVAS_OK);
    }
    end(file);
}

/* ---- Bytes that are handed in. */

static uint8_t bytes[2 * ROOM];
static uint64_t held;

/* Does what a call over a file wants that is in `bytes`, of which it hands in one by one. */
static bool hands_in(dilluvas *d, dilluvas_status answered) {
    dilluvas_task task;
    uint64_t at = 0;
    size_t len = 0;
    IS(dilluvas_next_task(d, &task, got, sizeof got), DILLUVAS_OK);
    while (task.kind != DILLUVAS_NOTHING) {
        if (task.kind == DILLUVAS_WRITE_BYTES) {
            memcpy(bytes + task.at, got, task.len);
            if (held < task.at + task.len) held = task.at + task.len;
        }
        IS(dilluvas_next_task(d, &task, got, sizeof got), DILLUVAS_OK);
    }
    if (answered != DILLUVAS_NEEDS) return false;
    IS(dilluvas_needs(d, &at, &len), DILLUVAS_OK);
    for (size_t i = 0; i < len; i++) IS(dilluvas_hand_in(d, at + i, bytes + at + i, 1), DILLUVAS_OK);
    return failures == 0;
}

#define LOOP(call) \
    do { \
        status = (call); \
    } while (hands_in(&d, status)); \
    IS(status, DILLUVAS_OK)

/* The file is opened again, so that its values of so many bytes are read, the longest in as many pieces. */
static void bytes_come_one_by_one(void) {
    dilluvas d = DILLUVAS_CLOSED;
    uint64_t page, stamp;
    size_t written;
    LOOP(dilluvas_open_file(&d, &ample_file, 0));
    memset(pairs, 's', MOST);
    EACH_SIZE(size) {
        LOOP(dilluvas_allocate(&d, NULL, 0, &page, &stamp));
        LOOP(dilluvas_set(&d, page, &stamp, TEXT("k"), pairs, size));
    }
    LOOP(dilluvas_flush(&d, &written));
    IS(dilluvas_close(&d), DILLUVAS_OK);
    LOOP(dilluvas_open_file(&d, &ample_file, held));
    page = 1;
    EACH_SIZE(size) {
        size_t needed = 0;
        page++;
        LOOP(dilluvas_value(&d, page, TEXT("k"), &stamp, got, ROOM, &needed));
        IS(needed, size);
        IS(memcmp(got, pairs, size), 0);
    }
    IS(dilluvas_close(&d), DILLUVAS_OK);
}

static void tell(const char *name, clock_t began) {
    printf("sizes: %s in %.1f s\n", name, (double)(clock() - began) / CLOCKS_PER_SEC);
}

int main(int count, char **arguments) {
    if (count != 2 || !begin(arguments[1], "sizes")) return 2;
    for (int is_over_file = 0; is_over_file < 2; is_over_file++) {
        clock_t began = clock();
        pages_are_rewritten(is_over_file);
        free_pages_are_rewritten(is_over_file);
        strings_are_long(is_over_file);
        tell(is_over_file ? "over a file" : "in memory", began);
    }
    clock_t began = clock();
    leaves_have_pairs();
    tell("leaves", began);
    began = clock();
    bytes_come_one_by_one();
    tell("bytes", began);
    if (failures == 0) printf("sizes: passed\n");
    return failures != 0;
}
