/* Makes each call with each answer that it can give over a log in memory, but for those that want more pages, names, ids or bytes than a
 * machine has, and those of a failed allocation (no_memory.c). Prints the line of each check that fails: the status is 1 then. */
#include "dilluvas.h"
#include <stdio.h>
#include <stdlib.h>

static int failures;

static void is(int line, unsigned long long got, unsigned long long wanted) {
    if (got == wanted) return;
    printf("line %d: %llu, not %llu\n", line, got, wanted);
    failures++;
}

#define IS(got, wanted) is(__LINE__, (got), (wanted))
#define TEXT(text) (const uint8_t *)(text), sizeof(text) - 1

static const uint64_t ABSENT = 1000, MARK = 18446744073709550949u;

static dilluvas opened(void) {
    dilluvas d = DILLUVAS_CLOSED;
    dilluvas_settings settings = DILLUVAS_SETTINGS;
    IS(dilluvas_open_memory(&d, &settings), DILLUVAS_OK);
    return d;
}

/* A page of two pairs, a and b, at stamp 1. */
static uint64_t page_of_two(dilluvas *d) {
    uint8_t pairs[64];
    uint64_t page = 0, stamp = 0;
    size_t end = dilluvas_put(pairs, sizeof pairs, 0, "a", 1, "first", 5);
    end = dilluvas_put(pairs, sizeof pairs, end, "b", 1, "", 0);
    IS(dilluvas_allocate(d, pairs, end, &page, &stamp), DILLUVAS_OK);
    IS(stamp, 1);
    return page;
}

static void a_closed_handle_does_nothing(void) {
    dilluvas d = DILLUVAS_CLOSED;
    uint64_t page = 77, stamp = 88, n = 99;
    size_t size = 66;
    bool flag = true;
    uint8_t buffer[8] = "unread";
    dilluvas_found found = {5, 6, 7, true};
    IS(dilluvas_close(&d), DILLUVAS_NOT_OPEN);
    IS(dilluvas_allocate(&d, NULL, 0, &page, &stamp), DILLUVAS_NOT_OPEN);
    IS(dilluvas_get(&d, 2, &found, buffer, 8), DILLUVAS_NOT_OPEN);
    IS(dilluvas_value(&d, 2, TEXT("a"), &stamp, buffer, 8, &size), DILLUVAS_NOT_OPEN);
    IS(dilluvas_set(&d, 2, &stamp, TEXT("a"), TEXT("b")), DILLUVAS_NOT_OPEN);
    IS(dilluvas_del(&d, 2, &stamp, TEXT("a")), DILLUVAS_NOT_OPEN);
    IS(dilluvas_replace(&d, 2, &stamp, NULL, 0), DILLUVAS_NOT_OPEN);
    IS(dilluvas_free(&d, 2, &stamp), DILLUVAS_NOT_OPEN);
    IS(dilluvas_root(&d, TEXT("t"), &page), DILLUVAS_NOT_OPEN);
    IS(dilluvas_cas_root(&d, TEXT("t"), &page, 2), DILLUVAS_NOT_OPEN);
    IS(dilluvas_open_tree(&d, TEXT("t"), &page), DILLUVAS_NOT_OPEN);
    IS(dilluvas_pin(&d), DILLUVAS_NOT_OPEN);
    IS(dilluvas_seal(&d), DILLUVAS_NOT_OPEN);
    IS(dilluvas_cancel(&d), DILLUVAS_NOT_OPEN);
    IS(dilluvas_generate_id(&d, &n), DILLUVAS_NOT_OPEN);
    IS(dilluvas_flush(&d, &size), DILLUVAS_NOT_OPEN);
    IS(dilluvas_size(&d, &n), DILLUVAS_NOT_OPEN);
    IS(dilluvas_amp(&d, &n, &page), DILLUVAS_NOT_OPEN);
    IS(dilluvas_gc(&d, &flag), DILLUVAS_NOT_OPEN);
    IS(dilluvas_was_recovered(&d, &flag), DILLUVAS_NOT_OPEN);
    IS(page == 77 && stamp == 88 && n == 99 && size == 66 && flag && !memcmp(buffer, "unread", 7), true);
    IS(found.stamp == 5 && found.count == 6 && found.needed == 7 && found.is_index && !d.is_open && !d.at, true);
}

static void a_null_pointer_is_told(void) {
    dilluvas d = opened();
    uint64_t n = 0;
    size_t size = 0;
    uint8_t buffer[8];
    dilluvas_found found;
    dilluvas_settings settings = DILLUVAS_SETTINGS;
    IS(dilluvas_open_memory(NULL, &settings), DILLUVAS_ARGUMENTS);
    IS(dilluvas_open_memory(&d, NULL), DILLUVAS_ARGUMENTS);
    IS(dilluvas_close(NULL), DILLUVAS_ARGUMENTS);
    IS(dilluvas_allocate(NULL, NULL, 0, &n, &n), DILLUVAS_ARGUMENTS);
    IS(dilluvas_allocate(&d, NULL, 1, &n, &n), DILLUVAS_ARGUMENTS);
    IS(dilluvas_get(&d, 2, NULL, buffer, 8), DILLUVAS_ARGUMENTS);
    IS(dilluvas_get(&d, 2, &found, NULL, 8), DILLUVAS_ARGUMENTS);
    IS(dilluvas_value(&d, 2, NULL, 1, &n, buffer, 8, &size), DILLUVAS_ARGUMENTS);
    IS(dilluvas_set(&d, 2, NULL, TEXT("a"), TEXT("b")), DILLUVAS_ARGUMENTS);
    IS(dilluvas_del(NULL, 2, &n, TEXT("a")), DILLUVAS_ARGUMENTS);
    IS(dilluvas_replace(&d, 2, &n, NULL, 1), DILLUVAS_ARGUMENTS);
    IS(dilluvas_free(NULL, 2, &n), DILLUVAS_ARGUMENTS);
    IS(dilluvas_root(&d, NULL, 1, &n), DILLUVAS_ARGUMENTS);
    IS(dilluvas_cas_root(NULL, TEXT("t"), &n, 2), DILLUVAS_ARGUMENTS);
    IS(dilluvas_open_tree(&d, TEXT("t"), NULL), DILLUVAS_ARGUMENTS);
    IS(dilluvas_pin(NULL) + dilluvas_seal(NULL) + dilluvas_cancel(NULL), 3 * DILLUVAS_ARGUMENTS);
    IS(dilluvas_generate_id(&d, NULL) + dilluvas_flush(&d, NULL) + dilluvas_size(NULL, &n), 3 * DILLUVAS_ARGUMENTS);
    IS(dilluvas_amp(&d, &n, NULL) + dilluvas_gc(&d, NULL) + dilluvas_was_recovered(&d, NULL), 3 * DILLUVAS_ARGUMENTS);
    IS(dilluvas_text(0, NULL, 1, &size) + dilluvas_text(0, buffer, 8, NULL), 2 * DILLUVAS_ARGUMENTS);
    IS(dilluvas_close(&d), DILLUVAS_OK);
}

static void settings_are_tested(void) {
    dilluvas d = DILLUVAS_CLOSED;
    dilluvas_settings small = DILLUVAS_SETTINGS, no_ids = DILLUVAS_SETTINGS, no_segment = DILLUVAS_SETTINGS, least = {256, 1, 1, 0, 0};
    bool recovered = true;
    small.cache_capacity = 255;
    no_ids.idgen_persist_interval = 0;
    no_segment.segment_size = 0;
    IS(dilluvas_open_memory(&d, &small), DILLUVAS_CAPACITY_TOO_SMALL);
    IS(dilluvas_open_memory(&d, &no_ids), DILLUVAS_INTERVAL_ZERO);
    IS(dilluvas_open_memory(&d, &no_segment), DILLUVAS_SEGMENT_ZERO);
    IS(dilluvas_pin(&d), DILLUVAS_NOT_OPEN);
    IS(dilluvas_open_memory(&d, &least), DILLUVAS_OK);
    IS(dilluvas_was_recovered(&d, &recovered), DILLUVAS_OK);
    IS(recovered, false);
    IS(dilluvas_open_memory(&d, &small), DILLUVAS_ALREADY_OPEN);
    // An open batch doesn't outlive the cache, and a handle is opened again.
    IS(dilluvas_pin(&d), DILLUVAS_OK);
    IS(dilluvas_close(&d), DILLUVAS_OK);
    IS(d.is_open || d.at, false);
    IS(dilluvas_open_memory(&d, &least), DILLUVAS_OK);
    IS(dilluvas_seal(&d), DILLUVAS_NO_BATCH);
    IS(dilluvas_close(&d), DILLUVAS_OK);
}

static void a_change_names_its_stamp(void) {
    dilluvas d = opened();
    uint64_t page = page_of_two(&d), stamp = 1;
    IS(page, 2);
    IS(dilluvas_set(&d, page, &stamp, TEXT("c"), TEXT("third")), DILLUVAS_OK);
    IS(stamp, 2);
    stamp = 1;
    IS(dilluvas_set(&d, page, &stamp, TEXT("c"), TEXT("late")), DILLUVAS_STALE);
    IS(stamp, 2);
    stamp = 9;
    IS(dilluvas_del(&d, page, &stamp, TEXT("c")), DILLUVAS_STALE);
    IS(dilluvas_del(&d, page, &stamp, TEXT("c")), DILLUVAS_OK);
    IS(stamp, 3);
    stamp = 1;
    IS(dilluvas_replace(&d, page, &stamp, NULL, 0), DILLUVAS_STALE);
    IS(dilluvas_replace(&d, page, &stamp, NULL, 0), DILLUVAS_OK);
    IS(stamp, 4);
    stamp = 1;
    IS(dilluvas_free(&d, page, &stamp), DILLUVAS_STALE);
    IS(dilluvas_free(&d, page, &stamp), DILLUVAS_OK);
    IS(stamp, 5);
    // The number of a free page is used again, at the next stamp.
    IS(dilluvas_allocate(&d, NULL, 0, &page, &stamp), DILLUVAS_OK);
    IS(page == 2 && stamp == 6, true);
    IS(dilluvas_close(&d), DILLUVAS_OK);
}

static void a_page_that_is_not_there_is_told(void) {
    dilluvas d = opened();
    uint64_t stamp = 7;
    size_t needed = 0;
    uint8_t buffer[8];
    dilluvas_found found;
    IS(dilluvas_get(&d, ABSENT, &found, buffer, 8), DILLUVAS_GONE);
    IS(dilluvas_value(&d, ABSENT, TEXT("a"), &stamp, buffer, 8, &needed), DILLUVAS_GONE);
    IS(dilluvas_set(&d, ABSENT, &stamp, TEXT("a"), TEXT("b")), DILLUVAS_GONE);
    IS(dilluvas_del(&d, ABSENT, &stamp, TEXT("a")), DILLUVAS_GONE);
    IS(dilluvas_replace(&d, ABSENT, &stamp, NULL, 0), DILLUVAS_GONE);
    IS(dilluvas_free(&d, ABSENT, &stamp), DILLUVAS_GONE);
    IS(dilluvas_free(&d, UINT64_MAX, &stamp), DILLUVAS_GONE);
    IS(dilluvas_get(&d, 0, &found, buffer, 8), DILLUVAS_RESERVED_ID);
    IS(dilluvas_value(&d, 1, TEXT("a"), &stamp, buffer, 8, &needed), DILLUVAS_RESERVED_ID);
    IS(dilluvas_set(&d, 1, &stamp, TEXT("a"), TEXT("b")), DILLUVAS_RESERVED_ID);
    IS(dilluvas_del(&d, 0, &stamp, TEXT("a")), DILLUVAS_RESERVED_ID);
    IS(dilluvas_replace(&d, 0, &stamp, NULL, 0), DILLUVAS_RESERVED_ID);
    IS(dilluvas_free(&d, MARK, &stamp), DILLUVAS_RESERVED_ID);
    IS(stamp, 7);
    IS(dilluvas_close(&d), DILLUVAS_OK);
}

static void pairs_come_back(void) {
    dilluvas d = opened();
    uint64_t page = page_of_two(&d);
    uint8_t buffer[64] = {0};
    dilluvas_found found;
    dilluvas_pair pair;
    size_t at = 0;
    IS(dilluvas_get(&d, page, &found, NULL, 0), DILLUVAS_SHORT);
    IS(found.needed, 8 + 1 + 5 + 8 + 1);
    IS(dilluvas_get(&d, page, &found, buffer, 22), DILLUVAS_SHORT);
    IS(buffer[0], 0);
    IS(dilluvas_get(&d, page, &found, buffer, 23), DILLUVAS_OK);
    IS(found.stamp == 1 && found.count == 2 && !found.is_index, true);
    IS(dilluvas_next(buffer, found.needed, &at, &pair), true);
    IS(pair.key_len == 1 && pair.key[0] == 'a' && pair.value_len == 5 && !memcmp(pair.value, "first", 5), true);
    IS(dilluvas_next(buffer, found.needed, &at, &pair), true);
    IS(pair.key_len == 1 && pair.key[0] == 'b' && pair.value_len == 0, true);
    IS(dilluvas_next(buffer, found.needed, &at, &pair), false);
    // They can be given again as they came.
    uint64_t stamp = 1;
    IS(dilluvas_replace(&d, page, &stamp, buffer, found.needed), DILLUVAS_OK);
    uint8_t again[64];
    IS(dilluvas_get(&d, page, &found, again, sizeof again), DILLUVAS_OK);
    IS(found.stamp == 2 && found.needed == 23 && !memcmp(again, buffer, 23), true);
    IS(dilluvas_close(&d), DILLUVAS_OK);
}

static void wrong_pairs_are_told(void) {
    dilluvas d = opened();
    uint64_t page = 5, stamp = 1;
    uint8_t pairs[64];
    dilluvas_pair pair;
    size_t at = 0, end = dilluvas_put(pairs, sizeof pairs, 0, "b", 1, "1", 1);
    IS(dilluvas_put(pairs, 8, 0, "b", 1, "1", 1), 0);
    // Cut, and longer than the bytes that there are.
    for (size_t length = 1; length < end; length++) IS(dilluvas_allocate(&d, pairs, length, &page, &stamp), DILLUVAS_ARGUMENTS);
    pairs[3] = 255;
    IS(dilluvas_allocate(&d, pairs, end, &page, &stamp), DILLUVAS_ARGUMENTS);
    IS(dilluvas_next(pairs, end, &at, &pair), false);
    pairs[3] = 0;
    // The same key again, and a lower one.
    size_t twice = dilluvas_put(pairs, sizeof pairs, end, "b", 1, "2", 1);
    IS(dilluvas_allocate(&d, pairs, twice, &page, &stamp), DILLUVAS_ARGUMENTS);
    size_t lower = dilluvas_put(pairs, sizeof pairs, end, "a", 1, "2", 1);
    IS(dilluvas_allocate(&d, pairs, lower, &page, &stamp), DILLUVAS_ARGUMENTS);
    IS(page == 5 && stamp == 1, true);
    IS(dilluvas_allocate(&d, pairs, end, &page, &stamp), DILLUVAS_OK);
    IS(dilluvas_replace(&d, page, &stamp, pairs, lower), DILLUVAS_ARGUMENTS);
    IS(dilluvas_close(&d), DILLUVAS_OK);
}

static void a_value_is_found_by_its_key(void) {
    dilluvas d = opened();
    uint64_t page = page_of_two(&d), stamp = 0, root = 0;
    size_t needed = 0;
    uint8_t buffer[8] = "........";
    IS(dilluvas_value(&d, page, TEXT("a"), &stamp, buffer, 4, &needed), DILLUVAS_SHORT);
    IS(needed == 5 && stamp == 1 && buffer[0] == '.', true);
    IS(dilluvas_value(&d, page, TEXT("a"), &stamp, buffer, 5, &needed), DILLUVAS_OK);
    IS(memcmp(buffer, "first...", 8), 0);
    IS(dilluvas_value(&d, page, TEXT("b"), &stamp, NULL, 0, &needed), DILLUVAS_OK);
    IS(needed, 0);
    IS(dilluvas_value(&d, page, NULL, 0, &stamp, buffer, 8, &needed), DILLUVAS_NONE);
    IS(dilluvas_open_tree(&d, TEXT("t"), &root), DILLUVAS_OK);
    IS(dilluvas_value(&d, root, TEXT("a"), &stamp, buffer, 8, &needed), DILLUVAS_INDEX);
    // An index takes no pair.
    IS(dilluvas_set(&d, root, &stamp, TEXT("k"), TEXT("v")), DILLUVAS_LINK_REFUSED);
    IS(dilluvas_close(&d), DILLUVAS_OK);
}

static void names_have_roots(void) {
    dilluvas d = opened();
    uint64_t root = 9, leaf;
    uint8_t buffer[32], *long_name = calloc(1, (size_t)1 << 31);
    dilluvas_found found;
    dilluvas_pair pair;
    size_t at = 0;
    IS(dilluvas_root(&d, TEXT("t"), &root), DILLUVAS_NONE);
    IS(root, 9);
    IS(dilluvas_open_tree(&d, TEXT("t"), &root), DILLUVAS_OK);
    IS(root, 3);
    IS(dilluvas_open_tree(&d, TEXT("t"), &leaf), DILLUVAS_OK);
    IS(leaf, 3);
    // It is an index over an empty leaf.
    IS(dilluvas_get(&d, root, &found, buffer, sizeof buffer), DILLUVAS_OK);
    IS(found.is_index && found.count == 1 && dilluvas_next(buffer, found.needed, &at, &pair), true);
    IS(pair.key_len == 0 && dilluvas_child(&pair) == 2, true);
    root = 0;
    IS(dilluvas_cas_root(&d, TEXT("t"), &root, 2), DILLUVAS_STALE);
    IS(root, 3);
    IS(dilluvas_cas_root(&d, TEXT("t"), &root, 0), DILLUVAS_OK);
    IS(dilluvas_cas_root(&d, TEXT("t"), &root, 2), DILLUVAS_STALE);
    IS(root, 0);
    IS(dilluvas_cas_root(&d, TEXT("t"), &root, 2), DILLUVAS_OK);
    IS(dilluvas_root(&d, TEXT("t"), &root), DILLUVAS_OK);
    IS(root, 2);
    root = 0;
    if (long_name) IS(dilluvas_cas_root(&d, long_name, (size_t)1 << 31, &root, 2), DILLUVAS_NAME_TOO_LONG);
    free(long_name);
    IS(dilluvas_close(&d), DILLUVAS_OK);
}

static void batches_ids_and_the_log(void) {
    dilluvas d = opened();
    uint64_t id = 9, bytes = 0, log = 0, pages = 0, page, stamp;
    size_t written = 0;
    bool moved = true;
    for (uint64_t next = 0; next < 10; next++) {
        IS(dilluvas_generate_id(&d, &id), DILLUVAS_OK);
        IS(id, next);
    }
    IS(dilluvas_seal(&d), DILLUVAS_NO_BATCH);
    IS(dilluvas_cancel(&d), DILLUVAS_NO_BATCH);
    IS(dilluvas_pin(&d), DILLUVAS_OK);
    IS(dilluvas_pin(&d), DILLUVAS_BATCH_OPEN);
    IS(dilluvas_flush(&d, &written), DILLUVAS_BATCH_OPEN);
    IS(dilluvas_generate_id(&d, &id), DILLUVAS_BATCH_OPEN);
    IS(dilluvas_allocate(&d, NULL, 0, &page, &stamp), DILLUVAS_OK);
    IS(dilluvas_seal(&d), DILLUVAS_OK);
    IS(dilluvas_pin(&d), DILLUVAS_OK);
    IS(dilluvas_cancel(&d), DILLUVAS_OK);
    IS(dilluvas_flush(&d, &written), DILLUVAS_OK);
    IS(written > 0, true);
    IS(dilluvas_size(&d, &bytes), DILLUVAS_OK);
    IS(dilluvas_amp(&d, &log, &pages), DILLUVAS_OK);
    IS(log == bytes && pages >= 4096 && pages < 8192, true);
    IS(dilluvas_gc(&d, &moved), DILLUVAS_OK);
    IS(moved, false);
    for (int i = 0; i < 20; i++) IS(dilluvas_allocate(&d, NULL, 0, &page, &stamp), DILLUVAS_OK);
    IS(dilluvas_gc(&d, &moved), DILLUVAS_OK);
    IS(moved, true);
    IS(dilluvas_close(&d), DILLUVAS_OK);
}

static void each_status_has_a_text(void) {
    uint8_t text[128], unknown[128];
    size_t needed, length;
    IS(dilluvas_text(12345, unknown, sizeof unknown, &length), DILLUVAS_OK);
    for (dilluvas_status status = 0; status < 256; status++) {
        bool known = status <= 12 || (status >= 16 && status <= 20) || (status >= 32 && status <= 35) || (status >= 101 && status <= 112)
                     || (status >= 201 && status <= 204);
        IS(dilluvas_text(status, text, sizeof text, &needed), DILLUVAS_OK);
        IS(needed != length || memcmp(text, unknown, length), known);
    }
    IS(dilluvas_text(DILLUVAS_OK, text, 3, &needed), DILLUVAS_SHORT);
    IS(dilluvas_text(DILLUVAS_OK, text, needed, &needed), DILLUVAS_OK);
    IS(needed == 4 && !memcmp(text, "done", 4), true);
}

int main(void) {
    a_closed_handle_does_nothing();
    a_null_pointer_is_told();
    settings_are_tested();
    a_change_names_its_stamp();
    a_page_that_is_not_there_is_told();
    pairs_come_back();
    wrong_pairs_are_told();
    a_value_is_found_by_its_key();
    names_have_roots();
    batches_ids_and_the_log();
    each_status_has_a_text();
    return failures != 0;
}
