/* Makes each call of a map with each answer that it can give, in memory and over a file, but for those that want more pages, names or bytes
 * than a machine has, and those of a failed allocation (no_memory.c). Prints the line of each check that fails: the status is 1 then. Linked
 * with failing.c. Usage: maps FOLDER, in which it makes its file. */
#define _DEFAULT_SOURCE
#include "dilluvas_file.h"
#include "failing.h"
#include <stdio.h>
#include <stdlib.h>
#include <sys/mman.h>
#include <unistd.h>

static char path[4096];
static bool over_file;
static dilluvas_file store;

/* Makes a call until it is answered, and compares the answer. */
#define CALL(call, wanted) \
    do { \
        dilluvas_status answer_; \
        do answer_ = (call); \
        while (over_file && dilluvas_file_again(&store, &answer_)); \
        IS(answer_, wanted); \
    } while (0)

#define MAPS &store.cache
#define FRUIT MAPS, TEXT("fruit")

/* A small cache, whose pages leave memory. */
static const dilluvas_file_settings small = {4096, 10, 4096};

static void open_store(void) {
    dilluvas_settings settings = DILLUVAS_SETTINGS;
    store = (dilluvas_file)DILLUVAS_FILE_CLOSED;
    if (over_file) IS(dilluvas_file_open(&store, path, &small), DILLUVAS_OK);
    else IS(dilluvas_open_memory(MAPS, &settings), DILLUVAS_OK);
}

static void close_store(void) {
    if (over_file) IS(dilluvas_file_close(&store), DILLUVAS_OK);
    else IS(dilluvas_close(MAPS), DILLUVAS_OK);
    unlink(path);
}

static void set(const char *name, const char *key, const char *value, bool wanted) {
    bool had = !wanted;
    CALL(dilluvas_map_set(MAPS, (const uint8_t *)name, strlen(name), (const uint8_t *)key, strlen(key), (const uint8_t *)value,
                          strlen(value), &had), DILLUVAS_OK);
    IS(had, wanted);
}

static void has(const char *name, const char *key, const char *value) {
    uint8_t buffer[64];
    size_t needed = 0;
    CALL(dilluvas_map_get(MAPS, (const uint8_t *)name, strlen(name), (const uint8_t *)key, strlen(key), buffer, sizeof buffer, &needed),
         value ? DILLUVAS_OK : DILLUVAS_NONE);
    IS(!value || (needed == strlen(value) && !memcmp(buffer, value, needed)), true);
}

/* ---- Every call, with what none may be given. */

static void a_handle_without_maps_answers(dilluvas *d, dilluvas_status wanted) {
    uint8_t buffer[8] = "unread";
    size_t size = 66;
    bool flag = true;
    dilluvas_piece piece = {5, 6, 7, true};
    IS(dilluvas_map_get(d, TEXT("m"), TEXT("k"), buffer, 8, &size), wanted);
    IS(dilluvas_map_set(d, TEXT("m"), TEXT("k"), TEXT("v"), &flag), wanted);
    IS(dilluvas_map_del(d, TEXT("m"), TEXT("k"), &flag), wanted);
    IS(dilluvas_map_cas(d, TEXT("m"), TEXT("k"), false, NULL, 0, true, TEXT("v")), wanted);
    IS(dilluvas_map_next(d, TEXT("m"), DILLUVAS_FIRST, NULL, 0, buffer, 8, &size), wanted);
    IS(dilluvas_map_next(d, TEXT("m"), 6, NULL, 0, buffer, 8, &size), wanted);
    IS(dilluvas_map_range(d, TEXT("m"), DILLUVAS_UNBOUNDED, NULL, 0, DILLUVAS_UNBOUNDED, NULL, 0, buffer, 8, &piece), wanted);
    IS(dilluvas_map_range(d, TEXT("m"), 3, NULL, 0, 3, NULL, 0, buffer, 8, &piece), wanted);
    IS(dilluvas_map_count(d, TEXT("m"), DILLUVAS_UNBOUNDED, NULL, 0, DILLUVAS_UNBOUNDED, NULL, 0, buffer, 8, &piece), wanted);
    IS(dilluvas_map_drop(d, TEXT("m"), &flag), wanted);
    IS(dilluvas_map_name(d, false, NULL, 0, buffer, 8, &size), wanted);
    IS(size == 66 && flag && !memcmp(buffer, "unread", 7), true);
    IS(piece.count == 5 && piece.pairs_len == 6 && piece.rest_len == 7 && piece.more, true);
}

/* One that is closed, and one whose file is being opened: of that, bytes are needed first. */
static void no_call_is_made_without_a_cache(void) {
    dilluvas d = DILLUVAS_CLOSED;
    dilluvas_task task;
    uint8_t buffer[64];
    a_handle_without_maps_answers(&d, DILLUVAS_NOT_OPEN);
    IS(!d.is_open && !d.at, true);
    IS(dilluvas_open_file(&d, &small, 100), DILLUVAS_NEEDS);
    a_handle_without_maps_answers(&d, DILLUVAS_NOT_OPEN);
    IS(dilluvas_next_task(&d, &task, buffer, sizeof buffer), DILLUVAS_OK);
    IS(dilluvas_close(&d), DILLUVAS_OK);
    a_handle_without_maps_answers(NULL, DILLUVAS_ARGUMENTS);
}

static void a_null_pointer_is_told(void) {
    dilluvas *d = MAPS;
    uint8_t b[8];
    size_t n = 0;
    bool had = false;
    dilluvas_piece piece;
    uint32_t all = DILLUVAS_UNBOUNDED;
    IS(dilluvas_map_get(d, NULL, 1, NULL, 0, b, 8, &n), DILLUVAS_ARGUMENTS);
    IS(dilluvas_map_get(d, NULL, 0, NULL, 1, b, 8, &n), DILLUVAS_ARGUMENTS);
    IS(dilluvas_map_get(d, NULL, 0, NULL, 0, NULL, 8, &n), DILLUVAS_ARGUMENTS);
    IS(dilluvas_map_get(d, NULL, 0, NULL, 0, b, 8, NULL), DILLUVAS_ARGUMENTS);
    IS(dilluvas_map_set(d, NULL, 1, NULL, 0, NULL, 0, &had), DILLUVAS_ARGUMENTS);
    IS(dilluvas_map_set(d, NULL, 0, NULL, 1, NULL, 0, &had), DILLUVAS_ARGUMENTS);
    IS(dilluvas_map_set(d, NULL, 0, NULL, 0, NULL, 1, &had), DILLUVAS_ARGUMENTS);
    IS(dilluvas_map_set(d, NULL, 0, NULL, 0, NULL, 0, NULL), DILLUVAS_ARGUMENTS);
    IS(dilluvas_map_del(d, NULL, 1, NULL, 0, &had), DILLUVAS_ARGUMENTS);
    IS(dilluvas_map_del(d, NULL, 0, NULL, 1, &had), DILLUVAS_ARGUMENTS);
    IS(dilluvas_map_del(d, NULL, 0, NULL, 0, NULL), DILLUVAS_ARGUMENTS);
    IS(dilluvas_map_cas(d, NULL, 1, NULL, 0, false, NULL, 0, false, NULL, 0), DILLUVAS_ARGUMENTS);
    IS(dilluvas_map_cas(d, NULL, 0, NULL, 1, false, NULL, 0, false, NULL, 0), DILLUVAS_ARGUMENTS);
    IS(dilluvas_map_cas(d, NULL, 0, NULL, 0, true, NULL, 1, false, NULL, 0), DILLUVAS_ARGUMENTS);
    IS(dilluvas_map_cas(d, NULL, 0, NULL, 0, false, NULL, 0, true, NULL, 1), DILLUVAS_ARGUMENTS);
    IS(dilluvas_map_next(d, NULL, 1, DILLUVAS_FIRST, NULL, 0, b, 8, &n), DILLUVAS_ARGUMENTS);
    IS(dilluvas_map_next(d, NULL, 0, DILLUVAS_FIRST, NULL, 1, b, 8, &n), DILLUVAS_ARGUMENTS);
    IS(dilluvas_map_next(d, NULL, 0, DILLUVAS_FIRST, NULL, 0, NULL, 8, &n), DILLUVAS_ARGUMENTS);
    IS(dilluvas_map_next(d, NULL, 0, DILLUVAS_FIRST, NULL, 0, b, 8, NULL), DILLUVAS_ARGUMENTS);
    IS(dilluvas_map_range(d, NULL, 1, all, NULL, 0, all, NULL, 0, b, 8, &piece), DILLUVAS_ARGUMENTS);
    IS(dilluvas_map_range(d, NULL, 0, all, NULL, 1, all, NULL, 0, b, 8, &piece), DILLUVAS_ARGUMENTS);
    IS(dilluvas_map_range(d, NULL, 0, all, NULL, 0, all, NULL, 1, b, 8, &piece), DILLUVAS_ARGUMENTS);
    IS(dilluvas_map_range(d, NULL, 0, all, NULL, 0, all, NULL, 0, NULL, 8, &piece), DILLUVAS_ARGUMENTS);
    IS(dilluvas_map_range(d, NULL, 0, all, NULL, 0, all, NULL, 0, b, 8, NULL), DILLUVAS_ARGUMENTS);
    IS(dilluvas_map_count(d, NULL, 1, all, NULL, 0, all, NULL, 0, b, 8, &piece), DILLUVAS_ARGUMENTS);
    IS(dilluvas_map_count(d, NULL, 0, all, NULL, 1, all, NULL, 0, b, 8, &piece), DILLUVAS_ARGUMENTS);
    IS(dilluvas_map_count(d, NULL, 0, all, NULL, 0, all, NULL, 1, b, 8, &piece), DILLUVAS_ARGUMENTS);
    IS(dilluvas_map_count(d, NULL, 0, all, NULL, 0, all, NULL, 0, NULL, 8, &piece), DILLUVAS_ARGUMENTS);
    IS(dilluvas_map_count(d, NULL, 0, all, NULL, 0, all, NULL, 0, b, 8, NULL), DILLUVAS_ARGUMENTS);
    IS(dilluvas_map_drop(d, NULL, 1, &had), DILLUVAS_ARGUMENTS);
    IS(dilluvas_map_drop(d, NULL, 0, NULL), DILLUVAS_ARGUMENTS);
    IS(dilluvas_map_name(d, true, NULL, 1, b, 8, &n), DILLUVAS_ARGUMENTS);
    IS(dilluvas_map_name(d, false, NULL, 0, NULL, 8, &n), DILLUVAS_ARGUMENTS);
    IS(dilluvas_map_name(d, false, NULL, 0, b, 8, NULL), DILLUVAS_ARGUMENTS);
    CALL(dilluvas_map_name(d, false, NULL, 0, b, 8, &n), DILLUVAS_NONE);
}

/* A number that names no side and no kind, and keys, values and names that are too long. Nothing changes, and no map is made. */
static void what_no_map_takes_is_refused(void) {
    size_t len = (size_t)1 << 31, n = 66;
    uint8_t b[8], *bytes = mmap(NULL, len, PROT_READ, MAP_PRIVATE | MAP_ANONYMOUS | MAP_NORESERVE, -1, 0);
    bool had = true;
    dilluvas_piece piece = {5, 6, 7, true};
    uint32_t all = DILLUVAS_UNBOUNDED;
    if (bytes == MAP_FAILED) exit(2);
    CALL(dilluvas_map_set(FRUIT, bytes, len, TEXT("v"), &had), DILLUVAS_KEY_TOO_LONG);
    CALL(dilluvas_map_set(FRUIT, bytes, len, bytes, len, &had), DILLUVAS_KEY_TOO_LONG);
    CALL(dilluvas_map_set(FRUIT, TEXT("k"), bytes, len, &had), DILLUVAS_VALUE_TOO_LONG);
    CALL(dilluvas_map_del(FRUIT, bytes, len, &had), DILLUVAS_KEY_TOO_LONG);
    CALL(dilluvas_map_cas(FRUIT, bytes, len, false, NULL, 0, false, NULL, 0), DILLUVAS_KEY_TOO_LONG);
    CALL(dilluvas_map_cas(FRUIT, TEXT("k"), false, NULL, 0, true, bytes, len), DILLUVAS_VALUE_TOO_LONG);
    CALL(dilluvas_map_cas(FRUIT, TEXT("k"), true, bytes, len, true, TEXT("v")), DILLUVAS_STALE);
    CALL(dilluvas_map_set(MAPS, bytes, len, TEXT("k"), TEXT("v"), &had), DILLUVAS_NAME_TOO_LONG);
    CALL(dilluvas_map_cas(MAPS, bytes, len, TEXT("k"), false, NULL, 0, true, TEXT("v")), DILLUVAS_NAME_TOO_LONG);
    CALL(dilluvas_map_get(FRUIT, bytes, len, b, 8, &n), DILLUVAS_NONE);
    for (uint32_t i = 6; i; i = i == 6 ? UINT32_MAX : 0) CALL(dilluvas_map_next(FRUIT, i, TEXT("k"), b, 8, &n), DILLUVAS_ARGUMENTS);
    for (uint32_t i = 3; i; i = i == 3 ? UINT32_MAX : 0) {
        CALL(dilluvas_map_range(FRUIT, i, TEXT("k"), all, NULL, 0, b, 8, &piece), DILLUVAS_ARGUMENTS);
        CALL(dilluvas_map_range(FRUIT, all, NULL, 0, i, TEXT("k"), b, 8, &piece), DILLUVAS_ARGUMENTS);
        CALL(dilluvas_map_count(FRUIT, i, TEXT("k"), all, NULL, 0, b, 8, &piece), DILLUVAS_ARGUMENTS);
        CALL(dilluvas_map_count(FRUIT, all, NULL, 0, i, TEXT("k"), b, 8, &piece), DILLUVAS_ARGUMENTS);
    }
    IS(n == 66 && had && piece.count == 5 && piece.pairs_len == 6 && piece.rest_len == 7 && piece.more, true);
    CALL(dilluvas_map_name(MAPS, false, NULL, 0, b, 8, &n), DILLUVAS_NONE);
    munmap(bytes, len);
}

/* ---- Each answer. */

static void a_name_without_a_map_is_an_empty_one(void) {
    uint8_t b[8];
    size_t n = 66;
    bool had = true;
    dilluvas_piece piece = {5, 6, 7, true};
    uint32_t all = DILLUVAS_UNBOUNDED;
    has("none", "k", NULL);
    CALL(dilluvas_map_del(MAPS, TEXT("none"), TEXT("k"), &had), DILLUVAS_OK);
    IS(had, false);
    CALL(dilluvas_map_cas(MAPS, TEXT("none"), TEXT("k"), true, TEXT("v"), true, TEXT("w")), DILLUVAS_STALE);
    CALL(dilluvas_map_cas(MAPS, TEXT("none"), TEXT("k"), false, NULL, 0, false, NULL, 0), DILLUVAS_OK);
    for (uint32_t side = 0; side < 6; side++) CALL(dilluvas_map_next(MAPS, TEXT("none"), side, TEXT("k"), b, 8, &n), DILLUVAS_NONE);
    CALL(dilluvas_map_range(MAPS, TEXT("none"), all, NULL, 0, all, NULL, 0, NULL, 0, &piece), DILLUVAS_OK);
    IS(piece.count || piece.pairs_len || piece.rest_len || piece.more, false);
    piece = (dilluvas_piece){5, 6, 7, true};
    CALL(dilluvas_map_count(MAPS, TEXT("none"), all, NULL, 0, all, NULL, 0, NULL, 0, &piece), DILLUVAS_OK);
    IS(piece.count || piece.pairs_len || piece.rest_len || piece.more, false);
    had = true;
    CALL(dilluvas_map_drop(MAPS, TEXT("none"), &had), DILLUVAS_OK);
    IS(had, false);
    CALL(dilluvas_map_name(MAPS, false, NULL, 0, b, 8, &n), DILLUVAS_NONE);
    IS(n, 66);
}

static void a_value_is_compared_and_swapped(void) {
    CALL(dilluvas_map_cas(FRUIT, TEXT("lime"), false, NULL, 0, true, TEXT("green")), DILLUVAS_OK);
    has("fruit", "lime", "green");
    CALL(dilluvas_map_cas(FRUIT, TEXT("lime"), false, NULL, 0, true, TEXT("red")), DILLUVAS_STALE);
    CALL(dilluvas_map_cas(FRUIT, TEXT("lime"), true, TEXT("gree"), true, TEXT("red")), DILLUVAS_STALE);
    CALL(dilluvas_map_cas(FRUIT, TEXT("lime"), true, NULL, 0, false, NULL, 0), DILLUVAS_STALE);
    has("fruit", "lime", "green");
    CALL(dilluvas_map_cas(FRUIT, TEXT("lime"), true, TEXT("green"), true, NULL, 0), DILLUVAS_OK);
    has("fruit", "lime", "");
    CALL(dilluvas_map_cas(FRUIT, TEXT("lime"), true, NULL, 0, false, NULL, 0), DILLUVAS_OK);
    has("fruit", "lime", NULL);
    CALL(dilluvas_map_cas(FRUIT, TEXT("lime"), true, TEXT("green"), false, NULL, 0), DILLUVAS_STALE);
}

/* Where the buffer is too short how much is needed is written, and nothing to the buffer. */
static void a_short_buffer_is_told(void) {
    uint8_t b[64];
    size_t n = 0;
    dilluvas_piece piece = {0, 0, 0, true};
    uint32_t all = DILLUVAS_UNBOUNDED;
    set("fruit", "lime", "green", false);
    memset(b, 7, sizeof b);
    CALL(dilluvas_map_get(FRUIT, TEXT("lime"), b, 4, &n), DILLUVAS_SHORT);
    IS(n, 5);
    CALL(dilluvas_map_next(FRUIT, DILLUVAS_LAST, NULL, 0, b, 16, &n), DILLUVAS_SHORT);
    IS(n, 17);
    CALL(dilluvas_map_range(FRUIT, all, NULL, 0, all, NULL, 0, b, 16, &piece), DILLUVAS_SHORT);
    IS(piece.count == 1 && piece.pairs_len == 17 && piece.rest_len == 0 && !piece.more, true);
    CALL(dilluvas_map_name(MAPS, false, NULL, 0, b, 4, &n), DILLUVAS_SHORT);
    IS(n, 5);
    for (size_t i = 0; i < sizeof b; i++) IS(b[i], 7);
    CALL(dilluvas_map_get(FRUIT, TEXT("lime"), b, 5, &n), DILLUVAS_OK);
    IS(n == 5 && !memcmp(b, "green\7", 6), true);
    CALL(dilluvas_map_next(FRUIT, DILLUVAS_LAST, NULL, 0, b, 17, &n), DILLUVAS_OK);
    IS(n == 17 && !memcmp(b, "\4\0\0\0\5\0\0\0limegreen\7", 18), true);
    memset(b, 7, sizeof b);
    CALL(dilluvas_map_range(FRUIT, all, NULL, 0, all, NULL, 0, b, 17, &piece), DILLUVAS_OK);
    IS(!memcmp(b, "\4\0\0\0\5\0\0\0limegreen\7", 18), true);
    CALL(dilluvas_map_name(MAPS, false, NULL, 0, b, 5, &n), DILLUVAS_OK);
    IS(n == 5 && !memcmp(b, "fruit", 5), true);
}

/* The nearest pair on a side of a key, by its key. */
static void next_is(uint32_t side, const char *key, const char *wanted) {
    uint8_t b[64];
    size_t n = 0, at = 0;
    dilluvas_pair pair = {NULL, NULL, 0, 0};
    CALL(dilluvas_map_next(FRUIT, side, (const uint8_t *)key, strlen(key), b, sizeof b, &n), wanted ? DILLUVAS_OK : DILLUVAS_NONE);
    if (!wanted) return;
    IS(dilluvas_next(b, n, &at, &pair), true);
    IS(at == n && pair.key_len == strlen(wanted) && !memcmp(pair.key, wanted, pair.key_len), true);
}

static void the_nearest_pair_is_found(void) {
    set("fruit", "b", "1", false);
    set("fruit", "d", "2", false);
    static const struct { const char *key, *above, *from, *below, *up_to; } rows[] = {
        {"", "b", "b", NULL, NULL}, {"a", "b", "b", NULL, NULL}, {"b", "d", "b", NULL, "b"},
        {"c", "d", "d", "b", "b"}, {"d", NULL, "d", "b", "d"}, {"e", NULL, NULL, "d", "d"},
    };
    for (size_t i = 0; i < sizeof rows / sizeof *rows; i++) {
        next_is(DILLUVAS_ABOVE, rows[i].key, rows[i].above);
        next_is(DILLUVAS_FROM, rows[i].key, rows[i].from);
        next_is(DILLUVAS_BELOW, rows[i].key, rows[i].below);
        next_is(DILLUVAS_UP_TO, rows[i].key, rows[i].up_to);
        next_is(DILLUVAS_FIRST, rows[i].key, "b");
        next_is(DILLUVAS_LAST, rows[i].key, "d");
    }
}

static void names_come_in_their_order(void) {
    static const char *const names[] = {"", "a", "a\1", "b", "pears"};
    uint8_t b[64];
    size_t n = 0;
    bool had = false;
    for (int i = 4; i >= 0; i--) set(names[i], "k", "v", false);
    for (int i = -1; i < 5; i++) {
        const char *after = i < 0 ? "" : names[i];
        CALL(dilluvas_map_name(MAPS, i >= 0, (const uint8_t *)after, strlen(after), b, sizeof b, &n), i < 4 ? DILLUVAS_OK : DILLUVAS_NONE);
        IS(i == 4 || (n == strlen(names[i + 1]) && !memcmp(b, names[i + 1], n)), true);
    }
    CALL(dilluvas_map_drop(MAPS, TEXT("b"), &had), DILLUVAS_OK);
    IS(had, true);
    has("b", "k", NULL);
    has("a", "k", "v");
    CALL(dilluvas_map_name(MAPS, true, TEXT("a\1"), b, sizeof b, &n), DILLUVAS_OK);
    IS(n == 5 && !memcmp(b, "pears", 5), true);
    CALL(dilluvas_map_drop(MAPS, TEXT("b"), &had), DILLUVAS_OK);
    IS(had, false);
}

/* A root that was given by hand, at whose page there is nothing. */
static void a_root_without_a_map_is_told(void) {
    uint8_t b[64];
    uint64_t root = 0;
    size_t n = 66;
    bool had = true;
    dilluvas_piece piece = {5, 6, 7, true};
    uint32_t all = DILLUVAS_UNBOUNDED;
    CALL(dilluvas_cas_root(FRUIT, &root, 500), DILLUVAS_OK);
    CALL(dilluvas_map_get(FRUIT, TEXT("k"), b, sizeof b, &n), DILLUVAS_CORRUPTION);
    CALL(dilluvas_map_set(FRUIT, TEXT("k"), TEXT("v"), &had), DILLUVAS_CORRUPTION);
    CALL(dilluvas_map_del(FRUIT, TEXT("k"), &had), DILLUVAS_CORRUPTION);
    CALL(dilluvas_map_cas(FRUIT, TEXT("k"), false, NULL, 0, true, TEXT("v")), DILLUVAS_CORRUPTION);
    for (uint32_t side = 0; side < 6; side++) CALL(dilluvas_map_next(FRUIT, side, TEXT("k"), b, sizeof b, &n), DILLUVAS_CORRUPTION);
    CALL(dilluvas_map_range(FRUIT, all, NULL, 0, all, NULL, 0, b, sizeof b, &piece), DILLUVAS_CORRUPTION);
    CALL(dilluvas_map_count(FRUIT, all, NULL, 0, all, NULL, 0, b, sizeof b, &piece), DILLUVAS_CORRUPTION);
    CALL(dilluvas_map_drop(FRUIT, &had), DILLUVAS_CORRUPTION);
    IS(n == 66 && had && piece.count == 5 && piece.pairs_len == 6 && piece.rest_len == 7 && piece.more, true);
    set("pears", "k", "v", false);
    has("pears", "k", "v");
}

/* Names, keys and values of each of these lengths. */
static void lengths_make_no_difference(void) {
    static const size_t lengths[] = {0, 1, 16, 17, 1000};
    static uint8_t bytes[1000], b[2008];
    size_t n = 0, at = 0;
    bool had = true;
    dilluvas_pair pair = {NULL, NULL, 0, 0};
    for (size_t i = 0; i < sizeof bytes; i++) bytes[i] = (uint8_t)(i * 7 + 1);
    for (int name = 0; name < 5; name++)
        for (int key = 0; key < 5; key++)
            CALL(dilluvas_map_set(MAPS, bytes, lengths[name], bytes + 1000 - lengths[key], lengths[key], bytes, lengths[4 - key], &had),
                 DILLUVAS_OK);
    IS(had, false);
    for (int name = 0; name < 5; name++)
        for (int key = 0; key < 5; key++) {
            CALL(dilluvas_map_next(MAPS, bytes, lengths[name], DILLUVAS_UP_TO, bytes + 1000 - lengths[key], lengths[key], b, sizeof b, &n),
                 DILLUVAS_OK);
            at = 0;
            IS(dilluvas_next(b, n, &at, &pair), true);
            IS(pair.key_len == lengths[key] && !memcmp(pair.key, bytes + 1000 - lengths[key], lengths[key]), true);
            IS(pair.value_len == lengths[4 - key] && !memcmp(pair.value, bytes, lengths[4 - key]), true);
        }
}

/* ---- In a batch, and over a file. */

static void a_batch_takes_changes_of_several_maps(void) {
    size_t written = 0;
    CALL(dilluvas_pin(MAPS), DILLUVAS_OK);
    set("debit", "anna", "10", false);
    set("credit", "bert", "10", false);
    CALL(dilluvas_flush(MAPS, &written), DILLUVAS_BATCH_OPEN);
    CALL(dilluvas_seal(MAPS), DILLUVAS_OK);
    CALL(dilluvas_flush(MAPS, &written), DILLUVAS_OK);
    if (over_file) {
        IS(dilluvas_file_close(&store), DILLUVAS_OK);
        open_store();
    }
    has("debit", "anna", "10");
    has("credit", "bert", "10");
}

/* Reads fail, and then writes. */
static void a_failing_file_is_told(void) {
    uint8_t b[64];
    size_t written = 0, n = 0;
    bool had = false;
    set("fruit", "lime", "green", false);
    CALL(dilluvas_flush(MAPS, &written), DILLUVAS_OK);
    IS(dilluvas_file_close(&store), DILLUVAS_OK);
    open_store();
    fails_at[READS] = made[READS];
    lasting = true;
    CALL(dilluvas_map_get(FRUIT, TEXT("lime"), b, 8, &n), DILLUVAS_READ);
    CALL(dilluvas_map_set(FRUIT, TEXT("lime"), TEXT("red"), &had), DILLUVAS_READ);
    CALL(dilluvas_map_drop(FRUIT, &had), DILLUVAS_READ);
    all_goes_well();
    has("fruit", "lime", "green");
    fails_at[WRITES] = made[WRITES];
    lasting = true;
    for (int i = 0; i < 1000 && dilluvas_map_set(FRUIT, TEXT("pear"), b, 64, &had) == DILLUVAS_OK; i++) {
        dilluvas_status status = DILLUVAS_OK;
        if (!dilluvas_file_again(&store, &status) && status != DILLUVAS_OK) break;
    }
    all_goes_well();
    a_handle_without_maps_answers(MAPS, DILLUVAS_WRITE);
    IS(dilluvas_file_close(&store), DILLUVAS_OK);
    open_store();
    has("fruit", "lime", "green");
}

/* A call that wants bytes again and again is handed in ever more at once: a map of 20,000 keys, whose file isn't in memory, is dropped by far
 * fewer reads than it has pages. */
static void a_large_map_is_dropped_by_few_reads(void) {
    uint8_t key[5] = {0}, value[100] = {0};
    size_t written = 0;
    bool had = true;
    for (int i = 0; i < 20000; i++) {
        key[3] = (uint8_t)(i >> 8);
        key[4] = (uint8_t)i;
        CALL(dilluvas_map_set(FRUIT, key, sizeof key, value, sizeof value, &had), DILLUVAS_OK);
    }
    CALL(dilluvas_flush(MAPS, &written), DILLUVAS_OK);
    IS(dilluvas_file_close(&store), DILLUVAS_OK);
    open_store();
    all_goes_well();
    CALL(dilluvas_map_drop(FRUIT, &had), DILLUVAS_OK);
    IS(had && made[READS] < 400, true);
    has("fruit", "\0\0\0\0\0", NULL);
}

static void in_turn(void (*const *tests)(void), size_t count) {
    for (size_t i = 0; i < count; i++) {
        open_store();
        tests[i]();
        close_store();
    }
}

int main(int count, char **words) {
    static void (*const each[])(void) = {
        a_null_pointer_is_told, what_no_map_takes_is_refused, a_name_without_a_map_is_an_empty_one, a_value_is_compared_and_swapped,
        a_short_buffer_is_told, the_nearest_pair_is_found, names_come_in_their_order, a_root_without_a_map_is_told, lengths_make_no_difference,
        a_batch_takes_changes_of_several_maps,
    };
    static void (*const file_alone[])(void) = {a_failing_file_is_told, a_large_map_is_dropped_by_few_reads};
    if (count != 2) return 2;
    snprintf(path, sizeof path, "%s/maps", words[1]);
    all_goes_well();
    no_call_is_made_without_a_cache();
    in_turn(each, sizeof each / sizeof *each);
    over_file = true;
    in_turn(each, sizeof each / sizeof *each);
    in_turn(file_alone, 2);
    return failures != 0;
}
