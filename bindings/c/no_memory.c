/* Counts the allocations of the calls that promise to take no memory. Then it makes calls with the first allocation failing, then with the
 * second, and so on: of a cache in memory, of one over a file, and of one whose file is rewritten step by step. Each call has to answer a
 * status, the one that is refused has to succeed when it is made again, and all has to be freed. Linked with --wrap=malloc, --wrap=calloc,
 * --wrap=realloc and --wrap=free. Usage: no_memory FOLDER, in which it makes its file. */
#define _DEFAULT_SOURCE
#include "dilluvas_file.h"
#include "dilluvas_rewriting.h"
#include <fcntl.h>
#include <stdio.h>
#include <unistd.h>

void *__real_malloc(size_t size);
void *__real_calloc(size_t count, size_t size);
void *__real_realloc(void *block, size_t size);
void __real_free(void *block);

/* How many allocations succeed before one fails, how many blocks there are, how many allocations were asked for, and whether one failed. */
static long left, blocks, asked;
static bool failed;

static bool fails(void) {
    asked++;
    if (left-- != 0) return false;
    failed = true;
    return true;
}

void *__wrap_malloc(size_t size) {
    void *block = fails() ? NULL : __real_malloc(size);
    if (block) blocks++;
    return block;
}

void *__wrap_calloc(size_t count, size_t size) {
    void *block = fails() ? NULL : __real_calloc(count, size);
    if (block) blocks++;
    return block;
}

void *__wrap_realloc(void *block, size_t size) {
    void *moved = fails() ? NULL : __real_realloc(block, size);
    if (moved && !block) blocks++;
    return moved;
}

void __wrap_free(void *block) {
    if (block) blocks--;
    __real_free(block);
}

/* What a run saw: how many calls were refused, and whether one was refused again, or answered what it shouldn't. */
static int refused;
static bool wrong;

/* Whether the call is to be made again. */
static bool again(int line, dilluvas_status status, bool first) {
    if (status == DILLUVAS_MEMORY && first) {
        refused++;
        return true;
    }
    if (status != DILLUVAS_OK) {
        printf("line %d: status %u\n", line, status);
        wrong = true;
    }
    return false;
}

#define CALL(call) if (again(__LINE__, (call), true)) again(__LINE__, (call), false)

static void run(void) {
    dilluvas d = DILLUVAS_CLOSED;
    dilluvas_settings settings = {256, 10, 4096, 64, 4};
    uint64_t page = 0, stamp = 0, root = 0, n, log;
    uint8_t buffer[4096], pairs[512], bytes[100] = {1};
    size_t end = 0, size;
    bool moved;
    dilluvas_found found;
    for (uint8_t key = 0; key < 4; key++) end = dilluvas_put(pairs, sizeof pairs, end, &key, 1, bytes, 100);
    CALL(dilluvas_open_memory(&d, &settings));
    CALL(dilluvas_allocate(&d, pairs, end, &page, &stamp));
    for (int i = 0; i < 12; i++) {
        CALL(dilluvas_set(&d, page, &stamp, bytes, 50, bytes, 100));
    }
    CALL(dilluvas_del(&d, page, &stamp, bytes, 50));
    CALL(dilluvas_replace(&d, page, &stamp, pairs, end));
    CALL(dilluvas_open_tree(&d, (const uint8_t *)"a name that is longer than 22 bytes", 35, &n));
    CALL(dilluvas_cas_root(&d, (const uint8_t *)"other", 5, &root, page));
    CALL(dilluvas_root(&d, (const uint8_t *)"other", 5, &n));
    CALL(dilluvas_generate_id(&d, &n));
    CALL(dilluvas_get(&d, page, &found, buffer, sizeof buffer));
    CALL(dilluvas_value(&d, page, pairs + 8, 1, &stamp, buffer, sizeof buffer, &size));
    CALL(dilluvas_amp(&d, &log, &n));
    CALL(dilluvas_page_count(&d, &n));
    CALL(dilluvas_gc(&d, &moved));
    CALL(dilluvas_pin(&d));
    CALL(dilluvas_free(&d, page, &stamp));
    CALL(dilluvas_seal(&d));
    CALL(dilluvas_flush(&d, &size));
    CALL(dilluvas_size(&d, &n));
    CALL(dilluvas_compact(&d, &settings));
    CALL(dilluvas_root(&d, (const uint8_t *)"other", 5, &n));
    CALL(dilluvas_close(&d));
}

/* Likewise over a file, which is opened twice. */
#define FILE_CALL(call) \
    do { \
        DILLUVAS_FILE_CALL(&file, status, call); \
        if (again(__LINE__, status, true)) { \
            DILLUVAS_FILE_CALL(&file, status, call); \
            again(__LINE__, status, false); \
        } \
    } while (0)

static char path[4096], other[4120];

static void run_over_file(void) {
    dilluvas_file file = DILLUVAS_FILE_CLOSED;
    dilluvas_file_settings settings = {256, 10, 600};
    dilluvas_status status;
    uint64_t page = 0, other = 0, stamp = 0, n, log;
    uint8_t buffer[4096], bytes[100] = {1};
    size_t size;
    dilluvas_found found;
    unlink(path);
    CALL(dilluvas_file_open(&file, path, &settings));
    FILE_CALL(dilluvas_allocate(&file.cache, NULL, 0, &page, &stamp));
    for (uint8_t i = 0; i < 12; i++) {
        FILE_CALL(dilluvas_set(&file.cache, page, &stamp, &i, 1, bytes, 100));
    }
    FILE_CALL(dilluvas_allocate(&file.cache, NULL, 0, &other, &n));
    FILE_CALL(dilluvas_generate_id(&file.cache, &n));
    FILE_CALL(dilluvas_pin(&file.cache));
    FILE_CALL(dilluvas_set(&file.cache, page, &stamp, bytes, 50, bytes, 100));
    FILE_CALL(dilluvas_seal(&file.cache));
    FILE_CALL(dilluvas_flush(&file.cache, &size));
    CALL(dilluvas_file_close(&file));
    CALL(dilluvas_file_open(&file, path, &settings));
    CALL(dilluvas_file_amp(&file, &log, &n));
    CALL(dilluvas_file_compact(&file));
    FILE_CALL(dilluvas_get(&file.cache, page, &found, buffer, sizeof buffer));
    FILE_CALL(dilluvas_open_tree(&file.cache, bytes, 50, &n));
    FILE_CALL(dilluvas_del(&file.cache, page, &found.stamp, bytes, 1));
    FILE_CALL(dilluvas_free(&file.cache, page, &found.stamp));
    FILE_CALL(dilluvas_flush(&file.cache, &size));
    CALL(dilluvas_file_close(&file));
}

/* Likewise over a file that is rewritten step by step: a rewriting that is refused memory is given up, which no flush returns. */
static void run_in_steps(void) {
    static const dilluvas_compact_at when = {2, 0, UINT64_MAX, 4000};
    dilluvas_file file = DILLUVAS_FILE_CLOSED;
    dilluvas_file_settings settings = {256, 10, 600};
    dilluvas_status status;
    uint8_t value[60] = {1};
    size_t len;
    bool had;
    unlink(path);
    CALL(dilluvas_file_open(&file, path, &settings));
    for (uint8_t round = 0; round < 8; round++) {
        value[0] = round;
        for (uint8_t key = 0; key < 4; key++) {
            FILE_CALL(dilluvas_map_set(&file.cache, (const uint8_t *)"m", 1, &key, 1, value, sizeof value, &had));
        }
        CALL(dilluvas_file_flush(&file, &when));
    }
    CALL(dilluvas_file_close(&file));
    if (access(other, F_OK) == 0) wrong = true;
    CALL(dilluvas_file_open(&file, path, &settings));
    for (uint8_t key = 0; key < 4; key++) {
        FILE_CALL(dilluvas_map_get(&file.cache, (const uint8_t *)"m", 1, &key, 1, value, sizeof value, &len));
        if (len != sizeof value || value[0] != 7) wrong = true;
    }
    CALL(dilluvas_file_close(&file));
}

/* A rewriting without a cache: an error of one is its end, and the next one succeeds. */
static void run_rewriting(void) {
    bool is_level = false;
    int from = open(path, O_RDWR), to = open(other, O_RDWR | O_CREAT | O_TRUNC, 0666);
    dilluvas_status status = DILLUVAS_MEMORY;
    for (int tried = 0; tried < 2 && status == DILLUVAS_MEMORY; tried++) {
        if (ftruncate(to, 0) != 0) wrong = true;
        dilluvas_rewriting *rewriting = dilluvas_rewriting_begin();
        status = rewriting ? DILLUVAS_OK : DILLUVAS_MEMORY;
        while (status == DILLUVAS_OK && !is_level) status = dilluvas_rewriting_step(rewriting, from, to, 1000, &is_level);
        dilluvas_rewriting_end(rewriting);
        again(__LINE__, status, tried == 0);
    }
    if (!is_level) wrong = true;
    close(from);
    close(to);
    unlink(other);
}

/* A file of many pages, which are made and changed in a batch, so that each array of its rewriting grows. */
static bool make_many(void) {
    const dilluvas_file_settings settings = {65536, 10, 4096};
    dilluvas_file file = DILLUVAS_FILE_CLOSED;
    dilluvas_status status;
    uint64_t page = 0, stamp = 0;
    size_t size;
    left = -1;
    wrong = false;
    unlink(path);
    CALL(dilluvas_file_open(&file, path, &settings));
    FILE_CALL(dilluvas_pin(&file.cache));
    for (int i = 0; i < 150; i++) {
        FILE_CALL(dilluvas_allocate(&file.cache, NULL, 0, &page, &stamp));
        FILE_CALL(dilluvas_set(&file.cache, page, &stamp, (const uint8_t *)"k", 1, (const uint8_t *)"v", 1));
    }
    FILE_CALL(dilluvas_seal(&file.cache));
    FILE_CALL(dilluvas_flush(&file.cache, &size));
    CALL(dilluvas_file_close(&file));
    return !wrong;
}

/* Whether a call asked for no allocation, and answered so. */
static void no_request(int line, long before, dilluvas_status status, dilluvas_status wanted) {
    if (asked == before && status == wanted) return;
    printf("line %d: status %u after %ld allocations\n", line, status, asked - before);
    wrong = true;
}

#define NONE(call, wanted) \
    do { \
        before = asked; \
        status = (call); \
        no_request(__LINE__, before, status, (wanted)); \
    } while (0)

/* The calls that promise to take no memory take none, over a cache whose pages are in memory, and so do those that are given pairs whose keys
 * don't ascend. */
static bool none_are_asked(void) {
    static const uint8_t zeros[1 << 20];
    dilluvas d = DILLUVAS_CLOSED;
    dilluvas_settings settings = {256, 10, 4096, 64, 0};
    dilluvas_status status;
    dilluvas_found found;
    uint64_t page = 0, other = 0, stamp = 0, tree = 0, stale = 0, gone = 1, root, n;
    uint8_t buffer[512], pairs[64], key[1] = {9}, bytes[4] = {1};
    size_t size, end = dilluvas_put(pairs, sizeof pairs, 0, key, 1, bytes, 4);
    bool moved;
    long before;
    left = -1;
    wrong = false;
    refused = 0;
    CALL(dilluvas_open_memory(&d, &settings));
    CALL(dilluvas_allocate(&d, pairs, end, &page, &stamp));
    CALL(dilluvas_allocate(&d, NULL, 0, &other, &n));
    CALL(dilluvas_set(&d, page, &stamp, bytes, 4, bytes, 4));
    CALL(dilluvas_open_tree(&d, bytes, 4, &tree));
    before = asked;
    NONE(dilluvas_get(&d, page, &found, buffer, sizeof buffer), DILLUVAS_OK);
    NONE(dilluvas_value(&d, page, key, 1, &n, buffer, sizeof buffer, &size), DILLUVAS_OK);
    NONE(dilluvas_get(&d, 99, &found, buffer, sizeof buffer), DILLUVAS_GONE);
    NONE(dilluvas_root(&d, bytes, 4, &n), DILLUVAS_OK);
    NONE(dilluvas_generate_id(&d, &n), DILLUVAS_OK);
    NONE(dilluvas_size(&d, &n), DILLUVAS_OK);
    for (uint64_t one = 0; one < 100; one++) NONE(dilluvas_page_size(&d, one, &n), DILLUVAS_OK);
    NONE(dilluvas_gc(&d, &moved), DILLUVAS_OK);
    NONE(dilluvas_flush(&d, &size), DILLUVAS_OK);
    NONE(dilluvas_flush(&d, &size), DILLUVAS_OK);
    NONE(dilluvas_free(&d, page, &stale), DILLUVAS_STALE);
    NONE(dilluvas_free(&d, 99, &gone), DILLUVAS_GONE);
    root = 77;
    NONE(dilluvas_cas_root(&d, bytes, 4, &root, page), DILLUVAS_STALE);
    /* these are 131,072 pairs of the empty key, and no leaf */
    NONE(dilluvas_allocate(&d, zeros, sizeof zeros, &n, &stale), DILLUVAS_ARGUMENTS);
    NONE(dilluvas_replace(&d, page, &stamp, zeros, sizeof zeros), DILLUVAS_ARGUMENTS);
    for (int sealed = 0; sealed < 2; sealed++) {
        CALL(dilluvas_pin(&d));
        CALL(dilluvas_set(&d, page, &stamp, bytes, 4, bytes, 4));
        if (sealed) NONE(dilluvas_seal(&d), DILLUVAS_OK);
        else NONE(dilluvas_cancel(&d), DILLUVAS_OK);
    }
    CALL(dilluvas_close(&d));
    printf("no memory is taken by %s\n", wrong ? "some of the calls" : "each call that promises it");
    return !wrong && blocks == 0 && asked > 0;
}

/* A rewriting uses the links of a page again once that has a new content: of a page that was changed so often it has a few. */
static bool links_are_used_again(void) {
    const dilluvas_file_settings settings = {256, 10, 4096};
    dilluvas_file file = DILLUVAS_FILE_CLOSED;
    dilluvas_status status;
    uint64_t page = 0, stamp = 0;
    uint8_t key[1] = {1};
    size_t size;
    left = -1;
    wrong = false;
    unlink(path);
    CALL(dilluvas_file_open(&file, path, &settings));
    FILE_CALL(dilluvas_allocate(&file.cache, NULL, 0, &page, &stamp));
    for (int i = 0; i < 700; i++) FILE_CALL(dilluvas_set(&file.cache, page, &stamp, key, 1, key, 1));
    FILE_CALL(dilluvas_flush(&file.cache, &size));
    CALL(dilluvas_file_close(&file));
    asked = 0;
    run_rewriting();
    if (asked > 5) {
        printf("%ld allocations for a page of a few links\n", asked);
        wrong = true;
    }
    return !wrong && blocks == 0;
}

/* Lets each allocation of a run fail in turn, and answers whether all went well. */
static bool each_fails(const char *name, void (*run)(void)) {
    long tried = 0, passed_over = 0, calls = 0;
    for (;; tried++) {
        left = tried;
        failed = wrong = false;
        refused = 0;
        run();
        if (wrong || blocks != 0 || refused > 1) {
            printf("allocation %ld: %ld blocks are left, %d calls were refused\n", tried, blocks, refused);
            return false;
        }
        if (!failed) break;
        calls += refused;
        passed_over += !refused;
    }
    printf("%s: %ld allocations failed in turn: %ld calls were refused, and %ld went on without\n", name, tried, calls, passed_over);
    return true;
}

int main(int count, char **arguments) {
    if (count != 2) return 2;
    snprintf(path, sizeof path, "%s/no_memory", arguments[1]);
    snprintf(other, sizeof other, "%s.dilluvas-new", path);
    bool passed = none_are_asked() && links_are_used_again() && each_fails("in memory", run) && each_fails("over a file", run_over_file)
        && each_fails("in steps", run_in_steps) && make_many() && each_fails("a rewriting", run_rewriting);
    unlink(path);
    return !passed;
}
