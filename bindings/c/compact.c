/* Rewrites caches in memory and over a file: what stands there then, and what is refused. Prints the line of each check that fails: the status
 * is 1 then. Linked with steps.c and failing.c. Usage: compact FOLDER, in which it makes its files. */
#include "steps.h"
#include <stdio.h>
#include <stdlib.h>
#include <time.h>
#include <unistd.h>

/* ---- What is rewritten. */

/* What is done to a cache, how many bytes its pages take as messages, and what it shows then. Of the bytes the cache's own pages are 35, an
 * empty leaf 25, one of a pair with a key and a value of a byte 29, and a free page 42. */
typedef struct row {
    const char *name;
    void (*make)(dilluvas_file *file);
    uint64_t bytes;
    void (*check)(dilluvas_file *file);
} row;

static void make_nothing(dilluvas_file *file) {
    (void)file;
}

static void check_nothing(dilluvas_file *file) {
    gives(file, 20, 21);
    allocates(file, 2, 1);
}

static void make_pages(dilluvas_file *file) {
    for (uint64_t page = 2; page < 6; page++) allocates(file, page, 1);
    frees(file, 3, 1);
    frees(file, 5, 1);
}

static void check_pages(dilluvas_file *file) {
    is_leaf(file, 2, 0, 0);
    is_leaf(file, 3, -1, 0);
    is_leaf(file, 4, 0, 0);
    is_leaf(file, 5, -1, 0);
    allocates(file, 5, 1);
    allocates(file, 3, 1);
    allocates(file, 6, 1);
}

static void make_links(dilluvas_file *file) {
    allocates(file, 2, 1);
    for (uint64_t stamp = 1; stamp < 10; stamp++) sets(file, 2, stamp, "v", 1);
}

static void check_links(dilluvas_file *file) {
    is_leaf(file, 2, 0, 1);
    sets(file, 2, 0, "w", 1);
    is_leaf(file, 2, 1, 1);
}

static void make_ids(dilluvas_file *file) {
    gives(file, 0, 25);
}

/* no id from 25 on was given: the next one is two intervals above the counter, which was 20 */
static void check_ids(dilluvas_file *file) {
    gives(file, 40, 60);
}

static void make_roots(dilluvas_file *file) {
    uint64_t page = 0, root = 0;
    CALL(dilluvas_open_tree(&file->cache, TEXT("t"), &page));
    CALL(dilluvas_cas_root(&file->cache, TEXT("u"), &root, 7));
}

static void check_roots(dilluvas_file *file) {
    leads(file, "t", 3);
    leads(file, "u", 7);
    is_leaf(file, 2, 0, 0);
}

static const row rows[] = {
    {"an empty cache", make_nothing, 35, check_nothing},
    {"pages, of which two are free", make_pages, 35 + 2 * 25 + 2 * 42, check_pages},
    {"a page of ten messages", make_links, 35 + 29, check_links},
    {"the counter in use", make_ids, 35, check_ids},
    {"named roots", make_roots, 93, check_roots},
};

/* It is rewritten twice, with nothing between: each time the log takes so many bytes. */
static void is_rewritten(const row *row, dilluvas_file *file, uint64_t bytes) {
    uint64_t size = 0;
    size_t len = 0;
    bool recovered = false;
    int before = failures;
    row->make(file);
    IS(compact(file), DILLUVAS_OK);
    uint8_t *content = file->buffer ? bytes_of(path, &len) : NULL;
    IS(compact(file), DILLUVAS_OK);
    if (content) IS(len == bytes && has_bytes(content, len), true);
    free(content);
    CALL(dilluvas_size(&file->cache, &size));
    IS(size, bytes);
    CALL(dilluvas_was_recovered(&file->cache, &recovered));
    IS(recovered, true);
    row->check(file);
    if (failures > before) printf("in the row of %s\n", row->name);
}

static void caches_are_rewritten(void) {
    for (size_t i = 0; i < sizeof rows / sizeof *rows; i++) {
        dilluvas_file file = opened_in_memory();
        is_rewritten(&rows[i], &file, rows[i].bytes);
        end(&file);
        file = opened();
        /* nine bytes before a frame, and nine behind its length */
        is_rewritten(&rows[i], &file, rows[i].bytes + 18);
        IS(size_of(other), -1);
        dilluvas_file_close(&file);
        file = opened();
        dilluvas_file_close(&file);
        unlink(path);
    }
}

/* ---- What is refused. */

static void refusals_are_told(void) {
    dilluvas closed = DILLUVAS_CLOSED, d = DILLUVAS_CLOSED;
    dilluvas_file none = DILLUVAS_FILE_CLOSED;
    const dilluvas_settings wrong[] = {{255, 10, 1, 1, 1}, {256, 0, 1, 1, 1}, {256, 10, 0, 1, 1}};
    const dilluvas_file_settings wrong_file = {4096, 10, 0};
    IS(dilluvas_file_compact(NULL), DILLUVAS_ARGUMENTS);
    IS(dilluvas_file_compact(&none), DILLUVAS_NOT_OPEN);
    IS(dilluvas_compact(NULL, &in_memory) + dilluvas_compact(&d, NULL), 2 * DILLUVAS_ARGUMENTS);
    IS(dilluvas_new_log(NULL, &over_file) + dilluvas_new_log(&d, NULL), 2 * DILLUVAS_ARGUMENTS);
    IS(dilluvas_rewrite(NULL, &d) + dilluvas_rewrite(&d, NULL) + dilluvas_rewrite(&d, &d), 3 * DILLUVAS_ARGUMENTS);
    IS(dilluvas_compact(&d, &in_memory), DILLUVAS_NOT_OPEN);
    IS(dilluvas_rewrite(&d, &closed), DILLUVAS_NOT_OPEN);
    IS(dilluvas_new_log(&d, &wrong_file), DILLUVAS_SEGMENT_ZERO);
    IS(dilluvas_close(&d), DILLUVAS_NOT_OPEN);

    dilluvas_file file = opened_in_memory();
    IS(dilluvas_new_log(&file.cache, &over_file), DILLUVAS_ALREADY_OPEN);
    IS(dilluvas_rewrite(&file.cache, &closed), DILLUVAS_NOT_OPEN);
    for (int i = 0; i < 3; i++) IS(dilluvas_compact(&file.cache, &wrong[i]), DILLUVAS_CAPACITY_TOO_SMALL + i);
    IS(dilluvas_pin(&file.cache), DILLUVAS_OK);
    IS(compact(&file), DILLUVAS_BATCH_OPEN);
    allocates(&file, 2, 1);
    IS(dilluvas_seal(&file.cache), DILLUVAS_OK);
    IS(compact(&file), DILLUVAS_OK);
    is_leaf(&file, 2, 0, 0);

    dilluvas_file second = opened();
    IS(dilluvas_compact(&second.cache, &in_memory), DILLUVAS_NOT_OVER_FILE);
    IS(dilluvas_rewrite(&file.cache, &second.cache), DILLUVAS_ALREADY_OPEN);
    IS(dilluvas_rewrite(&second.cache, &file.cache), DILLUVAS_ALREADY_OPEN);
    DILLUVAS_FILE_CALL(&second, status, dilluvas_pin(&second.cache));
    IS(status, DILLUVAS_OK);
    IS(compact(&second), DILLUVAS_BATCH_OPEN);
    IS(size_of(other), -1);
    DILLUVAS_FILE_CALL(&second, status, dilluvas_seal(&second.cache));
    IS(status, DILLUVAS_OK);
    IS(compact(&second), DILLUVAS_OK);
    end(&second);
    end(&file);
}

/* The calls that a loop is made of, by hand: a cache in memory is rewritten into the log of a file. */
static void the_library_says_what_it_wants(void) {
    dilluvas d = DILLUVAS_CLOSED, into = DILLUVAS_CLOSED;
    dilluvas_task task = {0, 0, 0};
    uint8_t buffer[256] = {0}, bytes[256] = {0};
    uint64_t at = 0, size = 0;
    size_t len = 0;
    IS(dilluvas_open_memory(&d, &in_memory), DILLUVAS_OK);
    IS(dilluvas_new_log(&into, &over_file), DILLUVAS_NEEDS);
    /* its log isn't read yet */
    IS(dilluvas_rewrite(&d, &into), DILLUVAS_NOT_OPEN);
    while (dilluvas_next_task(&into, &task, buffer, sizeof buffer) == DILLUVAS_OK && task.kind != DILLUVAS_NOTHING) {
        if (task.kind == DILLUVAS_WRITE_BYTES) memcpy(bytes + task.at, buffer, task.len);
    }
    IS(dilluvas_needs(&into, &at, &len), DILLUVAS_OK);
    IS(dilluvas_hand_in(&into, at, bytes + at, len), DILLUVAS_OK);
    IS(dilluvas_new_log(&into, &over_file), DILLUVAS_OK);
    IS(dilluvas_flush(&into, &len), DILLUVAS_NOT_OPEN);
    IS(dilluvas_rewrite(&d, &into), DILLUVAS_OK);
    /* it isn't new any more */
    IS(dilluvas_rewrite(&d, &into), DILLUVAS_NOT_OPEN);
    IS(dilluvas_new_log(&into, &over_file), DILLUVAS_OK);
    while (dilluvas_next_task(&into, &task, buffer, sizeof buffer) == DILLUVAS_OK && task.kind != DILLUVAS_NOTHING) {
        if (task.kind == DILLUVAS_WRITE_BYTES) memcpy(bytes + task.at, buffer, task.len);
    }
    while (dilluvas_open_file(&into, &over_file, 0) == DILLUVAS_NEEDS) {
        IS(dilluvas_hand_in(&into, 0, bytes, 53), DILLUVAS_OK);
    }
    IS(dilluvas_size(&into, &size), DILLUVAS_OK);
    IS(size, 53);
    IS(dilluvas_close(&into), DILLUVAS_OK);

    IS(dilluvas_close(&d), DILLUVAS_OK);
}

/* A handle with a new log, by hand, in a file that has its first bytes. */
static dilluvas with_a_new_log(void) {
    dilluvas into = DILLUVAS_CLOSED;
    dilluvas_task task = {0, 0, 0};
    uint8_t buffer[256] = {0};
    IS(dilluvas_new_log(&into, &over_file), DILLUVAS_NEEDS);
    IS(dilluvas_next_task(&into, &task, buffer, sizeof buffer), DILLUVAS_OK);
    IS(dilluvas_next_task(&into, &task, buffer, sizeof buffer), DILLUVAS_OK);
    IS(dilluvas_hand_in(&into, 0, (const uint8_t *)"SLPCLOG1", 9), DILLUVAS_OK);
    IS(dilluvas_new_log(&into, &over_file), DILLUVAS_OK);
    return into;
}

/* The other handle is closed where a batch is open. It stays where a write of the cache's own file had failed. */
static void the_other_handle_is_left(void) {
    dilluvas d = DILLUVAS_CLOSED, into = with_a_new_log();
    IS(dilluvas_open_memory(&d, &in_memory), DILLUVAS_OK);
    IS(dilluvas_pin(&d), DILLUVAS_OK);
    IS(dilluvas_rewrite(&d, &into), DILLUVAS_BATCH_OPEN);
    IS(dilluvas_close(&into), DILLUVAS_NOT_OPEN);

    dilluvas_file file = opened();
    into = with_a_new_log();
    IS(dilluvas_failed(&file.cache), DILLUVAS_OK);
    IS(dilluvas_rewrite(&file.cache, &into), DILLUVAS_WRITE);
    IS(dilluvas_cancel(&d), DILLUVAS_OK);
    IS(dilluvas_rewrite(&d, &into), DILLUVAS_OK);
    IS(dilluvas_close(&into), DILLUVAS_OK);
    IS(dilluvas_close(&d), DILLUVAS_OK);
    end(&file);
}

/* ---- Many pages. */

/* 10,000 pages that aren't in memory: each byte of the file is read twice at most, and it is begun some times. */
static void many_pages_are_read_together(void) {
    enum { MANY = 10000 };
    const dilluvas_file_settings few_syncs = {4096, 10, 1048576};
    dilluvas_file file = DILLUVAS_FILE_CLOSED;
    char value[1000];
    memset(value, 'v', sizeof value);
    IS(dilluvas_file_open(&file, path, &few_syncs), DILLUVAS_OK);
    for (uint64_t page = 2; page < MANY + 2; page++) {
        allocates(&file, page, 1);
        sets(&file, page, 1, value, sizeof value);
    }
    flushes(&file);
    all_goes_well();
    clock_t start = clock();
    IS(compact(&file), DILLUVAS_OK);
    printf("10,000 pages are rewritten in %.0f ms, by %ld reads\n", (double)(clock() - start) * 1e3 / CLOCKS_PER_SEC, made[READS]);
    IS(made[READS] < 200, true);
    end(&file);
}

int main(int count, char **arguments) {
    if (count != 2 || !begin(arguments[1], "compact")) return 2;
    caches_are_rewritten();
    refusals_are_told();
    the_library_says_what_it_wants();
    the_other_handle_is_left();
    many_pages_are_read_together();
    if (failures == 0) printf("rewriting: passed\n");
    return failures != 0;
}
