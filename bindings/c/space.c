/* Files that dilluvas_file_flush rewrites, and files that it leaves as they are. Prints the line of each check that fails: the status is 1
 * then. Linked with steps.c and failing.c. Usage: space FOLDER, in which it makes its files. */
#include "steps.h"
#include <stdio.h>
#include <sys/stat.h>
#include <unistd.h>

enum { KEYS = 250, VALUE = 1000 };

static void begin_value(uint8_t *value, size_t len, unsigned number) {
    memset(value, 'v', len);
    value[0] = (uint8_t)number;
}

/* Sets each of the keys to a new value, and flushes. */
static void overwrite(dilluvas_file *file, unsigned number, size_t len, const dilluvas_compact_at *when) {
    static uint8_t value[100000];
    bool had;
    begin_value(value, len, number);
    for (unsigned key = 0; key < KEYS; key++) {
        const uint8_t name[1] = {(uint8_t)key};
        CALL(dilluvas_map_set(&file->cache, TEXT("m"), name, 1, value, len, &had));
        IS(had, number > 0);
    }
    IS(dilluvas_file_flush(file, when), DILLUVAS_OK);
}

static void check(dilluvas_file *file, unsigned number, size_t len) {
    static uint8_t wanted[100000], found[100000];
    size_t needed;
    begin_value(wanted, len, number);
    for (unsigned key = 0; key < KEYS; key++) {
        const uint8_t name[1] = {(uint8_t)key};
        CALL(dilluvas_map_get(&file->cache, TEXT("m"), name, 1, found, sizeof found, &needed));
        IS(needed == len && memcmp(wanted, found, len) == 0, true);
    }
}

/* By the usual numbers: 16 MiB or more are rewritten once they are four times the pages, in a few flushes. */
static void a_file_stays_short(void) {
    dilluvas_file file = opened();
    off_t longest = 0;
    unsigned number;
    for (number = 0; number < 16; number++) {
        overwrite(&file, number, 10000, NULL);
        if (size_of(path) > longest) longest = size_of(path);
    }
    IS(longest > 16 << 20 && longest < 32 << 20, true);
    check(&file, number - 1, 10000);
    IS(dilluvas_file_close(&file), DILLUVAS_OK);
    file = opened();
    check(&file, number - 1, 10000);
    end(&file);
}

/* At once, and in steps: those of a byte work for what was written alone. */
static void a_file_is_rewritten_at_so_many_times_its_pages(void) {
    static const uint64_t steps[] = {0, 1, 100000};
    for (size_t i = 0; i < sizeof steps / sizeof *steps; i++) {
        const dilluvas_compact_at when = {3, 0, UINT64_MAX, steps[i]};
        dilluvas_file file = opened();
        overwrite(&file, 0, VALUE, NULL);
        IS(compact(&file), DILLUVAS_OK);
        off_t live = size_of(path), longest = 0;
        for (unsigned number = 1; number < 16; number++) {
            overwrite(&file, number, VALUE, &when);
            if (size_of(path) > longest) longest = size_of(path);
            check(&file, number, VALUE);
        }
        IS(longest < (steps[i] == 0 ? 5 : 8) * live, true);
        IS(size_of(other) >= 0, file.next != NULL);
        end(&file);
        IS(size_of(other), -1);
    }
}

static void what_is_out_of_bounds_stays(void) {
    const dilluvas_compact_at rows[] = {
        {2, UINT64_MAX, UINT64_MAX, 0}, {2, 0, 1, 0}, {UINT64_MAX, 0, UINT64_MAX, 0},
        {2, UINT64_MAX, UINT64_MAX, 1}, {2, 0, 1, 1}, {UINT64_MAX, 0, UINT64_MAX, 1}
    };
    for (size_t i = 0; i < sizeof rows / sizeof *rows; i++) {
        dilluvas_file file = opened();
        off_t before = 0;
        for (unsigned number = 0; number < 6; number++) {
            overwrite(&file, number, VALUE, &rows[i]);
            IS(size_of(path) > before, true);
            before = size_of(path);
        }
        IS(before > 6 * KEYS * VALUE, true);
        check(&file, 5, VALUE);
        end(&file);
    }
}

/* A rewriting that fails leaves the answer of the flush, and is tried again once the file has grown by half. */
static void one_that_fails_is_tried_again(uint64_t step) {
    const dilluvas_compact_at when = {2, 0, UINT64_MAX, step};
    dilluvas_file file = opened();
    IS(mkdir(other, 0777), 0);
    unsigned number = 0;
    for (; number < 6; number++) overwrite(&file, number, VALUE, &when);
    check(&file, number - 1, VALUE);
    off_t longest = size_of(path);
    IS(longest > 6 * KEYS * VALUE, true);
    IS(rmdir(other), 0);
    for (; number < 14; number++) overwrite(&file, number, VALUE, &when);
    check(&file, number - 1, VALUE);
    IS(size_of(path) < longest, true);
    end(&file);
}

/* A failing flush is told, and nothing is rewritten then. */
static void refusals_are_told(void) {
    const dilluvas_compact_at always = {2, 0, UINT64_MAX, 0};
    dilluvas_file closed = DILLUVAS_FILE_CLOSED, used = opened(), *file = &used;
    bool had;
    IS(dilluvas_file_flush(NULL, NULL), DILLUVAS_ARGUMENTS);
    IS(dilluvas_file_flush(&closed, NULL), DILLUVAS_NOT_OPEN);
    overwrite(file, 0, VALUE, NULL);
    CALL(dilluvas_pin(&file->cache));
    IS(dilluvas_file_flush(file, &always), DILLUVAS_BATCH_OPEN);
    CALL(dilluvas_seal(&file->cache));
    overwrite(file, 1, VALUE, NULL);
    CALL(dilluvas_map_drop(&file->cache, TEXT("m"), &had));
    all_goes_well();
    fails_at[SYNCS] = 1;
    IS(dilluvas_file_flush(file, &always), DILLUVAS_WRITE);
    all_goes_well();
    IS(dilluvas_file_flush(file, &always), DILLUVAS_WRITE);
    IS(size_of(other), -1);
    end(file);
}

int main(int count, char **arguments) {
    if (count != 2 || !begin(arguments[1], "space")) return 2;
    a_file_stays_short();
    a_file_is_rewritten_at_so_many_times_its_pages();
    what_is_out_of_bounds_stays();
    one_that_fails_is_tried_again(0);
    one_that_fails_is_tried_again(1);
    one_that_fails_is_tried_again(1 << 22);
    refusals_are_told();
    if (failures == 0) printf("space: passed\n");
    return failures != 0;
}
