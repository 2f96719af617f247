/* A file that ends inside a batch is opened, of which each call of the system fails in turn: what opens it writes that the batch was abandoned,
 * and a call that fails there is an error of the opening, behind which the file has the same pages. Prints the line of each check that fails:
 * the status is 1 then. Linked with steps.c and failing.c. Usage: abandoned FOLDER, in which it makes its file. */
#include "steps.h"
#include <fcntl.h>
#include <stdio.h>
#include <stdlib.h>
#include <unistd.h>

/* A batch of some segments, and the frame that says that it was abandoned. */
enum { CHANGES = 8, LEN = 1500, ABANDONING = 34 };

/* The file that ends inside a batch, and the place of its closed gate. */
static uint8_t *left;
static size_t left_len, left_end;

/* The place of the closed gate of a file. */
static size_t end_of(const uint8_t *bytes) {
    size_t at = 8;
    uint64_t len;
    while (bytes[at]) {
        memcpy(&len, bytes + at + 1, sizeof len);
        at += 9 + (size_t)len;
    }
    return at;
}

static void leave_batch_open(void) {
    char value[LEN];
    memset(value, 'v', LEN);
    dilluvas_file opened_one = opened(), *file = &opened_one;
    allocates(file, 2, 1);
    sets(file, 2, 1, "flushed", 7);
    flushes(file);
    size_t flushed = (size_t)size_of(path);
    CALL(dilluvas_pin(&file->cache));
    for (uint64_t stamp = 2; stamp < 2 + CHANGES; stamp++) sets(file, 2, stamp, value, LEN);
    dilluvas_file_close(file);
    left = bytes_of(path, &left_len);
    left_end = end_of(left);
    IS(left_end > flushed + CHANGES / 2 * LEN, true); /* a part was written */
}

static void put_back(void) {
    int descriptor = open(path, O_WRONLY | O_TRUNC);
    IS(write(descriptor, left, left_len), left_len);
    close(descriptor);
}

/* The page is as it was flushed. */
static void is_as_flushed(dilluvas_file *file, const char *wanted, size_t wanted_len) {
    uint8_t found[LEN];
    uint64_t stamp = 0;
    size_t len = 0;
    CALL(dilluvas_value(&file->cache, 2, TEXT("b"), &stamp, found, LEN, &len));
    IS(len == wanted_len && memcmp(found, wanted, len) == 0, true);
}

/* What was there is there, and behind it nothing counts, or that the batch was abandoned. */
static void is_as_left(bool is_marked) {
    size_t len;
    uint8_t *present = bytes_of(path, &len);
    size_t end = end_of(present);
    IS(memcmp(present, left, left_end), 0);
    IS(end == left_end + ABANDONING || (end == left_end && !is_marked), true);
    free(present);
}

/* Opened with no fault it has the page, once as before, and once with a change that is flushed. */
static void is_usable(void) {
    size_t len;
    dilluvas_file file = opened();
    is_as_flushed(&file, "flushed", 7);
    dilluvas_file_close(&file);
    is_as_left(true);
    uint8_t *marked = bytes_of(path, &len);
    file = opened();
    IS(has_bytes(marked, len), true); /* it is marked once */
    free(marked);
    sets(&file, 2, 0, "then", 4);
    flushes(&file);
    dilluvas_file_close(&file);
    file = opened();
    is_as_flushed(&file, "then", 4);
    dilluvas_file_close(&file);
}

/* Each call of a kind fails in turn while the file is opened, with all behind it or alone. */
static void each_fails_in_turn(enum kind kind, const char *name, long least) {
    long tried = 0;
    for (bool failed = true; failed; tried++) {
        dilluvas_file file = DILLUVAS_FILE_CLOSED;
        put_back();
        all_goes_well();
        fails_at[kind] = tried / 2;
        lasting = tried % 2;
        dilluvas_status answer = dilluvas_file_open(&file, path, &over_file);
        failed = answer != DILLUVAS_OK;
        if (failed) IS(answer, kind == READS ? DILLUVAS_READ : DILLUVAS_WRITE);
        IS(dilluvas_file_close(&file), failed ? DILLUVAS_NOT_OPEN : DILLUVAS_OK);
        all_goes_well();
        is_as_left(!failed);
        is_usable();
    }
    IS(tried > 2 * least, true);
    printf("%ld openings that abandon a batch with a failing %s\n", tried, name);
}

int main(int count, char **arguments) {
    if (count != 2 || !begin(arguments[1], "abandoned")) return 2;
    leave_batch_open();
    is_usable();
    each_fails_in_turn(READS, "read", 1);
    each_fails_in_turn(WRITES, "write", 3); /* the last open gate again, the frame, and its gate */
    each_fails_in_turn(SYNCS, "sync", 4);   /* the folder, and behind each of these */
    unlink(path);
    free(left);
    if (failures == 0) printf("abandoned batches: passed\n");
    return failures != 0;
}
