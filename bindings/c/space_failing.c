/* Lets each call of the system fail in turn while dilluvas_file_flush rewrites a file step by step, alone or with all that follow it. The flush
 * returns what it returns without a rewriting, what was flushed is there, in this opening or in the next one, nothing is left of the new file,
 * and no descriptor stays open. Prints the line of each check that fails: the status is 1 then. Linked with steps.c, stepping.c and failing.c.
 * Usage: space_failing FOLDER, in which it makes its files. */
#include "stepping.h"
#include <dirent.h>
#include <errno.h>
#include <fcntl.h>
#include <stdio.h>
#include <stdlib.h>
#include <unistd.h>

/* In some five steps. */
static const dilluvas_compact_at in_steps = {2, 0, UINT64_MAX, 40000};

/* The file before each run, which is to be rewritten. */
static uint8_t *content;
static size_t content_len;

static void make_content(void) {
    dilluvas_file file = begun();
    IS(dilluvas_file_close(&file), DILLUVAS_OK);
    content = bytes_of(path, &content_len);
    unlink(path);
}

static void put_content(void) {
    int descriptor = open(path, O_WRONLY | O_CREAT | O_TRUNC, 0644);
    IS(write(descriptor, content, content_len), content_len);
    close(descriptor);
}

static unsigned descriptors(void) {
    unsigned found = 0;
    DIR *folder = opendir("/proc/self/fd");
    while (folder && readdir(folder)) found++;
    if (folder) closedir(folder);
    return found;
}

/* ---- One run. */

/* Up to which round the key of each round was flushed, and set. */
static unsigned flushed, set;

/* Sets the key of a round. */
static void set_round(dilluvas_file *file, unsigned round) {
    uint8_t key[2] = {'r', (uint8_t)round};
    bool had;
    DILLUVAS_FILE_CHANGE(file, status, 3 + VALUE, dilluvas_map_set(&file->cache, TEXT("m"), key, 2, content, VALUE, &had));
}

/* Up to which round there is a key, and none after it. */
static unsigned rounds_of(dilluvas_file *file) {
    uint8_t key[2] = {'r', 0}, value[VALUE];
    size_t needed;
    unsigned found = 0;
    for (unsigned round = 1; round < 100; round++) {
        key[1] = (uint8_t)round;
        DILLUVAS_FILE_CALL(file, status, dilluvas_map_get(&file->cache, TEXT("m"), key, 2, value, VALUE, &needed));
        if (status == DILLUVAS_NONE) continue;
        IS(status, DILLUVAS_OK);
        IS(found + 1, round);
        IS(memcmp(value, content, VALUE), 0);
        found = round;
    }
    return found;
}

/* Flushes and changes the file until it was rewritten, or for some rounds where that fails. False: it takes no more calls. */
static bool makes_rounds(dilluvas_file *file) {
    ino_t before = file_at(path);
    flushed = set = 0;
    for (unsigned round = 1; round < 20 && file_at(path) == before; round++) {
        set_round(file, set + 1);
        if (status == DILLUVAS_READ) continue;
        if (status != DILLUVAS_OK) return false;
        set++;
        dilluvas_status answer = dilluvas_file_flush(file, &in_steps);
        if (answer == DILLUVAS_READ) continue;
        if (answer != DILLUVAS_OK) {
            IS(answer, DILLUVAS_WRITE);
            return false;
        }
        flushed = set;
    }
    return true;
}

/* What is there after a run. */
static void has_rounds(dilluvas_file *file) {
    unsigned found = rounds_of(file);
    IS(found >= flushed && found <= set, true);
    has_all(file);
}

/* How often the folder couldn't be synced after the new file took the place of the old one. */
static unsigned stuck;

static void refuses_changes(dilluvas_file *file) {
    DILLUVAS_FILE_CALL(file, status, dilluvas_pin(&file->cache));
    IS(status, DILLUVAS_WRITE);
    stuck++;
}

/* What is told of a step in which such a call fails, where the file isn't rewritten later, and the cache isn't stuck. */
static dilluvas_status wanted_of(enum kind kind) {
    if (kind == RENAMES) return DILLUVAS_NO_ACCESS;
    return fails_with == ENOSPC ? DILLUVAS_DISK_FULL : DILLUVAS_WRITE;
}

/* Runs with one call that fails. True: none was left to fail. */
static bool runs(enum kind kind, long fails_from, bool *is_rewritten) {
    unsigned open_before = descriptors();
    put_content();
    ino_t before = file_at(path);
    dilluvas_file file = opened();
    all_goes_well();
    fails_at[kind] = fails_from;
    bool is_usable = makes_rounds(&file), is_done = made[kind] <= fails_from;
    all_goes_well();
    *is_rewritten = file_at(path) != before;
    if (is_usable && !*is_rewritten) has_rounds(&file);
    bool is_stuck = kind == SYNCS && *is_rewritten && !is_done;
    if (is_stuck) refuses_changes(&file);
    /* a read that fails may be one of a flush, or of a change */
    dilluvas_status told = *is_rewritten && !is_stuck ? DILLUVAS_OK : wanted_of(kind);
    if (is_usable && kind != READS) IS(dilluvas_file_rewriting_failure(&file), told);
    IS(size_of(other) >= 0, file.next != NULL);
    IS(dilluvas_file_close(&file), DILLUVAS_OK);
    IS(size_of(other), -1);
    file = opened();
    has_rounds(&file);
    end(&file);
    IS(descriptors(), open_before);
    return is_done;
}

static void each_fails_in_turn(enum kind kind, int with) {
    static const char *const names[] = {"read", "write", "sync", "rename"};
    long tried = 0, rewritten = 0;
    bool is_done = false, is_rewritten = false;
    fails_with = with;
    for (; !is_done && failures == 0; tried++) {
        lasting = tried % 2;
        is_done = runs(kind, tried / 2, &is_rewritten);
        rewritten += is_rewritten;
        if (failures) printf("%s %ld fails\n", names[kind], tried / 2);
    }
    IS(is_rewritten, true);
    IS(tried > (kind == RENAMES ? 2 : 10), true);
    printf("%ld times a %s failed, and %ld times the file was rewritten\n", tried, names[kind], rewritten);
}

int main(int count, char **arguments) {
    if (count != 2 || !begin(arguments[1], "space_failing")) return 2;
    make_content();
    each_fails_in_turn(READS, EIO);
    each_fails_in_turn(WRITES, EIO);
    each_fails_in_turn(WRITES, ENOSPC);
    each_fails_in_turn(SYNCS, EIO);
    IS(stuck, 2);
    each_fails_in_turn(RENAMES, EACCES);
    free(content);
    if (failures == 0) printf("space with faults: passed\n");
    return failures != 0;
}
