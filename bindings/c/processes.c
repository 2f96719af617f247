/* What a cache over a file owes to the processes of a system: it is held while it is made, it isn't written to by a process that was forked,
 * which leaves it locked, and a limit on the size of files ends no process. Prints the line of each check that fails: the status is 1 then.
 * Linked with steps.c and failing.c. Usage: processes FOLDER, in which it makes its files. */
#include "steps.h"
#include <signal.h>
#include <stdio.h>
#include <stdlib.h>
#include <sys/resource.h>
#include <unistd.h>

static int opens(void) {
    dilluvas_file mine = DILLUVAS_FILE_CLOSED;
    watch = NULL;
    return (int)dilluvas_file_open(&mine, path, &over_file);
}

/* ---- A file that is being made. */

static long looks;

static void another_process_looks(void) {
    IS(elsewhere(opens), DILLUVAS_HELD);
    looks++;
}

static void it_is_held_while_it_is_made(void) {
    for (int is_empty = 0; is_empty < 2; is_empty++) {
        if (is_empty) put(path, "", 0600);
        looks = 0;
        watch = another_process_looks;
        dilluvas_file file = opened();
        another_process_looks();
        watch = NULL;
        IS(looks > 8, true);
        end(&file);
    }
}

/* ---- A process that was forked. */

enum { PAGES = 20 };

static dilluvas_file parents;

/* What is in memory is read as before, and closing leaves the lock to the parent. */
static int uses_the_copy(void) {
    is_leaf(&parents, 2, 1, 1);
    IS(dilluvas_file_close(&parents), DILLUVAS_OK);
    return failures;
}

static int flushes_the_copy(void) {
    uint64_t page, stamp;
    size_t written;
    DILLUVAS_FILE_CALL(&parents, status, dilluvas_allocate(&parents.cache, NULL, 0, &page, &stamp));
    IS(status, DILLUVAS_OK);
    DILLUVAS_FILE_CALL(&parents, status, dilluvas_flush(&parents.cache, &written));
    IS(status, DILLUVAS_WRITE);
    DILLUVAS_FILE_CALL(&parents, status, dilluvas_pin(&parents.cache));
    IS(status, DILLUVAS_WRITE);
    return failures;
}

static int rewrites_the_copy(void) {
    all_goes_well();
    IS(compact(&parents), DILLUVAS_WRITE);
    IS(made[READS] + made[WRITES] + made[SYNCS], 0);
    DILLUVAS_FILE_CALL(&parents, status, dilluvas_pin(&parents.cache));
    IS(status, DILLUVAS_WRITE);
    return failures;
}

/* Pages that aren't in memory are needed of the file. */
static int reads_by_the_copy(void) {
    dilluvas_found found;
    uint8_t buffer[4096];
    int refused = 0;
    for (uint64_t page = 3; page < PAGES + 3; page++) {
        DILLUVAS_FILE_CALL(&parents, status, dilluvas_get(&parents.cache, page, &found, buffer, sizeof buffer));
        refused += status == DILLUVAS_READ;
    }
    IS(refused, PAGES);
    return failures;
}

static void a_forked_process_leaves_the_file_alone(void) {
    char value[200];
    memset(value, 'v', sizeof value);
    parents = opened();
    allocates(&parents, 2, 1);
    for (uint64_t page = 3; page < PAGES + 3; page++) {
        allocates(&parents, page, 1);
        sets(&parents, page, 1, value, sizeof value);
    }
    flushes(&parents);
    dilluvas_file_close(&parents);
    parents = opened();
    sets(&parents, 2, 0, "v", 1);
    is_leaf(&parents, 2, 1, 1);
    size_t len;
    uint8_t *content = bytes_of(path, &len);
    IS(elsewhere(flushes_the_copy) + elsewhere(rewrites_the_copy) + elsewhere(reads_by_the_copy), 0);
    IS(has_bytes(content, len), true);
    IS(size_of(other), -1);
    IS(elsewhere(uses_the_copy), 0);
    IS(elsewhere(opens), DILLUVAS_HELD);
    /* the parent goes on */
    sets(&parents, 2, 1, "w", 1);
    flushes(&parents);
    IS(compact(&parents), DILLUVAS_OK);
    is_leaf(&parents, 2, 0, 1);
    IS(dilluvas_file_close(&parents), DILLUVAS_OK);
    free(content);
    IS(unlink(path), 0);
}

/* ---- The limit on the size of files. */

static void set_limit(rlim_t bytes) {
    struct rlimit limit;
    IS(getrlimit(RLIMIT_FSIZE, &limit), 0);
    limit.rlim_cur = bytes;
    IS(setrlimit(RLIMIT_FSIZE, &limit), 0);
}

static int opens_with_little_room(void) {
    dilluvas_file mine = DILLUVAS_FILE_CLOSED;
    /* a new file has 53 bytes */
    for (rlim_t bytes = 0; bytes < 53; bytes++) {
        set_limit(bytes);
        IS(dilluvas_file_open(&mine, path, &over_file), DILLUVAS_WRITE);
        IS(size_of(path), -1);
        IS(size_of(other), -1);
    }
    set_limit(53);
    IS(dilluvas_file_open(&mine, path, &over_file), DILLUVAS_OK);
    IS(size_of(path), 53);
    return failures;
}

static int flushes_up_to_the_limit(void) {
    char value[200];
    uint64_t stamp = 0;
    size_t written;
    memset(value, 'v', sizeof value);
    dilluvas_file mine = opened();
    set_limit(2000);
    do {
        DILLUVAS_FILE_CALL(&mine, status,
                           dilluvas_set(&mine.cache, 2, &stamp, TEXT("b"), (const uint8_t *)value, sizeof value));
        if (status == DILLUVAS_OK) DILLUVAS_FILE_CALL(&mine, status, dilluvas_flush(&mine.cache, &written));
        IS(size_of(path) <= 2000, true);
    } while (status == DILLUVAS_OK);
    IS(status, DILLUVAS_WRITE);
    IS(stamp > 5, true);
    dilluvas_file_close(&mine);
    /* what was flushed is there, and may be rewritten */
    mine = opened();
    is_leaf(&mine, 2, 0, 1);
    IS(compact(&mine), DILLUVAS_OK);
    is_leaf(&mine, 2, 0, 1);
    return failures;
}

static void a_limit_ends_no_process(void) {
    IS(elsewhere(opens_with_little_room), 0);
    dilluvas_file file = opened();
    allocates(&file, 2, 1);
    flushes(&file);
    dilluvas_file_close(&file);
    IS(elsewhere(flushes_up_to_the_limit), 0);
    file = opened();
    end(&file);
}

int main(int count, char **arguments) {
    if (count != 2 || !begin(arguments[1], "processes")) return 2;
    it_is_held_while_it_is_made();
    a_forked_process_leaves_the_file_alone();
    a_limit_ends_no_process();
    if (failures == 0) printf("processes: passed\n");
    return failures != 0;
}
