/* Makes calls of a cache over a file, and lets each call of the system fail in turn. Of all reads and writes some are cut short and some
 * interrupted. Prints the line of each check that fails: the status is 1 then. Linked with failing.c. Usage: file FOLDER, in which it makes
 * its files. */
#define _DEFAULT_SOURCE
#include "dilluvas_file.h"
#include "failing.h"
#include <fcntl.h>
#include <stdio.h>
#include <stdlib.h>
#include <sys/stat.h>
#include <sys/wait.h>
#include <unistd.h>

/* ---- Files. */

static char path[4096], other[4200];

static off_t size_of(const char *name) {
    struct stat found;
    return stat(name, &found) == 0 ? found.st_size : -1;
}

static void put_bytes(const char *name, const char *bytes, size_t len, off_t at) {
    int descriptor = open(name, O_WRONLY | O_CREAT, 0666);
    IS(__real_pwrite(descriptor, bytes, len, at), len);
    close(descriptor);
}

/* A small cache, whose pages leave memory. */
static const dilluvas_file_settings small = {4096, 10, 4096};

static dilluvas_status open_small(dilluvas_file *file) {
    return dilluvas_file_open(file, path, &small);
}

static dilluvas_file opened(void) {
    dilluvas_file file = DILLUVAS_FILE_CLOSED;
    IS(open_small(&file), DILLUVAS_OK);
    return file;
}

static dilluvas_status set(dilluvas_file *file, uint64_t page, uint64_t *stamp, const void *value, size_t len) {
    dilluvas_status status;
    DILLUVAS_FILE_CALL(file, status, dilluvas_set(&file->cache, page, stamp, TEXT("key"), value, len));
    return status;
}

static dilluvas_status value(dilluvas_file *file, uint64_t page, uint64_t *stamp, void *buffer, size_t room, size_t *len) {
    dilluvas_status status;
    DILLUVAS_FILE_CALL(file, status, dilluvas_value(&file->cache, page, TEXT("key"), stamp, buffer, room, len));
    return status;
}

static dilluvas_status allocate(dilluvas_file *file, uint64_t *page, uint64_t *stamp) {
    dilluvas_status status;
    DILLUVAS_FILE_CALL(file, status, dilluvas_allocate(&file->cache, NULL, 0, page, stamp));
    return status;
}

static dilluvas_status flush(dilluvas_file *file) {
    dilluvas_status status;
    size_t written;
    DILLUVAS_FILE_CALL(file, status, dilluvas_flush(&file->cache, &written));
    return status;
}

/* ---- The tests. */

enum { PAGES = 300, ROUNDS = 12, LEN = 150 };

static uint32_t versions[PAGES];

static void compare(dilluvas_file *file) {
    uint8_t wanted[LEN], found[LEN];
    for (int i = 0; i < PAGES; i++) {
        uint64_t stamp = 0;
        size_t len = 0;
        memset(wanted, (int)versions[i], LEN);
        IS(value(file, (uint64_t)i + 2, &stamp, found, LEN, &len), versions[i] ? DILLUVAS_OK : DILLUVAS_NONE);
        if (versions[i]) IS(len == LEN && memcmp(found, wanted, LEN) == 0, true);
    }
}

static void what_was_flushed_is_found_again(void) {
    dilluvas_file file = opened();
    uint64_t stamps[PAGES], page = 0, id = 0;
    uint8_t bytes[LEN];
    unsigned seed = 7;
    dilluvas_status status;
    bool recovered = true;
    DILLUVAS_FILE_CALL(&file, status, dilluvas_was_recovered(&file.cache, &recovered));
    IS(status == DILLUVAS_OK && !recovered, true);
    for (int i = 0; i < PAGES; i++) IS(allocate(&file, &page, &stamps[i]) == DILLUVAS_OK && page == (uint64_t)i + 2, true);
    for (int n = 0; n < PAGES * ROUNDS; n++) {
        seed = seed * 1103515245 + 12345;
        int i = (int)(seed >> 16) % PAGES;
        memset(bytes, (int)++versions[i], LEN);
        IS(set(&file, (uint64_t)i + 2, &stamps[i], bytes, LEN), DILLUVAS_OK);
    }
    IS(made[READS] > 0, true); /* pages had left memory */
    DILLUVAS_FILE_CALL(&file, status, dilluvas_generate_id(&file.cache, &id));
    IS(status, DILLUVAS_OK);
    IS(flush(&file), DILLUVAS_OK);
    compare(&file);
    IS(dilluvas_file_close(&file), DILLUVAS_OK);
    IS(dilluvas_file_close(&file), DILLUVAS_NOT_OPEN);

    uint64_t bytes_in_log = 0, next = 0;
    all_goes_well();
    file = opened();
    IS(made[WRITES], 1); /* the last open gate, again */
    IS(made[READS] <= 4 + size_of(path) / 10000, true); /* each byte is read once */
    compare(&file);
    DILLUVAS_FILE_CALL(&file, status, dilluvas_generate_id(&file.cache, &next));
    IS(status == DILLUVAS_OK && next > id, true);
    DILLUVAS_FILE_CALL(&file, status, dilluvas_size(&file.cache, &bytes_in_log));
    IS(status == DILLUVAS_OK && bytes_in_log >= (uint64_t)size_of(path), true);
    DILLUVAS_FILE_CALL(&file, status, dilluvas_was_recovered(&file.cache, &recovered));
    IS(status == DILLUVAS_OK && recovered, true);
    dilluvas_file_close(&file);
}

/* A failing read is an answer, and changes nothing. */
static void each_page_comes_behind_a_read_that_failed(void) {
    dilluvas_file file = opened();
    int unread = 0;
    for (int i = 0; i < PAGES; i++) {
        uint64_t stamp;
        size_t len;
        uint8_t found[LEN];
        made[READS] = 0;
        fails_at[READS] = 0;
        dilluvas_status status = value(&file, (uint64_t)i + 2, &stamp, found, LEN, &len);
        unread += status == DILLUVAS_READ;
        all_goes_well();
    }
    IS(unread > PAGES / 2, true);
    compare(&file);
    dilluvas_file_close(&file);
}

/* One that reads more bytes than the buffer of the loop has. */
static void a_long_value_is_read_in_pieces(void) {
    enum { LONG = 200000 };
    uint8_t *bytes = malloc(LONG), *found = malloc(LONG);
    uint64_t page = 0, stamp = 0;
    size_t len = 0;
    unlink(path);
    for (int i = 0; i < LONG; i++) bytes[i] = (uint8_t)(i * 31 + i / 251);
    dilluvas_file file = opened();
    IS(allocate(&file, &page, &stamp), DILLUVAS_OK);
    IS(set(&file, page, &stamp, bytes, LONG), DILLUVAS_OK);
    IS(flush(&file), DILLUVAS_OK);
    dilluvas_file_close(&file);
    file = opened();
    IS(value(&file, page, &stamp, found, LONG, &len), DILLUVAS_OK);
    IS(len == LONG && memcmp(bytes, found, LONG) == 0, true);
    dilluvas_file_close(&file);
    free(bytes);
    free(found);
}

/* Rounds of a set and a flush over a new file, up to one that fails: how many were flushed. */
static dilluvas_status run(dilluvas_file *file, uint32_t *flushed, bool *was_open) {
    uint64_t page = 0, stamp = 0;
    dilluvas_status status = open_small(file);
    *flushed = 0;
    *was_open = status == DILLUVAS_OK;
    if (*was_open) status = allocate(file, &page, &stamp);
    for (uint32_t round = 1; status == DILLUVAS_OK && round <= 5; round++) {
        status = set(file, page, &stamp, &round, sizeof round);
        if (status == DILLUVAS_OK) status = flush(file);
        if (status == DILLUVAS_OK) *flushed = round;
    }
    return status;
}

static void every_call_answers_write(dilluvas_file *file) {
    uint64_t n = 0;
    size_t len = 0;
    uint8_t found[8];
    bool flag = false;
    dilluvas_status status;
    IS(value(file, 2, &n, found, 8, &len), DILLUVAS_WRITE);
    IS(flush(file), DILLUVAS_WRITE);
    DILLUVAS_FILE_CALL(file, status, dilluvas_size(&file->cache, &n));
    IS(status, DILLUVAS_WRITE);
    DILLUVAS_FILE_CALL(file, status, dilluvas_gc(&file->cache, &flag));
    IS(status, DILLUVAS_WRITE);
    DILLUVAS_FILE_CALL(file, status, dilluvas_was_recovered(&file->cache, &flag));
    IS(status, DILLUVAS_WRITE);
    DILLUVAS_FILE_CALL(file, status, dilluvas_pin(&file->cache));
    IS(status, DILLUVAS_WRITE);
}

static void what_was_flushed_is_there(uint32_t flushed) {
    dilluvas_file file = opened();
    uint64_t stamp = 0;
    uint32_t found = 0;
    size_t len = 0;
    dilluvas_status status = value(&file, 2, &stamp, &found, sizeof found, &len);
    if (flushed) IS(status, DILLUVAS_OK);
    IS(found == flushed || found == flushed + 1, true);
    dilluvas_file_close(&file);
}

/* Each write or sync of a run fails in turn, with all behind it or alone. */
static void each_fails_in_turn(enum kind kind) {
    long tried = 0;
    for (bool failed = true; failed; tried++) {
        dilluvas_file file = DILLUVAS_FILE_CLOSED;
        uint32_t flushed;
        bool was_open;
        unlink(path);
        all_goes_well();
        fails_at[kind] = tried / 2;
        lasting = tried % 2;
        dilluvas_status status = run(&file, &flushed, &was_open);
        failed = status != DILLUVAS_OK;
        if (failed) IS(status, DILLUVAS_WRITE);
        if (failed && was_open) every_call_answers_write(&file);
        IS(dilluvas_file_close(&file), was_open ? DILLUVAS_OK : DILLUVAS_NOT_OPEN);
        all_goes_well();
        IS(size_of(other), -1);
        what_was_flushed_is_there(flushed);
    }
    printf("%ld runs with a failing %s\n", tried, kind == WRITES ? "write" : "sync");
}

/* Each read of an opening fails in turn. */
static void each_read_of_an_opening_fails(void) {
    dilluvas_status status = DILLUVAS_READ;
    long tried = 0;
    for (; status != DILLUVAS_OK; tried++) {
        dilluvas_file file = DILLUVAS_FILE_CLOSED;
        all_goes_well();
        fails_at[READS] = tried;
        status = open_small(&file);
        if (status != DILLUVAS_OK) IS(status, DILLUVAS_READ);
        IS(dilluvas_file_close(&file), status == DILLUVAS_OK ? DILLUVAS_OK : DILLUVAS_NOT_OPEN);
    }
    all_goes_well();
    IS(tried > 3, true);
}

static void what_is_no_file_is_told(const char *folder) {
    dilluvas_file file = DILLUVAS_FILE_CLOSED, second = DILLUVAS_FILE_CLOSED;
    char absent[4200];
    IS(dilluvas_file_open(NULL, path, NULL), DILLUVAS_ARGUMENTS);
    IS(dilluvas_file_open(&file, NULL, NULL), DILLUVAS_ARGUMENTS);
    IS(dilluvas_file_open(&file, folder, NULL), DILLUVAS_NO_FILE);
    IS(dilluvas_file_open(&file, "/dev/null", NULL), DILLUVAS_NO_FILE);
    snprintf(absent, sizeof absent, "%s/absent/file", folder);
    IS(dilluvas_file_open(&file, absent, NULL), DILLUVAS_NO_ACCESS);
    snprintf(absent, sizeof absent, "%s/file", path);
    IS(dilluvas_file_open(&file, absent, NULL), DILLUVAS_NO_ACCESS);
    const dilluvas_file_settings wrong = {4096, 10, 0};
    IS(dilluvas_file_open(&file, path, &wrong), DILLUVAS_SEGMENT_ZERO);
    IS(open_small(&file), DILLUVAS_OK);
    IS(open_small(&file), DILLUVAS_ALREADY_OPEN);
    IS(open_small(&second), DILLUVAS_HELD);
    dilluvas_file_close(&file);
    IS(open_small(&second), DILLUVAS_OK);
    dilluvas_file_close(&second);
}

/* A file that another process holds, and one that another user may not write. */
static void another_process_is_told(void) {
    dilluvas_file file = opened();
    int status = 0;
    pid_t child = fork();
    if (child == 0) {
        dilluvas_file mine = DILLUVAS_FILE_CLOSED;
        _exit((int)open_small(&mine));
    }
    IS(waitpid(child, &status, 0) == child && WIFEXITED(status) ? WEXITSTATUS(status) : 0, DILLUVAS_HELD);
    dilluvas_file_close(&file);
    chmod(path, 0444);
    child = fork();
    if (child == 0) {
        dilluvas_file mine = DILLUVAS_FILE_CLOSED;
        if (geteuid() == 0 && setuid(65534) != 0) _exit(0);
        _exit((int)open_small(&mine));
    }
    IS(waitpid(child, &status, 0) == child && WIFEXITED(status) ? WEXITSTATUS(status) : 0, DILLUVAS_NO_ACCESS);
    chmod(path, 0644);
    what_was_flushed_is_there(5);
}

static void a_damaged_file_is_told(void) {
    dilluvas_file file = DILLUVAS_FILE_CLOSED;
    off_t size = size_of(path);
    put_bytes(path, "X", 1, 3);
    IS(open_small(&file), DILLUVAS_CORRUPTION);
    put_bytes(path, "C", 1, 3);
    what_was_flushed_is_there(5);
    put_bytes(path, "\377\377\377\377\377\377\377\177", 8, 9); /* the length of the first frame */
    IS(open_small(&file), DILLUVAS_CORRUPTION);
    IS(size_of(path), size);
    for (off_t len = size_of(path) / 2; len > 0; len /= 2) {
        IS(truncate(path, len), 0);
        IS(open_small(&file), DILLUVAS_CORRUPTION);
        IS(size_of(path), len);
    }
    /* one of no bytes is made anew */
    IS(truncate(path, 0), 0);
    what_was_flushed_is_there(0);
    IS(size_of(path) > 0, true);
    /* what a crash left of a file that was being made is in nobody's way */
    unlink(path);
    put_bytes(other, "torn", 4, 0);
    what_was_flushed_is_there(0);
    IS(size_of(other), -1);
}

/* The calls that a loop is made of, by hand. */
static void the_library_says_what_it_wants(void) {
    dilluvas d = DILLUVAS_CLOSED;
    dilluvas_settings settings = DILLUVAS_SETTINGS;
    dilluvas_task task = {7, 8, 9};
    uint8_t buffer[256] = {0}, file[256];
    uint64_t at = 5, n = 0;
    size_t len = 6;
    bool flag = false;
    IS(dilluvas_next_task(&d, &task, buffer, 256), DILLUVAS_NOT_OPEN);
    IS(dilluvas_needs(&d, &at, &len), DILLUVAS_NOT_OPEN);
    IS(dilluvas_hand_in(&d, 0, buffer, 1), DILLUVAS_NOT_OPEN);
    IS(dilluvas_forget(&d) + dilluvas_failed(&d), 2 * DILLUVAS_NOT_OPEN);
    IS(task.kind == 7 && task.at == 8 && task.len == 9 && at == 5 && len == 6, true);

    IS(dilluvas_open_memory(&d, &settings), DILLUVAS_OK);
    IS(dilluvas_open_file(&d, &small, 0), DILLUVAS_ALREADY_OPEN);
    IS(dilluvas_next_task(&d, &task, buffer, 256), DILLUVAS_OK);
    IS(dilluvas_needs(&d, &at, &len), DILLUVAS_OK);
    IS(task.kind == DILLUVAS_NOTHING && task.at == 0 && task.len == 0 && at == 0 && len == 0, true);
    IS(dilluvas_hand_in(&d, 0, buffer, 1) + dilluvas_forget(&d) + dilluvas_failed(&d), DILLUVAS_OK);
    IS(dilluvas_gc(&d, &flag), DILLUVAS_OK);
    IS(dilluvas_close(&d), DILLUVAS_OK);

    /* of a new file nine bytes are written, synced and then needed */
    IS(dilluvas_open_file(&d, &small, 0), DILLUVAS_NEEDS);
    IS(dilluvas_open_memory(&d, &settings), DILLUVAS_ALREADY_OPEN);
    IS(dilluvas_pin(&d), DILLUVAS_NOT_OPEN);
    IS(dilluvas_gc(&d, &flag), DILLUVAS_NOT_OPEN);
    IS(dilluvas_next_task(&d, &task, file, 4), DILLUVAS_OK);
    IS(task.kind == DILLUVAS_WRITE_BYTES && task.at == 0 && task.len == 4, true);
    IS(dilluvas_next_task(&d, &task, file + 4, 252), DILLUVAS_OK);
    IS(task.kind == DILLUVAS_WRITE_BYTES && task.at == 4 && task.len == 5, true);
    IS(dilluvas_next_task(&d, &task, buffer, 256), DILLUVAS_OK);
    IS(task.kind, DILLUVAS_SYNC);
    IS(dilluvas_next_task(&d, &task, buffer, 256), DILLUVAS_OK);
    IS(task.kind, DILLUVAS_NOTHING);
    IS(dilluvas_needs(&d, &at, &len), DILLUVAS_OK);
    IS(at == 0 && len == 9, true);
    /* nothing was handed in, so it needs the same */
    IS(dilluvas_open_file(&d, &small, 0), DILLUVAS_NEEDS);
    IS(dilluvas_hand_in(&d, 0, file, 9), DILLUVAS_OK);
    IS(dilluvas_open_file(&d, &small, 0), DILLUVAS_OK);
    IS(dilluvas_open_file(&d, &small, 0), DILLUVAS_ALREADY_OPEN);
    IS(dilluvas_gc(&d, &flag), DILLUVAS_NOT_OVER_FILE);
    IS(dilluvas_amp(&d, &n, &at), DILLUVAS_NOT_OVER_FILE);
    IS(dilluvas_failed(&d), DILLUVAS_OK);
    IS(dilluvas_next_task(&d, &task, buffer, 256), DILLUVAS_WRITE);
    IS(dilluvas_needs(&d, &at, &len), DILLUVAS_WRITE);
    IS(dilluvas_hand_in(&d, 0, file, 9), DILLUVAS_WRITE);
    IS(dilluvas_amp(&d, &n, &at), DILLUVAS_WRITE);
    IS(dilluvas_close(&d), DILLUVAS_OK);

    /* an opening that failed closes the handle */
    IS(dilluvas_open_file(&d, &small, 0), DILLUVAS_NEEDS);
    IS(dilluvas_failed(&d), DILLUVAS_OK);
    IS(dilluvas_open_file(&d, &small, 0), DILLUVAS_WRITE);
    IS(dilluvas_close(&d), DILLUVAS_NOT_OPEN);
    IS(dilluvas_open_file(&d, &small, 7), DILLUVAS_CORRUPTION);
    IS(dilluvas_close(&d), DILLUVAS_NOT_OPEN);
}

int main(int count, char **arguments) {
    if (count != 2) return 2;
    snprintf(path, sizeof path, "%s/pages", arguments[1]);
    snprintf(other, sizeof other, "%s.dilluvas-new", path);
    unlink(path);
    the_library_says_what_it_wants();
    what_was_flushed_is_found_again();
    each_read_of_an_opening_fails();
    each_page_comes_behind_a_read_that_failed();
    a_long_value_is_read_in_pieces();
    each_fails_in_turn(WRITES);
    each_fails_in_turn(SYNCS);
    what_is_no_file_is_told(arguments[1]);
    another_process_is_told();
    a_damaged_file_is_told();
    unlink(path);
    if (failures == 0) printf("calls over a file: passed\n");
    return failures != 0;
}
