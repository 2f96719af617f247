/* Other processes at the files of a store that dilluvas_file_flush rewrites step by step: one that opens it, a forked one, and one that was
 * killed and left a new file. Prints the line of each check that fails: the status is 1 then. Linked with steps.c, stepping.c and failing.c. Usage:
 * space_processes FOLDER, in which it makes its files. */
#include "stepping.h"
#include <signal.h>
#include <stdio.h>
#include <stdlib.h>
#include <sys/resource.h>
#include <sys/stat.h>
#include <sys/wait.h>
#include <unistd.h>

/* ---- Another one. */

static long looks;

static int opens_file(void) {
    dilluvas_file mine = DILLUVAS_FILE_CLOSED;
    watch = NULL;
    return (int)dilluvas_file_open(&mine, path, &over_file);
}

static int opens_new_one(void) {
    dilluvas_file mine = DILLUVAS_FILE_CLOSED;
    watch = NULL;
    return (int)dilluvas_file_open(&mine, other, &over_file);
}

/* Before and after each call of the system. */
static void another_process_looks(void) {
    IS(elsewhere(opens_file), DILLUVAS_HELD);
    if (size_of(other) >= 0) IS(elsewhere(opens_new_one), DILLUVAS_HELD);
    looks++;
}

static void it_is_held_at_each_moment(void) {
    dilluvas_file file = begun();
    looks = 0;
    watch = another_process_looks;
    IS(ends_anew(&file), true);
    another_process_looks();
    watch = NULL;
    IS(looks > 20, true);
    goes_on(&file);
}

/* ---- A killed one. */

static void what_one_left_is_removed_at_opening(void) {
    dilluvas_file file = begun(), made = DILLUVAS_FILE_CLOSED;
    IS(dilluvas_file_close(&file), DILLUVAS_OK);
    put(other, "left", 0644);
    file = opened();
    IS(file_at(other), 0);
    IS(dilluvas_file_close(&file), DILLUVAS_OK);
    /* by a second name the file itself, and a file that has a third name */
    IS(link(path, other), 0);
    file = opened();
    IS(file_at(other), 0);
    has_all(&file);
    IS(dilluvas_file_close(&file), DILLUVAS_OK);
    put("precious", "bytes", 0644);
    IS(link("precious", other), 0);
    file = opened();
    IS(file_at(other), 0);
    IS(size_of("precious"), 5);
    IS(dilluvas_file_close(&file), DILLUVAS_OK);
    /* one that is locked, what is no file, and a link stay */
    IS(dilluvas_file_open(&made, other, &over_file), DILLUVAS_OK);
    ino_t present = file_at(other);
    file = opened();
    IS(file_at(other), present);
    IS(dilluvas_file_close(&file), DILLUVAS_OK);
    IS(dilluvas_file_close(&made), DILLUVAS_OK);
    IS(unlink(other), 0);
    IS(mkdir(other, 0755), 0);
    file = opened();
    IS(rmdir(other), 0);
    IS(dilluvas_file_close(&file), DILLUVAS_OK);
    IS(symlink("precious", other), 0);
    file = opened();
    IS(size_of(other), 5);
    IS(unlink(other) + unlink("precious"), 0);
    goes_on(&file);
}

/* Leaves the new file, since the process is killed. */
static int begins(void) {
    dilluvas_file file = begun();
    return file.next == NULL;
}

static void one_is_killed_in_a_rewriting(void) {
    IS(elsewhere(begins), 0);
    IS(size_of(other) > 0, true);
    dilluvas_file file = opened();
    IS(file_at(other), 0);
    set_all(&file);
    goes_on(&file);
}

/* ---- A forked one. */

/* A step copies a page. */
static const dilluvas_compact_at page_by_page = {2, 0, UINT64_MAX, 1};

static void flushes_nothing(dilluvas_file *file) {
    IS(dilluvas_file_flush(file, &page_by_page), DILLUVAS_OK);
    IS(dilluvas_file_rewriting_failure(file), DILLUVAS_OK);
}

static void flushes_a_change(dilluvas_file *file) {
    uint8_t key[1] = {0};
    bool had;
    DILLUVAS_FILE_CHANGE(file, status, 3, dilluvas_map_set(&file->cache, TEXT("m"), key, 1, key, 1, &had));
    IS(dilluvas_file_flush(file, &slowly) != DILLUVAS_OK, true);
}

static void compacts(dilluvas_file *file) {
    IS(compact(file), DILLUVAS_WRITE);
}

static void closes(dilluvas_file *file) {
    IS(dilluvas_file_close(file), DILLUVAS_OK);
}

static void (*const in_child[])(dilluvas_file *) = {flushes_nothing, flushes_a_change, compacts, closes};

static bool new_file_has(const uint8_t *bytes, size_t len) {
    size_t found;
    uint8_t *there = bytes_of(other, &found);
    bool is_so = found == len && memcmp(bytes, there, len) == 0;
    free(there);
    return is_so;
}

/* A file whose pages are being copied. */
static dilluvas_file begun_to_copy(void) {
    dilluvas_file file = begun();
    size_t len;
    uint8_t *bytes = bytes_of(other, &len);
    for (unsigned taken = 0; taken < MOST_STEPS && new_file_has(bytes, len); taken++) IS(dilluvas_file_flush(&file, &slowly), DILLUVAS_OK);
    IS(file.next != NULL, true);
    free(bytes);
    return file;
}

/* The parent's file, and what a child does to it. */
static dilluvas_file parents;
static unsigned way;

static int uses_the_copy(void) {
    failures = 0;
    in_child[way / 2](&parents);
    if (way % 2 && parents.buffer) closes(&parents);
    return failures;
}

/* A child that flushes, compacts, closes or ends changes nothing of either file. */
static void it_forks(void) {
    enum { WAYS = sizeof in_child / sizeof *in_child };
    parents = begun_to_copy();
    for (way = 0; way < 2 * WAYS; way++) {
        size_t len;
        uint8_t *bytes = bytes_of(other, &len);
        IS(elsewhere(uses_the_copy), 0);
        IS(elsewhere(opens_file), DILLUVAS_HELD);
        IS(elsewhere(opens_new_one), DILLUVAS_HELD);
        IS(new_file_has(bytes, len), true);
        free(bytes);
    }
    IS(ends_anew(&parents), true);
    goes_on(&parents);
}

/* A child that goes on keeps no file locked that its parent has closed. */
static void a_child_goes_on(void) {
    for (int is_ended = 0; is_ended < 2; is_ended++) {
        dilluvas_file file = begun(), again = DILLUVAS_FILE_CLOSED;
        pid_t child = fork();
        if (child == 0) {
            pause();
            _exit(0);
        }
        if (is_ended) IS(ends_anew(&file), true);
        IS(dilluvas_file_close(&file), DILLUVAS_OK);
        IS(dilluvas_file_open(&again, path, &over_file), DILLUVAS_OK);
        goes_on(&again);
        kill(child, SIGKILL);
        IS(waitpid(child, NULL, 0), child);
    }
}

/* ---- A limit. */

static void limit_files(rlim_t bytes) {
    const struct rlimit limit = {bytes, RLIM_INFINITY};
    IS(setrlimit(RLIMIT_FSIZE, &limit), 0);
}

/* A limit of the length of files ends a rewriting, and raises no signal. */
static int is_limited(void) {
    dilluvas_file file = begun();
    limit_files(4000);
    IS(ends_anew(&file), false);
    IS(size_of(other), -1);
    IS(dilluvas_file_rewriting_failure(&file), DILLUVAS_WRITE);
    has_all(&file);
    /* one isn't begun that couldn't be ended */
    off_t before = size_of(path);
    limit_files(1000000);
    while (size_of(path) < 3 * before) {
        set_all(&file);
        IS(dilluvas_file_flush(&file, &slowly), DILLUVAS_OK);
        IS(file.next == NULL, true);
        IS(size_of(other), -1);
    }
    has_all(&file);
    IS(dilluvas_file_rewriting_failure(&file), DILLUVAS_WRITE);
    limit_files(RLIM_INFINITY);
    goes_on(&file);
    return failures;
}

int main(int count, char **arguments) {
    if (count != 2 || !begin(arguments[1], "space_processes")) return 2;
    it_is_held_at_each_moment();
    what_one_left_is_removed_at_opening();
    one_is_killed_in_a_rewriting();
    it_forks();
    a_child_goes_on();
    IS(elsewhere(is_limited), 0);
    unlink(path);
    if (failures == 0) printf("space with processes: passed\n");
    return failures != 0;
}
