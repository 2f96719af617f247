/* Rewrites a file while calls of the system fail, while a process looks at the file, and where its path leads elsewhere. Prints the line of
 * each check that fails: the status is 1 then. Linked with steps.c and failing.c. Usage: compact_failing FOLDER, in which it makes its
 * files. */
#include "steps.h"
#include <fcntl.h>
#include <stdio.h>
#include <stdlib.h>
#include <sys/stat.h>
#include <unistd.h>

/* ---- Where a call of the system fails. */

enum { PAGES = 300 };

/* A file of pages that aren't in memory, each of some messages. */
static dilluvas_file made_file(void) {
    dilluvas_file file = opened();
    char value[100];
    memset(value, 'v', sizeof value);
    for (uint64_t page = 2; page < PAGES + 2; page++) {
        allocates(&file, page, 1);
        for (uint64_t stamp = 1; stamp < 1 + page % 5; stamp++) sets(&file, page, stamp, value, sizeof value);
    }
    frees(&file, 9, 5);
    flushes(&file);
    dilluvas_file_close(&file);
    return opened();
}

static void has_pages(dilluvas_file *file, bool is_new) {
    for (uint64_t page = 2; page < PAGES + 2; page++) is_leaf(file, page, page == 9 ? -1 : 0, page % 5 > 0);
    if (is_new) IS(size_of(path) < 40000, true);
}

/* Where the folder couldn't be synced the new file is there, and every later call answers WRITE. */
static void is_stuck(dilluvas_file *file) {
    IS(compact(file), DILLUVAS_WRITE);
    DILLUVAS_FILE_CALL(file, status, dilluvas_pin(&file->cache));
    IS(status, DILLUVAS_WRITE);
    dilluvas_file_close(file);
    *file = opened();
    has_pages(file, true);
}

/* Each read, write or sync of a rewriting fails in turn, with all behind it or alone. */
static void each_fails_in_turn(enum kind kind, dilluvas_status wanted) {
    dilluvas_file file = made_file();
    size_t len;
    uint8_t *content = bytes_of(path, &len);
    long tried = 0;
    int stuck = 0;
    for (bool failed = true; failed; tried++) {
        all_goes_well();
        fails_at[kind] = tried / 2;
        lasting = tried % 2;
        dilluvas_status answer = compact(&file);
        failed = made[kind] > tried / 2;
        all_goes_well();
        IS(size_of(other), -1);
        if (answer != DILLUVAS_OK) IS(answer, wanted);
        if (has_bytes(content, len)) {
            IS(answer != DILLUVAS_OK, true);
            has_pages(&file, false);
            continue;
        }
        if (answer != DILLUVAS_OK) {
            stuck++;
            is_stuck(&file);
        }
        has_pages(&file, true);
        allocates(&file, 9, 1);
        end(&file);
        file = made_file();
    }
    IS(stuck, kind == SYNCS ? 2 : 0);
    IS(tried > 8, true);
    end(&file);
    free(content);
    printf("%ld rewritings with a failing %s\n", tried, kind == READS ? "read" : kind == WRITES ? "write" : "sync");
}

/* A damaged page is told, and no page is passed over. */
static void a_damaged_page_is_told(void) {
    dilluvas_file file = made_file();
    size_t len;
    uint8_t *content = bytes_of(path, &len);
    int descriptor = open(path, O_WRONLY);
    /* behind nine bytes, a gate's eight, and two records of 17 and 18 bytes: the head of page 2 has 17, and its payload begins so */
    off_t at = 9 + 8 + 35 + 1 + 8 + 17 + 6;
    IS(__real_pwrite(descriptor, "\7", 1, at), 1);
    IS(compact(&file), DILLUVAS_CORRUPTION);
    IS(size_of(other), -1);
    IS(__real_pwrite(descriptor, content + at, 1, at), 1);
    IS(has_bytes(content, len), true);
    IS(compact(&file), DILLUVAS_OK);
    has_pages(&file, true);
    close(descriptor);
    free(content);
    end(&file);
}

/* ---- Who else looks at the file. */

static long looks;

static int opens(void) {
    dilluvas_file mine = DILLUVAS_FILE_CLOSED;
    watch = NULL;
    return (int)dilluvas_file_open(&mine, path, &over_file);
}

static void another_process_looks(void) {
    IS(elsewhere(opens), DILLUVAS_HELD);
    looks++;
}

static void it_is_held_at_each_moment(void) {
    dilluvas_file file = opened();
    allocates(&file, 2, 1);
    looks = 0;
    watch = another_process_looks;
    IS(compact(&file), DILLUVAS_OK);
    another_process_looks();
    watch = NULL;
    IS(looks > 8, true);
    is_leaf(&file, 2, 0, 0);
    dilluvas_file_close(&file);
    file = opened();
    end(&file);
}

/* ---- Where the path leads. */

static void what_a_killed_process_left_is_made_anew(void) {
    dilluvas_file file = opened();
    allocates(&file, 2, 1);
    sets(&file, 2, 1, "v", 1);
    char left[500] = {0};
    memset(left, 'x', sizeof left - 1);
    put(other, left, 0644);
    IS(compact(&file), DILLUVAS_OK);
    IS(size_of(path), 82);
    IS(size_of(other), -1);
    /* one that was killed as it had made the file left it that name too */
    IS(link(path, other), 0);
    IS(compact(&file), DILLUVAS_OK);
    IS(size_of(path), 82);
    IS(size_of(other), -1);
    /* a link by that name leads to no other file's end */
    put("precious", "bytes", 0644);
    IS(symlink("precious", other), 0);
    IS(compact(&file), DILLUVAS_NO_ACCESS);
    IS(size_of("precious"), 5);
    IS(unlink(other) + unlink("precious"), 0);
    /* another process makes a file by that name */
    dilluvas_file made = DILLUVAS_FILE_CLOSED;
    IS(dilluvas_file_open(&made, other, &over_file), DILLUVAS_OK);
    IS(compact(&file), DILLUVAS_HELD);
    IS(size_of(other), 53);
    dilluvas_file_close(&made);
    IS(compact(&file), DILLUVAS_OK);
    is_leaf(&file, 2, 0, 1);
    end(&file);
}

/* The path is the one that the file was opened by, whatever folder the process is in, and a link to the file stays. */
static void the_path_stays(void) {
    struct stat before, after;
    char folder[PATH_MAX];
    dilluvas_file file = DILLUVAS_FILE_CLOSED;
    IS(getcwd(folder, sizeof folder) != NULL, true);
    IS(dilluvas_file_open(&file, "named", &over_file), DILLUVAS_OK);
    dilluvas_file_close(&file);
    IS(chmod("named", 0600) + symlink("named", "link"), 0);
    if (geteuid() == 0) IS(chown("named", 65534, 65534), 0);
    IS(stat("named", &before), 0);
    IS(dilluvas_file_open(&file, "link", &over_file), DILLUVAS_OK);
    IS(chdir("/"), 0);
    IS(compact(&file), DILLUVAS_OK);
    IS(chdir(folder), 0);
    IS(stat("named", &after), 0);
    IS(before.st_ino != after.st_ino, true);
    IS(before.st_mode == after.st_mode && before.st_uid == after.st_uid && before.st_gid == after.st_gid, true);
    IS(lstat("link", &after) == 0 && S_ISLNK(after.st_mode), true);
    /* where it was taken away, or another stands there, that is left alone */
    IS(rename("named", "moved"), 0);
    IS(compact(&file), DILLUVAS_NO_ACCESS);
    IS(size_of("named"), -1);
    put("named", "another's", 0644);
    IS(compact(&file), DILLUVAS_NO_ACCESS);
    IS(size_of("named") + size_of("named.dilluvas-new"), 9 - 1);
    IS(rename("moved", "named"), 0);
    IS(compact(&file), DILLUVAS_OK);
    dilluvas_file_close(&file);
    IS(unlink("named") + unlink("link"), 0);
}

/* A user who may write no file into the folder, and goes on over the old one. */
static int is_refused(void) {
    dilluvas_file mine = DILLUVAS_FILE_CLOSED;
    IS(dilluvas_file_open(&mine, "locked/pages", &over_file), DILLUVAS_OK);
    IS(chmod("locked", 0555), 0);
    if (geteuid() == 0) IS(setuid(65534), 0);
    IS(compact(&mine), DILLUVAS_NO_ACCESS);
    allocates(&mine, 2, 1);
    flushes(&mine);
    return failures;
}

static void a_folder_without_rights_is_told(void) {
    IS(mkdir("locked", 0755), 0);
    IS(elsewhere(is_refused), 0);
    IS(chmod("locked", 0755) + unlink("locked/pages") + rmdir("locked"), 0);
}

int main(int count, char **arguments) {
    if (count != 2 || !begin(arguments[1], "compact")) return 2;
    each_fails_in_turn(READS, DILLUVAS_READ);
    each_fails_in_turn(WRITES, DILLUVAS_WRITE);
    each_fails_in_turn(SYNCS, DILLUVAS_WRITE);
    a_damaged_page_is_told();
    it_is_held_at_each_moment();
    what_a_killed_process_left_is_made_anew();
    the_path_stays();
    a_folder_without_rights_is_told();
    if (failures == 0) printf("rewriting with faults: passed\n");
    return failures != 0;
}
