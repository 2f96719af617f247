/* Opens caches by paths that lead to files, to other things and to nothing, and over what stands there already. Prints the line of each
 * check that fails: the status is 1 then. Linked with --wrap=pread, --wrap=fdatasync and --wrap=fsync. Usage: paths FOLDER, in which it makes
 * its files. */
#define _DEFAULT_SOURCE
#include "dilluvas_file.h"
#include <errno.h>
#include <fcntl.h>
#include <stdio.h>
#include <stdlib.h>
#include <sys/resource.h>
#include <sys/stat.h>
#include <sys/wait.h>
#include <unistd.h>

static int failures;

static void is(int line, unsigned long long got, unsigned long long wanted) {
    if (got == wanted) return;
    printf("line %d: %llu, not %llu\n", line, got, wanted);
    failures++;
}

#define IS(got, wanted) is(__LINE__, (got), (wanted))

/* ---- The system. */

/* From this place up to that nothing can be read, and why folders and files can't be synced, unless that is 0. */
static off_t bad_from = -1, bad_to = INT64_MAX;
static int no_sync, no_file_sync;

/* Whether a byte is read that no file told to have. */
static bool has_untold;

ssize_t __real_pread(int descriptor, void *bytes, size_t len, off_t at);
int __real_fdatasync(int descriptor);
int __real_fsync(int descriptor);

ssize_t __wrap_pread(int descriptor, void *bytes, size_t len, off_t at) {
    if (has_untold) return 1;
    if (bad_from < 0 || at + (off_t)len <= bad_from || bad_to <= at) return __real_pread(descriptor, bytes, len, at);
    if (at < bad_from) return __real_pread(descriptor, bytes, (size_t)(bad_from - at), at);
    errno = EIO;
    return -1;
}

int __wrap_fdatasync(int descriptor) {
    if (!no_file_sync) return __real_fdatasync(descriptor);
    errno = no_file_sync;
    return -1;
}

int __wrap_fsync(int descriptor) {
    if (!no_sync) return __real_fsync(descriptor);
    errno = no_sync;
    return -1;
}

/* ---- The tests, in a folder that the program is in. */

static dilluvas_status opened(const char *path) {
    dilluvas_file file = DILLUVAS_FILE_CLOSED;
    dilluvas_status status = dilluvas_file_open(&file, path, NULL);
    IS(dilluvas_file_close(&file), status ? DILLUVAS_NOT_OPEN : DILLUVAS_OK);
    return status;
}

static void put(const char *path, const char *bytes, mode_t mode) {
    int descriptor = open(path, O_WRONLY | O_CREAT | O_TRUNC, mode);
    IS(write(descriptor, bytes, strlen(bytes)), strlen(bytes));
    IS(fchmod(descriptor, mode), 0);
    close(descriptor);
}

static off_t size_of(const char *path) {
    struct stat found;
    return stat(path, &found) == 0 ? found.st_size : -1;
}

static bool is_link(const char *path) {
    struct stat found;
    return lstat(path, &found) == 0 && S_ISLNK(found.st_mode);
}

static void what_is_no_file_is_not_opened(void) {
    IS(mkfifo("fifo", 0666), 0);
    IS(opened("fifo"), DILLUVAS_NO_FILE);
    IS(opened("/dev/zero"), DILLUVAS_NO_FILE);
    IS(opened("."), DILLUVAS_NO_FILE);
    IS(opened(""), DILLUVAS_NO_ACCESS);
    IS(size_of(".dilluvas-new"), -1);
    IS(symlink("loop", "loop"), 0);
    IS(opened("loop"), DILLUVAS_NO_ACCESS);
}

/* The system's own files say that they have no bytes: they aren't synced, or have some. */
static void what_only_says_that_it_is_empty_is_no_file(void) {
    static const char *const own[] = {"/proc/self/comm", "/proc/self/oom_score_adj"};
    for (int i = 0; i < 2; i++) {
        if (access(own[i], R_OK | W_OK) == 0) IS(opened(own[i]), DILLUVAS_NO_FILE);
    }
    put("untold", "", 0600);
    no_file_sync = EINVAL;
    IS(opened("untold"), DILLUVAS_NO_FILE);
    no_file_sync = EIO;
    IS(opened("untold"), DILLUVAS_WRITE);
    no_file_sync = 0;
    has_untold = true;
    IS(opened("untold"), DILLUVAS_NO_FILE);
    has_untold = false;
    bad_from = 0;
    IS(opened("untold"), DILLUVAS_READ);
    bad_from = -1;
    IS(size_of("untold"), 0);
    IS(opened("untold"), DILLUVAS_OK);
}

static void links_stay(void) {
    IS(symlink("nothing", "to nothing"), 0);
    IS(opened("to nothing"), DILLUVAS_NO_ACCESS);
    IS(is_link("to nothing"), true);
    IS(size_of("nothing"), -1);
    put("empty", "", 0600);
    IS(symlink("empty", "to empty"), 0);
    IS(opened("to empty"), DILLUVAS_OK);
    IS(is_link("to empty"), true);
    IS(size_of("empty") > 9, true);
    dilluvas_file file = DILLUVAS_FILE_CLOSED;
    IS(dilluvas_file_open(&file, "empty", NULL), DILLUVAS_OK);
    IS(opened("to empty"), DILLUVAS_HELD);
    dilluvas_file_close(&file);
}

static void an_empty_file_keeps_its_mode(void) {
    struct stat before, after;
    put("private", "", 0600);
    if (geteuid() == 0) IS(chown("private", 65534, 65534), 0);
    IS(stat("private", &before), 0);
    IS(opened("private"), DILLUVAS_OK);
    IS(stat("private", &after), 0);
    IS(before.st_mode == after.st_mode && before.st_uid == after.st_uid && before.st_gid == after.st_gid, true);
}

/* A link by the name that a file has while it is made leads to no other file's end. */
static void no_other_file_is_written(void) {
    put("precious", "bytes", 0644);
    IS(symlink("precious", "made.dilluvas-new"), 0);
    IS(opened("made"), DILLUVAS_NO_ACCESS);
    IS(size_of("precious"), 5);
    IS(unlink("made.dilluvas-new"), 0);
    put("made.dilluvas-new", "left by one that was killed", 0644);
    IS(opened("made"), DILLUVAS_OK);
    IS(size_of("made.dilluvas-new"), -1);
}

/* One that was killed may have left the other name to a file that it had made. It loses that name alone. */
static void a_file_of_two_names_stays(void) {
    struct stat moved, made;
    IS(rename("made", "moved") + link("moved", "made.dilluvas-new"), 0);
    IS(opened("made"), DILLUVAS_OK);
    IS(stat("moved", &moved) + stat("made", &made), 0);
    IS(moved.st_ino != made.st_ino && moved.st_size == made.st_size, true);
    IS(size_of("made.dilluvas-new"), -1);
    /* so does an empty one, which isn't made by that name, whether the path leads there or not */
    put("third", "", 0644);
    IS(link("third", "made too.dilluvas-new"), 0);
    IS(opened("made too"), DILLUVAS_OK);
    IS(size_of("third"), 0);
    IS(link("third", "third.dilluvas-new"), 0);
    IS(opened("third"), DILLUVAS_OK);
    IS(size_of("third.dilluvas-new"), -1);
}

/* A file that is all zeros is closed too, and its descriptor isn't the standard input. */
static void zeros_are_closed(void) {
    dilluvas_file file;
    memset(&file, 0, sizeof file);
    IS(dilluvas_file_open(&file, "absent/file", NULL), DILLUVAS_NO_ACCESS);
    IS(fcntl(STDIN_FILENO, F_GETFD) >= 0, true);
}

/* Whoever made a file may have ended before its name was durable. */
static void a_name_is_synced(void) {
    no_sync = EIO;
    IS(opened("named"), DILLUVAS_WRITE);
    IS(opened("named"), DILLUVAS_WRITE);
    /* a system that syncs no folder */
    no_sync = EINVAL;
    IS(opened("named"), DILLUVAS_OK);
    IS(opened("named too"), DILLUVAS_OK);
    no_sync = 0;
    IS(opened("named"), DILLUVAS_OK);
    /* the folder can't be opened, since the file took the last descriptor */
    struct rlimit limit;
    IS(getrlimit(RLIMIT_NOFILE, &limit), 0);
    rlim_t before = limit.rlim_cur;
    int next = dup(STDOUT_FILENO);
    close(next);
    limit.rlim_cur = (rlim_t)next + 1;
    IS(setrlimit(RLIMIT_NOFILE, &limit), 0);
    IS(opened("named"), DILLUVAS_WRITE);
    limit.rlim_cur = before;
    IS(setrlimit(RLIMIT_NOFILE, &limit), 0);
}

/* Nobody syncs a folder that may not be read. */
static void a_folder_without_rights_is_not_synced(void) {
    int status = 1;
    fflush(stdout);
    IS(mkdir("unread", 0777), 0);
    if (geteuid() == 0) IS(chown("unread", 65534, 65534), 0);
    pid_t child = fork();
    if (child == 0) {
        if (geteuid() == 0 && setuid(65534) != 0) _exit(0);
        IS(opened("unread/file"), DILLUVAS_OK);
        IS(chmod("unread", 0333), 0);
        IS(opened("unread/file"), DILLUVAS_OK);
        IS(opened("unread/absent"), DILLUVAS_NO_ACCESS);
        fflush(stdout);
        _exit(failures);
    }
    IS(waitpid(child, &status, 0) == child && WIFEXITED(status) && WEXITSTATUS(status) == 0, true);
}

/* What stands near the bytes that are needed may be unreadable. */
static void a_bad_block_harms_its_pages_alone(void) {
    dilluvas_file file = DILLUVAS_FILE_CLOSED;
    dilluvas_status status;
    uint64_t pages[2], stamp;
    uint8_t pairs[3000], value[3000];
    dilluvas_found found;
    memset(value, 'v', sizeof value);
    IS(dilluvas_file_open(&file, "blocks", NULL), DILLUVAS_OK);
    for (int i = 0; i < 2; i++) {
        size_t end = dilluvas_put(pairs, sizeof pairs, 0, "k", 1, value, i ? 2900 : 1);
        DILLUVAS_FILE_CALL(&file, status, dilluvas_allocate(&file.cache, pairs, end, &pages[i], &stamp));
        IS(status, DILLUVAS_OK);
    }
    size_t written;
    DILLUVAS_FILE_CALL(&file, status, dilluvas_flush(&file.cache, &written));
    IS(status, DILLUVAS_OK);
    dilluvas_file_close(&file);
    IS(dilluvas_file_open(&file, "blocks", NULL), DILLUVAS_OK);
    bad_from = size_of("blocks") - 1000;
    for (int i = 0; i < 2; i++) {
        DILLUVAS_FILE_CALL(&file, status, dilluvas_get(&file.cache, pages[i], &found, pairs, sizeof pairs));
        IS(status, i ? DILLUVAS_READ : DILLUVAS_OK);
    }
    bad_from = -1;
    DILLUVAS_FILE_CALL(&file, status, dilluvas_get(&file.cache, pages[1], &found, pairs, sizeof pairs));
    IS(status, DILLUVAS_OK);
    dilluvas_file_close(&file);
}

/* What lies between the pages that are read to be rewritten may be unreadable, where no page needs it. */
static void a_bad_block_that_no_page_needs_is_passed_over(void) {
    dilluvas_file file = DILLUVAS_FILE_CLOSED;
    dilluvas_status status;
    uint64_t pages[2], stamps[2];
    uint8_t pairs[3000], value[3000];
    size_t written;
    dilluvas_found found;
    memset(value, 'v', sizeof value);
    IS(dilluvas_file_open(&file, "passed", NULL), DILLUVAS_OK);
    for (int i = 0; i < 2; i++) {
        size_t end = dilluvas_put(pairs, sizeof pairs, 0, "k", 1, value, i ? 1 : 2900);
        DILLUVAS_FILE_CALL(&file, status, dilluvas_allocate(&file.cache, pairs, end, &pages[i], &stamps[i]));
        IS(status, DILLUVAS_OK);
    }
    DILLUVAS_FILE_CALL(&file, status, dilluvas_free(&file.cache, pages[0], &stamps[0]));
    DILLUVAS_FILE_CALL(&file, status, dilluvas_flush(&file.cache, &written));
    dilluvas_file_close(&file);
    IS(dilluvas_file_open(&file, "passed", NULL), DILLUVAS_OK);
    bad_from = 1000;
    bad_to = 2000;
    IS(dilluvas_file_compact(&file), DILLUVAS_OK);
    bad_from = -1;
    bad_to = INT64_MAX;
    DILLUVAS_FILE_CALL(&file, status, dilluvas_get(&file.cache, pages[1], &found, pairs, sizeof pairs));
    IS(status == DILLUVAS_OK && found.count == 1, true);
    dilluvas_file_close(&file);
}

int main(int count, char **arguments) {
    if (count != 2 || chdir(arguments[1]) != 0 || mkdir("paths", 0755) != 0 || chdir("paths") != 0) return 2;
    what_is_no_file_is_not_opened();
    what_only_says_that_it_is_empty_is_no_file();
    links_stay();
    an_empty_file_keeps_its_mode();
    no_other_file_is_written();
    a_file_of_two_names_stays();
    zeros_are_closed();
    a_name_is_synced();
    a_folder_without_rights_is_not_synced();
    a_bad_block_harms_its_pages_alone();
    a_bad_block_that_no_page_needs_is_passed_over();
    if (failures == 0) printf("paths: passed\n");
    return failures != 0;
}
