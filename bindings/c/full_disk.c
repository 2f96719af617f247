/* A file on a disk that gets full: what doesn't fit is refused before it is begun, and all else goes on. Prints the line of each check that
 * fails: the status is 1 then. The disk is a file system in memory, which only root may mount; where it can't be mounted, that is said, and
 * nothing is looked at. Linked with steps.c and failing.c. Usage: full_disk FOLDER, in which it makes its disks. */
#include "steps.h"
#include <errno.h>
#include <fcntl.h>
#include <stdio.h>
#include <stdlib.h>
#include <sys/mount.h>
#include <sys/resource.h>
#include <sys/stat.h>
#include <sys/statvfs.h>
#include <sys/wait.h>
#include <unistd.h>

enum { VALUE = 400 };

static char folder[PATH_MAX - 20], disk[PATH_MAX - 10], elsewhere_at[PATH_MAX];

/* Begins with a disk of so many kilobytes. */
static bool mounted(unsigned kilobytes) {
    char options[40];
    snprintf(options, sizeof options, "size=%uk", kilobytes);
    return mount("none", disk, "tmpfs", 0, options) == 0 && begin(disk, "pages");
}

static void set_size(unsigned kilobytes) {
    char options[40];
    snprintf(options, sizeof options, "size=%uk", kilobytes);
    IS(mount("none", disk, "tmpfs", MS_REMOUNT, options), 0);
}

static void unmounted(void) {
    IS(chdir(folder), 0);
    IS(umount(disk), 0);
}

static dilluvas_status set(dilluvas_file *file, unsigned key, unsigned number) {
    uint8_t name[2] = {(uint8_t)(key >> 8), (uint8_t)key}, value[VALUE];
    bool had;
    memset(value, (int)(key + number) & 255, sizeof value);
    DILLUVAS_FILE_CHANGE(file, status, sizeof name + sizeof value,
                         dilluvas_map_set(&file->cache, TEXT("m"), name, sizeof name, value, sizeof value, &had));
    return status;
}

/* Sets key by key until one is refused: how many there are then. */
static unsigned fill(dilluvas_file *file, unsigned key) {
    while (key < 60000 && set(file, key, 0) == DILLUVAS_OK) {
        if (key++ % 64 == 0) IS(dilluvas_file_flush(file, NULL), DILLUVAS_OK);
    }
    IS(status, DILLUVAS_DISK_FULL);
    return key;
}

static void check(dilluvas_file *file, unsigned keys, unsigned number) {
    uint8_t wanted[VALUE], found[VALUE];
    size_t needed;
    for (unsigned key = 0; key < keys; key++) {
        const uint8_t name[2] = {(uint8_t)(key >> 8), (uint8_t)key};
        memset(wanted, (int)(key + number) & 255, sizeof wanted);
        CALL(dilluvas_map_get(&file->cache, TEXT("m"), name, sizeof name, found, sizeof found, &needed));
        IS(needed == sizeof found && memcmp(wanted, found, sizeof found) == 0, true);
    }
    const uint8_t next[2] = {(uint8_t)(keys >> 8), (uint8_t)keys};
    DILLUVAS_FILE_CALL(file, status, dilluvas_map_get(&file->cache, TEXT("m"), next, sizeof next, found, sizeof found, &needed));
    IS(status, DILLUVAS_NONE);
}

/* How many keys there are. */
static unsigned count(dilluvas_file *file) {
    uint8_t from[64], rest[64];
    dilluvas_piece piece = {0, 0, 0, true};
    size_t keys = 0;
    while (piece.more && failures == 0) {
        memcpy(from, rest, piece.rest_len);
        CALL(dilluvas_map_count(&file->cache, TEXT("m"), DILLUVAS_INCLUDED, from, piece.rest_len, DILLUVAS_UNBOUNDED, NULL, 0, rest,
                                sizeof rest, &piece));
        keys += piece.count;
    }
    return (unsigned)keys;
}

/* What a process that is killed now leaves, on another disk. */
static void copy_elsewhere(void) {
    size_t len;
    uint8_t *bytes = bytes_of(path, &len);
    int copy = open(elsewhere_at, O_WRONLY | O_CREAT | O_TRUNC, 0666);
    IS(write(copy, bytes, len), len);
    close(copy);
    free(bytes);
}

static void check_elsewhere(unsigned keys) {
    dilluvas_file file = DILLUVAS_FILE_CLOSED;
    IS(dilluvas_file_open(&file, elsewhere_at, &over_file), DILLUVAS_OK);
    check(&file, keys, 0);
    dilluvas_file_close(&file);
}

static void reads_and_flushes_go_on(void) {
    dilluvas_file used = opened(), *file = &used;
    unsigned keys = fill(file, 0);
    IS(keys > 500, true);
    for (unsigned i = 0; i < 3; i++) {
        check(file, keys, 0);
        IS(fill(file, keys), keys);
        IS(dilluvas_file_flush(file, NULL), DILLUVAS_OK);
    }
    bool had;
    DILLUVAS_FILE_CHANGE(file, status, 0, dilluvas_pin(&file->cache));
    IS(status, DILLUVAS_DISK_FULL);
    DILLUVAS_FILE_CHANGE(file, status, DILLUVAS_WHOLE_MAP, dilluvas_map_drop(&file->cache, TEXT("m"), &had));
    IS(status, DILLUVAS_DISK_FULL);
    copy_elsewhere();
    check_elsewhere(keys);

    set_size(4096);
    unsigned more = keys + 100;
    for (unsigned key = keys; key < more; key++) IS(set(file, key, 0), DILLUVAS_OK);
    IS(dilluvas_file_flush(file, NULL), DILLUVAS_OK);
    check(file, more, 0);
    IS(compact(file), DILLUVAS_OK);
    check(file, more, 0);
    IS(dilluvas_file_close(file), DILLUVAS_OK);
    used = opened();
    check(file, more, 0);
    DILLUVAS_FILE_CHANGE(file, status, DILLUVAS_WHOLE_MAP, dilluvas_map_drop(&file->cache, TEXT("m"), &had));
    IS(status, DILLUVAS_OK);
    check(file, 0, 0);
    end(file);
}

/* A disk that is full of what is needless has room behind a rewriting, again and again. */
static void a_rewriting_gives_room(void) {
    dilluvas_file used = opened(), *file = &used;
    enum { KEYS = 50 };
    unsigned rewritten = 0;
    for (unsigned number = 0; number < 300; number++) {
        for (unsigned key = 0; key < KEYS; key++) {
            if (set(file, key, number) == DILLUVAS_OK) continue;
            IS(status, DILLUVAS_DISK_FULL);
            IS(compact(file), DILLUVAS_OK);
            IS(set(file, key, number), DILLUVAS_OK);
            rewritten++;
        }
        if (number % 3 == 0) IS(dilluvas_file_flush(file, NULL), DILLUVAS_OK);
    }
    IS(rewritten >= 5, true);
    check(file, KEYS, 299);
    IS(dilluvas_file_flush(file, NULL), DILLUVAS_OK);
    dilluvas_file_close(file);
    used = opened();
    check(file, KEYS, 299);
    end(file);
}

/* One that has no room leaves all as it was. */
static void a_rewriting_without_room_is_refused(void) {
    dilluvas_file used = opened(), *file = &used;
    unsigned keys = fill(file, 0);
    for (unsigned i = 0; i < 3; i++) {
        IS(compact(file), DILLUVAS_DISK_FULL);
        IS(size_of(other), -1);
        check(file, keys, 0);
    }
    /* what was pending is durable */
    copy_elsewhere();
    check_elsewhere(keys);
    set_size(4096);
    IS(compact(file), DILLUVAS_OK);
    IS(set(file, keys, 0), DILLUVAS_OK);
    check(file, keys + 1, 0);
    end(file);
}

/* Fills the disk by a file of another program. */
static void fill_by_another(void) {
    static const uint8_t zeros[4096];
    int filler = open("other", O_WRONLY | O_CREAT | O_APPEND, 0666);
    while (write(filler, zeros, sizeof zeros) > 0) continue;
    IS(errno, ENOSPC);
    close(filler);
}

static void what_others_take_and_give_back_counts(void) {
    dilluvas_file used = opened(), *file = &used;
    unsigned keys = 0;
    for (; keys < 100; keys++) IS(set(file, keys, 0), DILLUVAS_OK);
    fill_by_another();
    /* there is room for what is pending, and for some more */
    keys = fill(file, keys);
    IS(dilluvas_file_close(file), DILLUVAS_OK);
    fill_by_another();
    used = opened();
    unsigned left = count(file);
    IS(left <= keys && left > keys - 64, true);
    check(file, left, 0);
    unlink("other");
    keys = left;
    unsigned more = fill(file, keys);
    IS(more > keys + 200, true);
    IS(dilluvas_file_flush(file, NULL), DILLUVAS_OK);
    check(file, more, 0);
    end(file);
}

/* No file is made where there is no room for one. */
static void none_is_made_without_room(void) {
    dilluvas_file file = DILLUVAS_FILE_CLOSED;
    fill_by_another();
    IS(dilluvas_file_open(&file, path, &over_file), DILLUVAS_DISK_FULL);
    IS(size_of(path), -1);
    IS(size_of(other), -1);
    unlink("other");
    file = opened();
    end(&file);
}

static void the_room_behind_the_end_goes_back(void) {
    struct stat found;
    dilluvas_file used = opened(), *file = &used;
    IS(set(file, 0, 0), DILLUVAS_OK);
    IS(stat(path, &found), 0);
    IS(found.st_blocks * 512 > 65536, true);
    IS(dilluvas_file_flush(file, NULL), DILLUVAS_OK);
    dilluvas_file_close(file);
    IS(stat(path, &found), 0);
    IS(found.st_blocks * 512 <= 8192, true);
    used = opened();
    check(file, 1, 0);
    end(file);
}

/* What a child that was forked answers, or 255 where it was killed. */
static int in_child(int (*call)(dilluvas_file *), dilluvas_file *file) {
    int ended;
    fflush(stdout);
    pid_t child = fork();
    if (child == 0) _exit(call(file));
    IS(waitpid(child, &ended, 0), child);
    return WIFEXITED(ended) ? WEXITSTATUS(ended) : 255;
}

static int changes_and_flushes(dilluvas_file *file) {
    if (set(file, 1, 0) != DILLUVAS_OK) return 1;
    int answer = (int)dilluvas_file_flush(file, NULL);
    dilluvas_file_close(file);
    return answer;
}

/* A limit of the length of files raises no signal where room is kept behind it: a write tells it. */
static int is_limited(dilluvas_file *file) {
    const struct rlimit limit = {20000, RLIM_INFINITY};
    dilluvas_file own = DILLUVAS_FILE_CLOSED;
    dilluvas_file_close(file);
    if (setrlimit(RLIMIT_FSIZE, &limit) != 0 || dilluvas_file_open(&own, elsewhere_at, NULL) != DILLUVAS_OK) return 1;
    for (unsigned key = 0; key < 100; key++) {
        if (set(&own, key, 0) != DILLUVAS_OK) return 2;
    }
    int answer = (int)dilluvas_file_flush(&own, NULL);
    dilluvas_file_close(&own);
    return answer;
}

static void children_keep_no_room(void) {
    struct stat before, behind;
    dilluvas_file used = opened(), *file = &used;
    IS(set(file, 0, 0), DILLUVAS_OK);
    IS(stat(path, &before), 0);
    IS(in_child(changes_and_flushes, file), DILLUVAS_WRITE);
    IS(stat(path, &behind), 0);
    IS(before.st_blocks == behind.st_blocks && before.st_size == behind.st_size, true);
    IS(dilluvas_file_flush(file, NULL), DILLUVAS_OK);
    check(file, 1, 0);
    snprintf(elsewhere_at, sizeof elsewhere_at, "%s/limited", disk);
    IS(in_child(is_limited, file), DILLUVAS_WRITE);
    snprintf(elsewhere_at, sizeof elsewhere_at, "%s/elsewhere", folder);
    end(file);
}

static void arguments_are_tested(void) {
    dilluvas_file closed = DILLUVAS_FILE_CLOSED;
    uint8_t text[100];
    size_t needed;
    IS(dilluvas_file_keep_room(NULL, 0), DILLUVAS_ARGUMENTS);
    IS(dilluvas_file_keep_room(&closed, 0), DILLUVAS_NOT_OPEN);
    IS(dilluvas_text(DILLUVAS_DISK_FULL, text, sizeof text, &needed), DILLUVAS_OK);
    IS(memcmp(text, "the disk has no room", 20), 0);
}

/* ---- A file that is rewritten step by step. */

enum { MANY = 1500 };

static void set_all(dilluvas_file *file, unsigned number, const dilluvas_compact_at *when) {
    for (unsigned key = 0; key < MANY; key++) IS(set(file, key, number), DILLUVAS_OK);
    IS(dilluvas_file_flush(file, when), DILLUVAS_OK);
}

static uint64_t free_bytes(void) {
    struct statvfs found;
    IS(statvfs(disk, &found), 0);
    return (uint64_t)found.f_bavail * found.f_frsize;
}

/* A rewriting that has copied some of the pages as the disk gets full. */
static void begin_rewriting(dilluvas_file *file) {
    const dilluvas_compact_at when = {2, 0, UINT64_MAX, 100000};
    struct stat found;
    set_size(20480);
    for (unsigned number = 0; !file->next && number < 30; number++) set_all(file, 1, &when);
    do {
        IS(dilluvas_file_flush(file, &when), DILLUVAS_OK);
    } while (file->next && stat(other, &found) == 0 && found.st_blocks * 512 < 300000);
    IS(file->next != NULL, true);
    fill_by_another();
}

/* It has room again, and is rewritten then. */
static void goes_on_with_room(dilluvas_file *file) {
    const dilluvas_compact_at when = {2, 0, UINT64_MAX, UINT64_MAX};
    check(file, MANY, 1);
    IS(dilluvas_file_flush(file, &when), DILLUVAS_OK);
    unlink("other");
    off_t before = size_of(path);
    unsigned number = 2;
    for (; number < 20 && size_of(path) >= before; number++) set_all(file, number, &when);
    IS(size_of(path) < before, true);
    IS(dilluvas_file_rewriting_failure(file), DILLUVAS_OK);
    check(file, MANY, number - 1);
    IS(dilluvas_file_close(file), DILLUVAS_OK);
    *file = opened();
    check(file, MANY, number - 1);
    end(file);
}

/* Changes use the room of the new file, and are refused once there is none. */
static void changes_end_a_rewriting(void) {
    dilluvas_file used = opened(), *file = &used;
    begin_rewriting(file);
    unsigned changed = 0;
    while (changed < 10000 && set(file, changed % MANY, 1) == DILLUVAS_OK) changed++;
    IS(status, DILLUVAS_DISK_FULL);
    IS(changed > 200, true);
    IS(file->next == NULL && size_of(other) == -1, true);
    IS(dilluvas_file_rewriting_failure(file), DILLUVAS_DISK_FULL);
    IS(free_bytes() < 150000, true);
    goes_on_with_room(file);
}

/* A step that has no room ends the rewriting, and the flush succeeds. */
static void steps_end_without_room(void) {
    const dilluvas_compact_at when = {2, 0, UINT64_MAX, 100000};
    dilluvas_file used = opened(), *file = &used;
    begin_rewriting(file);
    for (unsigned i = 0; file->next && i < 100; i++) IS(dilluvas_file_flush(file, &when), DILLUVAS_OK);
    IS(file->next == NULL && size_of(other) == -1, true);
    IS(dilluvas_file_rewriting_failure(file), DILLUVAS_DISK_FULL);
    IS(set(file, 0, 1), DILLUVAS_OK);
    goes_on_with_room(file);
}

/* None is begun on a disk that may get full by it. */
static void none_is_begun_without_room(void) {
    const dilluvas_compact_at when = {2, 0, UINT64_MAX, 100000};
    dilluvas_file used = opened(), *file = &used;
    set_size(9216);
    for (unsigned number = 0; number < 3; number++) {
        set_all(file, number, &when);
        IS(file->next == NULL && size_of(other) == -1, true);
        IS(dilluvas_file_rewriting_failure(file), DILLUVAS_DISK_FULL);
    }
    check(file, MANY, 2);
    end(file);
}

static void (*const tests[])(void) = {
    reads_and_flushes_go_on, a_rewriting_gives_room, a_rewriting_without_room_is_refused, what_others_take_and_give_back_counts,
    none_is_made_without_room, the_room_behind_the_end_goes_back, children_keep_no_room,
    changes_end_a_rewriting, steps_end_without_room, none_is_begun_without_room,
};

int main(int count, char **arguments) {
    if (count != 2 || !realpath(arguments[1], folder)) return 2;
    snprintf(disk, sizeof disk, "%s/disk", folder);
    snprintf(elsewhere_at, sizeof elsewhere_at, "%s/elsewhere", folder);
    arguments_are_tested();
    if (mkdir(disk, 0777) != 0 && errno != EEXIST) return 2;
    for (size_t i = 0; i < sizeof tests / sizeof *tests; i++) {
        if (!mounted(1024)) {
            printf("full disk: no file system can be mounted: nothing is looked at\n");
            break;
        }
        tests[i]();
        unmounted();
    }
    rmdir(disk);
    unlink(elsewhere_at);
    if (failures == 0) printf("full disk: passed\n");
    return failures != 0;
}
