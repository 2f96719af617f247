#ifndef _GNU_SOURCE
#define _GNU_SOURCE /* fallocate, beside what POSIX has */
#endif
#include "dilluvas_file.h"
#include "dilluvas_rewriting.h"
#include <errno.h>
#include <fcntl.h>
#include <limits.h>
#include <stdio.h>
#include <stdlib.h>
#include <sys/file.h>
#include <sys/resource.h>
#include <sys/stat.h>
#include <unistd.h>

enum {
    ROOM = 65536,      /* bytes of the buffer */
    LEAST_READ = 4096, /* so many are read at least: what a page's later messages need often stands near */
    LEAST_PART = 4194304, /* so many bytes of the file are read together first as it is rewritten */
    FEW_READS = 64,    /* so often one call is handed in what it needs; behind that ever more is read together */
    PAIRS_OF_A_LEAF = 40, /* so often what a change is given may be written: with it the leaf where it lies */
    LEAST_ROOM = 65536, /* bytes that are kept for what else a change writes */
    LEAST_STEP = 65536, /* room is kept in steps of an eighth of the file, within these */
    MOST_STEP = 4194304,
    MOST_TRIES = 100,  /* so often is begun anew where another file took the place meanwhile */
    OFFSETS_HAVE_64_BITS = 1 / (sizeof(off_t) >= 8)
};

/* ---- Reading and writing. */

/* Whether this process opened the file. One that was forked since has a copy of the cache, while the file and its lock are one for both: were
 * it to write there, neither cache would be what the file holds. */
static bool is_own(const dilluvas_file *file) {
    return file->process == getpid();
}

static bool sync_data(int descriptor) {
    int done;
    do {
        done = fdatasync(descriptor);
    } while (done != 0 && errno == EINTR);
    return done == 0;
}

/* Does all tasks, and answers whether none failed. */
static bool do_tasks(dilluvas_file *file) {
    dilluvas_task task;
    while (dilluvas_next_task(&file->cache, &task, file->buffer, ROOM) == DILLUVAS_OK && task.kind != DILLUVAS_NOTHING) {
        if (!is_own(file)) return false;
        bool done = task.kind == DILLUVAS_SYNC ? sync_data(file->descriptor) : dilluvas_write_all(file->descriptor, file->buffer, task.len, task.at);
        if (done) continue;
        file->is_full = dilluvas_is_of_room(errno);
        return false;
    }
    return true;
}

/* Reads what is needed and hands it in, piece by piece. */
static dilluvas_status read_needed(dilluvas_file *file) {
    uint64_t at = 0;
    size_t len = 0, got;
    if (!is_own(file)) return DILLUVAS_READ;
    dilluvas_status status = dilluvas_needs(&file->cache, &at, &len);
    while (status == DILLUVAS_OK && len > 0) {
        size_t piece = len < LEAST_READ ? LEAST_READ : len < ROOM ? len : ROOM;
        if (!dilluvas_read_up_to(file->descriptor, file->buffer, piece, at, &got)) return DILLUVAS_READ;
        if (got < piece && got < len) return DILLUVAS_READ;
        status = dilluvas_hand_in(&file->cache, at, file->buffer, got);
        at += got;
        len -= got < len ? got : len;
    }
    return status;
}

/* Hands in a part of the file, of so many bytes or more, in which the bytes lie that are needed. */
static dilluvas_status read_part(dilluvas_file *file, uint64_t part) {
    struct stat found;
    uint64_t at = 0;
    size_t len = 0, got = 0;
    if (!is_own(file)) return DILLUVAS_READ;
    dilluvas_status status = dilluvas_needs(&file->cache, &at, &len);
    if (status != DILLUVAS_OK) return status;
    if (fstat(file->descriptor, &found) != 0) return DILLUVAS_READ;
    uint64_t from = at - at % part, end = at + len < from + part ? from + part : at + len;
    if (end > (uint64_t)found.st_size) end = (uint64_t)found.st_size;
    if (end < at + len) return DILLUVAS_READ;
    uint8_t *bytes = malloc((size_t)(end - from));
    if (!bytes) return DILLUVAS_MEMORY;
    if (!dilluvas_read_up_to(file->descriptor, bytes, (size_t)(end - from), from, &got) || from + got < at + len) status = DILLUVAS_READ;
    else status = dilluvas_hand_in(&file->cache, from, bytes, got);
    free(bytes);
    return status;
}

/* Reads what is needed; and the more of what stands around it, the more often the call has wanted bytes: one that goes through a whole map
 * begins anew each time, so it does no more often than the file's length has digits. */
static dilluvas_status read_more(dilluvas_file *file) {
    if (file->reads++ < FEW_READS) return read_needed(file);
    unsigned further = file->reads - FEW_READS;
    /* what isn't needed may be unreadable, and there may be no memory for it */
    if (read_part(file, (uint64_t)ROOM << 2 * (further < 12 ? further : 12)) == DILLUVAS_OK) return DILLUVAS_OK;
    return read_needed(file);
}

/* Does the tasks behind a call, and reads the bytes that it wants, if there are any. */
static bool again(dilluvas_file *file, dilluvas_status *status, dilluvas_status (*read)(dilluvas_file *)) {
    if (!do_tasks(file)) {
        dilluvas_failed(&file->cache);
        *status = DILLUVAS_WRITE;
    }
    bool wants = *status == DILLUVAS_NEEDS;
    if (wants) *status = read(file);
    if (wants && *status == DILLUVAS_OK) return true;
    file->reads = 0;
    if (wants) dilluvas_forget(&file->cache);
    return false;
}

bool dilluvas_file_again(dilluvas_file *file, dilluvas_status *status) {
    return again(file, status, read_more);
}

/* A rewriting that was begun: the new file, by its name, of so many bytes while it is made, and how long the old one was at the last step. */
struct dilluvas_file_next {
    dilluvas_rewriting *rewriting;
    dilluvas_file file;
    char *name;
    uint64_t len, stepped_at;
};

static void end_rewriting(dilluvas_file *file);

static void give_up_rewriting(dilluvas_file *file, dilluvas_status failure);

/* ---- Room for what is written later. */

static uint64_t sum(uint64_t one, uint64_t other) {
    return one > UINT64_MAX - other ? UINT64_MAX : one + other;
}

static uint64_t least(uint64_t one, uint64_t other) {
    return one < other ? one : other;
}

/* Keeps room for the bytes of the file up to a place, and leaves its length. False: there is none. Where the system keeps none, or the file
 * may get no longer, a write tells so. */
static bool keep(dilluvas_file *file, uint64_t to) {
#ifdef __linux__
    uint64_t from = file->room_end, end = to;
    struct rlimit limit;
    /* beyond it a signal is raised, which ends the process */
    if (getrlimit(RLIMIT_FSIZE, &limit) == 0 && limit.rlim_cur != RLIM_INFINITY && limit.rlim_cur < end) end = limit.rlim_cur;
    if (from < end) {
        int done;
        do {
            done = fallocate(file->descriptor, FALLOC_FL_KEEP_SIZE, (off_t)from, (off_t)(end - from));
        } while (done != 0 && errno == EINTR);
        /* a part of what was wanted may be kept then */
        if (done == 0 || dilluvas_is_of_room(errno)) file->keeps_room = true;
        if (done != 0 && dilluvas_is_of_room(errno)) return false;
    }
#endif
    file->room_end = to;
    return true;
}

/* Gives back the room behind the file's end. Where that fails it is of use to the next opening. */
static bool give_back_room(dilluvas_file *file) {
    struct stat found;
    if (!file->keeps_room || !is_own(file)) return false;
    if (fstat(file->descriptor, &found) != 0 || ftruncate(file->descriptor, found.st_size) != 0) return false;
    file->room_end = (uint64_t)found.st_size;
    return true;
}

dilluvas_status dilluvas_file_keep_room(dilluvas_file *file, size_t bytes) {
    dilluvas_status status;
    uint64_t size;
    if (!file) return DILLUVAS_ARGUMENTS;
    if (!file->buffer) return DILLUVAS_NOT_OPEN;
    /* a write tells that it is the file of another process */
    if (!is_own(file)) return DILLUVAS_OK;
    DILLUVAS_FILE_CALL(file, status, dilluvas_size(&file->cache, &size));
    if (status != DILLUVAS_OK) return status;
    bool is_map = bytes == DILLUVAS_WHOLE_MAP;
    /* the call itself tells that a key or a value is too long */
    if (!is_map && bytes > INT32_MAX) return DILLUVAS_OK;
    /* what is pending is less than a segment; the pages have no more bytes than both, and a change writes none of them more than twice */
    uint64_t segment = file->settings.segment_size, all = sum(size, segment);
    uint64_t longest = !is_map && bytes > file->longest ? bytes : file->longest;
    uint64_t room = least(longest * PAIRS_OF_A_LEAF, sum(sum(all, all), 4 * longest));
    /* what drops a map frees each page by a short message */
    uint64_t to = sum(sum(all, is_map ? size / 16 : room), LEAST_ROOM);
    /* where a segment is longer than any file there is no room to be kept */
    if (to > file->room_end && to <= INT64_MAX / 2) {
        uint64_t step = to / 8 < LEAST_STEP ? LEAST_STEP : to / 8 < MOST_STEP ? to / 8 : MOST_STEP;
        bool is_kept = keep(file, to + step) || keep(file, to);
        if (!is_kept && file->next) {
            /* what it wrote takes room too */
            give_up_rewriting(file, DILLUVAS_DISK_FULL);
            file->next_look = size + size / 2;
            is_kept = keep(file, to);
        }
        if (!is_kept) return DILLUVAS_DISK_FULL;
    }
    file->longest = (size_t)longest;
    return DILLUVAS_OK;
}

/* ---- Opening and closing. */

/* That no file can be opened, made or named. */
static dilluvas_status refusal(void) {
    return dilluvas_is_of_room(errno) ? DILLUVAS_DISK_FULL : DILLUVAS_NO_ACCESS;
}

static bool are_one_file(const struct stat *one, const struct stat *other) {
    return one->st_dev == other->st_dev && one->st_ino == other->st_ino;
}

/* Unlocks a file that this process has locked, and closes it: one that is just being started has it open too. */
static void let_go(int descriptor) {
    flock(descriptor, LOCK_UN);
    close(descriptor);
}

/* Locks a file, and writes how many bytes it has. */
static dilluvas_status lock_file(int descriptor, struct stat *found) {
    if (fstat(descriptor, found) != 0) return DILLUVAS_READ;
    if (!S_ISREG(found->st_mode)) return DILLUVAS_NO_FILE;
    if (flock(descriptor, LOCK_EX | LOCK_NB) != 0) return errno == EWOULDBLOCK ? DILLUVAS_HELD : DILLUVAS_NO_ACCESS;
    return fstat(descriptor, found) == 0 ? DILLUVAS_OK : DILLUVAS_READ;
}

/* Opens the file of a path and locks it. It is ours once the path is seen to lead to it behind the lock: from then on no program that locks
 * files gives the path to another, or takes it away. NONE: there is none. */
static dilluvas_status open_locked(const char *path, int flags, int *descriptor, struct stat *found) {
    for (int tried = 0; tried < MOST_TRIES; tried++) {
        struct stat present;
        /* what is no file isn't opened: that may wait, or do something to it */
        if (stat(path, &present) == 0 && !S_ISREG(present.st_mode)) return DILLUVAS_NO_FILE;
        int opened = open(path, flags | O_RDWR | O_CLOEXEC | O_NOCTTY, 0666);
        if (opened < 0) return errno == EISDIR ? DILLUVAS_NO_FILE : errno == ENOENT ? DILLUVAS_NONE : refusal();
        dilluvas_status status = lock_file(opened, found);
        if (status == DILLUVAS_OK && stat(path, &present) == 0 && are_one_file(found, &present)) {
            *descriptor = opened;
            return DILLUVAS_OK;
        }
        let_go(opened);
        if (status != DILLUVAS_OK) return status;
        /* another file took its place before it was locked */
    }
    return DILLUVAS_NO_ACCESS;
}

/* Opens the folder of a path, or answers -1. */
static int open_folder(const char *path) {
    char folder[PATH_MAX] = ".";
    const char *slash = strrchr(path, '/');
    if (slash) {
        size_t len = slash == path ? 1 : (size_t)(slash - path);
        if (len >= sizeof folder) return -1;
        memcpy(folder, path, len);
        folder[len] = 0;
    }
    return open(folder, O_RDONLY | O_DIRECTORY | O_CLOEXEC);
}

/* Makes durable which files a folder has. */
static bool sync_folder(int folder) {
    int done;
    do {
        done = fsync(folder);
    } while (done != 0 && errno == EINTR);
    /* there are systems that sync no folder */
    return done == 0 || errno == EINVAL;
}

/* Makes the name of a file durable: whoever gave it may have ended before it was. */
static bool sync_name(const char *path) {
    char real[PATH_MAX];
    int folder = realpath(path, real) ? open_folder(real) : -1;
    /* a folder that may not be read is synced by nobody */
    if (folder < 0) return errno == EACCES || errno == EPERM;
    bool done = sync_folder(folder);
    close(folder);
    return done;
}

/* Opens the cache over a file that is open and has so many bytes. */
static dilluvas_status open_cache(dilluvas_file *file, const dilluvas_file_settings *settings, uint64_t len) {
    const dilluvas_file_settings usual = DILLUVAS_FILE_SETTINGS;
    dilluvas_status status;
    file->buffer = calloc(1, ROOM);
    file->path = calloc(1, PATH_MAX);
    if (!file->buffer || !file->path) return DILLUVAS_MEMORY;
    file->settings = settings ? *settings : usual;
    file->room_end = len;
    /* an opening goes on behind each piece, and lets it go */
    do status = dilluvas_open_file(&file->cache, &file->settings, len);
    while (again(file, &status, read_needed));
    return status;
}

/* Takes the name away that a file has while it is made, where it leads to the file. It is locked yet, so the name is this file's. */
static void take_name_away(int descriptor, const char *other) {
    struct stat new, found;
    if (descriptor < 0 || !other || fstat(descriptor, &new) != 0) return;
    if (lstat(other, &found) == 0 && are_one_file(&new, &found)) unlink(other);
}

/* Closes what is open of a file that isn't to be used. The lock is one for all processes that have the file open since it was opened once, and
 * belongs to the one that opened it. */
static void close_all(dilluvas_file *file) {
    end_rewriting(file);
    dilluvas_close(&file->cache);
    free(file->buffer);
    free(file->path);
    if (file->descriptor >= 0) {
        give_back_room(file);
        if (is_own(file)) flock(file->descriptor, LOCK_UN);
        close(file->descriptor);
    }
    file->buffer = NULL;
    file->path = NULL;
    file->descriptor = -1;
    file->keeps_room = false;
}

/* Ends the rewriting that was begun, if one was, and takes its file away, which is that of the process that began it. */
static void end_rewriting(dilluvas_file *file) {
    struct dilluvas_file_next *next = file->next;
    if (!next) return;
    file->next = NULL;
    dilluvas_rewriting_end(next->rewriting);
    if (is_own(file)) take_name_away(next->file.descriptor, next->name);
    close_all(&next->file);
    free(next->name);
    free(next);
}

/* The same where it failed, or is done: OK then. */
static void give_up_rewriting(dilluvas_file *file, dilluvas_status failure) {
    end_rewriting(file);
    file->failure = failure;
}

/* Gives a file the owner and the mode of the one whose place it takes. */
static bool give_owner_and_mode(int descriptor, const struct stat *old) {
    struct stat found;
    if (fstat(descriptor, &found) != 0) return false;
    bool is_theirs = found.st_uid == old->st_uid && found.st_gid == old->st_gid;
    /* who may not give a file away keeps it */
    if (!is_theirs && fchown(descriptor, old->st_uid, old->st_gid) != 0 && errno != EPERM) return false;
    return fchmod(descriptor, old->st_mode & 07777) == 0;
}

/* The name that a file has while it is made, or null where there is no memory. */
static char *name_while_made(const char *path) {
    static const char behind[] = ".dilluvas-new";
    size_t len = strlen(path);
    char *other = malloc(len + sizeof behind);
    if (!other) return NULL;
    memcpy(other, path, len);
    memcpy(other + len, behind, sizeof behind);
    return other;
}

/* Makes an empty file by another name, and locks it. `old`, where it isn't null, is the file that is to lose its place, which this process has
 * locked.
 *
 * A process that was killed may have left a file there. Its name is taken away and nothing of it is cut off: it may be the one that has the
 * path, or be kept by a third name. */
static dilluvas_status make_other(const char *other, const struct stat *old, int *descriptor) {
    for (int tried = 0; tried < MOST_TRIES; tried++) {
        struct stat found;
        bool is_old = old && lstat(other, &found) == 0 && are_one_file(old, &found);
        if (is_old && unlink(other) != 0) return DILLUVAS_NO_ACCESS;
        dilluvas_status status = open_locked(other, O_CREAT | O_NOFOLLOW, descriptor, &found);
        if (status != DILLUVAS_OK) return status == DILLUVAS_NONE ? DILLUVAS_NO_ACCESS : status;
        if (found.st_size == 0 && found.st_nlink <= 1) return DILLUVAS_OK;
        bool is_gone = unlink(other) == 0;
        let_go(*descriptor);
        *descriptor = -1;
        if (!is_gone) return DILLUVAS_NO_ACCESS;
    }
    return DILLUVAS_NO_ACCESS;
}

/* Whether a path leads to no file, or to the empty one that is given. */
static bool is_as_found(const char *path, const struct stat *empty) {
    struct stat found;
    if (lstat(path, &found) != 0) return !empty;
    return empty && are_one_file(empty, &found) && found.st_size == 0;
}

/* Puts an empty file in place, where the system has no second names for files: then it is made as in place of that. */
static dilluvas_status put_empty(const char *path) {
    int descriptor = open(path, O_RDWR | O_CREAT | O_EXCL | O_CLOEXEC, 0666);
    if (descriptor < 0 && errno != EEXIST) return refusal();
    if (descriptor >= 0) close(descriptor);
    return DILLUVAS_STALE;
}

/* Gives a file its own name, which no other file loses by that but the empty one that is given. STALE: the path leads elsewhere by now. */
static dilluvas_status put_in_place(const char *path, const char *other, const struct stat *empty) {
    if (empty) {
        if (!is_as_found(path, empty)) return DILLUVAS_STALE;
        return rename(other, path) == 0 ? DILLUVAS_OK : refusal();
    }
    if (link(other, path) == 0) {
        unlink(other);
        return DILLUVAS_OK;
    }
    if (errno == EEXIST) return DILLUVAS_STALE;
    bool has_links = errno != EPERM && errno != EOPNOTSUPP && errno != ENOTSUP && errno != ENOSYS && errno != EMLINK;
    return has_links ? refusal() : put_empty(path);
}

/* Makes a file by another name, and gives it its own once it is durable. The other name is kept by one process at a time. */
static dilluvas_status make(dilluvas_file *file, const char *path, const char *other, const struct stat *empty,
                            const dilluvas_file_settings *settings) {
    dilluvas_status status = make_other(other, empty, &file->descriptor);
    if (status != DILLUVAS_OK) return status;
    /* another process may have made the file meanwhile */
    if (!is_as_found(path, empty)) status = DILLUVAS_STALE;
    else if (empty && !give_owner_and_mode(file->descriptor, empty)) status = DILLUVAS_WRITE;
    else status = open_cache(file, settings, 0);
    if (status == DILLUVAS_OK) status = put_in_place(path, other, empty);
    /* it is still locked, so the name is this file's */
    if (status != DILLUVAS_OK) unlink(other);
    return status;
}

/* Makes a file, in place of an empty one if that is given. */
static dilluvas_status make_new(dilluvas_file *file, const char *path, const struct stat *empty, const dilluvas_file_settings *settings) {
    int folder = open_folder(path);
    if (folder < 0) return DILLUVAS_NO_ACCESS;
    char *other = name_while_made(path);
    dilluvas_status status = other ? make(file, path, other, empty, settings) : DILLUVAS_MEMORY;
    if (status == DILLUVAS_OK && !sync_folder(folder)) status = DILLUVAS_WRITE;
    free(other);
    close(folder);
    return status;
}

/* Makes a file where none is, and none where a link leads. */
static dilluvas_status make_absent(dilluvas_file *file, const char *path, const dilluvas_file_settings *settings) {
    struct stat found;
    if (!*path || (lstat(path, &found) == 0 && S_ISLNK(found.st_mode))) return DILLUVAS_NO_ACCESS;
    return make_new(file, path, NULL, settings);
}

/* Whether a file of no bytes is one that bytes can be written to. Those of the system's own (/proc) tell none too: they aren't synced, or have
 * something to read. */
static dilluvas_status check_empty(int descriptor) {
    uint8_t byte;
    size_t got;
    if (!sync_data(descriptor)) return errno == EINVAL ? DILLUVAS_NO_FILE : DILLUVAS_WRITE;
    if (!dilluvas_read_up_to(descriptor, &byte, 1, 0, &got)) return DILLUVAS_READ;
    return got == 0 ? DILLUVAS_OK : DILLUVAS_NO_FILE;
}

/* Makes a file in place of an empty one, where a link leads too. While it is made, the empty one stays locked. */
static dilluvas_status make_of_empty(dilluvas_file *file, const char *path, const struct stat *empty,
                                     const dilluvas_file_settings *settings) {
    char real[PATH_MAX];
    int descriptor = file->descriptor;
    file->descriptor = -1;
    dilluvas_status status = check_empty(descriptor);
    if (status == DILLUVAS_OK) status = realpath(path, real) ? make_new(file, real, empty, settings) : DILLUVAS_NO_ACCESS;
    let_go(descriptor);
    return status;
}

/* Opens a file or makes it. STALE: while it was made, the path came to lead elsewhere. */
static dilluvas_status open_or_make(dilluvas_file *file, const char *path, const dilluvas_file_settings *settings) {
    struct stat found;
    dilluvas_status status = open_locked(path, 0, &file->descriptor, &found);
    if (status == DILLUVAS_NONE) return make_absent(file, path, settings);
    if (status != DILLUVAS_OK) return status;
    if (found.st_size == 0) return make_of_empty(file, path, &found, settings);
    return sync_name(path) ? open_cache(file, settings, (uint64_t)found.st_size) : DILLUVAS_WRITE;
}

/* Takes away what a process left that was killed while it rewrote the file: nobody else would before the next rewriting. */
static void take_left_away(const dilluvas_file *file) {
    struct stat own, found;
    int descriptor = -1;
    char *other = name_while_made(file->path);
    bool is_left = other && lstat(other, &found) == 0 && S_ISREG(found.st_mode) && fstat(file->descriptor, &own) == 0;
    if (is_left && make_other(other, &own, &descriptor) == DILLUVAS_OK) {
        unlink(other);
        let_go(descriptor);
    }
    free(other);
}

dilluvas_status dilluvas_file_open(dilluvas_file *file, const char *path, const dilluvas_file_settings *settings) {
    if (!file || !path) return DILLUVAS_ARGUMENTS;
    if (file->buffer) return DILLUVAS_ALREADY_OPEN;
    file->descriptor = -1;
    file->process = getpid();
    file->next_look = 0;
    file->longest = 0;
    file->is_full = false;
    file->next = NULL;
    file->failure = DILLUVAS_OK;
    dilluvas_status status = DILLUVAS_STALE;
    for (int tried = 0; status == DILLUVAS_STALE && tried < MOST_TRIES; tried++) {
        status = open_or_make(file, path, settings);
        if (status != DILLUVAS_OK) close_all(file);
    }
    if (status == DILLUVAS_STALE) return DILLUVAS_NO_ACCESS;
    if (status == DILLUVAS_WRITE && file->is_full) return DILLUVAS_DISK_FULL;
    if (status != DILLUVAS_OK) return status;
    /* it may have been taken away since */
    if (!realpath(path, file->path)) file->path[0] = 0;
    else take_left_away(file);
    return DILLUVAS_OK;
}

/* ---- Rewriting. */

/* Rewrites a cache into the log of a new file. That is begun anew where bytes of the old file are needed. Of these ever more are handed in
 * together, so that it begins no more often than the file's length has digits. */
static dilluvas_status rewrite(dilluvas_file *file, dilluvas_file *next) {
    dilluvas_status status;
    uint64_t part = LEAST_PART;
    for (;;) {
        DILLUVAS_FILE_CALL(next, status, dilluvas_new_log(&next->cache, &file->settings));
        if (status == DILLUVAS_OK) status = dilluvas_rewrite(&file->cache, &next->cache);
        if (status != DILLUVAS_NEEDS) break;
        status = read_part(file, part);
        /* what isn't needed may be unreadable */
        if (status == DILLUVAS_READ) status = read_needed(file);
        if (status != DILLUVAS_OK) break;
        if (part < (uint64_t)1 << 40) part *= 4;
    }
    dilluvas_forget(&file->cache);
    return status;
}

/* Gives a new file, which is whole and durable, the path of the old one. */
static dilluvas_status take_path(dilluvas_file *file, const dilluvas_file *next, const char *other) {
    struct stat old, new, found;
    if (fstat(file->descriptor, &old) != 0 || fstat(next->descriptor, &new) != 0) return DILLUVAS_READ;
    if (lstat(other, &found) != 0 || !are_one_file(&new, &found)) return DILLUVAS_NO_ACCESS;
    if (stat(file->path, &found) != 0 || !are_one_file(&old, &found)) return DILLUVAS_NO_ACCESS;
    return rename(other, file->path) == 0 ? DILLUVAS_OK : refusal();
}

/* Makes the new file by its other name, and gives it the path of the old one. */
static dilluvas_status make_compact(dilluvas_file *file, dilluvas_file *next, const char *other) {
    struct stat old;
    if (fstat(file->descriptor, &old) != 0) return DILLUVAS_READ;
    dilluvas_status status = make_other(other, &old, &next->descriptor);
    if (status != DILLUVAS_OK) return status;
    status = give_owner_and_mode(next->descriptor, &old) ? rewrite(file, next) : DILLUVAS_WRITE;
    if (status == DILLUVAS_OK) DILLUVAS_FILE_CALL(next, status, dilluvas_open_file(&next->cache, &file->settings, 0));
    if (status == DILLUVAS_OK) status = take_path(file, next, other);
    return status == DILLUVAS_WRITE && next->is_full ? DILLUVAS_DISK_FULL : status;
}

/* Gives each of two the other's cache, with its file. */
static void swap(dilluvas_file *one, dilluvas_file *other) {
    dilluvas cache = one->cache;
    int descriptor = one->descriptor;
    bool keeps_room = one->keeps_room;
    one->cache = other->cache;
    one->descriptor = other->descriptor;
    one->keeps_room = other->keeps_room;
    one->room_end = 0;
    other->cache = cache;
    other->descriptor = descriptor;
    other->keeps_room = keeps_room;
}

/* Makes the next cache and goes on over that, with its file. `next` has the old cache then, whose file is to be closed now that the path leads
 * to the new one, or the new one that isn't used. */
static dilluvas_status go_over(dilluvas_file *file, dilluvas_file *next, const char *other,
                               dilluvas_status (*make_next)(dilluvas_file *, dilluvas_file *, const char *)) {
    int folder = *file->path ? open_folder(file->path) : -1;
    dilluvas_status status = folder >= 0 ? DILLUVAS_OK : DILLUVAS_NO_ACCESS;
    if (status == DILLUVAS_OK) status = make_next(file, next, other);
    if (status != DILLUVAS_OK) take_name_away(next->descriptor, other);
    if (status == DILLUVAS_OK) {
        swap(file, next);
        file->failure = DILLUVAS_OK;
        if (!sync_folder(folder)) {
            /* which of the two files a crash leaves isn't known, so nothing is written to this one */
            dilluvas_failed(&file->cache);
            status = DILLUVAS_WRITE;
        }
    }
    if (folder >= 0) close(folder);
    return status;
}

/* Rewrites a file that is this process's. */
static dilluvas_status compact(dilluvas_file *file) {
    dilluvas_file next = DILLUVAS_FILE_CLOSED;
    char *other = name_while_made(file->path);
    next.process = file->process;
    next.buffer = calloc(1, ROOM);
    dilluvas_status status = other && next.buffer ? go_over(file, &next, other, make_compact) : DILLUVAS_MEMORY;
    close_all(&next);
    free(other);
    return status;
}

dilluvas_status dilluvas_file_compact(dilluvas_file *file) {
    uint64_t bytes;
    size_t written;
    dilluvas_status status, flushed;
    if (!file) return DILLUVAS_ARGUMENTS;
    if (!file->buffer) return DILLUVAS_NOT_OPEN;
    if (!is_own(file)) {
        dilluvas_failed(&file->cache);
        return DILLUVAS_WRITE;
    }
    DILLUVAS_FILE_CALL(file, status, dilluvas_size(&file->cache, &bytes));
    if (status != DILLUVAS_OK) return status;
    end_rewriting(file);
    status = compact(file);
    if (status != DILLUVAS_DISK_FULL || !file->keeps_room) return status;
    /* the room that is kept for what is pending may be of use to the new file once nothing is */
    DILLUVAS_FILE_CALL(file, flushed, dilluvas_flush(&file->cache, &written));
    if (flushed != DILLUVAS_OK) return flushed;
    return give_back_room(file) ? compact(file) : status;
}

/* ---- Rewriting step by step. */

/* That the new file can't be written or synced. Nothing rests on it. */
static dilluvas_status write_failure(void) {
    return dilluvas_is_of_room(errno) ? DILLUVAS_DISK_FULL : DILLUVAS_WRITE;
}

/* Makes the new file of a rewriting, of a length that it rarely reaches: it has what the pages take at first, and what is changed until it is
 * level. One that gets longer is given up, and the rewriting is tried again once the file has grown by half. */
static dilluvas_status make_next(const dilluvas_file *file, struct dilluvas_file_next *next, const struct stat *old) {
    struct rlimit limit;
    next->len = sum(sum((uint64_t)old->st_size, (uint64_t)old->st_size), MOST_STEP);
    /* beyond it a signal is raised, which ends the process */
    bool is_limited = getrlimit(RLIMIT_FSIZE, &limit) == 0 && limit.rlim_cur != RLIM_INFINITY && limit.rlim_cur < next->len;
    if (is_limited) return DILLUVAS_WRITE;
    if (next->len > INT64_MAX) return DILLUVAS_LOG_FULL;
    next->file.process = file->process;
    next->file.settings = file->settings;
    next->file.buffer = calloc(1, ROOM);
    next->name = name_while_made(file->path);
    next->rewriting = dilluvas_rewriting_begin();
    if (!next->file.buffer || !next->name || !next->rewriting) return DILLUVAS_MEMORY;
    dilluvas_status status = make_other(next->name, old, &next->file.descriptor);
    if (status != DILLUVAS_OK) return status;
    bool is_made = give_owner_and_mode(next->file.descriptor, old) && ftruncate(next->file.descriptor, (off_t)next->len) == 0;
    return is_made ? DILLUVAS_OK : write_failure();
}

/* Begins to rewrite a file that has so many bytes, of which its pages take `live`. */
static dilluvas_status begin_rewriting(dilluvas_file *file, uint64_t size, uint64_t live) {
    static const dilluvas_file closed = DILLUVAS_FILE_CLOSED;
    struct stat old;
    if (!*file->path) return DILLUVAS_NO_ACCESS;
    if (fstat(file->descriptor, &old) != 0) return DILLUVAS_READ;
    if (!dilluvas_rewriting_has_room(file->descriptor, live)) return DILLUVAS_DISK_FULL;
    file->next = calloc(1, sizeof *file->next);
    if (!file->next) return DILLUVAS_MEMORY;
    file->next->file = closed;
    file->next->stepped_at = size;
    return make_next(file, file->next, &old);
}

/* Hands in the own pages of the cache over the new file, which is level, before they are needed. Else they are asked for. */
static void hand_in_own_pages(struct dilluvas_file_next *next) {
    uint64_t at = dilluvas_rewriting_own_pages(next->rewriting), len = dilluvas_rewriting_stays(next->rewriting) - at;
    size_t got;
    if (len > ROOM || !dilluvas_read_up_to(next->file.descriptor, next->file.buffer, (size_t)len, at, &got)) return;
    dilluvas_hand_in(&next->file.cache, at, next->file.buffer, got);
}

/* Lets the cache over the new file read what was copied: NEEDS where it is to read more, which isn't there yet. */
static dilluvas_status read_copied(struct dilluvas_file_next *next, bool is_level) {
    dilluvas_status status;
    do {
        uint64_t at = 0;
        size_t len = 0;
        if (is_level) hand_in_own_pages(next);
        status = dilluvas_open_file(&next->file.cache, &next->file.settings, next->len);
        if (status != DILLUVAS_NEEDS || is_level) continue;
        if (dilluvas_needs(&next->file.cache, &at, &len) != DILLUVAS_OK) return DILLUVAS_READ;
        if (at + (len < LEAST_READ ? LEAST_READ : len) > dilluvas_rewriting_stays(next->rewriting)) return status;
    } while (again(&next->file, &status, read_needed));
    return status == DILLUVAS_WRITE && next->file.is_full ? DILLUVAS_DISK_FULL : status;
}

/* Gives the new file, over which the cache is open, the path. What the library finds in both has to have as many bytes: what makes the pages
 * is copied byte for byte. */
static dilluvas_status put_next(dilluvas_file *file, dilluvas_file *next, const char *other) {
    struct stat old;
    uint64_t live = 0, copied = 0;
    dilluvas_status status;
    DILLUVAS_FILE_CALL(next, status, dilluvas_live(&next->cache, &copied));
    if (status == DILLUVAS_OK) DILLUVAS_FILE_CALL(file, status, dilluvas_live(&file->cache, &live));
    if (status != DILLUVAS_OK) return status;
    if (live != copied) return DILLUVAS_CORRUPTION;
    if (fstat(file->descriptor, &old) != 0) return DILLUVAS_READ;
    /* they may have been changed since the rewriting was begun */
    if (!give_owner_and_mode(next->descriptor, &old)) return write_failure();
    return sync_data(next->descriptor) ? take_path(file, next, other) : write_failure();
}

/* Takes a step of the rewriting that was begun of a file, of which nothing is pending. STALE: there is more to do. */
static dilluvas_status take_step(dilluvas_file *file, uint64_t step, uint64_t size) {
    struct dilluvas_file_next *next = file->next;
    bool is_level;
    /* it has to be faster than what is written */
    uint64_t grown = size > next->stepped_at ? size - next->stepped_at : 0, work = sum(step, sum(grown, 3 * grown));
    next->stepped_at = size;
    dilluvas_status status = dilluvas_rewriting_step(next->rewriting, file->descriptor, next->file.descriptor, work, &is_level);
    if (status == DILLUVAS_OK && dilluvas_rewriting_stays(next->rewriting) >= next->len) status = DILLUVAS_LOG_FULL;
    if (status == DILLUVAS_OK) status = read_copied(next, is_level);
    if (status == DILLUVAS_NEEDS) return DILLUVAS_STALE;
    if (status != DILLUVAS_OK) return status;
    if (!is_level) return DILLUVAS_CORRUPTION;
    if (ftruncate(next->file.descriptor, (off_t)dilluvas_rewriting_stays(next->rewriting) + 1) != 0) return write_failure();
    return go_over(file, &next->file, next->name, put_next);
}

/* The same, and ends the rewriting where it is done or has failed. */
static void go_on_rewriting(dilluvas_file *file, uint64_t step, uint64_t size) {
    dilluvas_status looked, status = take_step(file, step, size);
    if (status == DILLUVAS_STALE) return;
    give_up_rewriting(file, status);
    if (status == DILLUVAS_OK) DILLUVAS_FILE_CALL(file, looked, dilluvas_size(&file->cache, &size));
    file->next_look = size + size / 2;
}

/* ---- Flushing. */

/* Whether it is time to rewrite a file, of which nothing is pending. Writes how many bytes its pages take. */
static bool is_time(dilluvas_file *file, const dilluvas_compact_at *when, uint64_t size, uint64_t *live) {
    dilluvas_status status;
    if (size < file->next_look || size < when->least || size > when->most) return false;
    DILLUVAS_FILE_CALL(file, status, dilluvas_live(&file->cache, live));
    if (status != DILLUVAS_OK) return false;
    if (size / (when->times < 2 ? 2 : when->times) >= *live) return true;
    file->next_look = size + size / 8;
    return false;
}

/* Rewrites a file that has so many bytes. */
static void rewrite_at_once(dilluvas_file *file, uint64_t size) {
    dilluvas_status looked;
    file->failure = dilluvas_file_compact(file);
    if (file->failure == DILLUVAS_OK) DILLUVAS_FILE_CALL(file, looked, dilluvas_size(&file->cache, &size));
    file->next_look = size + size / 2;
}

/* Rewrites a file, of which nothing is pending, or takes a step of that, where it is time to. */
static void give_back_space(dilluvas_file *file, const dilluvas_compact_at *when, uint64_t size) {
    uint64_t live = 0;
    if (when->step == 0) end_rewriting(file);
    if (!file->next) {
        if (!is_time(file, when, size, &live)) return;
        /* for one that fails */
        file->next_look = size + size / 2;
        if (when->step == 0) {
            rewrite_at_once(file, size);
            return;
        }
        dilluvas_status begun = begin_rewriting(file, size, live);
        if (begun != DILLUVAS_OK) give_up_rewriting(file, begun);
    }
    if (file->next) go_on_rewriting(file, when->step, size);
}

dilluvas_status dilluvas_file_flush(dilluvas_file *file, const dilluvas_compact_at *when) {
    const dilluvas_compact_at usual = DILLUVAS_COMPACT_AT;
    dilluvas_status status, looked;
    size_t written;
    uint64_t size;
    if (!file) return DILLUVAS_ARGUMENTS;
    if (!file->buffer) return DILLUVAS_NOT_OPEN;
    DILLUVAS_FILE_CALL(file, status, dilluvas_flush(&file->cache, &written));
    if (status != DILLUVAS_OK || !is_own(file)) return status;
    DILLUVAS_FILE_CALL(file, looked, dilluvas_size(&file->cache, &size));
    if (looked == DILLUVAS_OK) give_back_space(file, when ? when : &usual, size);
    return status;
}

dilluvas_status dilluvas_file_rewriting_failure(const dilluvas_file *file) {
    if (!file) return DILLUVAS_ARGUMENTS;
    return file->buffer ? file->failure : DILLUVAS_NOT_OPEN;
}

/* ---- How much space the file takes, and how much its pages would. */

/* Adds what each page takes to `bytes`. One page is read at a time: a call that reads all of them would begin anew for each. */
static dilluvas_status add_pages(dilluvas_file *file, uint64_t *bytes) {
    dilluvas_status status;
    uint64_t count, size;
    DILLUVAS_FILE_CALL(file, status, dilluvas_page_count(&file->cache, &count));
    for (uint64_t page = 0; status == DILLUVAS_OK && page < count; page++) {
        DILLUVAS_FILE_CALL(file, status, dilluvas_page_size(&file->cache, page, &size));
        if (status == DILLUVAS_OK) *bytes = sum(*bytes, size);
    }
    return status;
}

dilluvas_status dilluvas_file_amp(dilluvas_file *file, uint64_t *log, uint64_t *pages) {
    dilluvas_status status;
    uint64_t size;
    if (!file || !log || !pages) return DILLUVAS_ARGUMENTS;
    if (!file->buffer) return DILLUVAS_NOT_OPEN;
    uint64_t bytes = file->settings.segment_size;
    DILLUVAS_FILE_CALL(file, status, dilluvas_size(&file->cache, &size));
    if (status == DILLUVAS_OK) status = add_pages(file, &bytes);
    if (status != DILLUVAS_OK) return status;
    *log = size;
    *pages = bytes;
    return DILLUVAS_OK;
}

dilluvas_status dilluvas_file_close(dilluvas_file *file) {
    if (!file) return DILLUVAS_ARGUMENTS;
    if (!file->buffer) return DILLUVAS_NOT_OPEN;
    close_all(file);
    return DILLUVAS_OK;
}
