/* dilluvas_file.c, whose reads, writes and syncs go by a hook: bindings/python/c_loop.py sets it, and lets them fail. With it allocations
 * are refused. Linked into a shared library with --wrap=malloc, --wrap=calloc, --wrap=realloc, --wrap=pread and
 * --wrap=pwrite. */
#define _GNU_SOURCE
#include <errno.h>
#include <fcntl.h>
#include <stdbool.h>
#include <stdint.h>
#include <stdio.h>
#include <sys/types.h>
#include <unistd.h>

enum { READ, WRITE, SYNC, SYNC_FOLDER, RENAME, UNLINK, LINK };

/* Answers what the call would, or the number of an error below 0. A name stands in place of bytes, and a second one in place of `at`. */
typedef int64_t (*hook)(int kind, int descriptor, const void *bytes, size_t len, int64_t at);

static hook present;

void dilluvas_set_hook(hook next) {
    present = next;
}

static int64_t call(int kind, int descriptor, const void *bytes, size_t len, int64_t at) {
    int64_t answer = present(kind, descriptor, bytes, len, at);
    if (answer >= 0) return answer;
    errno = (int)-answer;
    return -1;
}

/* ---- Allocations. */

void *__real_malloc(size_t size);
void *__real_calloc(size_t count, size_t size);
void *__real_realloc(void *block, size_t size);

/* How many succeed before one is refused, and none is where this is below 0. */
static long left = -1;

void dilluvas_refuse_allocation(long next) {
    left = next;
}

/* Whether one was refused. */
bool dilluvas_was_refused(void) {
    return left == -2;
}

static bool is_refused(void) {
    if (left < 0) return false;
    if (left > 0) {
        left--;
        return false;
    }
    left = -2;
    return true;
}

void *__wrap_malloc(size_t size) {
    return is_refused() ? NULL : __real_malloc(size);
}

void *__wrap_calloc(size_t count, size_t size) {
    return is_refused() ? NULL : __real_calloc(count, size);
}

void *__wrap_realloc(void *block, size_t size) {
    return is_refused() ? NULL : __real_realloc(block, size);
}

/* ---- The loop. */

ssize_t __wrap_pread(int descriptor, void *bytes, size_t len, off_t at) {
    return (ssize_t)call(READ, descriptor, bytes, len, at);
}

ssize_t __wrap_pwrite(int descriptor, const void *bytes, size_t len, off_t at) {
    return (ssize_t)call(WRITE, descriptor, bytes, len, at);
}

static int hooked_fdatasync(int descriptor) {
    return (int)call(SYNC, descriptor, NULL, 0, 0);
}

static int hooked_fsync(int descriptor) {
    return (int)call(SYNC_FOLDER, descriptor, NULL, 0, 0);
}

static int hooked_rename(const char *old, const char *new) {
    return (int)call(RENAME, -1, old, 0, (int64_t)(intptr_t)new);
}

static int hooked_unlink(const char *path) {
    return (int)call(UNLINK, -1, path, 0, 0);
}

static int hooked_link(const char *old, const char *new) {
    return (int)call(LINK, -1, old, 0, (int64_t)(intptr_t)new);
}

/* No room is kept, so that what is written is what fails. */
static int hooked_fallocate(int descriptor, int mode, off_t at, off_t len) {
    (void)descriptor, (void)mode, (void)at, (void)len;
    errno = EOPNOTSUPP;
    return -1;
}

#define fdatasync hooked_fdatasync
#define fsync hooked_fsync
#define rename hooked_rename
#define unlink hooked_unlink
#define link hooked_link
#define fallocate hooked_fallocate
#include "dilluvas_file.c"
