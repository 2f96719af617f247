#define _DEFAULT_SOURCE
#include "failing.h"
#include <errno.h>
#include <stdio.h>
#include <unistd.h>

int failures;

void is(int line, unsigned long long got, unsigned long long wanted) {
    if (got == wanted) return;
    printf("line %d: %llu, not %llu\n", line, got, wanted);
    failures++;
}

long made[KINDS], fails_at[KINDS] = {-1, -1, -1, -1};
int fails_with = EIO;
bool lasting;
int no_links;
void (*watch)(void);

static bool fails(enum kind kind) {
    long n = made[kind]++;
    if (fails_at[kind] < 0 || n < fails_at[kind] || (n > fails_at[kind] && !lasting)) return false;
    errno = fails_with;
    return true;
}

void all_goes_well(void) {
    for (int kind = 0; kind < KINDS; kind++) {
        made[kind] = 0;
        fails_at[kind] = -1;
    }
}

/* Every third read or write is interrupted, and of the others every second one does a part, a small one or half of it. */
static unsigned turn;

static bool is_interrupted(void) {
    if (++turn % 3) return false;
    errno = EINTR;
    return true;
}

static size_t cut(size_t len) {
    size_t part = turn % 4 == 1 && len > 32 ? 16 : len / 2;
    return turn % 2 && len > 1 ? part : len;
}

static void look(void) {
    if (watch) watch();
}

ssize_t __real_pread(int descriptor, void *bytes, size_t len, off_t at);
int __real_fdatasync(int descriptor);
int __real_fsync(int descriptor);
int __real_rename(const char *old, const char *new);
int __real_link(const char *old, const char *new);

ssize_t __wrap_pread(int descriptor, void *bytes, size_t len, off_t at);
ssize_t __wrap_pwrite(int descriptor, const void *bytes, size_t len, off_t at);
int __wrap_fdatasync(int descriptor);
int __wrap_fsync(int descriptor);
int __wrap_rename(const char *old, const char *new);
int __wrap_link(const char *old, const char *new);

ssize_t __wrap_pread(int descriptor, void *bytes, size_t len, off_t at) {
    if (is_interrupted() || fails(READS)) return -1;
    return __real_pread(descriptor, bytes, cut(len), at);
}

ssize_t __wrap_pwrite(int descriptor, const void *bytes, size_t len, off_t at) {
    if (is_interrupted() || fails(WRITES)) return -1;
    look();
    ssize_t written = __real_pwrite(descriptor, bytes, cut(len), at);
    look();
    return written;
}

int __wrap_fdatasync(int descriptor) {
    if (fails(SYNCS)) return -1;
    look();
    return __real_fdatasync(descriptor);
}

int __wrap_fsync(int descriptor) {
    if (fails(SYNCS)) return -1;
    look();
    return __real_fsync(descriptor);
}

int __wrap_rename(const char *old, const char *new) {
    if (fails(RENAMES)) return -1;
    look();
    int done = __real_rename(old, new);
    look();
    return done;
}

int __wrap_link(const char *old, const char *new) {
    look();
    int done = no_links ? -1 : __real_link(old, new);
    if (no_links) errno = no_links;
    else look();
    return done;
}
