/* Lets reads and writes at a place do a part, and interrupts each third. Preloaded (LD_PRELOAD) into a program that makes these calls. */
#define _GNU_SOURCE
#include <dlfcn.h>
#include <errno.h>
#include <sys/types.h>

typedef ssize_t (*reading)(int, void *, size_t, off64_t);
typedef ssize_t (*writing)(int, const void *, size_t, off64_t);

static unsigned turn;

static int is_interrupted(void) {
    if (++turn % 3) return 0;
    errno = EINTR;
    return 1;
}

static size_t part(size_t len) {
    return len > 1 ? (len + 1) / 2 : len;
}

#define READS(name) \
    ssize_t name(int descriptor, void *bytes, size_t len, off64_t at) { \
        static reading next; \
        if (!next) *(void **)&next = dlsym(RTLD_NEXT, #name); \
        return is_interrupted() ? -1 : next(descriptor, bytes, part(len), at); \
    }

#define WRITES(name) \
    ssize_t name(int descriptor, const void *bytes, size_t len, off64_t at) { \
        static writing next; \
        if (!next) *(void **)&next = dlsym(RTLD_NEXT, #name); \
        return is_interrupted() ? -1 : next(descriptor, bytes, part(len), at); \
    }

READS(pread)
READS(pread64)
WRITES(pwrite)
WRITES(pwrite64)
