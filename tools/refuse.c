/* Refuses one request for memory of a process, and counts them. Preloaded (LD_PRELOAD) into a program that REFUSE names: a file of 16 bytes,
 * two numbers of 8 bytes, the lowest byte first. The first says which request is refused, counted from 1, and 0 for none; the second counts
 * those that were made. */
#define _GNU_SOURCE
#include <errno.h>
#include <fcntl.h>
#include <stddef.h>
#include <stdint.h>
#include <stdlib.h>
#include <sys/mman.h>
#include <unistd.h>

void *__libc_malloc(size_t size);
void *__libc_calloc(size_t count, size_t size);
void *__libc_realloc(void *block, size_t size);

static uint64_t *numbers;

__attribute__((constructor)) static void begin(void) {
    const char *path = getenv("REFUSE");
    int descriptor = path ? open(path, O_RDWR | O_CLOEXEC) : -1;
    if (descriptor < 0) _exit(99);
    void *shared = mmap(NULL, 16, PROT_READ | PROT_WRITE, MAP_SHARED, descriptor, 0);
    close(descriptor);
    if (shared == MAP_FAILED) _exit(99);
    numbers = shared;
}

/* Whether it is this one. Before the program begins none is counted. */
static int is_refused(void) {
    if (!numbers || __atomic_add_fetch(&numbers[1], 1, __ATOMIC_RELAXED) != numbers[0]) return 0;
    errno = ENOMEM;
    return 1;
}

void *malloc(size_t size) {
    return is_refused() ? NULL : __libc_malloc(size);
}

void *calloc(size_t count, size_t size) {
    return is_refused() ? NULL : __libc_calloc(count, size);
}

void *realloc(void *block, size_t size) {
    return is_refused() ? NULL : __libc_realloc(block, size);
}
