/* Lets each read of a stream have one byte, and makes the file that SINGLE names at the first one. Preloaded (LD_PRELOAD) into a program. */
#define _GNU_SOURCE
#include <dlfcn.h>
#include <fcntl.h>
#include <stdlib.h>
#include <sys/types.h>
#include <unistd.h>

typedef ssize_t (*reading)(int, void *, size_t);

ssize_t read(int descriptor, void *bytes, size_t len) {
    static reading next;
    if (!next) {
        const char *name = getenv("SINGLE");
        *(void **)&next = dlsym(RTLD_NEXT, "read");
        if (name) close(open(name, O_WRONLY | O_CREAT, 0600));
    }
    return next(descriptor, bytes, len > 0);
}
