/* Delays the calls by which a process opens, makes and rewrites files. Preloaded (LD_PRELOAD) into a program that DILLUVAS_DELAY tells what
 * to do before these calls, in parts with a comma between:
 *
 *     flock:400    it sleeps 400 ms before each call of that name
 *     7:400        it sleeps 400 ms before its seventh call of any name here
 *     stop:7       it stops (SIGSTOP) before its seventh call, and before each behind that
 *
 * A process that is forked counts its own. It is for programs of one thread. Those that are linked statically don't see it. */
#define _GNU_SOURCE
#include <dlfcn.h>
#include <fcntl.h>
#include <signal.h>
#include <stdarg.h>
#include <stdlib.h>
#include <string.h>
#include <sys/file.h>
#include <sys/stat.h>
#include <time.h>
#include <unistd.h>

static void wait_for(long milliseconds) {
    struct timespec time = {milliseconds / 1000, milliseconds % 1000 * 1000000};
    nanosleep(&time, NULL);
}

/* Does what one part says: of a call of this name that is the process's so manieth. */
static void do_part(const char *part, const char *name, long number) {
    const char *colon = strchr(part, ':');
    if (!colon) return;
    long told = strtol(colon + 1, NULL, 10);
    size_t len = (size_t)(colon - part);
    if (len == 4 && strncmp(part, "stop", 4) == 0) {
        if (number >= told) raise(SIGSTOP);
    } else if ((len == strlen(name) && strncmp(part, name, len) == 0) || strtol(part, NULL, 10) == number) {
        wait_for(told);
    }
}

static void delay(const char *name) {
    static long number;
    static pid_t process;
    const char *part = getenv("DILLUVAS_DELAY");
    if (process != getpid()) number = 0;
    process = getpid();
    number++;
    while (part) {
        do_part(part, name, number);
        part = strchr(part, ',');
        if (part) part++;
    }
}

#define DELAYED(name, parameters, arguments) DELAYED_AS(int, name, name, parameters, arguments)

/* A call of the system whose name may be another in the program. */
#define DELAYED_AS(type, symbol, name, parameters, arguments) \
    type symbol parameters { \
        static type (*next) parameters; \
        if (!next) *(void **)&next = dlsym(RTLD_NEXT, #symbol); \
        delay(#name); \
        return next arguments; \
    }

DELAYED(flock, (int descriptor, int how), (descriptor, how))
DELAYED(link, (const char *old, const char *new), (old, new))
DELAYED(rename, (const char *old, const char *new), (old, new))
DELAYED(unlink, (const char *path), (path))
DELAYED(fsync, (int descriptor), (descriptor))
DELAYED(fdatasync, (int descriptor), (descriptor))
DELAYED(close, (int descriptor), (descriptor))
DELAYED(ftruncate, (int descriptor, off_t size), (descriptor, size))
DELAYED(stat, (const char *path, struct stat *found), (path, found))
DELAYED(lstat, (const char *path, struct stat *found), (path, found))
DELAYED(fstat, (int descriptor, struct stat *found), (descriptor, found))
DELAYED_AS(int, ftruncate64, ftruncate, (int descriptor, off64_t size), (descriptor, size))
DELAYED_AS(int, stat64, stat, (const char *path, struct stat64 *found), (path, found))
DELAYED_AS(int, lstat64, lstat, (const char *path, struct stat64 *found), (path, found))
DELAYED_AS(int, fstat64, fstat, (int descriptor, struct stat64 *found), (descriptor, found))
DELAYED_AS(int, statx, stat, (int folder, const char *path, int flags, unsigned mask, struct statx *found),
           (folder, path, flags, mask, found))
DELAYED_AS(ssize_t, pread, pread, (int descriptor, void *bytes, size_t len, off_t at), (descriptor, bytes, len, at))
DELAYED_AS(ssize_t, pread64, pread, (int descriptor, void *bytes, size_t len, off64_t at), (descriptor, bytes, len, at))
DELAYED_AS(ssize_t, pwrite, pwrite, (int descriptor, const void *bytes, size_t len, off_t at), (descriptor, bytes, len, at))
DELAYED_AS(ssize_t, pwrite64, pwrite, (int descriptor, const void *bytes, size_t len, off64_t at), (descriptor, bytes, len, at))

/* `open` has a mode where a file may be made. */
#define DELAYED_OPEN(symbol) \
    int symbol(const char *path, int flags, ...) { \
        static int (*next)(const char *, int, ...); \
        va_list arguments; \
        if (!next) *(void **)&next = dlsym(RTLD_NEXT, #symbol); \
        va_start(arguments, flags); \
        mode_t mode = flags & O_CREAT ? va_arg(arguments, mode_t) : 0; \
        va_end(arguments); \
        delay("open"); \
        return next(path, flags, mode); \
    }

DELAYED_OPEN(open)
DELAYED_OPEN(open64)
