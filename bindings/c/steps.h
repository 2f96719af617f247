/* Steps of a cache in memory or over a file, each of which prints its line where it goes wrong, for the programs that rewrite caches. */
#ifndef STEPS_H
#define STEPS_H

#define _DEFAULT_SOURCE
#include "dilluvas_file.h"
#include "failing.h"
#include <limits.h>
#include <sys/types.h>

/* The names of a file and of a new one in its place, and its settings, with which pages leave memory. */
extern char path[PATH_MAX], other[PATH_MAX + 20];
extern const dilluvas_settings in_memory;
extern const dilluvas_file_settings over_file;

/* The status of the last call. */
extern dilluvas_status status;

/* Goes to a folder, and names a file there. */
bool begin(const char *folder, const char *name);

dilluvas_file opened(void);

/* One in memory, for the calls of one over a file. */
dilluvas_file opened_in_memory(void);

dilluvas_status compact(dilluvas_file *file);

/* Closes it, and takes its file away. */
void end(dilluvas_file *file);

off_t size_of(const char *name);

uint8_t *bytes_of(const char *name, size_t *len);

/* Whether the file has these bytes. */
bool has_bytes(const uint8_t *bytes, size_t len);

/* What a call answers in another process. */
int elsewhere(int (*call)(void));

/* A file with a text and a mode. */
void put(const char *name, const char *text, mode_t mode);

#define CALL(call) \
    do { \
        DILLUVAS_FILE_CALL(file, status, call); \
        IS(status, DILLUVAS_OK); \
    } while (0)

/* Which page is allocated, and its stamp. */
void allocates(dilluvas_file *file, uint64_t wanted, uint64_t stamp_wanted);

void sets(dilluvas_file *file, uint64_t page, uint64_t stamp, const char *value, size_t len);

void frees(dilluvas_file *file, uint64_t page, uint64_t stamp);

/* These ids are given, but for the last. */
void gives(dilluvas_file *file, uint64_t from, uint64_t to);

void flushes(dilluvas_file *file);

/* The page is a leaf of so many pairs at a stamp, or there is none where that is -1. */
void is_leaf(dilluvas_file *file, uint64_t page, int stamp, size_t pairs);

/* The name leads to the page. */
void leads(dilluvas_file *file, const char *name, uint64_t wanted);

#endif
