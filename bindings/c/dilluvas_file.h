/* A cache over a file of the system, for programs in C on POSIX: the loop that dilluvas.h describes, by pread, pwrite and fdatasync.
 *
 *     dilluvas_file file = DILLUVAS_FILE_CLOSED;
 *     dilluvas_status status = dilluvas_file_open(&file, "maps", NULL);
 *     if (status == DILLUVAS_OK) DILLUVAS_FILE_CHANGE(&file, status, 9, dilluvas_map_set(&file.cache, NAME, 4, KEY, 2, VALUE, 3, &had));
 *     if (status == DILLUVAS_OK) DILLUVAS_FILE_CALL(&file, status, dilluvas_map_get(&file.cache, NAME, 4, KEY, 2, buffer, room, &len));
 *     if (status == DILLUVAS_OK) status = dilluvas_file_flush(&file, NULL);
 *     dilluvas_file_close(&file);
 *
 * What dilluvas.h says that a program owes holds of a dilluvas_file too. Compile dilluvas_file.c with the program.
 *
 * The file is the process's that opened it. A process that is forked has a copy of the cache, but file and lock are one for both, so there no
 * byte of the file is read or written: a call that would write answers WRITE, one that would read answers READ, dilluvas_file_compact answers
 * WRITE, and dilluvas_file_close leaves the file locked. It is held until each process that has it has closed it, or the one that opened it.
 *
 * A write beyond RLIMIT_FSIZE isn't made, so no signal is raised: the answer is WRITE. */
#ifndef DILLUVAS_FILE_H
#define DILLUVAS_FILE_H

#include "dilluvas.h"
#include <sys/types.h>

#ifdef __cplusplus
extern "C" {
#endif

/* A cache and its file. `cache` is given to the calls of dilluvas.h; the rest is the functions' below. */
typedef struct dilluvas_file {
    dilluvas cache;
    int descriptor;
    uint8_t *buffer;
    char *path;
    dilluvas_file_settings settings;
    pid_t process;
    unsigned reads;
    uint64_t next_look;
    uint64_t room_end;
    size_t longest;
    bool keeps_room;
    bool is_full;
    struct dilluvas_file_next *next;
    dilluvas_status failure;
} dilluvas_file;

/* One before its first call, and behind dilluvas_file_close. */
#define DILLUVAS_FILE_CLOSED {DILLUVAS_CLOSED, -1, NULL, NULL, {0, 0, 0}, 0, 0, 0, 0, 0, false, false, NULL, DILLUVAS_OK}

/* Opens a cache over the file of a path, which is locked as by flock until it is closed. Null settings are DILLUVAS_FILE_SETTINGS. A file
 * that is absent or empty is made: with ".dilluvas-new" behind its name until it is whole and durable, so a crash leaves it whole or as it
 * was; only where the file system has no hard links it may leave an empty one. It has the owner and the mode of the empty one, and a link to
 * that stays. None is made where a link leads to no file. It takes no other file's place: one that came meanwhile is opened.
 *
 * Answers ARGUMENTS; ALREADY_OPEN; NO_FILE, NO_ACCESS, HELD, DISK_FULL; and what dilluvas_open_file does but NEEDS. NO_FILE is the answer
 * for the system's own files too that say that they have no bytes, as those of /proc. Nothing is open then, and what the file holds is as it
 * was. */
dilluvas_status dilluvas_file_open(dilluvas_file *file, const char *path, const dilluvas_file_settings *settings);

/* Does what the library wants of the file behind a call that answered `*status`. True: the call is to be made again. Otherwise `*status` is
 * the answer: that of the call, or WRITE, READ or MEMORY. */
bool dilluvas_file_again(dilluvas_file *file, dilluvas_status *status);

/* Makes a call until it is answered. One that changes something is better made by DILLUVAS_FILE_CHANGE. */
#define DILLUVAS_FILE_CALL(file, status, call) \
    do { \
        (status) = (call); \
    } while (dilluvas_file_again((file), &(status)))

/* Makes a call that changes pages, maps, names or ids until it is answered. Where the disk has no room for it, it isn't made, and the answer
 * is DISK_FULL. `bytes` are how many bytes of names, keys, values and pairs the call is given; dilluvas_map_drop has DILLUVAS_WHOLE_MAP.
 *
 *     DILLUVAS_FILE_CHANGE(&file, status, name_len + key_len + value_len, dilluvas_map_set(&file.cache, ..));
 *
 * DILLUVAS_FILE_CALL keeps no room for such a call: on a full disk a write of it fails, and every later call answers WRITE. */
#define DILLUVAS_FILE_CHANGE(file, status, bytes, call) \
    do { \
        (status) = dilluvas_file_keep_room((file), (bytes)); \
        if ((status) == DILLUVAS_OK) DILLUVAS_FILE_CALL(file, status, call); \
    } while (0)

#define DILLUVAS_WHOLE_MAP SIZE_MAX

/* Keeps room in the file for a change that is given so many bytes, as DILLUVAS_FILE_CHANGE does before it, and for all that is pending. The
 * length of the file stays as it is, and dilluvas_file_close gives the room back. Where the system keeps none (it does on Linux, on most file
 * systems), the answer is OK, and a write on a full disk fails.
 *
 * Answers ARGUMENTS, NOT_OPEN; DISK_FULL, behind which all that was changed before is there, can be read and flushed, and changes go on once
 * there is room; WRITE where a write failed earlier. */
dilluvas_status dilluvas_file_keep_room(dilluvas_file *file, size_t bytes);

/* Rewrites the cache into a new file, which has each page as one message, and goes on over that: it takes the place of the file, with its
 * owner and its mode, and is locked before it does, so at no moment the path leads to a file that another process may lock. Until then the
 * new file has ".dilluvas-new" behind the name of the file, as one that is being made has. One that a process left there that was killed is
 * made anew. Where this process is killed, or the power fails, the path leads to the old file or to the new one, with the same pages; all
 * that was pending is durable in the new one.
 *
 * Other names of the file (hard links) stay with the old one. A link to the file leads to the new one.
 *
 * The cache is one that was opened over the new file: each page has stamp 0. A stamp that was given before is let go, since a page may have
 * it again with other pairs. No id comes twice.
 *
 * It takes as much memory as the new file has bytes, and where pages aren't in memory up to three times as much as the old one has.
 *
 * Answers ARGUMENTS, NOT_OPEN; BATCH_OPEN; MEMORY, READ; CORRUPTION for a page that can't be read; LOG_FULL; NO_FILE and NO_ACCESS where the
 * new file can't be made, or the path doesn't lead to the file by now; HELD where a process makes one by that name. The file and the cache
 * are what they were then. So they are at WRITE too where the new file couldn't be written or synced, and at DISK_FULL, where it has no room:
 * before that all that was pending was flushed, and the room that is kept for changes was given back to it. Where the folder couldn't be
 * synced every later call answers WRITE: the new file is there, but a crash may bring back the old one. */
dilluvas_status dilluvas_file_compact(dilluvas_file *file);

/* When dilluvas_file_flush rewrites a file: once it has `times` as many bytes as its pages take, at least `least` bytes and at most `most`. */
typedef struct dilluvas_compact_at {
    uint64_t times; /* at least 2; a smaller number counts as 2 */
    uint64_t least;
    uint64_t most;
    uint64_t step; /* about how many bytes one flush reads and writes for it, or 0: one flush does all of it, as dilluvas_file_compact does */
} dilluvas_compact_at;

#define DILLUVAS_COMPACT_AT {4, 16777216, UINT64_MAX, 4194304}

/* Makes all that is pending durable, as dilluvas_flush does. Then it rewrites the file where it is time to, since a file only grows otherwise:
 * step by step, a part at each flush. NULL stands for DILLUVAS_COMPACT_AT. How much the pages take is looked at each time that the file has
 * grown by an eighth.
 * Where RLIMIT_FSIZE is less than twice the file and 4 MiB, none is begun.
 *
 * A step takes some milliseconds, and four bytes of work for each byte that the file grew by since the last one. It copies records to a new
 * file, FILE.dilluvas-new, which takes the place of the file as that of dilluvas_file_compact does once it has all of them. Neither file is
 * in memory: 16 bytes are for each page, and for each link of one. The last step opens the new file, and syncs it. A rewriting that was begun
 * ends with dilluvas_file_close, which takes the new file away, with dilluvas_file_compact, and on a full disk.
 *
 * The steps aren't proved, as dilluvas_file_compact is: they copy the records of which the library makes the pages. Before the new file takes
 * its place, it was opened, and the library found as many bytes of pages there as in the old one.
 *
 * Each page has stamp 0 after a rewriting, so this call is for programs that keep maps, and for those that let their stamps go at each flush.
 *
 * Returns what dilluvas_flush returns, whatever comes of the rewriting: one that fails leaves the file and the cache as they were, or the next
 * call returns WRITE, and it is tried again once the file has grown by half. dilluvas_file_rewriting_failure tells why. */
dilluvas_status dilluvas_file_flush(dilluvas_file *file, const dilluvas_compact_at *when);

/* Why the last rewriting by dilluvas_file_flush failed: OK where none did since the file was opened, or since a rewriting replaced it, one in
 * steps or dilluvas_file_compact. The flush itself succeeded: all that was changed is durable, and the file and the cache are as they were. But
 * the file goes on growing as long as no rewriting succeeds, so a program may look at this after a flush, and tell its user the text of the
 * status (dilluvas_text). The rewriting is tried again once the file has grown by half.
 *
 * NO_ACCESS, NO_FILE or HELD where the folder takes no new file, or the path doesn't lead to the file by now; DISK_FULL, also where the disk has
 * too little room to begin, or a change took the room of the new file; READ, WRITE, MEMORY; LOG_FULL where the new file got too long, since so
 * much was changed meanwhile; CORRUPTION where the pages of the new file aren't those of the old one, or the old one is damaged. At WRITE the
 * next call may return WRITE too: then the folder couldn't be synced.
 *
 * A dilluvas_file_compact that fails returns its status itself, and leaves this one. So does a child that was forked, which takes no step.
 *
 * Answers ARGUMENTS and NOT_OPEN too. */
dilluvas_status dilluvas_file_rewriting_failure(const dilluvas_file *file);

/* Writes how many bytes the log has, and how many the pages would take by their contents, including a segment, as dilluvas_amp does in memory;
 * 2^64 - 1 means that or more. What is pending is in the pages, but not in the log.
 *
 * It reads the pages that aren't in memory one after another, as dilluvas_get does: those that were used longest ago are dropped for them
 * within the capacity. What it reads of the file for a page is let go before the next one, so it takes time for each page, but no memory
 * beside 16 bytes for each at the beginning. Nothing is changed, in an open batch either.
 *
 * No other call comes between, so it is one answer. A program that makes the calls itself (dilluvas_page_count, dilluvas_page_size), with
 * changes between them, gets each page as it is when the call comes to it.
 *
 * Answers ARGUMENTS, NOT_OPEN; MEMORY, READ; CORRUPTION for a page that can't be read; WRITE where a write failed earlier. Nothing is written
 * then, and the call may be made again. */
dilluvas_status dilluvas_file_amp(dilluvas_file *file, uint64_t *log, uint64_t *pages);

/* Closes the cache and the file. Nothing is flushed.
 *
 * Answers ARGUMENTS, NOT_OPEN. */
dilluvas_status dilluvas_file_close(dilluvas_file *file);

#ifdef __cplusplus
}
#endif
#endif
