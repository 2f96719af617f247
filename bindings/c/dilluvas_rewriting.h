/* Rewriting the file of a cache step by step, while the cache is used. The loops over files use it: dilluvas_file.c, and those of the crate and
 * of the Python package. A program calls dilluvas_file_flush.
 *
 * A step reads a part of the records of the old file, and remembers where the records are that make each page: 16 bytes for a page, and 16
 * for each of its links. Then it copies these records to the new file, page by page, byte for byte. What changes after a page was copied is
 * copied after it. So neither file is in memory, and the new one describes the same pages as the old one once both are level.
 *
 * docs/FORMAT.md has the format. Nothing here is proved. */
#ifndef DILLUVAS_REWRITING_H
#define DILLUVAS_REWRITING_H

#include "dilluvas.h"

#ifdef __cplusplus
extern "C" {
#endif

typedef struct dilluvas_rewriting dilluvas_rewriting;

/* Whether the disk of a file has room for a new file of so many bytes, and for what is written to the old one until that is whole. */
bool dilluvas_rewriting_has_room(int from, uint64_t bytes);

/* Begins a rewriting, or answers null where there is no memory. */
dilluvas_rewriting *dilluvas_rewriting_begin(void);

/* Goes on with the rewriting of the file `from` into `to`, an empty file at first that nobody else writes to. Both are open for reading and
 * writing and are the same at each step. Nothing may be pending in the cache of `from`: a flush answered OK last, so no batch is open.
 *
 * `work` is about how many bytes are read and copied; each record of a page that is copied counts 1,024 more. A record is never split, so a
 * long one takes a long step. Once all of `from` was read, each step reads what was added since, whatever that takes, and leaves fewer pages to
 * be copied: so it ends where `work` is more than `from` grew by since the last step.
 * `*level` tells whether `to` describes the pages of `from` now: it is whole then, but not synced. The next step brings it level again.
 *
 * Returns OK; ARGUMENTS; MEMORY; READ; WRITE, or DISK_FULL, where a write to `to` failed; CORRUPTION where `from` isn't the file of a cache. At
 * READ, WRITE and DISK_FULL errno tells why. The rewriting can't go on after an error. `from` is never written to. */
dilluvas_status dilluvas_rewriting_step(dilluvas_rewriting *rewriting, int from, int to, uint64_t work, bool *level);

/* Up to where the new file stays as it is, whatever is copied later. Once both are level all of it stays. */
uint64_t dilluvas_rewriting_stays(const dilluvas_rewriting *rewriting);

/* Where the cache's own pages are in the new file once both are level: from the place that is returned to the end of the file. An opening reads
 * them last, and begins that part anew where they aren't handed in before. */
uint64_t dilluvas_rewriting_own_pages(const dilluvas_rewriting *rewriting);

/* Gives the memory back. Both files stay as they are. Null is allowed. */
void dilluvas_rewriting_end(dilluvas_rewriting *rewriting);

/* ---- Reading and writing files. */

/* Writes all bytes at a place. False: errno tells why. A write beyond RLIMIT_FSIZE isn't made, since it would raise a signal. */
bool dilluvas_write_all(int descriptor, const uint8_t *bytes, size_t len, uint64_t at);

/* Reads as many bytes as there are up to the end of the file, or to bytes that can't be read, and at most `len`. Writes how many. False: none
 * could be read. */
bool dilluvas_read_up_to(int descriptor, uint8_t *bytes, size_t len, uint64_t at, size_t *got);

/* Whether the system refused something for want of room. */
bool dilluvas_is_of_room(int error);

#ifdef __cplusplus
}
#endif
#endif
