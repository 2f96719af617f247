/* What the programs share that let calls of the system fail: checks, and the calls. Linked with failing.c, and --wrap=pread, --wrap=pwrite,
 * --wrap=fdatasync, --wrap=fsync, --wrap=rename and --wrap=link. */
#ifndef FAILING_H
#define FAILING_H

#include <stdbool.h>
#include <sys/types.h>

/* How many checks failed, of which each prints its line. */
extern int failures;

void is(int line, unsigned long long got, unsigned long long wanted);

#define IS(got, wanted) is(__LINE__, (got), (wanted))
#define TEXT(text) (const uint8_t *)(text), sizeof(text) - 1

enum kind { READS, WRITES, SYNCS, RENAMES, KINDS };

/* How many calls of each kind were made, and before which one of a kind they begin to fail: that one alone, or all. */
extern long made[KINDS], fails_at[KINDS];
extern bool lasting;

/* Why a call fails: EIO, unless it is set. */
extern int fails_with;

/* Why no file gets a second name, unless that is 0. */
extern int no_links;

/* Nothing fails from here on, and nothing was made. */
void all_goes_well(void);

/* What is done before each write, each sync and each new name, and behind some of them. */
extern void (*watch)(void);

ssize_t __real_pwrite(int descriptor, const void *bytes, size_t len, off_t at);

#endif
