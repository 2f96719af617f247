/* Files that dilluvas_file_flush rewrites step by step, for the programs that disturb it. Linked with steps.c, stepping.c and failing.c. */
#ifndef STEPPING_H
#define STEPPING_H

#include "steps.h"

enum { KEYS = 120, VALUE = 100, MOST_STEPS = 3000 };

/* Some 40 steps if nothing is changed, and one rewriting at once. */
extern const dilluvas_compact_at slowly, at_once;

/* How often all keys of the map "m" were set. It is in each value. */
extern unsigned number;

void begin_value(uint8_t *value);

void set_all(dilluvas_file *file);

/* Checks that each key has its value. */
void has_all(dilluvas_file *file);

/* Which file has a name, or 0 for none. */
ino_t file_at(const char *name);

/* Changes a file until a rewriting is begun. */
void begin_rewriting(dilluvas_file *file);

/* A file that is being rewritten. */
dilluvas_file begun(void);

/* Takes the steps of a rewriting, and returns whether the path leads to another file after them. */
bool ends_anew(dilluvas_file *file);

/* Checks that the store goes on, is rewritten with nothing left of that and no failure, and has its values after it was opened again. Removes
 * it. */
void goes_on(dilluvas_file *file);

#endif
