/* Files of caches that are made by hand, record by record, and what the library finds in bytes in memory. Linked with steps.c, by_hand.c and
 * failing.c. */
#ifndef BY_HAND_H
#define BY_HAND_H

#include "steps.h"

/* The page id of a record that marks a batch. */
#define MARK (UINT64_MAX - 666)

/* ---- Making a file. */

extern uint8_t by_hand[8 << 20];
extern size_t by_hand_len;

/* Begins with the opening. */
void by_hand_begins(void);

/* Begins a frame. */
void frame(void);

/* Where the next record will be. */
uint64_t place(void);

void record(uint8_t kind, uint64_t page, const uint8_t *payload, size_t len);

/* One whose payload is a number of 8 bytes. */
void number_record(uint8_t kind, uint64_t page, uint64_t number);

/* A page that is an empty leaf. */
void leaf(uint8_t kind, uint64_t page);

/* A link that sets a key of a byte. */
void link_to(uint8_t kind, uint64_t page, uint8_t key);

/* One with a payload that encodes nothing. */
void long_record(uint8_t kind, uint64_t page, size_t len);

/* Leaves bytes of the last frame out, with a closed gate in their place. */
void shorten(size_t bytes);

/* Closes the file, unless it was, with some bytes after that. */
void rest(size_t bytes);

/* Closes the file, unless it was. */
void by_hand_ends(void);

/* ---- Looking at files. */

/* What opening a file of these bytes returns. */
dilluvas_status opens(const uint8_t *bytes, size_t len);

/* Checks that the library finds the same in both, or refuses both. */
void are_alike(const uint8_t *bytes, size_t len, const uint8_t *others, size_t others_len);

/* Whether both have the same records in the same order, whatever frames they are in. */
bool have_same_records(const uint8_t *bytes, size_t len, const uint8_t *others, size_t others_len);

#endif
