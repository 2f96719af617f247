/* The words of a script's line, and what they encode: docs/SCRIPT.md has the rules. */
#ifndef SCRIPT_LINES_H
#define SCRIPT_LINES_H

#include <stdbool.h>
#include <stddef.h>
#include <stdint.h>

enum {
    LONGEST_LINE = 65536,         /* bytes, without the newline */
    PAIRS_ROOM = 2 * LONGEST_LINE /* what the pairs of a line take at most: 8 bytes for a space and `-=-` */
};

/* Bytes of a line. */
typedef struct text {
    uint8_t *at;
    size_t len;
} text;

/* The words of a line that are left, with one space between them. */
typedef struct words {
    text rest;
    bool are_done; /* none is left */
} words;

/* The words of a line. The first may be empty. */
words words_of(text line);

/* Takes the next word. Where none is left it is empty, which no argument is. */
text next_word(words *left);

bool is_word(text word, const char *wanted);

/* Each of these takes what it reads from the words, and answers whether it is there. */

/* A number: decimal digits without a leading zero, below 2^64. */
bool take_number(words *left, uint64_t *number);

/* A root page, or `-` for none, which is 0. */
bool take_root(words *left, uint64_t *page);

/* A byte string: lower-case hexadecimal, or `-` for none. It is decoded in place of its word. */
bool take_bytes(words *left, text *bytes);

/* All words that are left, as pairs in the form of dilluvas.h, into PAIRS_ROOM bytes. That their keys ascend isn't tested. */
bool take_pairs(words *left, uint8_t *pairs, size_t *len);

#endif
