#include "script_lines.h"
#include "dilluvas.h"
#include <string.h>

/* The bytes up to one that is no part of them, which is taken too. False: there is no such byte, and they are all. */
static bool cut_at(text *rest, uint8_t mark, text *front) {
    uint8_t *found = rest->len ? memchr(rest->at, mark, rest->len) : NULL;
    *front = *rest;
    if (!found) return false;
    front->len = (size_t)(found - rest->at);
    rest->at = found + 1;
    rest->len -= front->len + 1;
    return true;
}

words words_of(text line) {
    return (words){line, false};
}

text next_word(words *left) {
    text word = {left->rest.at, 0};
    if (!left->are_done) left->are_done = !cut_at(&left->rest, ' ', &word);
    return word;
}

bool is_word(text word, const char *wanted) {
    return word.len == strlen(wanted) && memcmp(word.at, wanted, word.len) == 0;
}

static bool read_number(text word, uint64_t *number) {
    if (word.len == 0 || (word.len > 1 && word.at[0] == '0')) return false;
    *number = 0;
    for (size_t i = 0; i < word.len; i++) {
        if (word.at[i] < '0' || word.at[i] > '9') return false;
        uint64_t digit = word.at[i] - (uint64_t)'0';
        if (*number > (UINT64_MAX - digit) / 10) return false;
        *number = *number * 10 + digit;
    }
    return true;
}

bool take_number(words *left, uint64_t *number) {
    return read_number(next_word(left), number);
}

/* The library has no word for a root page 0, which stands for none there. */
bool take_root(words *left, uint64_t *page) {
    text word = next_word(left);
    *page = 0;
    return is_word(word, "-") || (read_number(word, page) && *page != 0);
}

/* The value of a digit, or -1. */
static int hex_value(uint8_t digit) {
    if (digit >= '0' && digit <= '9') return digit - '0';
    if (digit >= 'a' && digit <= 'f') return digit - 'a' + 10;
    return -1;
}

static bool read_bytes(text word, text *bytes) {
    *bytes = (text){word.at, 0};
    if (is_word(word, "-")) return true;
    if (word.len == 0 || word.len % 2 != 0) return false;
    for (size_t i = 0; i < word.len; i += 2) {
        int high = hex_value(word.at[i]), low = hex_value(word.at[i + 1]);
        if (high < 0 || low < 0) return false;
        bytes->at[bytes->len++] = (uint8_t)(high * 16 + low);
    }
    return true;
}

bool take_bytes(words *left, text *bytes) {
    return read_bytes(next_word(left), bytes);
}

bool take_pairs(words *left, uint8_t *pairs, size_t *len) {
    *len = 0;
    while (!left->are_done) {
        text value = next_word(left), key;
        if (!cut_at(&value, '=', &key) || !read_bytes(key, &key) || !read_bytes(value, &value)) return false;
        *len = dilluvas_put(pairs, PAIRS_ROOM, *len, key.at, (uint32_t)key.len, value.at, (uint32_t)value.len);
        if (*len == 0) return false;
    }
    return true;
}
