#include "by_hand.h"
#include <stdlib.h>

/* ---- Making a file. */

uint8_t by_hand[8 << 20];
size_t by_hand_len;

/* Where the frame begins that is being made, or 0, and whether the file is closed. */
static size_t frame_at;
static bool is_closed;

static void put_number(uint8_t *bytes, uint64_t number) {
    for (int i = 0; i < 8; i++) bytes[i] = (uint8_t)(number >> 8 * i);
}

static uint64_t number_at(const uint8_t *bytes) {
    uint64_t number = 0;
    for (int i = 7; i >= 0; i--) number = number << 8 | bytes[i];
    return number;
}

void by_hand_begins(void) {
    memcpy(by_hand, "SLPCLOG1", 8);
    by_hand_len = 8;
    frame_at = 0;
    is_closed = false;
}

static void end_frame(void) {
    if (frame_at) put_number(by_hand + frame_at - 8, by_hand_len - frame_at);
    frame_at = 0;
}

void frame(void) {
    end_frame();
    by_hand[by_hand_len] = 1;
    by_hand_len += 9;
    frame_at = by_hand_len;
}

uint64_t place(void) {
    return by_hand_len;
}

void record(uint8_t kind, uint64_t page, const uint8_t *payload, size_t len) {
    uint8_t *head = by_hand + by_hand_len;
    head[0] = kind;
    put_number(head + 1, page);
    put_number(head + 9, len);
    if (len) memcpy(head + 17, payload, len);
    by_hand_len += 17 + len;
}

void number_record(uint8_t kind, uint64_t page, uint64_t number) {
    uint8_t payload[8];
    put_number(payload, number);
    record(kind, page, payload, sizeof payload);
}

void leaf(uint8_t kind, uint64_t page) {
    static const uint8_t empty[8] = {0};
    record(kind, page, empty, sizeof empty);
}

void link_to(uint8_t kind, uint64_t page, uint8_t key) {
    const uint8_t payload[5] = {0, 1, key, 1, 'v'};
    record(kind, page, payload, sizeof payload);
}

void long_record(uint8_t kind, uint64_t page, size_t len) {
    static uint8_t payload[1 << 20];
    for (size_t i = 0; i < len; i++) payload[i] = (uint8_t)(i * 7 + i / 251);
    record(kind, page, payload, len);
}

void shorten(size_t bytes) {
    by_hand_len -= bytes;
    by_hand_ends();
}

void by_hand_ends(void) {
    if (is_closed) return;
    end_frame();
    by_hand[by_hand_len++] = 0;
    is_closed = true;
}

void rest(size_t bytes) {
    by_hand_ends();
    memset(by_hand + by_hand_len, 1, bytes);
    by_hand_len += bytes;
}

/* ---- Looking at files. */

/* A cache over bytes in memory. */
typedef struct store {
    dilluvas cache;
    uint8_t *bytes;
    size_t len;
} store;

/* Does what the library wants after a call, and returns whether that is to be made again. */
static bool again(store *store, dilluvas_status *answer) {
    static uint8_t buffer[65536];
    dilluvas_task task;
    uint64_t at = 0;
    size_t len = 0;
    while (dilluvas_next_task(&store->cache, &task, buffer, sizeof buffer) == DILLUVAS_OK && task.kind != DILLUVAS_NOTHING) {
        if (task.kind == DILLUVAS_WRITE_BYTES && task.at + task.len <= store->len) memcpy(store->bytes + task.at, buffer, task.len);
    }
    if (*answer != DILLUVAS_NEEDS) return false;
    *answer = dilluvas_needs(&store->cache, &at, &len);
    if (at > store->len || len > store->len - at) *answer = DILLUVAS_READ;
    if (*answer == DILLUVAS_OK) *answer = dilluvas_hand_in(&store->cache, at, store->bytes + at, len);
    if (*answer != DILLUVAS_OK) dilluvas_forget(&store->cache);
    return *answer == DILLUVAS_OK;
}

#define ASK(store, answer, call) \
    do { \
        (answer) = (call); \
    } while (again((store), &(answer)))

/* Room is left for the frame that says that a batch was abandoned. */
static dilluvas_status open_store(store *store, const uint8_t *bytes, size_t len) {
    static const dilluvas closed = DILLUVAS_CLOSED;
    dilluvas_status answer;
    store->cache = closed;
    store->len = len + 100;
    store->bytes = calloc(1, store->len);
    memcpy(store->bytes, bytes, len);
    ASK(store, answer, dilluvas_open_file(&store->cache, &over_file, len));
    return answer;
}

static void close_store(store *store) {
    dilluvas_close(&store->cache);
    free(store->bytes);
}

dilluvas_status opens(const uint8_t *bytes, size_t len) {
    store opened;
    dilluvas_status answer = open_store(&opened, bytes, len);
    close_store(&opened);
    return answer;
}

static void have_same_pages(store *one, store *other) {
    static uint8_t pairs[65536], others[65536];
    for (uint64_t page = 0; page < 12; page++) {
        dilluvas_found found = {0, 0, 0, false}, there = found;
        dilluvas_status wanted, got;
        ASK(one, wanted, dilluvas_get(&one->cache, page, &found, pairs, sizeof pairs));
        ASK(other, got, dilluvas_get(&other->cache, page, &there, others, sizeof others));
        IS(got, wanted);
        IS(there.count == found.count && there.needed == found.needed && there.is_index == found.is_index, true);
        if (wanted == DILLUVAS_OK && got == DILLUVAS_OK) IS(memcmp(pairs, others, found.needed), 0);
    }
}

void are_alike(const uint8_t *bytes, size_t len, const uint8_t *others, size_t others_len) {
    store one, other;
    uint64_t live = 0, live_there = 0, page = 0, page_there = 0, stamp;
    dilluvas_status wanted = open_store(&one, bytes, len), got = open_store(&other, others, others_len);
    IS(got, wanted);
    if (wanted == DILLUVAS_OK && got == DILLUVAS_OK) {
        have_same_pages(&one, &other);
        ASK(&one, wanted, dilluvas_live(&one.cache, &live));
        ASK(&other, got, dilluvas_live(&other.cache, &live_there));
        IS(got, wanted);
        IS(live_there, live);
        ASK(&one, wanted, dilluvas_allocate(&one.cache, NULL, 0, &page, &stamp));
        ASK(&other, got, dilluvas_allocate(&other.cache, NULL, 0, &page_there, &stamp));
        IS(got, wanted);
        IS(page_there, page);
    }
    close_store(&one);
    close_store(&other);
}

/* Writes the records of all frames, one after another. */
static uint8_t *records_of(const uint8_t *bytes, size_t len, size_t *records_len) {
    uint8_t *records = malloc(len);
    size_t at = 8;
    *records_len = 0;
    while (at + 9 < len && bytes[at]) {
        size_t body = (size_t)number_at(bytes + at + 1);
        at += 9;
        if (body > len - at) body = len - at;
        memcpy(records + *records_len, bytes + at, body);
        *records_len += body;
        at += body;
    }
    return records;
}

bool have_same_records(const uint8_t *bytes, size_t len, const uint8_t *others, size_t others_len) {
    size_t found, there;
    uint8_t *records = records_of(bytes, len, &found), *other = records_of(others, others_len, &there);
    bool are_same = found == there && memcmp(records, other, found) == 0;
    free(records);
    free(other);
    return are_same;
}
