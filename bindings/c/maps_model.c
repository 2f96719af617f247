/* Makes random calls of maps, and compares each answer with what lists of pairs in their order answer: in memory, and over a file, which is
 * closed and opened again in between, and rewritten. Prints the line of each check that fails: the status is 1 then. Linked with failing.c.
 * Usage: maps_model FOLDER [CALLS], in which it makes its file. */
#define _DEFAULT_SOURCE
#include "dilluvas_file.h"
#include "failing.h"
#include <stdio.h>
#include <stdlib.h>
#include <unistd.h>

enum { MAPS = 3, MOST_PAIRS = 4000, MOST_BYTES = 24, ROOM = 1 << 16 };

/* ---- The lists. */

typedef struct {
    uint8_t bytes[MOST_BYTES];
    size_t len;
} text;

typedef struct {
    bool is_there;
    size_t count;
    text keys[MOST_PAIRS], values[MOST_PAIRS];
} list;

static list lists[MAPS];
static const char *const names[MAPS] = {"", "pears", "pears and plums"};

#define TEXT_OF(t) (t).bytes, (t).len
#define NAME_OF(map) (const uint8_t *)names[map], strlen(names[map])

static int compared(const text *a, const text *b) {
    int first = memcmp(a->bytes, b->bytes, a->len < b->len ? a->len : b->len);
    return first ? first : (a->len > b->len) - (a->len < b->len);
}

/* How many keys are below this one, or up to it. */
static size_t place_of(const list *l, const text *key, bool up_to) {
    size_t low = 0, high = l->count;
    while (low < high) {
        size_t middle = (low + high) / 2;
        if (compared(&l->keys[middle], key) < (up_to ? 1 : 0)) low = middle + 1;
        else high = middle;
    }
    return low;
}

static bool is_at(const list *l, size_t at, const text *key) {
    return at < l->count && !compared(&l->keys[at], key);
}

static void put(list *l, size_t at, const text *key, const text *value) {
    if (!is_at(l, at, key)) {
        memmove(l->keys + at + 1, l->keys + at, (l->count - at) * sizeof(text));
        memmove(l->values + at + 1, l->values + at, (l->count - at) * sizeof(text));
        l->count++;
    }
    l->keys[at] = *key;
    l->values[at] = *value;
    l->is_there = true;
}

static void take_out(list *l, size_t at) {
    l->count--;
    memmove(l->keys + at, l->keys + at + 1, (l->count - at) * sizeof(text));
    memmove(l->values + at, l->values + at + 1, (l->count - at) * sizeof(text));
}

/* ---- The store. */

static char path[4096];
static bool over_file;
static dilluvas_file store;
static uint8_t buffer[ROOM];

#define CALL(call, wanted) \
    do { \
        dilluvas_status answer_; \
        do answer_ = (call); \
        while (over_file && dilluvas_file_again(&store, &answer_)); \
        IS(answer_, wanted); \
    } while (0)

static void open_store(void) {
    static const dilluvas_file_settings small = {8192, 10, 4096};
    dilluvas_settings settings = {8192, 10, 4096, 512, 16};
    store = (dilluvas_file)DILLUVAS_FILE_CLOSED;
    if (over_file) IS(dilluvas_file_open(&store, path, &small), DILLUVAS_OK);
    else IS(dilluvas_open_memory(&store.cache, &settings), DILLUVAS_OK);
}

static void open_again(void) {
    size_t written;
    dilluvas_settings settings = {8192, 10, 4096, 512, 16};
    CALL(dilluvas_flush(&store.cache, &written), DILLUVAS_OK);
    if (!over_file) {
        IS(dilluvas_compact(&store.cache, &settings), DILLUVAS_OK);
    } else if (rand() % 2) {
        IS(dilluvas_file_compact(&store), DILLUVAS_OK);
    } else {
        IS(dilluvas_file_close(&store), DILLUVAS_OK);
        open_store();
    }
}

/* ---- The calls. */

static text random_text(size_t most) {
    text t = {.len = (size_t)rand() % (most + 1)};
    for (size_t i = 0; i < t.len; i++) t.bytes[i] = (uint8_t)(rand() % 4 * 85);
    return t;
}

static void set(int map) {
    text key = random_text(7), value = random_text(MOST_BYTES);
    size_t at = place_of(&lists[map], &key, false);
    bool had = false, wanted = is_at(&lists[map], at, &key);
    if (lists[map].count == MOST_PAIRS) return;
    CALL(dilluvas_map_set(&store.cache, NAME_OF(map), TEXT_OF(key), TEXT_OF(value), &had), DILLUVAS_OK);
    IS(had, wanted);
    put(&lists[map], at, &key, &value);
}

static void del(int map) {
    list *l = &lists[map];
    text key = l->count && rand() % 4 ? l->keys[(size_t)rand() % l->count] : random_text(7);
    size_t at = place_of(l, &key, false);
    bool had = false, wanted = is_at(l, at, &key);
    CALL(dilluvas_map_del(&store.cache, NAME_OF(map), TEXT_OF(key), &had), DILLUVAS_OK);
    IS(had, wanted);
    if (wanted) take_out(l, at);
}

static void cas(int map) {
    list *l = &lists[map];
    text key = l->count && rand() % 2 ? l->keys[(size_t)rand() % l->count] : random_text(7);
    size_t at = place_of(l, &key, false);
    bool there = is_at(l, at, &key), has_old = rand() % 2, has_new = rand() % 2;
    text old = there && rand() % 4 ? l->values[at] : random_text(2), new = random_text(MOST_BYTES);
    bool swaps = has_old ? there && !compared(&old, &l->values[at]) : !there;
    if (l->count == MOST_PAIRS) return;
    CALL(dilluvas_map_cas(&store.cache, NAME_OF(map), TEXT_OF(key), has_old, TEXT_OF(old), has_new, TEXT_OF(new)),
         swaps ? DILLUVAS_OK : DILLUVAS_STALE);
    if (swaps && has_new) put(l, at, &key, &new);
    else if (swaps && there) take_out(l, at);
}

static void get(int map) {
    list *l = &lists[map];
    text key = l->count && rand() % 2 ? l->keys[(size_t)rand() % l->count] : random_text(7);
    size_t at = place_of(l, &key, false), needed = 0;
    bool there = is_at(l, at, &key);
    CALL(dilluvas_map_get(&store.cache, NAME_OF(map), TEXT_OF(key), buffer, ROOM, &needed), there ? DILLUVAS_OK : DILLUVAS_NONE);
    IS(!there || (needed == l->values[at].len && !memcmp(buffer, l->values[at].bytes, needed)), true);
}

/* The pair that is read next is this one. */
static void pair_is(const uint8_t *pairs, size_t len, size_t *at, const list *l, size_t place) {
    dilluvas_pair pair = {NULL, NULL, 0, 0};
    IS(dilluvas_next(pairs, len, at, &pair), true);
    IS(place < l->count, true);
    if (place >= l->count) return;
    IS(pair.key_len == l->keys[place].len && !memcmp(pair.key, l->keys[place].bytes, pair.key_len), true);
    IS(pair.value_len == l->values[place].len && !memcmp(pair.value, l->values[place].bytes, pair.value_len), true);
}

static void next(int map) {
    list *l = &lists[map];
    text key = random_text(7);
    uint32_t side = (uint32_t)rand() % 6;
    size_t places[] = {place_of(l, &key, true), place_of(l, &key, false), place_of(l, &key, false) - 1, place_of(l, &key, true) - 1, 0, l->count - 1};
    size_t place = places[side], needed = 0, at = 0;
    CALL(dilluvas_map_next(&store.cache, NAME_OF(map), side, TEXT_OF(key), buffer, ROOM, &needed),
         place < l->count ? DILLUVAS_OK : DILLUVAS_NONE);
    if (place >= l->count) return;
    pair_is(buffer, needed, &at, l, place);
    IS(at, needed);
}

/* Goes through the pairs within two bounds, piece by piece: on by the key from which the others are, or by the last one that was read. */
static void walk(int map, bool counts) {
    list *l = &lists[map];
    text from = random_text(7), to = random_text(7);
    uint32_t from_kind = (uint32_t)rand() % 3, to_kind = (uint32_t)rand() % 3;
    size_t place = from_kind == DILLUVAS_UNBOUNDED ? 0 : place_of(l, &from, from_kind == DILLUVAS_EXCLUDED);
    size_t end = to_kind == DILLUVAS_UNBOUNDED ? l->count : place_of(l, &to, to_kind == DILLUVAS_INCLUDED);
    dilluvas_piece piece = {0, 0, 0, true};
    if (end < place) end = place;
    for (int i = 0; i < 10000 && piece.more; i++) {
        if (counts)
            CALL(dilluvas_map_count(&store.cache, NAME_OF(map), from_kind, TEXT_OF(from), to_kind, TEXT_OF(to), buffer, ROOM, &piece), DILLUVAS_OK);
        else
            CALL(dilluvas_map_range(&store.cache, NAME_OF(map), from_kind, TEXT_OF(from), to_kind, TEXT_OF(to), buffer, ROOM, &piece), DILLUVAS_OK);
        IS(!counts || !piece.pairs_len, true);
        IS(piece.rest_len <= MOST_BYTES && (piece.more || !piece.rest_len) && (piece.count || !piece.more), true);
        size_t at = 0;
        for (size_t n = 0; !counts && n < piece.count; n++) pair_is(buffer, piece.pairs_len, &at, l, place + n);
        IS(at, piece.pairs_len);
        place += piece.count;
        if (place > end) break;
        if (rand() % 2 || !piece.count) {
            from_kind = DILLUVAS_INCLUDED;
            from.len = piece.rest_len;
            memcpy(from.bytes, buffer + piece.pairs_len, piece.rest_len);
        } else {
            from_kind = DILLUVAS_EXCLUDED;
            from = l->keys[place - 1];
        }
    }
    IS(place, end);
}

static void drop(int map) {
    bool had = false;
    CALL(dilluvas_map_drop(&store.cache, NAME_OF(map), &had), DILLUVAS_OK);
    IS(had, lists[map].is_there);
    lists[map].is_there = false;
    lists[map].count = 0;
}

static void list_names(void) {
    size_t needed = 0;
    bool has_after = false;
    int before = 0;
    for (int map = 0; map < MAPS; map++) {
        if (!lists[map].is_there) continue;
        CALL(dilluvas_map_name(&store.cache, has_after, NAME_OF(before), buffer, ROOM, &needed), DILLUVAS_OK);
        IS(needed == strlen(names[map]) && !memcmp(buffer, names[map], needed), true);
        has_after = true;
        before = map;
    }
    CALL(dilluvas_map_name(&store.cache, has_after, NAME_OF(before), buffer, ROOM, &needed), DILLUVAS_NONE);
}

/* A run sets more than it takes out, and the next one takes out more. */
static void call(int i, int calls) {
    int map = rand() % MAPS, turn = rand() % 100;
    bool grows = i * 4 / calls % 2 == 0;
    if (turn < 50) (rand() % 10 < (grows ? 8 : 2) ? set : del)(map);
    else if (turn < 60) cas(map);
    else if (turn < 70) get(map);
    else if (turn < 80) next(map);
    else if (turn < 88) walk(map, false);
    else if (turn < 96) walk(map, true);
    else if (turn < 99) list_names();
    else if (rand() % 20 == 0) drop(map);
    else if (rand() % 4 == 0) open_again();
}

static void run(int seed, int calls) {
    srand((unsigned)seed);
    memset(lists, 0, sizeof lists);
    open_store();
    for (int i = 0; i < calls && !failures; i++) call(i, calls);
    for (int map = 0; map < MAPS; map++) walk(map, false);
    IS(over_file ? dilluvas_file_close(&store) : dilluvas_close(&store.cache), DILLUVAS_OK);
    unlink(path);
}

int main(int count, char **words) {
    if (count < 2) return 2;
    int calls = count > 2 ? atoi(words[2]) : 4000;
    snprintf(path, sizeof path, "%s/maps", words[1]);
    all_goes_well();
    for (int seed = 1; seed <= 6 && !failures; seed++) {
        over_file = seed % 2;
        run(seed, calls);
    }
    return failures != 0;
}
