/* Asks how much the pages of a cache over a file take, beside what the library says in memory where the same was done: of so many pages, in and
 * out of memory, and of maps, names, links, batches and free pages; and lets each read fail in turn. Prints the line of each check that fails:
 * the status is 1 then. Linked with steps.c and failing.c. Usage: amplification FOLDER [few], in which it makes its files: of 100,000 pages only
 * without the second word. */
#include "steps.h"
#include <fcntl.h>
#include <inttypes.h>
#include <stdio.h>
#include <stdlib.h>
#include <time.h>
#include <unistd.h>

enum { SEGMENT = 4096, LEAF = 128 };

/* Of a page: as dilluvas_page_size tells it. */
static uint64_t size_of_page(dilluvas_file *file, uint64_t page) {
    uint64_t bytes = UINT64_MAX;
    CALL(dilluvas_page_size(&file->cache, page, &bytes));
    return bytes;
}

static uint64_t count_pages(dilluvas_file *file) {
    uint64_t pages = 0;
    CALL(dilluvas_page_count(&file->cache, &pages));
    return pages;
}

/* What the pages take. In memory the library adds them in one call, and is asked for each, too. */
static uint64_t pages_of(dilluvas_file *file) {
    uint64_t log = 0, pages = 0, size = 1, sum = SEGMENT;
    if (file->buffer) status = dilluvas_file_amp(file, &log, &pages);
    else status = dilluvas_amp(&file->cache, &log, &pages);
    IS(status, DILLUVAS_OK);
    CALL(dilluvas_size(&file->cache, &size));
    IS(log, size);
    if (file->buffer) return pages;
    for (uint64_t page = 0, count = count_pages(file); page < count; page++) sum += size_of_page(file, page);
    IS(pages, sum);
    return pages;
}

/* ---- One over a file and one in memory, with the same calls. */

static dilluvas_file over, in;

static void begin_both(uint64_t capacity) {
    const dilluvas_file_settings settings = {capacity, 10, SEGMENT};
    const dilluvas_file closed = DILLUVAS_FILE_CLOSED;
    over = in = closed;
    IS(dilluvas_file_open(&over, path, &settings), DILLUVAS_OK);
    IS(dilluvas_open_memory(&in.cache, &in_memory), DILLUVAS_OK);
}

/* Opens the file again, so that no page of it is in memory. */
static void open_again(uint64_t capacity) {
    const dilluvas_file_settings settings = {capacity, 10, SEGMENT};
    flushes(&over);
    IS(dilluvas_file_close(&over), DILLUVAS_OK);
    IS(dilluvas_file_open(&over, path, &settings), DILLUVAS_OK);
}

static void are_alike(void) {
    uint64_t wanted = pages_of(&in);
    IS(pages_of(&over), wanted);
    IS(count_pages(&over), count_pages(&in));
}

static void end_both(void) {
    end(&in);
    end(&over);
}

/* A leaf of one pair, whose value has more or fewer bytes. */
static void allocate_leaf(dilluvas_file *file, uint32_t number) {
    static const uint8_t value[300];
    uint8_t pairs[512];
    uint64_t page, stamp;
    size_t len = dilluvas_put(pairs, sizeof pairs, 0, &number, 4, value, number * 7 % 300);
    CALL(dilluvas_allocate(&file->cache, pairs, len, &page, &stamp));
}

static uint64_t milliseconds(void) {
    struct timespec now;
    clock_gettime(CLOCK_MONOTONIC, &now);
    return (uint64_t)now.tv_sec * 1000 + (uint64_t)now.tv_nsec / 1000000;
}

/* So many pages: what isn't flushed, what is, what isn't in memory, and what was read just now. No page is read more than twice, by pieces that
 * failing.c cuts and interrupts. */
static void so_many_pages(uint32_t count, uint64_t capacity) {
    begin_both(capacity);
    for (uint32_t number = 0; number < count; number++) {
        allocate_leaf(&over, number);
        allocate_leaf(&in, number);
    }
    are_alike();
    open_again(capacity);
    all_goes_well();
    uint64_t live, began = milliseconds(), pages = pages_of(&over), took = milliseconds() - began;
    IS(made[READS] <= 8 * (long)count, true);
    IS(pages, pages_of(&in));
    are_alike();
    began = milliseconds();
    DILLUVAS_FILE_CALL(&over, status, dilluvas_live(&over.cache, &live));
    if (count == 100000) printf("%u pages, of which %s stay in memory: %" PRIu64 " ms; dilluvas_live: %" PRIu64 " ms\n", count, capacity > 4096 ? "all" : "few", took, milliseconds() - began);
    for (uint64_t page = 2; page < count + 2; page += count > 1000 ? 1000 : 3) {
        /* the file was opened again */
        frees(&over, page, 0);
        frees(&in, page, 1);
    }
    are_alike();
    end_both();
}

/* ---- Random calls. */

static unsigned seed;

static unsigned below(unsigned n) {
    seed = seed * 1103515245 + 12345;
    return (seed >> 16) % n;
}

enum { CALLS = 14, VALUE = 400 };

/* What a call is given: which page, name and key, and how long a value. */
struct choice {
    unsigned kind, page, name, key, len;
};

static uint64_t stamp_of(dilluvas_file *file, uint64_t page) {
    dilluvas_found found = {0, 0, 0, false};
    DILLUVAS_FILE_CALL(file, status, dilluvas_get(&file->cache, page, &found, NULL, 0));
    return found.stamp;
}

/* Makes a call, and returns its status. */
static dilluvas_status make(dilluvas_file *file, const struct choice *chosen) {
    static const uint8_t value[VALUE];
    const uint8_t name[2] = {(uint8_t)chosen->name, 'n'}, key[2] = {(uint8_t)chosen->key, 'k'};
    uint8_t pairs[2 * VALUE];
    uint64_t page = chosen->page, stamp = stamp_of(file, page), number;
    size_t len = dilluvas_put(pairs, sizeof pairs, 0, key, 2, value, chosen->len), written;
    bool had;
#define MAKE(call) DILLUVAS_FILE_CALL(file, status, call)
    switch (chosen->kind) {
    case 0: MAKE(dilluvas_allocate(&file->cache, pairs, len, &number, &stamp)); break;
    case 1: MAKE(dilluvas_set(&file->cache, page, &stamp, key, 2, value, chosen->len)); break;
    case 2: MAKE(dilluvas_del(&file->cache, page, &stamp, key, 2)); break;
    case 3: MAKE(dilluvas_replace(&file->cache, page, &stamp, pairs, len)); break;
    case 4: MAKE(dilluvas_free(&file->cache, page, &stamp)); break;
    case 5: MAKE(dilluvas_open_tree(&file->cache, name, 1 + chosen->key % 2, &number)); break;
    case 6: MAKE(dilluvas_generate_id(&file->cache, &number)); break;
    case 7: MAKE(dilluvas_pin(&file->cache)); break;
    case 8: MAKE(chosen->key % 2 ? dilluvas_seal(&file->cache) : dilluvas_cancel(&file->cache)); break;
    case 9: MAKE(dilluvas_flush(&file->cache, &written)); break;
    case 10: MAKE(dilluvas_map_drop(&file->cache, name, 2, &had)); break;
    case 11: MAKE(dilluvas_map_del(&file->cache, name, 2, key, 2, &had)); break;
    default: MAKE(dilluvas_map_set(&file->cache, name, 2, key, 2, value, chosen->len, &had)); break;
    }
    return status;
}

/* Maps are made by names of two bytes, and pages are changed by their numbers only where no map is. */
static void random_calls(unsigned count, uint64_t capacity) {
    bool has_maps = seed % 2;
    begin_both(capacity);
    for (unsigned n = 0; n < count; n++) {
        struct choice chosen = {below(CALLS), 2 + below(20), below(3), below(200), below(VALUE)};
        bool is_of_page = chosen.kind < 5, is_of_map = chosen.kind > 9;
        if (has_maps ? is_of_page : is_of_map) chosen.kind = has_maps ? 12 : chosen.kind % 3;
        if (chosen.kind == 5 && has_maps) chosen.kind = 12;
        dilluvas_status wanted = make(&in, &chosen), answer = make(&over, &chosen);
        /* where the file was opened again, another id needs a new counter */
        if (chosen.kind != 6) IS(answer, wanted);
        if (n % 16 == 0) are_alike();
        if (n % 100 == 99) {
            const struct choice closes = {8, 2, 0, 1, 0};
            IS(make(&over, &closes), make(&in, &closes));
            open_again(capacity);
            are_alike();
        }
    }
    are_alike();
    /* each page is one record then */
    const struct choice closes = {8, 2, 0, 1, 0};
    make(&in, &closes);
    make(&over, &closes);
    IS(dilluvas_file_compact(&over), DILLUVAS_OK);
    are_alike();
    end_both();
}

/* ---- What a page takes. */

static void a_page_takes_what_it_has(bool is_over_file) {
    dilluvas_file at = is_over_file ? opened() : opened_in_memory(), *file = &at;
    uint64_t page, stamp = 1, root = 0, other_root = 0, bytes = 7;
    IS(count_pages(file), 2);
    IS(size_of_page(file, 0), 0);
    IS(size_of_page(file, 1), 8);
    IS(pages_of(file), SEGMENT + 8);
    allocates(file, 2, 1);
    allocates(file, 3, 1);
    IS(count_pages(file), 4);
    IS(size_of_page(file, 2), LEAF);
    sets(file, 2, 1, "value", 5);
    IS(size_of_page(file, 2), LEAF + 1 + 5);
    frees(file, 3, 1);
    IS(size_of_page(file, 3), 0);
    IS(size_of_page(file, 4), 0);
    IS(count_pages(file), 4);
    CALL(dilluvas_cas_root(&file->cache, TEXT("name"), &root, 2));
    CALL(dilluvas_cas_root(&file->cache, TEXT("other"), &other_root, 2));
    IS(size_of_page(file, 0), 4 + 8 + 5 + 8);
    /* the leaf is one page, and the index over it another, which has the empty key and the page's number */
    CALL(dilluvas_open_tree(&file->cache, TEXT("tree"), &page));
    IS(size_of_page(file, page), LEAF + 8);
    IS(pages_of(file), SEGMENT + 8 + 37 + (LEAF + 6) + LEAF + (LEAF + 8));
    DILLUVAS_FILE_CALL(file, status, dilluvas_page_size(&file->cache, UINT64_MAX - 666, &bytes));
    IS(status, DILLUVAS_RESERVED_ID);
    IS(bytes, 7);
    CALL(dilluvas_pin(&file->cache));
    CALL(dilluvas_replace(&file->cache, 2, (stamp = 2, &stamp), NULL, 0));
    IS(pages_of(file), SEGMENT + 8 + 37 + LEAF + LEAF + (LEAF + 8));
    CALL(dilluvas_seal(&file->cache));
    end(file);
}

/* ---- Refusals. */

static dilluvas_status ask(dilluvas_file *file) {
    uint64_t log = 3, pages = 5;
    status = dilluvas_file_amp(file, &log, &pages);
    IS(log == 3 && pages == 5, status != DILLUVAS_OK);
    return status;
}

/* A file with 30 pages, some of several records, none of which is in memory. */
static dilluvas_file of_30_pages(void) {
    dilluvas_file file = opened();
    for (uint32_t number = 0; number < 30; number++) allocate_leaf(&file, number);
    for (uint64_t page = 2; page < 9; page++)
        for (uint64_t stamp = 1; stamp < page; stamp++) sets(&file, page, stamp, "value", 5);
    flushes(&file);
    IS(dilluvas_file_close(&file), DILLUVAS_OK);
    return opened();
}

static void each_read_fails_in_turn(void) {
    dilluvas_file file = of_30_pages();
    uint64_t wanted = pages_of(&file);
    long tried = 0, refused = 0;
    bool did_fail = true;
    for (; did_fail; tried++) {
        IS(dilluvas_file_close(&file), DILLUVAS_OK);
        file = opened();
        all_goes_well();
        fails_at[READS] = tried;
        dilluvas_status answer = ask(&file);
        did_fail = made[READS] > tried;
        /* a piece may be read by several calls, of which the first were enough */
        if (answer != DILLUVAS_OK) IS(answer == DILLUVAS_READ && did_fail, true);
        if (answer != DILLUVAS_OK) refused++;
        all_goes_well();
        IS(pages_of(&file), wanted);
    }
    IS(refused >= 30, true);
    printf("%ld of %ld failing reads were told\n", refused, tried - 1);
    end(&file);
}

/* A page that can't be read is told as its own reads tell it, and the others can be asked for. */
static void a_damaged_page_is_told(void) {
    dilluvas_file file = opened();
    for (uint64_t page = 2; page < 5; page++) allocates(&file, page, 1);
    flushes(&file);
    uint64_t wanted = pages_of(&file), bytes = 7;
    IS(dilluvas_file_close(&file), DILLUVAS_OK);
    file = opened();
    size_t len;
    uint8_t *content = bytes_of(path, &len);
    int descriptor = open(path, O_WRONLY);
    /* behind nine bytes, a gate's eight, and two records of 17 and 18 bytes: the head of page 2 has 17, and its payload begins so */
    off_t at = 9 + 8 + 35 + 1 + 8 + 17 + 6;
    IS(__real_pwrite(descriptor, "\7", 1, at), 1);
    DILLUVAS_FILE_CALL(&file, status, dilluvas_page_size(&file.cache, 2, &bytes));
    IS(status, DILLUVAS_CORRUPTION);
    IS(bytes, 7);
    IS(ask(&file), DILLUVAS_CORRUPTION);
    IS(size_of_page(&file, 3), LEAF);
    IS(__real_pwrite(descriptor, content + at, 1, at), 1);
    IS(pages_of(&file), wanted);
    close(descriptor);
    free(content);
    end(&file);
}

static void others_are_told(void) {
    dilluvas_file closed = DILLUVAS_FILE_CLOSED, file = of_30_pages();
    uint64_t log = 3, pages = 5;
    IS(dilluvas_file_amp(NULL, &log, &pages) + dilluvas_file_amp(&file, NULL, &pages) + dilluvas_file_amp(&file, &log, NULL), 3 * DILLUVAS_ARGUMENTS);
    IS(dilluvas_page_count(NULL, &pages) + dilluvas_page_count(&file.cache, NULL), 2 * DILLUVAS_ARGUMENTS);
    IS(dilluvas_page_size(NULL, 2, &pages) + dilluvas_page_size(&file.cache, 2, NULL), 2 * DILLUVAS_ARGUMENTS);
    IS(ask(&closed), DILLUVAS_NOT_OPEN);
    IS(dilluvas_page_count(&closed.cache, &pages), DILLUVAS_NOT_OPEN);
    IS(dilluvas_page_size(&closed.cache, 2, &pages), DILLUVAS_NOT_OPEN);
    IS(dilluvas_amp(&file.cache, &log, &pages), DILLUVAS_NOT_OVER_FILE);
    allocates(&file, 32, 1);
    all_goes_well();
    fails_at[SYNCS] = 0;
    size_t written;
    DILLUVAS_FILE_CALL(&file, status, dilluvas_flush(&file.cache, &written));
    IS(status, DILLUVAS_WRITE);
    all_goes_well();
    IS(ask(&file), DILLUVAS_WRITE);
    IS(dilluvas_page_count(&file.cache, &pages), DILLUVAS_WRITE);
    IS(dilluvas_page_size(&file.cache, 2, &pages), DILLUVAS_WRITE);
    IS(log == 3 && pages == 5, true);
    end(&file);
}

int main(int count, char **arguments) {
    static const uint32_t counts[] = {0, 1, 2, 3, 16, 17, 1000, 100000};
    if (count < 2 || !begin(arguments[1], "amplification")) return 2;
    size_t last = count > 2 ? 7 : 8;
    for (size_t i = 0; i < last; i++) {
        so_many_pages(counts[i], 4096);
        so_many_pages(counts[i], (uint64_t)1 << 40);
    }
    for (unsigned first = 0; first < 20; first++) {
        seed = first;
        random_calls(count > 2 ? 200 : 1000, first % 3 ? 4096 : 1 << 20);
    }
    a_page_takes_what_it_has(false);
    a_page_takes_what_it_has(true);
    each_read_fails_in_turn();
    a_damaged_page_is_told();
    others_are_told();
    if (failures == 0) printf("amplification: passed\n");
    return failures != 0;
}
