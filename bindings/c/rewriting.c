/* Rewrites files step by step while random calls change them, and compares the new file with the old one, page by page, name by name and id by
 * id; and lets each read and each write fail in turn. Prints the line of each check that fails: the status is 1 then. Linked
 * with steps.c and failing.c. Usage: rewriting FOLDER [RUNS], in which it makes its files. */
#include "steps.h"
#include "dilluvas_rewriting.h"
#include <errno.h>
#include <fcntl.h>
#include <stdio.h>
#include <stdlib.h>
#include <sys/stat.h>
#include <unistd.h>

enum { MOST_PAGES = 400, ROOM = 1 << 18, LONG = 100000 };

static char copy[PATH_MAX + 20];
static uint64_t state;
static uint8_t one[ROOM], another[ROOM], value[LONG];

static unsigned below(unsigned bound) {
    state = state * 6364136223846793005u + 1442695040888963407u;
    return (unsigned)(state >> 33) % bound;
}

/* ---- Random changes. */

/* A page that isn't of a map. */
typedef struct owned {
    uint64_t page, stamp;
} owned;

static owned pages[MOST_PAGES];
static unsigned page_count;
static bool in_batch;
static uint64_t last_id;

/* What a change may answer: done, or refused since the page or the name isn't as it was thought, or by the batch. */
static void may_be(int line, dilluvas_status answer) {
    bool is_usual = answer <= DILLUVAS_NONE || answer == DILLUVAS_BATCH_OPEN || answer == DILLUVAS_NO_BATCH;
    is(line, is_usual ? 0 : answer, 0);
}

#define CHANGE(call) \
    do { \
        DILLUVAS_FILE_CALL(file, status, call); \
        may_be(__LINE__, status); \
    } while (0)

/* Some length, now and then a long one. */
static size_t some_len(void) {
    unsigned kind = below(100);
    return kind < 2 ? below(LONG) : kind < 10 ? below(3000) : below(30);
}

static void allocate(dilluvas_file *file) {
    owned *added = &pages[page_count];
    if (page_count == MOST_PAGES) return;
    CHANGE(dilluvas_allocate(&file->cache, NULL, 0, &added->page, &added->stamp));
    page_count += status == DILLUVAS_OK;
}

static void change_page(dilluvas_file *file) {
    uint8_t key[1] = {(uint8_t)below(8)};
    owned *changed = &pages[below(page_count + 1)];
    unsigned kind = below(12);
    if (kind < 2 || changed == &pages[page_count]) {
        allocate(file);
    } else if (kind == 2) {
        CHANGE(dilluvas_free(&file->cache, changed->page, &changed->stamp));
        if (status == DILLUVAS_OK) *changed = pages[--page_count];
    } else if (kind == 3) {
        CHANGE(dilluvas_replace(&file->cache, changed->page, &changed->stamp, NULL, 0));
    } else if (kind == 4) {
        CHANGE(dilluvas_del(&file->cache, changed->page, &changed->stamp, key, 1));
    } else {
        CHANGE(dilluvas_set(&file->cache, changed->page, &changed->stamp, key, 1, value, some_len()));
    }
}

static void change_map(dilluvas_file *file) {
    uint8_t name[1] = {(uint8_t)('a' + below(3))}, key[2] = {(uint8_t)below(4), (uint8_t)below(50)};
    bool had;
    switch (below(10)) {
    case 0: CHANGE(dilluvas_map_del(&file->cache, name, 1, key, 2, &had)); break;
    case 1:
        if (below(20) == 0) CHANGE(dilluvas_map_drop(&file->cache, name, 1, &had));
        break;
    default: CHANGE(dilluvas_map_set(&file->cache, name, 1, key, 2, value, some_len(), &had)); break;
    }
}

static void change_more(dilluvas_file *file) {
    uint64_t id = 0, root = UINT64_MAX;
    uint8_t name[1] = {(uint8_t)('n' + below(3))};
    switch (below(4)) {
    case 0:
        CHANGE(dilluvas_generate_id(&file->cache, &id));
        if (status == DILLUVAS_OK) last_id = id + 1;
        break;
    case 1:
        CHANGE(dilluvas_pin(&file->cache));
        in_batch = true;
        break;
    case 2:
        if (below(2)) CHANGE(dilluvas_seal(&file->cache));
        else CHANGE(dilluvas_cancel(&file->cache));
        in_batch = false;
        break;
    default:
        CHANGE(dilluvas_root(&file->cache, name, 1, &root));
        CHANGE(dilluvas_cas_root(&file->cache, name, 1, &root, page_count && below(3) ? pages[below(page_count)].page : UINT64_MAX));
    }
}

static void changes_some(dilluvas_file *file, unsigned count) {
    for (unsigned i = 0; i < count; i++) {
        unsigned kind = below(20);
        if (kind < 12) change_page(file);
        else if (kind < 18) change_map(file);
        else change_more(file);
    }
}

/* Closes the batch and makes all durable. */
static void settles(dilluvas_file *file) {
    if (in_batch) CHANGE(dilluvas_seal(&file->cache));
    in_batch = false;
    flushes(file);
}

/* Stops inside a batch that has gone to the file in part, and opens that again. */
static void crashes(dilluvas_file *file) {
    settles(file);
    unsigned before = page_count;
    CHANGE(dilluvas_pin(&file->cache));
    for (unsigned count = below(60); count > 0; count--) change_map(file);
    while (page_count < MOST_PAGES && below(4)) allocate(file);
    IS(dilluvas_file_close(file), DILLUVAS_OK);
    *file = opened();
    page_count = before;
}

/* ---- Comparing. */

static void pages_are_alike(dilluvas_file *file, dilluvas_file *copied) {
    for (uint64_t page = 2; page < MOST_PAGES + 600; page++) {
        dilluvas_found found = {0, 0, 0, false}, there = found;
        dilluvas_status wanted, got;
        DILLUVAS_FILE_CALL(file, wanted, dilluvas_get(&file->cache, page, &found, one, ROOM));
        DILLUVAS_FILE_CALL(copied, got, dilluvas_get(&copied->cache, page, &there, another, ROOM));
        IS(got, wanted);
        IS(there.count == found.count && there.needed == found.needed && there.is_index == found.is_index, true);
        size_t len = found.needed < ROOM ? found.needed : ROOM;
        if (wanted == DILLUVAS_OK) IS(memcmp(one, another, len), 0);
        if (failures) return;
    }
}

static void names_are_alike(dilluvas_file *file, dilluvas_file *copied) {
    for (uint8_t name = 'a'; name <= 'z'; name++) {
        uint64_t wanted = 0, got = 0;
        dilluvas_status answer;
        DILLUVAS_FILE_CALL(file, status, dilluvas_root(&file->cache, &name, 1, &wanted));
        DILLUVAS_FILE_CALL(copied, answer, dilluvas_root(&copied->cache, &name, 1, &got));
        IS(answer, status);
        IS(got, wanted);
    }
}

static uint64_t live(dilluvas_file *file) {
    uint64_t bytes = 0;
    CALL(dilluvas_live(&file->cache, &bytes));
    return bytes;
}

/* Whether the new file opens, and has what the old one has. No id of the old one comes again, and the next page is the same. */
static void are_alike(dilluvas_file *file, const char *name) {
    dilluvas_file copied = DILLUVAS_FILE_CLOSED;
    uint64_t id = 0, page = 0, next = 0, stamp;
    IS(dilluvas_file_open(&copied, name, &over_file), DILLUVAS_OK);
    if (failures) return;
    pages_are_alike(file, &copied);
    names_are_alike(file, &copied);
    IS(live(&copied), live(file));
    DILLUVAS_FILE_CALL(&copied, status, dilluvas_generate_id(&copied.cache, &id));
    IS(status, DILLUVAS_OK);
    IS(id >= last_id, true);
    DILLUVAS_FILE_CALL(&copied, status, dilluvas_allocate(&copied.cache, NULL, 0, &next, &stamp));
    IS(status, DILLUVAS_OK);
    CALL(dilluvas_allocate(&file->cache, NULL, 0, &page, &stamp));
    CALL(dilluvas_free(&file->cache, page, &stamp));
    IS(next, page);
    flushes(file);
    IS(dilluvas_file_close(&copied), DILLUVAS_OK);
}

/* ---- Rewriting. */

static int new_file(void) {
    int descriptor = open(copy, O_RDWR | O_CREAT | O_TRUNC | O_CLOEXEC, 0666);
    IS(descriptor >= 0, true);
    return descriptor;
}

/* Changes a file while it is rewritten, until the new one was level several times. */
static void rewrites(dilluvas_file *file, uint64_t work, unsigned changes_between, unsigned levels) {
    dilluvas_rewriting *rewriting = dilluvas_rewriting_begin();
    int to = new_file();
    unsigned steps = 0;
    bool was_level = false;
    while (levels > 0 && !failures) {
        bool is_level = false;
        settles(file);
        /* at last nothing is changed any more, so that it ends */
        IS(dilluvas_rewriting_step(rewriting, file->descriptor, to, work, &is_level), DILLUVAS_OK);
        /* each step brings it level again, however much was changed */
        if (was_level) IS(is_level, true);
        was_level = is_level;
        if (is_level) {
            IS(dilluvas_rewriting_stays(rewriting) + 1, size_of(copy));
            are_alike(file, copy);
            levels--;
        }
        if (++steps < 4000) changes_some(file, below(changes_between + 1));
    }
    dilluvas_rewriting_end(rewriting);
    close(to);
}

static void histories(unsigned runs) {
    static const uint64_t works[] = {1, 700, 5000, 60000, 1 << 20, UINT64_MAX};
    for (unsigned run = 0; run < runs && !failures; run++) {
        state = run;
        page_count = 0;
        in_batch = false;
        last_id = 0;
        dilluvas_file file = opened();
        changes_some(&file, below(600));
        if (below(2)) crashes(&file);
        rewrites(&file, works[run % 6], run % 5 * 4, 1 + run % 3);
        if (below(4) == 0) {
            crashes(&file);
            rewrites(&file, works[below(6)], 3, 1);
        }
        if (failures) printf("run %u\n", run);
        end(&file);
        unlink(copy);
    }
}

/* ---- Where a call fails. */

/* The file has pages with links, free ones, a long record, and an abandoned batch of several frames. */
static dilluvas_file made_file(void) {
    state = 5;
    page_count = 0;
    in_batch = false;
    last_id = 0;
    dilluvas_file file = opened();
    changes_some(&file, 60);
    crashes(&file);
    allocate(&file);
    const owned *last = &pages[page_count - 1];
    uint64_t stamp = last->stamp;
    DILLUVAS_FILE_CALL(&file, status, dilluvas_set(&file.cache, last->page, &stamp, value, 1, value, LONG));
    IS(status, DILLUVAS_OK);
    flushes(&file);
    return file;
}

/* Rewrites a file that isn't changed. */
static dilluvas_status rewrite(const dilluvas_file *file, uint64_t work) {
    dilluvas_rewriting *rewriting = dilluvas_rewriting_begin();
    dilluvas_status answer = DILLUVAS_OK;
    int to = new_file();
    bool is_level = false;
    while (answer == DILLUVAS_OK && !is_level) answer = dilluvas_rewriting_step(rewriting, file->descriptor, to, work, &is_level);
    IS(is_level, answer == DILLUVAS_OK);
    dilluvas_rewriting_end(rewriting);
    close(to);
    return answer;
}

static bool have_same_bytes(const char *name, const uint8_t *bytes, size_t len) {
    size_t found;
    uint8_t *there = bytes_of(name, &found);
    bool are_same = found == len && memcmp(bytes, there, len) == 0;
    free(there);
    return are_same;
}

/* Each read or write fails in turn, alone or with all that follow it. A read that isn't needed may fail. */
static void each_fails_in_turn(const dilluvas_file *file, uint64_t work, enum kind kind, int with, dilluvas_status wanted) {
    size_t len, copy_len;
    long tried = 0;
    IS(rewrite(file, work), DILLUVAS_OK);
    uint8_t *content = bytes_of(path, &len), *copied = bytes_of(copy, &copy_len);
    fails_with = with;
    for (bool failed = true; failed && failures == 0; tried++) {
        all_goes_well();
        fails_at[kind] = tried / 2;
        lasting = tried % 2;
        dilluvas_status answer = rewrite(file, work);
        failed = made[kind] > tried / 2;
        all_goes_well();
        if (answer != DILLUVAS_OK || (failed && kind == WRITES)) IS(answer, wanted);
        if (answer == DILLUVAS_OK) IS(have_same_bytes(copy, copied, copy_len), true);
        IS(have_same_bytes(path, content, len), true);
    }
    IS(tried > 8, true);
    free(content);
    free(copied);
}

static void calls_fail(void) {
    static const uint64_t works[] = {3000, UINT64_MAX};
    dilluvas_file file = made_file();
    for (size_t i = 0; i < sizeof works / sizeof *works; i++) {
        each_fails_in_turn(&file, works[i], READS, EIO, DILLUVAS_READ);
        each_fails_in_turn(&file, works[i], WRITES, EIO, DILLUVAS_WRITE);
        each_fails_in_turn(&file, works[i], WRITES, ENOSPC, DILLUVAS_DISK_FULL);
    }
    are_alike(&file, copy);
    end(&file);
    unlink(copy);
}

static void arguments_are_tested(void) {
    dilluvas_rewriting *rewriting = dilluvas_rewriting_begin();
    bool is_level;
    IS(dilluvas_rewriting_step(NULL, 0, 1, 1, &is_level), DILLUVAS_ARGUMENTS);
    IS(dilluvas_rewriting_step(rewriting, 0, 1, 1, NULL), DILLUVAS_ARGUMENTS);
    dilluvas_rewriting_end(rewriting);
    dilluvas_rewriting_end(NULL);
}

int main(int count, char **arguments) {
    if (count < 2 || !begin(arguments[1], "rewriting")) return 2;
    snprintf(copy, sizeof copy, "%s.copy", path);
    for (size_t i = 0; i < sizeof value; i++) value[i] = (uint8_t)(i * 7 + i / 251);
    arguments_are_tested();
    calls_fail();
    histories(count > 2 ? (unsigned)atoi(arguments[2]) : 24);
    if (failures == 0) printf("rewriting: passed\n");
    return failures != 0;
}
