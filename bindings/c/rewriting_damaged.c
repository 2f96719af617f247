/* Rewrites files that are made by hand, for each rule of docs/FORMAT.md and with records of each length that matters, and files that were
 * damaged or cut off, and compares the new file with what the library finds in the old one. Prints the line of each check that fails: the
 * status is 1 then. Linked with steps.c, by_hand.c and failing.c. Usage: rewriting_damaged FOLDER [RUNS], in which it makes its files. */
#include "by_hand.h"
#include "dilluvas_rewriting.h"
#include <fcntl.h>
#include <stdio.h>
#include <stdlib.h>
#include <unistd.h>

/* ---- Rewriting. */

static int file_with(const char *name, const uint8_t *bytes, size_t len) {
    int descriptor = open(name, O_RDWR | O_CREAT | O_TRUNC, 0666);
    IS(write(descriptor, bytes, len), len);
    return descriptor;
}

/* Rewrites these bytes, and returns the new file's. */
static dilluvas_status rewritten(const uint8_t *bytes, size_t len, uint64_t work, uint8_t **copy, size_t *copy_len) {
    int from = file_with(path, bytes, len), to = file_with(other, NULL, 0);
    dilluvas_rewriting *rewriting = dilluvas_rewriting_begin();
    dilluvas_status answer = DILLUVAS_OK;
    bool is_level = false;
    size_t steps = 0;
    while (answer == DILLUVAS_OK && !is_level && steps++ <= 2 * len + 100) {
        answer = dilluvas_rewriting_step(rewriting, from, to, work, &is_level);
    }
    IS(is_level, answer == DILLUVAS_OK);
    dilluvas_rewriting_end(rewriting);
    close(from);
    close(to);
    IS(has_bytes(bytes, len), true);
    *copy = bytes_of(other, copy_len);
    return answer;
}

/* ---- Files by hand. */

/* Pages 0 and 1 are in their frame. */
static void begin_file(void) {
    by_hand_begins();
    frame();
    record(6, 0, NULL, 0);
    record(5, 1, (const uint8_t *)"", 1);
}

static void plain(void) {
    begin_file();
    leaf(8, 2);
    link_to(10, 2, 'a');
    link_to(10, 2, 'b');
    frame();
    leaf(8, 3);
}

static void no_records(void) {
    by_hand_begins();
}

/* A mark names a record of its frame. */
static void old_batches(void) {
    begin_file();
    number_record(3, MARK, place() + 25);
    leaf(8, 2);
    number_record(1, MARK, 1);
    number_record(1, 7, 1);
    record(1, 2, NULL, 0);
    link_to(10, 2, 'a');
}

static void old_kinds(void) {
    by_hand_begins();
    frame();
    record(7, 0, NULL, 0);
    record(5, 1, (const uint8_t *)"", 1);
    leaf(9, 2);
    link_to(11, 2, 'a');
    link_to(10, 2, 'b');
    leaf(9, 3);
    link_to(11, 3, 'a');
    leaf(8, 3);
}

/* A batch of a leaf and two links that is closed so, over so many frames. */
static void batch(uint8_t kind, unsigned frames) {
    begin_file();
    leaf(8, 2);
    uint64_t begun = place();
    record(12, MARK, NULL, 0);
    leaf(8, 3);
    if (frames > 1) frame();
    link_to(10, 3, 'a');
    link_to(10, 2, 'b');
    if (frames > 2) frame();
    if (kind) number_record(kind, MARK, begun);
    if (kind && kind != 14) link_to(10, 3, 'c');
    link_to(10, 2, kind ? 'd' : 'e');
}

static void sealed(void) { batch(13, 1); }
static void cancelled(void) { batch(1, 2); }
static void abandoned(void) { batch(14, 3); }
static void of_frames(void) { batch(13, 3); }
static void open_at_the_end(void) { batch(0, 2); }

static void freed(void) {
    begin_file();
    leaf(8, 2);
    leaf(8, 3);
    leaf(8, 4);
    link_to(10, 2, 'a');
    record(4, 2, NULL, 0);
    record(4, 3, NULL, 0);
    record(4, 3, NULL, 0);
    leaf(8, 2);
    link_to(10, 2, 'b');
    link_to(10, 4, 'c');
}

static void with_rest(void) {
    plain();
    rest(100);
}

static void other_gates(void) {
    plain();
    by_hand[8] = 255;
}

static void gap(void) {
    begin_file();
    leaf(8, 3);
}

static void freed_that_is_none(void) {
    begin_file();
    record(4, 2, NULL, 0);
}

static void link_on_none(void) {
    begin_file();
    link_to(10, 2, 'a');
}

static void link_on_free(void) {
    begin_file();
    leaf(8, 2);
    record(4, 2, NULL, 0);
    link_to(10, 2, 'a');
}

static void begins_inside(void) {
    begin_file();
    record(12, MARK, NULL, 0);
    record(12, MARK, NULL, 0);
}

static void mark_inside(void) {
    begin_file();
    record(12, MARK, NULL, 0);
    number_record(3, MARK, 1);
}

static void closes_another(void) {
    begin_file();
    record(12, MARK, NULL, 0);
    number_record(13, MARK, 17);
}

static void closes_with_another_id(void) {
    begin_file();
    uint64_t begun = place();
    record(12, MARK, NULL, 0);
    number_record(14, MARK - 1, begun);
}

static void cancels_with_another_length(void) {
    begin_file();
    uint64_t begun = place();
    record(12, MARK, NULL, 0);
    uint8_t payload[9] = {(uint8_t)begun};
    record(1, MARK, payload, 9);
}

static void closes_outside(void) {
    begin_file();
    number_record(13, MARK, 17);
}

static void abandons_outside(void) {
    begin_file();
    number_record(14, MARK, 17);
}

static void begins_with_a_payload(void) {
    begin_file();
    number_record(12, MARK, 17);
    leaf(8, 2);
}

static void begins_with_another_id(void) {
    begin_file();
    record(12, 2, NULL, 0);
}

static void mark_of_another_id(void) {
    begin_file();
    number_record(3, 2, 17);
}

static void mark_of_another_length(void) {
    begin_file();
    record(3, MARK, NULL, 0);
}

static void kind_0(void) { begin_file(), record(0, 2, NULL, 0); }
static void kind_2(void) { begin_file(), record(2, 2, NULL, 0); }
static void kind_15(void) { begin_file(), record(15, 2, NULL, 0); }

static void empty_frame(void) {
    begin_file();
    frame();
    frame();
    leaf(8, 2);
}

static void record_past_its_frame(void) {
    begin_file();
    leaf(8, 2);
    shorten(1);
}

static void rest_of_a_frame(void) {
    begin_file();
    record(8, 2, (const uint8_t *)"", 1);
    shorten(2);
}

static void frame_past_the_end(void) {
    plain();
    by_hand[9]++;
    by_hand_len -= 2;
}

static void endless_frame(void) {
    plain();
    memset(by_hand + 9, 255, 8);
}

static void another_opening(void) {
    plain();
    by_hand[7]++;
}

static const struct {
    const char *name;
    void (*make)(void);
    dilluvas_status wanted;
} rows[] = {
    {"plain", plain, DILLUVAS_OK}, {"no records", no_records, DILLUVAS_OK}, {"old batches", old_batches, DILLUVAS_OK},
    {"old kinds", old_kinds, DILLUVAS_OK}, {"sealed", sealed, DILLUVAS_OK}, {"cancelled", cancelled, DILLUVAS_OK},
    {"abandoned", abandoned, DILLUVAS_OK}, {"of frames", of_frames, DILLUVAS_OK}, {"open at the end", open_at_the_end, DILLUVAS_ARGUMENTS},
    {"freed", freed, DILLUVAS_OK}, {"with a rest", with_rest, DILLUVAS_OK}, {"other gates", other_gates, DILLUVAS_OK},
    {"gap", gap, DILLUVAS_CORRUPTION}, {"freed, but none", freed_that_is_none, DILLUVAS_CORRUPTION},
    {"link on none", link_on_none, DILLUVAS_CORRUPTION}, {"link on a free page", link_on_free, DILLUVAS_CORRUPTION},
    {"begins inside", begins_inside, DILLUVAS_CORRUPTION}, {"mark inside", mark_inside, DILLUVAS_CORRUPTION},
    {"closes another", closes_another, DILLUVAS_CORRUPTION}, {"closes with another id", closes_with_another_id, DILLUVAS_CORRUPTION},
    {"cancels with another length", cancels_with_another_length, DILLUVAS_CORRUPTION}, {"closes outside", closes_outside, DILLUVAS_CORRUPTION},
    {"abandons outside", abandons_outside, DILLUVAS_CORRUPTION}, {"begins with a payload", begins_with_a_payload, DILLUVAS_CORRUPTION},
    {"begins with another id", begins_with_another_id, DILLUVAS_CORRUPTION}, {"mark of another id", mark_of_another_id, DILLUVAS_CORRUPTION},
    {"mark of another length", mark_of_another_length, DILLUVAS_CORRUPTION}, {"kind 0", kind_0, DILLUVAS_CORRUPTION},
    {"kind 2", kind_2, DILLUVAS_CORRUPTION}, {"kind 15", kind_15, DILLUVAS_CORRUPTION}, {"empty frame", empty_frame, DILLUVAS_CORRUPTION},
    {"record past its frame", record_past_its_frame, DILLUVAS_CORRUPTION}, {"rest of a frame", rest_of_a_frame, DILLUVAS_CORRUPTION},
    {"frame past the end", frame_past_the_end, DILLUVAS_CORRUPTION}, {"endless frame", endless_frame, DILLUVAS_CORRUPTION},
    {"another opening", another_opening, DILLUVAS_CORRUPTION},
};

static void each_rule_holds(void) {
    static const uint64_t works[] = {1, 100, UINT64_MAX};
    for (size_t i = 0; i < sizeof rows / sizeof *rows; i++) {
        int before = failures;
        rows[i].make();
        by_hand_ends();
        for (int j = 0; j < 3; j++) {
            uint8_t *copy;
            size_t len;
            IS(rewritten(by_hand, by_hand_len, works[j], &copy, &len), rows[i].wanted);
            if (rows[i].wanted == DILLUVAS_OK) are_alike(by_hand, by_hand_len, copy, len);
            else IS(opens(by_hand, by_hand_len), rows[i].wanted == DILLUVAS_ARGUMENTS ? DILLUVAS_OK : DILLUVAS_CORRUPTION);
            free(copy);
        }
        if (failures > before) printf("in the row of %s\n", rows[i].name);
    }
}

/* Records of lengths around those by which they are read and written are copied byte by byte. */
static void each_length_is_copied(void) {
    static const size_t lengths[] = {0, 1, 4079, 4080, 131072, 262100, 262144, 524288, 1000000};
    for (size_t i = 0; i < sizeof lengths / sizeof *lengths; i++) {
        size_t least = lengths[i] < 20 ? 0 : lengths[i] - 20;
        for (size_t len = least; len < lengths[i] + 3 && failures == 0; len++) {
            uint8_t *copy;
            size_t copy_len;
            begin_file();
            long_record(8, 2, len);
            leaf(8, 3);
            long_record(10, 3, len);
            link_to(10, 3, 'a');
            /* the own pages of the cache are copied once more at the end */
            record(6, 0, NULL, 0);
            record(5, 1, (const uint8_t *)"", 1);
            by_hand_ends();
            IS(rewritten(by_hand, by_hand_len, len % 2 ? 1 : UINT64_MAX, &copy, &copy_len), DILLUVAS_OK);
            IS(have_same_records(by_hand, by_hand_len, copy, copy_len), true);
            if (failures) printf("with a payload of %zu bytes\n", len);
            free(copy);
        }
    }
}

/* ---- Damage. */

static uint64_t state = 1;

static size_t below(size_t bound) {
    state = state * 6364136223846793005u + 1442695040888963407u;
    return (size_t)(state >> 33) % bound;
}

/* What is OK is as the library finds it. Else the library either refuses it, or finds an open batch. */
static bool is_ok(const uint8_t *bytes, size_t len) {
    uint8_t *copy;
    size_t copy_len;
    dilluvas_status answer = rewritten(bytes, len, below(2) ? UINT64_MAX : 1 + below(300), &copy, &copy_len);
    if (answer == DILLUVAS_OK) are_alike(bytes, len, copy, copy_len);
    else IS(opens(bytes, len), answer == DILLUVAS_ARGUMENTS ? DILLUVAS_OK : DILLUVAS_CORRUPTION);
    free(copy);
    return answer == DILLUVAS_OK;
}

static uint8_t whole[sizeof by_hand], damaged[sizeof by_hand];

/* A file with some of what a log may have, but for old marks: which record one names isn't looked at by a rewriting. */
static size_t make_whole(void) {
    void (*const makes[])(void) = {freed, old_kinds, of_frames, abandoned};
    makes[below(4)]();
    for (unsigned i = 0; i < 6; i++) {
        if (i % 2) frame();
        link_to(10, 2, (uint8_t)('f' + i));
    }
    by_hand_ends();
    memcpy(whole, by_hand, by_hand_len);
    return by_hand_len;
}

static void cut_off_at_each_length(void) {
    size_t len = make_whole();
    /* a file of no bytes is one that is to be made */
    for (size_t cut = 1; cut < len && failures == 0; cut++) {
        IS(is_ok(whole, cut), false);
        if (failures) printf("cut off after %zu bytes\n", cut);
    }
}

static void damaged_at_random(unsigned runs) {
    unsigned ok = 0;
    for (unsigned run = 0; run < runs && failures == 0; run++) {
        size_t len = make_whole();
        memcpy(damaged, whole, len);
        for (size_t changes = 1 + below(3); changes > 0; changes--) {
            uint8_t *changed = &damaged[below(len)];
            *changed = below(3) ? (uint8_t)below(16) : (uint8_t)below(256);
        }
        ok += is_ok(damaged, len);
        if (failures) printf("run %u\n", run);
    }
    printf("%u of %u damaged files were rewritten\n", ok, runs);
}

int main(int count, char **arguments) {
    if (count < 2 || !begin(arguments[1], "rewriting_damaged")) return 2;
    each_rule_holds();
    each_length_is_copied();
    cut_off_at_each_length();
    damaged_at_random(count > 2 ? (unsigned)atoi(arguments[2]) : 4000);
    unlink(path);
    unlink(other);
    if (failures == 0) printf("rewriting damaged files: passed\n");
    return failures != 0;
}
