/* What may happen while dilluvas_file_flush rewrites a file step by step: it is changed, closed, compacted or moved, or something else is put
 * in the place of the new file. The store goes on each time, leaves what others made, and is rewritten later. Prints the line of each check
 * that fails: the status is 1 then. Linked with steps.c, stepping.c and failing.c. Usage: space_steps FOLDER, in which it makes its files. */
#include "stepping.h"
#include <errno.h>
#include <fcntl.h>
#include <stdio.h>
#include <stdlib.h>
#include <sys/stat.h>
#include <unistd.h>

/* ---- What the program does. */

static void it_is_closed(void) {
    dilluvas_file file = begun();
    IS(dilluvas_file_close(&file), DILLUVAS_OK);
    IS(size_of(other), -1);
    file = opened();
    IS(file.next == NULL, true);
    goes_on(&file);
}

static void it_is_compacted(void) {
    dilluvas_file file = begun();
    ino_t before = file_at(path);
    IS(compact(&file), DILLUVAS_OK);
    IS(file.next == NULL && file_at(path) != before, true);
    IS(size_of(other), -1);
    goes_on(&file);
}

static void it_is_rewritten_at_once(void) {
    dilluvas_file file = begun();
    IS(dilluvas_file_flush(&file, &at_once), DILLUVAS_OK);
    IS(file.next == NULL, true);
    IS(size_of(other), -1);
    ino_t before = file_at(path);
    for (unsigned i = 0; i < 20 && file_at(path) == before; i++) {
        set_all(&file);
        IS(dilluvas_file_flush(&file, &at_once), DILLUVAS_OK);
        IS(size_of(other), -1);
    }
    IS(file_at(path) != before, true);
    goes_on(&file);
}

/* A flush that is refused takes no step. */
static void a_batch_is_open(void) {
    dilluvas_file used = begun(), *file = &used;
    uint8_t key[1] = {0}, value[VALUE];
    bool had;
    size_t len, found;
    begin_value(value);
    uint8_t *bytes = bytes_of(other, &len);
    for (unsigned i = 0; i < 3; i++) {
        CALL(dilluvas_pin(&file->cache));
        IS(dilluvas_file_flush(file, &slowly), DILLUVAS_BATCH_OPEN);
        CALL(dilluvas_map_set(&file->cache, TEXT("m"), key, 1, value, VALUE, &had));
        IS(dilluvas_file_flush(file, &slowly), DILLUVAS_BATCH_OPEN);
        uint8_t *there = bytes_of(other, &found);
        IS(found == len && memcmp(bytes, there, len) == 0, true);
        free(there);
        CALL(dilluvas_seal(&file->cache));
    }
    free(bytes);
    IS(ends_anew(file), true);
    goes_on(file);
}

/* Each step is followed by a change of some keys, all of which are read. */
static void keys_are_changed_and_read(void) {
    dilluvas_file used = begun(), *file = &used;
    uint8_t value[VALUE], found[VALUE], key[1];
    unsigned changed[KEYS] = {0};
    size_t needed;
    bool had;
    for (unsigned step = 1; file->next && step < MOST_STEPS; step++) {
        for (unsigned i = 0; i < 5; i++) {
            key[0] = (uint8_t)((step * 31 + i * 7) % KEYS);
            memset(value, (int)step & 255, VALUE);
            CALL(dilluvas_map_set(&file->cache, TEXT("m"), key, 1, value, VALUE, &had));
            changed[key[0]] = step;
        }
        IS(dilluvas_file_flush(file, &slowly), DILLUVAS_OK);
        for (key[0] = 0; key[0] < KEYS; key[0]++) {
            CALL(dilluvas_map_get(&file->cache, TEXT("m"), key, 1, found, VALUE, &needed));
            if (changed[key[0]]) memset(value, (int)changed[key[0]] & 255, VALUE);
            else begin_value(value);
            IS(memcmp(value, found, VALUE), 0);
        }
    }
    IS(file->next == NULL, true);
    IS(size_of(path) < KEYS * VALUE * 2, true);
    set_all(file);
    goes_on(file);
}

/* However small the changes are, and the steps: a file is rewritten while it is changed. */
static void small_changes_are_caught_up_with(void) {
    static const struct {
        unsigned keys, in_a_flush;
        uint64_t step;
    } rows[] = {{1000, 1, 1}, {1000, 1, 1000}, {1000, 1, 60000}, {1000, 300, 1}, {1000, 3000, 100000}, {20000, 10000, 1000000}};
    for (size_t i = 0; i < sizeof rows / sizeof *rows; i++) {
        const dilluvas_compact_at when = {4, 60000, UINT64_MAX, rows[i].step};
        dilluvas_file used = opened(), *file = &used;
        uint8_t key[2], value[2] = {0};
        unsigned set = 0, rewritten = 0;
        bool had, was = false;
        for (unsigned flush = 0; flush < 20000 && rewritten < 2; flush++) {
            for (unsigned j = 0; j < rows[i].in_a_flush; j++, set += 791) {
                key[0] = (uint8_t)(set % rows[i].keys >> 8);
                key[1] = (uint8_t)(set % rows[i].keys);
                CALL(dilluvas_map_set(&file->cache, TEXT("m"), key, 2, value, 2, &had));
            }
            IS(dilluvas_file_flush(file, &when), DILLUVAS_OK);
            rewritten += was && !file->next;
            was = file->next != NULL;
            if (size_of(path) > 8000000) break;
        }
        IS(rewritten, 2);
        end(file);
    }
}

/* However many pages are added to those that are to be copied. */
static void new_pages_are_caught_up_with(void) {
    const dilluvas_compact_at when = {2, 0, UINT64_MAX, 1};
    dilluvas_file used = begun(), *file = &used;
    uint64_t page, stamp;
    unsigned flush = 0;
    for (; file->next && flush < MOST_STEPS; flush++) {
        for (unsigned i = 0; i < 4; i++) CALL(dilluvas_allocate(&file->cache, NULL, 0, &page, &stamp));
        IS(dilluvas_file_flush(file, &when), DILLUVAS_OK);
    }
    IS(flush < MOST_STEPS, true);
    goes_on(file);
}

/* So much is changed of pages that were copied that the new file is longer than it may get: it is rewritten later. */
static void a_new_file_gets_too_long(void) {
    static uint8_t value[100000];
    dilluvas_file used = begun(), *file = &used;
    ino_t before = file_at(path);
    const uint8_t key[1] = {0};
    bool had;
    for (unsigned taken = 0; taken < 12; taken++) IS(dilluvas_file_flush(file, &slowly), DILLUVAS_OK);
    IS(file->next != NULL, true);
    for (unsigned i = 0; i < 50; i++) CALL(dilluvas_map_set(&file->cache, TEXT("m"), key, 1, value, sizeof value, &had));
    IS(dilluvas_file_flush(file, &slowly), DILLUVAS_OK);
    IS(file->next == NULL && file_at(path) == before, true);
    IS(size_of(path) > 5000000, true);
    IS(dilluvas_file_rewriting_failure(file), DILLUVAS_LOG_FULL);
    for (unsigned i = 0; i < 30 && !file->next; i++) {
        CALL(dilluvas_map_set(&file->cache, TEXT("m"), key, 1, value, sizeof value, &had));
        IS(dilluvas_file_flush(file, &slowly), DILLUVAS_OK);
    }
    IS(ends_anew(file), true);
    IS(size_of(path) < 1500000, true);
    set_all(file);
    goes_on(file);
}

/* ---- What others do to the new file. */

static void remove_it(void) {
    IS(unlink(other), 0);
}

static void put_a_file(void) {
    put("another's", "another's", 0640);
    IS(rename("another's", other), 0);
}

static void put_a_link(void) {
    put("another's", "another's", 0640);
    IS(unlink(other) + symlink("another's", other), 0);
}

static void put_a_folder(void) {
    IS(unlink(other) + mkdir(other, 0750), 0);
}

static void (*const others[])(void) = {remove_it, put_a_file, put_a_link, put_a_folder};

static void another_takes_its_place(void) {
    for (size_t i = 0; i < sizeof others / sizeof *others; i++) {
        dilluvas_file file = begun();
        others[i]();
        ino_t present = file_at(other);
        IS(ends_anew(&file), false);
        IS(dilluvas_file_rewriting_failure(&file), DILLUVAS_NO_ACCESS);
        IS(file_at(other), present);
        has_all(&file);
        if (others[i] == put_a_file) IS(size_of(other), 9);
        if (others[i] == put_a_link) IS(size_of("another's"), 9);
        if (i % 2) IS(dilluvas_file_close(&file), DILLUVAS_OK);
        IS(file_at(other), present);
        if (present && unlink(other) != 0) IS(rmdir(other), 0);
        unlink("another's");
        if (i % 2) file = opened();
        /* it isn't tried again before the file has grown */
        else IS(dilluvas_file_flush(&file, &slowly), DILLUVAS_OK);
        IS(file.next == NULL, true);
        goes_on(&file);
    }
}

static uint64_t number_at(const uint8_t *bytes) {
    uint64_t found = 0;
    for (int i = 7; i >= 0; i--) found = found << 8 | bytes[i];
    return found;
}

/* Makes the last link of the new file a content, which the library doesn't notice as it opens that. */
static bool damage_last_link(void) {
    size_t len, last = 0;
    uint8_t *bytes = bytes_of(other, &len);
    for (size_t gate = 8; bytes[gate];) {
        size_t at = gate + 9;
        for (gate = at + (size_t)number_at(bytes + gate + 1); at < gate; at += 17 + (size_t)number_at(bytes + at + 9)) {
            if (bytes[at] == 10) last = at;
        }
    }
    free(bytes);
    int descriptor = open(other, O_WRONLY);
    if (last) IS(__real_pwrite(descriptor, "\10", 1, (off_t)last), 1);
    close(descriptor);
    return last > 0;
}

/* The bytes of the pages differ then, so it doesn't take the place of the file. */
static void it_is_damaged(void) {
    dilluvas_file file = begun();
    bool is_damaged = false;
    for (unsigned taken = 0; file.next && !is_damaged && taken < MOST_STEPS; taken++) {
        IS(dilluvas_file_flush(&file, &slowly), DILLUVAS_OK);
        is_damaged = damage_last_link();
    }
    IS(is_damaged, true);
    IS(ends_anew(&file), false);
    IS(dilluvas_file_rewriting_failure(&file), DILLUVAS_CORRUPTION);
    goes_on(&file);
}

/* How long the new file was as one was synced last. */
static off_t synced_len;
static long syncs, renames;

static void look_at_syncs(void) {
    if (made[SYNCS] > syncs) synced_len = size_of(other);
    if (made[RENAMES] > renames && size_of(other) >= 0) {
        IS(synced_len, size_of(other));
        renames = made[RENAMES];
    }
    syncs = made[SYNCS];
}

/* It is synced with the length that it has, before it takes the place of the file, and then the folder is. */
static void it_is_synced_first(void) {
    dilluvas_file file = begun();
    all_goes_well();
    syncs = renames = 0;
    watch = look_at_syncs;
    IS(ends_anew(&file), true);
    watch = NULL;
    IS(renames, 1);
    IS(synced_len, -1);
    goes_on(&file);
}

/* ---- What others do to the file. */

static void it_is_moved(void) {
    dilluvas_file file = begun();
    IS(rename(path, "moved"), 0);
    IS(ends_anew(&file), false);
    IS(dilluvas_file_rewriting_failure(&file), DILLUVAS_NO_ACCESS);
    IS(file_at(path), 0);
    IS(size_of(other), -1);
    has_all(&file);
    IS(rename("moved", path), 0);
    goes_on(&file);
    /* another one is left in its place */
    file = begun();
    IS(rename(path, "moved"), 0);
    put(path, "another's", 0644);
    IS(ends_anew(&file), false);
    IS(size_of(path), 9);
    IS(size_of(other), -1);
    IS(rename("moved", path), 0);
    goes_on(&file);
    file = begun();
    IS(unlink(path), 0);
    IS(ends_anew(&file), false);
    IS(file_at(path), 0);
    has_all(&file);
    end(&file);
    IS(size_of(other), -1);
}

static void it_has_a_second_name(void) {
    dilluvas_file file = begun(), old = DILLUVAS_FILE_CLOSED;
    IS(link(path, "second"), 0);
    ino_t before = file_at(path);
    IS(ends_anew(&file), true);
    IS(file_at("second"), before);
    IS(dilluvas_file_open(&old, "second", &over_file), DILLUVAS_OK);
    has_all(&old);
    IS(dilluvas_file_close(&old), DILLUVAS_OK);
    IS(unlink("second"), 0);
    goes_on(&file);
}

static void it_is_opened_by_a_link(void) {
    dilluvas_file file = begun();
    IS(dilluvas_file_close(&file), DILLUVAS_OK);
    IS(symlink(path, "link"), 0);
    IS(dilluvas_file_open(&file, "link", &over_file), DILLUVAS_OK);
    begin_rewriting(&file);
    IS(size_of(other) > 0, true);
    IS(size_of("link.dilluvas-new"), -1);
    IS(ends_anew(&file), true);
    struct stat found;
    IS(lstat("link", &found) == 0 && S_ISLNK(found.st_mode), true);
    IS(unlink("link"), 0);
    goes_on(&file);
}

/* From the beginning on, and at the end those count that the file has by then. */
static void owner_and_mode_are_kept(void) {
    struct stat found;
    dilluvas_file file = opened();
    IS(chmod(path, 0640), 0);
    begin_rewriting(&file);
    IS(stat(other, &found), 0);
    IS(found.st_mode & 07777, 0640);
    IS(chmod(path, 0600), 0);
    if (geteuid() == 0) IS(chown(path, 65534, 65533), 0);
    IS(ends_anew(&file), true);
    IS(stat(path, &found), 0);
    IS(found.st_mode & 07777, 0600);
    if (geteuid() == 0) IS(found.st_uid == 65534 && found.st_gid == 65533, true);
    goes_on(&file);
}

/* ---- Why a rewriting was given up. */

static void a_handle_without_a_file_has_no_failure(void) {
    dilluvas_file closed = DILLUVAS_FILE_CLOSED, file = opened();
    IS(dilluvas_file_rewriting_failure(NULL), DILLUVAS_ARGUMENTS);
    IS(dilluvas_file_rewriting_failure(&closed), DILLUVAS_NOT_OPEN);
    IS(dilluvas_file_rewriting_failure(&file), DILLUVAS_OK);
    end(&file);
    IS(dilluvas_file_rewriting_failure(&file), DILLUVAS_NOT_OPEN);
}

/* Lets a call of a kind fail in the next steps, the first one or a later one, which ends the rewriting. */
static void fails_once(dilluvas_file *file, enum kind kind, long at, int with, dilluvas_status wanted) {
    all_goes_well();
    fails_with = with;
    fails_at[kind] = at;
    for (unsigned taken = 0; file->next && taken < MOST_STEPS; taken++) IS(dilluvas_file_flush(file, &slowly), DILLUVAS_OK);
    all_goes_well();
    IS(file->next == NULL && size_of(other) == -1, true);
    IS(dilluvas_file_rewriting_failure(file), wanted);
}

/* Until a rewriting has replaced the file, whether in steps, at once or by hand. One that is only begun leaves it, and so does one that is ended
 * by the program. */
static void the_last_failure_is_told(void) {
    static const struct {
        enum kind kind;
        long at;
        int with;
        dilluvas_status wanted;
    } rows[] = {
        {WRITES, 0, ENOSPC, DILLUVAS_DISK_FULL}, {WRITES, 0, EDQUOT, DILLUVAS_DISK_FULL}, {WRITES, 0, EIO, DILLUVAS_WRITE},
        {READS, 0, EIO, DILLUVAS_READ},
        /* the opening of the new file, and what makes it durable */
        {SYNCS, 0, EIO, DILLUVAS_WRITE}, {SYNCS, 0, ENOSPC, DILLUVAS_DISK_FULL}, {SYNCS, 1, EIO, DILLUVAS_WRITE},
        {SYNCS, 1, ENOSPC, DILLUVAS_DISK_FULL},
        {RENAMES, 0, EACCES, DILLUVAS_NO_ACCESS}, {RENAMES, 0, ENOSPC, DILLUVAS_DISK_FULL}
    };
    dilluvas_file file = opened();
    for (size_t i = 0; i < sizeof rows / sizeof *rows; i++) {
        file.next_look = 0;
        begin_rewriting(&file);
        IS(dilluvas_file_rewriting_failure(&file), i > 0 ? rows[i - 1].wanted : DILLUVAS_OK);
        fails_once(&file, rows[i].kind, rows[i].at, rows[i].with, rows[i].wanted);
        has_all(&file);
    }
    file.next_look = 0;
    begin_rewriting(&file);
    IS(dilluvas_file_flush(&file, &at_once), DILLUVAS_OK);
    IS(file.next == NULL, true);
    IS(dilluvas_file_rewriting_failure(&file), DILLUVAS_DISK_FULL);
    IS(compact(&file), DILLUVAS_OK);
    IS(dilluvas_file_rewriting_failure(&file), DILLUVAS_OK);
    begin_rewriting(&file);
    fails_once(&file, WRITES, 0, ENOSPC, DILLUVAS_DISK_FULL);
    IS(dilluvas_file_close(&file), DILLUVAS_OK);
    IS(dilluvas_file_open(&file, path, &over_file), DILLUVAS_OK);
    IS(dilluvas_file_rewriting_failure(&file), DILLUVAS_OK);
    goes_on(&file);
}

/* In steps and at once: the other name is taken. */
static void a_folder_takes_no_new_file(void) {
    for (unsigned i = 0; i < 2; i++) {
        const dilluvas_compact_at *when = i == 0 ? &slowly : &at_once;
        dilluvas_file file = opened();
        IS(mkdir(other, 0777), 0);
        unsigned flush = 0;
        for (; flush < 60 && dilluvas_file_rewriting_failure(&file) == DILLUVAS_OK; flush++) {
            set_all(&file);
            IS(dilluvas_file_flush(&file, when), DILLUVAS_OK);
        }
        IS(dilluvas_file_rewriting_failure(&file), DILLUVAS_NO_FILE);
        IS(rmdir(other), 0);
        /* a call by hand tells its failure itself */
        IS(rename(path, "moved"), 0);
        IS(compact(&file), DILLUVAS_NO_ACCESS);
        IS(rename("moved", path), 0);
        IS(dilluvas_file_rewriting_failure(&file), DILLUVAS_NO_FILE);
        goes_on(&file);
    }
}

/* By a user without rights. */
static int rewrites_in_a_folder_that_is_not_its_own(void) {
    if (geteuid() == 0 && (setgid(65534) != 0 || setuid(65534) != 0)) return -2;
    dilluvas_file file = opened();
    for (unsigned flush = 0; flush < 60 && dilluvas_file_rewriting_failure(&file) == DILLUVAS_OK; flush++) {
        set_all(&file);
        IS(dilluvas_file_flush(&file, &slowly), DILLUVAS_OK);
    }
    int told = (int)dilluvas_file_rewriting_failure(&file);
    IS(dilluvas_file_close(&file), DILLUVAS_OK);
    return failures ? -2 : told;
}

static void a_folder_may_not_be_written_to(void) {
    dilluvas_file file = opened();
    struct stat found;
    IS(dilluvas_file_close(&file), DILLUVAS_OK);
    IS(stat(".", &found), 0);
    IS(chmod(path, 0666) + chmod(".", 0555), 0);
    IS(elsewhere(rewrites_in_a_folder_that_is_not_its_own), DILLUVAS_NO_ACCESS);
    IS(chmod(".", found.st_mode & 07777), 0);
    unlink(path);
}

int main(int count, char **arguments) {
    if (count != 2 || !begin(arguments[1], "space_steps")) return 2;
    umask(022);
    it_is_closed();
    it_is_compacted();
    it_is_rewritten_at_once();
    a_batch_is_open();
    keys_are_changed_and_read();
    small_changes_are_caught_up_with();
    new_pages_are_caught_up_with();
    a_new_file_gets_too_long();
    another_takes_its_place();
    it_is_damaged();
    it_is_synced_first();
    it_is_moved();
    it_has_a_second_name();
    it_is_opened_by_a_link();
    owner_and_mode_are_kept();
    a_handle_without_a_file_has_no_failure();
    the_last_failure_is_told();
    a_folder_takes_no_new_file();
    a_folder_may_not_be_written_to();
    if (failures == 0) printf("space in steps: passed\n");
    return failures != 0;
}
