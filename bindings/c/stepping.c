#include "stepping.h"
#include <sys/stat.h>

const dilluvas_compact_at slowly = {2, 0, UINT64_MAX, 4000}, at_once = {2, 0, UINT64_MAX, 0};

unsigned number;

void begin_value(uint8_t *value) {
    memset(value, 'v', VALUE);
    memcpy(value, &number, sizeof number);
}

void set_all(dilluvas_file *file) {
    uint8_t value[VALUE];
    bool had;
    number++;
    begin_value(value);
    for (uint8_t key = 0; key < KEYS; key++) CALL(dilluvas_map_set(&file->cache, TEXT("m"), &key, 1, value, VALUE, &had));
}

void has_all(dilluvas_file *file) {
    uint8_t wanted[VALUE], found[VALUE];
    size_t needed;
    begin_value(wanted);
    for (uint8_t key = 0; key < KEYS; key++) {
        CALL(dilluvas_map_get(&file->cache, TEXT("m"), &key, 1, found, VALUE, &needed));
        IS(needed == VALUE && memcmp(found, wanted, VALUE) == 0, true);
    }
}

ino_t file_at(const char *name) {
    struct stat found;
    return lstat(name, &found) == 0 ? found.st_ino : 0;
}

void begin_rewriting(dilluvas_file *file) {
    for (unsigned tried = 0; !file->next && tried < 60; tried++) {
        set_all(file);
        IS(dilluvas_file_flush(file, &slowly), DILLUVAS_OK);
    }
    IS(file->next != NULL, true);
}

dilluvas_file begun(void) {
    dilluvas_file file = opened();
    begin_rewriting(&file);
    IS(size_of(other) > 0, true);
    return file;
}

bool ends_anew(dilluvas_file *file) {
    ino_t before = file_at(path);
    for (unsigned taken = 0; file->next && taken < MOST_STEPS; taken++) IS(dilluvas_file_flush(file, &slowly), DILLUVAS_OK);
    IS(file->next == NULL, true);
    return file_at(path) != before;
}

void goes_on(dilluvas_file *file) {
    has_all(file);
    begin_rewriting(file);
    IS(ends_anew(file), true);
    IS(size_of(other), -1);
    IS(dilluvas_file_rewriting_failure(file), DILLUVAS_OK);
    has_all(file);
    IS(dilluvas_file_close(file), DILLUVAS_OK);
    *file = opened();
    has_all(file);
    end(file);
}
