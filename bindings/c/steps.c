#include "steps.h"
#include <fcntl.h>
#include <stdio.h>
#include <stdlib.h>
#include <signal.h>
#include <sys/stat.h>
#include <sys/wait.h>
#include <unistd.h>

/* ---- Caches and files. */

const dilluvas_settings in_memory = {4096, 10, 4096, 512, 16};
const dilluvas_file_settings over_file = {4096, 10, 4096};

char path[PATH_MAX], other[PATH_MAX + 20];

bool begin(const char *folder, const char *name) {
    if (chdir(folder) != 0) return false;
    snprintf(path, sizeof path, "%s/%s", folder, name);
    snprintf(other, sizeof other, "%s.dilluvas-new", path);
    unlink(path);
    return true;
}

dilluvas_file opened(void) {
    dilluvas_file file = DILLUVAS_FILE_CLOSED;
    IS(dilluvas_file_open(&file, path, &over_file), DILLUVAS_OK);
    return file;
}

dilluvas_file opened_in_memory(void) {
    dilluvas_file file = DILLUVAS_FILE_CLOSED;
    IS(dilluvas_open_memory(&file.cache, &in_memory), DILLUVAS_OK);
    return file;
}

dilluvas_status compact(dilluvas_file *file) {
    return file->buffer ? dilluvas_file_compact(file) : dilluvas_compact(&file->cache, &in_memory);
}

void end(dilluvas_file *file) {
    if (file->buffer) dilluvas_file_close(file);
    else dilluvas_close(&file->cache);
    unlink(path);
}

off_t size_of(const char *name) {
    struct stat found;
    return stat(name, &found) == 0 ? found.st_size : -1;
}

uint8_t *bytes_of(const char *name, size_t *len) {
    int descriptor = open(name, O_RDONLY);
    *len = (size_t)size_of(name);
    uint8_t *bytes = malloc(*len + 1);
    IS(read(descriptor, bytes, *len), *len);
    close(descriptor);
    return bytes;
}

bool has_bytes(const uint8_t *bytes, size_t len) {
    size_t found;
    uint8_t *present = bytes_of(path, &found);
    bool is_so = found == len && memcmp(bytes, present, len) == 0;
    free(present);
    return is_so;
}

void put(const char *name, const char *text, mode_t mode) {
    int descriptor = open(name, O_WRONLY | O_CREAT | O_TRUNC, mode);
    IS(write(descriptor, text, strlen(text)), strlen(text));
    IS(fchmod(descriptor, mode), 0);
    close(descriptor);
}

/* That process is killed, so that nothing is asked of what it leaves. */
int elsewhere(int (*call)(void)) {
    int ends[2], answer = -1;
    IS(pipe(ends), 0);
    fflush(stdout);
    pid_t child = fork();
    if (child == 0) {
        answer = call();
        fflush(stdout);
        if (write(ends[1], &answer, sizeof answer) == sizeof answer) kill(getpid(), SIGKILL);
        _exit(1);
    }
    close(ends[1]);
    IS(read(ends[0], &answer, sizeof answer), sizeof answer);
    close(ends[0]);
    IS(waitpid(child, NULL, 0), child);
    return answer;
}

/* ---- Calls that succeed. */

dilluvas_status status;

void allocates(dilluvas_file *file, uint64_t wanted, uint64_t stamp_wanted) {
    uint64_t page = 0, stamp = 0;
    CALL(dilluvas_allocate(&file->cache, NULL, 0, &page, &stamp));
    IS(page, wanted);
    IS(stamp, stamp_wanted);
}

void sets(dilluvas_file *file, uint64_t page, uint64_t stamp, const char *value, size_t len) {
    CALL(dilluvas_set(&file->cache, page, &stamp, TEXT("b"), (const uint8_t *)value, len));
}

void frees(dilluvas_file *file, uint64_t page, uint64_t stamp) {
    CALL(dilluvas_free(&file->cache, page, &stamp));
}

void gives(dilluvas_file *file, uint64_t from, uint64_t to) {
    for (uint64_t wanted = from; wanted < to; wanted++) {
        uint64_t id = 0;
        CALL(dilluvas_generate_id(&file->cache, &id));
        IS(id, wanted);
    }
}

void flushes(dilluvas_file *file) {
    size_t written;
    CALL(dilluvas_flush(&file->cache, &written));
}

void is_leaf(dilluvas_file *file, uint64_t page, int stamp, size_t pairs) {
    dilluvas_found found = {0, 0, 0, false};
    uint8_t buffer[4096];
    DILLUVAS_FILE_CALL(file, status, dilluvas_get(&file->cache, page, &found, buffer, sizeof buffer));
    IS(status, stamp < 0 ? DILLUVAS_GONE : DILLUVAS_OK);
    if (stamp >= 0) IS(found.stamp == (uint64_t)stamp && found.count == pairs && !found.is_index, true);
}

void leads(dilluvas_file *file, const char *name, uint64_t wanted) {
    uint64_t page = 0;
    CALL(dilluvas_root(&file->cache, (const uint8_t *)name, 1, &page));
    IS(page, wanted);
}
