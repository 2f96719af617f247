/* A queue of jobs in a file: `example_job_queue FILE add` puts each line of its input in, and `example_job_queue FILE work` does the jobs, first
 * in first out. What it prints is durable, whenever it is killed: a job that was added is there, and one that is done isn't done again. */
#include "dilluvas_file.h"
#include <stdio.h>

#define BYTES(text) (const uint8_t *)(text), sizeof(text) - 1
/* Makes a call that is given so many bytes, unless one before it was refused. */
#define DO(bytes, call) \
    if (!status) DILLUVAS_FILE_CHANGE(&file, status, bytes, call)

static dilluvas_file file = DILLUVAS_FILE_CLOSED;
static dilluvas_status status;

/* Keys are in the order of their bytes, so an id has the highest one first. */
static void add(const char *text, size_t len) {
    uint64_t id = 0;
    uint8_t key[8];
    bool had;
    DO(0, dilluvas_generate_id(&file.cache, &id));
    for (int i = 0; i < 8; i++) key[i] = (uint8_t)(id >> (56 - 8 * i));
    DO(8 + len, dilluvas_map_set(&file.cache, BYTES("jobs"), key, 8, (const uint8_t *)text, len, &had));
    if (!status) status = dilluvas_file_flush(&file, NULL);
    if (!status) printf("added %llu %.*s\n", (unsigned long long)id, (int)len, text);
}

/* Does the first job, and answers whether there was one. A batch takes it out and keeps what came of it: a crash leaves both, or neither. */
static bool work(void) {
    uint8_t buffer[512];
    size_t needed, at = 0;
    dilluvas_pair job;
    bool had;
    DILLUVAS_FILE_CALL(&file, status, dilluvas_map_next(&file.cache, BYTES("jobs"), DILLUVAS_FIRST, NULL, 0, buffer, sizeof buffer, &needed));
    if (status || !dilluvas_next(buffer, needed, &at, &job)) return false;
    DO(0, dilluvas_pin(&file.cache));
    DO(job.key_len, dilluvas_map_del(&file.cache, BYTES("jobs"), job.key, job.key_len, &had));
    DO(needed, dilluvas_map_set(&file.cache, BYTES("done"), job.key, job.key_len, job.value, job.value_len, &had));
    DO(0, dilluvas_seal(&file.cache));
    if (!status) status = dilluvas_file_flush(&file, NULL);
    if (!status) printf("done %.*s\n", (int)job.value_len, (const char *)job.value);
    return !status;
}

int main(int count, char **arguments) {
    char line[256];
    uint8_t text[128];
    size_t len = 0;
    if (count != 3) return 2;
    setvbuf(stdout, NULL, _IOLBF, sizeof line);
    status = dilluvas_file_open(&file, arguments[1], NULL);
    if (arguments[2][0] == 'a') while (!status && fgets(line, sizeof line, stdin)) add(line, strcspn(line, "\n"));
    else while (!status && work()) continue;
    dilluvas_file_close(&file);
    if (status == DILLUVAS_OK || status == DILLUVAS_NONE) return 0;
    dilluvas_text(status, text, sizeof text, &len);
    fprintf(stderr, "%s: %.*s\n", arguments[1], (int)len, (const char *)text);
    return 1;
}
