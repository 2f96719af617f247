/* Kills a process that writes a file and rewrites it, and opens the file again: what was said to be flushed is there, of a batch all or
 * nothing, and no id comes twice. A batch is written as ten frames and more. Of four processes one is killed at a random moment, and the
 * others end themselves before a call of the system: one in a rewriting, one in the steps of one, and one in a batch. Before each kind of
 * call some end, and behind ever more calls of that kind. Linked with --wrap=pwrite, --wrap=fdatasync, --wrap=fsync and --wrap=rename.
 * Usage: killed FOLDER TIMES, in which it makes its file. */
#define _DEFAULT_SOURCE
#include "dilluvas_file.h"
#include <fcntl.h>
#include <signal.h>
#include <stdio.h>
#include <stdlib.h>
#include <sys/stat.h>
#include <sys/wait.h>
#include <time.h>
#include <unistd.h>

#define CHECK(holds) \
    do { \
        if (!(holds)) { \
            fprintf(stderr, "line %d: %s\n", __LINE__, #holds); \
            exit(1); \
        } \
    } while (0)

/* A round changes each page, by 29 bytes or more, which is ten segments, or one for those that end in a rewriting: that makes so few calls. */
enum { PAGES = 60 };

static const dilluvas_file_settings short_segments = {1024, 10, 160}, long_segments = {1024, 10, 2048};

/* A rewriting of some steps, or of one. */
static dilluvas_compact_at in_steps = {2, 0, UINT64_MAX, 60000};

static char path[4096], other[4120];

/* What a process says once a round is flushed; or, where the round is 0, before which call it ends. */
typedef struct told {
    uint64_t round, id;
} told;

/* ---- The system. */

enum call { WRITE, SYNC, RENAME, SYNC_FOLDER, END, CALLS };

/* How a process comes to its end. */
enum way { IS_KILLED, ENDS_IN_REWRITING, ENDS_IN_STEPS, ENDS_IN_BATCH, WAYS };

static enum way way;

/* Where a process says what it does, while it does that in which it ends; before which call it ends, and how many such calls it makes first. */
static int teller = -1, calls_before;
static enum call ends_before;

static void may_end(enum call call) {
    if (teller < 0 || call != ends_before || calls_before-- > 0) return;
    told last = {0, call};
    CHECK(write(teller, &last, sizeof last) == sizeof last);
    kill(getpid(), SIGKILL);
}

ssize_t __real_pwrite(int descriptor, const void *bytes, size_t len, off_t at);
int __real_fdatasync(int descriptor);
int __real_fsync(int descriptor);
int __real_rename(const char *old, const char *new);

ssize_t __wrap_pwrite(int descriptor, const void *bytes, size_t len, off_t at) {
    may_end(WRITE);
    return __real_pwrite(descriptor, bytes, len, at);
}

int __wrap_fdatasync(int descriptor) {
    may_end(SYNC);
    return __real_fdatasync(descriptor);
}

int __wrap_fsync(int descriptor) {
    may_end(SYNC_FOLDER);
    return __real_fsync(descriptor);
}

int __wrap_rename(const char *old, const char *new) {
    may_end(RENAME);
    return __real_rename(old, new);
}

/* ---- The process. */

static dilluvas_status get_round(dilluvas_file *file, uint64_t page, uint64_t *stamp, uint64_t *round) {
    dilluvas_status status;
    size_t len;
    *round = 0;
    DILLUVAS_FILE_CALL(file, status,
                       dilluvas_value(&file->cache, page, (const uint8_t *)"r", 1, stamp, (uint8_t *)round, sizeof *round, &len));
    return status;
}

/* Whether the next flush takes a step of a rewriting. */
static bool takes_step(dilluvas_file *file) {
    dilluvas_status status;
    uint64_t size, live;
    DILLUVAS_FILE_CALL(file, status, dilluvas_size(&file->cache, &size));
    DILLUVAS_FILE_CALL(file, status, dilluvas_live(&file->cache, &live));
    size += PAGES * 40; /* what is pending */
    return file->next || (size >= 2 * live && size >= file->next_look);
}

/* Puts the round on all pages, every second one in a batch, and flushes. */
static void make_round(dilluvas_file *file, uint64_t round, int to) {
    dilluvas_status status;
    size_t written;
    uint64_t stamp, before;
    bool in_batch = round % 2;
    if (in_batch) {
        if (way == ENDS_IN_BATCH) teller = to;
        DILLUVAS_FILE_CALL(file, status, dilluvas_pin(&file->cache));
        CHECK(status == DILLUVAS_OK);
    }
    for (uint64_t page = 2; page < PAGES + 2; page++) {
        status = get_round(file, page, &stamp, &before);
        CHECK(status == DILLUVAS_OK || status == DILLUVAS_NONE);
        DILLUVAS_FILE_CALL(file, status,
                           dilluvas_set(&file->cache, page, &stamp, (const uint8_t *)"r", 1, (const uint8_t *)&round, sizeof round));
        CHECK(status == DILLUVAS_OK);
    }
    if (in_batch) {
        DILLUVAS_FILE_CALL(file, status, dilluvas_seal(&file->cache));
        CHECK(status == DILLUVAS_OK);
    }
    if (way == ENDS_IN_STEPS && takes_step(file)) teller = to;
    if (way == ENDS_IN_STEPS || way == IS_KILLED) status = dilluvas_file_flush(file, &in_steps);
    else DILLUVAS_FILE_CALL(file, status, dilluvas_flush(&file->cache, &written));
    CHECK(status == DILLUVAS_OK);
    teller = -1;
}

/* Makes rounds, and says each once it is flushed, until it is killed. */
static void write_rounds(int to) {
    dilluvas_file file = DILLUVAS_FILE_CLOSED;
    dilluvas_status status;
    uint64_t round = 0, found, stamp, page;
    CHECK(dilluvas_file_open(&file, path, way == ENDS_IN_REWRITING || way == ENDS_IN_STEPS ? &long_segments : &short_segments) == DILLUVAS_OK);
    for (uint64_t wanted = 2; wanted < PAGES + 2; wanted++) {
        if (get_round(&file, wanted, &stamp, &found) == DILLUVAS_GONE) {
            DILLUVAS_FILE_CALL(&file, status, dilluvas_allocate(&file.cache, NULL, 0, &page, &stamp));
            CHECK(status == DILLUVAS_OK && page == wanted);
        }
        if (round < found) round = found;
    }
    for (int made = 0;; made++) {
        if (made % 3 == 2 && way != ENDS_IN_STEPS) {
            if (way == ENDS_IN_REWRITING) teller = to;
            CHECK(dilluvas_file_compact(&file) == DILLUVAS_OK);
            ends_before = way == ENDS_IN_REWRITING ? END : ends_before;
            calls_before = way == ENDS_IN_REWRITING ? 0 : calls_before;
            may_end(END);
            teller = -1;
        }
        told told = {++round, 0};
        DILLUVAS_FILE_CALL(&file, status, dilluvas_generate_id(&file.cache, &told.id));
        CHECK(status == DILLUVAS_OK);
        make_round(&file, round, to);
        if (write(to, &told, sizeof told) != sizeof told) exit(0);
    }
}

/* Before each call, how many processes ended in a rewriting, in the steps of one, and in a batch. */
static unsigned long ended[WAYS][CALLS];

/* Before which call the process of that turn ends: each in turn, and most often before a write. A rewriting that makes fewer calls than are to
 * come first ends behind it; steps and batches come until there were as many. Every second rewriting in steps is of one step. */
static void choose_end(unsigned turn) {
    static const enum call turns[WAYS][6] = {[ENDS_IN_REWRITING] = {WRITE, SYNC, RENAME, SYNC_FOLDER, END, WRITE},
                                             [ENDS_IN_STEPS] = {WRITE, SYNC, RENAME, SYNC_FOLDER, WRITE, WRITE},
                                             [ENDS_IN_BATCH] = {WRITE, SYNC, WRITE, WRITE, WRITE, WRITE}};
    unsigned before = turn / 6;
    if (way == ENDS_IN_STEPS && turn % 2 == before % 2) in_steps.step = UINT64_MAX;
    ends_before = turns[way][turn % 6];
    if (ends_before == WRITE) calls_before = (int)(way == ENDS_IN_REWRITING ? before % 6 : before + (turn % 6 < 5 ? 0 : 13));
    else calls_before = ends_before == SYNC ? (int)before % 4 : 0;
}

/* Lets a process write for a while, and kills it, or lets it end itself, and takes what it told last. */
static void kill_one(int number, told *last, unsigned long *rounds) {
    int ends[2], status;
    uint64_t id_before = last->id;
    told told;
    CHECK(pipe(ends) == 0);
    pid_t child = fork();
    CHECK(child >= 0);
    if (child == 0) {
        close(ends[0]);
        if (way != IS_KILLED) choose_end((unsigned)number / WAYS);
        write_rounds(ends[1]);
    }
    close(ends[1]);
    if (way == IS_KILLED) {
        struct timespec while_ = {0, (rand() % 30000) * 1000L};
        nanosleep(&while_, NULL);
        kill(child, SIGKILL);
    }
    CHECK(waitpid(child, &status, 0) == child && WIFSIGNALED(status) && WTERMSIG(status) == SIGKILL);
    while (read(ends[0], &told, sizeof told) == sizeof told) {
        if (told.round == 0) {
            ended[way][told.id]++;
            break;
        }
        CHECK(*rounds == 0 || told.id > id_before);
        *last = told;
        ++*rounds;
    }
    close(ends[0]);
}

/* The bytes of the file up to its closed gate, and that one, or 0 where there is none. */
static uint64_t bytes_in_file(void) {
    uint64_t at = 8, len;
    uint8_t gate;
    int descriptor = open(path, O_RDONLY);
    if (descriptor < 0) return 0;
    while (pread(descriptor, &gate, 1, (off_t)at) == 1 && gate) {
        CHECK(pread(descriptor, &len, sizeof len, (off_t)at + 1) == sizeof len);
        at += 9 + len;
    }
    close(descriptor);
    return at + 1;
}

/* The bytes of the frame that says of a batch that it was abandoned. */
enum { ABANDONING = 34 };

/* How many files ended in a batch, by how their process ended, and beside how many a new one was left. */
static unsigned long abandoned[WAYS], left;

/* Opens the file: how many of the pages are at which round. */
static void compare(const told *last) {
    dilluvas_file file = DILLUVAS_FILE_CLOSED;
    uint64_t least = UINT64_MAX, most = 0, found, stamp, before = bytes_in_file();
    left += access(other, F_OK) == 0;
    CHECK(dilluvas_file_open(&file, path, &short_segments) == DILLUVAS_OK);
    CHECK(access(other, F_OK) != 0);
    CHECK(bytes_in_file() == before || bytes_in_file() == before + ABANDONING || last->round == 0);
    abandoned[way] += bytes_in_file() == before + ABANDONING;
    for (uint64_t page = 2; page < PAGES + 2; page++) {
        dilluvas_status status = get_round(&file, page, &stamp, &found);
        CHECK(status == DILLUVAS_OK || status == DILLUVAS_NONE || (status == DILLUVAS_GONE && last->round == 0));
        if (found < least) least = found;
        if (found > most) most = found;
    }
    CHECK(least >= last->round);
    CHECK(most <= least + 1);
    CHECK(most == least || most % 2 == 0);
    dilluvas_file_close(&file);
}

int main(int count, char **arguments) {
    CHECK(count == 3);
    int times = atoi(arguments[2]);
    told last = {0, 0};
    unsigned long rounds = 0;
    snprintf(path, sizeof path, "%s/killed", arguments[1]);
    snprintf(other, sizeof other, "%s.dilluvas-new", path);
    unlink(path);
    srand(1);
    for (int i = 0; i < times; i++) {
        way = (enum way)(i % WAYS);
        kill_one(i, &last, &rounds);
        compare(&last);
    }
    unlink(path);
    const unsigned long *in = ended[ENDS_IN_REWRITING];
    printf("%d kills: none of %lu flushed rounds was lost; in a rewriting %lu before a write, %lu before a sync, %lu before the new name, %lu "
           "before that was durable, and %lu behind it\n", times, rounds, in[WRITE], in[SYNC], in[RENAME], in[SYNC_FOLDER], in[END]);
    CHECK(times < 300 || (in[WRITE] && in[SYNC] && in[RENAME] && in[SYNC_FOLDER]));
    in = ended[ENDS_IN_STEPS];
    printf("in steps of one %lu before a write, %lu before a sync, %lu before the new name, and %lu before that was durable; %lu new files were "
           "left\n", in[WRITE], in[SYNC], in[RENAME], in[SYNC_FOLDER], left);
    CHECK(times < 300 || (in[WRITE] && in[SYNC] && in[RENAME] && in[SYNC_FOLDER] && left));
    in = ended[ENDS_IN_BATCH];
    printf("in a batch %lu before a write and %lu before a sync; %lu files ended in a batch\n", in[WRITE], in[SYNC], abandoned[ENDS_IN_BATCH]);
    CHECK(times < 300 || (in[WRITE] && in[SYNC] && 2 * abandoned[ENDS_IN_BATCH] > in[WRITE]));
    return 0;
}
