/* Runs two processes over one path, of which one stops before a call of the system until the other has ended: before its first call, before its
 * second, and so on, and goes on then, or is killed. Each opens the file or makes it, and adds a page; some rewrite it then and add one more. A
 * page that a process says is flushed has to be there at the end. With `both` the other one stops too, before each of its calls in turn, or is
 * killed there. With SECONDS it runs three at a time for so long, of which one and another does some calls, and some are killed.
 *
 * Usage: races FOLDER one|both|SECONDS SEED [SLEDPC], with a folder for the files and `sledpc`, to be one of them. It wants delay.c as a shared
 * library in LD_PRELOAD. The status is 0 where no page is lost. */
#define _GNU_SOURCE
#include "dilluvas_file.h"
#include <fcntl.h>
#include <limits.h>
#include <signal.h>
#include <stdio.h>
#include <stdlib.h>
#include <sys/file.h>
#include <sys/prctl.h>
#include <sys/stat.h>
#include <sys/wait.h>
#include <time.h>
#include <unistd.h>

enum { VALUE = 8, MOST_PAGES = 16, TOGETHER = 3 };

static char path[4096], other[4200], kept[4200];
static const char *sledpc;

static const dilluvas_file_settings settings = {4096, 10, 4096};

/* ---- What a process does. */

#define CALL(call) \
    do { \
        DILLUVAS_FILE_CALL(file, status, call); \
        if (status != DILLUVAS_OK) return status; \
    } while (0)

/* Adds a page, and says so once it is flushed. */
static dilluvas_status add_page(dilluvas_file *file, const char *value) {
    dilluvas_status status;
    uint8_t pairs[64];
    uint64_t page, stamp;
    size_t written, end = dilluvas_put(pairs, sizeof pairs, 0, "k", 1, value, VALUE);
    CALL(dilluvas_allocate(&file->cache, pairs, end, &page, &stamp));
    CALL(dilluvas_flush(&file->cache, &written));
    dprintf(STDOUT_FILENO, "page %llu %s\n", (unsigned long long)page, value);
    return DILLUVAS_OK;
}

/* Opens the file or makes it where it is to lie, as `sledpc` does: from then on it is a file of the loop. */
static dilluvas_status open_in_place(dilluvas_file *file) {
    struct stat mine, found;
    dilluvas_status status;
    file->process = getpid();
    file->buffer = calloc(1, 65536);
    file->path = calloc(1, PATH_MAX);
    file->settings = settings;
    file->descriptor = open(path, O_RDWR | O_CREAT | O_CLOEXEC, 0666);
    if (file->descriptor < 0) return DILLUVAS_NO_ACCESS;
    if (flock(file->descriptor, LOCK_EX | LOCK_NB) != 0) return DILLUVAS_HELD;
    /* to begin anew is left out: another file has taken its place */
    if (fstat(file->descriptor, &mine) != 0 || stat(path, &found) != 0 || mine.st_ino != found.st_ino) return DILLUVAS_HELD;
    DILLUVAS_FILE_CALL(file, status, dilluvas_open_file(&file->cache, &settings, (uint64_t)mine.st_size));
    return status;
}

enum kind { WRITES, REWRITES, IN_PLACE, IS_SLEDPC };

static const char *const kinds[] = {"writes", "rewrites", "writes in place", "is sledpc"};

/* Opens the file and adds a page, and another one behind a rewriting. */
static dilluvas_status be_process(enum kind kind, const char *value) {
    dilluvas_file file = DILLUVAS_FILE_CLOSED;
    dilluvas_status status = kind == IN_PLACE ? open_in_place(&file) : dilluvas_file_open(&file, path, &settings);
    if (status == DILLUVAS_OK) status = add_page(&file, value);
    if (status == DILLUVAS_OK && kind == REWRITES) {
        status = dilluvas_file_compact(&file);
        if (status == DILLUVAS_OK) status = add_page(&file, value);
    }
    dilluvas_file_close(&file);
    return status;
}

/* ---- Processes. */

typedef struct process {
    enum kind kind;
    char value[VALUE + 1];
    pid_t pid;
    int says;
    bool has_ended, was_killed;
    int status; /* once it has ended by itself */
} process;

/* The input of sledpc: one page with the value, and a flush. */
static int script_of(const char *value) {
    FILE *script = tmpfile();
    fprintf(script, "alloc 6b=");
    for (const char *at = value; *at; at++) fprintf(script, "%02x", (unsigned)*at);
    fprintf(script, "\nflush\n");
    fflush(script);
    rewind(script);
    return fileno(script);
}

/* What the process that is started does. It stops before its call of that number, or before none where it is 0. */
static void run(const process *started, int says, unsigned stops_at) {
    char delay[32];
    prctl(PR_SET_PDEATHSIG, SIGKILL);
    dup2(says, STDOUT_FILENO);
    if (started->kind == IS_SLEDPC) {
        dup2(script_of(started->value), STDIN_FILENO);
        /* it says that the file is held */
        dup2(open("/dev/null", O_WRONLY | O_CLOEXEC), STDERR_FILENO);
    }
    snprintf(delay, sizeof delay, "stop:%u", stops_at);
    if (stops_at) setenv("DILLUVAS_DELAY", delay, 1);
    if (started->kind != IS_SLEDPC) _exit((int)be_process(started->kind, started->value));
    execl(sledpc, sledpc, "file", path, (char *)NULL);
    _exit(127);
}

/* Waits until a process stops or ends. */
static void wait_for(process *waited) {
    int status;
    if (waitpid(waited->pid, &status, WUNTRACED) != waited->pid) abort();
    if (WIFSTOPPED(status)) return;
    waited->has_ended = true;
    waited->status = WIFEXITED(status) ? WEXITSTATUS(status) : -1;
}

static process start(enum kind kind, unsigned stops_at) {
    static unsigned number;
    process started = {kind, "", 0, -1, false, false, -1};
    int ends[2];
    snprintf(started.value, sizeof started.value, "%0*u", VALUE, ++number % 100000000);
    if (pipe2(ends, O_CLOEXEC) != 0) abort();
    started.pid = fork();
    if (started.pid == 0) run(&started, ends[1], stops_at);
    if (started.pid < 0) abort();
    close(ends[1]);
    started.says = ends[0];
    wait_for(&started);
    return started;
}

static void go_on(process *stopped) {
    kill(stopped->pid, SIGCONT);
    wait_for(stopped);
}

static void end(process *running) {
    while (!running->has_ended) go_on(running);
}

static void kill_it(process *running) {
    if (running->has_ended) return;
    kill(running->pid, SIGKILL);
    running->was_killed = true;
    end(running);
}

/* ---- What stands there before. */

enum before { ABSENT, EMPTY, THERE, TORN, NAMED_TWICE, KEPT, BEFORES };

static const char *const befores[] = {
    "no file", "an empty file", "a file", "what was left by the other name", "a file that has the other name too",
    "a file of a third name that has the other name too",
};

static uint8_t content[4096];
static size_t content_len;

static void put(const char *name, const void *bytes, size_t len) {
    int descriptor = open(name, O_WRONLY | O_CREAT | O_TRUNC, 0666);
    if (descriptor < 0 || write(descriptor, bytes, len) != (ssize_t)len) abort();
    close(descriptor);
}

static void prepare(enum before before) {
    unlink(path);
    unlink(other);
    unlink(kept);
    if (before == EMPTY) put(path, "", 0);
    if (before == THERE || before == NAMED_TWICE) put(path, content, content_len);
    if (before == TORN) put(other, "torn", 4);
    if (before == KEPT) put(kept, content, content_len);
    if (before == NAMED_TWICE && link(path, other) != 0) abort();
    if (before == KEPT && link(kept, other) != 0) abort();
}

/* The bytes of a file with one page. */
static void make_content(void) {
    prepare(ABSENT);
    process first = start(WRITES, 0);
    if (first.status != DILLUVAS_OK) abort();
    close(first.says);
    int descriptor = open(path, O_RDONLY);
    ssize_t len = read(descriptor, content, sizeof content);
    close(descriptor);
    if (len <= 0) abort();
    content_len = (size_t)len;
}

/* ---- What stands there at the end. */

static int failures;

/* Says of a run what went wrong. */
static void fail(const char *told, const char *what) {
    printf("%s: %s\n", told, what);
    failures++;
}

/* Whether the cache has a page with that value. */
static bool has_page(dilluvas_file *file, uint64_t page, const char *value) {
    dilluvas_status status;
    uint8_t found[VALUE];
    uint64_t stamp;
    size_t len = 0;
    DILLUVAS_FILE_CALL(file, status,
                       dilluvas_value(&file->cache, page, (const uint8_t *)"k", 1, &stamp, found, sizeof found, &len));
    return status == DILLUVAS_OK && len == VALUE && memcmp(found, value, VALUE) == 0;
}

/* Whether each page is there that the process said it has flushed. */
static bool has_pages(dilluvas_file *file, const process *ended) {
    char said[1024], value[VALUE + 1];
    unsigned long long page;
    ssize_t len = read(ended->says, said, sizeof said - 1);
    said[len > 0 ? len : 0] = 0;
    /* sledpc says `page ID STAMP` first, and that it is flushed in a line of its own */
    if (ended->kind == IS_SLEDPC) {
        bool is_flushed = strstr(said, "\nflushed ") && sscanf(said, "page %llu", &page) == 1;
        return !is_flushed || has_page(file, page, ended->value);
    }
    for (const char *line = said; *line; line = strchr(line, '\n') + 1) {
        if (sscanf(line, "page %llu %8s", &page, value) != 2 || !has_page(file, page, value)) return false;
    }
    return true;
}

static bool has_its_page(const char *name) {
    dilluvas_file file = DILLUVAS_FILE_CLOSED;
    bool is_there = dilluvas_file_open(&file, name, &settings) == DILLUVAS_OK && has_page(&file, 2, "00000001");
    dilluvas_file_close(&file);
    return is_there;
}

/* Checks how processes ended, and the file. */
static void check(const char *told, enum before before, process *processes, int count) {
    dilluvas_file file = DILLUVAS_FILE_CLOSED;
    bool one_was_killed = false;
    for (int i = 0; i < count; i++) {
        const process *ended = &processes[i];
        one_was_killed |= ended->was_killed;
        bool may_be = ended->status == DILLUVAS_OK || ended->status == DILLUVAS_HELD || (ended->kind == IS_SLEDPC && ended->status == 1);
        if (!may_be && !ended->was_killed) fail(told, "a process fails");
    }
    if (dilluvas_file_open(&file, path, &settings) != DILLUVAS_OK) fail(told, "the file isn't opened");
    for (int i = 0; i < count; i++) {
        if (!has_pages(&file, &processes[i])) fail(told, "a page is lost");
        close(processes[i].says);
    }
    dilluvas_file_close(&file);
    if ((before == THERE || before == NAMED_TWICE) && !has_its_page(path)) fail(told, "the page is lost that was there before");
    if (before == KEPT && !has_its_page(kept)) fail(told, "the file of a third name is changed");
    if (before <= THERE && !one_was_killed && access(other, F_OK) == 0) fail(told, "the other name is left");
}

/* ---- The runs. */

static unsigned long runs;

/* One runs while another stands before each of its calls in turn. How many calls that one made. */
static unsigned stop_before_each(enum before before, enum kind first_kind, enum kind second_kind, bool kills) {
    unsigned number = 1;
    char told[400];
    for (bool has_ended = false; !has_ended; number++) {
        snprintf(told, sizeof told, "%s; one that %s %s before its call %u, and one that %s runs", befores[before], kinds[first_kind],
                 kills ? "is killed" : "stops", number, kinds[second_kind]);
        prepare(before);
        process first = start(first_kind, number);
        has_ended = first.has_ended;
        if (kills) kill_it(&first);
        process second = start(second_kind, 0);
        end(&first);
        if (first.status != 0 && second.status != 0) fail(told, "both are refused");
        process both[] = {first, second};
        check(told, before, both, 2);
        runs++;
    }
    return number - 2;
}

static void stop_before_all(void) {
    enum kind last = sledpc ? IS_SLEDPC : IN_PLACE;
    for (int before = 0; before < BEFORES; before++) {
        for (int first = REWRITES; first <= (int)last; first++) {
            for (int second = WRITES; second <= (int)last; second++) {
                unsigned calls = stop_before_each(before, first, second, false);
                if (calls < 10) fail(befores[before], "a process doesn't stop");
            }
            stop_before_each(before, first, WRITES, true);
        }
    }
    printf("%lu runs of two processes, of which one stops or is killed before a call\n", runs);
}

/* The first stands before its call of that number, and the second before each of its own in turn, where it is killed or waits for the first.
 * Whether the first has no such call. */
static bool stop_both(enum before before, enum kind first_kind, enum kind second_kind, bool kills, unsigned number) {
    char told[400];
    bool first_has_ended = false;
    for (unsigned calls = 1, has_ended = false; !has_ended; calls++) {
        snprintf(told, sizeof told, "%s; one that %s stops before its call %u, and one that %s %s before its call %u", befores[before],
                 kinds[first_kind], number, kinds[second_kind], kills ? "is killed" : "stops", calls);
        prepare(before);
        process first = start(first_kind, number), second = start(second_kind, calls);
        first_has_ended = first.has_ended;
        has_ended = second.has_ended;
        if (kills) kill_it(&second);
        end(&first);
        end(&second);
        process third = start(WRITES, 0);
        if (third.status != DILLUVAS_OK) fail(told, "a third one is refused");
        process all[] = {first, second, third};
        check(told, before, all, 3);
        runs++;
    }
    return first_has_ended;
}

static void stop_both_before_all(void) {
    enum kind last = sledpc ? IS_SLEDPC : IN_PLACE;
    for (int before = 0; before < BEFORES; before++) {
        for (int first = REWRITES; first <= (int)last; first++) {
            for (int second = REWRITES; second <= (int)last; second++) {
                for (unsigned number = 1; !stop_both(before, first, second, false, number); number++) {}
                for (unsigned number = 1; !stop_both(before, first, second, true, number); number++) {}
            }
        }
    }
    printf("%lu runs of two processes, of which both stop, or one is killed\n", runs);
}

/* Some run together, and which does the next calls is drawn. */
static void run_together(unsigned seed) {
    process processes[TOGETHER];
    char told[400];
    srand(seed);
    enum before before = rand() % BEFORES;
    snprintf(told, sizeof told, "%s; %d together, seed %u", befores[before], TOGETHER, seed);
    prepare(before);
    for (int i = 0; i < TOGETHER; i++) processes[i] = start(rand() % (sledpc ? 4 : 3), 1);
    for (int left = TOGETHER; left > 0;) {
        process *next = &processes[rand() % TOGETHER];
        if (next->has_ended) continue;
        if (rand() % 50 == 0) kill_it(next);
        for (int calls = rand() % 8; calls >= 0 && !next->has_ended; calls--) go_on(next);
        left -= next->has_ended;
    }
    check(told, before, processes, TOGETHER);
}

int main(int count, char **arguments) {
    if (count < 4) return 2;
    snprintf(path, sizeof path, "%s/races", arguments[1]);
    snprintf(other, sizeof other, "%s.dilluvas-new", path);
    snprintf(kept, sizeof kept, "%s.kept", path);
    sledpc = count > 4 ? arguments[4] : NULL;
    time_t until = time(NULL) + atoi(arguments[2]);
    unsigned seed = (unsigned)strtoul(arguments[3], NULL, 10), together = 0;
    make_content();
    if (strcmp(arguments[2], "one") == 0) stop_before_all();
    if (strcmp(arguments[2], "both") == 0) stop_both_before_all();
    for (; failures == 0 && time(NULL) < until; together++) run_together(seed + together);
    if (together) printf("%u runs of %d processes, from seed %u\n", together, TOGETHER, seed);
    prepare(ABSENT);
    return failures != 0;
}
