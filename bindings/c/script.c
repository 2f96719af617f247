/* The script of docs/SCRIPT.md over the library: `script mem` over a new log in memory, and `script file PATH` over the log in a file. It reads
 * lines from standard input, and writes for each the reply that the program `sledpc` writes. Two things the library doesn't do: a root page
 * 0 is no root to it, and the line that names one is no command here; and over a file it makes neither `amp` nor `gc`, and moves no page.
 *
 * The status is 0 where the script ends, 1 where the file, a stream or the memory fails, and 2 for wrong words. */
#define _DEFAULT_SOURCE
#include "dilluvas_file.h"
#include "script_lines.h"
#include <inttypes.h>
#include <stdio.h>
#include <stdlib.h>
#include <sys/types.h>

/* A script's cache, and room for what goes in and comes out. */
typedef struct script {
    dilluvas_file file; /* of one in memory the cache alone is open */
    bool is_over_file;
    uint8_t *page; /* what was got last, in `room` bytes */
    size_t room;
    uint8_t pairs[PAIRS_ROOM];
} script;

/* Makes a call until it is answered. */
#define CALL(script, status, call) \
    do { \
        (status) = (call); \
    } while ((script)->is_over_file && dilluvas_file_again(&(script)->file, &(status)))

static void die(const char *why) {
    fflush(stdout);
    fprintf(stderr, "script: %s\n", why);
    exit(1);
}

/* ---- Replies. */

static void put_error(dilluvas_status status) {
    if (status == DILLUVAS_MEMORY) puts("error memory");
    else if (status == DILLUVAS_READ) puts("error read");
    else if (status == DILLUVAS_WRITE) puts("error write");
    else if (status == DILLUVAS_CORRUPTION) puts("error corruption");
    else if (status == DILLUVAS_ARGUMENTS || status == DILLUVAS_NO_BATCH) puts("error line");
    else if (status > 200) printf("error bug %u\n", status - 200);
    else if (status > 100) printf("error unsupported %u\n", status - 100);
    else printf("error status %u\n", status);
}

/* The reply to a call that answers a number. */
static void put_answer(dilluvas_status status, const char *label, uint64_t number) {
    if (status != DILLUVAS_OK) put_error(status);
    else printf("%s %" PRIu64 "\n", label, number);
}

static void put_done(dilluvas_status status) {
    if (status != DILLUVAS_OK) put_error(status);
    else puts("ok");
}

/* The reply to a change of a page, which has this stamp now. */
static void put_swap(dilluvas_status status, uint64_t stamp) {
    if (status == DILLUVAS_STALE) printf("stale %" PRIu64 "\n", stamp);
    else if (status == DILLUVAS_GONE) puts("gone");
    else put_answer(status, "ok", stamp);
}

static void put_bytes(const uint8_t *bytes, size_t len) {
    static const char digits[] = "0123456789abcdef";
    if (len == 0) putchar('-');
    for (size_t i = 0; i < len; i++) {
        putchar(digits[bytes[i] / 16]);
        putchar(digits[bytes[i] % 16]);
    }
}

static void put_page(const dilluvas_found *found, const uint8_t *pairs) {
    dilluvas_pair pair;
    size_t at = 0;
    printf("%s %" PRIu64, found->is_index ? "index" : "leaf", found->stamp);
    while (dilluvas_next(pairs, found->needed, &at, &pair)) {
        putchar(' ');
        put_bytes(pair.key, pair.key_len);
        putchar('=');
        if (found->is_index) printf("%" PRIu64, dilluvas_child(&pair));
        else put_bytes(pair.value, pair.value_len);
    }
    putchar('\n');
}

/* ---- Commands. Each serves the line of its name and the words behind it, or answers false: the line is no command. */

static bool serve_alloc(script *s, words *left) {
    dilluvas_status status;
    uint64_t page = 0, stamp = 0;
    size_t len;
    if (!take_pairs(left, s->pairs, &len)) return false;
    CALL(s, status, dilluvas_allocate(&s->file.cache, s->pairs, len, &page, &stamp));
    if (status != DILLUVAS_OK) put_error(status);
    else printf("page %" PRIu64 " %" PRIu64 "\n", page, stamp);
    return true;
}

/* Makes room for so many bytes of a page. */
static void make_room(script *s, size_t room) {
    uint8_t *page = realloc(s->page, room);
    if (!page) die("error memory");
    s->page = page;
    s->room = room;
}

static bool serve_get(script *s, words *left) {
    dilluvas_status status;
    dilluvas_found found;
    uint64_t page;
    if (!take_number(left, &page) || !left->are_done) return false;
    CALL(s, status, dilluvas_get(&s->file.cache, page, &found, s->page, s->room));
    while (status == DILLUVAS_SHORT) {
        make_room(s, found.needed);
        CALL(s, status, dilluvas_get(&s->file.cache, page, &found, s->page, s->room));
    }
    if (status == DILLUVAS_GONE) puts("none");
    else if (status != DILLUVAS_OK) put_error(status);
    else put_page(&found, s->page);
    return true;
}

/* A page, and the stamp that it is expected to have. */
static bool take_token(words *left, uint64_t *page, uint64_t *stamp) {
    return take_number(left, page) && take_number(left, stamp);
}

static bool serve_set(script *s, words *left) {
    dilluvas_status status;
    uint64_t page, stamp;
    text key, value;
    if (!take_token(left, &page, &stamp) || !take_bytes(left, &key) || !take_bytes(left, &value) || !left->are_done) return false;
    CALL(s, status, dilluvas_set(&s->file.cache, page, &stamp, key.at, key.len, value.at, value.len));
    put_swap(status, stamp);
    return true;
}

static bool serve_del(script *s, words *left) {
    dilluvas_status status;
    uint64_t page, stamp;
    text key;
    if (!take_token(left, &page, &stamp) || !take_bytes(left, &key) || !left->are_done) return false;
    CALL(s, status, dilluvas_del(&s->file.cache, page, &stamp, key.at, key.len));
    put_swap(status, stamp);
    return true;
}

static bool serve_replace(script *s, words *left) {
    dilluvas_status status;
    uint64_t page, stamp;
    size_t len;
    if (!take_token(left, &page, &stamp) || !take_pairs(left, s->pairs, &len)) return false;
    CALL(s, status, dilluvas_replace(&s->file.cache, page, &stamp, s->pairs, len));
    put_swap(status, stamp);
    return true;
}

static bool serve_free(script *s, words *left) {
    dilluvas_status status;
    uint64_t page, stamp;
    if (!take_token(left, &page, &stamp) || !left->are_done) return false;
    CALL(s, status, dilluvas_free(&s->file.cache, page, &stamp));
    put_swap(status, stamp);
    return true;
}

static bool serve_open(script *s, words *left) {
    dilluvas_status status;
    uint64_t page = 0;
    text name;
    if (!take_bytes(left, &name) || !left->are_done) return false;
    CALL(s, status, dilluvas_open_tree(&s->file.cache, name.at, name.len, &page));
    put_answer(status, "page", page);
    return true;
}

static bool serve_root(script *s, words *left) {
    dilluvas_status status;
    uint64_t page = 0;
    text name;
    if (!take_bytes(left, &name) || !left->are_done) return false;
    CALL(s, status, dilluvas_root(&s->file.cache, name.at, name.len, &page));
    if (status == DILLUVAS_NONE) puts("none");
    else put_answer(status, "page", page);
    return true;
}

static bool serve_cas(script *s, words *left) {
    dilluvas_status status;
    uint64_t root, next;
    text name;
    if (!take_bytes(left, &name) || !take_root(left, &root) || !take_root(left, &next) || !left->are_done) return false;
    CALL(s, status, dilluvas_cas_root(&s->file.cache, name.at, name.len, &root, next));
    if (status == DILLUVAS_STALE && root == 0) puts("is -");
    else if (status == DILLUVAS_STALE) printf("is %" PRIu64 "\n", root);
    else put_done(status);
    return true;
}

static bool serve_id(script *s, words *left) {
    dilluvas_status status;
    uint64_t id = 0;
    if (!left->are_done) return false;
    CALL(s, status, dilluvas_generate_id(&s->file.cache, &id));
    put_answer(status, "id", id);
    return true;
}

static bool serve_mark(script *s, words *left, dilluvas_status (*call)(dilluvas *)) {
    dilluvas_status status;
    if (!left->are_done) return false;
    CALL(s, status, call(&s->file.cache));
    put_done(status);
    return true;
}

static bool serve_pin(script *s, words *left) {
    return serve_mark(s, left, dilluvas_pin);
}

static bool serve_seal(script *s, words *left) {
    return serve_mark(s, left, dilluvas_seal);
}

static bool serve_cancel(script *s, words *left) {
    return serve_mark(s, left, dilluvas_cancel);
}

static bool serve_flush(script *s, words *left) {
    dilluvas_status status;
    size_t written = 0;
    if (!left->are_done) return false;
    CALL(s, status, dilluvas_flush(&s->file.cache, &written));
    put_answer(status, "flushed", written);
    return true;
}

static bool serve_size(script *s, words *left) {
    dilluvas_status status;
    uint64_t bytes = 0;
    if (!left->are_done) return false;
    CALL(s, status, dilluvas_size(&s->file.cache, &bytes));
    put_answer(status, "size", bytes);
    return true;
}

static bool serve_amp(script *s, words *left) {
    dilluvas_status status;
    uint64_t log = 0, pages = 0;
    if (!left->are_done) return false;
    if (s->file.buffer) status = dilluvas_file_amp(&s->file, &log, &pages);
    else status = dilluvas_amp(&s->file.cache, &log, &pages);
    if (status != DILLUVAS_OK) put_error(status);
    else printf("amp %" PRIu64 " %" PRIu64 "\n", log, pages);
    return true;
}

static bool serve_gc(script *s, words *left) {
    dilluvas_status status;
    bool moved = false;
    if (!left->are_done) return false;
    CALL(s, status, dilluvas_gc(&s->file.cache, &moved));
    if (status != DILLUVAS_OK) put_error(status);
    else puts(moved ? "moved" : "idle");
    return true;
}

static const struct command {
    const char *name;
    bool (*serve)(script *s, words *left);
} commands[] = {
    {"alloc", serve_alloc},
    {"get", serve_get},
    {"set", serve_set},
    {"del", serve_del},
    {"replace", serve_replace},
    {"free", serve_free},
    {"open", serve_open},
    {"root", serve_root},
    {"cas", serve_cas},
    {"id", serve_id},
    {"pin", serve_pin},
    {"seal", serve_seal},
    {"cancel", serve_cancel},
    {"flush", serve_flush},
    {"size", serve_size},
    {"amp", serve_amp},
    {"gc", serve_gc},
};

/* ---- Lines. */

/* Serves a line where it is a command. */
static bool serve(script *s, text line) {
    words left = words_of(line);
    text name = next_word(&left);
    if (line.len > LONGEST_LINE) return false;
    for (size_t i = 0; i < sizeof commands / sizeof *commands; i++) {
        if (is_word(name, commands[i].name)) return commands[i].serve(s, &left);
    }
    return false;
}

static void serve_lines(script *s) {
    char *line = NULL;
    size_t room = 0;
    ssize_t len;
    while ((len = getline(&line, &room, stdin)) >= 0) {
        if (line[len - 1] == '\n') len--;
        if (!serve(s, (text){(uint8_t *)line, (size_t)len})) puts("error line");
    }
    free(line);
    if (!feof(stdin)) die("error read");
    if (fflush(stdout) != 0 || ferror(stdout)) die("error write");
}

/* ---- The program. */

static dilluvas_status open_cache(script *s, const char *path) {
    const dilluvas_settings settings = DILLUVAS_SETTINGS;
    const dilluvas_file_settings file_settings = {1048576, 10, 4096};
    s->is_over_file = path != NULL;
    if (path) return dilluvas_file_open(&s->file, path, &file_settings);
    return dilluvas_open_memory(&s->file.cache, &settings);
}

/* A batch that is open is cancelled. */
static void close_cache(script *s) {
    dilluvas_status status;
    CALL(s, status, dilluvas_cancel(&s->file.cache));
    if (s->is_over_file) dilluvas_file_close(&s->file);
    else dilluvas_close(&s->file.cache);
    free(s->page);
}

int main(int count, char **arguments) {
    static script s = {.file = DILLUVAS_FILE_CLOSED};
    bool is_memory = count == 2 && strcmp(arguments[1], "mem") == 0;
    bool is_file = count == 3 && strcmp(arguments[1], "file") == 0;
    if (!is_memory && !is_file) {
        fputs("usage: script mem | file PATH\n", stderr);
        return 2;
    }
    dilluvas_status status = open_cache(&s, is_file ? arguments[2] : NULL);
    if (status != DILLUVAS_OK) {
        char why[128] = "";
        size_t needed;
        dilluvas_text(status, (uint8_t *)why, sizeof why - 1, &needed);
        die(why);
    }
    serve_lines(&s);
    close_cache(&s);
    return 0;
}
