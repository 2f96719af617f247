#ifndef _GNU_SOURCE
#define _GNU_SOURCE /* sync_file_range, beside what POSIX has */
#endif
#include "dilluvas_rewriting.h"
#include <errno.h>
#include <fcntl.h>
#include <stdlib.h>
#include <sys/resource.h>
#include <sys/statvfs.h>
#include <sys/types.h>
#include <unistd.h>

enum {
    GATE = 8,           /* the place of the first gate: the opening is before it */
    FRAME_HEAD = 9,     /* a gate, and the length of the frame's records */
    RECORD_HEAD = 17,   /* kind, page, and the length of the payload */
    WINDOW = 262144,    /* bytes of the old file that are read at once */
    FIRST_READ = 4096,  /* bytes that are read first of a record that is copied */
    BODY = 262144,      /* bytes of a frame of the new file, unless one record has more */
    COST = 1024,        /* the work of copying a record, beside its bytes */
    MORE_ROOM = 8388608 /* room that the old file is left in any case */
};

static const uint8_t OPENING[GATE] = {'S', 'L', 'P', 'C', 'L', 'O', 'G', '1'};

/* The page id of a record that marks a batch. */
static const uint64_t MARK = UINT64_MAX - 666;
static const uint32_t NO_LINK = UINT32_MAX;

/* A page: the place of the record with its content, 0 where it is free, and its links, in order. */
typedef struct chain {
    uint64_t at;
    uint32_t first, last;
} chain;

typedef struct a_link {
    uint64_t at;
    uint32_t next;
} a_link;

/* A record of the old file, and where it is. */
typedef struct record {
    uint64_t at, page, len;
    uint8_t kind;
} record;

struct dilluvas_rewriting {
    int from, to;
    /* how much work is left in this step */
    int64_t left;
    /* whether all of the old file was read, and how many pages were to be copied then at the end of the last step: else SIZE_MAX */
    bool is_read;
    size_t missing;

    /* Of the old file: the next record, and the gate after its frame. All before was read. */
    uint64_t at, gate;
    uint64_t window_at;
    size_t window_len;
    uint8_t *window;

    /* The pages, as the records that were read make them. */
    chain *pages;
    size_t page_count, page_room;
    a_link *links;
    size_t link_count, link_room;
    uint32_t spare_link;

    /* The batch that is open after the records that were read: where it began, and its changes. */
    uint64_t begun;
    record *inside;
    size_t inside_count, inside_room;

    /* Of the new file: the pages that it has, where its next gate is, where its own pages are, and the frame that is written next. */
    size_t copied;
    uint64_t end, own;
    uint8_t *frame;
    size_t body;
};

/* ---- Reading and writing files. */

bool dilluvas_write_all(int descriptor, const uint8_t *bytes, size_t len, uint64_t at) {
    struct rlimit limit;
    if (getrlimit(RLIMIT_FSIZE, &limit) == 0 && limit.rlim_cur != RLIM_INFINITY && at + len > limit.rlim_cur) {
        errno = EFBIG;
        return false;
    }
    while (len > 0) {
        ssize_t written = pwrite(descriptor, bytes, len, (off_t)at);
        if (written < 0 && errno == EINTR) continue;
        if (written == 0) errno = EIO;
        if (written <= 0) return false;
        bytes += written;
        len -= (size_t)written;
        at += (uint64_t)written;
    }
    return true;
}

bool dilluvas_read_up_to(int descriptor, uint8_t *bytes, size_t len, uint64_t at, size_t *got) {
    *got = 0;
    while (*got < len) {
        ssize_t read = pread(descriptor, bytes + *got, len - *got, (off_t)(at + *got));
        if (read < 0 && errno == EINTR) continue;
        if (read < 0 && *got == 0) return false;
        if (read <= 0) break;
        *got += (size_t)read;
    }
    return true;
}

bool dilluvas_is_of_room(int error) {
    return error == ENOSPC || error == EDQUOT;
}

static dilluvas_status write_new(dilluvas_rewriting *r, const uint8_t *bytes, size_t len, uint64_t at) {
    if (dilluvas_write_all(r->to, bytes, len, at)) return DILLUVAS_OK;
    return dilluvas_is_of_room(errno) ? DILLUVAS_DISK_FULL : DILLUVAS_WRITE;
}

/* Reads so many bytes of the old file, all of which are there. */
static dilluvas_status read_old(const dilluvas_rewriting *r, uint8_t *bytes, size_t len, uint64_t at) {
    while (len > 0) {
        size_t got;
        if (!dilluvas_read_up_to(r->from, bytes, len, at, &got)) return DILLUVAS_READ;
        if (got == 0) return DILLUVAS_CORRUPTION;
        bytes += got;
        len -= got;
        at += got;
    }
    return DILLUVAS_OK;
}

/* Why no more of the old file was read: that it ends there, or that it can't be read. */
static dilluvas_status why_short(const dilluvas_rewriting *r, uint64_t at) {
    uint8_t byte;
    return read_old(r, &byte, 1, at) == DILLUVAS_CORRUPTION ? DILLUVAS_CORRUPTION : DILLUVAS_READ;
}

static uint64_t number_at(const uint8_t *bytes) {
    uint64_t number = 0;
    for (int i = 7; i >= 0; i--) number = number << 8 | bytes[i];
    return number;
}

static void put_number(uint8_t *bytes, uint64_t number) {
    for (int i = 0; i < 8; i++) bytes[i] = (uint8_t)(number >> 8 * i);
}

/* ---- Arrays that grow. */

/* Makes room for one more, and answers false where there is no memory for it. */
static bool has_room(void **items, size_t *room, size_t count, size_t size) {
    if (count < *room) return true;
    size_t more = *room ? *room * 2 : 64;
    if (more > SIZE_MAX / size) return false;
    void *grown = realloc(*items, more * size);
    if (!grown) return false;
    *items = grown;
    *room = more;
    return true;
}

/* ---- The pages. */

/* Gives the links of a page back. */
static void drop_links(dilluvas_rewriting *r, chain *changed) {
    if (changed->first == NO_LINK) return;
    r->links[changed->last].next = r->spare_link;
    r->spare_link = changed->first;
    changed->first = changed->last = NO_LINK;
}

static dilluvas_status put_content(dilluvas_rewriting *r, const record *change) {
    if (change->page > r->page_count) return DILLUVAS_CORRUPTION;
    if (change->page == r->page_count) {
        if (!has_room((void **)&r->pages, &r->page_room, r->page_count, sizeof *r->pages)) return DILLUVAS_MEMORY;
        r->pages[r->page_count++] = (chain){0, NO_LINK, NO_LINK};
    }
    drop_links(r, &r->pages[change->page]);
    r->pages[change->page].at = change->at;
    return DILLUVAS_OK;
}

static dilluvas_status free_page(dilluvas_rewriting *r, const record *change) {
    if (change->page >= r->page_count) return DILLUVAS_CORRUPTION;
    drop_links(r, &r->pages[change->page]);
    r->pages[change->page].at = 0;
    return DILLUVAS_OK;
}

static dilluvas_status add_link(dilluvas_rewriting *r, const record *change) {
    if (change->page >= r->page_count || r->pages[change->page].at == 0) return DILLUVAS_CORRUPTION;
    uint32_t added = r->spare_link;
    if (added != NO_LINK) {
        r->spare_link = r->links[added].next;
    } else {
        if (r->link_count >= NO_LINK) return DILLUVAS_MEMORY;
        if (!has_room((void **)&r->links, &r->link_room, r->link_count, sizeof *r->links)) return DILLUVAS_MEMORY;
        added = (uint32_t)r->link_count++;
    }
    chain *changed = &r->pages[change->page];
    r->links[added] = (a_link){change->at, NO_LINK};
    if (changed->first == NO_LINK) changed->first = added;
    else r->links[changed->last].next = added;
    changed->last = added;
    return DILLUVAS_OK;
}

/* ---- Writing the new file. */

/* Writes the frame that is ready, if it has records. */
static dilluvas_status write_frame(dilluvas_rewriting *r) {
    if (r->body == 0) return DILLUVAS_OK;
    r->frame[0] = 1;
    put_number(r->frame + 1, r->body);
    dilluvas_status status = write_new(r, r->frame, FRAME_HEAD + r->body, r->end);
    r->end += FRAME_HEAD + r->body;
    r->body = 0;
    return status;
}

/* Copies a record that is a frame by itself, piece by piece. */
static dilluvas_status copy_long(dilluvas_rewriting *r, uint64_t at, uint64_t len) {
    uint8_t head[FRAME_HEAD] = {1};
    put_number(head + 1, len);
    dilluvas_status status = write_frame(r);
    if (status == DILLUVAS_OK) status = write_new(r, head, sizeof head, r->end);
    r->end += FRAME_HEAD;
    while (status == DILLUVAS_OK && len > 0) {
        size_t piece = len < BODY ? (size_t)len : BODY;
        status = read_old(r, r->frame, piece, at);
        if (status == DILLUVAS_OK) status = write_new(r, r->frame, piece, r->end);
        at += piece;
        r->end += piece;
        len -= piece;
    }
    return status;
}

/* Whether a record with this head is one of the page. */
static bool is_of_page(const uint8_t *head, uint64_t page) {
    return head[0] >= 4 && head[0] <= 11 && number_at(head + 1) == page && number_at(head + 9) <= INT64_MAX;
}

/* Copies the record at a place, which is one of the page. */
static dilluvas_status copy_record(dilluvas_rewriting *r, uint64_t page, uint64_t at) {
    uint8_t first[FIRST_READ];
    size_t got;
    if (!dilluvas_read_up_to(r->from, first, sizeof first, at, &got)) return DILLUVAS_READ;
    if (got < RECORD_HEAD) return why_short(r, at + got);
    if (!is_of_page(first, page)) return DILLUVAS_CORRUPTION;
    uint64_t len = RECORD_HEAD + number_at(first + 9);
    r->left -= len < INT64_MAX / 2 ? (int64_t)len : INT64_MAX / 2;
    if (len > BODY) return copy_long(r, at, len);
    dilluvas_status status = r->body + len > BODY ? write_frame(r) : DILLUVAS_OK;
    if (status != DILLUVAS_OK) return status;
    uint8_t *copy = r->frame + FRAME_HEAD + r->body;
    size_t had = got < len ? got : (size_t)len;
    memcpy(copy, first, had);
    if (had < len) status = read_old(r, copy + had, (size_t)len - had, at + had);
    r->body += (size_t)len;
    return status;
}

/* Writes a free page. No record frees a page that isn't there, so an empty leaf comes before that. */
static dilluvas_status copy_free(dilluvas_rewriting *r, uint64_t page) {
    static const uint8_t empty_leaf[8] = {0};
    enum { LEN = 2 * RECORD_HEAD + sizeof empty_leaf };
    r->left -= LEN;
    dilluvas_status status = r->body + LEN > BODY ? write_frame(r) : DILLUVAS_OK;
    if (status != DILLUVAS_OK) return status;
    uint8_t *put = r->frame + FRAME_HEAD + r->body, *freed = put + RECORD_HEAD + sizeof empty_leaf;
    put[0] = 8;
    put_number(put + 1, page);
    put_number(put + 9, sizeof empty_leaf);
    memcpy(put + RECORD_HEAD, empty_leaf, sizeof empty_leaf);
    freed[0] = 4;
    put_number(freed + 1, page);
    put_number(freed + 9, 0);
    r->body += LEN;
    return DILLUVAS_OK;
}

/* Copies the next page. */
static dilluvas_status copy_page(dilluvas_rewriting *r) {
    uint64_t id = r->copied++;
    const chain *copied = &r->pages[id];
    if (copied->at == 0) return copy_free(r, id);
    dilluvas_status status = copy_record(r, id, copied->at);
    r->left -= COST;
    for (uint32_t i = copied->first; status == DILLUVAS_OK && i != NO_LINK; i = r->links[i].next) {
        status = copy_record(r, id, r->links[i].at);
        r->left -= COST;
    }
    return status;
}

/* Copies the cache's own pages once more, the names and the counter, each of which is one record, and closes the new file after that. */
static dilluvas_status close_file(dilluvas_rewriting *r) {
    static const uint8_t closed = 0;
    dilluvas_status status = write_frame(r);
    r->own = r->end;
    for (uint64_t page = 0; status == DILLUVAS_OK && page < 2 && page < r->page_count; page++) {
        if (r->pages[page].first != NO_LINK) return DILLUVAS_CORRUPTION;
        if (r->pages[page].at != 0) status = copy_record(r, page, r->pages[page].at);
    }
    if (status == DILLUVAS_OK) status = write_frame(r);
    return status == DILLUVAS_OK ? write_new(r, &closed, 1, r->end) : status;
}

/* ---- Reading the old file. */

/* Shows some bytes of the old file, at most 32. */
static dilluvas_status look(dilluvas_rewriting *r, uint64_t at, size_t len, const uint8_t **bytes) {
    if (at < r->window_at || at + len > r->window_at + r->window_len) {
        if (!dilluvas_read_up_to(r->from, r->window, WINDOW, at, &r->window_len)) return DILLUVAS_READ;
        r->window_at = at;
        if (r->window_len < len) return why_short(r, at + r->window_len);
    }
    *bytes = r->window + (at - r->window_at);
    return DILLUVAS_OK;
}

/* Makes a change of a page that counts. A page that was copied gets it too. */
static dilluvas_status settle(dilluvas_rewriting *r, const record *change) {
    dilluvas_status status = change->kind == 4   ? free_page(r, change)
                             : change->kind < 10 ? put_content(r, change)
                                                 : add_link(r, change);
    if (status != DILLUVAS_OK || change->page >= r->copied) return status;
    return copy_record(r, change->page, change->at);
}

static bool changes_page(uint8_t kind) {
    return kind >= 4 && kind <= 11;
}

/* Takes a record outside a batch. */
static dilluvas_status take_outside(dilluvas_rewriting *r, const record *taken) {
    if (changes_page(taken->kind)) return settle(r, taken);
    if (taken->kind == 12 && taken->page == MARK && taken->len == 0) {
        r->begun = taken->at;
        return DILLUVAS_OK;
    }
    bool says_nothing = taken->kind == 1 || (taken->kind == 3 && taken->page == MARK && taken->len == 8);
    return says_nothing ? DILLUVAS_OK : DILLUVAS_CORRUPTION;
}

/* Closes the batch that is open. */
static dilluvas_status close_batch(dilluvas_rewriting *r, const record *closing) {
    const uint8_t *payload;
    if (closing->page != MARK || closing->len != 8) return DILLUVAS_CORRUPTION;
    dilluvas_status status = look(r, closing->at + RECORD_HEAD, 8, &payload);
    if (status == DILLUVAS_OK && number_at(payload) != r->begun) status = DILLUVAS_CORRUPTION;
    /* one that was abandoned counts for nothing */
    size_t count = closing->kind == 14 ? 0 : r->inside_count;
    for (size_t i = 0; status == DILLUVAS_OK && i < count; i++) status = settle(r, &r->inside[i]);
    r->inside_count = 0;
    r->begun = 0;
    return status;
}

/* Takes a record inside a batch. */
static dilluvas_status take_inside(dilluvas_rewriting *r, const record *taken) {
    if (taken->kind == 1 || taken->kind == 13 || taken->kind == 14) return close_batch(r, taken);
    if (!changes_page(taken->kind)) return DILLUVAS_CORRUPTION;
    if (!has_room((void **)&r->inside, &r->inside_room, r->inside_count, sizeof *r->inside)) return DILLUVAS_MEMORY;
    r->inside[r->inside_count++] = *taken;
    return DILLUVAS_OK;
}

/* Reads the next record of a frame. */
static dilluvas_status read_record(dilluvas_rewriting *r) {
    const uint8_t *head;
    if (r->gate - r->at < RECORD_HEAD) return DILLUVAS_CORRUPTION;
    dilluvas_status status = look(r, r->at, RECORD_HEAD, &head);
    if (status != DILLUVAS_OK) return status;
    record taken = {r->at, number_at(head + 1), number_at(head + 9), head[0]};
    if (taken.len > r->gate - r->at - RECORD_HEAD) return DILLUVAS_CORRUPTION;
    r->at += RECORD_HEAD + taken.len;
    /* of a longer one that isn't copied no more is read */
    r->left -= RECORD_HEAD + (int64_t)(taken.len < WINDOW ? taken.len : WINDOW);
    return r->begun == 0 ? take_outside(r, &taken) : take_inside(r, &taken);
}

/* Reads a gate, and the head of the frame behind it where it is open. */
static dilluvas_status read_gate(dilluvas_rewriting *r, bool *is_closed) {
    const uint8_t *bytes;
    dilluvas_status status = look(r, r->gate, 1, &bytes);
    *is_closed = status == DILLUVAS_OK && bytes[0] == 0;
    if (status != DILLUVAS_OK || *is_closed) return status;
    status = look(r, r->gate, FRAME_HEAD, &bytes);
    if (status != DILLUVAS_OK) return status;
    uint64_t len = number_at(bytes + 1);
    if (len == 0 || len > INT64_MAX - FRAME_HEAD - r->gate) return DILLUVAS_CORRUPTION;
    r->at = r->gate + FRAME_HEAD;
    r->gate = r->at + len;
    r->left -= FRAME_HEAD;
    return DILLUVAS_OK;
}

/* ---- Steps. */

bool dilluvas_rewriting_has_room(int from, uint64_t bytes) {
    struct statvfs found;
    if (fstatvfs(from, &found) != 0 || found.f_frsize == 0) return true;
    if (bytes > INT64_MAX / 4) return false;
    return found.f_bavail >= (2 * bytes + MORE_ROOM) / found.f_frsize;
}

dilluvas_rewriting *dilluvas_rewriting_begin(void) {
    dilluvas_rewriting *r = calloc(1, sizeof *r);
    if (!r) return NULL;
    r->window = malloc(WINDOW);
    r->frame = malloc(FRAME_HEAD + BODY);
    r->spare_link = NO_LINK;
    r->missing = SIZE_MAX;
    if (r->window && r->frame) return r;
    dilluvas_rewriting_end(r);
    return NULL;
}

void dilluvas_rewriting_end(dilluvas_rewriting *r) {
    if (!r) return;
    free(r->window);
    free(r->frame);
    free(r->pages);
    free(r->links);
    free(r->inside);
    free(r);
}

/* Reads the opening of the old file, and writes that of the new one. */
static dilluvas_status begin_files(dilluvas_rewriting *r) {
    uint8_t opening[GATE];
    dilluvas_status status = read_old(r, opening, GATE, 0);
    if (status != DILLUVAS_OK) return status;
    if (memcmp(opening, OPENING, GATE) != 0) return DILLUVAS_CORRUPTION;
    r->at = r->gate = r->end = GATE;
    return write_new(r, OPENING, GATE, 0);
}

/* Does the next thing. */
static dilluvas_status go_on(dilluvas_rewriting *r, bool *level) {
    if (r->at < r->gate) return read_record(r);
    dilluvas_status status = read_gate(r, &r->is_read);
    if (status != DILLUVAS_OK || !r->is_read) return status;
    if (r->copied < r->page_count) return copy_page(r);
    /* where a batch is open, a flush was promised and not made */
    if (r->begun != 0) return DILLUVAS_ARGUMENTS;
    status = close_file(r);
    *level = status == DILLUVAS_OK;
    return status;
}

/* Whether a step goes on. Once all was read fewer pages are left to be copied after each step, however many it was that were added, so that it
 * ends. */
static bool is_to_go_on(const dilluvas_rewriting *r) {
    return r->left > 0 || r->page_count - r->copied >= r->missing;
}

uint64_t dilluvas_rewriting_stays(const dilluvas_rewriting *r) {
    return r->end;
}

uint64_t dilluvas_rewriting_own_pages(const dilluvas_rewriting *r) {
    return r->own;
}

dilluvas_status dilluvas_rewriting_step(dilluvas_rewriting *r, int from, int to, uint64_t work, bool *level) {
    if (!r || !level) return DILLUVAS_ARGUMENTS;
    r->from = from;
    r->to = to;
    r->left = work < INT64_MAX / 2 ? (int64_t)work : INT64_MAX / 2;
    /* what is behind the closed gate is written anew between two steps */
    r->window_len = 0;
    *level = false;
    dilluvas_status status = r->gate == 0 ? begin_files(r) : DILLUVAS_OK;
    while (status == DILLUVAS_OK && is_to_go_on(r) && !*level) status = go_on(r, level);
    r->missing = r->is_read ? r->page_count - r->copied : SIZE_MAX;
    if (status == DILLUVAS_OK) status = write_frame(r);
#ifdef __linux__
    /* so that little is left to be synced at the end */
    if (status == DILLUVAS_OK) (void)sync_file_range(to, 0, 0, SYNC_FILE_RANGE_WRITE);
#endif
    return status;
}
