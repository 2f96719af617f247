/* Opens a file while another program makes one by its path, or changes the one that is there: what that program wrote stays. Prints the line of
 * each check that fails: the status is 1 then. Linked with steps.c and failing.c, and --wrap=open. Usage: meanwhile FOLDER, in which it makes
 * its files. */
#include "steps.h"
#include <errno.h>
#include <fcntl.h>
#include <stdarg.h>
#include <stdio.h>
#include <stdlib.h>
#include <sys/file.h>
#include <sys/stat.h>
#include <unistd.h>

/* ---- What the other program does. */

/* The bytes of its file, what it does before which of the calls that are watched, and whether it did. */
static uint8_t *content;
static size_t content_len;
static void (*act)(void);
static long looks, acts_at;
static bool has_acted;

static void act_once(void) {
    if (looks++ == acts_at) act();
}

/* It makes its file in place: it opens or makes it, locks it, looks whether the path leads to it, and writes it if it has no bytes. */
static void make_in_place(void) {
    struct stat mine, found;
    int descriptor = open(path, O_RDWR | O_CREAT, 0666);
    bool is_its_own = flock(descriptor, LOCK_EX | LOCK_NB) == 0 && fstat(descriptor, &mine) == 0 && stat(path, &found) == 0 &&
                      mine.st_ino == found.st_ino && mine.st_size == 0;
    if (is_its_own) IS(__real_pwrite(descriptor, content, content_len, 0), content_len);
    has_acted |= is_its_own;
    close(descriptor);
}

/* It locks nothing, and writes a byte. */
static void write_byte(void) {
    put(path, "x", 0644);
    has_acted = true;
}

static void take_away(void) {
    IS(unlink(path), 0);
    has_acted = true;
}

static void put_in_its_place(void) {
    take_away();
    make_in_place();
}

static void put_link(void) {
    IS(symlink("nothing", path), 0);
    has_acted = true;
}

/* It makes a file as this loop does, and is killed before it has taken away the other name. */
static void leave_both_names(void) {
    make_in_place();
    IS(link(path, other), 0);
}

/* Before the other name is opened first, if that is told. */
static void (*before_other)(void);

int __real_open(const char *name, int flags, ...);
int __wrap_open(const char *name, int flags, ...);

int __wrap_open(const char *name, int flags, ...) {
    void (*call)(void) = strcmp(name, other) == 0 ? before_other : NULL;
    va_list arguments;
    va_start(arguments, flags);
    mode_t mode = flags & O_CREAT ? va_arg(arguments, mode_t) : 0;
    va_end(arguments);
    if (call) {
        before_other = NULL;
        call();
    }
    return __real_open(name, flags, mode);
}

/* ---- The tests. */

/* Opens the file while something is done before a watched call, counted from 0. */
static dilluvas_status open_while(void (*does)(void), long at) {
    dilluvas_file file = DILLUVAS_FILE_CLOSED;
    act = does;
    acts_at = at;
    looks = 0;
    has_acted = false;
    watch = act_once;
    dilluvas_status answer = dilluvas_file_open(&file, path, &over_file);
    watch = NULL;
    dilluvas_file_close(&file);
    IS(size_of(other), -1);
    return answer;
}

static void make_content(void) {
    dilluvas_file file = opened();
    allocates(&file, 2, 1);
    flushes(&file);
    dilluvas_file_close(&file);
    content = bytes_of(path, &content_len);
    unlink(path);
}

/* Before each call of a making in turn another program makes the file: there it stays, and is opened. Up to which call it did is answered. */
static long each_call_is_passed(void) {
    long at = 0;
    do {
        IS(open_while(make_in_place, at), DILLUVAS_OK);
        if (has_acted) IS(has_bytes(content, content_len), true);
        else IS(size_of(path), 53);
        IS(unlink(path), 0);
    } while (has_acted && at++ < 100);
    return at;
}

static void a_file_that_came_meanwhile_stays(void) {
    IS(each_call_is_passed() > 4, true);
    IS(open_while(put_link, 1), DILLUVAS_NO_ACCESS);
    IS(unlink(path), 0);
    before_other = make_in_place;
    IS(open_while(take_away, -1), DILLUVAS_OK);
    IS(has_bytes(content, content_len), true);
    IS(unlink(path), 0);
    before_other = leave_both_names;
    IS(open_while(take_away, -1), DILLUVAS_OK);
    IS(has_bytes(content, content_len), true);
    IS(unlink(path), 0);
}

/* Where a file gets no second name. */
static void a_file_is_made_without_links(void) {
    static const int reasons[] = {EPERM, EOPNOTSUPP, ENOSYS, EMLINK};
    for (int i = 0; i < 4; i++) {
        no_links = reasons[i];
        IS(each_call_is_passed() > 4, true);
    }
    no_links = EACCES;
    IS(open_while(take_away, -1), DILLUVAS_NO_ACCESS);
    IS(size_of(path), -1);
    /* the path leads to a file over and over, and to none again */
    no_links = EEXIST;
    IS(open_while(take_away, -1), DILLUVAS_NO_ACCESS);
    IS(size_of(path), -1);
    no_links = 0;
}

static void an_empty_file_is_looked_at_again(void) {
    put(path, "", 0644);
    /* who locks files waits for it at each call */
    for (long at = 0; at < 20; at++) {
        IS(open_while(make_in_place, at), DILLUVAS_OK);
        IS(has_acted, false);
        IS(size_of(path), 53);
        put(path, "", 0644);
    }
    /* the first call is a sync of the empty file, and the second a write to the new one */
    IS(open_while(write_byte, 1), DILLUVAS_CORRUPTION);
    IS(size_of(path), 1);
    put(path, "", 0644);
    IS(open_while(put_in_its_place, 1), DILLUVAS_OK);
    IS(has_bytes(content, content_len), true);
    put(path, "", 0644);
    IS(open_while(take_away, 1), DILLUVAS_OK);
    IS(has_acted, true);
    IS(size_of(path), 53);
    IS(unlink(path), 0);
}

int main(int count, char **arguments) {
    if (count != 2 || !begin(arguments[1], "meanwhile")) return 2;
    make_content();
    a_file_that_came_meanwhile_stays();
    a_file_is_made_without_links();
    an_empty_file_is_looked_at_again();
    free(content);
    if (failures == 0) printf("files that come meanwhile: passed\n");
    return failures != 0;
}
