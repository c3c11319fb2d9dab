/* system FILE PATH FLAGS: gives a script, its input, again and again to a room with a new file, and each time the system refuses
 * another call that the library makes of it, or, by EINTR, has it try again, which a room that is open does for each call but
 * readlink.
 * At last each write takes one byte alone. A line `:again` closes the room, puts a torn line behind the file, as a write leaves
 * it that broke off, and opens it again.
 *
 * After each line the file has what was accepted, and at most one line more, where that one's answer was `refused journal`: then
 * each line has this answer until the room is opened again. After a sync that failed, as the room is opened too, the file
 * stays locked. Where the room isn't opened the errno is told, or EIO of a read. No descriptor is left but that of such a
 * lock. It prints how often each came.
 *
 * Before all that, a second room is opened with the file of a first one, which gives a line before each call that this makes:
 * there is none, and the file has all the lines.
 *
 * It is linked with --wrap for the calls below, so that it sees those of the library. */
#define _GNU_SOURCE
#include <errno.h>
#include <fcntl.h>
#include <inttypes.h>
#include <stdarg.h>
#include <sys/file.h>
#include <sys/stat.h>
#include <unistd.h>

#include "texts.h"

enum { MOST = 1 << 16 };

/* the calls so far, the one that is refused, with which errno, and its name once it was; 0 where none is */
static long calls, refused_call;
static int why;
static const char *refused_name;
static bool is_short;
/* whether a sync was refused of the file, or its folder */
static bool is_unsynced;

static text protocol, script;
static const char *path;
static uint32_t flags;
static long not_opened, lost, locked;

/* what is done before each call, if anything */
static void (*before)(void);

static bool is_refused(const char *name) {
    void (*todo)(void) = before;
    before = NULL;
    if (todo != NULL) todo();
    before = todo;
    calls += 1;
    if (calls != refused_call) return false;
    refused_name = name;
    errno = why;
    return true;
}

int __real_open(const char *name, int how, ...);
int __wrap_open(const char *name, int how, ...) {
    va_list more;
    va_start(more, how);
    mode_t mode = (how & O_CREAT) != 0 ? va_arg(more, mode_t) : 0;
    va_end(more);
    return is_refused("open") ? -1 : __real_open(name, how, mode);
}

ssize_t __real_write(int fd, const void *bytes, size_t count);
ssize_t __wrap_write(int fd, const void *bytes, size_t count) {
    return is_refused("write") ? -1 : __real_write(fd, bytes, is_short && count > 1 ? 1 : count);
}

#define WRAPPED(name, words, given) \
    int __real_##name words;        \
    int __wrap_##name words { return is_refused(#name) ? -1 : __real_##name given; }
WRAPPED(flock, (int fd, int how), (fd, how))
WRAPPED(ftruncate, (int fd, off_t length), (fd, length))

/* Notes that a sync was refused, unless that is tried again, or it is of what is kept beside the file. */
static int unsynced(int fd) {
    struct stat synced, kept;
    if (fstat(fd, &synced) != 0 || stat(path, &kept) != 0) stop("a file without a number");
    is_unsynced = why != EINTR && (S_ISDIR(synced.st_mode) || synced.st_ino == kept.st_ino);
    errno = why;
    return -1;
}

#define SYNCING(name)         \
    int __real_##name(int fd); \
    int __wrap_##name(int fd) { return is_refused(#name) ? unsynced(fd) : __real_##name(fd); }
SYNCING(fdatasync)
SYNCING(fsync)

#define READING(name, words, given) \
    ssize_t __real_##name words;    \
    ssize_t __wrap_##name words { return is_refused(#name) ? -1 : __real_##name given; }
READING(read, (int fd, void *bytes, size_t count), (fd, bytes, count))
READING(pread, (int fd, void *bytes, size_t count, off_t at), (fd, bytes, count, at))
READING(readlink, (const char *name, char *bytes, size_t count), (name, bytes, count))

off_t __real_lseek(int fd, off_t by, int from);
off_t __wrap_lseek(int fd, off_t by, int from) { return is_refused("lseek") ? -1 : __real_lseek(fd, by, from); }

char *__real_realpath(const char *name, char *found);
char *__wrap_realpath(const char *name, char *found) { return is_refused("realpath") ? NULL : __real_realpath(name, found); }

/* Ends the driver, which also says which call was refused. */
static void fail(const char *what) {
    fprintf(stderr, "call %ld, %s, errno %d: ", refused_call, refused_name != NULL ? refused_name : "none", why);
    stop(what);
}

/* Whether a call was refused of that name. */
static bool was_refused(const char *name) { return refused_name != NULL && strcmp(refused_name, name) == 0; }

/* Opens the room, once more where the system refused a call. False where a lock of before holds the file. */
static bool open_twice(mps_room *room) {
    uint32_t fault = 0;
    uint64_t place = 7;
    for (int time = 0; time < 2; time += 1) {
        if (mps_open_file(protocol.at, protocol.length, (const uint8_t *)path, strlen(path), 1, flags, room, &fault, &place)) {
            if (is_unsynced) fail("a file was opened whose sync failed");
            return true;
        }
        if (room->at != NULL) fail("no room, and a pointer to it");
        if (is_unsynced && fault == MPS_ELSEWHERE) {
            locked += 1;
            return false;
        }
        if (fault != MPS_FILE || place != (uint64_t)(was_refused("read") ? EIO : why) || refused_name == NULL) break;
        not_opened += 1;
    }
    fprintf(stderr, "fault %" PRIu32 ", place %" PRIu64 "\n", fault, place);
    fail("no room, and not for the call that was refused");
    return false;
}

/* How many whole lines the file has past its mark. */
static uint64_t lines_of_file(void) {
    text whole = whole_file(path);
    uint64_t lines = 0;
    for (size_t at = 0; at < whole.length; at += 1) lines += whole.at[at] == '\n';
    free((void *)whole.at);
    return lines - 1;
}

static void tear(void) {
    FILE *file = fopen(path, "ab");
    if (file == NULL || fputs("a 9 se", file) < 0 || fclose(file) != 0) stop("the file can't be torn");
}

/* The lowest descriptor that is free. */
static int free_descriptor(void) {
    int free_one = dup(STDIN_FILENO);
    close(free_one);
    return free_one;
}

static void run(void) {
    static uint8_t out[MOST];
    static const char unkept[] = "refused journal";
    mps_room room = {NULL};
    text rest = script, role, command;
    bool is_lost = false;
    unlink(path);
    int descriptor = free_descriptor();
    calls = 0;
    refused_name = NULL;
    is_unsynced = false;
    bool is_open = open_twice(&room);
    uint64_t told = 0;
    while (is_open && next_line(&rest, &role, &command)) {
        if (role.at[0] == ':') {
            mps_close(&room);
            tear();
            is_open = open_twice(&room);
            if (!is_open) break;
            if (mps_entries(&room) < told || mps_entries(&room) > told + is_lost) fail("opened again it has other entries");
            told = mps_entries(&room);
            is_lost = false;
        } else {
            size_t length = mps_line(&room, role.at, role.length, command.at, command.length, out, MOST);
            bool is_unkept = length == sizeof unkept - 1 && memcmp(out, unkept, length) == 0;
            if (is_lost && !is_unkept) fail("a line is answered after one that wasn't kept");
            lost += is_unkept && !is_lost;
            is_lost = is_unkept;
            told += memcmp(out, "done ", 5) == 0 || memcmp(out, "undone", 6) == 0;
        }
        uint64_t lines = lines_of_file();
        if (lines < told || lines > told + is_lost) fail("the file hasn't what was accepted, or more");
    }
    mps_close(&room);
    if (is_open && !is_lost && free_descriptor() != descriptor) fail("a descriptor is left of the room");
    if (is_lost && why == EINTR && !was_refused("readlink")) fail("a call that was to be tried again wasn't");
}

static mps_room first_room = {NULL};
static uint64_t given;

static void give_first(void) {
    char out[64];
    mps_say(&first_room, "a", "mark m", out, sizeof out);
    if (strncmp(out, "done ", 5) != 0) fail("the first room isn't answered");
    given += 1;
}

/* Opens a second room with the file of the first one, and the first one again. */
static void open_second(void) {
    mps_room second = {NULL};
    uint32_t fault = 0;
    uint64_t place = 7;
    unlink(path);
    if (!open_twice(&first_room)) fail("no room");
    give_first();
    before = give_first;
    bool is_open = mps_open_file(protocol.at, protocol.length, (const uint8_t *)path, strlen(path), 1, flags, &second, &fault, &place);
    before = NULL;
    if (is_open || fault != MPS_ELSEWHERE) fail("a second room, or none for another reason");
    if (given < 2 || lines_of_file() != given) fail("the opening of a second room takes lines of the file");
    mps_close(&first_room);
    if (!open_twice(&first_room) || mps_entries(&first_room) != given) fail("the first room has other entries");
    mps_close(&first_room);
}

int main(int count, char **words) {
    static uint8_t lines[MOST];
    if (count != 4) stop("usage: system FILE PATH FLAGS");
    protocol = whole_file(words[1]);
    path = words[2];
    flags = (uint32_t)strtoul(words[3], NULL, 10);
    script = (text){lines, fread(lines, 1, MOST, stdin)};
    open_second();
    run();
    long all = calls;
    for (int turn = 0; turn < 2; turn += 1) {
        why = turn == 0 ? EIO : EINTR;
        for (refused_call = 1; refused_call <= all; refused_call += 1) run();
    }
    refused_call = 0;
    is_short = true;
    run();
    printf("%ld calls, %ld not opened, %ld lost, %ld locked\n", all, not_opened, lost, locked);
    return 0;
}
