/* files FILE PATH SESSION FLAGS [give|memory]: a room of the protocol in FILE that the file at PATH keeps. It prints `open` and
 * the number of its entries, or `none`, the word of the fault and its place, and ends with 3. Then it prints an answer for each
 * line of its input, `ROLE COMMAND`, at once. A line of its own begins with a colon:
 *
 *   :sync      `stored` or `unstored`, as mps_sync has it
 *   :limit N   no file gets longer than N bytes from now on
 *   :open      opens the file once more, as a second room
 *   :again     closes the room and opens it again
 *
 * give: without any input, for `roles a b ; rec X . a -> b : int . X`, it gives a send of a and its receipt by b in turn, each
 * with the number that goes on from the entries, and prints each answer by one write. First of all the newest line comes once
 * more, and one whose number is one too large.
 *
 * memory: the lines, of which one may be :again, are a script that is given again and again, each time to a new file, and each
 * time another request for memory is refused, or all from one on until that is told. After each line the file has just what
 * was accepted; at the end no block of memory and no descriptor is left. For this it is linked with --wrap for malloc,
 * realloc and free. */
#define _GNU_SOURCE
#include <inttypes.h>
#include <signal.h>
#include <sys/resource.h>
#include <unistd.h>

#include "texts.h"

enum { MOST = 1 << 16 };

void *__real_malloc(size_t size);
void *__real_realloc(void *old, size_t size);
void __real_free(void *block);

/* the requests so far, those that are refused, and the blocks that are there */
static long requests, first, last = -1, blocks;
static text protocol;
static const char *path;
static uint64_t session;
static uint32_t flags;
static char answer[MOST];

static bool is_refused(void) {
    requests += 1;
    return first <= requests && requests <= last;
}

void *__wrap_malloc(size_t size) {
    void *made = is_refused() ? NULL : __real_malloc(size);
    blocks += made != NULL;
    return made;
}

void *__wrap_realloc(void *old, size_t size) {
    void *made = is_refused() ? NULL : __real_realloc(old, size);
    blocks += old == NULL && made != NULL;
    return made;
}

void __wrap_free(void *block) {
    blocks -= block != NULL;
    __real_free(block);
}

/* Opens the room with its file. */
static bool open_room(mps_room *room, uint32_t *fault, uint64_t *place) {
    return mps_open_file(protocol.at, protocol.length, (const uint8_t *)path, strlen(path), session, flags, room, fault, place);
}

/* Opens it, and prints how that went. */
static bool opened(mps_room *room) {
    uint32_t fault = 0;
    uint64_t place = 0;
    bool is_open = open_room(room, &fault, &place);
    if (is_open) printf("open %" PRIu64 "\n", mps_entries(room));
    else printf("none %s %" PRIu64 "\n", mps_fault_word(fault), place);
    fflush(stdout);
    return is_open;
}

/* Gives a line, whose answer stands in `answer` then, with an LF. Its length with that. */
static size_t give(mps_room *room, const char *role, const char *command) {
    size_t length = mps_say(room, role, command, answer, sizeof answer - 1);
    if (length >= sizeof answer - 1) stop("no memory for an answer, or it is too long");
    answer[length] = '\n';
    return length + 1;
}

/* Cuts the line to what stands before its LF. */
static char *cut(char *line) {
    line[strcspn(line, "\n")] = '\0';
    return line;
}

static void converse(mps_room *room) {
    char line[1024];
    mps_room other = {NULL};
    while (fgets(line, sizeof line, stdin) != NULL) {
        unsigned long long bytes;
        cut(line);
        if (strcmp(line, ":sync") == 0) {
            puts(mps_sync(room) ? "stored" : "unstored");
        } else if (strcmp(line, ":open") == 0) {
            if (opened(&other)) mps_close(&other);
        } else if (strcmp(line, ":again") == 0) {
            mps_close(room);
            if (!opened(room)) return;
        } else if (sscanf(line, ":limit %llu", &bytes) == 1) {
            struct rlimit limit = {(rlim_t)bytes, RLIM_INFINITY};
            puts(setrlimit(RLIMIT_FSIZE, &limit) == 0 ? "limited" : "unlimited");
        } else {
            char *space = strchr(line, ' ');
            if (space == NULL) stop("a line without a space");
            *space = '\0';
            fwrite(answer, 1, give(room, line, space + 1), stdout);
        }
        fflush(stdout);
    }
}

/* Gives line number k of all, from 1: those of a have the odd numbers. What its number is more than it should be is `over`. */
static void turn(mps_room *room, uint64_t k, uint64_t over) {
    char command[64];
    uint64_t number = (k + 1) / 2;
    snprintf(command, sizeof command, k % 2 != 0 ? "%" PRIu64 " send b %" PRIu64 : "%" PRIu64 " recv a x", number + over, number);
    size_t length = give(room, k % 2 != 0 ? "a" : "b", command);
    if (write(STDOUT_FILENO, answer, length) != (ssize_t)length) exit(0);
}

static void give_all(mps_room *room) {
    uint64_t k = mps_entries(room);
    if (k > 0) turn(room, k, 0);
    turn(room, k + 1, 1);
    for (;;) turn(room, k += 1, 0);
}

/* --- Memory that is refused --- */

static text script;
static long refused, no_text, not_opened;

/* Refuses nothing from now on. */
static void relent(void) { last = -1; }

/* Opens the room, once more where there was no memory for it. */
static void open_twice(mps_room *room) {
    uint32_t fault = 0;
    uint64_t place = 7;
    if (open_room(room, &fault, &place)) return;
    if (fault != MPS_NO_MEMORY || place != 0 || room->at != NULL || blocks != 0) {
        fprintf(stderr, "request %ld: fault %" PRIu32 ", place %" PRIu64 ", %ld blocks\n", first, fault, place, blocks);
        stop("no room, and not for memory, or something is left of it");
    }
    not_opened += 1;
    relent();
    if (!open_room(room, &fault, &place)) stop("no room the second time");
}

/* Gives a line, once more where there was no memory for it. Whether it was accepted as a change. */
static bool accepted(mps_room *room, text role, text command) {
    static const char lack[] = "refused memory";
    uint8_t *out = (uint8_t *)answer;
    for (int time = 0; time < 2; time += 1) {
        size_t length = mps_line(room, role.at, role.length, command.at, command.length, out, MOST);
        if (length == SIZE_MAX) {
            no_text += 1;
            relent();
            length = mps_answer(room, out, MOST);
        }
        if (length != sizeof lack - 1 || memcmp(answer, lack, length) != 0)
            return memcmp(answer, "done ", 5) == 0 || memcmp(answer, "undone", 6) == 0;
        refused += 1;
        relent();
    }
    stop("no memory the second time");
    return false;
}

/* How many lines the file has past its mark. */
static uint64_t lines_of_file(void) {
    long kept = last, so_far = requests;
    relent();
    text whole = whole_file(path);
    last = kept;
    requests = so_far;
    uint64_t lines = 0;
    for (size_t at = 0; at < whole.length; at += 1) lines += whole.at[at] == '\n';
    free((void *)whole.at);
    return lines - 1;
}

/* Runs the script on a room with a new file. After each line the file has what was accepted, and no more. */
static void run(void) {
    mps_room room = {NULL};
    text rest = script, role, command;
    unlink(path);
    int descriptor = dup(0);
    close(descriptor);
    requests = 0;
    open_twice(&room);
    uint64_t entries = 0;
    while (next_line(&rest, &role, &command)) {
        if (role.at[0] == ':') {
            mps_close(&room);
            open_twice(&room);
        } else {
            entries += accepted(&room, role, command);
        }
        if (entries != mps_entries(&room)) stop("an entry that wasn't accepted, or none that was");
        if (entries != lines_of_file()) stop("the file hasn't what was accepted, or more");
    }
    mps_close(&room);
    if (blocks != 0) stop("a block is left of the room");
    int after = dup(0);
    close(after);
    if (after != descriptor) stop("a descriptor is left of the room");
}

static void refuse_memory(void) {
    run();
    long all = requests;
    for (long number = 1; number <= all; number += 1) {
        first = last = number;
        run();
        first = number;
        last = 1L << 60;
        run();
    }
    printf("%ld requests, %ld refused memory, %ld without a text, %ld not opened\n", all, refused, no_text, not_opened);
}

int main(int count, char **words) {
    if (count < 5) stop("usage: files FILE PATH SESSION FLAGS [give|memory]");
    const char *what = count > 5 ? words[5] : "";
    protocol = whole_file(words[1]);
    path = words[2];
    session = strtoull(words[3], NULL, 10);
    flags = (uint32_t)strtoul(words[4], NULL, 10);
    signal(SIGXFSZ, SIG_IGN);
    if (strcmp(what, "memory") == 0) {
        static uint8_t lines[MOST];
        script = (text){lines, fread(lines, 1, MOST, stdin)};
        blocks = 0;
        refuse_memory();
        return 0;
    }
    mps_room room = {NULL};
    if (!opened(&room)) return 3;
    if (strcmp(what, "give") == 0) give_all(&room);
    else converse(&room);
    mps_close(&room);
    __real_free((void *)protocol.at);
    return 0;
}
