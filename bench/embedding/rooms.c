/* rooms WHAT: what a room costs a program in C. It prints numbers, one in a line:

   lines    nanoseconds of an accepted line, of a refused one, and of an accepted one by mps_say
   memory   bytes of an idle room, and nanoseconds to open and close it, of 10,000 that are open at once; bytes of a room with
            one entry
   stack    bytes of the stack that opening and closing rooms of the deepest protocols takes; with a path behind it, of ones that
            files keep, that one, with MPS_SYNC, and for full merging the one of its name and .full */
#define _GNU_SOURCE
#include <inttypes.h>
#include <malloc.h>
#include <pthread.h>
#include <stdio.h>
#include <stdlib.h>
#include <string.h>
#include <sys/mman.h>
#include <time.h>

#include "cizhmolat.h"

enum { LINES = 40000, ROUNDS = 40, ROOMS = 10000, STACK = 1 << 22, LEVELS = 63 };

static const char *const loop = "roles a b c ; rec X . a -> b : int . X";
static const char *const relay = "roles a b c ; a -> b : int . b -> c : int . end";
static mps_room rooms[ROOMS];
static const char *file; /* of the rooms, or NULL */

static double now(void) {
    struct timespec time;
    clock_gettime(CLOCK_MONOTONIC, &time);
    return (double)time.tv_sec * 1e9 + (double)time.tv_nsec;
}

static void must(bool holds) {
    if (!holds) {
        fputs("rooms: something else came than is measured\n", stderr);
        exit(1);
    }
}

static void open_room(mps_room *room, const char *protocol) {
    uint32_t fault;
    uint64_t place;
    if (file == NULL) must(mps_open_string(protocol, room, &fault, &place));
    else must(mps_open_file_string(protocol, file, 1, MPS_SYNC, room, &fault, &place));
}

static size_t line(mps_room *room, const char *role, const char *command, size_t length) {
    static uint8_t out[64];
    return mps_line(room, (const uint8_t *)role, 1, (const uint8_t *)command, length, out, sizeof out);
}

static void accepted(mps_room *room) {
    for (int n = 0; n < LINES; n += 2) {
        line(room, "a", "send b 123456", 13);
        line(room, "b", "recv a x", 8);
    }
    must(mps_entries(room) == LINES);
}

static void refused(mps_room *room) {
    for (int n = 0; n < LINES; n += 1) line(room, "a", "send c 123456", 13);
    must(mps_entries(room) == 0);
}

static void said(mps_room *room) {
    char out[64];
    for (int n = 0; n < LINES; n += 2) {
        mps_say(room, "a", "send b 123456", out, sizeof out);
        mps_say(room, "b", "recv a x", out, sizeof out);
    }
    must(mps_entries(room) == LINES);
}

/* Prints what a line of these takes, the least of many rounds, each on a new room. */
static void measure(void (*lines)(mps_room *)) {
    double least = 1e18;
    for (int round = 0; round < ROUNDS; round += 1) {
        mps_room room = {NULL};
        open_room(&room, loop);
        double began = now();
        lines(&room);
        double took = now() - began;
        least = took < least ? took : least;
        mps_close(&room);
    }
    printf("%.0f\n", least / LINES);
}

static void memory(void) {
    size_t before = mallinfo2().uordblks;
    double began = now();
    for (int n = 0; n < ROOMS; n += 1) open_room(&rooms[n], relay);
    double opened = now();
    printf("%zu\n", (mallinfo2().uordblks - before) / ROOMS);
    for (int n = 0; n < ROOMS; n += 1) must(line(&rooms[n], "a", "send b 5", 8) == 6);
    size_t with_entry = (mallinfo2().uordblks - before) / ROOMS;
    double closing = now();
    for (int n = 0; n < ROOMS; n += 1) mps_close(&rooms[n]);
    printf("%.0f\n%zu\n", (opened - began + now() - closing) / ROOMS, with_entry);
}

/* Opens a room by full merging of a protocol of 255 nodes, of which two branches are merged for c. In each choice the first one has
 * four labels more, and the merging of each is on the stack while what follows is merged; with other numbers of them it takes less. */
static void merge_deepest(void) {
    enum { DEEP = 42 };
    static char first[DEEP * 64], second[DEEP * 20], text[sizeof first + sizeof second + 100];
    uint32_t fault;
    uint64_t place;
    for (int level = 0; level < DEEP; level += 1) {
        strcat(first, "a -> c { h : end , i : end , j : end , k : end , m : ");
        strcat(second, "a -> c { m : ");
    }
    strcat(first, "end");
    strcat(second, "end");
    for (int level = 0; level < DEEP; level += 1) {
        strcat(first, " }");
        strcat(second, " }");
    }
    snprintf(text, sizeof text, "roles a b c ; a -> b { l : %s , m : %s }", first, second);
    mps_room room = {NULL};
    if (file == NULL) {
        must(mps_open_string_full(text, &room, &fault, &place));
    } else {
        static char path[4096];
        must(snprintf(path, sizeof path, "%s.full", file) < (int)sizeof path);
        must(mps_open_file_string(text, path, 1, MPS_FULL_MERGING, &room, &fault, &place));
    }
    mps_close(&room);
}

/* Opens a room of a protocol of 64 levels and 256 nodes. In each choice the deep branch is the last: while it is read, those
 * before it are on the stack too, so no protocol takes more of it. */
static void *deepest(void *none) {
    static char text[LEVELS * 60 + 100], ends[2 * LEVELS + 1];
    strcpy(text, "roles a b ; ");
    for (int level = 0; level < LEVELS; level += 1) {
        strcat(text, level < 3 ? "a -> b { i : end , " : "a -> b { ");
        strcat(text, "j : end , k : end , l : end , m : ");
        strcat(ends, " }");
    }
    strcat(strcat(text, "end"), ends);
    mps_room room = {NULL};
    open_room(&room, text);
    mps_close(&room);
    merge_deepest();
    return none;
}

static void stack(void) {
    uint8_t *bytes = mmap(NULL, STACK, PROT_READ | PROT_WRITE, MAP_PRIVATE | MAP_ANONYMOUS, -1, 0);
    must(bytes != MAP_FAILED);
    memset(bytes, 0xAA, STACK);
    pthread_attr_t how;
    pthread_t thread;
    must(pthread_attr_init(&how) == 0 && pthread_attr_setstack(&how, bytes, STACK) == 0);
    must(pthread_create(&thread, &how, deepest, NULL) == 0 && pthread_join(thread, NULL) == 0);
    size_t untouched = 0;
    while (bytes[untouched] == 0xAA) untouched += 1;
    printf("%zu\n", STACK - untouched);
}

int main(int count, char **words) {
    if (count == 2 && strcmp(words[1], "lines") == 0) {
        measure(accepted);
        measure(refused);
        measure(said);
    } else if (count == 2 && strcmp(words[1], "memory") == 0) {
        memory();
    } else if ((count == 2 || count == 3) && strcmp(words[1], "stack") == 0) {
        file = words[2]; /* NULL where there is none */
        stack();
    } else {
        fputs("usage: rooms lines|memory|stack [FILE]\n", stderr);
        return 2;
    }
    return 0;
}
