/* kept FOLDER: what a line costs in a room whose file is in the folder. It prints nanoseconds of an accepted line, one number in
 * a line, each the least of many rounds on a new room: without a file; with one; with one and mps_sync after each 100 lines;
 * with MPS_SYNC. */
#define _POSIX_C_SOURCE 200809L
#include <inttypes.h>
#include <stdio.h>
#include <stdlib.h>
#include <string.h>
#include <time.h>
#include <unistd.h>

#include "cizhmolat.h"

enum { LINES = 40000, ROUNDS = 20, SYNCED_LINES = 1000, SYNCED_ROUNDS = 5, NEVER = LINES + 1 };

static const char *const loop = "roles a b c ; rec X . a -> b : int . X";

static double now(void) {
    struct timespec time;
    clock_gettime(CLOCK_MONOTONIC, &time);
    return (double)time.tv_sec * 1e9 + (double)time.tv_nsec;
}

static void must(bool holds) {
    if (!holds) {
        fputs("kept: something else came than is measured\n", stderr);
        exit(1);
    }
}

static void line(mps_room *room, const char *role, const char *command, size_t length) {
    static uint8_t out[64];
    mps_line(room, (const uint8_t *)role, 1, (const uint8_t *)command, length, out, sizeof out);
}

/* Prints what one of so many lines takes in a room with that file, or with none; mps_sync comes after each `often` lines. */
static void measure(const char *path, uint32_t flags, int lines, int rounds, int often) {
    double least = 1e18;
    for (int round = 0; round < rounds; round += 1) {
        mps_room room = {NULL};
        uint32_t fault;
        uint64_t place;
        if (path == NULL) must(mps_open_string(loop, &room, &fault, &place));
        else must(mps_open_file_string(loop, path, 1, flags, &room, &fault, &place));
        double began = now();
        for (int n = 0; n < lines; n += 2) {
            line(&room, "a", "send b 123456", 13);
            line(&room, "b", "recv a x", 8);
            if ((n + 2) % often == 0) must(mps_sync(&room));
        }
        double took = now() - began;
        least = took < least ? took : least;
        must(mps_entries(&room) == (uint64_t)lines);
        mps_close(&room);
        if (path != NULL) must(unlink(path) == 0);
    }
    printf("%.0f\n", least / lines);
}

int main(int count, char **words) {
    char path[4096];
    must(count == 2 && snprintf(path, sizeof path, "%s/1.journal", words[1]) < (int)sizeof path);
    measure(NULL, 0, LINES, ROUNDS, NEVER);
    measure(path, 0, LINES, ROUNDS, NEVER);
    measure(path, 0, SYNCED_LINES, SYNCED_ROUNDS, 100);
    measure(path, MPS_SYNC, SYNCED_LINES, SYNCED_ROUNDS, NEVER);
    return 0;
}
