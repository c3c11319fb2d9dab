/* SPDX-License-Identifier: MIT OR Apache-2.0 */
/* engine FOLDER < workflow.protocol: 1,000 orders, each a room that the file FOLDER/K.journal keeps. It may be killed at any
 * moment: started again, it goes on with each order where its file left it. At the end it says how many have ended. */
#include <inttypes.h>
#include <stdio.h>
#include <stdlib.h>
#include <sys/resource.h>
#include "cizhmolat.h"

enum { ORDERS = 1000, OTHER_FILES = 24, STEPS = 8, MOST = 4096 };
static mps_room rooms[ORDERS + 1]; /* from 1 on, as a server's sessions */
/* What a role wants, and the line that it gives then. The number is the step's, so that it counts once if it is given twice. */
static const struct { const char *role, *wants, *line; } steps[STEPS] = {
    {"client", "send store text", "1 send store \"lamp %d\""},
    {"store", "recv client text", "1 recv client thing"}, {"store", "send bank int", "2 send bank %d"},
    {"bank", "recv store int", "1 recv store price"}, {"bank", "choose store paid declined", "2 choose store paid"},
    {"store", "pick bank paid declined", "3 pick bank"}, {"store", "send client text", "4 send client \"lamp %d is on its way\""},
    {"client", "recv store text", "2 recv store news"}};

static void must(bool holds, int order, const char *why, uint64_t place) {
    if (holds) return;
    fprintf(stderr, "engine: order %d: %s %" PRIu64 "\n", order, why, place);
    exit(EXIT_FAILURE);
}
/* Takes the next step of an order, which is the first that is wanted. False where the order has ended. */
static bool step(int order) {
    char text[MOST], line[MOST];
    for (int at = 0; at < STEPS; at += 1) {
        must(mps_wants(&rooms[order], steps[at].role, text, MOST) < MOST, order, "no memory", 0);
        if (strcmp(text, steps[at].wants) != 0) continue;
        snprintf(line, MOST, steps[at].line, order);
        must(mps_say(&rooms[order], steps[at].role, line, text, MOST) < MOST, order, "no memory", 0);
        must(strncmp(text, "done ", 5) == 0, order, text, 0);
        return true;
    }
    must(strcmp(text, "end") == 0, order, text, 0); /* the client, whose step is the last */
    return false;
}

int main(int count, char **words) {
    char protocol[MOST] = "", path[MOST];
    must(count == 2 && fread(protocol, 1, MOST - 1, stdin) != 0, 0, "usage: engine FOLDER < workflow.protocol", 0);
    struct rlimit files; /* of which each open room has one */
    must(getrlimit(RLIMIT_NOFILE, &files) == 0, 0, "no limit of open files", 0);
    if (files.rlim_cur < ORDERS + OTHER_FILES) files.rlim_cur = ORDERS + OTHER_FILES;
    must(setrlimit(RLIMIT_NOFILE, &files) == 0, 0, "so many files may not be open:", files.rlim_cur);
    for (int order = 1; order <= ORDERS; order += 1) {
        uint32_t fault = 0; uint64_t place = 0;
        must(snprintf(path, MOST, "%s/%d.journal", words[1], order) < MOST, order, "too long a path", 0);
        bool is_open = mps_open_file_string(protocol, path, (uint64_t)order, 0 /* or MPS_SYNC */, &rooms[order], &fault, &place);
        must(is_open, order, mps_fault_word(fault), place);
    }
    int ended;
    do { /* a step of each in turn */
        ended = 0;
        for (int order = 1; order <= ORDERS; order += 1) ended += !step(order);
    } while (ended < ORDERS);
    for (int order = 1; order <= ORDERS; order += 1) mps_close(&rooms[order]);
    return printf("%d orders have ended\n", ended) > 0 && fflush(stdout) == 0 ? EXIT_SUCCESS : EXIT_FAILURE;
}
