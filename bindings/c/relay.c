/* SPDX-License-Identifier: MIT OR Apache-2.0 */
/* relay: a conversation of three roles, and a step that is taken back with all that depends on it.
 *
 *     ./mps library lib
 *     cc -Ilib bindings/c/relay.c lib/libcizhmolat.a -o relay && ./relay */
#include <inttypes.h>
#include <stdio.h>
#include <stdlib.h>

#include "cizhmolat.h"

static const char *const protocol = "roles a b c ; a -> b : int . b -> c : int . end";

/* Gives a line to the room, and prints it with its answer. */
static void say(mps_room *room, const char *role, const char *line) {
    char answer[256];
    size_t length = mps_say(room, role, line, answer, sizeof answer);
    if (length == SIZE_MAX) {
        fputs("there is no memory for the answer\n", stderr);
        exit(EXIT_FAILURE);
    }
    printf("%s %-12s %s\n", role, line, answer);
}

int main(void) {
    mps_room room = {NULL};
    uint32_t fault = 0;
    uint64_t place = 0;
    if (!mps_open_string(protocol, &room, &fault, &place)) {
        fprintf(stderr, "no room: %s at %" PRIu64 "\n", mps_fault_word(fault), place);
        return EXIT_FAILURE;
    }
    say(&room, "a", "send b 5");
    say(&room, "b", "recv a x");
    say(&room, "b", "send c 7");
    say(&room, "a", "rollback 1");
    say(&room, "b", "news 0");
    printf("%" PRIu64 " entries\n", mps_entries(&room));
    mps_close(&room);
    return EXIT_SUCCESS;
}
