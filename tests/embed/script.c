/* script FILE SCRIPT [--entries|--full]: runs a script on a room of a protocol, and prints the answers; with --entries also the
 * entries of the journal; with --full the room is opened by full merging. Each answer is asked for with all too little room
 * first: what is written then has to be the front of the whole, and no more. Where there is no room it says why as mps_tool
 * does, but for the name of a role. */
#include <inttypes.h>

#include "texts.h"

enum { MOST = 1 << 24, MARK = 0xAA };

/* Asks by mps_answer for what is `length` long, with `capacity` bytes, all of them the block's; compares it with the whole. */
static void compare(mps_room *room, const uint8_t *whole, size_t length, size_t capacity) {
    uint8_t *block = malloc(capacity != 0 ? capacity : 1);
    if (block == NULL) stop("no memory");
    memset(block, MARK, capacity);
    if (mps_answer(room, block, capacity) != length) stop("an answer has another length the second time");
    size_t written = length < capacity ? length : capacity;
    if (memcmp(block, whole, written) != 0) stop("an answer is another one the second time");
    for (size_t at = written; at < capacity; at += 1)
        if (block[at] != MARK) stop("more was written than the answer");
    free(block);
}

/* Gives the room a line, with so little room for its answer, and prints the whole answer. */
static void say(mps_room *room, text role, text command, uint8_t *out, size_t capacity) {
    size_t length = mps_line(room, role.at, role.length, command.at, command.length, out, capacity);
    if (length == SIZE_MAX || length > MOST) stop("no memory for an answer");
    uint8_t front[64];
    memcpy(front, out, capacity);
    if (mps_answer(room, out, MOST) != length) stop("an answer has another length the second time");
    if (memcmp(front, out, length < capacity ? length : capacity) != 0) stop("an answer is another one the second time");
    compare(room, out, length, 0);
    compare(room, out, length, length);
    compare(room, out, length, length + 3);
    fwrite(out, 1, length, stdout);
    putchar('\n');
}

/* Prints the entries of the journal. */
static void tell_entries(mps_room *room, uint8_t *out) {
    uint64_t count = mps_entries(room);
    for (uint64_t k = 0; k < count; k += 1) {
        size_t length = mps_entry(room, k, out, MOST);
        if (length == SIZE_MAX || length > MOST) stop("no memory for an entry");
        if (mps_entry(room, k, out + length, 2) != length) stop("an entry has another length the second time");
        if (memcmp(out, out + length, length < 2 ? length : 2) != 0) stop("an entry is another one the second time");
        fwrite(out, 1, length, stdout);
        putchar('\n');
    }
    if (mps_entry(room, count, out, MOST) != 0 || mps_entry(room, UINT64_MAX, out, MOST) != 0) stop("an entry past the end");
}

/* Says why there is no room. */
static int refused(uint32_t fault, uint64_t place) {
    if (fault < MPS_TEXT) fprintf(stderr, "refused %s\n", mps_fault_word(fault));
    else if (fault < MPS_PROTOCOL) fprintf(stderr, "refused text %s %" PRIu64 "\n", mps_fault_word(fault), place);
    else if (fault < MPS_PROJECTION) fprintf(stderr, "refused protocol %s\n", mps_fault_word(fault));
    else fprintf(stderr, "refused projection %" PRIu32 " %" PRIu64 "\n", fault - MPS_PROJECTION, place);
    return 3;
}

int main(int count, char **words) {
    if (count < 3) stop("usage: script FILE SCRIPT [--entries|--full]");
    const char *more = count > 3 ? words[3] : "";
    text protocol = whole_file(words[1]), script = whole_file(words[2]), rest = script, role, command;
    uint8_t *out = malloc(MOST + 2);
    uint32_t fault = 0;
    uint64_t place = 0;
    mps_room room = {NULL};
    if (out == NULL) stop("no memory");
    bool is_full = strcmp(more, "--full") == 0;
    bool is_open = (is_full ? mps_open_full : mps_open)(protocol.at, protocol.length, &room, &fault, &place);
    for (size_t at = 0; is_open && next_line(&rest, &role, &command); at += 1) say(&room, role, command, out, at % 64);
    if (is_open && strcmp(more, "--entries") == 0) tell_entries(&room, out);
    mps_close(&room);
    mps_close(&room); /* which does nothing */
    free((void *)protocol.at);
    free((void *)script.at);
    free(out);
    return is_open ? 0 : refused(fault, place);
}
