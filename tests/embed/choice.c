/* choice FILE CAPACITY NUMBER..: says how the opening of a protocol ends, `open`, or the number of the fault and its place. Then
 * it asks for each of these choices, and prints a line: the length that mps_choice tells, a space, and what it writes into so
 * many bytes. Each choice is asked for with every other capacity up to three bytes more than that length, and with strings:
 * what is written then has to be the front of the whole, and no more. By full merging the protocol has to have the same outcome
 * as a text and as a string. */
#include <inttypes.h>

#include "texts.h"

enum { MOST = 1 << 12, MARK = 0xAA };

static text protocol;
/* the same with a NUL */
static char *string;
static uint8_t whole[MOST];

static void *block_of(size_t size) {
    void *block = malloc(size);
    if (block == NULL) stop("no memory");
    return memset(block, MARK, size);
}

/* Asks for the choice into a block that is just so long, but for none. */
static void compare(uint64_t number, size_t length, size_t capacity) {
    size_t size = capacity != 0 ? capacity : 1, written = length < capacity ? length : capacity;
    uint8_t *block = block_of(size);
    if (mps_choice(protocol.at, protocol.length, number, block, capacity) != length) stop("a choice has another length the second time");
    if (memcmp(block, whole, written) != 0) stop("a choice is another one the second time");
    for (size_t at = written; at < size; at += 1)
        if (block[at] != MARK) stop("more was written than the choice");
    free(block);
}

/* The same with strings, for a choice and its NUL. */
static void compare_strings(uint64_t number, size_t length, size_t capacity) {
    size_t size = capacity != 0 ? capacity : 1, written = length < capacity ? length : size - 1;
    uint8_t *block = block_of(size);
    if (mps_choice_string(string, number, (char *)block, capacity) != length) stop("a choice has another length as a string");
    if (memcmp(block, whole, written) != 0) stop("a choice is another one as a string");
    for (size_t at = written; at < size; at += 1)
        if (block[at] != (at == written && capacity != 0 ? 0 : MARK)) stop("no NUL ends the string, or more was written");
    free(block);
}

/* Opens the protocol by full merging, as a text and as a string. */
static void compare_full(void) {
    uint32_t faults[2] = {0, 0};
    uint64_t places[2] = {0, 0};
    mps_room rooms[2] = {{NULL}, {NULL}};
    bool is_open = mps_open_full(protocol.at, protocol.length, &rooms[0], &faults[0], &places[0]);
    bool is_string_open = mps_open_string_full(string, &rooms[1], &faults[1], &places[1]);
    if (is_string_open != is_open || faults[0] != faults[1] || places[0] != places[1]) stop("a string has another outcome");
    mps_close(&rooms[0]);
    mps_close(&rooms[1]);
}

int main(int count, char **words) {
    if (count < 3) stop("usage: choice FILE CAPACITY NUMBER..");
    protocol = whole_file(words[1]);
    string = block_of(protocol.length + 1);
    memcpy(string, protocol.at, protocol.length);
    string[protocol.length] = '\0';
    size_t capacity = strtoul(words[2], NULL, 10);
    uint32_t fault = 0;
    uint64_t place = 0;
    mps_room room = {NULL};
    if (mps_open(protocol.at, protocol.length, &room, &fault, &place)) puts("open");
    else printf("%" PRIu32 " %" PRIu64 "\n", fault, place);
    mps_close(&room);
    compare_full();
    for (int at = 3; at < count; at += 1) {
        uint64_t number = strtoull(words[at], NULL, 10);
        size_t length = mps_choice(protocol.at, protocol.length, number, whole, MOST);
        if (length > MOST) stop("no memory for a choice, or it is too long");
        for (size_t other = 0; other <= length + 3; other += 1) {
            compare(number, length, other);
            compare_strings(number, length, other);
        }
        uint8_t *out = block_of(capacity != 0 ? capacity : 1);
        length = mps_choice(protocol.at, protocol.length, number, out, capacity);
        printf("%zu %.*s\n", length, (int)(length < capacity ? length : capacity), (const char *)out);
        free(out);
    }
    free((void *)protocol.at);
    free(string);
    return 0;
}
