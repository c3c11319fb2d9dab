/* memory FILE SCRIPT [--full]: runs a script on a room of a protocol again and again, and each time refuses another request for
 * memory, or all from one on until the room tells it. Each line then has the answer with ample memory; or `refused memory`, and
 * it is given again; or no memory for its answer's text, which is asked for again. In the end the entries and the protocol's
 * first choice are those of the run with ample memory, and nothing is left of the room. It prints how often each came. With
 * --full the room is opened by full merging.
 *
 * It is linked with --wrap for malloc, realloc and free, so that it sees each request of the library. */
#include <inttypes.h>

#include "texts.h"

enum { MOST = 1 << 20, LINES = 4096, MARK = 0xAA };

void *__real_malloc(size_t size);
void *__real_realloc(void *old, size_t size);
void __real_free(void *block);

/* the requests so far, those that are refused, and the blocks that are there */
static long requests, first, last = -1, blocks;
/* the texts of the run with ample memory: an answer for each line, then the entries, and the choice */
static text wanted[LINES];
static size_t count, lines;
static long refused, no_text, not_opened;
static bool is_full;
static uint8_t out[MOST];

static bool is_refused(void) {
    requests += 1;
    return first <= requests && requests <= last;
}

void *__wrap_malloc(size_t size) {
    void *made = is_refused() ? NULL : __real_malloc(size);
    blocks += made != NULL;
    return made;
}

void *__wrap_realloc(void *old, size_t size) {
    void *made = is_refused() ? NULL : __real_realloc(old, size);
    blocks += old == NULL && made != NULL;
    return made;
}

void __wrap_free(void *block) {
    blocks -= block != NULL;
    __real_free(block);
}

/* Refuses nothing from now on. */
static void relent(void) { last = -1; }

/* Keeps a text of the run with ample memory, or compares it with that of that run. */
static void judge(size_t at, size_t length, bool is_first) {
    if (length > MOST || at >= LINES) stop("a text is too long, or there are too many");
    if (is_first) {
        uint8_t *kept = __real_malloc(length + 1);
        memcpy(kept, out, length);
        wanted[at] = (text){kept, length};
        count = at + 1;
    } else if (at >= count || wanted[at].length != length || memcmp(wanted[at].at, out, length) != 0) {
        fprintf(stderr, "refused from %ld, text %zu: wanted %.*s\nfound %.*s\n", first, at, (int)wanted[at].length,
                (const char *)wanted[at].at, (int)length, (const char *)out);
        exit(1);
    }
}

/* The length of the answer, which is asked for again where there was no memory for its text. */
static size_t answered(mps_room *room, size_t length) {
    if (length != SIZE_MAX) return length;
    no_text += 1;
    relent();
    return mps_answer(room, out, MOST);
}

/* Runs a line, once more where memory ran out in it. */
static void run_line(mps_room *room, size_t at, text role, text command, bool is_first) {
    static const char word[] = "refused memory";
    size_t length = answered(room, mps_line(room, role.at, role.length, command.at, command.length, out, MOST));
    if (length == sizeof word - 1 && memcmp(out, word, length) == 0) {
        refused += 1;
        relent();
        length = mps_line(room, role.at, role.length, command.at, command.length, out, MOST);
    }
    judge(at, length, is_first);
}

/* Asks for the first choice, once more where there was no memory for it, and nothing was written. */
static size_t choice_told(text protocol) {
    out[0] = MARK;
    size_t length = mps_choice(protocol.at, protocol.length, 0, out, MOST);
    if (length != SIZE_MAX) return length;
    if (out[0] != MARK) stop("a choice was written without memory");
    no_text += 1;
    relent();
    return mps_choice(protocol.at, protocol.length, 0, out, MOST);
}

/* Opens the room. */
static bool opened(text protocol, mps_room *room, uint32_t *fault, uint64_t *place) {
    return (is_full ? mps_open_full : mps_open)(protocol.at, protocol.length, room, fault, place);
}

/* Runs the script; the first time its texts are kept. */
static void run(text protocol, text script, bool is_first) {
    mps_room room = {NULL};
    uint32_t fault = 0;
    uint64_t place = 7;
    text role, command;
    requests = 0;
    if (!opened(protocol, &room, &fault, &place)) {
        if (fault != MPS_NO_MEMORY || place != 0 || room.at != NULL || blocks != 0) stop("no room, and not for memory");
        not_opened += 1;
        relent();
        if (!opened(protocol, &room, &fault, &place)) stop("no room the second time");
    }
    for (lines = 0; next_line(&script, &role, &command); lines += 1) run_line(&room, lines, role, command, is_first);
    uint64_t entries = mps_entries(&room);
    for (uint64_t k = 0; k < entries; k += 1) {
        size_t length = mps_entry(&room, k, out, MOST);
        if (length == SIZE_MAX) {
            no_text += 1;
            relent();
            length = mps_entry(&room, k, out, MOST);
        }
        judge(lines + k, length, is_first);
    }
    judge(lines + entries, choice_told(protocol), is_first);
    if (lines + entries + 1 != count) stop("there are other entries");
    mps_close(&room);
    if (blocks != 0) stop("a block is left of the room");
}

int main(int words, char **names) {
    if (words < 3) stop("usage: memory FILE SCRIPT [--full]");
    is_full = words > 3;
    text protocol = whole_file(names[1]), script = whole_file(names[2]);
    blocks = 0;
    run(protocol, script, true);
    long all = requests;
    for (long number = 1; number <= all; number += 1) {
        first = last = number;
        run(protocol, script, false);
        first = number;
        last = 1L << 60;
        run(protocol, script, false);
    }
    printf("%zu lines, %ld requests, %ld refused memory, %ld without a text, %ld not opened\n", lines, all, refused, no_text,
           not_opened);
    for (size_t at = 0; at < count; at += 1) __real_free((void *)wanted[at].at);
    __real_free((void *)protocol.at);
    __real_free((void *)script.at);
    return 0;
}
