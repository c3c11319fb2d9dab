/* SPDX-License-Identifier: MIT OR Apache-2.0 */
/* cizhmolat.h: rooms in the caller's own process. A room has one session of a protocol, and answers the lines of its roles.
 *
 * Link libcizhmolat.a or libcizhmolat.so, which `./mps library DIR` makes, and nothing else. docs/EMBEDDING.md has a whole
 * program, docs/FORMATS.md the texts of protocols, lines and answers.
 *
 * What the caller owes:
 * - A room is in one call at a time. Threads that share one order their calls, by a lock for instance. Rooms know nothing of
 *   each other.
 * - The struct isn't copied while its room is open, and no call comes after mps_close.
 * - No pointer is NULL, also where a length is 0. `length` bytes can be read there, and `capacity` bytes written. What is
 *   written lies apart from all else that is handed over in the same call, and from the room.
 * - No call is made in a signal handler, or in the child of a fork of a process with threads; nor is a room with a file in use
 *   in the child of any fork, which would write the same file.
 *
 * Memory comes from malloc, realloc and free of the program. Where it runs out, that is told, and nothing is lost. */
#ifndef CIZHMOLAT_H
#define CIZHMOLAT_H

#include <stdbool.h>
#include <stddef.h>
#include <stdint.h>
#include <string.h>

#ifdef __cplusplus
extern "C" {
#endif

/* A room. Begin it as {NULL}, which is no room. */
typedef struct mps_room {
    void *at;
} mps_room;

/* Opens a room with a new session of the protocol that the text spells. Where there is none it is false: `fault` is one of
 * the numbers below, `place` is the byte of a fault of the text, the choice of a projection's, of which mps_choice tells more,
 * and else 0, and `room` is as it was. */
bool mps_open(const uint8_t *text, size_t length, mps_room *room, uint32_t *fault, uint64_t *place);

/* The same by full merging: a role that takes no part in a choice may be told of the branch by a label of its own, where by the
 * plain merging of mps_open it has to do the same in all branches. Where both give types, they give the same ones. */
bool mps_open_full(const uint8_t *text, size_t length, mps_room *room, uint32_t *fault, uint64_t *place);

enum {
    MPS_NO_MEMORY = 1,
    MPS_TEXT = 16,        /* 16 to 21: a fault of the text */
    MPS_PROTOCOL = 32,    /* 32 to 43: a fault of the protocol */
    MPS_PROJECTION = 48,  /* and the number of the role, from 0, in the order of `roles`: it has no local type */
    MPS_ELSEWHERE = 64,   /* another room, or another process, has the file */
    MPS_FILE = 65,        /* the system refuses something of the file; `place` is its number of the error, an errno, or 0 */
    MPS_UNREADABLE = 66,  /* 66 to 68: a line of the file, whose number from 1 is `place`: it spells no command; */
    MPS_REFUSED = 67,     /* its command isn't accepted; */
    MPS_CHANGED = 68      /* it isn't as it was written */
};

/* The words of a choice of the protocol that the text spells: who chooses, who is told, and the labels of its branches, such
 * as `a b go stop`. Choices are counted from 0 in the order in which they begin in the text. Of MPS_PROJECTION `place` is such
 * a number: the role takes no part in that choice, and doesn't do the same in all branches, or, by full merging, has no single
 * type that stands for all of them. Writes of the words what fits, without a NUL, and gives the length of the whole; 0 where
 * the text can't be read (16 to 21), or has not so many choices; SIZE_MAX where there was no memory, and nothing was written. */
size_t mps_choice(const uint8_t *text, size_t length, uint64_t number, uint8_t *out, size_t capacity);

/* Opens a room that a file keeps: the room is as the file at the path leaves it, and each command that is accepted from then
 * on is in the file before its answer is told. The file is a journal as a server's folder has it, `1.journal` for session 1;
 * its seals are those of that session. It is made where there is none, and locked as long as the room is open. Where there
 * is no such room it is false, as of mps_open: `fault` and `place` are those of the text, which is looked at before the
 * session's number and the file, or, from 64 on, of these.
 *
 * Where a line can't be written its answer is `refused journal`, as is that of each line after it, and the room may show that
 * one command more than the file has: close it, and open it again. Where it was the disk that didn't store, the file stays
 * locked until the process ends, since the system may show then what the disk doesn't have.
 *
 * The folder has to be the caller's alone, and the file no link. Sessions are 1 to 2^63. Flags, as below, may be added; one
 * that isn't known is refused as EINVAL. The file doesn't say by which merging it was written: a text that has types by both
 * may have it by either. */
bool mps_open_file(const uint8_t *text, size_t length, const uint8_t *path, size_t path_length, uint64_t session,
                   uint32_t flags, mps_room *room, uint32_t *fault, uint64_t *place);

enum {
    MPS_SYNC = 1,         /* the disk has stored each accepted command before its answer is told */
    MPS_FULL_MERGING = 2  /* the text's types are those of mps_open_full */
};

/* Has the disk store all that was answered so far: for a room without MPS_SYNC, whose answers are safe from a crash of the
 * process as they are told, and from one of the machine only after this. False where the disk didn't: then the room answers
 * `refused journal` to each line. True where the room has no file. */
bool mps_sync(mps_room *room);

/* Runs a line as a command of the role of that name, such as `send b 5`, or `1 send b 5` with a number. Writes of the
 * answer what fits, without a line break or a NUL, and gives the length of the whole; SIZE_MAX where there was no memory for
 * the answer's text. The line was run in any case, so ask mps_answer then, and don't give it again. */
size_t mps_line(mps_room *room, const uint8_t *role, size_t role_length, const uint8_t *line, size_t line_length,
                uint8_t *out, size_t capacity);

/* The answer to the newest line once more, as often as wanted. Before the first line it is `refused norole`. */
size_t mps_answer(mps_room *room, uint8_t *out, size_t capacity);

/* What mps_line would answer, if it was called now: `accepted`, or the refusal. Nothing changes. Lack of memory for what an
 * accepted command would do isn't foreseen. */
size_t mps_would(mps_room *room, const uint8_t *role, size_t role_length, const uint8_t *line, size_t line_length,
                 uint8_t *out, size_t capacity);

/* What the role's type wants next, as `show` has it, such as `send b int` or `end`. The length is 0 where no role has the
 * name. */
size_t mps_expects(mps_room *room, const uint8_t *role, size_t role_length, uint8_t *out, size_t capacity);

/* The value in a slot of the role, such as `5` or `"gold"`. The length is 0 where there is no such role, or nothing in the
 * slot. */
size_t mps_slot(mps_room *room, const uint8_t *role, size_t role_length, const uint8_t *slot, size_t slot_length,
                uint8_t *out, size_t capacity);

/* How many commands were accepted that change the session. These are the entries of its journal. */
uint64_t mps_entries(mps_room *room);

/* Entry number k, from 0, as a line of a script, such as `a send b 5`. Past the end the length is 0. SIZE_MAX is given where
 * there was no memory for the text, which can be asked for again. */
size_t mps_entry(mps_room *room, uint64_t k, uint8_t *out, size_t capacity);

/* Lets go of the room at that place. Call mps_close, which clears the struct too. */
void mps_close_at(void *at);

/* Lets go of the room. Nothing happens where there is none. */
static inline void mps_close(mps_room *room) {
    if (room->at != NULL) mps_close_at(room->at);
    room->at = NULL;
}

/* --- The same with strings --- */

/* Opens a room by a text that ends with a NUL. */
static inline bool mps_open_string(const char *text, mps_room *room, uint32_t *fault, uint64_t *place) {
    return mps_open((const uint8_t *)text, strlen(text), room, fault, place);
}

/* mps_open_full, by a text that ends with a NUL. */
static inline bool mps_open_string_full(const char *text, mps_room *room, uint32_t *fault, uint64_t *place) {
    return mps_open_full((const uint8_t *)text, strlen(text), room, fault, place);
}

/* mps_open_file, by strings. */
static inline bool mps_open_file_string(const char *text, const char *path, uint64_t session, uint32_t flags, mps_room *room,
                                        uint32_t *fault, uint64_t *place) {
    return mps_open_file((const uint8_t *)text, strlen(text), (const uint8_t *)path, strlen(path), session, flags, room,
                         fault, place);
}

/* Puts a NUL after what was written of a text of that length, as snprintf does. */
static inline size_t mps_ended(size_t length, char *out, size_t capacity) {
    if (capacity != 0) out[length == SIZE_MAX ? 0 : length < capacity ? length : capacity - 1] = '\0';
    return length;
}

/* As mps_choice, with strings. What is written ends with a NUL, for which `capacity` has a byte. */
static inline size_t mps_choice_string(const char *text, uint64_t number, char *out, size_t capacity) {
    size_t length = mps_choice((const uint8_t *)text, strlen(text), number, (uint8_t *)out, capacity != 0 ? capacity - 1 : 0);
    return mps_ended(length, out, capacity);
}

/* As mps_line, with strings. What is written ends with a NUL, for which `capacity` has a byte. */
static inline size_t mps_say(mps_room *room, const char *role, const char *line, char *out, size_t capacity) {
    size_t length = mps_line(room, (const uint8_t *)role, strlen(role), (const uint8_t *)line, strlen(line), (uint8_t *)out,
                             capacity != 0 ? capacity - 1 : 0);
    return mps_ended(length, out, capacity);
}

/* As mps_would, with strings. */
static inline size_t mps_foresee(mps_room *room, const char *role, const char *line, char *out, size_t capacity) {
    size_t length = mps_would(room, (const uint8_t *)role, strlen(role), (const uint8_t *)line, strlen(line), (uint8_t *)out,
                              capacity != 0 ? capacity - 1 : 0);
    return mps_ended(length, out, capacity);
}

/* As mps_expects, with strings. */
static inline size_t mps_wants(mps_room *room, const char *role, char *out, size_t capacity) {
    size_t length = mps_expects(room, (const uint8_t *)role, strlen(role), (uint8_t *)out, capacity != 0 ? capacity - 1 : 0);
    return mps_ended(length, out, capacity);
}

/* As mps_slot, with strings. */
static inline size_t mps_value(mps_room *room, const char *role, const char *slot, char *out, size_t capacity) {
    size_t length = mps_slot(room, (const uint8_t *)role, strlen(role), (const uint8_t *)slot, strlen(slot), (uint8_t *)out,
                             capacity != 0 ? capacity - 1 : 0);
    return mps_ended(length, out, capacity);
}

/* The word for a fault, as `mps check` prints it: `memory`, `unexpected` of a text, `unbound` of a protocol, and so on. */
static inline const char *mps_fault_word(uint32_t fault) {
    static const char *const texts[] = {"toolong", "word", "unexpected", "toomanynodes", "toodeep", "trailing"};
    static const char *const protocols[] = {"rolecount",   "doublerole",      "toomanynodes", "toodeep", "unknownrole", "selfmessage",
                                            "doublelabel", "toomanybranches", "nobranches",   "unbound", "shadowed",    "unguarded"};
    static const char *const files[] = {"elsewhere", "file", "unreadable", "refused", "changed"};
    if (fault == MPS_NO_MEMORY) return "memory";
    if (fault >= MPS_ELSEWHERE && fault <= MPS_CHANGED) return files[fault - MPS_ELSEWHERE];
    if (fault >= MPS_TEXT && fault < MPS_TEXT + 6) return texts[fault - MPS_TEXT];
    if (fault >= MPS_PROTOCOL && fault < MPS_PROTOCOL + 12) return protocols[fault - MPS_PROTOCOL];
    return fault >= MPS_PROJECTION && fault < MPS_PROJECTION + 8 ? "projection" : "unknown";
}

#ifdef __cplusplus
}
#endif

#endif
