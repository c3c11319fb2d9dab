/* threads FOLDER [apart]: eight threads with a room each, that the files 1.journal to 8.journal keep, and then eight that share one,
 * 9.journal, behind a mutex, each of them a role of a ring. Each thread gives 500 lines with numbers. It is built with
 * -fsanitize=thread, so that a race is told: as one has to be with `apart`, where each thread has a mutex of its own. */
#define _POSIX_C_SOURCE 200809L
#include <inttypes.h>
#include <pthread.h>
#include <sched.h>

#include "texts.h"

enum { THREADS = 8, LINES = 500, SHARED = THREADS + 1 };

static const char *const loop = "roles a b ; rec X . a -> b : int . X";
static const char *const ring =
    "roles a b c d e f g h ; rec X . a -> b : int . b -> c : int . c -> d : int . d -> e : int . e -> f : int . f -> g : int . "
    "g -> h : int . h -> a : int . X";
static const char *const names[THREADS] = {"a", "b", "c", "d", "e", "f", "g", "h"};
static const char *folder;
static mps_room shared;
static pthread_mutex_t turns[THREADS];
static bool are_apart;

static void open_room(mps_room *room, const char *protocol, size_t session) {
    char path[4096];
    uint32_t fault;
    uint64_t place;
    snprintf(path, sizeof path, "%s/%zu.journal", folder, session);
    if (!mps_open_file_string(protocol, path, session, 0, room, &fault, &place)) stop(mps_fault_word(fault));
}

/* Gives a line. False where it can't be received yet what isn't sent. */
static bool say(mps_room *room, const char *role, const char *command) {
    char answer[64];
    size_t length = mps_say(room, role, command, answer, sizeof answer);
    if (length < sizeof answer && strcmp(answer, "refused nothingqueued") == 0) return false;
    if (length >= sizeof answer || strncmp(answer, "done ", 5) != 0) stop(answer);
    return true;
}

/* A thread with a room of its own, whose number is one more than the place of the name. */
static void *alone(void *name) {
    char command[64];
    mps_room room = {NULL};
    open_room(&room, loop, (size_t)((const char *const *)name - names) + 1);
    for (int line = 0; line < LINES; line += 1) {
        snprintf(command, sizeof command, line % 2 == 0 ? "%d send b %d" : "%d recv a x", line / 2 + 1, line / 2 + 1);
        if (!say(&room, line % 2 == 0 ? "a" : "b", command)) stop("nothing waits");
    }
    mps_close(&room);
    return NULL;
}

/* A thread of the shared room, with the role of that name. */
static void *together(void *name) {
    char command[64];
    size_t at = (size_t)((const char *const *)name - names);
    const char *before = names[(at + THREADS - 1) % THREADS], *after = names[(at + 1) % THREADS];
    pthread_mutex_t *turn = &turns[are_apart ? at : 0];
    for (int line = 0; line < LINES;) {
        bool sends = (line % 2 == 0) == (at == 0);
        snprintf(command, sizeof command, sends ? "%d send %s %d" : "%d recv %s x", line + 1, sends ? after : before, line);
        if (pthread_mutex_lock(turn) != 0) stop("no lock");
        bool is_done = say(&shared, names[at], command);
        if (pthread_mutex_unlock(turn) != 0) stop("no unlock");
        if (is_done) line += 1;
        else sched_yield();
    }
    return NULL;
}

/* Runs it in eight threads. */
static void all(void *(*act)(void *)) {
    pthread_t threads[THREADS];
    for (int at = 0; at < THREADS; at += 1)
        if (pthread_create(&threads[at], NULL, act, (void *)&names[at]) != 0) stop("no thread");
    for (int at = 0; at < THREADS; at += 1)
        if (pthread_join(threads[at], NULL) != 0) stop("a thread that can't be joined");
}

int main(int count, char **words) {
    if (count < 2) stop("usage: threads FOLDER [apart]");
    folder = words[1];
    are_apart = count > 2;
    for (int at = 0; at < THREADS; at += 1)
        if (pthread_mutex_init(&turns[at], NULL) != 0) stop("no mutex");
    all(alone);
    open_room(&shared, ring, SHARED);
    all(together);
    mps_close(&shared);
    return 0;
}
