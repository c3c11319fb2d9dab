/* inserts FOLDER: what SQLite takes to insert the same lines as kept.c gives, into a database in the folder, each in a
 * transaction of its own, in WAL mode. It prints nanoseconds of an insert, the least of many rounds on a new database, with
 * synchronous=OFF, NORMAL and FULL. */
#define _POSIX_C_SOURCE 200809L
#include <sqlite3.h>
#include <stdio.h>
#include <stdlib.h>
#include <string.h>
#include <time.h>
#include <unistd.h>

enum { LINES = 40000, SYNCED_LINES = 1000, ROUNDS = 5 };

static double now(void) {
    struct timespec time;
    clock_gettime(CLOCK_MONOTONIC, &time);
    return (double)time.tv_sec * 1e9 + (double)time.tv_nsec;
}

static void must(int holds) {
    if (!holds) {
        fputs("inserts: something else came than is measured\n", stderr);
        exit(1);
    }
}

static void measure(const char *path, const char *synchronous, int lines) {
    double least = 1e18;
    for (int round = 0; round < ROUNDS; round += 1) {
        sqlite3 *database;
        sqlite3_stmt *insert;
        char words[64], beside[4200];
        snprintf(words, sizeof words, "pragma synchronous=%s", synchronous);
        must(sqlite3_open(path, &database) == SQLITE_OK);
        must(sqlite3_exec(database, "pragma journal_mode=wal", NULL, NULL, NULL) == SQLITE_OK);
        must(sqlite3_exec(database, words, NULL, NULL, NULL) == SQLITE_OK);
        must(sqlite3_exec(database, "create table journal (number integer primary key, line text)", NULL, NULL, NULL) == SQLITE_OK);
        must(sqlite3_prepare_v2(database, "insert into journal (line) values (?)", -1, &insert, NULL) == SQLITE_OK);
        double began = now();
        for (int n = 0; n < lines; n += 1) {
            const char *line = n % 2 == 0 ? "a send b 123456" : "b recv a x";
            must(sqlite3_bind_text(insert, 1, line, -1, SQLITE_STATIC) == SQLITE_OK);
            must(sqlite3_step(insert) == SQLITE_DONE && sqlite3_reset(insert) == SQLITE_OK);
        }
        double took = now() - began;
        least = took < least ? took : least;
        must(sqlite3_finalize(insert) == SQLITE_OK && sqlite3_close(database) == SQLITE_OK);
        must(unlink(path) == 0);
        for (int at = 0; at < 2; at += 1) {
            snprintf(beside, sizeof beside, "%s%s", path, at == 0 ? "-wal" : "-shm");
            unlink(beside);
        }
    }
    printf("%.0f\n", least / lines);
}

int main(int count, char **words) {
    char path[4096];
    must(count == 2 && snprintf(path, sizeof path, "%s/lines.db", words[1]) < (int)sizeof path);
    measure(path, "off", LINES);
    measure(path, "normal", LINES);
    measure(path, "full", SYNCED_LINES);
    return 0;
}
