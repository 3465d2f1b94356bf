/* Threads that each insert rows into a private database in memory, as in the SQLite benchmark of the Coz paper:
 * insert THREADS ROWS. A row is done where done() is called: that is the progress point. */
#include <pthread.h>
#include <stdio.h>
#include <stdlib.h>
#include "sqlite3.h"

#define MOST 64

static int rows = 40;
static long inserted[MOST];

__attribute__((noinline)) void done(long *count) {
    *count += 1;
}

static void must(int code, int right, sqlite3 *database) {
    if (code == right) return;
    fprintf(stderr, "sqlite: %s\n", database ? sqlite3_errmsg(database) : "no database");
    exit(1);
}

static void *work(void *at) {
    long *count = at;
    sqlite3 *database = 0;
    sqlite3_stmt *row;
    must(sqlite3_open(":memory:", &database), SQLITE_OK, database);
    must(sqlite3_exec(database, "create table t(a integer primary key, b integer, c text)", 0, 0, 0), SQLITE_OK, database);
    must(sqlite3_prepare_v2(database, "insert into t(b, c) values(?, ?)", -1, &row, 0), SQLITE_OK, database);
    for (int i = 0; i < rows; i++) {
        char text[24];
        int length = 0;
        for (unsigned n = i * 2654435761u; length < 20; n = n * 69069 + 1) text[length++] = 'a' + (n >> 24) % 26;
        sqlite3_bind_int(row, 1, i * 7);
        sqlite3_bind_text(row, 2, text, length, SQLITE_TRANSIENT);
        must(sqlite3_step(row), SQLITE_DONE, database);
        must(sqlite3_reset(row), SQLITE_OK, database);
        done(count);
    }
    sqlite3_finalize(row);
    must(sqlite3_close(database), SQLITE_OK, 0);
    return 0;
}

int main(int words, char **word) {
    int threads = words > 1 ? atoi(word[1]) : 4;
    if (words > 2) rows = atoi(word[2]);
    if (threads < 1 || threads > MOST) return 2;
    pthread_t made[MOST];
    long sum = 0;
    sqlite3_initialize();
    for (int i = 0; i < threads; i++) pthread_create(&made[i], 0, work, &inserted[i]);
    for (int i = 0; i < threads; i++) pthread_join(made[i], 0);
    for (int i = 0; i < threads; i++) sum += inserted[i];
    printf("%ld rows\n", sum);
    return 0;
}
