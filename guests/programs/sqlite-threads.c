/* Three threads, each with a database of its own in memory, which they fill and ask at the same
 * time. */
#include <pthread.h>
#include <stdio.h>
#include "sqlite3.h"

#define THREADS 3
#define ROWS 300

static int answers[THREADS];

static int keep(void *to, int count, char **values, char **names) {
    sscanf(values[0], "%d", (int *)to);
    return 0;
}

static void *work(void *at) {
    int *answer = at;
    char text[300];
    sqlite3 *database;
    snprintf(text, sizeof text,
             "with recursive c(n) as (select 1 union all select n + 1 from c where n < %d) "
             "select sum(n * n %% 7) from c",
             ROWS * (int)(answer - answers + 1));
    sqlite3_open(":memory:", &database);
    sqlite3_exec(database, text, keep, answer, 0);
    sqlite3_close(database);
    return 0;
}

int main(void) {
    pthread_t threads[THREADS];
    for (int i = 0; i < THREADS; i++) pthread_create(&threads[i], 0, work, &answers[i]);
    for (int i = 0; i < THREADS; i++) pthread_join(threads[i], 0);
    for (int i = 0; i < THREADS; i++) printf("%d\n", answers[i]);
    return 0;
}
