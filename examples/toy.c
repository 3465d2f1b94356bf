// Coz's first example: two threads, of which one has more to do, and a progress point.
//
// A usual profiler says that a and b take 57 and 43 per cent of the time. But making b faster gains
// nothing, and making a faster gains until it takes as long as b: then b is the one that is waited
// for. The difference is greater than in Coz's example: b begins later than a, by the time that the
// main thread takes to make it.
#include <coz.h>
#include <pthread.h>
#include <stdio.h>

enum { ROUNDS = 20, LONGER = 2000, SHORTER = 1500 };

static void *a(void *unused) {
    for (volatile int x = 0; x < LONGER; x++) {
    }
    return unused;
}

static void *b(void *unused) {
    for (volatile int y = 0; y < SHORTER; y++) {
    }
    return unused;
}

int main(void) {
    for (int i = 0; i < ROUNDS; i++) {
        pthread_t a_thread, b_thread;
        pthread_create(&a_thread, NULL, a, NULL);
        pthread_create(&b_thread, NULL, b, NULL);
        pthread_join(a_thread, NULL);
        pthread_join(b_thread, NULL);
        COZ_PROGRESS;
    }
    puts("done");
    return 0;
}
