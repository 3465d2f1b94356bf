// Two threads of a round work beside each other, and the program waits for both of them.
//
// Both loops do the same work, the first 1,000 times and the second 700 times. A usual profiler says that they take 59 and
// 41 per cent of the time. But a round ends with the longer loop: making the shorter one faster gains nothing, and making
// the longer one faster gains until it takes 30 per cent less. From there on the other one is the longer.
#include <pthread.h>
#include <stdio.h>

enum { ROUNDS = 10, LONGER = 1000, SHORTER = 700 };

static int rounds_done;

static void *work_longer(void *seed) {
    unsigned long x = (unsigned long)seed;
    for (int i = 0; i < LONGER; i++)
        x = 1000000007 / (x | 1) + x % 1009 + 7;
    return (void *)x;
}

static void *work_shorter(void *seed) {
    unsigned long x = (unsigned long)seed;
    for (int i = 0; i < SHORTER; i++)
        x = 1000000007 / (x | 1) + x % 1009 + 7;
    return (void *)x;
}

// A function of its own, so that the line is passed at one place, once for each round.
__attribute__((noinline)) static void count_round(void) {
    rounds_done++;  // the progress point
}

int main(void) {
    void *first, *second;
    unsigned long sum = 0;
    for (int round = 0; round < ROUNDS; round++) {
        pthread_t longer, shorter;
        pthread_create(&longer, NULL, work_longer, (void *)(unsigned long)round);
        pthread_create(&shorter, NULL, work_shorter, (void *)(unsigned long)round);
        pthread_join(longer, &first);
        pthread_join(shorter, &second);
        sum += (unsigned long)first + (unsigned long)second;
        count_round();
    }
    printf("%d rounds, sum %lu\n", rounds_done, sum);
    return 0;
}
