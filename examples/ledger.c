// A maker puts numbers into a queue; two takers take them out, enter each into a ledger, and work on it.
//
// An entry is made under the queue's lock, by one taker at a time; the work is done outside of it, by both beside each other.
// A usual profiler says that entries take 56 per cent of the time and the work 44. But it is the lock that the takers wait
// for: making the work faster gains next to nothing, and making an entry faster makes the whole program faster.
#include <pthread.h>
#include <stdio.h>

enum { NUMBERS = 40, ROOM = 8, ENTRY = 200, WORK = 160 };

static pthread_mutex_t lock = PTHREAD_MUTEX_INITIALIZER;
static pthread_cond_t filled = PTHREAD_COND_INITIALIZER;
static pthread_cond_t emptied = PTHREAD_COND_INITIALIZER;
static unsigned long queue[ROOM];
static int made, taken;
static unsigned long ledger, result;

static unsigned long enter(unsigned long sum, unsigned long number) {
    for (int i = 0; i < ENTRY; i++)
        sum = 1000000007 / (sum | 1) + number;
    return sum;
}

static unsigned long work_on(unsigned long number) {
    for (int i = 0; i < WORK; i++)
        number = 1000000007 / (number | 1) + 7;
    return number;
}

// A function of its own, so that the line is passed at one place, once for each number.
__attribute__((noinline)) static void finish(unsigned long number) {
    __atomic_fetch_add(&result, number, __ATOMIC_RELAXED);  // the progress point
}

static void *make(void *unused) {
    for (int i = 0; i < NUMBERS; i++) {
        pthread_mutex_lock(&lock);
        while (made - taken == ROOM)
            pthread_cond_wait(&emptied, &lock);
        queue[made++ % ROOM] = i;
        pthread_cond_signal(&filled);
        pthread_mutex_unlock(&lock);
    }
    return unused;
}

static void *take(void *unused) {
    for (int i = 0; i < NUMBERS / 2; i++) {
        pthread_mutex_lock(&lock);
        while (made == taken)
            pthread_cond_wait(&filled, &lock);
        unsigned long number = queue[taken++ % ROOM];
        ledger = enter(ledger, number);
        pthread_cond_signal(&emptied);
        pthread_mutex_unlock(&lock);
        finish(work_on(number));
    }
    return unused;
}

int main(void) {
    pthread_t maker, takers[2];
    pthread_create(&maker, NULL, make, NULL);
    pthread_create(&takers[0], NULL, take, NULL);
    pthread_create(&takers[1], NULL, take, NULL);
    pthread_join(maker, NULL);
    pthread_join(takers[0], NULL);
    pthread_join(takers[1], NULL);
    printf("ledger %lu, result %lu\n", ledger, result);
    return 0;
}
