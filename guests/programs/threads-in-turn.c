/* Threads in turn, many more than there are at any one time: joined, detached, ended by pthread_exit,
 * with values of their own that a destructor sees, and memory that another thread gives back. */
#include <pthread.h>
#include <semaphore.h>
#include <stdint.h>
#include <stdio.h>
#include <stdlib.h>

static pthread_key_t key;
static sem_t ended;
static pthread_mutex_t lock = PTHREAD_MUTEX_INITIALIZER;
static long sum, ends;
static __thread long own = 7;

static void destroy(void *at) {
    pthread_mutex_lock(&lock);
    ends += (intptr_t)at;
    pthread_mutex_unlock(&lock);
}

static void *work(void *at) {
    long number = (intptr_t)at;
    long *value = malloc(sizeof *value + number % 500);
    *value = number + own;
    own += number;
    pthread_setspecific(key, at);
    pthread_mutex_lock(&lock);
    sum += *value + own;
    pthread_mutex_unlock(&lock);
    if (number % 3 == 2) {
        free(value);
        sem_post(&ended);
        return 0;
    }
    if (number % 3 == 1) pthread_exit(value);
    return value;
}

static void start_detached(long number) {
    pthread_attr_t attributes;
    pthread_t thread;
    pthread_attr_init(&attributes);
    pthread_attr_setdetachstate(&attributes, PTHREAD_CREATE_DETACHED);
    while (pthread_create(&thread, &attributes, work, (void *)(intptr_t)number)) sched_yield();
    sem_wait(&ended);
}

int main(int count, char **words) {
    long most = count > 1 ? atol(words[1]) : 5000, total = 0;
    pthread_t threads[4];
    pthread_key_create(&key, destroy);
    sem_init(&ended, 0, 0);
    for (long i = 0; i < most;) {
        int together = 0;
        for (; together < 4 && i < most; i++) {
            if (i % 3 == 2)
                start_detached(i);
            else if (pthread_create(threads + together++, 0, work, (void *)(intptr_t)i))
                return 1;
        }
        while (together) {
            void *value;
            pthread_join(threads[--together], &value);
            total += *(long *)value;
            free(value);
        }
    }
    printf("%ld threads, sum %ld, joined %ld\n", most, sum, total);
    pthread_exit(0);
}
