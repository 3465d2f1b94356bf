/* A model of PARSEC's ferret: a pipeline of four stages with pools of threads between a loader and a writer.
 * The paper moved threads to the last stage; -DFIXED ranks with half the work.
 * ferret IMAGES SEG EXTRACT VECTOR RANK: as many images, and threads in each stage */
#include <pthread.h>
#include <stdint.h>
#include <stdio.h>
#include <stdlib.h>

#define STAGES 4
#define ROOM 16
#ifdef FIXED
#define RANK 2500
#else
#define RANK 5000
#endif

typedef struct {
    uint32_t items[ROOM];
    int first, count, writers;
    pthread_mutex_t lock;
    pthread_cond_t filled, drained;
} queue;

static queue queues[STAGES + 1];
static int images = 60, pool[STAGES] = {2, 2, 2, 2};
static uint32_t total;

static void put(queue *q, uint32_t item) {
    pthread_mutex_lock(&q->lock);
    while (q->count == ROOM) pthread_cond_wait(&q->drained, &q->lock);
    q->items[(q->first + q->count++) % ROOM] = item;
    pthread_cond_signal(&q->filled);
    pthread_mutex_unlock(&q->lock);
}

static int take(queue *q, uint32_t *item) {
    pthread_mutex_lock(&q->lock);
    while (!q->count && q->writers) pthread_cond_wait(&q->filled, &q->lock);
    int some = q->count > 0;
    if (some) {
        *item = q->items[q->first];
        q->first = (q->first + 1) % ROOM;
        q->count--;
        pthread_cond_signal(&q->drained);
    }
    pthread_mutex_unlock(&q->lock);
    return some;
}

static void leave(queue *q) {
    pthread_mutex_lock(&q->lock);
    q->writers--;
    pthread_cond_broadcast(&q->filled);
    pthread_mutex_unlock(&q->lock);
}

static uint32_t segment(uint32_t n) {
    for (int i = 0; i < 1200; i++) n = n * 69069 + (n >> 16);
    return n;
}

static uint32_t extract(uint32_t n) {
    for (int i = 0; i < 800; i++) n = n * 1103515245 + (n >> 13);
    return n;
}

static uint32_t vector(uint32_t n) {
    for (int i = 0; i < 1600; i++) n = n * 22695477 + (n >> 15);
    return n;
}

static uint32_t rank(uint32_t n) {
    for (int i = 0; i < RANK; i++) n = n * 134775813 + (n >> 14);
    return n;
}

static uint32_t (*const stages[STAGES])(uint32_t) = {segment, extract, vector, rank};

__attribute__((noinline)) static void written(uint32_t n) {
    total += n;
}

static void *work(void *at) {
    long stage = (long)at;
    for (uint32_t n; take(&queues[stage], &n);) put(&queues[stage + 1], stages[stage](n));
    leave(&queues[stage + 1]);
    return 0;
}

static void *load(void *none) {
    for (int i = 0; i < images; i++) put(&queues[0], i);
    leave(&queues[0]);
    return 0;
}

int main(int words, char **word) {
    if (words > 1) images = atoi(word[1]);
    for (int i = 0; i < STAGES && i + 2 < words; i++) pool[i] = atoi(word[i + 2]);
    pthread_t made[64];
    int count = 0;
    for (int i = 0; i <= STAGES; i++) {
        pthread_mutex_init(&queues[i].lock, 0);
        pthread_cond_init(&queues[i].filled, 0);
        pthread_cond_init(&queues[i].drained, 0);
        queues[i].writers = i ? pool[i - 1] : 1;
    }
    pthread_create(&made[count++], 0, load, 0);
    for (long s = 0; s < STAGES; s++)
        for (int i = 0; i < pool[s]; i++) pthread_create(&made[count++], 0, work, (void *)s);
    for (uint32_t n; take(&queues[STAGES], &n);) written(n);
    for (int i = 0; i < count; i++) pthread_join(made[i], 0);
    printf("%u\n", total);
    return 0;
}
