/* A model of PARSEC's dedup: threads take chunks, compute their digests, and look each up in a hash table whose hash adds
 * the bytes of the digest, so that few buckets are used. A chunk that is new is compressed; another thread writes all of
 * them. -DFIXED hashes by exclusive or. dedup THREADS CHUNKS LOCKS */
#include <pthread.h>
#include <stdint.h>
#include <stdio.h>
#include <stdlib.h>

#define BUCKETS 4096
#define LOCKS 64
#define DIGEST 5
#define BLOCK 32

typedef struct item {
    struct item *next;
    uint32_t key[DIGEST];
} item;

static item *table[BUCKETS];
static pthread_mutex_t locks[LOCKS];
static pthread_mutex_t taking = PTHREAD_MUTEX_INITIALIZER, out_lock = PTHREAD_MUTEX_INITIALIZER;
static pthread_cond_t out_filled = PTHREAD_COND_INITIALIZER;
static int stripes = LOCKS, chunks = 500, taken, threads = 3, ready;
static uint32_t total;

static void digest(uint32_t n, uint32_t key[DIGEST]) {
    uint32_t state = (n % 7 == 3 ? n / 7 : n) * 2654435761u + 1; /* some chunks are like others */
    for (int i = 0; i < DIGEST; i++) key[i] = state + i;
    for (int i = 0; i < 30; i++) {
        uint32_t t = key[i % DIGEST] ^ (key[(i + 1) % DIGEST] >> 7) ^ (state << (i & 15));
        key[i % DIGEST] = t * 69069 + 1;
    }
}

static uint32_t hash(const uint32_t key[DIGEST]) {
#ifdef FIXED
    return (key[0] ^ key[1] ^ key[2] ^ key[3] ^ key[4]) % BUCKETS;
#else
    uint32_t sum = 0;
    for (int i = 0; i < 4 * DIGEST; i++) sum += ((const unsigned char *)key)[i];
    return (sum >> 7) % BUCKETS;
#endif
}

static int same(const uint32_t *a, const uint32_t *b) {
    return a[0] == b[0] && a[1] == b[1] && a[2] == b[2] && a[3] == b[3] && a[4] == b[4];
}

static item *find(uint32_t bucket, const uint32_t key[DIGEST]) {
    item *at = table[bucket];
    while (at && !same(at->key, key))
        at = at->next;
    return at;
}

static int is_new(const uint32_t key[DIGEST]) {
    uint32_t bucket = hash(key);
    pthread_mutex_lock(&locks[bucket % stripes]);
    item *at = find(bucket, key);
    if (!at) {
        item *made = malloc(sizeof *made);
        for (int i = 0; i < DIGEST; i++) made->key[i] = key[i];
        made->next = table[bucket];
        table[bucket] = made;
    }
    pthread_mutex_unlock(&locks[bucket % stripes]);
    return !at;
}

static uint32_t compress(uint32_t n) {
    uint32_t window[BLOCK], sum = 0;
    for (int i = 0; i < BLOCK; i++) window[i] = n = n * 69069 + 1;
    for (int j = 1; j < 4; j++)
        for (int i = j; i < BLOCK; i++) sum += (window[i] >> 16) == (window[i - j] >> 16) ? j : 1;
    return sum;
}

__attribute__((noinline)) static void written(uint32_t n) {
    total += n;
}

static void *work(void *none) {
    for (;;) {
        pthread_mutex_lock(&taking);
        int n = taken < chunks ? taken++ : -1;
        pthread_mutex_unlock(&taking);
        if (n < 0) return 0;
        uint32_t key[DIGEST], size = 4;
        digest(n, key);
        if (is_new(key)) size = compress(n);
        pthread_mutex_lock(&out_lock);
        ready++;
        written(size);
        pthread_cond_signal(&out_filled);
        pthread_mutex_unlock(&out_lock);
    }
}

int main(int words, char **word) {
    if (words > 1) threads = atoi(word[1]);
    if (words > 2) chunks = atoi(word[2]);
    if (words > 3) stripes = atoi(word[3]);
    pthread_t made[16];
    for (int i = 0; i < LOCKS; i++) pthread_mutex_init(&locks[i], 0);
    for (int i = 0; i < threads; i++) pthread_create(&made[i], 0, work, 0);
    pthread_mutex_lock(&out_lock);
    while (ready < chunks) pthread_cond_wait(&out_filled, &out_lock);
    pthread_mutex_unlock(&out_lock);
    for (int i = 0; i < threads; i++) pthread_join(made[i], 0);
    printf("%u\n", total);
    return 0;
}
