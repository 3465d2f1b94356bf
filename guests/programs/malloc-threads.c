/* Threads that take, move and give back blocks of memory, and hand them to each other: each block is
 * full of bytes that follow from its number, and they are looked at before it goes. What it prints
 * is the same in whichever order the threads run. The words are the number of threads and of rounds.
 */
#include <pthread.h>
#include <stdatomic.h>
#include <stdint.h>
#include <stdio.h>
#include <stdlib.h>
#include <string.h>

#define MOST 64
#define KEPT 48

struct block {
    uint32_t number, length;
    unsigned char bytes[];
};

static _Atomic(struct block *) boxes[MOST];
static atomic_ulong sum, wrong;
static int threads, rounds;

static uint32_t next(uint32_t *state) {
    *state ^= *state << 13;
    *state ^= *state >> 17;
    return *state ^= *state << 5;
}

static void fill(struct block *block, uint32_t from) {
    for (uint32_t i = from; i < block->length; i++) block->bytes[i] = block->number * 7 + i;
}

static void look(struct block *block, uint32_t length) {
    int bad = 0;
    for (uint32_t i = 0; i < length; i++)
        bad |= block->bytes[i] != (unsigned char)(block->number * 7 + i);
    if (bad) atomic_fetch_add(&wrong, 1);
}

static void give_back(struct block *block) {
    if (!block) return;
    look(block, block->length);
    atomic_fetch_add(&sum, block->number ^ block->length);
    free(block);
}

static struct block *take(uint32_t *state, uint32_t number) {
    uint32_t kind = next(state) % 64, most = kind < 40 ? 100 : kind < 60 ? 2000 : kind < 63 ? 20000 : 90000;
    uint32_t length = next(state) % most, how = next(state) % 8;
    size_t bytes = sizeof(struct block) + length, align = 16 << next(state) % 6;
    struct block *block = how == 0   ? aligned_alloc(align, (bytes + align - 1) / align * align)
                          : how == 1 ? calloc(bytes, 1)
                                     : malloc(bytes);
    if (!block) {
        puts("no memory");
        exit(1);
    }
    if ((uintptr_t)block % (how == 0 ? align : bytes < 16 ? 8 : 16)) atomic_fetch_add(&wrong, 1);
    if (how == 1)
        for (size_t i = 0; i < bytes; i++)
            if (((char *)block)[i]) atomic_fetch_add(&wrong, 1);
    block->number = number;
    block->length = length;
    fill(block, 0);
    return block;
}

static void *work(void *at) {
    int me = (int)(intptr_t)at;
    uint32_t state = 12345 + 777 * me;
    struct block *kept[KEPT] = {0};
    for (int round = 0; round < rounds; round++) {
        struct block **place = kept + next(&state) % KEPT;
        uint32_t what = next(&state) % 8;
        if (*place && what == 0) {
            uint32_t old = (*place)->length, length = next(&state) % 3000;
            struct block *moved = realloc(*place, sizeof **place + length);
            look(moved, old < length ? old : length);
            moved->length = length;
            fill(moved, old < length ? old : length);
            *place = moved;
        } else if (*place && what < 4) {
            give_back(atomic_exchange(boxes + (me + 1 + what) % threads, *place));
            *place = 0;
        } else {
            give_back(*place);
            *place = take(&state, round * MOST + me);
        }
        give_back(atomic_exchange(boxes + me, 0));
    }
    for (int i = 0; i < KEPT; i++) give_back(kept[i]);
    return 0;
}

int main(int count, char **words) {
    pthread_t made[MOST];
    threads = count > 1 ? atoi(words[1]) : 16;
    rounds = count > 2 ? atoi(words[2]) : 300;
    for (int again = 0; again < 2; again++) {
        for (int i = 0; i < threads; i++) pthread_create(made + i, 0, work, (void *)(intptr_t)i);
        for (int i = 0; i < threads; i++) pthread_join(made[i], 0);
    }
    for (int i = 0; i < threads; i++) give_back(atomic_exchange(boxes + i, 0));
    printf("%d threads, sum %lu, wrong %lu\n", threads, (unsigned long)sum, (unsigned long)wrong);
    return 0;
}
