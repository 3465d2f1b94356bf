// A thread that ends parks its hart, which waits for the next pthread_create: the profiler has 256
// harts in all, and so a program may have 256 threads at a time and any number in turn. The calls
// here are made under the lock of the list of threads. hart.s has what runs without a stack.
#include "pthread_impl.h"

#define MOST_HARTS 256

// A hart that is or was parked. `turn` is 0 while it waits. hart.s knows the first four by place.
struct hart {
    volatile int turn;
    int tid;
    void *stack, *thread;
    int (*start)(void *);
    void *argument;
    struct hart *next;
};

static struct hart harts[MOST_HARTS], *parked;
static int made;
// That of this thread, if it was parked before.
static __thread struct hart *mine;

// Lists the hart of a thread that ends, before it waits: the lock is let go by __coz_hart_wait. Null
// if the hart ends with its thread.
void *__coz_hart_parks(pthread_t self) {
    struct hart *hart = mine;
    if (!hart && made < MOST_HARTS) hart = harts + made++;
    if (!hart) return 0;
    hart->turn = 0;
    hart->tid = self->tid;
    hart->next = parked;
    return parked = hart;
}

// Where a hart goes on that had waited, as the new thread.
hidden int __coz_hart_begins(struct hart *hart) {
    mine = hart;
    return hart->start(hart->argument);
}

// Starts a thread on a parked hart, and returns its number, or -1 if no hart is parked.
int __coz_hart_starts(pthread_t new, int (*start)(void *), void *stack, void *argument) {
    struct hart *hart = parked;
    if (!hart) return -1;
    parked = hart->next;
    new->tid = hart->tid;
    hart->stack = (void *)((uintptr_t)stack & -16);
    hart->thread = TP_ADJ(new);
    hart->start = start;
    hart->argument = argument;
    a_store(&hart->turn, 1);
    __wake(&hart->turn, 1, 1);
    return hart->tid;
}
