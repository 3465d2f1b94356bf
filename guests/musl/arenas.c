// An allocator with an arena for each thread, which coz-cc links in place of jemalloc if it is
// asked to: it is smaller, and its threads start sooner. A block has a word before it that names
// its span: some pages of one arena that are cut into blocks of one size. A thread takes from the
// spans of its own arena and gives back to them without a lock. A block of another arena goes to a
// list of that arena, which its thread looks through when it needs blocks. A thread that ends
// leaves its arena to a later one. Spans come from the heap below the break, and then, as all large
// blocks do at once, from mappings.
#define _GNU_SOURCE
#include <errno.h>
#include <limits.h>
#include <pthread.h>
#include <stdint.h>
#include <stdlib.h>
#include <string.h>
#include <sys/mman.h>
#include <unistd.h>
#include "syscall.h"

#define PAGE 4096
#define ALIGN 16
// A block's size has the word before it in it. There are classes for each 16 bytes up to 128, and
// then four for each power of 2.
#define LEAST 32
#define MOST 32768
#define CLASSES 39
#define LARGE CLASSES
// Spans of a few sizes: index 0 to 3.
#define KINDS 4

struct span {
    struct arena *arena;
    struct span *next, **back;
    void *free;
    char *fresh, *end;
    long bytes, size;
    int class, used;
    int listed, from_heap;
};

// What stands before the first block of a span, whose own word is the last of it.
#define HEAD ((sizeof(struct span) + sizeof(long) + ALIGN - 1) / ALIGN * ALIGN)

// `now` is the span of which blocks are taken, `partial` the others with free blocks. `given` are the
// blocks that other threads gave back.
struct arena {
    struct span *now[CLASSES], *partial[CLASSES];
    void *volatile given;
    struct arena *next, *next_unused;
    int in_use;
};

static __thread struct arena *mine;
static pthread_mutex_t lock = PTHREAD_MUTEX_INITIALIZER;
static struct arena *arenas, *unused;
static struct span *pool[KINDS], *large_pool;
static char *heap, *heap_end;
static const long kind_bytes[KINDS] = {2 * PAGE, 4 * PAGE, 8 * PAGE, 32 * PAGE};

static int kind_of(long size) {
    return size <= 512 ? 0 : size <= 2048 ? 1 : size <= 8192 ? 2 : 3;
}

static int class_of(long size) {
    if (size <= 128) return size / 16 - 2;
    int power = 7;
    while ((size - 1) >> power > 1) power++;
    return 7 + (power - 7) * 4 + ((size - 1) >> (power - 2) & 3);
}

static long size_of(int class) {
    if (class < 7) return (class + 2) * 16;
    return (5l + (class - 7) % 4) << (5 + (class - 7) / 4);
}

// ---- Pages, under the lock ----

// All of the heap is taken at once, so that nothing else moves the break.
static void *from_heap(long bytes) {
    if (!heap) {
        heap = (char *)__syscall(SYS_brk, 0);
        heap += -(uintptr_t)heap % PAGE;
        for (heap_end = heap + (16 << 20); heap_end > heap; heap_end -= 1 << 20)
            if ((char *)__syscall(SYS_brk, heap_end) == heap_end) break;
    }
    if (heap_end - heap < bytes) return 0;
    heap += bytes;
    return heap - bytes;
}

static struct span *from_mapping(long bytes) {
    long pages = __syscall(SYS_mmap, 0, bytes, PROT_READ | PROT_WRITE, MAP_PRIVATE | MAP_ANONYMOUS,
                           -1, 0);
    return pages < 0 ? 0 : (void *)pages;
}

static void release(struct span *span) {
    if (!span->from_heap) {
        __syscall(SYS_munmap, span, span->bytes);
        return;
    }
    struct span **to = &large_pool;
    for (int kind = 0; kind < KINDS; kind++)
        if (span->bytes == kind_bytes[kind]) to = pool + kind;
    span->next = *to;
    *to = span;
}

static struct span *first_that_fits(struct span **from, long bytes) {
    for (; *from; from = &(*from)->next)
        if ((*from)->bytes >= bytes) {
            struct span *span = *from;
            *from = span->next;
            return span;
        }
    return 0;
}

static void give_back(struct arena *arena, void *block, void (*let_go)(struct span *));

static void take_given(struct arena *arena, void (*let_go)(struct span *)) {
    void *block = __atomic_exchange_n(&arena->given, 0, __ATOMIC_ACQUIRE);
    while (block) {
        void *next = *(void **)block;
        give_back(arena, block, let_go);
        block = next;
    }
}

// Gives the spans of an arena back that have no block.
static void tidy(struct arena *arena, void (*let_go)(struct span *)) {
    take_given(arena, let_go);
    for (int class = 0; class < CLASSES; class++) {
        struct span *span = arena->now[class];
        if (span && !span->used) {
            arena->now[class] = 0;
            let_go(span);
        }
    }
}

// Pages for a span, with only its bytes and where they are from filled in. What threads that have
// ended left behind is looked through if there are none.
static struct span *pages(long bytes, int kind) {
    struct span *span = 0;
    for (int again = 0; again < 2; again++) {
        if (kind < KINDS) span = first_that_fits(pool + kind, bytes);
        if (span) return span;
        int heap_first = kind < KINDS;
        void *fresh = heap_first ? from_heap(bytes) : 0;
        int in_heap = fresh != 0;
        if (!fresh) fresh = from_mapping(bytes);
        if (!fresh && (span = first_that_fits(&large_pool, bytes))) return span;
        for (int other = kind + 1; !fresh && other < KINDS; other++)
            if ((span = first_that_fits(pool + other, bytes))) return span;
        if (!fresh && !heap_first) in_heap = (fresh = from_heap(bytes)) != 0;
        if (fresh) {
            span = fresh;
            span->bytes = bytes;
            span->from_heap = in_heap;
            return span;
        }
        for (struct arena *arena = arenas; arena; arena = arena->next)
            if (!arena->in_use) tidy(arena, release);
    }
    return 0;
}

static void release_locked(struct span *span) {
    pthread_mutex_lock(&lock);
    release(span);
    pthread_mutex_unlock(&lock);
}

// ---- Arenas ----

// Arenas are cut from pages in turn, and never given back.
static struct arena *new_arena(void) {
    static struct arena *fresh;
    static int left;
    if (!left && (fresh = (void *)pages(kind_bytes[0], 0))) left = kind_bytes[0] / sizeof *fresh;
    if (!left) return 0;
    left--;
    struct arena *arena = memset(fresh++, 0, sizeof *arena);
    arena->next = arenas;
    return arenas = arena;
}

static struct arena *enter(void) {
    pthread_mutex_lock(&lock);
    struct arena *arena = unused;
    if (arena)
        unused = arena->next_unused;
    else
        arena = new_arena();
    if (arena) arena->in_use = 1;
    pthread_mutex_unlock(&lock);
    return mine = arena;
}

// Leaves this thread's arena to a later one, when the thread ends.
void __coz_arena_leave(void) {
    struct arena *arena = mine;
    if (!arena) return;
    mine = 0;
    pthread_mutex_lock(&lock);
    tidy(arena, release);
    arena->in_use = 0;
    arena->next_unused = unused;
    unused = arena;
    pthread_mutex_unlock(&lock);
}

// ---- Blocks ----

static void list(struct span *span, struct span **at) {
    span->listed = 1;
    span->back = at;
    if ((span->next = *at)) span->next->back = &span->next;
    *at = span;
}

static void unlist(struct span *span) {
    span->listed = 0;
    if ((*span->back = span->next)) span->next->back = span->back;
}

static struct span *span_of(void *block) {
    return ((struct span **)block)[-1];
}

static void give_back(struct arena *arena, void *block, void (*let_go)(struct span *)) {
    struct span *span = span_of(block);
    *(void **)block = span->free;
    span->free = block;
    span->used--;
    if (span == arena->now[span->class]) return;
    if (!span->used) {
        if (span->listed) unlist(span);
        let_go(span);
    } else if (!span->listed) {
        list(span, arena->partial + span->class);
    }
}

static struct span *new_span(struct arena *arena, int class) {
    long size = size_of(class);
    int kind = kind_of(size);
    pthread_mutex_lock(&lock);
    struct span *span = pages(kind_bytes[kind], kind);
    pthread_mutex_unlock(&lock);
    if (!span) return 0;
    span->arena = arena;
    span->free = 0;
    span->fresh = (char *)span + HEAD;
    span->end = (char *)span + span->bytes - size + sizeof(long);
    span->size = size;
    span->class = class;
    span->used = span->listed = 0;
    return span;
}

static void *take(struct arena *arena, int class) {
    for (;;) {
        struct span *span = arena->now[class];
        if (span && span->free) {
            void *block = span->free;
            span->free = *(void **)block;
            span->used++;
            return block;
        }
        if (span && span->fresh <= span->end) {
            void *block = span->fresh;
            ((struct span **)block)[-1] = span;
            span->fresh += span->size;
            span->used++;
            return block;
        }
        if (arena->given) {
            take_given(arena, release_locked);
            if (span && span->free) continue;
        }
        if ((span = arena->partial[class]))
            unlist(span);
        else if (!(span = new_span(arena, class)))
            return 0;
        arena->now[class] = span;
    }
}

static void *take_large(size_t length) {
    long bytes = (length + HEAD + PAGE - 1) / PAGE * PAGE;
    pthread_mutex_lock(&lock);
    struct span *span = pages(bytes, KINDS);
    pthread_mutex_unlock(&lock);
    if (!span) return 0;
    void *block = (char *)span + HEAD;
    span->class = LARGE;
    ((struct span **)block)[-1] = span;
    return block;
}

// The block that an address of a caller's lies in: where it was aligned further, the word before it is
// the distance, with the lowest bit set.
static void *start_of(void *address) {
    long word = ((long *)address)[-1];
    return word & 1 ? (char *)address - (word >> 1) : address;
}

static size_t room_of(void *block) {
    struct span *span = span_of(block);
    return span->class == LARGE ? span->bytes - HEAD : span->size - sizeof(long);
}

// ---- What the C library calls ----

void *__libc_malloc_impl(size_t length) {
    struct arena *arena = mine;
    if (length > PTRDIFF_MAX / 2 || (!arena && !(arena = enter()))) {
        errno = ENOMEM;
        return 0;
    }
    long size = (length + sizeof(long) + ALIGN - 1) & -ALIGN;
    if (size < LEAST) size = LEAST;
    void *block = size <= MOST ? take(arena, class_of(size)) : take_large(length);
    if (!block) errno = ENOMEM;
    return block;
}

void __libc_free(void *address) {
    if (!address) return;
    void *block = start_of(address);
    struct span *span = span_of(block);
    int error = errno;
    if (span->class == LARGE) {
        release_locked(span);
    } else if (span->arena == mine) {
        give_back(mine, block, release_locked);
    } else {
        struct arena *arena = span->arena;
        void *first = arena->given;
        do *(void **)block = first;
        while (!__atomic_compare_exchange_n(&arena->given, &first, block, 0, __ATOMIC_RELEASE,
                                            __ATOMIC_RELAXED));
    }
    errno = error;
}

size_t malloc_usable_size(void *address) {
    if (!address) return 0;
    char *block = start_of(address);
    return room_of(block) - ((char *)address - block);
}

// A block stays where it is if the length fits and takes at least half of it. Where a large one grows,
// it gets an eighth more than is asked for.
void *__libc_realloc(void *address, size_t length) {
    if (!address) return __libc_malloc_impl(length);
    size_t room = malloc_usable_size(address);
    if (length <= room && (length >= room / 2 || room < 64)) return address;
    size_t more = length > room && length > MOST && length < SIZE_MAX / 4 ? length / 8 : 0;
    void *block = __libc_malloc_impl(length + more);
    if (!block && more) block = __libc_malloc_impl(length);
    if (!block) return length <= room ? address : 0;
    memcpy(block, address, length < room ? length : room);
    __libc_free(address);
    return block;
}

void *aligned_alloc(size_t align, size_t length) {
    if (align & (align - 1)) {
        errno = EINVAL;
        return 0;
    }
    if (length > SIZE_MAX - align) {
        errno = ENOMEM;
        return 0;
    }
    if (align <= ALIGN) return __libc_malloc_impl(length);
    char *block = __libc_malloc_impl(length + align);
    if (!block) return 0;
    char *address = (char *)(((uintptr_t)block + align - 1) & -align);
    if (address != block) ((long *)address)[-1] = (address - block) << 1 | 1;
    return address;
}

// Whether a block is all zeros, as a new mapping is.
int __malloc_allzerop(void *address) {
    struct span *span = span_of(start_of(address));
    return span->class == LARGE && !span->from_heap;
}

void __malloc_donate(char *start, char *end) {}
