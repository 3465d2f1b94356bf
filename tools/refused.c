/* Refuses one request for memory of a program that is run with this library before all others (LD_PRELOAD).
 * COZ_REFUSE is the number of the request that is refused, from 1 on; 0 refuses none.
 * COZ_REFUSED is a file that gets the number of requests, when the program ends. */
#define _GNU_SOURCE
#include <dlfcn.h>
#include <errno.h>
#include <stdatomic.h>
#include <stddef.h>
#include <stdio.h>
#include <stdlib.h>
#include <sys/syscall.h>
#include <unistd.h>

static atomic_ulong requests;
static unsigned long refused;

/* dlsym may ask for memory before malloc is found. */
static char early[4096];
static size_t early_used;

static void *(*next_malloc)(size_t);
static void *(*next_calloc)(size_t, size_t);
static void *(*next_realloc)(void *, size_t);
static void (*next_free)(void *);
static int (*next_posix_memalign)(void **, size_t, size_t);
static void *(*next_aligned_alloc)(size_t, size_t);

static void *early_bytes(size_t size) {
    size_t from = (early_used + 15) & ~(size_t)15;
    if (from + size > sizeof early) return NULL;
    early_used = from + size;
    return early + from;
}

static int is_early(void *p) { return (char *)p >= early && (char *)p < early + sizeof early; }

__attribute__((constructor)) static void begin(void) {
    next_malloc = dlsym(RTLD_NEXT, "malloc");
    next_calloc = dlsym(RTLD_NEXT, "calloc");
    next_realloc = dlsym(RTLD_NEXT, "realloc");
    next_free = dlsym(RTLD_NEXT, "free");
    next_posix_memalign = dlsym(RTLD_NEXT, "posix_memalign");
    next_aligned_alloc = dlsym(RTLD_NEXT, "aligned_alloc");
    const char *number = getenv("COZ_REFUSE");
    refused = number ? strtoul(number, NULL, 10) : 0;
    atomic_store(&requests, 0);
}

static void tell(void) {
    unsigned long count = atomic_load(&requests);
    const char *path = getenv("COZ_REFUSED");
    refused = 0;
    FILE *file = path ? fopen(path, "w") : NULL;
    if (file) {
        fprintf(file, "%lu\n", count);
        fclose(file);
    }
}

__attribute__((destructor)) static void end(void) { tell(); }

/* A program may end without its destructors. */
void _exit(int status) {
    tell();
    for (;;) syscall(SYS_exit_group, status);
}

static int is_refused(void) {
    return atomic_fetch_add(&requests, 1) + 1 == refused && refused != 0;
}

void *malloc(size_t size) {
    if (!next_malloc) return early_bytes(size);
    if (is_refused()) { errno = ENOMEM; return NULL; }
    return next_malloc(size);
}

void *calloc(size_t count, size_t size) {
    if (!next_calloc) return early_bytes(count * size);
    if (is_refused()) { errno = ENOMEM; return NULL; }
    return next_calloc(count, size);
}

void *realloc(void *p, size_t size) {
    if (!next_realloc) return early_bytes(size);
    if (is_refused()) { errno = ENOMEM; return NULL; }
    return next_realloc(p, size);
}

void free(void *p) {
    if (p && next_free && !is_early(p)) next_free(p);
}

int posix_memalign(void **p, size_t alignment, size_t size) {
    if (!next_posix_memalign || is_refused()) return ENOMEM;
    return next_posix_memalign(p, alignment, size);
}

void *aligned_alloc(size_t alignment, size_t size) {
    if (!next_aligned_alloc || is_refused()) { errno = ENOMEM; return NULL; }
    return next_aligned_alloc(alignment, size);
}
