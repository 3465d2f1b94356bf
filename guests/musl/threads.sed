# Edits musl's src/thread/pthread_create.c and pthread_getattr_np.c, which are under the MIT licence: a thread that ends leaves its arena and parks its hart (arenas.c, harts.c), a new thread takes a parked hart first,
# and the first thread's stack is where calls.c put it.
s/^weak_alias(dummy_0, __pthread_tsd_run_dtors);/&\nweak_alias(dummy_0, __coz_arena_leave);\nhidden void *__coz_hart_parks(pthread_t);\nhidden int __coz_hart_starts(pthread_t, int (*)(void *), void *, void *);\nhidden _Noreturn void __coz_hart_wait(void *, void *, size_t);/
s/^\t__pthread_tsd_run_dtors();/&\n\t__coz_arena_leave();/
s/^\tself->prev = self->next = self;/&\n\tvoid *hart = __coz_hart_parks(self);/
s/^\t\t__unmapself(self->map_base, self->map_size);/\t\t__coz_hart_wait(hart, self->map_base, self->map_size);/
s/^\tfor (;;) __syscall(SYS_exit, 0);/\t__coz_hart_wait(hart, 0, 0);/
s/^\tret = __clone(/\tret = __coz_hart_starts(new, c11 ? start_c11 : start, stack, args);\n\tif (ret < 0) ret = __clone(/
s/^int pthread_getattr_np/hidden int __coz_stack_of_main(pthread_attr_t *);\n\n&/
/_a_stacksize = t->stack_size;/ {
    n
    s/} else {/} else if (!__coz_stack_of_main(a)) {/
}
