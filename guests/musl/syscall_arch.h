// This file takes the place of musl's arch/riscv64/syscall_arch.h. A system call that the profiler
// answers, whatever its arguments are, is an ecall, as in musl. Any other goes to __coz_call, which
// answers it in the guest (calls.c).

#define __SYSCALL_LL_E(x) (x)
#define __SYSCALL_LL_O(x) (x)

__attribute__((__visibility__("hidden"))) long __coz_call(long, long, long, long, long, long, long);

// exit, set_tid_address, futex, nanosleep, sched_yield, rt_sigprocmask, getpid, gettid,
// brk, munmap, mremap, mprotect. Where the number isn't known as this is compiled, __coz_call finds
// out.
#define __COZ_HAS(n) \
    (__builtin_constant_p(n) && ((n) == 93 || (n) == 96 || (n) == 98 || (n) == 101 || \
                                 (n) == 124 || (n) == 135 || (n) == 172 || (n) == 178 || \
                                 (n) == 214 || (n) == 215 || (n) == 216 || (n) == 226))

// Makes the system call, whether the profiler has it or not.
static inline long __coz_ecall(long n, long a, long b, long c, long d, long e, long f) {
    register long a7 __asm__("a7") = n;
    register long a0 __asm__("a0") = a;
    register long a1 __asm__("a1") = b;
    register long a2 __asm__("a2") = c;
    register long a3 __asm__("a3") = d;
    register long a4 __asm__("a4") = e;
    register long a5 __asm__("a5") = f;
    __asm__ __volatile__("ecall\n\t"
                         : "=r"(a0)
                         : "r"(a7), "0"(a0), "r"(a1), "r"(a2), "r"(a3), "r"(a4), "r"(a5)
                         : "memory");
    return a0;
}

#define __COZ_SYSCALL(n, a, b, c, d, e, f) \
    return __COZ_HAS(n) ? __coz_ecall(n, a, b, c, d, e, f) : __coz_call(n, a, b, c, d, e, f);

static inline long __syscall0(long n) {
    __COZ_SYSCALL(n, 0, 0, 0, 0, 0, 0)
}

static inline long __syscall1(long n, long a) {
    __COZ_SYSCALL(n, a, 0, 0, 0, 0, 0)
}

static inline long __syscall2(long n, long a, long b) {
    __COZ_SYSCALL(n, a, b, 0, 0, 0, 0)
}

static inline long __syscall3(long n, long a, long b, long c) {
    __COZ_SYSCALL(n, a, b, c, 0, 0, 0)
}

static inline long __syscall4(long n, long a, long b, long c, long d) {
    __COZ_SYSCALL(n, a, b, c, d, 0, 0)
}

static inline long __syscall5(long n, long a, long b, long c, long d, long e) {
    __COZ_SYSCALL(n, a, b, c, d, e, 0)
}

static inline long __syscall6(long n, long a, long b, long c, long d, long e, long f) {
    __COZ_SYSCALL(n, a, b, c, d, e, f)
}

#define VDSO_USEFUL
#define IPC_64 0
