// The system calls that the profiler doesn't answer, answered in the guest: one function for each,
// by number in the table at the end. Times are net times, and each answer is the same on every run.
// Files are in files.c.
#include "coz.h"
#include <limits.h>
#include <poll.h>
#include <sched.h>
#include <sys/mman.h>
#include <sys/prctl.h>
#include <sys/resource.h>
#include <sys/sysinfo.h>
#include <sys/times.h>
#include <sys/utsname.h>
#include "ksigaction.h"
#include "pthread_impl.h"

// guests/coz-cc gives this symbol the number of processors as its address.
extern hidden char __coz_cpus[];
// A mark between the program's own code, which is linked before it, and the C library's.
extern hidden char __coz_program_end[];

struct coz_args __coz_args = {.mark = "coz-args section"};

static long net_time(struct timespec *to) {
    return __coz_ecall(SYS_clock_gettime, CLOCK_MONOTONIC, (long)to, 0, 0, 0, 0);
}

// ---- The beginning ----

// The first thread's stack: a mapping, of the size that Linux gives by default.
#define STACK (8l << 20)
static char *stack_top;

// Where the first thread's stack begins: at the end of that mapping, or where it is without one.
hidden void *__coz_stack(long *stack) {
    long pages = __coz_pages(STACK);
    stack_top = (char *)((uintptr_t)stack & -16);
    if (pages > 0) stack_top = (char *)pages + STACK;
    return stack_top;
}

hidden int __coz_stack_of_main(pthread_attr_t *to) {
    to->_a_stackaddr = (uintptr_t)stack_top;
    to->_a_stacksize = STACK;
    return 1;
}

// The words with which the program begins: those of coz-args, if there are some. They lie as on a
// stack, with room for the auxiliary pairs behind the environment.
hidden long *__coz_start(long *stack) {
    long *words = __coz_args.words;
    __coz_start_files();
    if (!words) return stack;
    long *from = stack + 1 + stack[0] + 1, *to = words + 1 + words[0] + 1;
    while (*from++);
    while (*to++);
    do {
        to[0] = from[0];
        to[1] = from[1];
        to += 2;
        from += 2;
    } while (from[-2]);
    return words;
}

// ---- The end ----

static long exit_group_(long *a) {
    __coz_end_files();
    for (;;) __coz_ecall(SYS_exit_group, a[0], 0, 0, 0, 0, 0);
}

// ---- A call without an answer ----

static const char *const names[] = {
#include "names.h"
};

static char *put_number(char *end, unsigned long value, int base) {
    do *--end = "0123456789abcdef"[value % base];
    while (value /= base);
    return end;
}

static void put(const char *text) {
    __coz_ecall(SYS_write, 2, (long)text, strlen(text), 0, 0, 0);
}

// Whether this is an address of the program's own code with a call before it, so that it may be
// where a function returns to.
static int follows_call(unsigned long word) {
    extern char __executable_start[];
    if (word % 4 || word < (unsigned long)__executable_start + 4 ||
        word >= (unsigned long)__coz_program_end)
        return 0;
    unsigned before = *(unsigned *)(word - 4);
    return (before & 0xfff) == 0xef || (before & 0xfff) == 0xe7;
}

// Where the program called the C library: the first word of the stack that looks like it. A
// thread's stack ends below what it knows of itself.
static unsigned long program_address(long *stack) {
    char *from = (char *)stack, *end = (char *)__pthread_self();
    if (from <= stack_top && from > stack_top - STACK) end = stack_top;
    for (; stack < (long *)end; stack++)
        if (follows_call(*stack)) return *stack - 4;
    return 0;
}

_Noreturn void __coz_unsupported(long number, long *a) {
    char digits[24] = "", *end = digits + sizeof digits - 1;
    const char *name =
        number >= 0 && number < sizeof names / sizeof *names && names[number] ? names[number] : "?";
    put("unsupported system call ");
    put(put_number(end, number, 10));
    put(" ");
    put(name);
    put(" from 0x");
    put(put_number(end, program_address(a), 16));
    put("\n");
    __coz_ecall(number, a[0], a[1], a[2], a[3], a[4], a[5]);
    for (;;) __coz_ecall(SYS_exit_group, 127, 0, 0, 0, 0, 0);
}

// ---- Times ----

static long clock_gettime_(long *a) {
    if ((unsigned long)a[0] > CLOCK_TAI) return -EINVAL;
    return net_time((void *)a[1]);
}

static long clock_getres_(long *a) {
    if ((unsigned long)a[0] > CLOCK_TAI) return -EINVAL;
    if (a[1]) *(struct timespec *)a[1] = (struct timespec){.tv_nsec = 1};
    return 0;
}

static long clock_nanosleep_(long *a) {
    struct timespec now, span = *(struct timespec *)a[2];
    if (a[1] & TIMER_ABSTIME) {
        net_time(&now);
        span.tv_sec -= now.tv_sec;
        if ((span.tv_nsec -= now.tv_nsec) < 0) {
            span.tv_sec--;
            span.tv_nsec += 1000000000;
        }
        if (span.tv_sec < 0) return 0;
    }
    return __coz_ecall(SYS_nanosleep, (long)&span, 0, 0, 0, 0, 0);
}

static long gettimeofday_(long *a) {
    struct timespec now;
    net_time(&now);
    if (a[0]) *(struct timeval *)a[0] = (struct timeval){now.tv_sec, now.tv_nsec / 1000};
    return 0;
}

static long times_(long *a) {
    struct timespec now;
    net_time(&now);
    long ticks = now.tv_sec * 100 + now.tv_nsec / 10000000;
    if (a[0]) *(struct tms *)a[0] = (struct tms){.tms_utime = ticks};
    return ticks;
}

static long getrusage_(long *a) {
    struct timespec now;
    net_time(&now);
    long *usage = memset((void *)a[1], 0, 16 * sizeof(long));
    usage[0] = now.tv_sec;
    usage[1] = now.tv_nsec / 1000;
    return 0;
}

#define FIRST_STEP 1000
#define LONGEST_STEP 100000

long __coz_timed_wait(volatile int *address, int value, const struct timespec *span) {
    long left = span->tv_sec > 100000 ? 100000000000000 : span->tv_sec * 1000000000 + span->tv_nsec;
    for (long step = FIRST_STEP; *address == value;
         step = step < LONGEST_STEP / 2 ? 2 * step : LONGEST_STEP) {
        if (left <= 0) return -ETIMEDOUT;
        if (step > left) step = left;
        __coz_ecall(SYS_nanosleep, (long)&(struct timespec){.tv_nsec = step}, 0, 0, 0, 0, 0);
        left -= step;
    }
    return 0;
}

// Waits that may be cancelled come here, and what a program asks for by syscall(): waits with a
// time-out are made here, a requeue wakes those that it would move, and a bitset has to be full. A
// wait stays private if it is, since a kernel wakes only those who agree in this.
static long futex_(long *a) {
    int operation = a[1] & 127, wait = operation == 0 || operation == 9;
    int private = a[1] & FUTEX_PRIVATE;
    if (operation == 9 || operation == 10) {
        if ((int)a[5] != -1) __coz_unsupported(SYS_futex, a);
        operation -= 9;
    }
    if (wait && a[3]) {
        struct timespec span = *(struct timespec *)a[3], now;
        if (a[1] & 127) {
            net_time(&now);
            long left = (span.tv_sec - now.tv_sec) * 1000000000 + span.tv_nsec - now.tv_nsec;
            span = (struct timespec){left < 0 ? 0 : left / 1000000000,
                                     left < 0 ? 0 : left % 1000000000};
        }
        return *(volatile int *)a[0] == (int)a[2] ? __coz_timed_wait((void *)a[0], a[2], &span)
                                                  : -EAGAIN;
    }
    if (operation == 3 || operation == 4) {
        if (operation == 4 && *(volatile int *)a[0] != (int)a[5]) return -EAGAIN;
        long count = (long)(int)a[2] + (int)a[3];
        return __coz_ecall(SYS_futex, a[0], 1 | private, count > INT_MAX ? INT_MAX : count, 0, 0, 0);
    }
    if (operation > 1) __coz_unsupported(SYS_futex, a);
    return __coz_ecall(SYS_futex, a[0], operation | private, a[2], 0, 0, 0);
}

// ---- Signals: none but those that the program sends to itself ----

static struct k_sigaction actions[_NSIG];
static volatile int raised;

static long rt_sigaction_(long *a) {
    if (a[0] < 1 || a[0] >= _NSIG) return -EINVAL;
    struct k_sigaction new = {0};
    if (a[1]) new = *(struct k_sigaction *)a[1];
    if (a[2]) *(struct k_sigaction *)a[2] = actions[a[0]];
    if (a[1]) actions[a[0]] = new;
    return 0;
}

// Signals for which a thread waits by sigwait, or has once waited, as a set of bits, and those of them
// that were sent and not yet taken.
static volatile uint64_t awaited, pending;
static volatile int sent;

static uint64_t bit_of(long number) {
    return number > 0 && number <= 64 ? 1ul << (number - 1) : 0;
}

static long rt_sigtimedwait_(long *a) {
    uint64_t set = *(uint64_t *)a[0];
    siginfo_t *about = (void *)a[1];
    __atomic_or_fetch(&awaited, set, __ATOMIC_SEQ_CST);
    for (;;) {
        int seen = sent;
        uint64_t here = pending & set, one = here & -here;
        if (one && __atomic_fetch_and(&pending, ~one, __ATOMIC_SEQ_CST) & one) {
            int number = a_ctz_64(one) + 1;
            if (about) memset(about, 0, sizeof *about);
            if (about) about->si_signo = number;
            return number;
        }
        if (one) continue;
        if (!a[2])
            __coz_ecall(SYS_futex, (long)&sent, FUTEX_WAIT | FUTEX_PRIVATE, seen, 0, 0, 0);
        else if (__coz_timed_wait(&sent, seen, (void *)a[2]))
            return -EAGAIN;
    }
}

// A signal to the program itself waits for those that wait for it, runs its handler at once, in the
// thread that sends it, is ignored, or ends the run with the status that a shell would show.
static long raise_here(long number) {
    if (number < 0 || number >= _NSIG) return -EINVAL;
    void (*handler)(int) = actions[number].handler;
    if (awaited & bit_of(number)) {
        __atomic_or_fetch(&pending, bit_of(number), __ATOMIC_SEQ_CST);
        a_inc(&sent);
        __wake(&sent, -1, 1);
        return 0;
    }
    if (number == 0 || number == SIGCANCEL || handler == SIG_IGN) return 0;
    if (handler == SIG_DFL) {
        if (number == SIGCHLD || number == SIGCONT || number == SIGURG || number == SIGWINCH)
            return 0;
        exit_group_((long[]){128 + number});
    }
    handler(number);
    a_inc(&raised);
    __wake(&raised, -1, 1);
    return 0;
}

// Waits for a handler that has run since the last such wait.
static long rt_sigsuspend_(long *a) {
    static volatile int seen;
    while (raised == seen)
        __coz_ecall(SYS_futex, (long)&raised, FUTEX_WAIT | FUTEX_PRIVATE, seen, 0, 0, 0);
    seen = raised;
    return -EINTR;
}

static long kill_(long *a) {
    return a[0] == 1 || a[0] == 0 ? raise_here(a[1]) : -ESRCH;
}

static long tkill_(long *a) {
    return raise_here(a[1]);
}

static long tgkill_(long *a) {
    return raise_here(a[2]);
}

static long rt_sigpending_(long *a) {
    memset((void *)a[0], 0, a[1]);
    return 0;
}

// ---- Processors and threads ----

static long sched_getaffinity_(long *a) {
    long count = (long)__coz_cpus, bytes = (count + 63) / 64 * 8;
    if (a[1] < bytes) return -EINVAL;
    unsigned char *mask = memset((void *)a[2], 0, bytes);
    for (long i = 0; i < count; i++) mask[i / 8] |= 1 << i % 8;
    return bytes;
}

static long sched_getparam_(long *a) {
    *(int *)a[1] = 0;
    return 0;
}

static long getcpu_(long *a) {
    if (a[0]) *(unsigned *)a[0] = 0;
    if (a[1]) *(unsigned *)a[1] = 0;
    return 0;
}

static long clone_(long *a) {
    if (!(a[0] & CLONE_THREAD)) __coz_unsupported(SYS_clone, a);
    return __coz_ecall(SYS_clone, a[0], a[1], a[2], a[3], a[4], 0);
}

// Where __clone makes something other than a thread, as posix_spawn does: clone.s goes here.
hidden void __coz_no_process(long flags) {
    __coz_unsupported(SYS_clone, (long[6]){flags});
}

// ---- Who and where ----

#define USER 1000

static long user_(long *a) {
    return USER;
}

static long users_(long *a) {
    for (int i = 0; i < 3; i++) *(unsigned *)a[i] = USER;
    return 0;
}

static long uname_(long *a) {
    struct utsname *to = memset((void *)a[0], 0, sizeof *to);
    strcpy(to->sysname, "Linux");
    strcpy(to->nodename, "coz");
    strcpy(to->release, "6.1.0");
    strcpy(to->version, "#1");
    strcpy(to->machine, "riscv64");
    return 0;
}

#define MEMORY (64l << 20)

static long sysinfo_(long *a) {
    struct timespec now;
    net_time(&now);
    struct sysinfo *to = memset((void *)a[0], 0, sizeof *to);
    to->uptime = now.tv_sec;
    to->totalram = MEMORY;
    to->freeram = MEMORY / 2;
    to->procs = 1;
    to->mem_unit = 1;
    return 0;
}

static void put_limit(long which, struct rlimit *to) {
    rlim_t limit = which == RLIMIT_STACK    ? STACK
                   : which == RLIMIT_NOFILE ? 1024
                   : which == RLIMIT_CORE   ? 0
                                            : RLIM_INFINITY;
    *to = (struct rlimit){limit, limit};
}

static long prlimit64_(long *a) {
    if ((unsigned long)a[1] >= RLIM_NLIMITS) return -EINVAL;
    if (a[3]) put_limit(a[1], (void *)a[3]);
    return 0;
}

static long getrlimit_(long *a) {
    return prlimit64_((long[]){0, a[0], 0, a[1]});
}

static long getcwd_(long *a) {
    if (a[1] < 2) return -ERANGE;
    strcpy((void *)a[0], "/");
    return 2;
}

static long chdir_(long *a) {
    const char *to = (void *)a[0];
    return strcmp(to, "/") && strcmp(to, ".") && strcmp(to, "./") ? -ENOENT : 0;
}

static long umask_(long *a) {
    return 022;
}

static long prctl_(long *a) {
    if (a[0] == PR_GET_NAME) strcpy((void *)a[1], "prog");
    return a[0] == PR_SET_NAME || a[0] == PR_GET_NAME ? 0 : -EINVAL;
}

static long madvise_(long *a) {
    return a[2] == MADV_DONTNEED ? __coz_ecall(SYS_madvise, a[0], a[1], a[2], 0, 0, 0) : 0;
}

static long getrandom_(long *a) {
    return __coz_fill_random(a);
}

// ---- Waiting for ends: all are ready at once ----

static long ppoll_(long *a) {
    struct pollfd *ends = (void *)a[0];
    long ready = 0;
    for (long i = 0; i < a[1]; i++) {
        ends[i].revents = 0;
        if (ends[i].fd < 0) continue;
        ends[i].revents =
            __coz_end_exists((long[]){ends[i].fd}) ? ends[i].events & (POLLIN | POLLOUT) : POLLNVAL;
        ready += ends[i].revents != 0;
    }
    if (ready) return ready;
    if (!a[2]) __coz_unsupported(SYS_ppoll, a);
    return __coz_ecall(SYS_nanosleep, a[2], 0, 0, 0, 0, 0);
}

static long pselect6_(long *a) {
    long ready = 0;
    for (int set = 1; set <= 3; set++)
        for (long i = 0; a[set] && i < a[0]; i++) {
            unsigned char *byte = (unsigned char *)a[set] + i / 8;
            if (set == 3) *byte &= ~(1 << i % 8);
            ready += *byte >> i % 8 & 1;
        }
    if (ready) return ready;
    if (!a[4]) __coz_unsupported(SYS_pselect6, a);
    return __coz_ecall(SYS_nanosleep, a[4], 0, 0, 0, 0, 0);
}

// ---- One answer for many ----

static long zero(long *a) {
    return 0;
}

static long one(long *a) {
    return 1;
}

static long not_permitted(long *a) {
    return -EPERM;
}

static long no_child(long *a) {
    return -ECHILD;
}

static long not_there(long *a) {
    return -ENOSYS;
}

static long invalid(long *a) {
    return -EINVAL;
}

static long normal_priority(long *a) {
    return 20;
}

// The profiler answers these whatever their arguments are. With the first two, musl doesn't come
// here.
#define OF_COZ(number) \
    number == SYS_exit || number == SYS_set_tid_address || number == SYS_nanosleep || \
        number == SYS_sched_yield || number == SYS_rt_sigprocmask || number == SYS_getpid || \
        number == SYS_gettid || number == SYS_brk || number == SYS_munmap || \
        number == SYS_mremap || number == SYS_mprotect || number == SYS_pipe2

static coz_answer *const answers[] = {
    [SYS_getcwd] = getcwd_,
    [SYS_dup] = __coz_dup,
    [SYS_dup3] = __coz_dup3,
    [SYS_fcntl] = __coz_fcntl,
    [SYS_ioctl] = __coz_ioctl,
    [SYS_flock] = zero,
    [SYS_mkdirat] = zero,
    [SYS_unlinkat] = __coz_unlinkat,
    [SYS_renameat2] = __coz_renameat,
    [SYS_statfs] = __coz_statfs,
    [SYS_fstatfs] = __coz_statfs,
    [SYS_truncate] = __coz_truncate,
    [SYS_ftruncate] = __coz_ftruncate,
    [SYS_fallocate] = __coz_fallocate,
    [SYS_faccessat] = __coz_name_exists,
    [SYS_faccessat2] = __coz_name_exists,
    [SYS_chdir] = chdir_,
    [SYS_fchmod] = __coz_end_exists,
    [SYS_fchmodat] = __coz_name_exists,
    [SYS_fchownat] = __coz_name_exists,
    [SYS_fchown] = __coz_end_exists,
    [SYS_openat] = __coz_openat,
    [SYS_close] = __coz_close,
    [SYS_lseek] = __coz_lseek,
    [SYS_read] = __coz_read,
    [SYS_write] = __coz_write,
    [SYS_readv] = __coz_readv,
    [SYS_writev] = __coz_writev,
    [SYS_pread64] = __coz_pread64,
    [SYS_pwrite64] = __coz_pwrite64,
    [SYS_sendfile] = invalid,
    [SYS_splice] = invalid,
    [SYS_pselect6] = pselect6_,
    [SYS_ppoll] = ppoll_,
    [SYS_readlinkat] = __coz_readlinkat,
    [SYS_newfstatat] = __coz_newfstatat,
    [SYS_fstat] = __coz_fstat,
    [SYS_statx] = not_there,
    [SYS_sync] = zero,
    [SYS_fsync] = __coz_fsync,
    [SYS_fdatasync] = __coz_fsync,
    [SYS_utimensat] = zero,
    [SYS_waitid] = no_child,
    [SYS_exit_group] = exit_group_,
    [SYS_futex] = futex_,
    [SYS_set_robust_list] = zero,
    [SYS_setitimer] = zero,
    [SYS_clock_settime] = not_permitted,
    [SYS_clock_gettime] = clock_gettime_,
    [SYS_clock_getres] = clock_getres_,
    [SYS_clock_nanosleep] = clock_nanosleep_,
    [SYS_sched_setparam] = zero,
    [SYS_sched_setscheduler] = zero,
    [SYS_sched_getscheduler] = zero,
    [SYS_sched_getparam] = sched_getparam_,
    [SYS_sched_setaffinity] = zero,
    [SYS_sched_getaffinity] = sched_getaffinity_,
    [SYS_sched_get_priority_max] = zero,
    [SYS_sched_get_priority_min] = zero,
    [SYS_kill] = kill_,
    [SYS_tkill] = tkill_,
    [SYS_tgkill] = tgkill_,
    [SYS_sigaltstack] = zero,
    [SYS_rt_sigsuspend] = rt_sigsuspend_,
    [SYS_rt_sigaction] = rt_sigaction_,
    [SYS_rt_sigpending] = rt_sigpending_,
    [SYS_rt_sigtimedwait] = rt_sigtimedwait_,
    [SYS_setpriority] = zero,
    [SYS_getpriority] = normal_priority,
    [SYS_setgid] = zero,
    [SYS_setuid] = zero,
    [SYS_getresuid] = users_,
    [SYS_getresgid] = users_,
    [SYS_times] = times_,
    [SYS_getpgid] = one,
    [SYS_getsid] = one,
    [SYS_getgroups] = zero,
    [SYS_uname] = uname_,
    [SYS_getrlimit] = getrlimit_,
    [SYS_setrlimit] = zero,
    [SYS_getrusage] = getrusage_,
    [SYS_umask] = umask_,
    [SYS_prctl] = prctl_,
    [SYS_getcpu] = getcpu_,
    [SYS_msgget] = not_there,
    [SYS_semget] = not_there,
    [SYS_shmget] = not_there,
    [SYS_gettimeofday] = gettimeofday_,
    [SYS_getppid] = zero,
    [SYS_getuid] = user_,
    [SYS_geteuid] = user_,
    [SYS_getgid] = user_,
    [SYS_getegid] = user_,
    [SYS_sysinfo] = sysinfo_,
    [SYS_clone] = clone_,
    [SYS_mmap] = __coz_mmap,
    [SYS_fadvise64] = zero,
    [SYS_readahead] = zero,
    [SYS_msync] = zero,
    [SYS_mlock] = zero,
    [SYS_munlock] = zero,
    [SYS_mlockall] = zero,
    [SYS_munlockall] = zero,
    [SYS_madvise] = madvise_,
    [SYS_riscv_flush_icache] = zero,
    [SYS_wait4] = no_child,
    [SYS_prlimit64] = prlimit64_,
    [SYS_getrandom] = getrandom_,
    [SYS_membarrier] = zero,
};

long __coz_call(long number, long a, long b, long c, long d, long e, long f) {
    long arguments[6] = {a, b, c, d, e, f};
    if (OF_COZ(number)) return __coz_ecall(number, a, b, c, d, e, f);
    if (number < 0 || number >= sizeof answers / sizeof *answers || !answers[number])
        __coz_unsupported(number, arguments);
    return answers[number](arguments);
}
