// What the files of this folder share. All numbers and structures are those of Linux on riscv64.
#ifndef COZ_H
#define COZ_H

#define _GNU_SOURCE
#include <errno.h>
#include <fcntl.h>
#include <signal.h>
#include <stddef.h>
#include <stdint.h>
#include <string.h>
#include <sys/stat.h>
#include <time.h>
#include "syscall.h"
#include "lock.h"

// A file that guests/coz-args put into the program.
struct coz_file {
    const char *name;
    unsigned char *bytes;
    long length;
};

// What guests/coz-args fills in: it finds this by its first bytes. `prints` names the files that are
// written to the output at the end, and `errors` the one to which standard error goes. Each is 0 in
// a program that it didn't touch.
struct coz_args {
    char mark[16];
    long *words;
    struct coz_file *files;
    long file_count;
    const char **prints;
    long print_count;
    const char *errors;
};
extern hidden struct coz_args __coz_args;

// The answer to a call: its six arguments, and where the program made it.
typedef long coz_answer(long *a);

// Ends the run as the profiler does for a call that it doesn't have, after a line that says which
// it was.
hidden _Noreturn void __coz_unsupported(long number, long *a);

// Moves the pages of an anonymous mapping of `bytes` bytes here, or returns an error below 0.
hidden long __coz_pages(long bytes);

// Waits until the 32 bits at the address aren't the value, by sleeping and looking again: 0, or
// -ETIMEDOUT.
hidden long __coz_timed_wait(volatile int *address, int value, const struct timespec *span);

// The files of the program's beginning and of its end, in files.c.
hidden void __coz_start_files(void), __coz_end_files(void);

// The calls about files and their ends, in files.c.
hidden coz_answer __coz_close, __coz_dup, __coz_dup3, __coz_fallocate, __coz_fcntl,
    __coz_fstat, __coz_fsync, __coz_ftruncate, __coz_ioctl, __coz_lseek, __coz_mmap,
    __coz_newfstatat, __coz_openat, __coz_pread64, __coz_pwrite64, __coz_read, __coz_readlinkat,
    __coz_readv, __coz_renameat, __coz_statfs, __coz_truncate, __coz_unlinkat, __coz_write,
    __coz_writev, __coz_end_exists, __coz_name_exists, __coz_fill_random;

#endif
