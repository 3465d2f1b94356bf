// Files of the guest: those that guests/coz-args put into the program, and those that the program
// makes. All live in memory until it ends, and can be written, removed and renamed. Their ends have
// numbers from 1,000 on; 0 to 2 are the profiler's, as those of pipes are.
#include "coz.h"
#include <fcntl.h>
#include <stdio.h>
#include <sys/ioctl.h>
#include <sys/mman.h>
#include <sys/statfs.h>
#include <sys/uio.h>
#include "kstat.h"

#define MOST_FILES 256
#define MOST_ENDS 256
#define FIRST_END 1000
#define PAGE 4096
#define LONGEST_NAME 256

// Bytes with a name. A file that was removed has none, and keeps its bytes for the ends that are
// open. Those of coz-args have their bytes in the program and no room; where one grows, its bytes
// are moved.
struct file {
    char name[LONGEST_NAME];
    unsigned char *bytes;
    long length, room;
    char used;
};

// Where bytes come from and go to: a file, an end of the profiler's, nothing at all, or a fixed
// generator of bytes.
enum kind { OF_FILE, OF_COZ, OF_NULL, OF_RANDOM };

// What dup shares: a kind, and for a file its place and how it was opened.
struct opened {
    enum kind kind;
    struct file *file;
    long place;
    int flags, number, users;
};

static struct file files[MOST_FILES];
static struct opened opened[MOST_ENDS];
static struct opened *ends[MOST_ENDS], *standard[3];
static int file_count = -1;
static volatile int lock[1];

// ---- Pages and random bytes ----

long __coz_pages(long bytes) {
    return __coz_ecall(SYS_mmap, 0, bytes, PROT_READ | PROT_WRITE, MAP_PRIVATE | MAP_ANONYMOUS, -1,
                       0);
}

long __coz_fill_random(long *a) {
    static uint64_t state = 0x636f7a;
    unsigned char *to = (void *)a[0];
    LOCK(lock);
    for (long i = 0; i < a[1]; i++) {
        state = state * 6364136223846793005 + 1442695040888963407;
        to[i] = state >> 33;
    }
    UNLOCK(lock);
    return a[1];
}

// ---- Names ----

// The folder is /, so that leading / and ./ change nothing.
static const char *plain(const char *name) {
    while (*name == '/' || (*name == '.' && name[1] == '/')) name++;
    return name;
}

static void take_files(void) {
    if (file_count >= 0) return;
    file_count = 0;
    for (long i = 0; i < __coz_args.file_count && i < MOST_FILES; i++) {
        struct coz_file *from = __coz_args.files + i;
        struct file *to = files + file_count++;
        strlcpy(to->name, plain(from->name), sizeof to->name);
        to->bytes = from->bytes;
        to->length = from->length;
        to->used = 1;
    }
}

static struct file *find(const char *name) {
    name = plain(name);
    take_files();
    for (int i = 0; i < file_count; i++)
        if (files[i].used && *files[i].name && !strcmp(files[i].name, name)) return files + i;
    return 0;
}

// Whether it is the folder, or one in which a file has its name.
static int is_folder(const char *name) {
    if (!*name) return 0;
    name = plain(name);
    size_t length = strlen(name);
    while (length && name[length - 1] == '/') length--;
    if (!length || (length == 1 && *name == '.')) return 1;
    take_files();
    for (int i = 0; i < file_count; i++)
        if (files[i].used && !strncmp(files[i].name, name, length) && files[i].name[length] == '/')
            return 1;
    return 0;
}

static enum kind device(const char *name, int *number) {
    static const char *const names[] = {"/dev/stdin", "/dev/stdout", "/dev/stderr"};
    for (*number = 0; *number < 3; ++*number)
        if (!strcmp(name, names[*number])) return OF_COZ;
    if (!strcmp(name, "/dev/null")) return OF_NULL;
    return strcmp(name, "/dev/urandom") && strcmp(name, "/dev/random") ? OF_FILE : OF_RANDOM;
}

// ---- Ends ----

// What an end is open as, or null if it is the profiler's own or isn't open.
static struct opened *at(long end) {
    if (end >= 0 && end < 3) return standard[end];
    return end >= FIRST_END && end < FIRST_END + MOST_ENDS ? ends[end - FIRST_END] : 0;
}

static int of_coz(long end) {
    return end >= 0 && end < FIRST_END && !at(end);
}

// The end of the profiler's that is meant, or -1.
static long coz_number(long end) {
    struct opened *o = at(end);
    return of_coz(end) ? end : o && o->kind == OF_COZ ? o->number : -1;
}

static long put_end(struct opened *o, long from) {
    for (long i = from < FIRST_END ? 0 : from - FIRST_END; i < MOST_ENDS; i++)
        if (!ends[i]) {
            ends[i] = o;
            o->users++;
            return FIRST_END + i;
        }
    return -EMFILE;
}

static struct opened *new_opened(void) {
    for (int i = 0; i < MOST_ENDS; i++)
        if (!opened[i].users) {
            opened[i] = (struct opened){0};
            return opened + i;
        }
    return 0;
}

static void let_go(struct opened *o) {
    if (--o->users || o->kind != OF_FILE || *o->file->name) return;
    for (int i = 0; i < MOST_ENDS; i++)
        if (opened[i].users && opened[i].kind == OF_FILE && opened[i].file == o->file) return;
    if (o->file->room) __coz_ecall(SYS_munmap, (long)o->file->bytes, o->file->room, 0, 0, 0, 0);
    *o->file = (struct file){0};
}

static struct file *new_file(const char *name) {
    name = plain(name);
    if (strlen(name) >= LONGEST_NAME) return 0;
    int i = 0;
    while (i < file_count && files[i].used) i++;
    if (i == MOST_FILES) return 0;
    if (i == file_count) file_count++;
    files[i] = (struct file){.used = 1};
    strcpy(files[i].name, name);
    return files + i;
}

static long open_file(struct opened *o, const char *name, int flags) {
    int writes = (flags & O_ACCMODE) != O_RDONLY;
    struct file *file = find(name);
    if (file && (flags & O_CREAT) && (flags & O_EXCL)) return -EEXIST;
    if (!file && is_folder(name)) return writes ? -EISDIR : -EACCES;
    if (file && (flags & O_DIRECTORY)) return -ENOTDIR;
    if (!file && !(flags & O_CREAT)) return -ENOENT;
    if (!file && !(file = new_file(name))) return -ENOSPC;
    if (writes && (flags & O_TRUNC)) file->length = 0;
    o->file = file;
    return 0;
}

long __coz_openat(long *a) {
    const char *name = (void *)a[1];
    int number;
    LOCK(lock);
    struct opened *o = new_opened();
    long end = o ? 0 : -EMFILE;
    if (o) {
        o->kind = device(name, &number);
        o->number = number;
        o->flags = a[2] & ~(O_CREAT | O_EXCL | O_TRUNC | O_CLOEXEC);
        if (o->kind == OF_FILE) end = open_file(o, name, a[2]);
        if (end == 0) end = put_end(o, FIRST_END);
    }
    UNLOCK(lock);
    return end;
}

long __coz_close(long *a) {
    long end = a[0];
    LOCK(lock);
    struct opened *o = at(end);
    if (o && end < 3)
        standard[end] = 0;
    else if (o)
        ends[end - FIRST_END] = 0;
    if (o) let_go(o);
    UNLOCK(lock);
    if (o || (end >= 0 && end < 3)) return 0;
    return end >= 0 && end < FIRST_END ? __coz_ecall(SYS_close, end, 0, 0, 0, 0, 0) : -EBADF;
}

// What an end is open as. An end of the profiler's own gets an entry, if it has none.
static struct opened *shared(long end) {
    struct opened *o = at(end);
    if (o || end < 0 || end > 2 || !(o = new_opened())) return o;
    *o = (struct opened){.kind = OF_COZ, .number = end, .flags = end ? O_WRONLY : O_RDONLY};
    return o;
}

static long dup_from(long end, long from) {
    LOCK(lock);
    struct opened *o = shared(end);
    long other = o ? put_end(o, from) : -EBADF;
    UNLOCK(lock);
    return other;
}

long __coz_dup(long *a) {
    return dup_from(a[0], FIRST_END);
}

long __coz_dup3(long *a) {
    long to = a[1];
    if (a[0] == to) return -EINVAL;
    if (to < 0 || (to > 2 && to < FIRST_END) || to >= FIRST_END + MOST_ENDS) return -EBADF;
    LOCK(lock);
    struct opened *o = shared(a[0]), **place = to < 3 ? standard + to : ends + (to - FIRST_END);
    if (o && o != *place) {
        o->users++;
        if (*place) let_go(*place);
        *place = o;
    }
    UNLOCK(lock);
    return o ? to : -EBADF;
}

long __coz_fcntl(long *a) {
    struct opened *o = at(a[0]);
    if (!o && !of_coz(a[0])) return -EBADF;
    switch (a[1]) {
    case F_DUPFD:
    case F_DUPFD_CLOEXEC:
        return dup_from(a[0], a[2]);
    case F_GETFL:
        return o ? o->flags : a[0] == 0 ? O_RDONLY : O_WRONLY;
    case F_GETLK:
        ((struct flock *)a[2])->l_type = F_UNLCK;
    case F_GETFD:
    case F_SETFD:
    case F_SETFL:
    case F_SETLK:
    case F_SETLKW:
        return 0;
    }
    return -EINVAL;
}

long __coz_end_exists(long *a) {
    return at(a[0]) || of_coz(a[0]) ? 0 : -EBADF;
}

long __coz_ioctl(long *a) {
    long number = coz_number(a[0]);
    if (number >= 0) return __coz_ecall(SYS_ioctl, number, a[1], a[2], 0, 0, 0);
    return at(a[0]) ? -ENOTTY : -EBADF;
}

// ---- Reading and writing ----

static long make_room(struct file *file, long length) {
    if (length <= file->room) return 0;
    long room = 2 * file->room > length ? 2 * file->room : (length + PAGE - 1) / PAGE * PAGE;
    long pages = __coz_pages(room);
    if (pages < 0) return -ENOSPC;
    memcpy((void *)pages, file->bytes, file->length);
    if (file->room) __coz_ecall(SYS_munmap, (long)file->bytes, file->room, 0, 0, 0, 0);
    file->bytes = (void *)pages;
    file->room = room;
    return 0;
}

static long set_length(struct file *file, long length) {
    if (length < 0) return -EINVAL;
    if (length > file->length && make_room(file, length)) return -ENOSPC;
    if (length > file->length) memset(file->bytes + file->length, 0, length - file->length);
    file->length = length;
    return 0;
}

static long read_at(struct file *file, void *to, long count, long place) {
    if (place >= file->length) return 0;
    if (count > file->length - place) count = file->length - place;
    memcpy(to, file->bytes + place, count);
    return count;
}

static long write_at(struct file *file, const void *from, long count, long place) {
    if (place + count > file->length) {
        long length = file->length, error = set_length(file, place + count);
        if (error) return error;
        if (place < length) length = place;
    }
    memcpy(file->bytes + place, from, count);
    return count;
}

static long read_opened(struct opened *o, void *to, long count) {
    if (o->kind == OF_NULL) return 0;
    if (o->kind == OF_RANDOM) return __coz_fill_random((long[]){(long)to, count});
    if ((o->flags & O_ACCMODE) == O_WRONLY) return -EBADF;
    LOCK(lock);
    long done = read_at(o->file, to, count, o->place);
    o->place += done;
    UNLOCK(lock);
    return done;
}

static long write_opened(struct opened *o, const void *from, long count) {
    if (o->kind != OF_FILE) return count;
    if ((o->flags & O_ACCMODE) == O_RDONLY) return -EBADF;
    LOCK(lock);
    if (o->flags & O_APPEND) o->place = o->file->length;
    long done = write_at(o->file, from, count, o->place);
    if (done > 0) o->place += done;
    UNLOCK(lock);
    return done;
}

// One of the calls with one part or several, of an end of the profiler's or of the guest's.
static long transfer(long call, long *a, int writes, const struct iovec *parts, long count) {
    long number = coz_number(a[0]), all = 0;
    if (number >= 0) return __coz_ecall(call, number, a[1], a[2], 0, 0, 0);
    struct opened *o = at(a[0]);
    if (!o) return -EBADF;
    for (long i = 0; i < count; i++) {
        void *base = parts[i].iov_base;
        long length = parts[i].iov_len,
             done = writes ? write_opened(o, base, length) : read_opened(o, base, length);
        if (done < 0) return all ? all : done;
        all += done;
        if (done < length) break;
    }
    return all;
}

long __coz_read(long *a) {
    return transfer(SYS_read, a, 0, &(struct iovec){(void *)a[1], a[2]}, 1);
}

long __coz_write(long *a) {
    return transfer(SYS_write, a, 1, &(struct iovec){(void *)a[1], a[2]}, 1);
}

long __coz_readv(long *a) {
    return transfer(SYS_readv, a, 0, (void *)a[1], a[2]);
}

long __coz_writev(long *a) {
    return transfer(SYS_writev, a, 1, (void *)a[1], a[2]);
}

long __coz_pread64(long *a) {
    struct opened *o = at(a[0]);
    if (!o || o->kind != OF_FILE) return o || of_coz(a[0]) ? -ESPIPE : -EBADF;
    LOCK(lock);
    long done = a[3] < 0 ? -EINVAL : read_at(o->file, (void *)a[1], a[2], a[3]);
    UNLOCK(lock);
    return done;
}

long __coz_pwrite64(long *a) {
    struct opened *o = at(a[0]);
    if (!o || o->kind != OF_FILE) return o || of_coz(a[0]) ? -ESPIPE : -EBADF;
    if ((o->flags & O_ACCMODE) == O_RDONLY) return -EBADF;
    LOCK(lock);
    long done = a[3] < 0 ? -EINVAL : write_at(o->file, (void *)a[1], a[2], a[3]);
    UNLOCK(lock);
    return done;
}

long __coz_lseek(long *a) {
    struct opened *o = at(a[0]);
    if (!o) return of_coz(a[0]) ? __coz_ecall(SYS_lseek, a[0], a[1], a[2], 0, 0, 0) : -EBADF;
    if (o->kind != OF_FILE) return o->kind == OF_COZ ? -ESPIPE : 0;
    long place = a[1] + (a[2] == SEEK_CUR ? o->place : a[2] == SEEK_END ? o->file->length : 0);
    if ((unsigned long)a[2] > SEEK_END || place < 0) return -EINVAL;
    return o->place = place;
}

long __coz_ftruncate(long *a) {
    struct opened *o = at(a[0]);
    if (!o || o->kind != OF_FILE) return o || of_coz(a[0]) ? -EINVAL : -EBADF;
    LOCK(lock);
    long error = set_length(o->file, a[1]);
    UNLOCK(lock);
    return error;
}

long __coz_truncate(long *a) {
    LOCK(lock);
    struct file *file = find((void *)a[0]);
    long error = file ? set_length(file, a[1]) : -ENOENT;
    UNLOCK(lock);
    return error;
}

long __coz_fallocate(long *a) {
    return -EOPNOTSUPP;
}

long __coz_fsync(long *a) {
    struct opened *o = at(a[0]);
    return o && o->kind == OF_FILE ? 0 : o || of_coz(a[0]) ? -EINVAL : -EBADF;
}

// A mapping of a file is a copy of its bytes, so that one that writes back is refused.
long __coz_mmap(long *a) {
    if (a[3] & MAP_FIXED) __coz_unsupported(SYS_mmap, a);
    if (a[3] & MAP_ANONYMOUS)
        return __coz_ecall(SYS_mmap, 0, a[1], a[2], a[3] & (MAP_TYPE | MAP_ANONYMOUS), -1, 0);
    struct opened *o = at(a[4]);
    if (!o || o->kind != OF_FILE) return o || of_coz(a[4]) ? -ENODEV : -EBADF;
    if ((a[3] & MAP_TYPE) != MAP_PRIVATE && (a[2] & PROT_WRITE)) return -ENODEV;
    if (a[1] <= 0 || a[5] < 0 || a[5] % PAGE) return -EINVAL;
    long pages = __coz_pages(a[1]);
    if (pages < 0) return pages;
    LOCK(lock);
    read_at(o->file, (void *)pages, a[1], a[5]);
    UNLOCK(lock);
    long error = a[2] & PROT_WRITE ? 0 : __coz_ecall(SYS_mprotect, pages, a[1], a[2], 0, 0, 0);
    return error ? error : pages;
}

// ---- What a name or an end is ----

static void put_stat(struct kstat *to, mode_t mode, long number, long length) {
    memset(to, 0, sizeof *to);
    to->st_ino = number;
    to->st_mode = mode;
    to->st_nlink = 1;
    to->st_uid = to->st_gid = 1000;
    to->st_size = length;
    to->st_blksize = PAGE;
    to->st_blocks = (length + 511) / 512;
}

static void put_file_stat(struct kstat *to, struct file *file) {
    put_stat(to, S_IFREG | 0644, file - files + 10, file->length);
}

long __coz_fstat(long *a) {
    struct opened *o = at(a[0]);
    if (!o && !of_coz(a[0])) return -EBADF;
    if (!o || o->kind == OF_COZ)
        put_stat((void *)a[1], S_IFIFO | 0600, coz_number(a[0]) + 1, 0);
    else if (o->kind == OF_FILE)
        put_file_stat((void *)a[1], o->file);
    else
        put_stat((void *)a[1], S_IFCHR | 0666, 4 + o->kind, 0);
    return 0;
}

long __coz_newfstatat(long *a) {
    const char *name = (void *)a[1];
    int number;
    if (!*name) return a[3] & AT_EMPTY_PATH ? __coz_fstat((long[]){a[0], a[2]}) : -ENOENT;
    enum kind kind = device(name, &number);
    struct file *file = find(name);
    if (file)
        put_file_stat((void *)a[2], file);
    else if (kind == OF_COZ)
        put_stat((void *)a[2], S_IFIFO | 0600, number + 1, 0);
    else if (kind != OF_FILE)
        put_stat((void *)a[2], S_IFCHR | 0666, 4 + kind, 0);
    else if (is_folder(name))
        put_stat((void *)a[2], S_IFDIR | 0755, 9, 0);
    else
        return -ENOENT;
    return 0;
}

static int is_there(const char *name) {
    int number;
    return find(name) || is_folder(name) || device(name, &number) != OF_FILE;
}

long __coz_name_exists(long *a) {
    return is_there((void *)a[1]) ? 0 : -ENOENT;
}

long __coz_readlinkat(long *a) {
    return is_there((void *)a[1]) ? -EINVAL : -ENOENT;
}

long __coz_statfs(long *a) {
    struct statfs *to = memset((void *)a[1], 0, sizeof *to);
    to->f_type = 0x01021994;
    to->f_bsize = PAGE;
    to->f_blocks = 12288;
    to->f_bfree = to->f_bavail = 6144;
    to->f_namelen = LONGEST_NAME - 1;
    return 0;
}

// ---- Removing and renaming ----

static void remove_name(struct file *file) {
    struct opened held = {.kind = OF_FILE, .file = file, .users = 1};
    *file->name = 0;
    let_go(&held);
}

long __coz_unlinkat(long *a) {
    LOCK(lock);
    struct file *file = find((void *)a[1]);
    long error = file ? 0 : -ENOENT;
    if (!error) remove_name(file);
    UNLOCK(lock);
    return error;
}

long __coz_renameat(long *a) {
    const char *to = plain((void *)a[3]);
    LOCK(lock);
    struct file *file = find((void *)a[1]), *other = find(to);
    long error = !file ? -ENOENT : strlen(to) >= LONGEST_NAME ? -ENAMETOOLONG : 0;
    if (!error && file != other) {
        if (other) remove_name(other);
        strcpy(file->name, to);
    }
    UNLOCK(lock);
    return error;
}

// ---- What coz-args asks for ----

// Opens the file to which standard error goes, before the program begins.
void __coz_start_files(void) {
    if (!__coz_args.errors) return;
    long end = __coz_openat((long[]){0, (long)__coz_args.errors, O_WRONLY | O_CREAT | O_TRUNC});
    if (end < 0) return;
    __coz_dup3((long[]){end, 2, 0});
    __coz_close(&end);
}

static void print(const char *name) {
    struct file *file = find(name);
    const char *bytes = file ? (void *)file->bytes : "there is no such file\n";
    for (long left = file ? file->length : strlen(bytes), done; left > 0; left -= done) {
        done = __coz_ecall(SYS_write, 1, (long)bytes, left, 0, 0, 0);
        if (done <= 0) return;
        bytes += done;
    }
}

// Writes to the output the files that coz-args names, as the program ends.
void __coz_end_files(void) {
    for (long i = 0; i < __coz_args.print_count; i++) print(__coz_args.prints[i]);
}
