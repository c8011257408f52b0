/* Preloaded into the program (LD_PRELOAD): refuses one allocation, makes one call of the system fail, lets calls give one
   byte at a time, or changes a file while it is read; and counts what was asked. What it does is told by the environment:

     HOSTILE_COUNTS=FILE    where the counts are kept: a number of 8 bytes for each of `names` below, at least so many
     HOSTILE_REFUSE=N       the Nth allocation gives null
     HOSTILE_CALL=NAME      with HOSTILE_AT=N and HOSTILE_ERROR=E: the Nth such call fails with the error number E
     HOSTILE_PATH=FILE      of `open` and `statx` only those of this file are counted, and fail
     HOSTILE_SHORT=1        each read and each write moves one byte at the most
     HOSTILE_CHANGE=FILE    with HOSTILE_LENGTH=L and HOSTILE_AT=N: before the Nth call of HOSTILE_CALL the file gets the
                            length L; with HOSTILE_MORE=L in place of it, L bytes more before each such call

   The program calls the C library for all of this, and makes no other call that reads or writes. */
#define _GNU_SOURCE
#include <dlfcn.h>
#include <errno.h>
#include <fcntl.h>
#include <pthread.h>
#include <stdarg.h>
#include <stdatomic.h>
#include <stdlib.h>
#include <string.h>
#include <sys/mman.h>
#include <sys/stat.h>
#include <sys/syscall.h>
#include <sys/types.h>
#include <unistd.h>

enum { ALLOCATIONS, OPEN, STATX, LSEEK, READ, PREAD, WRITE, SAY, CLOSE, THREAD, DONE, NAMES };
static const char *const names[] = {"allocations", "open", "statx", "lseek", "read", "pread", "write", "say", "close", "thread", "done"};

static atomic_ulong own[NAMES];
static atomic_ulong *counts = own;
static unsigned long refused_at, fails_at;
static int failing = -1, error_number, one_byte, begun;
static const char *only_path, *changed;
static long new_length = -1, more;

static unsigned long number_of(const char *name) {
    const char *text = getenv(name);
    return text ? strtoul(text, 0, 10) : 0;
}

__attribute__((constructor)) static void begin(void) {
    const char *call = getenv("HOSTILE_CALL"), *file = getenv("HOSTILE_COUNTS");
    for (int name = 0; call && name < NAMES; name++)
        if (!strcmp(call, names[name])) failing = name;
    refused_at = number_of("HOSTILE_REFUSE");
    fails_at = number_of("HOSTILE_AT");
    error_number = (int)number_of("HOSTILE_ERROR");
    one_byte = (int)number_of("HOSTILE_SHORT");
    only_path = getenv("HOSTILE_PATH");
    changed = getenv("HOSTILE_CHANGE");
    if (getenv("HOSTILE_LENGTH")) new_length = (long)number_of("HOSTILE_LENGTH");
    more = (long)number_of("HOSTILE_MORE");
    if (file) {
        int opened = (int)syscall(SYS_openat, AT_FDCWD, file, O_RDWR);
        void *at = mmap(0, sizeof own, PROT_READ | PROT_WRITE, MAP_SHARED, opened, 0);
        if (at != MAP_FAILED) counts = at;
        syscall(SYS_close, opened);
    }
    begun = 1;
}

static void change(int name, unsigned long number) {
    struct stat now;
    if (!changed || name != failing) return;
    if (new_length >= 0 && number == fails_at) truncate(changed, new_length);
    if (more && !stat(changed, &now)) truncate(changed, now.st_size + more);
}

/* Counts a call, and says whether it fails. */
static int fails(int name) {
    if (!begun) return 0;
    unsigned long number = atomic_fetch_add(&counts[name], 1) + 1;
    change(name, number);
    if (name != failing || !error_number || number != fails_at) return 0;
    atomic_fetch_add(&counts[DONE], 1);
    errno = error_number;
    return 1;
}

static int is_meant(const char *path) { return !only_path || !strcmp(path, only_path); }

static int is_refused(void) {
    if (!begun || atomic_fetch_add(&counts[ALLOCATIONS], 1) + 1 != refused_at) return 0;
    atomic_fetch_add(&counts[DONE], 1);
    errno = ENOMEM;
    return 1;
}

extern void *__libc_malloc(size_t), *__libc_calloc(size_t, size_t), *__libc_realloc(void *, size_t);

void *malloc(size_t size) { return is_refused() ? 0 : __libc_malloc(size); }

void *calloc(size_t count, size_t size) { return is_refused() ? 0 : __libc_calloc(count, size); }

void *realloc(void *old, size_t size) { return is_refused() ? 0 : __libc_realloc(old, size); }

int open(const char *path, int flags, ...) {
    va_list rest;
    va_start(rest, flags);
    mode_t mode = flags & O_CREAT ? va_arg(rest, mode_t) : 0;
    va_end(rest);
    if (is_meant(path) && fails(OPEN)) return -1;
    return (int)syscall(SYS_openat, AT_FDCWD, path, flags, mode);
}

int statx(int folder, const char *path, int flags, unsigned mask, struct statx *to) {
    if (is_meant(path) && fails(STATX)) return -1;
    return (int)syscall(SYS_statx, folder, path, flags, mask, to);
}

off_t lseek(int file, off_t offset, int whence) { return fails(LSEEK) ? -1 : syscall(SYS_lseek, file, offset, whence); }

static size_t at_most(size_t length) { return one_byte && length > 1 ? 1 : length; }

ssize_t read(int file, void *to, size_t length) { return fails(READ) ? -1 : syscall(SYS_read, file, to, at_most(length)); }

ssize_t pread(int file, void *to, size_t length, off_t offset) {
    return fails(PREAD) ? -1 : syscall(SYS_pread64, file, to, at_most(length), offset);
}

ssize_t write(int file, const void *from, size_t length) {
    return fails(file == 2 ? SAY : WRITE) ? -1 : syscall(SYS_write, file, from, at_most(length));
}

int close(int file) {
    int failed = fails(CLOSE), why = errno, answer = (int)syscall(SYS_close, file);
    if (failed) errno = why;
    return failed ? -1 : answer;
}

int pthread_create(pthread_t *thread, const pthread_attr_t *how, void *(*run)(void *), void *given) {
    static int (*create)(pthread_t *, const pthread_attr_t *, void *(*)(void *), void *);
    if (!create) create = (int (*)(pthread_t *, const pthread_attr_t *, void *(*)(void *), void *))dlsym(RTLD_NEXT, "pthread_create");
    if (fails(THREAD)) return error_number;
    return create(thread, how, run, given);
}
