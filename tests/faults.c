/* Makes chosen calls of a program fail. It is loaded before the C library (LD_PRELOAD), and learns what to do by words of the
   environment; faults.py builds it and sets them.

     FAULTS_SEEN=FILE    a file of 64 bytes, for six counters of what was called: allocations, reads, writes, opens, threads
                         started, and how many of them were made to fail
     FAULTS_ALLOC=K      the K-th allocation fails; K..L: the K-th to the L-th; K..: all from the K-th on
     FAULTS_READ=K       the K-th read fails with EIO
     FAULTS_CHANGE=K     before the K-th read the file that it reads gets the bytes of the file FAULTS_TO
     FAULTS_WRITE=K      the K-th write to standard output fails with EIO
     FAULTS_OPEN=K       the K-th opening of a file fails with ENOMEM
     FAULTS_THREAD=K     the K-th thread isn't started
     FAULTS_BYTES=N      standard output takes N bytes, then it is full
     FAULTS_SHORT=1      reads and writes move one byte
     FAULTS_INTERRUPT=1  every other read and write is interrupted by a signal before it moves a byte
     FAULTS_HOLD=K       the thread that makes the K-th allocation is held for 5 milliseconds
     FAULTS_SHAKE=SEED   threads are held at allocations for some microseconds, or give way, at random */
#define _GNU_SOURCE
#include <dlfcn.h>
#include <errno.h>
#include <fcntl.h>
#include <pthread.h>
#include <stdarg.h>
#include <stdatomic.h>
#include <stddef.h>
#include <stdint.h>
#include <stdio.h>
#include <stdlib.h>
#include <string.h>
#include <sys/mman.h>
#include <sys/syscall.h>
#include <sys/uio.h>
#include <time.h>
#include <unistd.h>

enum kind { ALLOC, READ, WRITE, OPEN, THREAD, FAILED, KINDS };

static const char *const names[] = {"FAULTS_ALLOC", "FAULTS_READ", "FAULTS_WRITE", "FAULTS_OPEN", "FAULTS_THREAD"};
static _Atomic uint64_t own[KINDS], *seen = own;
static uint64_t from[KINDS], to[KINDS];
static uint64_t room = UINT64_MAX;
static int is_short, is_interrupting;
static uint64_t held, shaking, changed;
static _Atomic unsigned turns;
static _Atomic uint64_t reads;

/* The functions that these stand before; they are found when they are first called. The allocator of the C library has
   names of its own, which take no look-up. */
extern void *__libc_malloc(size_t), *__libc_calloc(size_t, size_t), *__libc_realloc(void *, size_t);
extern void *__libc_memalign(size_t, size_t);

__attribute__((constructor)) static void read_settings(void)
{
    for (int kind = 0; kind < FAILED; kind++) {
        const char *text = getenv(names[kind]);
        char *end = 0;
        if (!text) continue;
        from[kind] = strtoull(text, &end, 10);
        to[kind] = strncmp(end, "..", 2) ? from[kind] : end[2] ? strtoull(end + 2, 0, 10) : UINT64_MAX;
    }
    if (getenv("FAULTS_BYTES")) room = strtoull(getenv("FAULTS_BYTES"), 0, 10);
    is_short = getenv("FAULTS_SHORT") != 0;
    is_interrupting = getenv("FAULTS_INTERRUPT") != 0;
    if (getenv("FAULTS_HOLD")) held = strtoull(getenv("FAULTS_HOLD"), 0, 10);
    if (getenv("FAULTS_SHAKE")) shaking = strtoull(getenv("FAULTS_SHAKE"), 0, 10);
    if (getenv("FAULTS_CHANGE")) changed = strtoull(getenv("FAULTS_CHANGE"), 0, 10);
    const char *file = getenv("FAULTS_SEEN");
    int fd = file ? (int) syscall(SYS_openat, AT_FDCWD, file, O_RDWR) : -1;
    if (fd < 0) return;
    void *at = mmap(0, 64, PROT_READ | PROT_WRITE, MAP_SHARED, fd, 0);
    if (at != MAP_FAILED) seen = at;
    syscall(SYS_close, fd);
}

static void hold(long nanoseconds)
{
    struct timespec time = {0, nanoseconds};
    syscall(SYS_nanosleep, &time, 0);
}

/* What a thread does before its allocation of this number. */
static void change_the_schedule(uint64_t number)
{
    if (number == held) hold(5000000);
    if (!shaking) return;
    /* A product of the number and the seed, mixed, is as good as random. */
    uint64_t chance = (number * 2654435761u + shaking) * 6364136223846793005u >> 33;
    if (chance % 8 == 0) hold((long) (chance / 8 % 50000));
    else if (chance % 8 < 4) syscall(SYS_sched_yield);
}

/* Counts a call, and says whether it has to fail. */
static int fails(enum kind kind)
{
    uint64_t number = atomic_fetch_add(&seen[kind], 1) + 1;
    if (kind == ALLOC) change_the_schedule(number);
    if (number < from[kind] || number > to[kind]) return 0;
    atomic_fetch_add(&seen[FAILED], 1);
    return 1;
}

static int refuses(void)
{
    if (!fails(ALLOC)) return 0;
    errno = ENOMEM;
    return 1;
}

void *malloc(size_t size) { return refuses() ? 0 : __libc_malloc(size); }
void *calloc(size_t count, size_t size) { return refuses() ? 0 : __libc_calloc(count, size); }
void *realloc(void *at, size_t size) { return refuses() ? 0 : __libc_realloc(at, size); }
void *memalign(size_t align, size_t size) { return refuses() ? 0 : __libc_memalign(align, size); }
void *aligned_alloc(size_t align, size_t size) { return memalign(align, size); }

int posix_memalign(void **at, size_t align, size_t size)
{
    if (refuses()) return ENOMEM;
    *at = __libc_memalign(align, size);
    return *at ? 0 : ENOMEM;
}

int pthread_create(pthread_t *thread, const pthread_attr_t *attributes, void *(*start)(void *), void *argument)
{
    static int (*next)(pthread_t *, const pthread_attr_t *, void *(*)(void *), void *);
    if (!next) *(void **) &next = dlsym(RTLD_NEXT, "pthread_create");
    return fails(THREAD) ? EAGAIN : next(thread, attributes, start, argument);
}

static long failed(int number)
{
    errno = number;
    return -1;
}

/* What stands before a read or a write: 1 where it has to fail, with errno set. */
static int is_stopped(enum kind kind)
{
    if (fails(kind)) return failed(EIO) != 0;
    if (is_interrupting && atomic_fetch_add(&turns, 1) % 2 == 0) return failed(EINTR) != 0;
    return 0;
}

/* Writes the bytes of FAULTS_TO over those of an open file. */
static void change(int fd)
{
    char path[32], bytes[4096];
    snprintf(path, sizeof path, "/proc/self/fd/%d", fd);
    int from_here = (int) syscall(SYS_openat, AT_FDCWD, getenv("FAULTS_TO"), O_RDONLY);
    int to_there = (int) syscall(SYS_openat, AT_FDCWD, path, O_WRONLY | O_TRUNC);
    long count;
    while ((count = syscall(SYS_read, from_here, bytes, sizeof bytes)) > 0)
        if (syscall(SYS_write, to_there, bytes, count) != count) abort();
    if (count < 0) abort();
    syscall(SYS_close, from_here);
    syscall(SYS_close, to_there);
}

ssize_t read(int fd, void *to_here, size_t size)
{
    if (atomic_fetch_add(&reads, 1) + 1 == changed) change(fd);
    if (is_stopped(READ)) return -1;
    return syscall(SYS_read, fd, to_here, is_short && size ? 1 : size);
}

ssize_t write(int fd, const void *bytes, size_t size)
{
    if (fd != 1) return syscall(SYS_write, fd, bytes, size);
    if (is_stopped(WRITE)) return -1;
    if (is_short && size) size = 1;
    if (size && room == 0) return failed(ENOSPC);
    if (size > room) size = room;
    ssize_t written = syscall(SYS_write, fd, bytes, size);
    if (written > 0 && room != UINT64_MAX) room -= (uint64_t) written;
    return written;
}

ssize_t writev(int fd, const struct iovec *parts, int count)
{
    for (int part = 0; part < count; part++)
        if (parts[part].iov_len) return write(fd, parts[part].iov_base, parts[part].iov_len);
    return write(fd, "", 0);
}

static int opened(int folder, const char *path, int flags, va_list rest)
{
    mode_t mode = flags & (O_CREAT | O_TMPFILE) ? va_arg(rest, mode_t) : 0;
    return fails(OPEN) ? (int) failed(ENOMEM) : (int) syscall(SYS_openat, folder, path, flags, mode);
}

#define OPENS(name, parameters, folder)         \
    int name parameters                         \
    {                                           \
        va_list rest;                           \
        va_start(rest, flags);                  \
        int fd = opened(folder, path, flags, rest); \
        va_end(rest);                           \
        return fd;                              \
    }

OPENS(open, (const char *path, int flags, ...), AT_FDCWD)
OPENS(open64, (const char *path, int flags, ...), AT_FDCWD)
OPENS(openat, (int folder, const char *path, int flags, ...), folder)
OPENS(openat64, (int folder, const char *path, int flags, ...), folder)
