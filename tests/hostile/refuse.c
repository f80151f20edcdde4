// A library to load before a program (LD_PRELOAD) that stands between it and libc: it refuses allocations, threads, reads and writes, makes
// reads and writes short, and raises a signal at a chosen call. What it does is told by the environment; each number counts from 1, and 0
// or nothing stands for none.
//
//   HOSTILE_ALLOC=n       refuses the n-th allocation        HOSTILE_ALLOC_FROM=n  refuses the n-th and all later ones
//   HOSTILE_READ=n        the n-th read of descriptor 0 fails    HOSTILE_WRITE=n   the n-th write of descriptor 1 fails
//   HOSTILE_ERRNO=e       with this error (EIO where it is not given)
//   HOSTILE_LOG=n         the n-th write of a descriptor above 2 takes half of its bytes, and the next one fails
//   HOSTILE_READ_MAX=n    a read gives n bytes at most       HOSTILE_WRITE_MAX=n   a write takes n bytes at most
//   HOSTILE_WRITE_ZERO=n  the n-th write takes no byte and does not fail
//   HOSTILE_TELL=1        writes to descriptor 2 fail        HOSTILE_THREAD=n      the n-th thread can't be started
//   HOSTILE_SIGNAL=s      raises s at call HOSTILE_SIGNAL_AT of allocations, reads and writes together
//   HOSTILE_NAP=n         the thread sleeps a little at each n-th allocation, so that others come to work
//   HOSTILE_JITTER=n      each thread sleeps, yields or spins at some allocations, which n and the number of the thread choose
//   HOSTILE_LAST=path     the last word is what stands in this file: a word may have 100,000 numbers, and the system passes on 131,072 bytes
//   HOSTILE_COUNT=path    writes how many there were of allocations, reads, writes, threads, all calls, blocks not given back, and threads
//                         that allocated something
#define _GNU_SOURCE
#include <dlfcn.h>
#include <errno.h>
#include <fcntl.h>
#include <pthread.h>
#include <sched.h>
#include <signal.h>
#include <stdatomic.h>
#include <stdio.h>
#include <stdlib.h>
#include <sys/syscall.h>
#include <unistd.h>

void *__libc_malloc(size_t);
void *__libc_calloc(size_t, size_t);
void *__libc_realloc(void *, size_t);
void *__libc_memalign(size_t, size_t);
void __libc_free(void *);
ssize_t __read(int, void *, size_t);
ssize_t __write(int, const void *, size_t);

static int armed;
static long refused_alloc, refused_from, failed_read, failed_write, failed_log, zero_write, failed_thread, read_max, write_max;
static long raised, raised_at, error = EIO, mute, nap, jitter;
static atomic_long allocs, reads, writes, logs, threads, calls, held, workers;
static _Thread_local int works;
static _Thread_local unsigned long chance;

static long number(const char *name) {
    const char *text = getenv(name);
    return text ? atol(text) : 0;
}

static void call(void) {
    if (atomic_fetch_add(&calls, 1) + 1 == raised_at && raised) kill(getpid(), (int)raised);
}

// Loses some time now and then.
static void linger(void) {
    chance ^= chance << 13;
    chance ^= chance >> 7;
    chance ^= chance << 17;
    unsigned long draw = chance % 256;
    if (draw == 0) usleep((useconds_t)(chance >> 40) % 60);
    else if (draw < 5) sched_yield();
    else if (draw < 10) for (volatile unsigned long i = (chance >> 30) % 3000; i > 0; i--) {}
}

// Whether this allocation is to be refused.
static int refuses(void) {
    if (!armed) return 0;
    call();
    long n = atomic_fetch_add(&allocs, 1) + 1;
    if (!works) {
        works = 1;
        chance = (unsigned long)(jitter * 16 + atomic_fetch_add(&workers, 1)) * 0x9e3779b97f4a7c15ul | 1;
    }
    if (nap && n % nap == 0) usleep(100);
    if (jitter) linger();
    if (n == refused_alloc || (refused_from && n >= refused_from)) {
        errno = ENOMEM;
        return 1;
    }
    return 0;
}

static void *kept(void *block) {
    if (armed && block) atomic_fetch_add(&held, 1);
    return block;
}

void *malloc(size_t n) { return refuses() ? NULL : kept(__libc_malloc(n)); }
void *calloc(size_t n, size_t size) { return refuses() ? NULL : kept(__libc_calloc(n, size)); }
void *memalign(size_t align, size_t n) { return refuses() ? NULL : kept(__libc_memalign(align, n)); }
void *aligned_alloc(size_t align, size_t n) { return memalign(align, n); }

void *realloc(void *block, size_t n) {
    if (refuses()) return NULL;
    void *made = __libc_realloc(block, n);
    return block ? made : kept(made);
}

int posix_memalign(void **out, size_t align, size_t n) {
    void *block = memalign(align, n);
    if (!block) return ENOMEM;
    *out = block;
    return 0;
}

void free(void *block) {
    if (armed && block) atomic_fetch_sub(&held, 1);
    __libc_free(block);
}

ssize_t read(int fd, void *buf, size_t n) {
    if (fd != 0 || !armed) return __read(fd, buf, n);
    call();
    if (atomic_fetch_add(&reads, 1) + 1 == failed_read) {
        errno = (int)error;
        return -1;
    }
    return __read(fd, buf, read_max && n > (size_t)read_max ? (size_t)read_max : n);
}

ssize_t write(int fd, const void *buf, size_t n) {
    if (fd == 2 && mute) {
        errno = (int)error;
        return -1;
    }
    if (fd > 2 && armed && failed_log) {
        long k = atomic_fetch_add(&logs, 1) + 1;
        if (k == failed_log) return __write(fd, buf, n / 2);
        if (k == failed_log + 1) {
            errno = (int)error;
            return -1;
        }
    }
    if (fd != 1 || !armed) return __write(fd, buf, n);
    call();
    long k = atomic_fetch_add(&writes, 1) + 1;
    if (k == zero_write) return 0;
    if (k == failed_write) {
        errno = (int)error;
        return -1;
    }
    return __write(fd, buf, write_max && n > (size_t)write_max ? (size_t)write_max : n);
}

int pthread_create(pthread_t *thread, const pthread_attr_t *attr, void *(*start)(void *), void *arg) {
    static int (*real)(pthread_t *, const pthread_attr_t *, void *(*)(void *), void *);
    if (!real) real = (int (*)(pthread_t *, const pthread_attr_t *, void *(*)(void *), void *))dlsym(RTLD_NEXT, "pthread_create");
    if (atomic_fetch_add(&threads, 1) + 1 == failed_thread) return EAGAIN;
    return real(thread, attr, start, arg);
}

__attribute__((constructor)) static void arm(void) {
    refused_alloc = number("HOSTILE_ALLOC");
    refused_from = number("HOSTILE_ALLOC_FROM");
    failed_read = number("HOSTILE_READ");
    failed_write = number("HOSTILE_WRITE");
    failed_log = number("HOSTILE_LOG");
    zero_write = number("HOSTILE_WRITE_ZERO");
    failed_thread = number("HOSTILE_THREAD");
    read_max = number("HOSTILE_READ_MAX");
    write_max = number("HOSTILE_WRITE_MAX");
    raised = number("HOSTILE_SIGNAL");
    raised_at = number("HOSTILE_SIGNAL_AT");
    mute = number("HOSTILE_TELL");
    nap = number("HOSTILE_NAP");
    jitter = number("HOSTILE_JITTER");
    if (number("HOSTILE_ERRNO")) error = number("HOSTILE_ERRNO");
    armed = 1;
}

__attribute__((destructor)) static void count(void) {
    const char *path = getenv("HOSTILE_COUNT");
    if (!path || !armed) return;
    armed = 0;
    int fd = open(path, O_WRONLY | O_CREAT | O_TRUNC, 0600);
    if (fd < 0) return;
    dprintf(fd, "%ld %ld %ld %ld %ld %ld %ld\n", allocs, reads, writes, threads, calls, held, workers);
    close(fd);
}

static int (*program)(int, char **, char **);

// The program, with its last word taken from a file where that is asked for.
static int started(int argc, char **argv, char **envp) {
    const char *path = getenv("HOSTILE_LAST");
    static char word[1 << 20];
    if (path) {
        int fd = open(path, O_RDONLY);
        ssize_t n = fd < 0 ? -1 : __read(fd, word, sizeof word - 1);
        if (n < 0) return 126;
        close(fd);
        argv[argc - 1] = word;
    }
    return program(argc, argv, envp);
}

int __libc_start_main(int (*main)(int, char **, char **), int argc, char **argv, void (*init)(void), void (*fini)(void),
                      void (*rtld_fini)(void), void *stack_end) {
    int (*real)(int (*)(int, char **, char **), int, char **, void (*)(void), void (*)(void), void (*)(void), void *);
    *(void **)&real = dlsym(RTLD_NEXT, "__libc_start_main");
    program = main;
    return real(started, argc, argv, init, fini, rtld_fini, stack_end);
}

// (a program with threads ends by this call)
void _exit(int status) {
    count();
    for (;;) syscall(SYS_exit_group, status);
}
