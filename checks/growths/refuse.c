/* Loaded before the C library. It counts the growths of memory and the threads that are started, refuses the growth that
   REFUSED_GROWTH numbers and the thread that REFUSED_THREAD numbers, from 1, and at the end writes both counts to the
   file COUNTS. Where BETWEEN_LINES is set, only what lies between the first write to standard output and the second
   counts. Where as many bytes are asked for again at once after a refusal, that is the same growth: collecting into a
   list first asks for what it may need, and asks again for what it does need. */
#define _GNU_SOURCE
#include <dlfcn.h>
#include <errno.h>
#include <pthread.h>
#include <stdatomic.h>
#include <stddef.h>
#include <stdio.h>
#include <stdlib.h>
#include <sys/syscall.h>
#include <unistd.h>

extern void *__libc_malloc(size_t), *__libc_calloc(size_t, size_t), *__libc_realloc(void *, size_t);
extern void *__libc_memalign(size_t, size_t);

struct counted {
    atomic_long number;
    long refused;
};

static struct counted growths, threads;
static atomic_int lines;
/* How many bytes were refused last, where nothing has been asked for since. */
static _Thread_local size_t refused_bytes;
static int is_started, is_between;

static int is_refused(struct counted *counted) {
    if (!is_started || (is_between && lines != 1))
        return 0;
    return ++counted->number == counted->refused;
}

static int is_refused_bytes(size_t bytes) {
    if (!bytes || bytes != refused_bytes)
        refused_bytes = is_refused(&growths) ? bytes : 0;
    if (!refused_bytes)
        return 0;
    errno = ENOMEM;
    return 1;
}

static long number_in(const char *name) {
    const char *number = getenv(name);
    return number ? atol(number) : 0;
}

__attribute__((constructor)) static void start(void) {
    growths.refused = number_in("REFUSED_GROWTH");
    threads.refused = number_in("REFUSED_THREAD");
    is_between = getenv("BETWEEN_LINES") != NULL;
    is_started = 1;
}

/* At the end of a program that starts no thread; one that may ends by _exit. */
__attribute__((destructor)) static void stop(void) {
    is_started = 0;
    const char *name = getenv("COUNTS");
    FILE *file = name ? fopen(name, "w") : NULL;
    if (file) {
        fprintf(file, "%ld %ld\n", growths.number, threads.number);
        fclose(file);
    }
}

void _exit(int status) {
    stop();
    syscall(SYS_exit_group, status);
    __builtin_unreachable();
}

void *malloc(size_t size) {
    return is_refused_bytes(size) ? NULL : __libc_malloc(size);
}

void *calloc(size_t many, size_t size) {
    return is_refused_bytes(many * size) ? NULL : __libc_calloc(many, size);
}

void *realloc(void *old, size_t size) {
    return is_refused_bytes(size) ? NULL : __libc_realloc(old, size);
}

void *aligned_alloc(size_t alignment, size_t size) {
    return is_refused_bytes(size) ? NULL : __libc_memalign(alignment, size);
}

int posix_memalign(void **place, size_t alignment, size_t size) {
    void *memory = is_refused_bytes(size) ? NULL : __libc_memalign(alignment, size);
    if (!memory)
        return ENOMEM;
    *place = memory;
    return 0;
}

int pthread_create(pthread_t *thread, const pthread_attr_t *attr, void *(*run)(void *), void *argument) {
    int (*next)(pthread_t *, const pthread_attr_t *, void *(*)(void *), void *) = dlsym(RTLD_NEXT, "pthread_create");
    return is_refused(&threads) ? EAGAIN : next(thread, attr, run, argument);
}

ssize_t write(int file, const void *bytes, size_t size) {
    ssize_t (*next)(int, const void *, size_t) = dlsym(RTLD_NEXT, "write");
    ssize_t written = next(file, bytes, size);
    if (file == 1) {
        ++lines;
        refused_bytes = 0;
    }
    return written;
}
