/* Loaded before the C library. It counts the writes and syncs of files of the folder FAILS_IN, and of the folder itself,
   has the one that FAILS_AT numbers, from 1, fail with the error number FAILS_WITH, and at the end writes the count to
   the file COUNTS. */
#define _GNU_SOURCE
#include <dlfcn.h>
#include <errno.h>
#include <stdatomic.h>
#include <stdio.h>
#include <stdlib.h>
#include <string.h>
#include <sys/syscall.h>
#include <unistd.h>

static atomic_long calls;

static long number_in(const char *name) {
    const char *number = getenv(name);
    return number ? atol(number) : 0;
}

/* Whether the file is the folder's, or the folder. */
static int is_in_folder(int file) {
    char link[64], path[4096];
    const char *folder = getenv("FAILS_IN");
    snprintf(link, sizeof link, "/proc/self/fd/%d", file);
    ssize_t length = readlink(link, path, sizeof path - 1);
    if (!folder || length < 0)
        return 0;
    path[length] = 0;
    return !strncmp(path, folder, strlen(folder));
}

/* Whether this call fails. */
static int fails(int file) {
    if (!is_in_folder(file) || ++calls != number_in("FAILS_AT"))
        return 0;
    errno = (int)number_in("FAILS_WITH");
    return 1;
}

/* At the end of a program that starts no thread; one that may ends by _exit. */
__attribute__((destructor)) static void stop(void) {
    const char *name = getenv("COUNTS");
    FILE *file = name ? fopen(name, "w") : NULL;
    if (file) {
        fprintf(file, "%ld\n", calls);
        fclose(file);
    }
}

void _exit(int status) {
    stop();
    syscall(SYS_exit_group, status);
    __builtin_unreachable();
}

ssize_t write(int file, const void *bytes, size_t size) {
    ssize_t (*next)(int, const void *, size_t) = dlsym(RTLD_NEXT, "write");
    return fails(file) ? -1 : next(file, bytes, size);
}

ssize_t pwrite(int file, const void *bytes, size_t size, off_t at) {
    ssize_t (*next)(int, const void *, size_t, off_t) = dlsym(RTLD_NEXT, "pwrite");
    return fails(file) ? -1 : next(file, bytes, size, at);
}

int fsync(int file) {
    int (*next)(int) = dlsym(RTLD_NEXT, "fsync");
    return fails(file) ? -1 : next(file);
}

int fdatasync(int file) {
    int (*next)(int) = dlsym(RTLD_NEXT, "fdatasync");
    return fails(file) ? -1 : next(file);
}
