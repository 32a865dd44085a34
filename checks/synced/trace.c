/* Loaded before the C library. It writes to the file TRACE what is opened, named, written and synced, in order: a call
   ends before another begins, and its line is written with it.

   open FILE INODE           the file that the descriptor has, from here on
   name INODE PATH           a name that a file has, once it is made, renamed or linked
   write FILE OFFSET BYTES   what was written, in hex; the offset is -1 where the file has a place of its own
   sync FILE                 what succeeded; a call that fails has no line */
#define _GNU_SOURCE
#include <dlfcn.h>
#include <fcntl.h>
#include <pthread.h>
#include <stdarg.h>
#include <stdio.h>
#include <stdlib.h>
#include <string.h>
#include <sys/stat.h>
#include <sys/syscall.h>
#include <sys/uio.h>
#include <unistd.h>

static pthread_mutex_t lock = PTHREAD_MUTEX_INITIALIZER;
static int trace = -1;

__attribute__((constructor)) static void start(void) {
    const char *name = getenv("TRACE");
    if (name)
        trace = syscall(SYS_openat, AT_FDCWD, name, O_WRONLY | O_CREAT | O_APPEND | O_CLOEXEC, 0600);
}

static void add(const void *bytes, size_t size) {
    if (trace >= 0 && syscall(SYS_write, trace, bytes, size) != (long)size)
        abort();
}

static void add_line(const char *format, ...) {
    char line[5000];
    va_list words;
    va_start(words, format);
    add(line, vsnprintf(line, sizeof line, format, words));
    va_end(words);
}

static void add_bytes(const unsigned char *bytes, size_t size) {
    char pair[3];
    for (size_t i = 0; i < size; ++i) {
        snprintf(pair, sizeof pair, "%02x", bytes[i]);
        add(pair, 2);
    }
}

static void add_name(const char *path) {
    struct stat found;
    if (lstat(path, &found) == 0)
        add_line("name %lu %s\n", (unsigned long)found.st_ino, path);
}

static void add_write(int file, long offset, const void *bytes, ssize_t written) {
    if (written < 0)
        return;
    add_line("write %d %ld ", file, offset);
    add_bytes(bytes, written);
    add("\n", 1);
}

static int opened(int folder, const char *path, int flags, mode_t mode) {
    pthread_mutex_lock(&lock);
    int file = syscall(SYS_openat, folder, path, flags, mode);
    struct stat found;
    if (file >= 0 && fstat(file, &found) == 0) {
        add_line("open %d %lu\n", file, (unsigned long)found.st_ino);
        if (flags & O_CREAT)
            add_name(path);
    }
    pthread_mutex_unlock(&lock);
    return file;
}

#define MODE(flags, mode)                                                                                              \
    mode_t mode = 0;                                                                                                   \
    if (flags & (O_CREAT | __O_TMPFILE)) {                                                                             \
        va_list words;                                                                                                 \
        va_start(words, flags);                                                                                        \
        mode = va_arg(words, mode_t);                                                                                  \
        va_end(words);                                                                                                 \
    }

int open(const char *path, int flags, ...) {
    MODE(flags, mode)
    return opened(AT_FDCWD, path, flags, mode);
}

int open64(const char *path, int flags, ...) {
    MODE(flags, mode)
    return opened(AT_FDCWD, path, flags, mode);
}

int openat(int folder, const char *path, int flags, ...) {
    MODE(flags, mode)
    return opened(folder, path, flags, mode);
}

int openat64(int folder, const char *path, int flags, ...) {
    MODE(flags, mode)
    return opened(folder, path, flags, mode);
}

ssize_t write(int file, const void *bytes, size_t size) {
    pthread_mutex_lock(&lock);
    ssize_t written = syscall(SYS_write, file, bytes, size);
    add_write(file, -1, bytes, written);
    pthread_mutex_unlock(&lock);
    return written;
}

ssize_t pwrite64(int file, const void *bytes, size_t size, off_t offset) {
    pthread_mutex_lock(&lock);
    ssize_t written = syscall(SYS_pwrite64, file, bytes, size, offset);
    add_write(file, offset, bytes, written);
    pthread_mutex_unlock(&lock);
    return written;
}

ssize_t pwrite(int file, const void *bytes, size_t size, off_t offset) {
    return pwrite64(file, bytes, size, offset);
}

/* Of several parts the first alone is written, which a caller has to expect. */
ssize_t writev(int file, const struct iovec *parts, int count) {
    return count > 0 ? write(file, parts->iov_base, parts->iov_len) : 0;
}

ssize_t pwritev(int file, const struct iovec *parts, int count, off_t offset) {
    return count > 0 ? pwrite64(file, parts->iov_base, parts->iov_len, offset) : 0;
}

static int synced(int file, long call) {
    pthread_mutex_lock(&lock);
    int status = syscall(call, file);
    if (status == 0)
        add_line("sync %d\n", file);
    pthread_mutex_unlock(&lock);
    return status;
}

int fsync(int file) {
    return synced(file, SYS_fsync);
}

int fdatasync(int file) {
    return synced(file, SYS_fdatasync);
}

int rename(const char *from, const char *to) {
    pthread_mutex_lock(&lock);
    int status = syscall(SYS_rename, from, to);
    if (status == 0)
        add_name(to);
    pthread_mutex_unlock(&lock);
    return status;
}

int link(const char *from, const char *to) {
    pthread_mutex_lock(&lock);
    int status = syscall(SYS_link, from, to);
    if (status == 0)
        add_name(to);
    pthread_mutex_unlock(&lock);
    return status;
}
