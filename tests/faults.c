/* Stands before the C library (LD_PRELOAD) and lets one of its calls go wrong, as a disk, a signal or want of memory
   would: the one that the variable FAULT names. */
#define _GNU_SOURCE
#include <dlfcn.h>
#include <errno.h>
#include <fcntl.h>
#include <stdatomic.h>
#include <stdio.h>
#include <stdlib.h>
#include <string.h>
#include <sys/types.h>
#include <unistd.h>

static int is_due(const char *call) {
    const char *fault = getenv("FAULT");
    return fault && strcmp(fault, call) == 0;
}

static int fails(int error) {
    errno = error;
    return -1;
}

int fsync(int fd) {
    int (*real)(int) = (int (*)(int))dlsym(RTLD_NEXT, "fsync");
    return is_due("fsync") ? fails(EIO) : real(fd);
}

int rename(const char *from, const char *to) {
    int (*real)(const char *, const char *) = (int (*)(const char *, const char *))dlsym(RTLD_NEXT, "rename");
    return is_due("rename") ? fails(EIO) : real(from, to);
}

/* Every second write is interrupted; or half of the bytes are taken. */
ssize_t write(int fd, const void *bytes, size_t length) {
    ssize_t (*real)(int, const void *, size_t) = (ssize_t (*)(int, const void *, size_t))dlsym(RTLD_NEXT, "write");
    static int calls;
    if (is_due("interruption") && calls++ % 2 == 0) return fails(EINTR);
    if (is_due("half") && length > 1) length /= 2;
    return real(fd, bytes, length);
}

/* The allocation of the number that REFUSED names is refused, of all threads together; the file TOLD shows that it
   came. */
static int is_refused(void) {
    static atomic_ullong calls;
    const char *refused = getenv("REFUSED");
    if (!refused || atomic_fetch_add(&calls, 1) + 1 != strtoull(refused, NULL, 10)) return 0;
    close(open(getenv("TOLD"), O_CREAT | O_WRONLY, 0600));
    errno = ENOMEM;
    return 1;
}

extern void *__libc_malloc(size_t size);
extern void *__libc_realloc(void *old, size_t size);

void *malloc(size_t size) { return is_refused() ? NULL : __libc_malloc(size); }

void *realloc(void *old, size_t size) { return is_refused() ? NULL : __libc_realloc(old, size); }
