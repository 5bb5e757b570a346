/* Stands before the C library (LD_PRELOAD) and finds the longest wait: for how long a thread yielded the processor again
   and again, with no more than a tenth of a millisecond between. The file that the variable WAITS names has it from the
   first on, in nanoseconds, as an integer of 8 bytes. */
#define _GNU_SOURCE
#include <dlfcn.h>
#include <fcntl.h>
#include <stdatomic.h>
#include <stdint.h>
#include <stdlib.h>
#include <sys/mman.h>
#include <time.h>
#include <unistd.h>

enum { PAUSE = 100000 };

static _Atomic uint64_t *longest;

static uint64_t now(void) {
    struct timespec t;
    clock_gettime(CLOCK_MONOTONIC, &t);
    return (uint64_t)t.tv_sec * 1000000000 + (uint64_t)t.tv_nsec;
}

__attribute__((constructor)) static void begin(void) {
    const char *name = getenv("WAITS");
    int fd = name ? open(name, O_CREAT | O_RDWR | O_TRUNC, 0600) : -1;
    if (fd < 0 || ftruncate(fd, 8)) return;
    void *page = mmap(NULL, 8, PROT_READ | PROT_WRITE, MAP_SHARED, fd, 0);
    if (page != MAP_FAILED) longest = page;
    close(fd);
}

int sched_yield(void) {
    static __thread uint64_t begun, last;
    static int (*real)(void);
    if (!real) real = (int (*)(void))dlsym(RTLD_NEXT, "sched_yield");
    uint64_t before = now();
    if (!begun || before - last > PAUSE) begun = before;
    int answer = real();
    last = now();
    uint64_t found = longest ? atomic_load(longest) : 0;
    while (longest && last - begun > found && !atomic_compare_exchange_weak(longest, &found, last - begun)) {
    }
    return answer;
}
