// Refuses one allocation of a program: the one whose number, counted from 1, stands in REFUSE. Loaded before the C
// library (LD_PRELOAD). It writes a byte to descriptor 9 when it refuses.
#define _GNU_SOURCE
#include <dlfcn.h>
#include <errno.h>
#include <stdatomic.h>
#include <stdlib.h>
#include <unistd.h>

static atomic_long asked;
static long refused = -1;
static void *(*next_malloc)(size_t);
static void *(*next_realloc)(void *, size_t);

__attribute__((constructor)) static void find_next(void) {
    const char *number = getenv("REFUSE");
    next_malloc = (void *(*)(size_t))dlsym(RTLD_NEXT, "malloc");
    next_realloc = (void *(*)(void *, size_t))dlsym(RTLD_NEXT, "realloc");
    atomic_store(&asked, 0);
    refused = number ? atol(number) : 0;
}

static int refuses(void) {
    if (refused <= 0 || atomic_fetch_add(&asked, 1) + 1 != refused) {
        return 0;
    }
    ssize_t told = write(9, "x", 1);
    (void)told;
    errno = ENOMEM;
    return 1;
}

void *malloc(size_t size) {
    if (!next_malloc) {
        find_next();
    }
    return refuses() ? NULL : next_malloc(size);
}

void *realloc(void *old, size_t size) {
    if (!next_realloc) {
        find_next();
    }
    return refuses() ? NULL : next_realloc(old, size);
}
