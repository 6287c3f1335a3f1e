/* Refuses requests for memory: the REFUSEth, and with REFUSE_LATER each one after it too. Each that
 * is refused is noted in the file MET, on a line of its own, by its size: as `less` if it asks that
 * a block be cut, and else as `more`. */
#define _GNU_SOURCE
#include <dlfcn.h>
#include <fcntl.h>
#include <malloc.h>
#include <stdatomic.h>
#include <stdio.h>
#include <stdlib.h>
#include <unistd.h>

static atomic_long asked;
static long number;
static int later;
static int met = -1;
static void *(*next_malloc)(size_t);
static void *(*next_realloc)(void *, size_t);

__attribute__((constructor)) static void begin(void) {
    const char *name = getenv("MET");
    next_malloc = dlsym(RTLD_NEXT, "malloc");
    next_realloc = dlsym(RTLD_NEXT, "realloc");
    number = getenv("REFUSE") ? atol(getenv("REFUSE")) : 0;
    later = getenv("REFUSE_LATER") != 0;
    if (name) {
        met = open(name, O_WRONLY | O_CREAT | O_TRUNC, 0600);
    }
    /* what was asked for until now was not asked for by the program */
    atomic_store(&asked, 0);
}

/* whether a request is refused: it is noted at once, since the program may end without a word to
 * the C library */
static int refused(const char *kind, size_t size) {
    char line[32];
    long now = atomic_fetch_add(&asked, 1) + 1;
    if (number == 0 || (later ? now < number : now != number)) {
        return 0;
    }
    int length = snprintf(line, sizeof line, "%s %zu\n", kind, size);
    if (met >= 0 && write(met, line, (size_t)length) != length) {
        _exit(99);
    }
    return 1;
}

void *malloc(size_t size) { return next_malloc && !refused("more", size) ? next_malloc(size) : 0; }

void *realloc(void *old, size_t size) {
    const char *kind = old && size <= malloc_usable_size(old) ? "less" : "more";
    return refused(kind, size) ? 0 : next_realloc(old, size);
}
