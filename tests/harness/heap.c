/* Loaded before the C library: from the signal SIGUSR1 on, the program may take no more than the bytes in ROOM beside what it
   holds then, and what it asks for past that is refused. */
#define _GNU_SOURCE
#include <dlfcn.h>
#include <limits.h>
#include <malloc.h>
#include <signal.h>
#include <stdatomic.h>
#include <stdlib.h>

static atomic_long held, most = LONG_MAX;

static void bound(int number) {
    (void)number;
    const char *room = getenv("ROOM");
    most = held + (room ? atol(room) : 0);
}

__attribute__((constructor)) static void begin(void) {
    /* a call that waits for a client goes on waiting */
    struct sigaction action = {.sa_handler = bound, .sa_flags = SA_RESTART};
    sigaction(SIGUSR1, &action, NULL);
}

static void *counted(void *block) {
    held += malloc_usable_size(block);
    return block;
}

static int refused(size_t size) { return (long)size > most - held; }

void *malloc(size_t size) {
    static void *(*real)(size_t);
    if (!real) real = dlsym(RTLD_NEXT, "malloc");
    return refused(size) ? NULL : counted(real(size));
}

void *calloc(size_t count, size_t size) {
    static void *(*real)(size_t, size_t);
    /* dlsym itself asks for memory in this way, and does without */
    static int looking;
    if (looking) return NULL;
    looking = 1;
    if (!real) real = dlsym(RTLD_NEXT, "calloc");
    looking = 0;
    return refused(count * size) ? NULL : counted(real(count, size));
}

void *realloc(void *old, size_t size) {
    static void *(*real)(void *, size_t);
    if (!real) real = dlsym(RTLD_NEXT, "realloc");
    size_t before = malloc_usable_size(old);
    if (size > before && refused(size - before)) return NULL;
    void *block = real(old, size);
    if (block) {
        held -= before;
        counted(block);
    }
    return block;
}

void free(void *block) {
    static void (*real)(void *);
    if (!real) real = dlsym(RTLD_NEXT, "free");
    held -= malloc_usable_size(block);
    real(block);
}
