/* Loaded before the C library: the allocation of the number in REFUSE is refused, and no other. */
#define _GNU_SOURCE
#include <dlfcn.h>
#include <stdio.h>
#include <stdlib.h>

static long count;

/* Where COUNT names a file, how many allocations were asked for is written there at the end. */
__attribute__((destructor)) static void tell(void) {
    const char *path = getenv("COUNT");
    FILE *file = path ? fopen(path, "w") : NULL;
    if (file) {
        fprintf(file, "%ld", count);
        fclose(file);
    }
}

static int refused(void) {
    if (getenv("COUNT")) count++;
    const char *number = getenv("REFUSE");
    return number && ++count == atol(number);
}

void *malloc(size_t size) {
    static void *(*real)(size_t);
    if (!real) real = dlsym(RTLD_NEXT, "malloc");
    return refused() ? NULL : real(size);
}

void *calloc(size_t count, size_t size) {
    static void *(*real)(size_t, size_t);
    /* dlsym itself asks for memory in this way, and does without */
    static int looking;
    if (looking) return NULL;
    looking = 1;
    if (!real) real = dlsym(RTLD_NEXT, "calloc");
    looking = 0;
    return refused() ? NULL : real(count, size);
}

void *realloc(void *old, size_t size) {
    static void *(*real)(void *, size_t);
    if (!real) real = dlsym(RTLD_NEXT, "realloc");
    return refused() ? NULL : real(old, size);
}
