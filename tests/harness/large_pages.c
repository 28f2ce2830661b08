/* Loaded before the C library. It asks the system for large pages for the first large allocations of a program, and changes nothing else.
   The prover allocates a gigabyte at a time and reads it in no order, which is faster with pages of two megabytes. Large pages are never
   quite full, so that MOST bounds the memory that they waste. */
#define _GNU_SOURCE
#include <dlfcn.h>
#include <stdatomic.h>
#include <stddef.h>
#include <sys/mman.h>
#include <sys/types.h>

/* in bytes: the smallest allocation that gets large pages, and how much of a program's memory gets them */
static const size_t LARGE = (size_t)64 << 20, MOST = (size_t)3 << 30;
static atomic_size_t asked;

void *mmap(void *at, size_t length, int protection, int flags, int file, off_t offset) {
    __typeof__(&mmap) system_mmap = (__typeof__(&mmap))dlsym(RTLD_NEXT, "mmap");
    void *memory = system_mmap(at, length, protection, flags, file, offset);
    int is_writable = memory != MAP_FAILED && (flags & MAP_ANONYMOUS) && (protection & PROT_WRITE);
    /* if the system refuses, the pages stay small */
    if (is_writable && length >= LARGE && atomic_fetch_add(&asked, length) < MOST) madvise(memory, length, MADV_HUGEPAGE);
    return memory;
}
