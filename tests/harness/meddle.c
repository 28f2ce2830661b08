/* Loaded before the C library. Each variable that is set changes one answer of the system:
   LATE     each sync of a file takes this many seconds by the clock, though it takes none
   NOW      this many seconds have passed since 1970
   DAYS     beside NOW: a day passes with each connection that is taken
   TICKS    beside NOW: a day passes each time the program asks for the date
   ACCEPT   the first connection cannot be taken, with this number of an error
   PIPE     a pipe takes the place of this file once the program has written to standard output
   GONE     this file is deleted once the program has written to standard output
   LOOKED   this file is deleted once the program has then looked at it
   LISTING  a folder cannot be read on behind its first entries
   ENTRY    a folder does not say what this entry is, and it cannot be looked at
   SHORT    one read gives this many bytes at most
   READS    how often standard input was read, and how often its end was found, are written to this file at the end
   TORN     this file, or standard input if it is -, cannot be read on once AFTER bytes of it were read
   ROOM     standard output takes a byte at a time, and once it has this many it fails, or with NOTHING takes no more */
#define _GNU_SOURCE
#include <dirent.h>
#include <errno.h>
#include <stdio.h>
#include <stdlib.h>
#include <string.h>
#include <sys/stat.h>
#include <sys/syscall.h>
#include <time.h>
#include <unistd.h>

static long passed;

static int late(int result) {
    const char *seconds = getenv("LATE");
    if (seconds) passed += atol(seconds);
    return result;
}

int fsync(int fd) {
    return late(syscall(SYS_fsync, fd));
}

int fdatasync(int fd) {
    return late(syscall(SYS_fdatasync, fd));
}

static long taken;

/* How many days have passed since the program began. */
static long days(void) {
    static long asked;
    return (getenv("DAYS") ? taken : 0) + (getenv("TICKS") ? asked++ : 0);
}

int clock_gettime(clockid_t clock, struct timespec *now) {
    int result = syscall(SYS_clock_gettime, clock, now);
    const char *seconds = getenv("NOW");
    if (clock == CLOCK_MONOTONIC) now->tv_sec += passed;
    if (clock == CLOCK_REALTIME && seconds) now->tv_sec = atol(seconds) + 86400 * days();
    return result;
}

static int refused(void) {
    static int done;
    const char *number = getenv("ACCEPT");
    if (!number || done++) return 0;
    errno = atoi(number);
    return 1;
}

int accept4(int fd, void *address, void *length, int flags) {
    int result = refused() ? -1 : syscall(SYS_accept4, fd, address, length, flags);
    if (result >= 0) taken++;
    return result;
}

int accept(int fd, void *address, void *length) {
    return accept4(fd, address, length, 0);
}

static int fault(void) {
    errno = EIO;
    return -1;
}

static long written, printed;

ssize_t write(int fd, const void *bytes, size_t length) {
    const char *pipe = getenv("PIPE"), *gone = getenv("GONE"), *room = getenv("ROOM");
    if (room && fd == 1 && length) {
        if (printed >= atol(room)) return getenv("NOTHING") ? 0 : fault();
        printed++;
        length = 1;
    }
    if (fd == 1 && !written++) {
        if (pipe || gone) unlink(pipe ? pipe : gone);
        if (pipe) mkfifo(pipe, 0600);
    }
    return syscall(SYS_write, fd, bytes, length);
}

ssize_t getdents64(int fd, void *buffer, size_t length) {
    static int calls;
    if (getenv("LISTING") && calls++) return fault();
    ssize_t taken = syscall(SYS_getdents64, fd, buffer, length);
    const char *name = getenv("ENTRY");
    for (ssize_t at = 0; name && at < taken;) {
        struct dirent64 *entry = (struct dirent64 *)((char *)buffer + at);
        if (!strcmp(entry->d_name, name)) entry->d_type = DT_UNKNOWN;
        at += entry->d_reclen;
    }
    return taken;
}

int statx(int folder, const char *path, int flags, unsigned mask, struct statx *found) {
    const char *name = getenv("ENTRY"), *looked = getenv("LOOKED"), *last = strrchr(path, '/');
    if (name && !strcmp(last ? last + 1 : path, name)) return fault();
    int result = syscall(SYS_statx, folder, path, flags, mask, found);
    if (looked && written && !strcmp(path, looked)) unlink(path);
    return result;
}

static int is_torn(int fd) {
    const char *path = getenv("TORN");
    struct stat this, torn;
    if (!path || !strcmp(path, "-")) return path && !fd;
    return !fstat(fd, &this) && !stat(path, &torn) && this.st_dev == torn.st_dev && this.st_ino == torn.st_ino;
}

static long reads, ends, of_torn;

ssize_t read(int fd, void *bytes, size_t length) {
    const char *most = getenv("SHORT");
    if (most && length > (size_t)atol(most)) length = atol(most);
    int torn = is_torn(fd);
    long left = torn ? atol(getenv("AFTER")) - of_torn : 0;
    if (torn && left <= 0) return fault();
    if (torn && length > (size_t)left) length = left;
    ssize_t taken = syscall(SYS_read, fd, bytes, length);
    if (torn && taken > 0) of_torn += taken;
    if (!fd) reads++;
    if (!fd && !taken) ends++;
    return taken;
}

__attribute__((destructor)) static void tell(void) {
    const char *path = getenv("READS");
    FILE *file = path ? fopen(path, "w") : NULL;
    if (file) {
        fprintf(file, "%ld %ld", reads, ends);
        fclose(file);
    }
}
