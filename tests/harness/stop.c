/* Loaded before the C library. It counts the changes of a database file and its log, and the reads of them:
   STOP    the program ends at the change of this number
   TORN    beside STOP: half of the bytes of a write that is stopped are written
   LOST    beside STOP: the files are then as they were when they were last synced
   FAIL    the change of this number fails and does nothing, as on a broken disk, and the program goes on
   UNREAD  the read of this number fails, and the program goes on
   HALT    the program halts at each change whose number is a multiple of this one, until it is sent SIGCONT
   COUNT   the number of changes, how many of them were syncs, and the number of reads are written to this file at the end */
#define _GNU_SOURCE
#include <dlfcn.h>
#include <errno.h>
#include <fcntl.h>
#include <limits.h>
#include <signal.h>
#include <stdio.h>
#include <stdlib.h>
#include <string.h>
#include <unistd.h>

static long changes, syncs, reads;

__attribute__((destructor)) static void tell(void) {
    const char *path = getenv("COUNT");
    FILE *file = path ? fopen(path, "w") : NULL;
    if (file) {
        fprintf(file, "%ld %ld %ld", changes, syncs, reads);
        fclose(file);
    }
}

/* The path of a database file or its log, which are the files that have the name in STOP_FILE. */
static int is_kept(int fd, char *path) {
    char link[64];
    const char *name = getenv("STOP_FILE");
    snprintf(link, sizeof link, "/proc/self/fd/%d", fd);
    ssize_t length = readlink(link, path, PATH_MAX - 1);
    if (length < 0 || !name) return 0;
    path[length] = 0;
    return strstr(path, name) != NULL;
}

/* Copies a file; where there is none, makes the copy empty. */
static void copy(const char *from, const char *to) {
    static char block[1 << 16];
    int source = open(from, O_RDONLY), target = open(to, O_WRONLY | O_CREAT | O_TRUNC, 0644);
    for (ssize_t got; source >= 0 && (got = read(source, block, sizeof block)) > 0;)
        if (write(target, block, got) != got) _exit(8);
    if (source >= 0) close(source);
    close(target);
}

static void synced(int fd) {
    char path[PATH_MAX], kept[PATH_MAX + 8];
    if (!getenv("LOST") || !is_kept(fd, path)) return;
    snprintf(kept, sizeof kept, "%s.synced", path);
    copy(path, kept);
}

static void lose(const char *path) {
    char kept[PATH_MAX + 8];
    snprintf(kept, sizeof kept, "%s.synced", path);
    if (access(path, F_OK) == 0) copy(kept, path);
}

static void stop(void) {
    const char *name = getenv("STOP_FILE");
    char log[PATH_MAX];
    if (getenv("LOST")) {
        snprintf(log, sizeof log, "%s-wal", name);
        lose(name);
        lose(log);
    }
    _exit(9);
}

/* Whether this change is the one at which the program ends. */
static int is_last(int fd) {
    char path[PATH_MAX];
    const char *number = getenv("STOP"), *every = getenv("HALT");
    if (!is_kept(fd, path)) return 0;
    changes++;
    if (every && changes % atol(every) == 0) raise(SIGSTOP);
    return number && changes == atol(number);
}

/* Whether the change that was counted last, or the read, is the one that fails. */
static int fails(const char *which, int fd, long number) {
    char path[PATH_MAX];
    const char *failing = getenv(which);
    if (!failing || !is_kept(fd, path) || number != atol(failing)) return 0;
    errno = EIO;
    return 1;
}

#define REAL(name) ((__typeof__(&name))dlsym(RTLD_NEXT, #name))

ssize_t pwrite(int fd, const void *bytes, size_t length, off_t at) {
    if (is_last(fd)) {
        if (getenv("TORN")) REAL(pwrite)(fd, bytes, length / 2, at);
        stop();
    }
    if (fails("FAIL", fd, changes)) return -1;
    return REAL(pwrite)(fd, bytes, length, at);
}

int ftruncate(int fd, off_t length) {
    if (is_last(fd)) stop();
    if (fails("FAIL", fd, changes)) return -1;
    return REAL(ftruncate)(fd, length);
}

int fsync(int fd) {
    if (is_last(fd)) stop();
    if (fails("FAIL", fd, changes)) return -1;
    int answer = REAL(fsync)(fd);
    syncs++;
    synced(fd);
    return answer;
}

int fdatasync(int fd) {
    if (is_last(fd)) stop();
    if (fails("FAIL", fd, changes)) return -1;
    int answer = REAL(fdatasync)(fd);
    syncs++;
    synced(fd);
    return answer;
}

ssize_t pread(int fd, void *bytes, size_t length, off_t at) {
    char path[PATH_MAX];
    if (is_kept(fd, path)) reads++;
    if (fails("UNREAD", fd, reads)) return -1;
    return REAL(pread)(fd, bytes, length, at);
}
