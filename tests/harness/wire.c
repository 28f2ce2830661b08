/* Loaded before the C library. Each connection that a program takes is read and written as the file MANNER then says, in five numbers:
   PIECE READS TAKES WRITES ERROR
   A read gives at most PIECE bytes, and fails after READS others; a write takes at most TAKES bytes, and fails after WRITES others; they
   fail with this number of an error. */
#define _GNU_SOURCE
#include <errno.h>
#include <stdio.h>
#include <stdlib.h>
#include <sys/socket.h>
#include <sys/syscall.h>
#include <unistd.h>

/* the manner of the connection that was taken last: one is served at a time */
static int error;
static size_t piece, takes;
static long reads, writes;

static void read_manner(void) {
    FILE *file = fopen(getenv("MANNER"), "r");
    if (!file || fscanf(file, "%zu %ld %zu %ld %d", &piece, &reads, &takes, &writes, &error) != 5) abort();
    fclose(file);
}

int accept4(int fd, struct sockaddr *address, socklen_t *length, int flags) {
    int result = syscall(SYS_accept4, fd, address, length, flags);
    if (result >= 0) read_manner();
    return result;
}

int accept(int fd, struct sockaddr *address, socklen_t *length) {
    return accept4(fd, address, length, 0);
}

/* Counts a read or a write of which so many may succeed. Whether it fails, since none is left. */
static int fails(long *left) {
    if ((*left)--) return 0;
    *left = 0;
    errno = error;
    return 1;
}

static size_t least(size_t one, size_t other) {
    return one < other ? one : other;
}

ssize_t recvfrom(int fd, void *bytes, size_t length, int flags, struct sockaddr *address, socklen_t *size) {
    int is_look = flags & MSG_PEEK;
    if (!is_look && fails(&reads)) return -1;
    return syscall(SYS_recvfrom, fd, bytes, is_look ? length : least(length, piece), flags, address, size);
}

ssize_t recv(int fd, void *bytes, size_t length, int flags) {
    return recvfrom(fd, bytes, length, flags, NULL, NULL);
}

ssize_t sendto(int fd, const void *bytes, size_t length, int flags, const struct sockaddr *address, socklen_t size) {
    if (fails(&writes)) return -1;
    /* the system would wait for room, and so is not asked to take nothing */
    return takes ? syscall(SYS_sendto, fd, bytes, least(length, takes), flags, address, size) : 0;
}

ssize_t send(int fd, const void *bytes, size_t length, int flags) {
    return sendto(fd, bytes, length, flags, NULL, 0);
}
