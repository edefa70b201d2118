// Preloaded before a program, this makes its script come in small pieces, or fail, and its output
// go in small pieces, or fail. The settings are variables, each a number, and each without effect
// where it is not set:
//   READ_FROM         the descriptor whose reads count, 0 where it is not set
//   SOCKETS           1: what counts is what is read from sockets and written to them, and nothing else
//   READ_MOST         each read gives so many bytes at most
//   READ_FAIL_AT      the read of this number, from 1, fails
//   READ_LINE_ENDS    1: each read gives LF bytes, without end, whatever the descriptor holds
// A read of a socket that does not wait, and for which nothing is there yet, is not counted: it fails, and the socket is not read.
//   WRITE_MOST        each write to the standard output takes so many bytes at most
//   WRITE_FAIL_AT     the write of this number, from 1, fails
//   WRITE_NOTHING_AT  the write of this number, from 1, takes nothing and does not fail
// At the program's end it writes to descriptor 9 how many reads and how many writes were asked for.
#include <errno.h>
#include <fcntl.h>
#include <stdio.h>
#include <stdlib.h>
#include <string.h>
#include <sys/socket.h>
#include <sys/syscall.h>
#include <sys/types.h>
#include <unistd.h>

#include "setting.h"

static int read_from;
static int sockets;
static unsigned long read_most;
static unsigned long read_fail_at;
static unsigned long read_line_ends;
static unsigned long write_most;
static unsigned long write_fail_at;
static unsigned long write_nothing_at;

static unsigned long reads;
static unsigned long writes;

__attribute__((constructor)) static void read_settings(void) {
    read_from = (int)setting("READ_FROM");
    sockets = setting("SOCKETS") != 0;
    read_most = setting("READ_MOST");
    read_fail_at = setting("READ_FAIL_AT");
    read_line_ends = setting("READ_LINE_ENDS");
    write_most = setting("WRITE_MOST");
    write_fail_at = setting("WRITE_FAIL_AT");
    write_nothing_at = setting("WRITE_NOTHING_AT");
}

__attribute__((destructor)) static void tell_counts(void) {
    char line[64];
    int count = snprintf(line, sizeof line, "%lu %lu\n", reads, writes);
    syscall(SYS_write, 9, line, (size_t)count);
}

static size_t at_most(size_t size, unsigned long most) {
    return most != 0 && most < size ? most : size;
}

// Whether a socket has nothing to be read yet, nor an end: so a server that waits for many sockets reads each until it holds no more.
static int is_empty(int descriptor) {
    char byte;
    if (read_line_ends) {
        return 0;
    }
    return syscall(SYS_recvfrom, descriptor, &byte, 1, MSG_PEEK | MSG_DONTWAIT, NULL, NULL) < 0 && errno == EAGAIN;
}

// Counts a read of so many bytes at most. The answer of one that fails, or that gives LF bytes; else -2, with the size that it may have.
static ssize_t before_read(void *buffer, size_t *size) {
    reads += 1;
    if (reads == read_fail_at) {
        errno = EIO;
        return -1;
    }
    *size = at_most(*size, read_most);
    if (read_line_ends) {
        memset(buffer, '\n', *size);
        return (ssize_t)*size;
    }
    return -2;
}

// Counts a write of so many bytes at most. The answer of one that fails, or that takes nothing; else -2, with the size that it may have.
static ssize_t before_write(size_t *size) {
    writes += 1;
    if (writes == write_fail_at) {
        errno = EIO;
        return -1;
    }
    *size = at_most(*size, write_most);
    return writes == write_nothing_at ? 0 : -2;
}

ssize_t read(int descriptor, void *buffer, size_t size) {
    ssize_t answer = sockets || descriptor != read_from ? -2 : before_read(buffer, &size);
    return answer != -2 ? answer : syscall(SYS_read, descriptor, buffer, size);
}

ssize_t write(int descriptor, const void *buffer, size_t size) {
    ssize_t answer = sockets || descriptor != STDOUT_FILENO ? -2 : before_write(&size);
    return answer != -2 ? answer : syscall(SYS_write, descriptor, buffer, size);
}

ssize_t recv(int descriptor, void *buffer, size_t size, int flags) {
    ssize_t answer = -2;
    if (sockets) {
        if (is_empty(descriptor) && fcntl(descriptor, F_GETFL) & O_NONBLOCK) {
            // it is not read then: what comes in between would not be counted
            errno = EAGAIN;
            return -1;
        }
        answer = before_read(buffer, &size);
    }
    return answer != -2 ? answer : syscall(SYS_recvfrom, descriptor, buffer, size, flags, NULL, NULL);
}

ssize_t send(int descriptor, const void *buffer, size_t size, int flags) {
    ssize_t answer = sockets ? before_write(&size) : -2;
    return answer != -2 ? answer : syscall(SYS_sendto, descriptor, buffer, size, flags, NULL, 0);
}
