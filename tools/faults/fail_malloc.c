// Preloaded before a program, this makes one request for memory fail: the one whose number the
// variable FAIL_AT gives, from 1. The failure writes one byte to the descriptor FAIL_MARK, 9 where
// that is not set, so that the caller sees whether the program asked so often. Where the variable
// FAIL_BEHIND_ACCEPT is set, requests count only from the first connection on that the program
// accepts.
#define _GNU_SOURCE
#include <errno.h>
#include <stddef.h>
#include <stdlib.h>
#include <sys/socket.h>
#include <sys/syscall.h>
#include <unistd.h>

#include "setting.h"

void *__libc_malloc(size_t size);
void *__libc_calloc(size_t count, size_t size);
void *__libc_realloc(void *block, size_t size);

static unsigned long asked;
static unsigned long fail_at;
static int mark;
static int waits;

__attribute__((constructor)) static void read_settings(void) {
    fail_at = setting("FAIL_AT");
    mark = getenv("FAIL_MARK") == NULL ? 9 : (int)setting("FAIL_MARK");
    waits = getenv("FAIL_BEHIND_ACCEPT") != NULL;
}

int accept4(int listener, struct sockaddr *peer, socklen_t *size, int flags) {
    int accepted = (int)syscall(SYS_accept4, listener, peer, size, flags);
    if (accepted >= 0) {
        waits = 0;
    }
    return accepted;
}

static int fails(void) {
    asked += !waits;
    if (waits || asked != fail_at) {
        return 0;
    }
    (void)!write(mark, "x", 1);
    errno = ENOMEM;
    return 1;
}

void *malloc(size_t size) { return fails() ? NULL : __libc_malloc(size); }

void *calloc(size_t count, size_t size) { return fails() ? NULL : __libc_calloc(count, size); }

void *realloc(void *block, size_t size) { return fails() ? NULL : __libc_realloc(block, size); }
