// Preloaded before `tcdesk backup`, this lets a test do something between the reading of a desk's file and that of its log. The settings are variables, each
// without effect where it is not set:
//   COPY_LOG   the path of the desk's log, as the program opens it
//   COPY_GATE  the path of a file: as the log is opened for the second time, behind the first marks and the file itself, that file is made, and the program
//              waits until it is gone
//   COPY_LIES  1: whenever the log is opened later, as it is for the second marks, what is read first of it is what was read first of it in the
//              beginning. So the program sees a log that was never emptied
//   COPY_FAILS the read of this number, from 1, of any file fails
#define _GNU_SOURCE
#include <errno.h>
#include <fcntl.h>
#include <stdarg.h>
#include <stdlib.h>
#include <string.h>
#include <sys/stat.h>
#include <sys/syscall.h>
#include <sys/types.h>
#include <time.h>
#include <unistd.h>

#include "setting.h"

enum { HEAD = 32, NONE = -1 };

static const char *log_path;
static const char *gate;
static unsigned long lies;
static unsigned long fails;

static unsigned long reads;
// How often the log was opened, the descriptor of the last time while nothing was read of it, and what was read first of all.
static unsigned long openings;
static int fresh = NONE;
static unsigned char head[HEAD];

__attribute__((constructor)) static void read_settings(void) {
    log_path = getenv("COPY_LOG");
    gate = getenv("COPY_GATE");
    lies = setting("COPY_LIES");
    fails = setting("COPY_FAILS");
}

// Makes the gate, and waits until it is gone.
static void wait_at_gate(void) {
    const struct timespec millisecond = {0, 1000000};
    int made = (int)syscall(SYS_openat, AT_FDCWD, gate, O_CREAT | O_WRONLY, 0600);
    if (made < 0) {
        abort();
    }
    close(made);
    while (access(gate, F_OK) == 0) {
        nanosleep(&millisecond, NULL);
    }
}

int open(const char *path, int flags, ...) {
    va_list rest;
    va_start(rest, flags);
    mode_t mode = flags & O_CREAT ? va_arg(rest, mode_t) : 0;
    va_end(rest);
    int is_log = log_path != NULL && strcmp(path, log_path) == 0;
    openings += is_log;
    if (is_log && openings == 2 && gate != NULL) {
        wait_at_gate();
    }
    int opened = (int)syscall(SYS_openat, AT_FDCWD, path, flags, mode);
    if (is_log) {
        fresh = opened;
    }
    return opened;
}

ssize_t read(int descriptor, void *bytes, size_t size) {
    reads += 1;
    if (reads == fails) {
        errno = EIO;
        return -1;
    }
    ssize_t got = syscall(SYS_read, descriptor, bytes, size);
    if (descriptor == fresh && got > 0) {
        fresh = NONE;
        if (openings == 1) {
            memcpy(head, bytes, got < HEAD ? (size_t)got : HEAD);
        } else if (lies && openings > 2) {
            memcpy(bytes, head, got < HEAD ? (size_t)got : HEAD);
        }
    }
    return got;
}
