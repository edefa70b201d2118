// Preloaded before a program, this stops it dead at one of its calls that change or sync a database file or the log beside it, and leaves the
// two files as the end of the program, or of the power, would leave them; or it fails all these calls from one on, with those that read the two
// files or without them. The settings are variables, each without effect where it is not set:
//   STOP_FILE  the path of the database file; its log has that name with -wal behind it
//   STOP_AT    the call of this number, from 1, is not made: the program ends there, with status 137. Of 0 none is stopped, and their number
//              is told on the standard error at the end
//   STOP_HALF  1: of the call at which it stops the first half is made, of a write half of its bytes (of one byte that byte), of a change of
//              length half of the way. Half of a sync is nothing: there the status is 138
//   STOP_LOST  1: before that, of each file all is undone that was done to it since its last sync. With STOP_HALF the half that is made comes
//              to the disk all the same, as from one that writes in another order
//   FAIL_FROM  the call of this number, from 1, fails, and so does each one behind it; nothing is made of them
//   FAIL_READS 1: the calls that read either file count too, and are stopped or fail as the others do. Half of a read is nothing, as of a sync. Where
//              it is not set no read is looked at
// No sync is passed on to the disk, whose time it would cost: here a sync is where what was done before it can be lost no more.
#define _GNU_SOURCE
#include <errno.h>
#include <fcntl.h>
#include <stdio.h>
#include <stdlib.h>
#include <sys/stat.h>
#include <sys/syscall.h>
#include <sys/types.h>
#include <unistd.h>

#include "setting.h"

enum { FILES = 2, NEITHER = -1, STOPPED = 137, NOTHING_TO_HALVE = 138 };

// What a call took away: the bytes that stood at a place, and the length that the file had.
struct change {
    struct change *before;
    off_t at;
    off_t length;
    size_t size;
    unsigned char bytes[];
};

// The database file and its log: their paths, and what was done to each since its last sync, the last first.
static char paths[FILES][4096];
static struct change *changes[FILES];

static unsigned long calls;
static unsigned long stop_at;
static unsigned long stop_half;
static unsigned long stop_lost;
static unsigned long fail_from;
static unsigned long fail_reads;

__attribute__((constructor)) static void read_settings(void) {
    const char *path = getenv("STOP_FILE");
    if (path != NULL) {
        snprintf(paths[0], sizeof paths[0], "%s", path);
        snprintf(paths[1], sizeof paths[1], "%s-wal", path);
    }
    stop_at = setting("STOP_AT");
    stop_half = setting("STOP_HALF");
    stop_lost = setting("STOP_LOST");
    fail_from = setting("FAIL_FROM");
    fail_reads = setting("FAIL_READS");
}

__attribute__((destructor)) static void tell_calls(void) {
    const char *at = getenv("STOP_AT");
    if (at != NULL && stop_at == 0) {
        dprintf(STDERR_FILENO, "%lu\n", calls);
    }
}

// Which of the two files a descriptor is of.
static int file_of(int descriptor) {
    struct stat own, named;
    if (fstat(descriptor, &own) != 0) {
        return NEITHER;
    }
    for (int file = 0; file < FILES; file += 1) {
        if (stat(paths[file], &named) == 0 && own.st_dev == named.st_dev && own.st_ino == named.st_ino) {
            return file;
        }
    }
    return NEITHER;
}

static off_t length_of(int descriptor) {
    struct stat found;
    return fstat(descriptor, &found) == 0 ? found.st_size : 0;
}

// The calls themselves, past the functions of these names below.
static ssize_t put(int descriptor, const void *bytes, size_t size, off_t at) {
    return syscall(SYS_pwrite64, descriptor, bytes, size, at);
}

static int cut(int descriptor, off_t length) { return (int)syscall(SYS_ftruncate, descriptor, length); }

// Remembers what a call is about to take away between two places of a file.
static void remember(int file, int descriptor, off_t at, off_t end) {
    off_t length = length_of(descriptor);
    off_t last = end < length ? end : length;
    size_t size = at < last ? (size_t)(last - at) : 0;
    struct change *change = malloc(sizeof *change + size);
    // (what is written behind the end takes nothing away: its descriptor may be one that only writes)
    if (change == NULL || (size > 0 && syscall(SYS_pread64, descriptor, change->bytes, size, at) != (long)size)) {
        abort();
    }
    change->before = changes[file];
    change->at = at;
    change->length = length;
    change->size = size;
    changes[file] = change;
}

// Forgets what was done to a file, which can be lost no more.
static void keep(int file) {
    while (changes[file] != NULL) {
        struct change *change = changes[file];
        changes[file] = change->before;
        free(change);
    }
}

// Undoes what was done to a file since its last sync, the last first. It is opened by its path: by then the program may have closed it, or taken it away.
static void lose(int file) {
    int descriptor = open(paths[file], O_WRONLY);
    if (descriptor < 0) {
        return;
    }
    for (struct change *change = changes[file]; change != NULL; change = change->before) {
        if (put(descriptor, change->bytes, change->size, change->at) != (ssize_t)change->size || cut(descriptor, change->length) != 0) {
            abort();
        }
    }
    close(descriptor);
}

// Counts a call, and says whether the program stops at it, which it does once what is lost is undone.
static int stops_here(void) {
    calls += 1;
    if (calls != stop_at) {
        return 0;
    }
    for (int file = 0; stop_lost && file < FILES; file += 1) {
        lose(file);
    }
    return 1;
}

// Whether the call that was counted last fails.
static int fails_here(void) {
    if (fail_from == 0 || calls < fail_from) {
        return 0;
    }
    errno = EIO;
    return 1;
}

// Counts a call of which no half can be made, ends the program where it stops there, and says whether the call fails.
static int whole_fails(void) {
    if (stops_here()) {
        _exit(stop_half ? NOTHING_TO_HALVE : STOPPED);
    }
    return fails_here();
}

// Counts a read, where reads count and it is of one of the files, and says whether it fails.
static int read_fails(int descriptor) { return fail_reads && file_of(descriptor) != NEITHER && whole_fails(); }

ssize_t pread(int descriptor, void *bytes, size_t size, off_t at) {
    return read_fails(descriptor) ? -1 : syscall(SYS_pread64, descriptor, bytes, size, at);
}

ssize_t pread64(int descriptor, void *bytes, size_t size, off_t at) { return pread(descriptor, bytes, size, at); }

ssize_t read(int descriptor, void *bytes, size_t size) {
    return read_fails(descriptor) ? -1 : syscall(SYS_read, descriptor, bytes, size);
}

// A write to one of the files, at a place.
static ssize_t write_to(int file, int descriptor, const void *bytes, size_t size, off_t at) {
    if (stops_here()) {
        if (stop_half) {
            (void)!put(descriptor, bytes, (size + 1) / 2, at);
        }
        _exit(STOPPED);
    }
    if (fails_here()) {
        return -1;
    }
    remember(file, descriptor, at, at + (off_t)size);
    return put(descriptor, bytes, size, at);
}

ssize_t pwrite(int descriptor, const void *bytes, size_t size, off_t at) {
    int file = file_of(descriptor);
    return file == NEITHER ? put(descriptor, bytes, size, at) : write_to(file, descriptor, bytes, size, at);
}

ssize_t pwrite64(int descriptor, const void *bytes, size_t size, off_t at) { return pwrite(descriptor, bytes, size, at); }

ssize_t write(int descriptor, const void *bytes, size_t size) {
    int file = file_of(descriptor);
    if (file == NEITHER) {
        return syscall(SYS_write, descriptor, bytes, size);
    }
    ssize_t written = write_to(file, descriptor, bytes, size, lseek(descriptor, 0, SEEK_CUR));
    if (written > 0) {
        lseek(descriptor, written, SEEK_CUR);
    }
    return written;
}

int ftruncate(int descriptor, off_t length) {
    int file = file_of(descriptor);
    if (file == NEITHER) {
        return cut(descriptor, length);
    }
    off_t before = length_of(descriptor);
    if (stops_here()) {
        if (stop_half) {
            (void)!cut(descriptor, (before + length) / 2);
        }
        _exit(STOPPED);
    }
    if (fails_here()) {
        return -1;
    }
    remember(file, descriptor, length, before);
    return cut(descriptor, length);
}

int ftruncate64(int descriptor, off_t length) { return ftruncate(descriptor, length); }

int fsync(int descriptor) {
    int file = file_of(descriptor);
    if (file == NEITHER) {
        return 0;
    }
    if (whole_fails()) {
        return -1;
    }
    keep(file);
    return 0;
}

int fdatasync(int descriptor) { return fsync(descriptor); }
