// Preloaded before a program, this makes the system not report on one file for a while. The settings are variables, each without effect where it is not set:
//   LOOK_FILE  the path of the file, as the program names it
//   LOOK_ERROR the number of the error with which each call fails that asks about it by this path
#define _GNU_SOURCE
#include <errno.h>
#include <stdlib.h>
#include <string.h>
#include <sys/stat.h>
#include <sys/syscall.h>
#include <unistd.h>

#include "setting.h"

static const char *look_file;
static unsigned long look_error;

__attribute__((constructor)) static void read_settings(void) {
    look_file = getenv("LOOK_FILE");
    look_error = setting("LOOK_ERROR");
}

int statx(int folder, const char *path, int flags, unsigned int mask, struct statx *found) {
    if (look_file != NULL && look_error != 0 && strcmp(path, look_file) == 0) {
        errno = (int)look_error;
        return -1;
    }
    return (int)syscall(SYS_statx, folder, path, flags, mask, found);
}
