#!/bin/bash
# tools/faults/make_shim.sh NAME FOLDER: makes FOLDER/NAME.so of tools/faults/NAME.c, which stands before calls of the C library (LD_PRELOAD). Status 1 where it
# cannot be made.
set -u
top=$(cd "$(dirname "${BASH_SOURCE[0]}")/../.." && pwd) || exit 1
command -v "${CC:-cc}" >/dev/null || { echo "make_shim: there is no C compiler ${CC:-cc} (Debian: gcc, libc6-dev)" >&2; exit 1; }
"${CC:-cc}" -O2 -Wall -Wextra -shared -fPIC -o "$2/$1.so" "$top/tools/faults/$1.c"
