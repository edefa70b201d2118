/* What a library that stands before calls of the C library is told: a number by the name of a variable of the environment, 0 where there is none. */
#include <stdlib.h>

static unsigned long setting(const char *name) {
    const char *text = getenv(name);
    return text == NULL ? 0 : strtoul(text, NULL, 10);
}
