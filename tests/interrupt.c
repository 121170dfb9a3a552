/* SPDX-License-Identifier: MIT OR Apache-2.0 */
/*
 * For tests/sofaquery: stands in the way of the program's calls (LD_PRELOAD) and fails the first one on the file INTERRUPT, 0 or 1, as a
 * signal fails it that comes before a byte is moved. It does so in the program `sofaquery` alone, not in the shell that starts it.
 */
#define _GNU_SOURCE
#include <dlfcn.h>
#include <errno.h>
#include <stdlib.h>
#include <string.h>
#include <unistd.h>

static int interrupted(int file) {
    static int done;
    const char *which = getenv("INTERRUPT");
    if (done || !which || atoi(which) != file || strcmp(program_invocation_short_name, "sofaquery") != 0) return 0;
    errno = EINTR;
    return done = 1;
}

ssize_t read(int file, void *bytes, size_t count) {
    ssize_t (*next)(int, void *, size_t) = (ssize_t(*)(int, void *, size_t))dlsym(RTLD_NEXT, "read");
    return interrupted(file) ? -1 : next(file, bytes, count);
}

ssize_t write(int file, const void *bytes, size_t count) {
    ssize_t (*next)(int, const void *, size_t) = (ssize_t(*)(int, const void *, size_t))dlsym(RTLD_NEXT, "write");
    return interrupted(file) ? -1 : next(file, bytes, count);
}
