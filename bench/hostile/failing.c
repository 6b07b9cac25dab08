// A library that is loaded before a program, and has one of its calls fail: FAIL is the name of the call and its number, from 1
// on, as `malloc 7`. That the call was reached is said by a file, whose name is in REACHED, since
// the program may end without a sign of it.
#define _GNU_SOURCE
#include <dlfcn.h>
#include <errno.h>
#include <fcntl.h>
#include <stdatomic.h>
#include <stdlib.h>
#include <string.h>
#include <unistd.h>

static atomic_ulong calls;

// Whether this call is the one that fails. `malloc` and `realloc` are counted together.
static int fails(const char *name) {
    const char *wanted = getenv("FAIL"), *reached = getenv("REACHED");
    size_t length = strlen(name);
    if (!wanted || strncmp(wanted, name, length) || wanted[length] != ' ')
        return 0;
    if (atomic_fetch_add(&calls, 1) + 1 != strtoul(wanted + length, NULL, 10))
        return 0;
    if (reached)
        close(open(reached, O_CREAT | O_WRONLY, 0600));
    return 1;
}

void *malloc(size_t size) {
    static void *(*next)(size_t);
    if (!next)
        next = (void *(*)(size_t))dlsym(RTLD_NEXT, "malloc");
    return fails("malloc") ? NULL : next(size);
}

void *realloc(void *place, size_t size) {
    static void *(*next)(void *, size_t);
    if (!next)
        next = (void *(*)(void *, size_t))dlsym(RTLD_NEXT, "realloc");
    return fails("malloc") ? NULL : next(place, size);
}

ssize_t read(int file, void *into, size_t size) {
    static ssize_t (*next)(int, void *, size_t);
    if (!next)
        next = (ssize_t(*)(int, void *, size_t))dlsym(RTLD_NEXT, "read");
    if (file == 0 && fails("read")) {
        errno = EIO;
        return -1;
    }
    return next(file, into, size);
}

ssize_t write(int file, const void *from, size_t size) {
    static ssize_t (*next)(int, const void *, size_t);
    if (!next)
        next = (ssize_t(*)(int, const void *, size_t))dlsym(RTLD_NEXT, "write");
    if (file == 1 && fails("write")) {
        errno = EIO;
        return -1;
    }
    return next(file, from, size);
}
