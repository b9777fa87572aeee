// Loaded in front of the C library, it makes one call of the program fail, or each read and write move one octet.
// FAILING names the call, FAILING_AT says which of them, counted from 1, and FAILED is a folder that it makes then.
#define _GNU_SOURCE
#include <dlfcn.h>
#include <errno.h>
#include <fcntl.h>
#include <stdarg.h>
#include <stdlib.h>
#include <string.h>
#include <sys/stat.h>
#include <unistd.h>

static long calls;

static int is_named(const char *call) {
    const char *named = getenv("FAILING");
    return named && !strcmp(named, call);
}

// Whether this call of a function is to fail.
static int fails(const char *call) {
    const char *at = getenv("FAILING_AT");
    if (!is_named(call) || !at || ++calls != atol(at))
        return 0;
    mkdir(getenv("FAILED"), 0700);
    return 1;
}

void *malloc(size_t size) {
    static void *(*real)(size_t);
    if (!real)
        *(void **)&real = dlsym(RTLD_NEXT, "malloc");
    if (fails("memory")) {
        errno = ENOMEM;
        return NULL;
    }
    return real(size);
}

void *realloc(void *block, size_t size) {
    static void *(*real)(void *, size_t);
    if (!real)
        *(void **)&real = dlsym(RTLD_NEXT, "realloc");
    if (fails("memory")) {
        errno = ENOMEM;
        return NULL;
    }
    return real(block, size);
}

ssize_t read(int file, void *octets, size_t count) {
    static ssize_t (*real)(int, void *, size_t);
    if (!real)
        *(void **)&real = dlsym(RTLD_NEXT, "read");
    if (fails("read")) {
        errno = EIO;
        return -1;
    }
    return real(file, octets, is_named("short") && count > 1 ? 1 : count);
}

ssize_t write(int file, const void *octets, size_t count) {
    static ssize_t (*real)(int, const void *, size_t);
    if (!real)
        *(void **)&real = dlsym(RTLD_NEXT, "write");
    if (fails("write")) {
        errno = EIO;
        return -1;
    }
    return real(file, octets, is_named("short") && count > 1 ? 1 : count);
}

ssize_t __write(int file, const void *octets, size_t count) {
    return write(file, octets, count);
}

int open(const char *path, int flags, ...) {
    static int (*real)(const char *, int, ...);
    if (!real)
        *(void **)&real = dlsym(RTLD_NEXT, "open");
    if (fails("open")) {
        errno = EACCES;
        return -1;
    }
    va_list more;
    va_start(more, flags);
    int mode = flags & O_CREAT ? va_arg(more, int) : 0;
    va_end(more);
    return real(path, flags, mode);
}

int ftruncate(int file, off_t length) {
    static int (*real)(int, off_t);
    if (!real)
        *(void **)&real = dlsym(RTLD_NEXT, "ftruncate");
    if (fails("empty")) {
        errno = EIO;
        return -1;
    }
    return real(file, length);
}
