// Loaded before the C library (LD_PRELOAD), it looks at the reads and writes of one file, by what the environment says: FILE is the end of
// its path. Each takes MOST bytes at most, where that is given; and the one whose number, from 1, FAILED gives fails. With TOLD set, a line
// on standard error tells that it did.
#define _GNU_SOURCE
#include <dlfcn.h>
#include <errno.h>
#include <stdio.h>
#include <stdlib.h>
#include <string.h>
#include <sys/uio.h>
#include <unistd.h>

static unsigned long made;

static unsigned long number(const char *name) {
    const char *text = getenv(name);
    return text ? strtoul(text, NULL, 10) : 0;
}

static int is_of_file(int descriptor) {
    char link[64], path[4096];
    const char *end = getenv("FILE");
    snprintf(link, sizeof link, "/proc/self/fd/%d", descriptor);
    ssize_t size = readlink(link, path, sizeof path);
    ssize_t wanted = end ? (ssize_t)strlen(end) : size + 1;
    return size >= wanted && memcmp(path + size - wanted, end, (size_t)wanted) == 0;
}

static ssize_t write_on(int descriptor, const void *from, size_t size) {
    static ssize_t (*next)(int, const void *, size_t);
    if (!next) next = (ssize_t (*)(int, const void *, size_t))dlsym(RTLD_NEXT, "write");
    return next(descriptor, from, size);
}

static ssize_t read_on(int descriptor, void *to, size_t size) {
    static ssize_t (*next)(int, void *, size_t);
    if (!next) next = (ssize_t (*)(int, void *, size_t))dlsym(RTLD_NEXT, "read");
    return next(descriptor, to, size);
}

static int fails(void) {
    static const char line[] = "read or write failed\n";
    if (__atomic_add_fetch(&made, 1, __ATOMIC_RELAXED) != number("FAILED")) return 0;
    if (getenv("TOLD") && write_on(2, line, sizeof line - 1) < 0) abort();
    errno = EIO;
    return 1;
}

static size_t fewer(size_t size) {
    size_t most = number("MOST");
    return most && most < size ? most : size;
}

ssize_t read(int descriptor, void *to, size_t size) {
    if (!is_of_file(descriptor)) return read_on(descriptor, to, size);
    return fails() ? -1 : read_on(descriptor, to, fewer(size));
}

ssize_t write(int descriptor, const void *from, size_t size) {
    if (!is_of_file(descriptor)) return write_on(descriptor, from, size);
    return fails() ? -1 : write_on(descriptor, from, fewer(size));
}

ssize_t writev(int descriptor, const struct iovec *parts, int count) {
    static ssize_t (*next)(int, const struct iovec *, int);
    if (!next) next = (ssize_t (*)(int, const struct iovec *, int))dlsym(RTLD_NEXT, "writev");
    if (!is_of_file(descriptor)) return next(descriptor, parts, count);
    if (fails()) return -1;
    while (count > 1 && parts->iov_len == 0) parts++, count--;
    return number("MOST") && count > 0 ? write_on(descriptor, parts->iov_base, fewer(parts->iov_len)) : next(descriptor, parts, count);
}
