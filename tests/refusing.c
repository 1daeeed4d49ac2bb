// Loaded before the C library (LD_PRELOAD), it refuses allocations, by what the environment says: the one whose number,
// from 1, REFUSED gives; and after the first AFTER of them one of SHARE, chosen by SEED (with a SHARE of 1 each). With TOLD set, a
// line on standard error tells that the one by its number was refused.
#define _GNU_SOURCE
#include <dlfcn.h>
#include <errno.h>
#include <stddef.h>
#include <stdlib.h>
#include <unistd.h>

static unsigned long made;

static unsigned long number(const char *name) {
    const char *text = getenv(name);
    return text ? strtoul(text, NULL, 10) : 0;
}

static int is_of_share(unsigned long at, unsigned long share) {
    if (share == 0 || at <= number("AFTER")) return 0;
    unsigned long mixed = (at + number("SEED")) * 0x9e3779b97f4a7c15ul;
    return (mixed ^ mixed >> 31) % share == 0;
}

static int is_by_number(unsigned long at) {
    static const char line[] = "allocation refused\n";
    if (at != number("REFUSED")) return 0;
    if (getenv("TOLD") && write(2, line, sizeof line - 1) < 0) abort();
    return 1;
}

static int refuses(void) {
    unsigned long at = __atomic_add_fetch(&made, 1, __ATOMIC_RELAXED);
    return is_by_number(at) || is_of_share(at, number("SHARE"));
}

void *malloc(size_t size) {
    static void *(*next)(size_t);
    if (!next) next = (void *(*)(size_t))dlsym(RTLD_NEXT, "malloc");
    return refuses() ? NULL : next(size);
}

void *realloc(void *old, size_t size) {
    static void *(*next)(void *, size_t);
    if (!next) next = (void *(*)(void *, size_t))dlsym(RTLD_NEXT, "realloc");
    return refuses() ? NULL : next(old, size);
}

void *aligned_alloc(size_t align, size_t size) {
    static void *(*next)(size_t, size_t);
    if (!next) next = (void *(*)(size_t, size_t))dlsym(RTLD_NEXT, "aligned_alloc");
    return refuses() ? NULL : next(align, size);
}

int posix_memalign(void **out, size_t align, size_t size) {
    static int (*next)(void **, size_t, size_t);
    if (!next) next = (int (*)(void **, size_t, size_t))dlsym(RTLD_NEXT, "posix_memalign");
    return refuses() ? ENOMEM : next(out, align, size);
}
