/* sideways_heap.c: the three functions over malloc, realloc and free that the engine calls. Trusted: written in C, not proved.

   They are as those that the toolchain links into a program, and besides ask the system for huge pages under large blocks, as numpy does
   for its arrays: a table's columns and the maps are filled from end to end. */
#define _DEFAULT_SOURCE
#include <stdint.h>
#include <stdlib.h>
#include <sys/mman.h>

typedef struct {
    uint64_t granted;
    void *at;
} rattle_grant;
rattle_grant rattle_alloc(size_t size, size_t align);
rattle_grant rattle_realloc(void *at, size_t kept, size_t size, size_t align);
void rattle_dealloc(void *at);

enum { HUGE_PAGE = 1 << 21, LARGE = 1 << 22 };

/* What was given, if it was. Advice that the system does not take changes nothing. */
static rattle_grant given(void *at, size_t size) {
    rattle_grant grant = {at != NULL, at};
#ifdef MADV_HUGEPAGE
    if (at != NULL && size >= LARGE) {
        uintptr_t from = ((uintptr_t)at + HUGE_PAGE - 1) & -(uintptr_t)HUGE_PAGE, to = ((uintptr_t)at + size) & -(uintptr_t)HUGE_PAGE;
        (void)madvise((void *)from, to - from, MADV_HUGEPAGE);
    }
#else
    (void)size;
#endif
    return grant;
}

rattle_grant rattle_alloc(size_t size, size_t align) {
    return given(malloc(size != 0 ? size : align), size);
}

rattle_grant rattle_realloc(void *at, size_t kept, size_t size, size_t align) {
    (void)kept;
    return given(realloc(at, size != 0 ? size : align), size);
}

void rattle_dealloc(void *at) {
    free(at);
}
