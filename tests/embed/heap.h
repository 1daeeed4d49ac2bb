/* The library's only outside, the three functions over malloc, replaced: they count, and refuse what a test asks them to refuse. */
#ifndef HEAP_H
#define HEAP_H
#include <stdbool.h>
#include <stdint.h>
#include <stdlib.h>

/* What is granted: 1 and where it stands, or 0. Alignments divide 16. */
typedef struct {
    uint64_t granted;
    void *at;
} rattle_grant;
rattle_grant rattle_alloc(size_t size, size_t align);
rattle_grant rattle_realloc(void *at, size_t kept, size_t size, size_t align);
void rattle_dealloc(void *at);

/* The bytes and the grants that are out, the requests so far, and which of them is refused: from `refused_from` on `refused_many`. */
static uint64_t heap_bytes, heap_grants, heap_asked, refused_from, refused_many;

/* How many bytes stand in front of what is granted; the first eight of them are its size. */
enum { FRONT = 16 };

static bool heap_refuses(void) {
    heap_asked++;
    return heap_asked >= refused_from && heap_asked - refused_from < refused_many;
}

/* A block of so many bytes for what is granted, or nothing. */
static rattle_grant heap_grant(void *block, size_t size) {
    rattle_grant grant = {block != NULL, NULL};
    if (block == NULL) return grant;
    *(uint64_t *)block = size;
    grant.at = (char *)block + FRONT;
    heap_bytes += size;
    heap_grants++;
    return grant;
}

static void *heap_block(void *at) {
    void *block = (char *)at - FRONT;
    heap_bytes -= *(uint64_t *)block;
    heap_grants--;
    return block;
}

rattle_grant rattle_alloc(size_t size, size_t align) {
    (void)align;
    return heap_grant(heap_refuses() ? NULL : malloc(FRONT + size), size);
}

rattle_grant rattle_realloc(void *at, size_t kept, size_t size, size_t align) {
    rattle_grant refused = {0, at};
    (void)kept, (void)align;
    if (heap_refuses()) return refused;
    return heap_grant(realloc(heap_block(at), FRONT + size), size);
}

void rattle_dealloc(void *at) {
    free(heap_block(at));
}
#endif
