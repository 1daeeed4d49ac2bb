/* A pool of handles: one for each thread, over rows of its own, so that no thread waits for another. A question goes to all, and
   their answers are added.

       cc pool.c -I.. ../libsideways.a -lpthread -o pool && ./pool */
#include "sideways.h"
#include "sideways_codes.h"
#include <pthread.h>
#include <stdio.h>
#include <stdlib.h>

enum { HANDLES = 4, ROWS = 200000, QUESTIONS = 1000, VALUES = 1000000 };

static int64_t a[ROWS];

/* What one thread has: its handle, which nobody else touches, its part of the rows, and its answers. */
typedef struct {
    pthread_t thread;
    sideways handle;
    size_t first, rows;
    uint64_t found[QUESTIONS];
} part;

static void answered(uint32_t code) {
    if (code == SIDEWAYS_OK) return;
    fprintf(stderr, "pool: refused %u: %s\n", (unsigned)code, sideways_code_text(code));
    exit(3);
}

static sideways_cond question(int number) {
    int64_t least = (int64_t)number * 7919 % VALUES;
    sideways_cond range = SIDEWAYS_BETWEEN(0, least, least + 5000);
    return range;
}

/* Opens a handle over a part of the column, which is read as it lies, and not kept. */
static void open_part(part *it) {
    const sideways_attribute attribute = {(const uint8_t *)"a", 1, SIDEWAYS_INT, {a + it->first, it->rows, 1}};
    const sideways_columns table = {&attribute, 1, it->rows, NULL, 0, NULL, 0};
    const sideways_options options = SIDEWAYS_OPTIONS;
    answered(sideways_open_columns(&table, NULL, 0, &options, &it->handle));
}

static void *work(void *given) {
    part *it = given;
    uint64_t session;
    open_part(it);
    answered(sideways_session(&it->handle, &session));
    for (int i = 0; i < QUESTIONS; i++) {
        sideways_cond range = question(i);
        answered(sideways_count(&it->handle, session, &range, 1, &it->found[i]));
    }
    sideways_free(it->handle);
    return NULL;
}

int main(void) {
    static part parts[HANDLES];
    for (int i = 0; i < ROWS; i++) a[i] = rand() % VALUES;
    for (size_t i = 0; i < HANDLES; i++) {
        parts[i].first = i * (ROWS / HANDLES);
        parts[i].rows = ROWS / HANDLES;
        if (pthread_create(&parts[i].thread, NULL, work, &parts[i]) != 0) return 3;
    }
    for (size_t i = 0; i < HANDLES; i++) pthread_join(parts[i].thread, NULL);
    uint64_t found = 0, wanted = 0;
    sideways_cond range = question(QUESTIONS - 1);
    for (size_t i = 0; i < HANDLES; i++) found += parts[i].found[QUESTIONS - 1];
    for (int i = 0; i < ROWS; i++) wanted += a[i] >= range.lower && a[i] <= range.upper;
    printf("%d handles, %d questions each; the last has %llu rows, an array of C says %llu\n", HANDLES, QUESTIONS,
           (unsigned long long)found, (unsigned long long)wanted);
    return found != wanted;
}
