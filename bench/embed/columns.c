/* Opens a table of three columns in memory, by turns with a copy of the columns.

       columns ROWS ROUNDS

   Prints the medians in nanoseconds, by the clock: of a copy into memory of malloc, which has it from the round before save in the
   first, and of sideways_open_columns, which has its own in the same way. */
#include "sideways.h"
#include <stdio.h>
#include <stdlib.h>
#include <string.h>
#include <time.h>

enum { COLUMNS = 3, MOST_ROUNDS = 99 };

static long long now(void) {
    struct timespec at;
    clock_gettime(CLOCK_MONOTONIC, &at);
    return at.tv_sec * 1000000000LL + at.tv_nsec;
}

static int ascending(const void *one, const void *other) {
    long long a = *(const long long *)one, b = *(const long long *)other;
    return (a > b) - (a < b);
}

static long long median(long long *of, int many) {
    qsort(of, (size_t)many, sizeof *of, ascending);
    return of[many / 2];
}

/* How long a copy of the columns takes. */
static long long copied(int64_t *const *columns, size_t rows) {
    int64_t *copies[COLUMNS];
    long long begun = now();
    for (int i = 0; i < COLUMNS; i++) {
        copies[i] = malloc(rows * sizeof **copies);
        if (copies[i] == NULL) exit(3);
        memcpy(copies[i], columns[i], rows * sizeof **copies);
    }
    long long took = now() - begun;
    int64_t kept = 0;
    for (int i = 0; i < COLUMNS; i++) kept ^= copies[i][rows - 1], free(copies[i]);
    if (kept == INT64_MIN) puts("");
    return took;
}

static long long opened(int64_t *const *columns, size_t rows) {
    sideways_attribute attributes[COLUMNS];
    const char *names = "abc";
    for (int i = 0; i < COLUMNS; i++) {
        sideways_attribute one = {(const uint8_t *)names + i, 1, SIDEWAYS_INT, {columns[i], rows, 1}};
        attributes[i] = one;
    }
    const sideways_columns table = {attributes, COLUMNS, rows, NULL, 0, NULL, 0};
    const sideways_options options = SIDEWAYS_OPTIONS;
    sideways h = SIDEWAYS_CLOSED;
    long long begun = now();
    if (sideways_open_columns(&table, NULL, 0, &options, &h) != SIDEWAYS_OK) exit(3);
    long long took = now() - begun;
    sideways_free(h);
    return took;
}

int main(int argc, char **argv) {
    if (argc != 3) return 2;
    size_t rows = strtoul(argv[1], NULL, 10);
    int rounds = atoi(argv[2]);
    if (rows == 0 || rounds < 1 || rounds > MOST_ROUNDS) return 2;
    int64_t *columns[COLUMNS];
    uint64_t seed = 1;
    for (int i = 0; i < COLUMNS; i++) {
        columns[i] = malloc(rows * sizeof **columns);
        if (columns[i] == NULL) return 3;
        for (size_t row = 0; row < rows; row++) columns[i][row] = (int64_t)((seed = seed * 6364136223846793005u + 1442695040888963407u) >> 44);
    }
    long long copies[MOST_ROUNDS], opens[MOST_ROUNDS];
    for (int i = 0; i < rounds; i++) copies[i] = copied(columns, rows), opens[i] = opened(columns, rows);
    printf("%lld %lld\n", median(copies, rounds), median(opens, rounds));
    return 0;
}
