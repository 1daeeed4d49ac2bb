/* Makes the calls of a script by the typed functions: lines `count where a >= L and a <= U` and `sum b where a >= L and a <= U`.

       figures TABLE SCRIPT

   Prints the nanoseconds of all calls together, the median of one, how many they were, all answers added, and the greatest memory in
   KiB. */
#include "sideways.h"
#include <stdio.h>
#include <stdlib.h>
#include <string.h>
#include <sys/resource.h>
#include <time.h>

static char *whole(const char *name, size_t *size) {
    FILE *file = fopen(name, "rb");
    if (file == NULL || fseek(file, 0, SEEK_END) != 0) exit(2);
    *size = (size_t)ftell(file);
    rewind(file);
    char *text = malloc(*size + 1);
    if (text == NULL || fread(text, 1, *size, file) != *size) exit(2);
    text[*size] = 0;
    fclose(file);
    return text;
}

static void answered(uint32_t code) {
    if (code != SIDEWAYS_OK) exit(3);
}

static long long between(const struct timespec *from, const struct timespec *to) {
    return (to->tv_sec - from->tv_sec) * 1000000000LL + (to->tv_nsec - from->tv_nsec);
}

static int ascending(const void *one, const void *other) {
    long long a = *(const long long *)one, b = *(const long long *)other;
    return (a > b) - (a < b);
}

/* The conditions of a script, and which of its calls are sums. */
static size_t read_script(char *text, sideways_cond **conds, bool **sums) {
    size_t many = 0;
    for (char *at = text; *at; at++) many += *at == '\n';
    *conds = calloc(many, sizeof **conds);
    *sums = calloc(many, sizeof **sums);
    if (*conds == NULL || *sums == NULL) exit(3);
    char *line = strtok(text, "\n");
    for (size_t i = 0; i < many; i++, line = strtok(NULL, "\n")) {
        long long least, greatest;
        (*sums)[i] = line[0] == 's';
        if (sscanf(line, (*sums)[i] ? "sum b where a >= %lld and a <= %lld" : "count where a >= %lld and a <= %lld", &least, &greatest) != 2)
            exit(2);
        sideways_cond cond = {0, least, greatest, SIDEWAYS_BEFORE, SIDEWAYS_AFTER};
        (*conds)[i] = cond;
    }
    return many;
}

int main(int argc, char **argv) {
    if (argc != 3) return 2;
    size_t size, script_size;
    char *table = whole(argv[1], &size), *script = whole(argv[2], &script_size);
    sideways_cond *conds;
    bool *sums;
    size_t many = read_script(script, &conds, &sums);
    const sideways_options options = SIDEWAYS_OPTIONS;
    sideways h = SIDEWAYS_CLOSED;
    uint64_t session, found, answers = 0;
    answered(sideways_open((const uint8_t *)table, size, NULL, 0, &options, &h));
    free(table);
    answered(sideways_session(&h, &session));
    long long *took = calloc(many, sizeof *took);
    if (took == NULL) return 3;
    struct timespec begun, before, after;
    clock_gettime(CLOCK_MONOTONIC, &begun);
    after = begun;
    for (size_t i = 0; i < many; i++) {
        before = after;
        if (sums[i]) {
            sideways_sum_words sum;
            answered(sideways_sum(&h, session, 1, &conds[i], 1, &sum));
            answers += sum.low;
        } else {
            answered(sideways_count(&h, session, &conds[i], 1, &found));
            answers += found;
        }
        clock_gettime(CLOCK_MONOTONIC, &after);
        took[i] = between(&before, &after);
    }
    qsort(took, many, sizeof *took, ascending);
    struct rusage usage;
    getrusage(RUSAGE_SELF, &usage);
    printf("%lld %lld %zu %llu %ld\n", between(&begun, &after), took[many / 2], many, (unsigned long long)answers, usage.ru_maxrss);
    sideways_free(h);
    return 0;
}
