/* A column store that holds its own answers against those of Sideways, and stops at the first that differs. The store here is two
   arrays of C; put yours in its place.

       cc oracle.c -I.. ../libsideways.a -o oracle
       ./oracle 10000            ten thousand calls, none differs: status 0
       ./oracle 10000 5000       the store loses a row at the 5,000th call: status 1, and what differs is told */
#include "sideways.h"
#include "sideways_codes.h"
#include <stdio.h>
#include <stdlib.h>

enum { ROWS = 10000, MOST = 1048576, VALUES = 100000 };

/* ---- the store under test */

static int64_t store_a[MOST], store_b[MOST];
static bool store_has[MOST];
static size_t store_rows;

static int64_t store_sum(int64_t least, int64_t greatest) {
    int64_t sum = 0;
    for (size_t i = 0; i < store_rows; i++)
        if (store_has[i] && store_a[i] >= least && store_a[i] <= greatest) sum += store_b[i];
    return sum;
}

static uint64_t store_insert(int64_t a, int64_t b) {
    store_a[store_rows] = a;
    store_b[store_rows] = b;
    store_has[store_rows++] = true;
    return store_rows;
}

static bool store_delete(uint64_t key) {
    bool had = key >= 1 && key <= store_rows && store_has[key - 1];
    if (had) store_has[key - 1] = false;
    return had;
}

/* ---- the comparison */

static sideways engine = SIDEWAYS_CLOSED;
static uint64_t session;

/* Ends the program where a call was refused, which is a fault of this program or a want of memory. */
static void answered(uint32_t code) {
    if (code == SIDEWAYS_OK) return;
    fprintf(stderr, "oracle: refused %u: %s\n", (unsigned)code, sideways_code_text(code));
    exit(3);
}

static void same(int call, const char *what, long long ours, long long theirs) {
    if (ours == theirs) return;
    printf("call %d, %s: the store says %lld, Sideways %lld\n", call, what, theirs, ours);
    exit(1);
}

static void ask(int call, int64_t least, int64_t greatest) {
    sideways_cond range = SIDEWAYS_BETWEEN(0, least, greatest);
    sideways_sum_words sum;
    char what[80];
    answered(sideways_sum(&engine, session, 1, &range, 1, &sum));
    snprintf(what, sizeof what, "sum b where a >= %lld and a <= %lld", (long long)least, (long long)greatest);
    same(call, what, (long long)sum.low, (long long)store_sum(least, greatest));
}

static void change(int call, int64_t a, int64_t b) {
    uint64_t key = 0, removed = 0;
    if (call % 2) {
        const int64_t cells[2] = {a, b};
        answered(sideways_insert(&engine, session, cells, 2, &key));
        same(call, "insert", (long long)key, (long long)store_insert(a, b));
    } else {
        key = (uint64_t)b % (store_rows + 1) + 1;
        answered(sideways_delete(&engine, session, key, &removed));
        same(call, "delete", (long long)removed, store_delete(key));
    }
}

/* Opens the engine over the store's rows: its columns are read as they lie, and not kept. */
static void open_engine(void) {
    const sideways_attribute attributes[2] = {
        {(const uint8_t *)"a", 1, SIDEWAYS_INT, {store_a, store_rows, 1}},
        {(const uint8_t *)"b", 1, SIDEWAYS_INT, {store_b, store_rows, 1}},
    };
    const sideways_columns table = {attributes, 2, store_rows, NULL, 0, NULL, 0};
    const sideways_options options = SIDEWAYS_OPTIONS;
    answered(sideways_open_columns(&table, NULL, 0, &options, &engine));
    answered(sideways_session(&engine, &session));
}

int main(int argc, char **argv) {
    int calls = argc > 1 ? atoi(argv[1]) : 10000, lost = argc > 2 ? atoi(argv[2]) : 0;
    for (int i = 0; i < ROWS; i++) store_insert(rand() % VALUES, rand() % 100);
    open_engine();
    for (int call = 1; call <= calls; call++) {
        int64_t a = rand() % VALUES, width = rand() % 1000;
        if (call == lost) store_has[rand() % ROWS] = false;
        if (call % 10 == 0)
            change(call / 10, a, width);
        else
            ask(call, a, a + width);
    }
    printf("%d calls, and each answer is the same\n", calls);
    sideways_free(engine);
    return 0;
}
