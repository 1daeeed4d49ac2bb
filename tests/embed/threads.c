/* Eight threads over one handle under its mutex, each with a session of its own.

       threads CALLS HISTORY LOG

   Each thread makes so many calls. HISTORY gets the bytes of the history, LOG a line for each call: session, call, reply. What they
   have to say of each other, tests/embed/told.py and `sideways check` look at. */
#include "sideways_locked.h"
#include "tried.h"

enum { THREADS = 8, ROWS = 1000 };

static sideways_locked table;
static int calls;

typedef struct {
    pthread_t thread;
    uint64_t session;
    char *log;
    size_t used;
} visitor;

static uint64_t drawn(uint64_t *state, uint64_t below) {
    *state = *state * 6364136223846793005u + 1442695040888963407u;
    return (*state >> 33) % below;
}

static void tell(visitor *it, const char *call, const char *reply) {
    it->used += (size_t)sprintf(it->log + it->used, "%llu,%s,%s\n", (unsigned long long)it->session, call, reply);
}

/* A call of a drawn kind, by a function of its type or by a line. */
static void make_one(visitor *it, uint64_t *state) {
    char call[128], reply[256];
    uint64_t kind = drawn(state, 6), a = drawn(state, ROWS), found = 0;
    size_t size = 0;
    sideways_sum_words sum;
    const int64_t cells[2] = {(int64_t)a, (int64_t)kind};
    sideways_cond range = within(0, (int64_t)a, (int64_t)a + 50);
    if (kind == 0) {
        CODE(SIDEWAYS_OK, sideways_locked_count(&table, it->session, &range, 1, &found));
        snprintf(call, sizeof call, "count where a >= %llu and a <= %llu", (unsigned long long)a, (unsigned long long)a + 50);
        snprintf(reply, sizeof reply, "%llu", (unsigned long long)found);
    } else if (kind == 1) {
        CODE(SIDEWAYS_OK, sideways_locked_sum(&table, it->session, 1, &range, 1, &sum));
        snprintf(call, sizeof call, "sum b where a >= %llu and a <= %llu", (unsigned long long)a, (unsigned long long)a + 50);
        snprintf(reply, sizeof reply, "%lld", (long long)sum.low);
    } else if (kind == 2) {
        CODE(SIDEWAYS_OK, sideways_locked_insert(&table, it->session, cells, 2, &found));
        snprintf(call, sizeof call, "insert %llu, %llu", (unsigned long long)a, (unsigned long long)kind);
        snprintf(reply, sizeof reply, "key %llu", (unsigned long long)found);
    } else if (kind == 3) {
        CODE(SIDEWAYS_OK, sideways_locked_delete(&table, it->session, a, &found));
        snprintf(call, sizeof call, "delete %llu", (unsigned long long)a);
        snprintf(reply, sizeof reply, "%s", found ? "removed" : "no such key");
    } else {
        const char *form = kind == 4 ? "max b where a >= %llu" : "delete where b >= %llu and b < 500";
        snprintf(call, sizeof call, form, (unsigned long long)(kind == 4 ? a : 480 + a % 20));
        CODE(SIDEWAYS_OK, sideways_locked_exec(&table, it->session, call, strlen(call), reply, sizeof reply, &size));
        CHECK(size > 0 && size < sizeof reply);
        reply[size - 1] = 0;
    }
    tell(it, call, reply);
}

static void *visit(void *given) {
    visitor *it = given;
    CODE(SIDEWAYS_OK, sideways_locked_session(&table, &it->session));
    uint64_t state = it->session;
    for (int i = 0; i < calls; i++) make_one(it, &state);
    return NULL;
}

static void write_all(const char *name, const void *data, size_t size, const char *mode) {
    FILE *file = fopen(name, mode);
    CHECK(file != NULL && fwrite(data, 1, size, file) == size && fclose(file) == 0);
}

/* A select and the reading of its rows, which belong together. */
static void read_rows(void) {
    const uint64_t shown[1] = {1};
    uint64_t rows, *keys;
    size_t copied;
    sideways *h = sideways_lock(&table);
    CODE(SIDEWAYS_OK, sideways_select(h, 1, shown, 1, NULL, 0, &rows));
    keys = calloc(rows, sizeof *keys);
    CHECK(keys != NULL);
    CODE(SIDEWAYS_OK, sideways_keys(h, 0, keys, rows, &copied));
    sideways_unlock(&table);
    CHECK(copied == rows);
    for (size_t i = 1; i < copied; i++) CHECK(keys[i - 1] < keys[i]);
    free(keys);
}

int main(int argc, char **argv) {
    static visitor visitors[THREADS];
    CHECK(argc == 4);
    calls = atoi(argv[1]);
    char *csv = malloc(ROWS * 32 + 32);
    CHECK(csv != NULL);
    size_t size = (size_t)sprintf(csv, "a,b\n");
    for (int i = 0; i < ROWS; i++) size += (size_t)sprintf(csv + size, "%d,%d\n", i * 7919 % ROWS, i);
    sideways h = SIDEWAYS_CLOSED;
    CODE(SIDEWAYS_MISUSE, sideways_locked_begin(&table, &h));
    CODE(SIDEWAYS_OK, open_text(csv, &OPTIONS, &h));
    CODE(SIDEWAYS_OK, sideways_locked_begin(&table, &h));
    CHECK(!h.is_open);
    free(csv);
    for (int i = 0; i < THREADS; i++) {
        visitors[i].log = malloc((size_t)calls * 400 + 1);
        CHECK(visitors[i].log != NULL);
        CHECK(pthread_create(&visitors[i].thread, NULL, visit, &visitors[i]) == 0);
    }
    write_all(argv[3], "", 0, "wb");
    for (int i = 0; i < THREADS; i++) {
        CHECK(pthread_join(visitors[i].thread, NULL) == 0);
        write_all(argv[3], visitors[i].log, visitors[i].used, "ab");
        free(visitors[i].log);
    }
    read_rows();
    CODE(SIDEWAYS_OK, sideways_locked_close(&table));
    size = sideways_text_size(sideways_lock(&table));
    sideways_unlock(&table);
    char *history = malloc(size);
    CHECK(history != NULL && sideways_locked_text(&table, 0, history, size) == size);
    write_all(argv[2], history, size, "wb");
    free(history);
    CODE(SIDEWAYS_MISUSE, sideways_locked_session(&table, &visitors[0].session));
    sideways_locked_end(&table);
    printf("threads: all passed, %d calls\n", THREADS * calls);
    return 0;
}
