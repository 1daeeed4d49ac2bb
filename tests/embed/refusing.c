/* Each allocation refused in turn, one alone and all from it on, while every function is called: a call that is refused has changed
   nothing and is answered when it is made again, the history is legal, and all memory comes back. */
#include "heap.h"
#include "tried.h"

/* How many calls stand in the history of the handle that is open. */
static uint64_t made;

/* One attempt of a call, whose code may be that of no memory; then all is granted, and it is made again. */
#define TRIED(call)                             \
    do {                                        \
        uint32_t first = (call);                \
        if (first == SIDEWAYS_OK) break;        \
        CODE(SIDEWAYS_NO_MEMORY, first);        \
        refused_many = 0;                       \
        CODE(SIDEWAYS_OK, (call));              \
    } while (0)

/* A line, which may have been made where there was no memory for its text alone. */
static void try_line(sideways *h, const char *text, const char *reply) {
    uint32_t first = line(h, 1, text);
    made++;
    if (first == SIDEWAYS_NO_TEXT) {
        refused_many = 0;
        return;
    }
    if (first != SIDEWAYS_OK) {
        CODE(SIDEWAYS_NO_MEMORY, first);
        refused_many = 0;
        CODE(SIDEWAYS_OK, line(h, 1, text));
    }
    CHECK(has_text(h, reply));
}

static void try_calls(sideways *h) {
    uint64_t number = 0, found = 0, rows = 0, keys[8];
    int64_t cells[8];
    size_t copied = 0;
    const uint64_t shown[2] = {P, CITY};
    sideways_sum_words sum;
    sideways_least least;
    sideways_cond low = within(A, 10, 15), both[2] = {within(P, 0, 10000), within(CITY, 1, 1)};
    TRIED(sideways_session(h, &number));
    CHECK(number == 1);
    try_line(h, "select p, city where a >= 10 and a <= 15", "1: 7.50, 'Oslo'\n3: -0.25, 'Oslo'\n(2 rows)\n");
    TRIED(sideways_count(h, 1, &low, 1, &found));
    CHECK(found == 2);
    TRIED(sideways_sum(h, 1, P, &low, 1, &sum));
    CHECK(sum.low == 725 && sum.high == 0);
    TRIED(sideways_min(h, 1, A, both, 2, &least));
    CHECK(least.found == 1 && least.value == 12);
    TRIED(sideways_max(h, 1, P, NULL, 0, &least));
    CHECK(least.found == 1 && least.value == 800);
    TRIED(sideways_select(h, 1, shown, 2, &low, 1, &rows));
    CHECK(rows == 2);
    TRIED(sideways_keys(h, 0, keys, 8, &copied));
    CHECK(copied == 2 && keys[0] == 1 && keys[1] == 3);
    TRIED(sideways_view(h, shown, 2, &low, 1, &rows));
    TRIED(sideways_column(h, 1, 0, cells, 8, &copied));
    CHECK(copied == 2 && cells[0] == 1 && cells[1] == 1);
    made += 5;
}

static void try_changes(sideways *h) {
    const int64_t row[4] = {5, 100, 1, 3};
    uint64_t key = 0, removed = 0, found = 0;
    for (uint64_t i = 5; i < 15; i++) {
        TRIED(sideways_insert(h, 1, row, 4, &key));
        CHECK(key == i);
    }
    /* of many rows those stand that came before the one that was refused, and the rest are given once more */
    columns it;
    fill_columns(&it);
    sideways_cells cells[4];
    uint64_t keys[4] = {0};
    size_t stand = 0, more = 0;
    for (int i = 0; i < 4; i++) cells[i] = it.attributes[i].cells;
    uint32_t code = sideways_insert_many(h, 1, cells, 4, keys, 4, &stand);
    if (code != SIDEWAYS_OK) {
        CODE(SIDEWAYS_NO_MEMORY, code);
        CHECK(stand < 4 && keys[stand] == 0);
        refused_many = 0;
        for (int i = 0; i < 4; i++) cells[i].cells += 2 * stand, cells[i].cells_size -= 2 * stand;
        CODE(SIDEWAYS_OK, sideways_insert_many(h, 1, cells, 4, keys + stand, 4 - stand, &more));
    }
    CHECK(stand + more == 4);
    for (uint64_t i = 0; i < 4; i++) CHECK(keys[i] == 15 + i);
    made += 4;
    TRIED(sideways_delete(h, 1, 2, &removed));
    CHECK(removed == 1);
    sideways_cond low = within(A, 10, 15);
    TRIED(sideways_delete_where(h, 1, &low, 1, &removed));
    CHECK(removed == 4);
    TRIED(sideways_count(h, 1, NULL, 0, &found));
    CHECK(found == 13);
    made += 13;
}

static void try_names(sideways *h) {
    uint8_t room[64];
    size_t size;
    uint32_t kind;
    int64_t code;
    sideways_stats stats;
    TRIED(sideways_name(h, CITY, room, sizeof room, &size));
    TRIED(sideways_kind(h, CITY, &kind));
    TRIED(sideways_code_of(h, bytes("Bergen"), 6, &code));
    CHECK(size == 4 && kind == SIDEWAYS_TEXT && code == 2);
    TRIED(sideways_text_of(h, 2, room, sizeof room, &size));
    CHECK(size == 6 && memcmp(room, "Bergen", 6) == 0);
    TRIED(sideways_head_stats(h, A, &stats));
}

/* Texts that become known, and those of a call that was refused, which do not; words about a line; the history so far. */
static void try_texts(sideways *h) {
    int64_t code = 0;
    uint64_t known = sideways_texts_known(h);
    TRIED(sideways_learn(h, bytes("Bonn"), 4, &code));
    CHECK(code == 4 && sideways_texts_known(h) == known + 1);
    uint32_t first = line(h, 1, "insert 1, 1, true, 'Genf'");
    CHECK(sideways_texts_known(h) == known + 1 + (first != SIDEWAYS_NO_MEMORY));
    if (first == SIDEWAYS_NO_MEMORY) {
        refused_many = 0;
        CODE(SIDEWAYS_OK, line(h, 1, "insert 1, 1, true, 'Genf'"));
    }
    made++;
    uint32_t fault = sideways_line_fault(h, bytes("count where city = Ulm"), 22);
    if (fault != SIDEWAYS_BAD_LINE) {
        CODE(SIDEWAYS_NO_MEMORY, fault);
        refused_many = 0;
        CODE(SIDEWAYS_BAD_LINE, sideways_line_fault(h, bytes("count where city = Ulm"), 22));
    }
    TRIED(sideways_history(h));
    CHECK(sideways_texts_known(h) == known + 2);
}

/* How many times a text stands in another. */
static uint64_t times_in(const char *text, const char *part) {
    uint64_t times = 0;
    for (const char *at = strstr(text, part); at != NULL; at = strstr(at + 1, part)) times++;
    return times;
}

/* Ends the engine: where there was memory for its history, that has all calls and is legal, and one of another reply is not. */
static void try_end(sideways *h) {
    uint32_t code = sideways_close(h);
    if (code != SIDEWAYS_OK) {
        CODE(SIDEWAYS_NO_MEMORY, code);
        CODE(SIDEWAYS_MISUSE, sideways_close(h));
        return;
    }
    size_t size;
    uint8_t *history = whole_text(h, &size);
    uint64_t entry = 0;
    sideways why = SIDEWAYS_CLOSED;
    history[size] = 0;
    CHECK(times_in((char *)history, "\"session\":1}") == made);
    TRIED(sideways_check(history, size, &entry));
    char *reply = strstr((char *)history, "[\"removed\"]");
    CHECK(reply != NULL);
    memcpy(reply, "[\"gone!!!\"]", 11);
    code = sideways_explain(history, size, &why);
    if (code != SIDEWAYS_NOT_LEGAL) {
        CODE(SIDEWAYS_NO_MEMORY, code);
        refused_many = 0;
        CODE(SIDEWAYS_NOT_LEGAL, sideways_explain(history, size, &why));
    }
    sideways_free(why);
    free(history);
}

static void whole(sideways *h) {
    try_calls(h);
    try_changes(h);
    try_names(h);
    try_texts(h);
    try_end(h);
    sideways_free(*h);
}

static void try_text(void) {
    sideways h = SIDEWAYS_CLOSED;
    TRIED(open_text(TABLE, &OPTIONS, &h));
    whole(&h);
}

static void try_open_columns(void) {
    columns it;
    fill_columns(&it);
    sideways h = SIDEWAYS_CLOSED;
    TRIED(open_columns(&it, &OPTIONS, &h));
    whole(&h);
}

/* Runs with one more request refused each time, until a run comes to its end before. */
static uint64_t try_each(void (*run)(void), uint64_t many) {
    for (refused_from = 1;; refused_from++) {
        heap_asked = made = 0;
        refused_many = many;
        run();
        CHECK(heap_grants == 0 && heap_bytes == 0);
        if (heap_asked < refused_from) return refused_from - 1;
    }
}

int main(void) {
    uint64_t one = try_each(try_text, 1), all = try_each(try_text, UINT64_MAX);
    uint64_t columns_one = try_each(try_open_columns, 1), columns_all = try_each(try_open_columns, UINT64_MAX);
    CHECK(one > 50 && all > 50 && columns_one > 50 && columns_all > 50);
    printf("refusing: all passed, %llu requests refused\n", (unsigned long long)(one + all + columns_one + columns_all));
    return 0;
}
