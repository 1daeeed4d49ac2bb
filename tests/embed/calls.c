/* Each function of sideways.h: what it answers, and that each wrong use of it is told. */
#include "tried.h"

static void try_lines(void) {
    sideways h = opened();
    CHECK(sideways_text_size(&h) == 0);
    CODE(SIDEWAYS_OK, line(&h, 1, "select p, city where a >= 10 and a <= 15"));
    CHECK(has_text(&h, "1: 7.50, 'Oslo'\n3: -0.25, 'Oslo'\n(2 rows)\n"));
    uint8_t part[4] = {0};
    CHECK(sideways_text(&h, 3, part, sizeof part) == 4 && memcmp(part, "7.50", 4) == 0);
    CHECK(sideways_text(&h, sideways_text_size(&h) - 1, part, sizeof part) == 1 && part[0] == '\n');
    CHECK(sideways_text(&h, sideways_text_size(&h), part, sizeof part) == 0);
    CHECK(sideways_text(&h, (size_t)-1, part, sizeof part) == 0);
    CHECK(sideways_text(&h, 0, NULL, 0) == 0);
    CODE(SIDEWAYS_BAD_LINE, line(&h, 1, "selec p"));
    CODE(SIDEWAYS_BAD_LINE, line(&h, 1, "count where a > 1x"));
    CODE(SIDEWAYS_BAD_LINE, line(&h, 1, "count where city < 'Paris'"));
    CODE(SIDEWAYS_UNKNOWN_ATTRIBUTE, line(&h, 1, "count where d = 1"));
    CODE(SIDEWAYS_NO_SESSION, line(&h, 0, "count"));
    CODE(SIDEWAYS_NO_SESSION, line(&h, 2, "count"));
    CHECK(has_text(&h, "1: 7.50, 'Oslo'\n3: -0.25, 'Oslo'\n(2 rows)\n"));
    CODE(SIDEWAYS_OK, line(&h, 1, "  # no call"));
    CHECK(sideways_text_size(&h) == 0);
    CODE(SIDEWAYS_OK, sideways_exec(&h, 1, NULL, 0));
    CODE(SIDEWAYS_OK, line(&h, 1, "insert 1, 0.01, false, 'it''s'"));
    CHECK(has_text(&h, "key 5\n"));
    char *long_line = calloc(1, 5000);
    CHECK(long_line != NULL);
    memset(long_line, ' ', 4096);
    CODE(SIDEWAYS_OK, line(&h, 1, long_line));
    memset(long_line, ' ', 4097);
    CODE(SIDEWAYS_BAD_LINE, line(&h, 1, long_line));
    free(long_line);
    CODE(SIDEWAYS_OK, sideways_close(&h));
    sideways_free(h);
}

/* Why a line is refused, in words; nothing else changes. */
static void try_line_faults(void) {
    sideways h = opened();
#define FAULT(code, text, words)                                                        \
    do {                                                                                \
        CODE(code, sideways_line_fault(&h, bytes(text), strlen(text)));                 \
        CHECK(has_text(&h, words));                                                     \
        if ((code) != SIDEWAYS_OK) CODE(code, line(&h, 1, text));                       \
    } while (0)
    FAULT(SIDEWAYS_BAD_LINE, "count where a > 1x", "the line, column 17: '1x' cannot stand there, wanted a whole number\n  count where a > 1x\n                  ^\n");
    FAULT(SIDEWAYS_BAD_LINE, "count where", "the line, column 12: the line ends too early, wanted a, p, ok, city\n  count where\n             ^\n");
    FAULT(SIDEWAYS_BAD_LINE, "sum p where city < 'x'", "the line, column 18: '<' cannot stand there, wanted =, since texts are compared by it alone\n"
          "  sum p where city < 'x'\n                   ^\n");
    FAULT(SIDEWAYS_UNKNOWN_ATTRIBUTE, "min d", "the line, column 5: 'd' cannot stand there, wanted a, p, ok\n  min d\n      ^\n");
    FAULT(SIDEWAYS_OK, "count where city = 'Paris'", "");
    FAULT(SIDEWAYS_OK, "# none", "");
    CODE(SIDEWAYS_BAD_LINE, sideways_line_fault(&h, bytes("count \xff"), 7));
    CHECK(sideways_text_size(&h) > 0 && sideways_texts_known(&h) == 3);
#undef FAULT
    sideways_free(h);
}

/* Texts that come while the engine is open: codes stay, and what is refused leaves none. */
static void try_new_texts(void) {
    sideways h = opened();
    int64_t code = 77;
    char longest[66];
    memset(longest, 'x', sizeof longest);
    CODE(SIDEWAYS_OK, sideways_learn(&h, bytes("Bergen"), 6, &code));
    CHECK(code == 2 && sideways_texts_known(&h) == 3);
    CODE(SIDEWAYS_OK, sideways_learn(&h, bytes("Bonn"), 4, &code));
    CHECK(code == 4 && sideways_texts_known(&h) == 4);
    CODE(SIDEWAYS_OK, sideways_learn(&h, NULL, 0, &code));
    CHECK(code == 5);
    code = 77;
    CODE(SIDEWAYS_BAD_CELL, sideways_learn(&h, bytes(longest), 65, &code));
    CODE(SIDEWAYS_BAD_CELL, sideways_learn(&h, bytes("\xff"), 1, &code));
    CODE(SIDEWAYS_BAD_CELL, sideways_learn(&h, bytes("a\nb"), 3, &code));
    CHECK(code == 77 && sideways_texts_known(&h) == 5);
    CODE(SIDEWAYS_OK, sideways_learn(&h, bytes(longest), 64, &code));
    CHECK(code == 6);
    const int64_t row[4] = {5, 100, 1, 4};
    uint64_t key;
    CODE(SIDEWAYS_OK, sideways_insert(&h, 1, row, 4, &key));
    CODE(SIDEWAYS_OK, line(&h, 1, "insert 6, 1, true, 'Genf'"));
    CODE(SIDEWAYS_BAD_LINE, line(&h, 1, "insert 6, 1, true, 'Rom', 'Ulm'"));
    CODE(SIDEWAYS_OK, line(&h, 1, "count where city = 'Wien'"));
    CHECK(has_text(&h, "0\n") && sideways_texts_known(&h) == 8);
    CODE(SIDEWAYS_OK, line(&h, 1, "select city where a >= 5 and a <= 6"));
    CHECK(has_text(&h, "5: 'Bonn'\n6: 'Genf'\n(2 rows)\n"));
    CODE(SIDEWAYS_OK, sideways_close(&h));
    size_t size;
    uint64_t entry;
    uint8_t *history = whole_text(&h, &size);
    CODE(SIDEWAYS_OK, sideways_check(history, size, &entry));
    free(history);
    sideways_free(h);
    h = (sideways)SIDEWAYS_CLOSED;
    CODE(SIDEWAYS_OK, open_text("a\n1\n", &OPTIONS, &h));
    CODE(SIDEWAYS_BAD_CELL, sideways_learn(&h, bytes("x"), 1, &code));
    sideways_free(h);
}

/* A history while the engine is open is that of the calls so far, and a view is no call. */
static void try_open_histories(void) {
    sideways h = opened();
    size_t size, copied;
    uint64_t rows = 77, entry, keys[4];
    int64_t cells[4];
    const uint64_t shown[2] = {A, CITY}, none[1] = {4};
    sideways_cond low = within(A, 10, 15), bad = within(4, 1, 2);
    CODE(SIDEWAYS_OK, line(&h, 1, "delete 1"));
    CODE(SIDEWAYS_OK, line(&h, 1, "insert 11, 1, true, 'Genf'"));
    CODE(SIDEWAYS_OK, sideways_view(&h, shown, 2, &low, 1, &rows));
    CHECK(rows == 2);
    CODE(SIDEWAYS_OK, sideways_keys(&h, 0, keys, 4, &copied));
    CHECK(copied == 2 && keys[0] == 3 && keys[1] == 5);
    CODE(SIDEWAYS_OK, sideways_column(&h, 1, 0, cells, 4, &copied));
    CHECK(copied == 2 && cells[0] == 1 && cells[1] == 4);
    rows = 77;
    CODE(SIDEWAYS_NO_ATTRIBUTE, sideways_view(&h, none, 1, NULL, 0, &rows));
    CODE(SIDEWAYS_NO_ATTRIBUTE, sideways_view(&h, NULL, 0, NULL, 0, &rows));
    CODE(SIDEWAYS_NO_ATTRIBUTE, sideways_view(&h, shown, 2, &bad, 1, &rows));
    CHECK(rows == 77);
    CODE(SIDEWAYS_OK, sideways_history(&h));
    uint8_t *first = whole_text(&h, &size);
    CODE(SIDEWAYS_OK, sideways_check(first, size, &entry));
    first[size] = 0;
    CHECK(strstr((char *)first, "select") == NULL && strstr((char *)first, "delete 1") != NULL);
    CODE(SIDEWAYS_OK, sideways_keys(&h, 0, keys, 4, &copied));
    CHECK(copied == 2);
    CODE(SIDEWAYS_OK, line(&h, 1, "count"));
    CODE(SIDEWAYS_OK, sideways_history(&h));
    CHECK(sideways_text_size(&h) > size);
    size_t more, whole;
    uint8_t *second = whole_text(&h, &more);
    CODE(SIDEWAYS_OK, sideways_close(&h));
    uint8_t *last = whole_text(&h, &whole);
    CHECK(whole == more && memcmp(last, second, whole) == 0);
    free(first);
    free(second);
    free(last);
    sideways_free(h);
}

static void try_aggregates(void) {
    sideways h = opened();
    uint64_t found = 77;
    sideways_sum_words sum = {77, 77};
    sideways_least least = {77, 77};
    sideways_cond low = within(A, 10, 15);
    CODE(SIDEWAYS_OK, sideways_count(&h, 1, &low, 1, &found));
    CHECK(found == 2);
    CODE(SIDEWAYS_OK, sideways_count(&h, 1, NULL, 0, &found));
    CHECK(found == 4);
    CODE(SIDEWAYS_OK, sideways_sum(&h, 1, P, &low, 1, &sum));
    CHECK(sum.low == 725 && sum.high == 0);
    sideways_cond negative = within(P, INT64_MIN, -1);
    CODE(SIDEWAYS_OK, sideways_sum(&h, 1, P, &negative, 1, &sum));
    CHECK(sum.low == (uint64_t)-25 && sum.high == -1);
    CODE(SIDEWAYS_OK, sideways_min(&h, 1, P, NULL, 0, &least));
    CHECK(least.found == 1 && least.value == -25);
    CODE(SIDEWAYS_OK, sideways_max(&h, 1, A, &negative, 1, &least));
    CHECK(least.found == 1 && least.value == 12);
    sideways_cond none = within(A, 100, 200);
    CODE(SIDEWAYS_OK, sideways_max(&h, 1, A, &none, 1, &least));
    CHECK(least.found == 0 && least.value == 0);
    sideways_cond both[2] = {within(OK, 1, 1), within(CITY, 1, 1)};
    CODE(SIDEWAYS_OK, sideways_count(&h, 1, both, 2, &found));
    CHECK(found == 2);
    sideways_cond one_sided = {A, 12, 99, SIDEWAYS_AFTER, SIDEWAYS_NONE};
    CODE(SIDEWAYS_OK, sideways_count(&h, 1, &one_sided, 1, &found));
    CHECK(found == 1);
    sideways_cond against = {A, 12, 12, SIDEWAYS_AFTER, SIDEWAYS_BEFORE};
    CODE(SIDEWAYS_OK, sideways_count(&h, 1, &against, 1, &found));
    CHECK(found == 0);
    const sideways_cond spelled[6] = {SIDEWAYS_BETWEEN(A, 10, 15), SIDEWAYS_EQUAL(A, 12), SIDEWAYS_AT_LEAST(A, 12),
                                      SIDEWAYS_ABOVE(A, 12),       SIDEWAYS_AT_MOST(A, 12), SIDEWAYS_BELOW(A, 12)};
    const uint64_t rows[6] = {2, 2, 3, 1, 3, 1};
    for (int i = 0; i < 6; i++) {
        CODE(SIDEWAYS_OK, sideways_count(&h, 1, &spelled[i], 1, &found));
        CHECK(found == rows[i]);
    }
    CODE(SIDEWAYS_OK, sideways_close(&h));
    sideways_free(h);
}

/* Conditions that are none, attributes that are none: nothing is called, and out pointers keep what they had. */
static void try_bad_conditions(void) {
    sideways h = opened();
    uint64_t found = 77;
    sideways_sum_words sum = {77, 77};
    sideways_least least = {77, 77};
    const sideways_cond bad[] = {
        {A, 1, 2, SIDEWAYS_NONE, SIDEWAYS_NONE},    {A, 1, 2, 3, SIDEWAYS_AFTER},          {A, 1, 2, SIDEWAYS_BEFORE, UINT32_MAX},
        {OK, 0, 2, SIDEWAYS_BEFORE, SIDEWAYS_AFTER}, {OK, -1, 1, SIDEWAYS_BEFORE, SIDEWAYS_AFTER}, {CITY, 1, 2, SIDEWAYS_BEFORE, SIDEWAYS_AFTER},
        {CITY, 1, 1, SIDEWAYS_AFTER, SIDEWAYS_AFTER}, {CITY, 1, 1, SIDEWAYS_BEFORE, SIDEWAYS_NONE}, {CITY, 4, 4, SIDEWAYS_BEFORE, SIDEWAYS_AFTER},
        {CITY, 0, 0, SIDEWAYS_BEFORE, SIDEWAYS_AFTER},
    };
    for (size_t i = 0; i < sizeof bad / sizeof *bad; i++) {
        CODE(SIDEWAYS_BAD_CONDITION, sideways_count(&h, 1, &bad[i], 1, &found));
        CODE(SIDEWAYS_BAD_CONDITION, sideways_delete_where(&h, 1, &bad[i], 1, &found));
    }
    sideways_cond twice[2] = {within(A, 1, 2), within(A, 1, 2)};
    CODE(SIDEWAYS_BAD_CONDITION, sideways_sum(&h, 1, A, twice, 2, &sum));
    CODE(SIDEWAYS_BAD_CONDITION, sideways_delete_where(&h, 1, NULL, 0, &found));
    sideways_cond beyond = within(4, 1, 2), far = within(UINT64_MAX, 1, 2);
    CODE(SIDEWAYS_NO_ATTRIBUTE, sideways_count(&h, 1, &beyond, 1, &found));
    CODE(SIDEWAYS_NO_ATTRIBUTE, sideways_count(&h, 1, &far, 1, &found));
    CODE(SIDEWAYS_NO_ATTRIBUTE, sideways_sum(&h, 1, CITY, NULL, 0, &sum));
    CODE(SIDEWAYS_NO_ATTRIBUTE, sideways_min(&h, 1, CITY, NULL, 0, &least));
    CODE(SIDEWAYS_NO_ATTRIBUTE, sideways_max(&h, 1, 4, NULL, 0, &least));
    CODE(SIDEWAYS_NO_SESSION, sideways_count(&h, 2, NULL, 0, &found));
    CODE(SIDEWAYS_NO_SESSION, sideways_sum(&h, 0, A, NULL, 0, &sum));
    CODE(SIDEWAYS_NO_SESSION, sideways_min(&h, UINT64_MAX, A, NULL, 0, &least));
    CODE(SIDEWAYS_NO_SESSION, sideways_max(&h, 2, A, NULL, 0, &least));
    CHECK(found == 77 && sum.low == 77 && sum.high == 77 && least.found == 77 && least.value == 77);
    CODE(SIDEWAYS_OK, sideways_close(&h));
    size_t size;
    uint8_t *history = whole_text(&h, &size);
    history[size] = 0;
    CHECK(strstr((char *)history, "\"entries\":[]") != NULL);
    free(history);
    sideways_free(h);
}

static void try_selects(void) {
    sideways h = opened();
    uint64_t rows = 77, keys[4] = {77, 77, 77, 77};
    int64_t cells[4] = {77, 77, 77, 77};
    size_t copied = 77;
    const uint64_t shown[3] = {P, CITY, P};
    CODE(SIDEWAYS_NO_ROWS, sideways_keys(&h, 0, keys, 4, &copied));
    CODE(SIDEWAYS_NO_ROWS, sideways_column(&h, 0, 0, cells, 4, &copied));
    sideways_cond low = within(A, 10, 15);
    CODE(SIDEWAYS_OK, sideways_select(&h, 1, shown, 3, &low, 1, &rows));
    CHECK(rows == 2);
    CODE(SIDEWAYS_OK, sideways_keys(&h, 0, keys, 4, &copied));
    CHECK(copied == 2 && keys[0] == 1 && keys[1] == 3 && keys[2] == 77);
    CODE(SIDEWAYS_OK, sideways_column(&h, 0, 0, cells, 1, &copied));
    CHECK(copied == 1 && cells[0] == 750 && cells[1] == 77);
    CODE(SIDEWAYS_OK, sideways_column(&h, 2, 1, cells, 4, &copied));
    CHECK(copied == 1 && cells[0] == -25 && cells[1] == 77);
    CODE(SIDEWAYS_OK, sideways_column(&h, 1, 2, cells, 4, &copied));
    CHECK(copied == 0);
    CODE(SIDEWAYS_OK, sideways_keys(&h, SIZE_MAX, keys, 4, &copied));
    CHECK(copied == 0);
    CODE(SIDEWAYS_OK, sideways_keys(&h, 0, NULL, 0, &copied));
    CHECK(copied == 0);
    CODE(SIDEWAYS_NO_ATTRIBUTE, sideways_column(&h, 3, 0, cells, 4, &copied));
    CODE(SIDEWAYS_NO_ATTRIBUTE, sideways_column(&h, SIZE_MAX, 0, cells, 4, &copied));
    const uint64_t nine[9] = {A, A, A, A, A, A, A, A, A}, none[1] = {4};
    CODE(SIDEWAYS_OK, sideways_select(&h, 1, nine, 8, NULL, 0, &rows));
    CHECK(rows == 4);
    CODE(SIDEWAYS_NO_ATTRIBUTE, sideways_select(&h, 1, nine, 9, NULL, 0, &rows));
    CODE(SIDEWAYS_NO_ATTRIBUTE, sideways_select(&h, 1, NULL, 0, NULL, 0, &rows));
    CODE(SIDEWAYS_NO_ATTRIBUTE, sideways_select(&h, 1, none, 1, NULL, 0, &rows));
    CODE(SIDEWAYS_NO_SESSION, sideways_select(&h, 9, nine, 1, NULL, 0, &rows));
    CHECK(rows == 4);
    CODE(SIDEWAYS_OK, sideways_column(&h, 7, 0, cells, 4, &copied));
    CHECK(copied == 4 && cells[0] == 12 && cells[1] == 3 && cells[2] == 12 && cells[3] == 20);
    CODE(SIDEWAYS_OK, sideways_close(&h));
    sideways_free(h);
}

static void try_changes(void) {
    sideways_options small = SIDEWAYS_OPTIONS;
    small.limit = 6;
    sideways h = SIDEWAYS_CLOSED;
    uint64_t number, key = 77, removed = 77;
    CODE(SIDEWAYS_OK, open_text(TABLE, &small, &h));
    CODE(SIDEWAYS_OK, sideways_session(&h, &number));
    const int64_t row[5] = {5, 100, 1, 3, 0}, flag[4] = {5, 100, 2, 3}, text[4] = {5, 100, 1, 4};
    CODE(SIDEWAYS_BAD_CELL, sideways_insert(&h, 1, row, 3, &key));
    CODE(SIDEWAYS_BAD_CELL, sideways_insert(&h, 1, row, 5, &key));
    CODE(SIDEWAYS_BAD_CELL, sideways_insert(&h, 1, NULL, 0, &key));
    CODE(SIDEWAYS_BAD_CELL, sideways_insert(&h, 1, flag, 4, &key));
    CODE(SIDEWAYS_BAD_CELL, sideways_insert(&h, 1, text, 4, &key));
    CODE(SIDEWAYS_NO_SESSION, sideways_insert(&h, 2, row, 4, &key));
    CHECK(key == 77);
    CODE(SIDEWAYS_OK, sideways_insert(&h, 1, row, 4, &key));
    CHECK(key == 5);
    const int64_t other[4] = {1, 10, 1, 1};
    CODE(SIDEWAYS_OK, sideways_insert(&h, 1, other, 4, &key));
    CHECK(key == 6);
    CODE(SIDEWAYS_OK, sideways_insert(&h, 1, row, 4, &key));
    CHECK(key == 0);
    CODE(SIDEWAYS_OK, line(&h, 1, "select a, p, ok, city where a = 1"));
    CHECK(has_text(&h, "6: 1, 0.10, true, 'Oslo'\n(1 rows)\n"));
    CODE(SIDEWAYS_OK, sideways_delete(&h, 1, 6, &removed));
    CHECK(removed == 1);
    CODE(SIDEWAYS_OK, sideways_delete(&h, 1, 6, &removed));
    CHECK(removed == 0);
    CODE(SIDEWAYS_OK, sideways_delete(&h, 1, 0, &removed));
    CODE(SIDEWAYS_OK, sideways_delete(&h, 1, UINT64_MAX, &removed));
    CHECK(removed == 0);
    CODE(SIDEWAYS_NO_SESSION, sideways_delete(&h, 2, 1, &removed));
    sideways_cond low = within(A, 10, 15);
    CODE(SIDEWAYS_NO_SESSION, sideways_delete_where(&h, 2, &low, 1, &removed));
    CODE(SIDEWAYS_OK, sideways_delete_where(&h, 1, &low, 1, &removed));
    CHECK(removed == 2);
    CODE(SIDEWAYS_OK, sideways_delete_where(&h, 1, &low, 1, &removed));
    CHECK(removed == 0);
    CODE(SIDEWAYS_OK, line(&h, 1, "count"));
    CHECK(has_text(&h, "3\n"));
    CODE(SIDEWAYS_OK, sideways_close(&h));
    sideways_free(h);
}

static void try_names(void) {
    sideways h = opened();
    uint8_t room[64];
    size_t size = 77;
    uint32_t kind = 77;
    int64_t code = 77;
    sideways_stats stats;
    CHECK(sideways_attributes(&h) == 4);
    const uint32_t kinds[4] = {SIDEWAYS_INT, 2, SIDEWAYS_FLAG, SIDEWAYS_TEXT};
    for (uint64_t i = 0; i < 4; i++) {
        CODE(SIDEWAYS_OK, sideways_kind(&h, i, &kind));
        CHECK(kind == kinds[i]);
    }
    CODE(SIDEWAYS_NO_ATTRIBUTE, sideways_kind(&h, 4, &kind));
    CODE(SIDEWAYS_OK, sideways_name(&h, CITY, room, sizeof room, &size));
    CHECK(size == 4 && memcmp(room, "city", 4) == 0);
    memset(room, '?', sizeof room);
    CODE(SIDEWAYS_OK, sideways_name(&h, CITY, room, 2, &size));
    CHECK(size == 4 && memcmp(room, "ci?", 3) == 0);
    CODE(SIDEWAYS_OK, sideways_name(&h, CITY, NULL, 0, &size));
    CODE(SIDEWAYS_NO_ATTRIBUTE, sideways_name(&h, UINT64_MAX, room, sizeof room, &size));
    CHECK(sideways_texts_known(&h) == 3);
    CODE(SIDEWAYS_OK, sideways_code_of(&h, bytes("Bergen"), 6, &code));
    CHECK(code == 2);
    CODE(SIDEWAYS_OK, sideways_code_of(&h, bytes("Berge"), 5, &code));
    CHECK(code == 0);
    CODE(SIDEWAYS_OK, sideways_code_of(&h, NULL, 0, &code));
    CHECK(code == 0);
    CODE(SIDEWAYS_OK, sideways_code_of(&h, bytes("\xff\xfe"), 2, &code));
    CHECK(code == 0);
    CODE(SIDEWAYS_OK, sideways_text_of(&h, 3, room, sizeof room, &size));
    CHECK(size == 4 && memcmp(room, "it's", 4) == 0);
    CODE(SIDEWAYS_OK, sideways_text_of(&h, 3, NULL, 0, &size));
    CHECK(size == 4);
    CODE(SIDEWAYS_BAD_CELL, sideways_text_of(&h, 0, room, sizeof room, &size));
    CODE(SIDEWAYS_BAD_CELL, sideways_text_of(&h, 4, room, sizeof room, &size));
    CODE(SIDEWAYS_BAD_CELL, sideways_text_of(&h, INT64_MIN, room, sizeof room, &size));
    CODE(SIDEWAYS_OK, line(&h, 1, "count where a > 5"));
    CODE(SIDEWAYS_OK, sideways_head_stats(&h, A, &stats));
    CHECK(stats.queries == 1);
    CODE(SIDEWAYS_OK, sideways_head_stats(&h, P, &stats));
    CHECK(stats.queries == 0 && stats.cells == 0);
    CODE(SIDEWAYS_NO_ATTRIBUTE, sideways_head_stats(&h, 4, &stats));
    CODE(SIDEWAYS_OK, sideways_close(&h));
    sideways_free(h);
}

/* Where a text is no table. */
static void try_places(void) {
    sideways_place place = {77, 77};
    CODE(SIDEWAYS_OK, sideways_table_fault(bytes(TABLE), strlen(TABLE), &place));
    CHECK(place.row == 0 && place.column == 0);
    CODE(SIDEWAYS_BAD_TABLE, sideways_table_fault(bytes("a,b:real\n1,2\n"), 13, &place));
    CHECK(place.row == 0 && place.column == 2);
    CODE(SIDEWAYS_BAD_TABLE, sideways_table_fault(bytes("a,b\n1,2\n3,x\ny,4\n"), 16, &place));
    CHECK(place.row == 2 && place.column == 2);
    CODE(SIDEWAYS_TOO_MANY, sideways_table_fault(bytes("a,b,c,d,e,f,g,h,i\n"), 18, &place));
    CHECK(place.row == 0 && place.column == 0);
    CODE(SIDEWAYS_BAD_TABLE, sideways_table_fault(NULL, 0, &place));
    CHECK(place.row == 0 && place.column == 0);
}

static void try_opening(void) {
    sideways h = SIDEWAYS_CLOSED;
    CODE(SIDEWAYS_BAD_TABLE, sideways_open(NULL, 0, NULL, 0, &OPTIONS, &h));
    CODE(SIDEWAYS_BAD_TABLE, open_text("a:real\n1\n", &OPTIONS, &h));
    CODE(SIDEWAYS_BAD_TABLE, open_text("a,b\n1\n", &OPTIONS, &h));
    CODE(SIDEWAYS_TOO_MANY, open_text("a,b,c,d,e,f,g,h,i\n", &OPTIONS, &h));
    CODE(SIDEWAYS_BAD_LINE, sideways_open(bytes("a\n1\n"), 4, bytes("a"), 1, &OPTIONS, &h));
    const sideways_options bad[] = {{0, 1, 1}, {1048577, 1, 1}, {1, 1099511627777, 1}, {1, 1, 4097}, {UINT64_MAX, UINT64_MAX, UINT64_MAX}};
    for (size_t i = 0; i < sizeof bad / sizeof *bad; i++) CODE(SIDEWAYS_BAD_OPTIONS, open_text("a\n1\n", &bad[i], &h));
    const sideways_options one = {1, 0, 0};
    CODE(SIDEWAYS_TOO_MANY, open_text("a\n1\n2\n", &one, &h));
    CHECK(!h.is_open && h.at == NULL);
    CODE(SIDEWAYS_OK, open_text("a\n1\n", &one, &h));
    CODE(SIDEWAYS_MISUSE, open_text("a\n1\n", &one, &h));
    uint64_t number, found;
    for (uint64_t i = 1; i <= 1024; i++) {
        CODE(SIDEWAYS_OK, sideways_session(&h, &number));
        CHECK(number == i);
    }
    CODE(SIDEWAYS_TOO_MANY, sideways_session(&h, &number));
    CHECK(number == 0);
    CODE(SIDEWAYS_OK, sideways_count(&h, 1024, NULL, 0, &found));
    CHECK(found == 1);
    CODE(SIDEWAYS_OK, sideways_close(&h));
    sideways_free(h);
}

/* Whether two handles tell the same history, of the same calls. */
static void same_history(sideways *one, sideways *two) {
    size_t size, other;
    CODE(SIDEWAYS_OK, sideways_close(one));
    CODE(SIDEWAYS_OK, sideways_close(two));
    uint8_t *first = whole_text(one, &size), *second = whole_text(two, &other);
    uint64_t entry;
    CHECK(size == other && memcmp(first, second, size) == 0);
    CODE(SIDEWAYS_OK, sideways_check(first, size, &entry));
    free(first);
    free(second);
}

/* A table of columns is that of its text. */
static void try_columns(void) {
    columns it;
    fill_columns(&it);
    sideways h = SIDEWAYS_CLOSED, text = opened();
    uint64_t number, found;
    CODE(SIDEWAYS_OK, open_columns(&it, &OPTIONS, &h));
    CODE(SIDEWAYS_MISUSE, open_columns(&it, &OPTIONS, &h));
    memset(&it, 0xff, sizeof it);
    CODE(SIDEWAYS_OK, sideways_session(&h, &number));
    CODE(SIDEWAYS_OK, line(&h, 1, "select a, p, ok, city"));
    CODE(SIDEWAYS_OK, line(&text, 1, "select a, p, ok, city"));
    CHECK(has_text(&h, "1: 12, 7.50, true, 'Oslo'\n2: 3, 8.00, false, 'Bergen'\n3: 12, -0.25, true, 'Oslo'\n4: 20, 2.00, false, 'it''s'\n(4 rows)\n"));
    same_history(&h, &text);
    sideways_free(text);
    sideways_free(h);
    /* no rows, no cells: NULL may stand where there is nothing */
    h = (sideways)SIDEWAYS_CLOSED;
    sideways_attribute none = {bytes("a"), 1, SIDEWAYS_INT, {NULL, 0, 0}};
    const sideways_columns empty = {&none, 1, 0, NULL, 0, NULL, 0};
    CODE(SIDEWAYS_OK, sideways_open_columns(&empty, NULL, 0, &OPTIONS, &h));
    CODE(SIDEWAYS_OK, sideways_session(&h, &number));
    CODE(SIDEWAYS_OK, sideways_count(&h, 1, NULL, 0, &found));
    CHECK(found == 0);
    sideways_free(h);
    /* one cell for all rows, a text that no row has, and an empty one */
    h = (sideways)SIDEWAYS_CLOSED;
    const int64_t one[1] = {1};
    const uint64_t ends[2] = {0, 3};
    sideways_attribute same = {bytes("t"), 1, SIDEWAYS_TEXT, {one, 1, 0}};
    const sideways_columns repeated = {&same, 1, 1000, bytes("new"), 3, ends, 2};
    CODE(SIDEWAYS_OK, sideways_open_columns(&repeated, NULL, 0, &OPTIONS, &h));
    CODE(SIDEWAYS_OK, sideways_session(&h, &number));
    CODE(SIDEWAYS_OK, line(&h, 1, "count where t = ''"));
    CHECK(has_text(&h, "1000\n"));
    CODE(SIDEWAYS_OK, line(&h, 1, "insert 'new'"));
    CHECK(has_text(&h, "key 1001\n"));
    sideways_free(h);
}

static void try_bad_columns(void) {
    columns it;
    sideways h = SIDEWAYS_CLOSED;
    sideways_place place;
#define REFUSED(code, at_row, at_column, change)                      \
    do {                                                              \
        fill_columns(&it);                                            \
        change;                                                       \
        CODE(code, open_columns(&it, &OPTIONS, &h));                  \
        CHECK(!h.is_open && h.at == NULL);                            \
        place.row = place.column = 77;                                \
        CODE(code, sideways_columns_fault(&it.table, &place));        \
        CHECK(place.row == (at_row) && place.column == (at_column));  \
    } while (0)
    REFUSED(SIDEWAYS_BAD_TABLE, 0, 2, it.attributes[1].kind = 9; it.cells[2][6] = 2; it.table.rows = UINT64_MAX);
    REFUSED(SIDEWAYS_BAD_TABLE, 0, 0, it.table.attributes_size = 0);
    REFUSED(SIDEWAYS_BAD_TABLE, 0, 2, it.attributes[1].name_size = 0);
    REFUSED(SIDEWAYS_BAD_TABLE, 0, 2, it.attributes[1].name = bytes("\xff"));
    REFUSED(SIDEWAYS_BAD_TABLE, 0, 2, it.attributes[1].name = bytes(":"));
    REFUSED(SIDEWAYS_BAD_TABLE, 0, 2, (it.attributes[1].name = bytes("where"), it.attributes[1].name_size = 5));
    REFUSED(SIDEWAYS_BAD_TABLE, 0, 2, it.attributes[1].name = bytes("a"));
    REFUSED(SIDEWAYS_BAD_TABLE, 0, 1, it.attributes[0].kind = 9);
    REFUSED(SIDEWAYS_BAD_TABLE, 0, 1, it.attributes[0].kind = UINT32_MAX);
    REFUSED(SIDEWAYS_TOO_MANY, 0, 0, it.table.rows = 1048577);
    REFUSED(SIDEWAYS_TOO_MANY, 0, 0, it.table.rows = UINT64_MAX);
    REFUSED(SIDEWAYS_BAD_TABLE, 5, 1, it.table.rows = 5);
    REFUSED(SIDEWAYS_BAD_TABLE, 4, 4, it.attributes[3].cells.cells_size = 6);
    REFUSED(SIDEWAYS_BAD_TABLE, 2, 1, it.attributes[0].cells.stride = UINT64_MAX);
    REFUSED(SIDEWAYS_BAD_TABLE, 2, 1, it.attributes[0].cells.stride = UINT64_MAX / 2 + 1);
    REFUSED(SIDEWAYS_BAD_TABLE, 4, 3, it.cells[2][6] = 2);
    REFUSED(SIDEWAYS_BAD_TABLE, 1, 3, it.cells[2][0] = -1);
    REFUSED(SIDEWAYS_BAD_TABLE, 4, 4, it.cells[3][6] = 4);
    REFUSED(SIDEWAYS_BAD_TABLE, 1, 4, it.cells[3][0] = 0);
    REFUSED(SIDEWAYS_BAD_TABLE, 0, 7, it.ends[2] = 15);
    REFUSED(SIDEWAYS_BAD_TABLE, 0, 7, it.ends[2] = 9);
    REFUSED(SIDEWAYS_BAD_TABLE, 0, 5, it.ends[0] = UINT64_MAX);
    REFUSED(SIDEWAYS_BAD_TABLE, 0, 6, it.table.texts = bytes("OsloOsloooit's"); it.ends[1] = 8);
    REFUSED(SIDEWAYS_BAD_TABLE, 0, 5, it.table.texts = bytes("Osl\nBergenit's"));
    REFUSED(SIDEWAYS_BAD_TABLE, 0, 5, it.table.texts = bytes("Osl\xff""Bergenit's"));
    REFUSED(SIDEWAYS_BAD_TABLE, 0, 4, it.table.attributes_size = 3);
#undef REFUSED
    fill_columns(&it);
    sideways_attribute nine[9];
    for (int i = 0; i < 9; i++) nine[i] = it.attributes[0];
    it.table.attributes = nine, it.table.attributes_size = 9;
    CODE(SIDEWAYS_TOO_MANY, open_columns(&it, &OPTIONS, &h));
    fill_columns(&it);
    sideways_options few = SIDEWAYS_OPTIONS;
    few.limit = 3;
    CODE(SIDEWAYS_TOO_MANY, open_columns(&it, &few, &h));
    few.limit = 0;
    CODE(SIDEWAYS_BAD_OPTIONS, open_columns(&it, &few, &h));
    CODE(SIDEWAYS_BAD_LINE, sideways_open_columns(&it.table, bytes("a"), 1, &OPTIONS, &h));
    CHECK(!h.is_open && h.at == NULL);
}

/* Many rows at once stand as each alone. */
static void try_insert_many(void) {
    sideways h = SIDEWAYS_CLOSED, each = SIDEWAYS_CLOSED;
    sideways_options small = SIDEWAYS_OPTIONS;
    small.limit = 6;
    uint64_t number, keys[4] = {77, 77, 77, 77}, key;
    size_t stand = 77;
    CODE(SIDEWAYS_OK, open_text(TABLE, &small, &h));
    CODE(SIDEWAYS_OK, open_text(TABLE, &small, &each));
    CODE(SIDEWAYS_OK, sideways_session(&h, &number));
    CODE(SIDEWAYS_OK, sideways_session(&each, &number));
    columns it;
    fill_columns(&it);
    sideways_cells cells[4];
    for (int i = 0; i < 4; i++) cells[i] = it.attributes[i].cells;
    CODE(SIDEWAYS_NO_SESSION, sideways_insert_many(&h, 2, cells, 4, keys, 3, &stand));
    CHECK(stand == 0);
    CODE(SIDEWAYS_BAD_CELL, sideways_insert_many(&h, 1, cells, 3, keys, 3, &stand));
    CODE(SIDEWAYS_BAD_CELL, sideways_insert_many(&h, 1, NULL, 0, keys, 3, &stand));
    cells[3].cells_size = 6;
    CODE(SIDEWAYS_BAD_CELL, sideways_insert_many(&h, 1, cells, 4, keys, 4, &stand));
    cells[3].cells_size = 7;
    it.cells[3][6] = 4;
    CODE(SIDEWAYS_BAD_CELL, sideways_insert_many(&h, 1, cells, 4, keys, 4, &stand));
    CHECK(stand == 0 && keys[0] == 77 && keys[3] == 77);
    CODE(SIDEWAYS_OK, sideways_insert_many(&h, 1, cells, 4, NULL, 0, &stand));
    CHECK(stand == 0);
    CODE(SIDEWAYS_OK, sideways_insert_many(&h, 1, cells, 4, keys, 3, &stand));
    CHECK(stand == 3 && keys[0] == 5 && keys[1] == 6 && keys[2] == 0 && keys[3] == 77);
    for (int row = 0; row < 3; row++) {
        const int64_t one[4] = {it.cells[0][2 * row], it.cells[1][2 * row], it.cells[2][2 * row], it.cells[3][2 * row]};
        CODE(SIDEWAYS_OK, sideways_insert(&each, 1, one, 4, &key));
        CHECK(key == keys[row]);
    }
    same_history(&h, &each);
    sideways_free(each);
    sideways_free(h);
}

/* A history takes 1,048,576 entries: those that find no room stand before the one that is refused. */
static void try_full_history(void) {
    enum { MOST = 1048576 };
    sideways h = SIDEWAYS_CLOSED;
    sideways_options small = {1, 0, 0};
    uint64_t number, found, *keys = calloc(MOST + 2, sizeof *keys);
    const int64_t one[1] = {7};
    const sideways_cells cells = {one, 1, 0};
    size_t stand;
    CHECK(keys != NULL);
    keys[MOST] = 77;
    CODE(SIDEWAYS_OK, open_text("a\n", &small, &h));
    CODE(SIDEWAYS_OK, sideways_session(&h, &number));
    CODE(SIDEWAYS_OK, sideways_count(&h, 1, NULL, 0, &found));
    CODE(SIDEWAYS_HISTORY_FULL, sideways_insert_many(&h, 1, &cells, 1, keys, MOST + 2, &stand));
    CHECK(stand == MOST - 1 && keys[0] == 1 && keys[1] == 0 && keys[MOST] == 77);
    CODE(SIDEWAYS_HISTORY_FULL, sideways_insert_many(&h, 1, &cells, 1, keys, 1, &stand));
    CHECK(stand == 0);
    free(keys);
    sideways_free(h);
}

/* A handle that is closed, ended or zeroed is told to be. Rows are read with another code where a text is left. */
static void try_unopened(sideways *h) {
    uint32_t no_rows = h->is_open ? SIDEWAYS_NO_ROWS : SIDEWAYS_MISUSE;
    uint64_t n = 77, keys[1] = {77};
    const uint64_t shown[1] = {0};
    int64_t cells[1] = {1};
    size_t copied = 77;
    uint32_t kind;
    uint8_t room[8];
    sideways_cond low = within(A, 10, 15);
    sideways_sum_words sum;
    sideways_least least;
    sideways_stats stats;
    CODE(SIDEWAYS_MISUSE, sideways_session(h, &n));
    CODE(SIDEWAYS_MISUSE, sideways_close(h));
    CODE(SIDEWAYS_MISUSE, sideways_history(h));
    CODE(SIDEWAYS_MISUSE, sideways_exec(h, 1, bytes("count"), 5));
    CODE(SIDEWAYS_MISUSE, sideways_line_fault(h, bytes("count"), 5));
    CODE(SIDEWAYS_MISUSE, sideways_view(h, shown, 1, &low, 1, &n));
    CODE(SIDEWAYS_MISUSE, sideways_learn(h, bytes("x"), 1, cells));
    CODE(SIDEWAYS_MISUSE, sideways_count(h, 1, &low, 1, &n));
    CODE(SIDEWAYS_MISUSE, sideways_sum(h, 1, A, &low, 1, &sum));
    CODE(SIDEWAYS_MISUSE, sideways_min(h, 1, A, &low, 1, &least));
    CODE(SIDEWAYS_MISUSE, sideways_max(h, 1, A, &low, 1, &least));
    CODE(SIDEWAYS_MISUSE, sideways_select(h, 1, shown, 1, &low, 1, &n));
    CODE(no_rows, sideways_keys(h, 0, keys, 1, &copied));
    CODE(no_rows, sideways_column(h, 0, 0, cells, 1, &copied));
    CODE(SIDEWAYS_MISUSE, sideways_insert(h, 1, cells, 1, &n));
    const sideways_cells column = {cells, 1, 1};
    CODE(SIDEWAYS_MISUSE, sideways_insert_many(h, 1, &column, 1, keys, 1, &copied));
    CHECK(copied == 0 && keys[0] == 77);
    CODE(SIDEWAYS_MISUSE, sideways_delete(h, 1, 1, &n));
    CODE(SIDEWAYS_MISUSE, sideways_delete_where(h, 1, &low, 1, &n));
    CODE(SIDEWAYS_MISUSE, sideways_kind(h, 0, &kind));
    CODE(SIDEWAYS_MISUSE, sideways_name(h, 0, room, sizeof room, &copied));
    CODE(SIDEWAYS_MISUSE, sideways_code_of(h, bytes("x"), 1, cells));
    CODE(SIDEWAYS_MISUSE, sideways_text_of(h, 1, room, sizeof room, &copied));
    CODE(SIDEWAYS_MISUSE, sideways_head_stats(h, 0, &stats));
    CHECK(sideways_attributes(h) == 0 && sideways_texts_known(h) == 0);
}

static void try_histories(void) {
    sideways h = opened(), why = SIDEWAYS_CLOSED;
    uint64_t number, entry = 77;
    CODE(SIDEWAYS_OK, sideways_session(&h, &number));
    CODE(SIDEWAYS_OK, line(&h, 1, "count where a >= 10"));
    CODE(SIDEWAYS_OK, line(&h, 2, "delete 2"));
    CODE(SIDEWAYS_OK, sideways_close(&h));
    size_t size;
    uint8_t *history = whole_text(&h, &size);
    try_unopened(&h);
    CHECK(sideways_text_size(&h) == size);
    CODE(SIDEWAYS_OK, sideways_check(history, size, &entry));
    CHECK(entry == 0);
    history[size] = 0;
    char *reply = strstr((char *)history, "[\"removed\"]");
    CHECK(reply != NULL);
    memcpy(reply, "[\"gone!!!\"]", 11);
    CODE(SIDEWAYS_NOT_LEGAL, sideways_check(history, size, &entry));
    CHECK(entry == 2);
    CODE(SIDEWAYS_NOT_LEGAL, sideways_explain(history, size, &why));
    size_t told;
    uint8_t *words = whole_text(&why, &told);
    words[told] = 0;
    CHECK(strncmp((char *)words, "not legal: entry 2\nentry 2, session 2: delete 2\n", 48) == 0);
    try_unopened(&why);
    CODE(SIDEWAYS_MISUSE, sideways_explain(history, size, &why));
    sideways_free(why);
    why = (sideways)SIDEWAYS_CLOSED;
    CODE(SIDEWAYS_BAD_LINE, sideways_check(history, size - 1, &entry));
    CHECK(entry == 0);
    CODE(SIDEWAYS_BAD_LINE, sideways_check(NULL, 0, &entry));
    CODE(SIDEWAYS_BAD_LINE, sideways_explain(NULL, 0, &why));
    CHECK(!why.is_open);
    free(words);
    free(history);
    sideways_free(h);
}

/* The example of crates/sideways_c/README.md. */
static void try_example(void) {
    const uint8_t *csv = bytes(TABLE);
    size_t csv_size = strlen(TABLE);
    sideways_cond conds[1] = {within(A, 10, 15)};
    sideways h = SIDEWAYS_CLOSED; uint64_t session; uint64_t found; sideways_options options = SIDEWAYS_OPTIONS;
    sideways_open(csv, csv_size, NULL, 0, &options, &h);
    sideways_session(&h, &session);
    sideways_count(&h, session, conds, 1, &found);
    sideways_close(&h);
    CHECK(found == 2);
    sideways_free(h);
}

int main(void) {
    CHECK(sideways_version() == SIDEWAYS_VERSION);
    sideways zeroed;
    memset(&zeroed, 0, sizeof zeroed);
    try_unopened(&zeroed);
    CHECK(sideways_text_size(&zeroed) == 0 && sideways_text(&zeroed, 0, NULL, 0) == 0);
    sideways_free(zeroed);
    try_example();
    try_opening();
    try_places();
    try_lines();
    try_line_faults();
    try_new_texts();
    try_open_histories();
    try_aggregates();
    try_bad_conditions();
    try_selects();
    try_changes();
    try_columns();
    try_bad_columns();
    try_insert_many();
    try_full_history();
    try_names();
    try_histories();
    puts("calls: all passed");
    return 0;
}
