/* One million calls of each sort with no growth of memory beyond what the history has to keep: calls that stand in no history take
   none, calls that do take the same for each, and tables that are opened and freed give all back. */
#include "heap.h"
#include "tried.h"

enum { MANY = 1000000 };

/* Calls without an entry: the bytes that are out stay what they were. */
static void try_without_entries(void) {
    sideways h = opened();
    uint8_t room[64];
    size_t size;
    int64_t code;
    uint64_t found = 0, keys[4];
    const uint64_t shown[1] = {A};
    sideways_cond bad = {A, 1, 2, SIDEWAYS_NONE, SIDEWAYS_NONE};
    CODE(SIDEWAYS_OK, line(&h, 1, "count"));
    CODE(SIDEWAYS_OK, sideways_select(&h, 1, shown, 1, NULL, 0, &found));
    uint64_t bytes_before = heap_bytes, grants_before = heap_grants;
    for (int i = 0; i < MANY; i++) {
        CODE(SIDEWAYS_OK, sideways_keys(&h, 0, keys, 4, &size));
        CODE(SIDEWAYS_NO_SESSION, line(&h, 9, "count"));
        CODE(SIDEWAYS_BAD_CONDITION, sideways_count(&h, 1, &bad, 1, &found));
        CODE(SIDEWAYS_OK, sideways_code_of(&h, bytes("Bergen"), 6, &code));
        CODE(SIDEWAYS_OK, sideways_text_of(&h, code, room, sizeof room, &size));
        if (i % 16 == 0) CODE(SIDEWAYS_BAD_LINE, line(&h, 1, "count where a >"));
        if (i % 16 == 0) CODE(SIDEWAYS_BAD_LINE, line(&h, 1, "insert 1, 1, true, 'Paris', 'Rom'"));
        if (i % 1000 == 0) CODE(SIDEWAYS_OK, sideways_view(&h, shown, 1, NULL, 0, &found));
    }
    CHECK(heap_bytes == bytes_before && heap_grants == grants_before);
    CODE(SIDEWAYS_OK, line(&h, 1, ""));
    CHECK(heap_bytes <= bytes_before);
    sideways_free(h);
}

/* Calls with an entry, a million in one table: its bytes are at most so many for each. */
static void try_entries(void) {
    sideways h = opened();
    uint64_t found = 0, before = heap_bytes;
    sideways_cond low = within(A, 10, 15);
    for (int i = 0; i < MANY; i++) {
        CODE(SIDEWAYS_OK, sideways_count(&h, 1, &low, 1, &found));
        CHECK(found == 2);
    }
    uint64_t each = (heap_bytes - before) / MANY;
    printf("growing: %llu bytes for an entry of the history\n", (unsigned long long)each);
    CHECK(each < 1024);
    sideways_free(h);
    CHECK(heap_bytes == 0 && heap_grants == 0);
}

/* Tables that are opened, asked and given back. */
static void try_tables(void) {
    for (int i = 0; i < MANY / 100; i++) {
        sideways h = opened();
        CODE(SIDEWAYS_OK, line(&h, 1, "sum p where a >= 10"));
        if (i % 2) CODE(SIDEWAYS_OK, sideways_close(&h));
        sideways_free(h);
        CHECK(heap_bytes == 0 && heap_grants == 0);
    }
}

int main(void) {
    try_without_entries();
    CHECK(heap_bytes == 0 && heap_grants == 0);
    try_entries();
    try_tables();
    puts("growing: all passed");
    return 0;
}
