/* What the tests in C share: a check that ends the program, and the table that they ask. */
#ifndef TRIED_H
#define TRIED_H
#include "sideways.h"
#include "sideways_codes.h"
#include <stdio.h>
#include <stdlib.h>
#include <string.h>

#define CHECK(holds)                                                          \
    do {                                                                      \
        if (!(holds)) {                                                       \
            fprintf(stderr, "%s:%d: WRONG: %s\n", __FILE__, __LINE__, #holds); \
            exit(1);                                                          \
        }                                                                     \
    } while (0)

/* A check of a code, which tells the one that came. */
#define CODE(wanted, call)                                                                                       \
    do {                                                                                                         \
        uint32_t came = (call);                                                                                  \
        if (came != (uint32_t)(wanted)) {                                                                        \
            fprintf(stderr, "%s:%d: WRONG: code %u of %s\n", __FILE__, __LINE__, (unsigned)came, #call);          \
            exit(1);                                                                                             \
        }                                                                                                        \
    } while (0)

static const char TABLE[] = "a:int,p:fix2,ok:flag,city:text\n12,7.50,true,Oslo\n3,8,false,Bergen\n12,-0.25,true,Oslo\n20,2,false,it's\n";
static const sideways_options OPTIONS = SIDEWAYS_OPTIONS;
enum { A, P, OK, CITY };

static inline const uint8_t *bytes(const char *text) {
    return (const uint8_t *)text;
}

static inline uint32_t open_text(const char *table, const sideways_options *options, sideways *out) {
    return sideways_open(bytes(table), strlen(table), NULL, 0, options, out);
}

/* A handle over the table, with session 1. */
static inline sideways opened(void) {
    sideways h = SIDEWAYS_CLOSED;
    uint64_t number = 0;
    CODE(SIDEWAYS_OK, open_text(TABLE, &OPTIONS, &h));
    CODE(SIDEWAYS_OK, sideways_session(&h, &number));
    CHECK(number == 1);
    return h;
}

static inline uint32_t line(sideways *h, uint64_t session, const char *text) {
    return sideways_exec(h, session, bytes(text), strlen(text));
}

/* Whether the text that a handle keeps is this one. */
static inline bool has_text(sideways *h, const char *wanted) {
    uint8_t room[512];
    size_t size = sideways_text_size(h);
    return size == strlen(wanted) && size <= sizeof room && sideways_text(h, 0, room, sizeof room) == size && memcmp(room, wanted, size) == 0;
}

static inline sideways_cond within(uint64_t attribute, int64_t least, int64_t greatest) {
    sideways_cond cond = {attribute, least, greatest, SIDEWAYS_BEFORE, SIDEWAYS_AFTER};
    return cond;
}

/* The same table as columns: cells with a stride of 2, the texts one behind the other. The tests change what they try. */
typedef struct {
    int64_t cells[4][8];
    uint64_t ends[3];
    sideways_attribute attributes[4];
    sideways_columns table;
} columns;

static inline void fill_columns(columns *it) {
    static const int64_t cells[4][8] = {{12, 9, 3, 9, 12, 9, 20}, {750, 9, 800, 9, -25, 9, 200}, {1, 9, 0, 9, 1, 9, 0}, {1, 9, 2, 9, 1, 9, 3}};
    static const char *names[4] = {"a", "p", "ok", "city"};
    static const uint32_t kinds[4] = {SIDEWAYS_INT, SIDEWAYS_FIX2, SIDEWAYS_FLAG, SIDEWAYS_TEXT};
    memcpy(it->cells, cells, sizeof cells);
    for (int i = 0; i < 4; i++) {
        sideways_attribute one = {bytes(names[i]), strlen(names[i]), kinds[i], {it->cells[i], 7, 2}};
        it->attributes[i] = one;
    }
    it->ends[0] = 4, it->ends[1] = 10, it->ends[2] = 14;
    sideways_columns table = {it->attributes, 4, 4, bytes("OsloBergenit's"), 14, it->ends, 3};
    it->table = table;
}

static inline uint32_t open_columns(const columns *it, const sideways_options *options, sideways *out) {
    return sideways_open_columns(&it->table, NULL, 0, options, out);
}

/* All of the text that a handle keeps; the caller frees it. */
static inline uint8_t *whole_text(sideways *h, size_t *size) {
    *size = sideways_text_size(h);
    uint8_t *text = malloc(*size + 1);
    CHECK(text != NULL);
    CHECK(sideways_text(h, 0, text, *size) == *size);
    return text;
}
#endif
