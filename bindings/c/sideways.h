/* sideways.h: the engine in another program. Link with libsideways.a (docs/EMBEDDING.md).

   A handle stands for a table, the history of its calls, and heads that crack while they are asked. It is for one visitor at
   a time: while one call has it, no other call may. Nothing here takes a lock, starts a thread or waits.

   - Every function that can be refused answers a code: SIDEWAYS_OK, a refusal of the project (1 to 14, `sideways explain N`),
     or one of the border (100 and more). Refused, the engine is as it was, its history included, save under SIDEWAYS_NO_TEXT, and
     as sideways_insert_many and sideways_close say; what stands behind an out pointer is told at each function.
   - Results go out through pointers. The caller owns all buffers; nothing that a caller gives is kept after the call.
   - A text is bytes and a length, without a 0 at its end. Where the length is 0 the pointer is not read and may be NULL; any
     other pointer here is never NULL and points to as many values as its length says. Out buffers overlap nothing else that
     is given in the same call.
   - Attributes have the numbers 0, 1, 2 and so on; sessions and rows' keys 1, 2, 3 and so on.
   - A cell is an int64: of `int` the number, of `fix1` to `fix6` the number times ten for each decimal, of `flag` 1 or 0, of
     `text` the code of a text (sideways_code_of). */
#ifndef SIDEWAYS_H
#define SIDEWAYS_H
#include <stdbool.h>
#include <stddef.h>
#include <stdint.h>
#ifdef __cplusplus
extern "C" {
#endif

/* The version of this border: a library of another one is not for this header. */
#define SIDEWAYS_VERSION 3u

/* ---- codes */

enum {
    SIDEWAYS_OK = 0,
    SIDEWAYS_NO_MEMORY = 1,          /* a growth was refused */
    SIDEWAYS_BAD_TABLE = 2,          /* a field of the table is none */
    SIDEWAYS_BAD_LINE = 3,           /* the line is no call, the text of cuts or of a history is none */
    SIDEWAYS_UNKNOWN_ATTRIBUTE = 4,  /* a well-formed name that no attribute has */
    SIDEWAYS_TOO_MANY = 5,           /* more of something than its greatest number: rows, texts, attributes, sessions, cuts, bytes */
    SIDEWAYS_HISTORY_FULL = 10,      /* the history has 1,048,576 entries */
    SIDEWAYS_NOT_LEGAL = 11,         /* a history is not legal */

    SIDEWAYS_MISUSE = 100,           /* the handle is closed, or it is in use where a closed one is wanted */
    SIDEWAYS_NO_SESSION = 101,       /* no such session was opened */
    SIDEWAYS_NO_ATTRIBUTE = 102,     /* no attribute has this number, or it is of texts where numbers are wanted, or no attribute or
                                        more than 8 were asked for */
    SIDEWAYS_BAD_OPTIONS = 103,      /* the limit, the budget or the number of maps is out of its range */
    SIDEWAYS_NO_TEXT = 104,          /* the call was made and stands in the history, and there was no memory for its text */
    SIDEWAYS_BAD_CONDITION = 105,    /* a condition has no bound or an unknown kind of bound, its bounds are none of its
                                        attribute's kind, or an earlier condition is on the same attribute */
    SIDEWAYS_BAD_CELL = 106,         /* a cell is none of its attribute's kind, or there are more or fewer cells than wanted */
    SIDEWAYS_NO_ROWS = 107           /* nothing was selected or viewed by this handle, so there are no rows to be read */
};

/* ---- handles */

/* All zeros is a closed one: sideways h = SIDEWAYS_CLOSED. It may be moved in memory, and is never used at two places: what was
   copied from is closed by the caller. Its fields are the library's. */
typedef struct {
    bool is_open;
    void *at;
} sideways;
#define SIDEWAYS_CLOSED {false, NULL}

typedef struct {
    uint64_t limit;  /* how many rows are ever inserted at most, those of the table included: 1 to 1,048,576 */
    uint64_t budget; /* how many cells the maps may have together, each a pair of 16 bytes, at most 1,099,511,627,776; with none
                        every query scans */
    uint64_t maps;   /* how many maps there are, dealt out to the attributes in turn, at most 4,096; with none every query scans */
} sideways_options;
#define SIDEWAYS_OPTIONS {1048576u, 16777216u, 64u}

/* Opens an engine over a table of comma-separated values (docs/FORMATS.md, 'The table'), with cuts as `--cuts` takes them, which
   may be empty. The handle is closed before; refused, it stays closed. Texts are hashed under a key that everybody knows. */
uint32_t sideways_open(const uint8_t *csv, size_t csv_size, const uint8_t *cuts, size_t cuts_size, const sideways_options *options,
                       sideways *out);

/* Cells of a column: that of the first row comes first, and each other one stands `stride` places (of 8 bytes) behind that of the
   row before it. With a stride of 0 all rows have the first one. */
typedef struct {
    const int64_t *cells;
    size_t cells_size;
    uint64_t stride;
} sideways_cells;

/* An attribute of a table of columns: its name, 1 to 32 letters, digits and _; its kind (SIDEWAYS_INT and so on, below); its cells. */
typedef struct {
    const uint8_t *name;
    size_t name_size;
    uint32_t kind;
    sideways_cells cells;
} sideways_attribute;

/* A table as columns. The texts for which cells of texts stand lie one behind the other: each ends where `ends` says, and begins
   where the one before it ends; the first has the code 1. Attributes of texts share them, and rows need not have all of them. */
typedef struct {
    const sideways_attribute *attributes;
    size_t attributes_size;
    uint64_t rows;
    const uint8_t *texts;
    size_t texts_size;
    const uint64_t *ends;
    size_t ends_size;
} sideways_columns;

/* Opens an engine over a table of columns, whose rows have the keys 1, 2, 3 and so on. The rest is as at sideways_open. The first of
   these is told: SIDEWAYS_BAD_TABLE where an attribute has no name, a name that an earlier one has, or no kind; SIDEWAYS_TOO_MANY of
   more than 8 attributes (before any is looked at), 1,048,576 rows, 1,048,576 texts; SIDEWAYS_BAD_TABLE where a text is none (more
   than 64 bytes, no UTF-8, control characters), stands twice, ends before it begins or behind them all, or no attribute is of texts;
   SIDEWAYS_BAD_TABLE where a row has no cell of the attribute's kind: a flag that is not 0 or 1, a code without a text, or no cell
   within `cells_size`; then what sideways_open tells of cuts and of the limit. */
uint32_t sideways_open_columns(const sideways_columns *table, const uint8_t *cuts, size_t cuts_size, const sideways_options *options,
                               sideways *out);

/* Where a table is none: the row, of which 0 is the header, and the column, from 1; both 0 under a code other than
   SIDEWAYS_BAD_TABLE. Texts of a table of columns stand in row 0 behind the attributes: the first of 3 attributes' is column 4. */
typedef struct {
    uint64_t row;
    uint64_t column;
} sideways_place;

/* Read a table, and tell why sideways_open and sideways_open_columns would refuse it, and where; SIDEWAYS_OK of what is a table. */
uint32_t sideways_table_fault(const uint8_t *csv, size_t csv_size, sideways_place *place);
uint32_t sideways_columns_fault(const sideways_columns *table, sideways_place *place);

/* Opens the next session and tells its number, from 1; 0 where it is refused. 1,024 at most. */
uint32_t sideways_session(sideways *h, uint64_t *number);

/* Keeps the history so far as the text (docs/HISTORIES.md), and the engine goes on: it is legal, and has the calls that were made.
   Refused for want of memory, the text is as it was. */
uint32_t sideways_history(sideways *h);

/* Ends the engine: the text is now that of its history (docs/HISTORIES.md), and the handle has no engine any more: all but
   sideways_text_size, sideways_text and sideways_free answer SIDEWAYS_MISUSE, or SIDEWAYS_NO_ROWS where rows are read. Refused
   for want of memory, it has ended too. */
uint32_t sideways_close(sideways *h);

/* Gives back all that a handle stands for. The caller's copy is closed by the caller: h = (sideways)SIDEWAYS_CLOSED. A closed
   handle may be freed. */
void sideways_free(sideways h);

/* ---- lines and texts */

/* Executes a line of a script (docs/FORMATS.md, 'Calls') as a session's. The text is then that of its reply; it is empty where
   the line has no call. A text in quotes that the table does not know becomes known with the call. Refused, no text has become
   known, and the text of the handle is as it was; under SIDEWAYS_NO_TEXT too, where the call was made. */
uint32_t sideways_exec(sideways *h, uint64_t session, const uint8_t *line, size_t line_size);

/* Answers the code for which sideways_exec would refuse a line as one that is no call, and the text is then words about that: the
   column, what stands there, what could stand there, and the line with a caret below it. Of a line that is not refused the code is
   SIDEWAYS_OK and the text empty. Nothing else changes; no call is made. */
uint32_t sideways_line_fault(sideways *h, const uint8_t *line, size_t line_size);

/* How many bytes the text has that was kept last: a reply's, a history's, words about a line or a history; 0 of a closed handle. */
size_t sideways_text_size(sideways *h);

/* Copies that text from a place on, as much as there is room for, and answers how many bytes that was. */
size_t sideways_text(sideways *h, size_t from, uint8_t *out, size_t out_size);

/* ---- typed calls. Each stands in the history as the line of the same meaning does. */

/* A condition on an attribute: its cells are above the lower bound and below the upper one, where they are there.
   Kinds: SIDEWAYS_NONE, no bound, whatever the value; SIDEWAYS_BEFORE, the bound stands before the value: as a lower one it lets
   the value in (>=), as an upper one it keeps it out (<); SIDEWAYS_AFTER, the bound stands after the value: as a lower one it
   keeps it out (>), as an upper one it lets it in (<=). So a = v is BEFORE v, AFTER v; on an attribute of texts nothing else is
   a condition. A condition has a bound at least, and each attribute stands in one condition at most. */
enum { SIDEWAYS_NONE = 0, SIDEWAYS_BEFORE = 1, SIDEWAYS_AFTER = 2 };
typedef struct {
    uint64_t attribute;
    int64_t lower;
    int64_t upper;
    uint32_t lower_kind;
    uint32_t upper_kind;
} sideways_cond;

/* What a condition begins with, as sideways_cond range = SIDEWAYS_BETWEEN(0, 10, 15): at least 10 and at most 15. */
#define SIDEWAYS_BETWEEN(attribute, least, greatest) {(attribute), (least), (greatest), SIDEWAYS_BEFORE, SIDEWAYS_AFTER}
#define SIDEWAYS_EQUAL(attribute, value) SIDEWAYS_BETWEEN(attribute, value, value)
#define SIDEWAYS_AT_LEAST(attribute, least) {(attribute), (least), 0, SIDEWAYS_BEFORE, SIDEWAYS_NONE}
#define SIDEWAYS_ABOVE(attribute, bound) {(attribute), (bound), 0, SIDEWAYS_AFTER, SIDEWAYS_NONE}
#define SIDEWAYS_AT_MOST(attribute, greatest) {(attribute), 0, (greatest), SIDEWAYS_NONE, SIDEWAYS_AFTER}
#define SIDEWAYS_BELOW(attribute, bound) {(attribute), 0, (bound), SIDEWAYS_NONE, SIDEWAYS_BEFORE}

/* The sum as two words: high * 2^64 + low. */
typedef struct {
    uint64_t low;
    int64_t high;
} sideways_sum_words;

/* Refused, these leave what stands behind their out pointers as it was. No conditions: all rows. */
uint32_t sideways_count(sideways *h, uint64_t session, const sideways_cond *conds, size_t conds_size, uint64_t *found);
uint32_t sideways_sum(sideways *h, uint64_t session, uint64_t attribute, const sideways_cond *conds, size_t conds_size,
                      sideways_sum_words *sum);

/* The least or the greatest cell of an attribute: found is 1, or 0 where no row meets the conditions, and then value is 0. */
typedef struct {
    uint64_t found;
    int64_t value;
} sideways_least;
uint32_t sideways_min(sideways *h, uint64_t session, uint64_t attribute, const sideways_cond *conds, size_t conds_size,
                      sideways_least *least);
uint32_t sideways_max(sideways *h, uint64_t session, uint64_t attribute, const sideways_cond *conds, size_t conds_size,
                      sideways_least *greatest);

/* Selects 1 to 8 attributes, which may repeat, and tells how many rows there are. The rows are kept until the next select, the next
   view or the close, in ascending order of their keys, and are read by the two functions below. */
uint32_t sideways_select(sideways *h, uint64_t session, const uint64_t *attributes, size_t attributes_size,
                         const sideways_cond *conds, size_t conds_size, uint64_t *rows);

/* The same rows by a pass over the plain table as it is now, with no call: the history stays as it is, no session is wanted, and no
   head is asked. They are kept as those of a select are. */
uint32_t sideways_view(sideways *h, const uint64_t *attributes, size_t attributes_size, const sideways_cond *conds, size_t conds_size,
                       uint64_t *rows);

/* Copies the keys of the kept rows, from a row on (0 is the first), as many as there is room for, and tells how many. It passes over
   the rows before that one, so few large blocks are quicker than many small ones. */
uint32_t sideways_keys(sideways *h, size_t from, uint64_t *out, size_t out_size, size_t *copied);

/* The same of a column of the kept rows: the first attribute that was asked for is column 0. Refused SIDEWAYS_NO_ATTRIBUTE where
   the select had no such column. */
uint32_t sideways_column(sideways *h, size_t column, size_t from, int64_t *out, size_t out_size, size_t *copied);

/* ---- changes */

/* Inserts a row of as many cells as there are attributes, and tells its key; 0 where the table is full. */
uint32_t sideways_insert(sideways *h, uint64_t session, const int64_t *cells, size_t cells_size, uint64_t *key);

/* Inserts rows of as many columns as there are attributes, one call a row, in their order, and tells the key of each (0 where the
   table is full), and how many stand: all of them, or under another code than 0 those before the row that was refused, which stand
   in the history; the other keys are as they were. Where any cell is none, SIDEWAYS_BAD_CELL, none stands. */
uint32_t sideways_insert_many(sideways *h, uint64_t session, const sideways_cells *columns, size_t columns_size, uint64_t *keys,
                              size_t keys_size, size_t *stand);

/* Deletes the row of a key: removed is 1, or 0 where there is none. */
uint32_t sideways_delete(sideways *h, uint64_t session, uint64_t key, uint64_t *removed);

/* Deletes each row that meets all the conditions, one at least, and tells how many those were. */
uint32_t sideways_delete_where(sideways *h, uint64_t session, const sideways_cond *conds, size_t conds_size, uint64_t *removed);

/* ---- what a table has */

/* How many attributes there are; 0 of a handle without an engine. */
size_t sideways_attributes(sideways *h);

/* The kind of an attribute: 0 of int, 1 to 6 of fix1 to fix6, 7 of flag, 8 of text. */
enum { SIDEWAYS_INT = 0, SIDEWAYS_FIX1 = 1, SIDEWAYS_FIX2 = 2, SIDEWAYS_FIX3 = 3, SIDEWAYS_FIX4 = 4, SIDEWAYS_FIX5 = 5, SIDEWAYS_FIX6 = 6, SIDEWAYS_FLAG = 7, SIDEWAYS_TEXT = 8 };
uint32_t sideways_kind(sideways *h, uint64_t attribute, uint32_t *kind);

/* Copies the name of an attribute, 1 to 32 bytes, as much as there is room for, and tells its length. */
uint32_t sideways_name(sideways *h, uint64_t attribute, uint8_t *out, size_t out_size, size_t *size);

/* The code of a text that the table knows, from 1; 0 where it knows none such. Texts are compared byte by byte. */
uint32_t sideways_code_of(sideways *h, const uint8_t *text, size_t text_size, int64_t *code);

/* Tells the code of a text, which becomes known where it is not: the next one. Codes stay what they are. Refused SIDEWAYS_BAD_CELL
   where no attribute is of texts, or the text is none (more than 64 bytes, no UTF-8, control characters), SIDEWAYS_TOO_MANY of
   1,048,576 texts. It is no call, and stands not in the history. */
uint32_t sideways_learn(sideways *h, const uint8_t *text, size_t text_size, int64_t *code);

/* Copies the text of a code, at most 64 bytes, as much as there is room for, and tells its length. Refused SIDEWAYS_BAD_CELL where
   no text has this code. The codes are 1 to sideways_texts_known. */
uint32_t sideways_text_of(sideways *h, int64_t code, uint8_t *out, size_t out_size, size_t *size);
uint64_t sideways_texts_known(sideways *h);

/* What the head of an attribute tells of itself: docs/FORMATS.md, 'The table of --stats'. */
typedef struct {
    uint64_t queries;
    uint64_t areas;
    uint64_t pieces;
    uint64_t entries;
    uint64_t restarts;
    uint64_t maps;
    uint64_t cells;
    uint64_t scans;
} sideways_stats;
uint32_t sideways_head_stats(sideways *h, uint64_t attribute, sideways_stats *stats);

/* ---- histories */

/* Checks the bytes of a history. Under SIDEWAYS_NOT_LEGAL `entry` is the first entry, from 1, whose reply is not that of one
   thread over a plain list of rows; else 0. */
uint32_t sideways_check(const uint8_t *history, size_t history_size, uint64_t *entry);

/* The same, and the text of the handle is the verdict and, where the history is not legal, why (docs/HISTORIES.md). The handle is
   closed before, and has then that text and no engine: sideways_text reads it, sideways_free gives it back. Under a code other
   than 0 and SIDEWAYS_NOT_LEGAL it stays closed. */
uint32_t sideways_explain(const uint8_t *history, size_t history_size, sideways *out);

#ifdef __cplusplus
}
#endif
#endif
