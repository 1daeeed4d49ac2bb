#include "sideways_codes.h"
#include "sideways.h"

uint32_t sideways_version(void) {
    return SIDEWAYS_VERSION;
}

const char *sideways_code_text(uint32_t code) {
    switch (code) {
    case SIDEWAYS_OK: return "answered";
    case SIDEWAYS_NO_MEMORY: return "no memory was given for it; nothing has changed";
    case SIDEWAYS_BAD_TABLE: return "a field of the table's header is none, stands twice or is missing, or a cell is none of its attribute's kind";
    case SIDEWAYS_BAD_LINE: return "the line is no call, or the text of cuts or of a history is none";
    case SIDEWAYS_UNKNOWN_ATTRIBUTE: return "no attribute has this name; great and small letters are told apart";
    case SIDEWAYS_TOO_MANY:
        return "more than the most that is taken: 8 attributes, 1,024 sessions, 15 cuts of an attribute, 268,435,456 bytes, 1,048,576 texts, "
               "or as many rows as the limit";
    case 6: return "a query needs more maps than there are boxes; it scans instead";
    case 7: return "the budget has no room for the cells of a map; the query scans instead";
    case 8: return "the budget was taken from at the same moment; the query scans instead";
    case 9: return "an engine was closed with fewer tickets than sessions";
    case SIDEWAYS_HISTORY_FULL: return "the history has 1,048,576 entries, the most that it takes; close the table and open another";
    case SIDEWAYS_NOT_LEGAL: return "the history is not legal: an entry's reply is not that of one thread over a plain list of rows";
    case 12: return "what was to be read could not be read";
    case 13: return "what was to be written could not be written";
    case 14: return "a viewer has seen more updates than those published";
    case SIDEWAYS_MISUSE: return "the handle is closed, or it is in use where a closed one is wanted";
    case SIDEWAYS_NO_SESSION: return "no session of this number was opened";
    case SIDEWAYS_NO_ATTRIBUTE:
        return "no attribute has this number, or it is of texts where numbers are wanted, or no attribute or more than 8 were asked for";
    case SIDEWAYS_BAD_OPTIONS: return "the limit is not 1 to 1,048,576, the budget is above 1,099,511,627,776, or the maps are more than 4,096";
    case SIDEWAYS_NO_TEXT: return "the call was made and stands in the history, and there was no memory for its text";
    case SIDEWAYS_BAD_CONDITION:
        return "a condition has no bound or an unknown kind of bound, its bounds are none of its attribute's kind, or its attribute has one already";
    case SIDEWAYS_BAD_CELL:
        return "a cell is none of its attribute's kind, or there are more or fewer cells than wanted; a text has at most 64 bytes of UTF-8 "
               "without control characters";
    case SIDEWAYS_NO_ROWS: return "no rows are kept: nothing was selected or viewed, or the table is closed";
    default: return "no code of this library";
    }
}
