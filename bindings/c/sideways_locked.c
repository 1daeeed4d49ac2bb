#include "sideways_locked.h"

uint32_t sideways_locked_begin(sideways_locked *it, sideways *from) {
    if (!from->is_open) return SIDEWAYS_MISUSE;
    if (pthread_mutex_init(&it->mutex, NULL) != 0) return SIDEWAYS_NO_MEMORY;
    it->handle = *from;
    *from = (sideways)SIDEWAYS_CLOSED;
    return SIDEWAYS_OK;
}

void sideways_locked_end(sideways_locked *it) {
    sideways_free(it->handle);
    it->handle = (sideways)SIDEWAYS_CLOSED;
    pthread_mutex_destroy(&it->mutex);
}

sideways *sideways_lock(sideways_locked *it) {
    pthread_mutex_lock(&it->mutex);
    return &it->handle;
}

void sideways_unlock(sideways_locked *it) {
    pthread_mutex_unlock(&it->mutex);
}

/* Makes one call under the mutex, and answers its code. */
#define ALONE(call)                         \
    do {                                    \
        sideways *h = sideways_lock(it);    \
        uint32_t code = call;               \
        sideways_unlock(it);                \
        return code;                        \
    } while (0)

uint32_t sideways_locked_session(sideways_locked *it, uint64_t *number) {
    ALONE(sideways_session(h, number));
}

uint32_t sideways_locked_exec(sideways_locked *it, uint64_t session, const char *line, size_t line_size, char *reply, size_t room,
                              size_t *size) {
    sideways *h = sideways_lock(it);
    uint32_t code = sideways_exec(h, session, (const uint8_t *)line, line_size);
    *size = 0;
    if (code == SIDEWAYS_OK) {
        *size = sideways_text_size(h);
        sideways_text(h, 0, (uint8_t *)reply, room);
    }
    sideways_unlock(it);
    return code;
}

uint32_t sideways_locked_count(sideways_locked *it, uint64_t session, const sideways_cond *conds, size_t conds_size, uint64_t *found) {
    ALONE(sideways_count(h, session, conds, conds_size, found));
}

uint32_t sideways_locked_sum(sideways_locked *it, uint64_t session, uint64_t attribute, const sideways_cond *conds, size_t conds_size,
                             sideways_sum_words *sum) {
    ALONE(sideways_sum(h, session, attribute, conds, conds_size, sum));
}

uint32_t sideways_locked_insert(sideways_locked *it, uint64_t session, const int64_t *cells, size_t cells_size, uint64_t *key) {
    ALONE(sideways_insert(h, session, cells, cells_size, key));
}

uint32_t sideways_locked_delete(sideways_locked *it, uint64_t session, uint64_t key, uint64_t *removed) {
    ALONE(sideways_delete(h, session, key, removed));
}

uint32_t sideways_locked_close(sideways_locked *it) {
    ALONE(sideways_close(h));
}

size_t sideways_locked_text(sideways_locked *it, size_t from, char *out, size_t room) {
    sideways *h = sideways_lock(it);
    size_t copied = sideways_text(h, from, (uint8_t *)out, room);
    sideways_unlock(it);
    return copied;
}
