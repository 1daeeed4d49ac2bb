/* sideways_locked.h: one handle for several threads, a mutex round each call. Trusted: written in C, over pthreads, not proved.

   The history has the calls in the order in which they had the mutex. A call waits while another has it, readers and writers
   alike; a handle for each thread, over a table of its own, waits for nobody (examples/embed/pool.c). */
#ifndef SIDEWAYS_LOCKED_H
#define SIDEWAYS_LOCKED_H
#include "sideways.h"
#include <pthread.h>
#ifdef __cplusplus
extern "C" {
#endif

/* It stands at one place in memory from `begin` to `end`. Its fields are the library's. */
typedef struct {
    pthread_mutex_t mutex;
    sideways handle;
} sideways_locked;

/* Takes an open handle over: *from is closed then. Refused SIDEWAYS_NO_MEMORY where the system gives no mutex; from is as it was. */
uint32_t sideways_locked_begin(sideways_locked *it, sideways *from);

/* Gives back all. No thread has a call under way, and none makes one after it. */
void sideways_locked_end(sideways_locked *it);

/* The handle for any calls of sideways.h, alone until sideways_unlock: what belongs together, as a select and the reading of its
   rows, stands between these two. The handle is not kept after it. */
sideways *sideways_lock(sideways_locked *it);
void sideways_unlock(sideways_locked *it);

/* As in sideways.h, each alone under the mutex. Of a reply's text or a history's as much is copied as there is room for, and
   `size` tells how long it is; what is longer than the room is read whole between sideways_lock and sideways_unlock. */
uint32_t sideways_locked_session(sideways_locked *it, uint64_t *number);
uint32_t sideways_locked_exec(sideways_locked *it, uint64_t session, const char *line, size_t line_size, char *reply, size_t room,
                              size_t *size);
uint32_t sideways_locked_count(sideways_locked *it, uint64_t session, const sideways_cond *conds, size_t conds_size, uint64_t *found);
uint32_t sideways_locked_sum(sideways_locked *it, uint64_t session, uint64_t attribute, const sideways_cond *conds, size_t conds_size,
                             sideways_sum_words *sum);
uint32_t sideways_locked_insert(sideways_locked *it, uint64_t session, const int64_t *cells, size_t cells_size, uint64_t *key);
uint32_t sideways_locked_delete(sideways_locked *it, uint64_t session, uint64_t key, uint64_t *removed);
uint32_t sideways_locked_close(sideways_locked *it);
size_t sideways_locked_text(sideways_locked *it, size_t from, char *out, size_t room);

#ifdef __cplusplus
}
#endif
#endif
