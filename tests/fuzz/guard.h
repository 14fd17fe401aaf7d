/* Memory for the lists of a call: each touches an inaccessible page, and has guard words on its other side. */
#ifndef GUARD_H
#define GUARD_H
#include "input.h"

struct guarded {
    size_t most;           /* the longest list, in words; set this alone */
    uint32_t *begin, *end; /* the accessible words */
    uint32_t *words;       /* the list */
    size_t len;
};

/* Places a list in the room and returns where a call finds it: the room's end, or its begin if the choices say so. An
 * empty list is NULL or points into an inaccessible page. */
uint32_t *guard_lend(struct guarded *room, struct list contents, uint32_t choices);

/* Lends a list that faults when written to. */
struct list guard_lend_locked(struct guarded *room, struct list contents, uint32_t choices);

/* Whether the guard words are as they were placed. */
bool guard_intact(const struct guarded *room);

bool same_words(const uint32_t *a, const uint32_t *b, size_t len);
#endif
