/* Lists of words, the fields of a word, and what differs in a wide job. */
#ifndef WORD_H
#define WORD_H
#include "planreader.h"
#include <stdbool.h>

struct list {
    const uint32_t *words;
    size_t len;
};

/* Bits high..low of a word. */
static inline uint32_t field(uint32_t word, unsigned high, unsigned low)
{
    return word >> low & ((2u << (high - low)) - 1u);
}

static inline uint32_t with_field(uint32_t word, unsigned high, unsigned low, uint32_t value)
{
    uint32_t mask = ((2u << (high - low)) - 1u) << low;
    return (word & ~mask) | (value << low & mask);
}

/* The job's first word, or 0 if it has none. */
static inline uint32_t head_of(struct list job) { return job.len ? job.words[0] : 0; }

static inline bool is_wide(uint32_t head)
{
    return planreader_kind(head) == PLANREADER_KIND_HEAD && planreader_head_is_wide(head);
}

/* The shortest buffer that fill and trial_show accept for a job with this head. */
static inline size_t filler_words(uint32_t head)
{
    return is_wide(head) ? PLANREADER_WIDE_BUFFER_WORDS : PLANREADER_BUFFER_WORDS;
}

static inline unsigned fact_moment(uint32_t head, uint32_t fact)
{
    return is_wide(head) ? planreader_wide_fact_moment(fact) : planreader_fact_moment(fact);
}
#endif
