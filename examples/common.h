/* What the examples share: files of words, what differs in wide jobs, and the meaning of a refusal. */
#ifndef COMMON_H
#define COMMON_H

#include "planreader.h"
#include <stdio.h>

#define FILE_WORDS 8192u /* a file has at most 32 KiB, as for planread */

struct list {
    size_t length;
    uint32_t words[FILE_WORDS];
};

/* Reads a file of words, each four bytes, lowest first. Returns what is wrong with it, or NULL. */
static const char *read_list(const char *path, struct list *list)
{
    static unsigned char bytes[4 * FILE_WORDS + 1];
    FILE *file = fopen(path, "rb");
    if (file == NULL) return "can't be opened";
    size_t size = fread(bytes, 1, sizeof bytes, file);
    int failed = ferror(file);
    fclose(file);
    if (failed) return "can't be read";
    if (size == sizeof bytes) return "has more than 32 KiB";
    if (size % 4 != 0) return "ends within a word: its size is not divisible by 4";
    list->length = size / 4;
    for (size_t i = 0; i < list->length; i++) {
        const unsigned char *b = bytes + 4 * i;
        list->words[i] = b[0] | (uint32_t)b[1] << 8 | (uint32_t)b[2] << 16 | (uint32_t)b[3] << 24;
    }
    return NULL;
}

/* Reads the files of two paths. 0 if one is bad, which it says. */
static inline int read_lists(const char *program, char **paths, struct list *first, struct list *second)
{
    struct list *const lists[] = {first, second};
    for (int i = 0; i < 2; i++) {
        const char *wrong = read_list(paths[i], lists[i]);
        if (wrong == NULL) continue;
        fprintf(stderr, "%s: %s %s\n", program, paths[i], wrong);
        return 0;
    }
    return 1;
}

/* The words of a job, and the facts of its plans, have the fields that its head says. For a job that passes. */
static inline int is_wide(const struct list *job) { return planreader_head_is_wide(job->words[0]); }

static inline unsigned count_fluents(const struct list *job)
{
    return is_wide(job) ? planreader_wide_head_fluents(job->words[0]) : planreader_head_fluents(job->words[0]);
}

static inline unsigned role_of(const struct list *job, uint32_t law)
{
    return is_wide(job) ? planreader_wide_law_role(law) : planreader_law_role(law);
}

static inline unsigned fluent_of_law(const struct list *job, uint32_t law)
{
    return is_wide(job) ? planreader_wide_law_fluent(law) : planreader_law_fluent(law);
}

static inline unsigned moment_of_fact(const struct list *job, uint32_t fact)
{
    return is_wide(job) ? planreader_wide_fact_moment(fact) : planreader_fact_moment(fact);
}

static inline unsigned fluent_of_fact(const struct list *job, uint32_t fact)
{
    return is_wide(job) ? planreader_wide_fact_fluent(fact) : planreader_fact_fluent(fact);
}

static int has_node(const struct list *job)
{
    for (size_t i = 0; i < job->length; i++)
        if (planreader_kind(job->words[i]) == PLANREADER_KIND_NODE) return 1;
    return 0;
}

/* What a refusal says of its position. Refusals 3 and 5 have more than one meaning, and a job that got as far as them tells which: 3 at the
 * job's length is of the whole job; 5 is at 0 where there is no node, and at a node's number, which may be 0 too, where there are some. */
static const char *meaning(uint64_t answer, const struct list *job)
{
    unsigned number = planreader_number(answer);
    if (number == PLANREADER_JOB_VALUE)
        return planreader_position(answer) == job->length
                   ? "the job's end: it has another number of actions than its head says"
                   : "a job word with a wrong number, reference, range or window, or one too many";
    if (number != PLANREADER_JOB_NODES) return planreader_refusal_text(number);
    if (!has_node(job)) return "a job without nodes";
    /* Only a member may follow a task set's word, so that a set without members is the last word. */
    return planreader_kind(job->words[job->length - 1]) == PLANREADER_KIND_NODE &&
                   planreader_form(job->words[job->length - 1]) == PLANREADER_TASK_SET
               ? "the node of this number is a task set without members"
               : "the node of this number is not named as a child exactly once";
}

#endif
