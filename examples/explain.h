/* What a planner wants to know of a refused job or start, beyond number, position and meaning. All of it goes to the stream `to`, indented. */
#ifndef EXPLAIN_H
#define EXPLAIN_H

#include "common.h"

/* Where the word of an action stands; its laws follow it. For a job that passes, and an action that it has. */
static size_t action_at(const struct list *job, unsigned action)
{
    size_t i = 0;
    while (planreader_kind(job->words[i]) != PLANREADER_KIND_ACTION || planreader_action_number(job->words[i]) != action) i++;
    return i;
}

/* The next law of an action after a place: at first that of its own word. 0 if there is none. */
static size_t next_law(const struct list *job, size_t i)
{
    return i + 1 < job->length && planreader_kind(job->words[i + 1]) == PLANREADER_KIND_LAW ? i + 1 : 0;
}

static unsigned end_of(const struct list *job, uint32_t start)
{
    return planreader_start_moment(start) + planreader_action_duration(job->words[action_at(job, planreader_start_action(start))]);
}

/* The role in which the action of a start makes a fluent; 0, which is none of these, if it does not. */
static unsigned made(const struct list *job, uint32_t start, unsigned fluent)
{
    for (size_t i = next_law(job, action_at(job, planreader_start_action(start))); i != 0; i = next_law(job, i)) {
        unsigned role = role_of(job, job->words[i]);
        if (role >= PLANREADER_MAKES_TRUE && fluent_of_law(job, job->words[i]) == fluent) return role;
    }
    return 0;
}

/* 6: what is wrong with the word. */
static void explain_word(FILE *to, const struct list *job, const struct list *starts, unsigned position)
{
    uint32_t word = starts->words[position];
    unsigned last = planreader_head_last(job->words[0]), actions = planreader_head_actions(job->words[0]);
    if (planreader_kind(word) == PLANREADER_KIND_FACT) fprintf(to, "  it is a fact: give starts alone\n");
    else if (word != planreader_start(planreader_start_moment(word), planreader_start_action(word)))
        fprintf(to, "  it is no start: its kind or a spare bit is wrong\n");
    else if (planreader_start_moment(word) > last) fprintf(to, "  the last moment is %u\n", last);
    else if (planreader_start_action(word) >= actions) fprintf(to, "  the job's actions are 0 to %u\n", actions - 1);
    else
        fprintf(to, "  the start before it, %08lx, is not lower: list them sorted, by moment, then by action, each once\n",
                (unsigned long)starts->words[position - 1]);
}

/* 8 and 9: the starts before it that are in hand at its moment, of the same action or with opposite effects. */
static void explain_overlap(FILE *to, const struct list *job, const struct list *starts, unsigned number, unsigned position)
{
    uint32_t start = starts->words[position];
    for (unsigned i = 0; i < position; i++) {
        uint32_t earlier = starts->words[i];
        if (planreader_start_moment(start) >= end_of(job, earlier)) continue;
        if (number == PLANREADER_START_IN_HAND && planreader_start_action(earlier) == planreader_start_action(start))
            fprintf(to, "  start %u, moment %u, of the same action is in hand until %u\n", i, planreader_start_moment(earlier),
                    end_of(job, earlier));
        for (unsigned fluent = 0; number == PLANREADER_START_CLASHES && fluent < count_fluents(job); fluent++)
            if (made(job, start, fluent) + made(job, earlier, fluent) == PLANREADER_MAKES_TRUE + PLANREADER_MAKES_FALSE)
                fprintf(to, "  start %u, moment %u, action %u, is in hand until %u: one makes fluent %u true, the other false\n", i,
                        planreader_start_moment(earlier), planreader_start_action(earlier), end_of(job, earlier), fluent);
    }
}

/* The value of a fluent at a moment, by a list of facts. */
static const char *value_at(const struct list *job, const uint32_t *facts, size_t length, unsigned moment, unsigned fluent)
{
    for (size_t i = 0; i < length; i++)
        if (moment_of_fact(job, facts[i]) == moment && fluent_of_fact(job, facts[i]) == fluent)
            return planreader_fact_is_true(facts[i]) ? "true" : "false";
    return "open";
}

/* Which of the first starts hide a fluent at a moment. */
static void explain_hidden(FILE *to, const struct list *job, const struct list *starts, size_t length, unsigned moment, unsigned fluent)
{
    for (size_t i = 0; i < length; i++) {
        uint32_t start = starts->words[i];
        if (planreader_start_moment(start) < moment && moment < end_of(job, start) && made(job, start, fluent) != 0)
            fprintf(to, ", hidden by action %u, in hand from %u to %u", planreader_start_action(start), planreader_start_moment(start),
                    end_of(job, start));
    }
}

/* 10: each need, and the value of its fluent then. The starts before it are lawful, and they alone decide what is known at its moment: one
 * of the same moment or later hides and makes nothing by then. */
static void explain_needs(FILE *to, const struct list *job, const struct list *starts, unsigned position)
{
    static uint32_t facts[PLANREADER_WIDE_BUFFER_WORDS];
    unsigned action = planreader_start_action(starts->words[position]), moment = planreader_start_moment(starts->words[position]);
    unsigned known = planreader_length(fill(job->words, job->length, starts->words, position, facts, PLANREADER_WIDE_BUFFER_WORDS));
    for (size_t i = next_law(job, action_at(job, action)); i != 0; i = next_law(job, i)) {
        unsigned role = role_of(job, job->words[i]), fluent = fluent_of_law(job, job->words[i]);
        if (role >= PLANREADER_MAKES_TRUE) continue;
        const char *needed = role == PLANREADER_NEEDS_TRUE ? "true" : "false", *value = value_at(job, facts, known, moment, fluent);
        fprintf(to, "  action %u needs fluent %u %s; at %u it is %s", action, fluent, needed, moment, value);
        if (value[0] == 'o') explain_hidden(to, job, starts, position, moment, fluent);
        fprintf(to, "%s\n", value[0] == needed[0] ? "" : ": not met");
    }
}

/* 15: the windows of its action, and why each of them does not hold it. */
static void explain_windows(FILE *to, const struct list *job, uint32_t start)
{
    unsigned moment = planreader_start_moment(start), end = end_of(job, start);
    for (size_t i = 0; i < job->length; i++) {
        uint32_t word = job->words[i];
        if (planreader_kind(word) != PLANREADER_KIND_SHIFT_WINDOW) continue;
        if (planreader_shift_window_action(word) != planreader_start_action(start)) continue;
        unsigned from = planreader_shift_window_from(word), until = planreader_shift_window_to(word);
        fprintf(to, "  the window from %u to %u: it would", from, until);
        if (moment < from) fprintf(to, " begin too soon, at %u", moment);
        if (end > until) fprintf(to, "%s end too late, at %u", moment < from ? ", and" : "", end);
        fprintf(to, "\n");
    }
}

/* Whether the action of a start is in a group. */
static int in_group(const struct list *job, unsigned group, uint32_t start)
{
    for (size_t i = 0; i < job->length; i++)
        if (job->words[i] == planreader_group_member(group, planreader_start_action(start))) return 1;
    return 0;
}

/* The starts before a position that are in a group and in hand at its moment: how many, and each of them, if there is a stream for it. */
static unsigned others_in_hand(FILE *to, const struct list *job, const struct list *starts, unsigned position, unsigned group)
{
    unsigned count = 0;
    for (unsigned i = 0; i < position; i++) {
        uint32_t earlier = starts->words[i];
        if (planreader_start_moment(starts->words[position]) >= end_of(job, earlier) || !in_group(job, group, earlier)) continue;
        count++;
        if (to != NULL)
            fprintf(to, "  start %u, moment %u, action %u, of group %u is in hand until %u\n", i, planreader_start_moment(earlier),
                    planreader_start_action(earlier), group, end_of(job, earlier));
    }
    return count;
}

/* 16: each group of its action that it takes over its limit, and what else of the group is in hand. */
static void explain_groups(FILE *to, const struct list *job, const struct list *starts, unsigned position)
{
    uint32_t start = starts->words[position];
    for (size_t i = 0; i < job->length; i++) {
        if (planreader_kind(job->words[i]) != PLANREADER_KIND_GROUP) continue;
        unsigned group = planreader_group_number(job->words[i]), limit = planreader_group_limit(job->words[i]);
        unsigned others = others_in_hand(NULL, job, starts, position, group);
        if (!in_group(job, group, start) || others < limit) continue;
        fprintf(to, "  group %u, limit %u: with it %u in hand at %u\n", group, limit, others + 1, planreader_start_moment(start));
        others_in_hand(to, job, starts, position, group);
    }
}

/* The start at a position that is refused by 6 to 10, 15 or 16. */
static inline void explain_start(FILE *to, const struct list *job, const struct list *starts, unsigned number, unsigned position)
{
    uint32_t word = starts->words[position];
    fprintf(to, "  start %u, word %08lx", position, (unsigned long)word);
    if (planreader_kind(word) == PLANREADER_KIND_START)
        fprintf(to, ": moment %u, action %u", planreader_start_moment(word), planreader_start_action(word));
    if (number == PLANREADER_START_ENDS_LATE)
        fprintf(to, "; it ends at %u, and the last moment is %u", end_of(job, word), planreader_head_last(job->words[0]));
    fprintf(to, "\n");
    if (number == PLANREADER_START_WORD) explain_word(to, job, starts, position);
    if (number == PLANREADER_START_IN_HAND || number == PLANREADER_START_CLASHES) explain_overlap(to, job, starts, number, position);
    if (number == PLANREADER_START_OUTSIDE_WINDOWS) explain_windows(to, job, word);
    if (number == PLANREADER_GROUP_OVER_LIMIT) explain_groups(to, job, starts, position);
    if (number == PLANREADER_START_NEEDS) explain_needs(to, job, starts, position);
}

/* The word or the node of a job that is refused by 2 to 5: the command that lists it. */
static void explain_job(FILE *to, const struct list *job, const char *path, unsigned number, unsigned position)
{
    if (number == PLANREADER_JOB_NODES) {
        if (has_node(job)) fprintf(to, "  node %u and what names it: w32 -l %s | grep -w 'node %u'\n", position, path, position);
    } else if (number != PLANREADER_JOB_LENGTH && position < job->length) {
        fprintf(to, "  word %u, %08lx: w32 -l %s | sed -n %up\n", position, (unsigned long)job->words[position], path, position + 1);
    }
}

#endif
