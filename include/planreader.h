/* The plan reader's calls, and the words that they take and write. Link with libplanreader.a, which needs memcpy and memset of the C library
 * and nothing else. C11 or later, C++17 or later.
 *
 * Each list is a pointer and its number of 32-bit words, in the machine's own byte order. docs/FORMAT.md says what each word means,
 * examples/door lists such words, and examples/host.c is a whole host.
 *
 * What the caller owes. Nothing checks it, and where it is broken the proofs say nothing of the call.
 *  - A pointer with n > 0 points to n whole words, is aligned for uint32_t, and n * 4 is below 2^63.
 *    The words are initialised, those of the buffer too.
 *  - A pointer with n == 0 is never followed: it may be NULL.
 *  - The memory is ordinary memory (static, stack, heap or mapped) that stays readable, and for the buffer writable, until the call
 *    returns; job, starts and facts may be read-only. No registers of a device, and no mapped file that is cut meanwhile.
 *  - The buffer overlaps none of the other lists. job, starts and facts may overlap each other, and may be one list.
 *  - During the call nothing else (a thread, a signal handler, a device) writes to any of the lists, or reads the buffer.
 *  - A trial is such a buffer for trial_begin, trial_start and trial_on, and for trial_show a list that is only read.
 *  - PLANREADER_STACK bytes of stack are free.
 *
 * What the caller may count on. A call returns, reads and writes nothing but its lists and its stack, keeps no pointer, allocates
 * nothing, sets no errno, and never unwinds or jumps. Calls on several threads at one time are independent. Any contents and any lengths are
 * lawful input: there is nothing to test before a call, and no call relies on an earlier one. The buffer lent to a call is the caller's
 * again when it returns, and need not be cleared before it is lent a second time.
 *
 * Time, measured, not proved: find takes about 0.1 ms on an ordinary door, and about 0.15 s on the slowest single task set that a search of
 * an hour found. No job that the tests count takes more than 0.25 s on the machine measured; they fail if one takes clearly more
 * instructions than when their limits were set. check, fill and the trial calls take about a ms or less. A call can't be stopped on its way; a host that must stay responsive
 * calls find on a thread of its own.
 *
 * Each call returns one 64-bit number: refusal number, 0 for success, in bits 63..56; position, counted from 0 within the list
 * concerned, in 55..40; length in 39..24; count in 23..0.
 *
 * For a job that is not wide (see below):
 *
 *     uint32_t facts[PLANREADER_BUFFER_WORDS] = {0};
 *     uint64_t filled = fill(job, job_len, starts, starts_len, facts, PLANREADER_BUFFER_WORDS);
 *     if (planreader_number(filled) == 0)
 *         passes = check(job, job_len, starts, starts_len, facts, planreader_length(filled)) == 0;
 *
 * To step a plan by hand, begin a trial, start actions and move on, and look at what is known; examples/step.c is a whole program:
 *
 *     static planreader_trial trial;
 *     static uint32_t known[PLANREADER_BUFFER_WORDS];
 *     uint64_t answer = trial_begin(job, job_len, trial, PLANREADER_TRIAL_WORDS);
 *     if (answer == 0) answer = trial_start(job, job_len, trial, PLANREADER_TRIAL_WORDS, 0);
 *     if (answer == 0) answer = trial_on(job, job_len, trial, PLANREADER_TRIAL_WORDS);
 *     if (answer == 0) answer = trial_show(job, job_len, trial, PLANREADER_TRIAL_WORDS, known, PLANREADER_BUFFER_WORDS);
 *     for (unsigned i = 0; i < planreader_length(answer); i++)
 *         if (planreader_fact_moment(known[i]) == planreader_trial_moment(trial))
 *             printf("fluent %u is %s\n", planreader_fact_fluent(known[i]), planreader_fact_is_true(known[i]) ? "true" : "false");
 *
 * A host that has a function of its own with one of these names defines PLANREADER_PREFIXED before this header and links
 * libplanreader-prefixed.a, the same code: the calls are then planreader_check, planreader_fill, planreader_find, planreader_trial_begin
 * and so on, and the short names are free.
 *
 * A job whose head has 1 in bits 27..24 is wide: it has up to 256 fluents, and other fields in the words that name one. Its head, its laws, its
 * words of what is initially known and its formulas of form 1 are made and read by the planreader_wide_ functions, and so are the facts of its plans;
 * all other words are those of other jobs. fill and trial_show need a buffer of PLANREADER_WIDE_BUFFER_WORDS words for it, which serves every
 * job; find does not. A host that is given jobs looks at their heads:
 *
 *     static uint32_t known[PLANREADER_WIDE_BUFFER_WORDS];
 *     uint64_t filled = fill(job, job_len, starts, starts_len, known, PLANREADER_WIDE_BUFFER_WORDS);
 *     int wide = planreader_number(filled) == 0 && planreader_head_is_wide(job[0]);
 *     for (unsigned i = 0; i < planreader_length(filled); i++)
 *         printf("at %u fluent %u is %s\n", wide ? planreader_wide_fact_moment(known[i]) : planreader_fact_moment(known[i]),
 *                wide ? planreader_wide_fact_fluent(known[i]) : planreader_fact_fluent(known[i]),
 *                planreader_fact_is_true(known[i]) ? "true" : "false"); */
#ifndef PLANREADER_H
#define PLANREADER_H

#include <stddef.h>
#include <stdint.h>

#ifdef __cplusplus
extern "C" {
#endif

#define PLANREADER_VERSION "0.1.0"

#define PLANREADER_BUFFER_WORDS 4096u /* a shorter buffer is refusal 12 */
#define PLANREADER_WIDE_BUFFER_WORDS 16384u /* a shorter buffer is refusal 12 of fill and trial_show for a wide job */
#define PLANREADER_JOB_WORDS 2048u /* a longer job is refusal 1 */
#define PLANREADER_TRIAL_WORDS 4098u /* a shorter list is no trial: refusal 14 */
/* Bytes: what the tests measured, rounded up. Tables of 64 actions, or of 64 moments, by 256 fluents are among it. docs/HOST.md names it too. */
#define PLANREADER_STACK 262144u

#ifdef PLANREADER_PREFIXED
#define PLANREADER_CALL(name) planreader_##name
#else
#define PLANREADER_CALL(name) name
#endif

/* Is the plan lawful? Refusals 1 to 9, 15, 16, 10 and 11, in this order, or 0. Writes nothing. */
uint64_t PLANREADER_CALL(check)(const uint32_t *job, size_t job_len, const uint32_t *starts, size_t starts_len,
                                const uint32_t *facts, size_t facts_len);

/* From lawful starts, writes the list of known facts to the buffer's first planreader_length words; with it the plan passes.
 * Refusals 12, 1 to 5, 12 again, 6 to 9, 15, 16 and 10: 12 before all others for a buffer of fewer than PLANREADER_BUFFER_WORDS, and after
 * those of the job for one of fewer than PLANREADER_WIDE_BUFFER_WORDS, if the job is wide. A refusal changes no word of the buffer, and a
 * success none after the list. */
uint64_t PLANREADER_CALL(fill)(const uint32_t *job, size_t job_len, const uint32_t *starts, size_t starts_len,
                               uint32_t *buffer, size_t buffer_len);

/* Reads the job's procedure against the plan from moment 0 to the last. Refusal 12, for a buffer of fewer than PLANREADER_BUFFER_WORDS,
 * also where the job is wide, and those of check; then 13, no list of words is a reading of the root, with the true count; or a reading's
 * words in the buffer's first planreader_length words, with the true count: the number of (node, begin, end) triples that have a reading. A
 * refusal, 13 too, changes no word of the buffer, and a success none after the reading. */
uint64_t PLANREADER_CALL(find)(const uint32_t *job, size_t job_len, const uint32_t *starts, size_t starts_len,
                               const uint32_t *facts, size_t facts_len, uint32_t *buffer, size_t buffer_len);

/* A trial, a plan that is stepped by hand: the present moment, the number of its starts, and the starts, ascending; what the words after
 * these are does not matter, but they are initialised. It is a value of the caller's: it may be copied, kept, stored and handed in again,
 * with the job that it was begun with. */
typedef uint32_t planreader_trial[PLANREADER_TRIAL_WORDS];

/* Begins a trial: moment 0 and no starts. Refusals 1 to 5 with the job's position; then 14 if the list has fewer than
 * PLANREADER_TRIAL_WORDS words. A refusal changes no word of the trial, and a success writes words 0 and 1 and no other. */
uint64_t PLANREADER_CALL(trial_begin)(const uint32_t *job, size_t job_len, uint32_t *trial, size_t trial_len);

/* Starts an action at the trial's moment. Any number may be given for the action. Refusals 1 to 5 with the job's position; then, all with
 * position 0: 14, or 6 to 9, 15, 16 and 10, for a trial that no moves could give, see planreader_refusal; and 6 (no such action), 7, 8 (also
 * for an action already started at this moment), 9, 15, 16 (counted with all that is in hand, of whatever action number) and 10 for the new
 * start. A refusal changes no word of the trial; a success puts the start in its place among the starts, and changes no word after them. */
uint64_t PLANREADER_CALL(trial_start)(const uint32_t *job, size_t job_len, uint32_t *trial, size_t trial_len, uint32_t action);

/* Goes on one moment. Refusals as for trial_start, but in place of those for the new start 14 where the trial is at the last moment. A
 * refusal changes no word of the trial, and a success only its moment. */
uint64_t PLANREADER_CALL(trial_on)(const uint32_t *job, size_t job_len, uint32_t *trial, size_t trial_len);

/* Writes the facts of moments 0 to the trial's, both included, to the buffer's first planreader_length words: those that fill writes for
 * the trial's starts, up to that moment. Refusal 12, before all others; then 1 to 5 with the job's position; 12 again for a wide job, both as
 * for fill; and 14, or 6 to 9, 15, 16 and 10, for the trial, with position 0. A refusal changes no word of the buffer, and a success none after
 * the facts. */
uint64_t PLANREADER_CALL(trial_show)(const uint32_t *job, size_t job_len, const uint32_t *trial, size_t trial_len,
                                     uint32_t *buffer, size_t buffer_len);

#undef PLANREADER_CALL

/* The parts of a trial: its moment, how many starts it has, and the starts, which check, fill and find take as they are. For a trial that
 * the calls accept: what other words say of their number may go beyond their list. */
static inline unsigned planreader_trial_moment(const uint32_t *trial) { return trial[0]; }
static inline unsigned planreader_trial_count(const uint32_t *trial) { return trial[1]; }
static inline const uint32_t *planreader_trial_starts(const uint32_t *trial) { return trial + 2; }

/* The version of the archive that is linked, to be held to PLANREADER_VERSION, that of this header. Of the archives of the package alone:
 * it is no part of the proved code, and stands in an object file of its own. */
extern const char planreader_version[];

/* The fields of an answer. */
static inline unsigned planreader_number(uint64_t answer) { return (unsigned)(answer >> 56); }
static inline unsigned planreader_position(uint64_t answer) { return (unsigned)(answer >> 40 & 0xffff); }
static inline unsigned planreader_length(uint64_t answer) { return (unsigned)(answer >> 24 & 0xffff); }
static inline unsigned planreader_count(uint64_t answer) { return (unsigned)(answer & 0xffffff); }

/* Refusal numbers. The position is that of a word of the job (2, 3, 4), of a start (6 to 10, 15 and 16) or of a fact (11), or as said here.
 * The trial calls give every number but 1 to 5 with position 0. */
enum planreader_refusal {
    PLANREADER_ACCEPTED = 0,
    PLANREADER_JOB_LENGTH = 1, /* position 0 */
    PLANREADER_JOB_SHAPE = 2,
    PLANREADER_JOB_VALUE = 3, /* or, at the job's length: not as many actions as the head says */
    PLANREADER_JOB_FLUENT_TWICE = 4, /* or a group declared twice, or an action twice in one group */
    PLANREADER_JOB_NODES = 5, /* position 0 for a job without nodes, else a node's number: see examples/common.h */
    PLANREADER_START_WORD = 6,
    PLANREADER_START_ENDS_LATE = 7,
    PLANREADER_START_IN_HAND = 8,
    PLANREADER_START_CLASHES = 9,
    PLANREADER_START_NEEDS = 10,
    PLANREADER_FACTS_DIFFER = 11, /* the first difference; if one list begins the other, the shorter length */
    /* Position 0. From find, and from fill and trial_show where the buffer has fewer than PLANREADER_BUFFER_WORDS: lend so many. From fill and
     * trial_show where it has so many: the job is wide, and well formed; lend PLANREADER_WIDE_BUFFER_WORDS. */
    PLANREADER_BUFFER_SHORT = 12,
    PLANREADER_NO_READING = 13, /* position 0 */
    /* Of the trial calls alone, position 0: fewer than PLANREADER_TRIAL_WORDS words, more than 4,096 starts, a moment after the last, a start
     * whose moment (bits 11..6 of whatever word) is after the trial's; or trial_on at the last moment. */
    PLANREADER_TRIAL_BOUNDS = 14,
    PLANREADER_START_OUTSIDE_WINDOWS = 15, /* comes after 9 and before 16 */
    /* With this start and those before it in the list, more starts of a group of its action are in hand at its moment than the group's limit.
     * Comes after 15 and before 10. */
    PLANREADER_GROUP_OVER_LIMIT = 16
};

/* What a refusal number says of what stands at the position; a text for every number. */
static inline const char *planreader_refusal_text(unsigned number)
{
    static const char *const texts[] = {
        "no refusal",
        "a job without words, or with more than 2,048",
        "a job word whose kind, form or place is not allowed, or with a spare bit set",
        ("a job word with a wrong number, reference, range or window, or one too many; "
         "or the job's end, with another number of actions than its head says"),
        "a job word that names a fluent, declares a group or puts an action in a group a second time",
        "a job without nodes, a task set without members, or a node not named as a child exactly once",
        "a start not sorted after the one before it, after the last moment, or of an action that the job lacks; or no start word",
        "a start that ends after the last moment",
        "a start of an action that is still in hand",
        "a start that clashes with an earlier one",
        "a start with a need that is not met: the fluent is open, or has the other value",
        "a fact that does not follow from the starts, or that is missing",
        "a buffer that is too short",
        "the procedure has no reading",
        ("a trial that no moves could give: a list that is too short, too many starts, or a moment or a start that is too late; "
         "or going on at the last moment"),
        "a start outside the shift windows of its action",
        "a start that takes a group over its limit",
    };
    return number < sizeof texts / sizeof *texts ? texts[number] : "no number of a refusal";
}

/* The kind of a word, bits 31..28. A job has kinds 1 to 8 and 12 to 14, a plan 9 and 10, a reading 11. */
enum planreader_word_kind {
    PLANREADER_KIND_HEAD = 1,
    PLANREADER_KIND_KNOWN = 2,
    PLANREADER_KIND_ACTION = 3,
    PLANREADER_KIND_LAW = 4,
    PLANREADER_KIND_FORMULA = 5,
    PLANREADER_KIND_NODE = 6,
    PLANREADER_KIND_MEMBER = 7,
    PLANREADER_KIND_CONDITION = 8,
    PLANREADER_KIND_START = 9,
    PLANREADER_KIND_FACT = 10,
    PLANREADER_KIND_READING = 11,
    PLANREADER_KIND_SHIFT_WINDOW = 12,
    PLANREADER_KIND_GROUP = 13,
    PLANREADER_KIND_GROUP_MEMBER = 14
};

/* The role of a law. */
enum planreader_role {
    PLANREADER_NEEDS_TRUE = 0,
    PLANREADER_NEEDS_FALSE = 1,
    PLANREADER_MAKES_TRUE = 2,
    PLANREADER_MAKES_FALSE = 3
};

/* Forms, bits 27..24: of formulas, */
enum planreader_formula_form {
    PLANREADER_ALWAYS = 0,
    PLANREADER_FLUENT = 1, /* fluent X */
    PLANREADER_NOT = 2, /* not formula X */
    PLANREADER_AND = 3, /* formulas X and Y */
    PLANREADER_OR = 4,
    PLANREADER_HELD_FOR = 5 /* formula X has held for Y moments: at t, 'and' over X at t - Y to t, where X counts as open before moment 0.
                               So the value of a formula at t depends on what is known at the moments up to t, and on nothing later. */
};

/* of nodes, */
enum planreader_node_form {
    PLANREADER_ACT = 0, /* action X */
    PLANREADER_TEST = 1, /* formula X */
    PLANREADER_SEQUENCE = 2, /* node X, then node Y */
    PLANREADER_CHOICE = 3, /* node X or node Y */
    PLANREADER_IF = 4, /* if formula X then node Y else node M */
    PLANREADER_WHILE = 5, /* while formula X do node Y */
    PLANREADER_START_WINDOW = 6, /* node Y begins M to N moments after node X begins */
    PLANREADER_END_WINDOW = 7, /* node Y begins M to N moments after node X ends, and no action starts from X's end on and before Y's begin */
    PLANREADER_TASK_SET = 8 /* the members that follow */
};

/* and of conditions of a task set. */
enum planreader_condition_form {
    PLANREADER_BEGIN_AFTER_BEGIN = 0, /* member j begins M to N moments after member i begins */
    PLANREADER_BEGIN_AFTER_END = 1, /* member j begins M to N moments after member i ends */
    PLANREADER_HOLDS_BEFORE = 2, /* the formula holds from N to M moments before member i begins */
    PLANREADER_HOLDS_AFTER = 3, /* the formula holds from M to N moments after member i ends */
    PLANREADER_HOLDS_BETWEEN = 4 /* the formula holds from M moments after member i ends to N before member j begins */
};

/* Makers of words. Give 0 for fields that a form does not use, and is_true 0 for false. A value that does not fit its field makes the
 * word 0, which no list may have: check refuses it, by 2 in a job, 6 among starts, 11 among facts. Whether another word is right where it
 * stands check says too. Mind the order: the parameters are those of the word's fields from the highest bit down, but is_true is the last.
 * A name with wide_ is for a job that begins with planreader_wide_head, and there in place of the name without it. */

/* Number of fluents, number of actions, last moment. */
static inline uint32_t planreader_head(unsigned fluents, unsigned actions, unsigned last)
{
    return fluents < 256 && actions < 256 && last < 256 ? 1u << 28 | fluents << 16 | actions << 8 | last : 0;
}
/* The same, of a wide job: 1 to 256 fluents. 256 stands in the word as 0. */
static inline uint32_t planreader_wide_head(unsigned fluents, unsigned actions, unsigned last)
{
    return fluents > 0 && fluents <= 256 && actions < 256 && last < 256
               ? 1u << 28 | 1u << 24 | (fluents & 255) << 16 | actions << 8 | last
               : 0;
}
/* The fluent, then whether it is true at moment 0. */
static inline uint32_t planreader_known(unsigned fluent, int is_true)
{
    return fluent < 64 ? 2u << 28 | (is_true ? 0u : 1u) << 6 | fluent : 0;
}
static inline uint32_t planreader_wide_known(unsigned fluent, int is_true)
{
    return fluent < 256 ? 2u << 28 | (is_true ? 0u : 1u) << 8 | fluent : 0;
}
/* The action's number, then how long it lasts. */
static inline uint32_t planreader_action(unsigned number, unsigned duration)
{
    return number < 64 && duration < 64 ? 3u << 28 | number << 6 | duration : 0;
}
/* The role (PLANREADER_NEEDS_TRUE ..), then the fluent. */
static inline uint32_t planreader_law(unsigned role, unsigned fluent)
{
    return role < 4 && fluent < 64 ? 4u << 28 | role << 6 | fluent : 0;
}
static inline uint32_t planreader_wide_law(unsigned role, unsigned fluent)
{
    return role < 4 && fluent < 256 ? 4u << 28 | role << 8 | fluent : 0;
}
/* The action, then from and to: one window of those in which the action may be carried out. */
static inline uint32_t planreader_shift_window(unsigned action, unsigned from, unsigned to)
{
    return action < 64 && from < 64 && to < 64 ? 12u << 28 | action << 12 | from << 6 | to : 0;
}
/* The group, 0 to 7, then its limit: how many starts of the group's actions may be in hand at one moment; 0 forbids them all. */
static inline uint32_t planreader_group(unsigned group, unsigned limit)
{
    return group < 16 && limit < 64 ? 13u << 28 | group << 24 | limit : 0;
}
/* A declared group, then an action that is in it. All groups are declared before the first of these. */
static inline uint32_t planreader_group_member(unsigned group, unsigned action)
{
    return group < 16 && action < 64 ? 14u << 28 | group << 24 | action : 0;
}
/* The form (PLANREADER_ALWAYS ..), X, Y. For form 1 of a wide job see planreader_wide_fluent. */
static inline uint32_t planreader_formula(unsigned form, unsigned x, unsigned y)
{
    return form < 16 && x < 64 && y < 64 ? 5u << 28 | form << 24 | x << 6 | y : 0;
}
/* The form (PLANREADER_ACT ..), X, Y, M, N. */
static inline uint32_t planreader_node(unsigned form, unsigned x, unsigned y, unsigned m, unsigned n)
{
    return form < 16 && x < 64 && y < 64 && m < 64 && n < 64 ? 6u << 28 | form << 24 | x << 18 | y << 12 | m << 6 | n : 0;
}
/* The member's node. */
static inline uint32_t planreader_member(unsigned node)
{
    return node < 64 ? 7u << 28 | node : 0;
}
/* The form (PLANREADER_BEGIN_AFTER_BEGIN ..), the formula, members i and j by their places from 0, M, N. */
static inline uint32_t planreader_condition(unsigned form, unsigned formula, unsigned i, unsigned j, unsigned m, unsigned n)
{
    return form < 16 && formula < 64 && i < 8 && j < 8 && m < 64 && n < 64
               ? 8u << 28 | form << 24 | formula << 18 | i << 15 | j << 12 | m << 6 | n
               : 0;
}
/* The moment, then the action. */
static inline uint32_t planreader_start(unsigned moment, unsigned action)
{
    return moment < 64 && action < 64 ? 9u << 28 | moment << 6 | action : 0;
}
/* The moment, the fluent, then whether it is true. */
static inline uint32_t planreader_fact(unsigned moment, unsigned fluent, int is_true)
{
    return moment < 64 && fluent < 64 ? 10u << 28 | moment << 7 | fluent << 1 | (is_true ? 0u : 1u) : 0;
}
static inline uint32_t planreader_wide_fact(unsigned moment, unsigned fluent, int is_true)
{
    return moment < 64 && fluent < 256 ? 10u << 28 | moment << 9 | fluent << 1 | (is_true ? 0u : 1u) : 0;
}
/* The node, its begin, its end. */
static inline uint32_t planreader_reading(unsigned node, unsigned begin, unsigned end)
{
    return node < 64 && begin < 64 && end < 64 ? 11u << 28 | node << 12 | begin << 6 | end : 0;
}

/* Shorter makers, of one form each. Laws: the fluent, then whether it is needed or made true. */
static inline uint32_t planreader_needs(unsigned fluent, int is_true)
{
    return planreader_law(is_true ? PLANREADER_NEEDS_TRUE : PLANREADER_NEEDS_FALSE, fluent);
}
static inline uint32_t planreader_makes(unsigned fluent, int is_true)
{
    return planreader_law(is_true ? PLANREADER_MAKES_TRUE : PLANREADER_MAKES_FALSE, fluent);
}
static inline uint32_t planreader_wide_needs(unsigned fluent, int is_true)
{
    return planreader_wide_law(is_true ? PLANREADER_NEEDS_TRUE : PLANREADER_NEEDS_FALSE, fluent);
}
static inline uint32_t planreader_wide_makes(unsigned fluent, int is_true)
{
    return planreader_wide_law(is_true ? PLANREADER_MAKES_TRUE : PLANREADER_MAKES_FALSE, fluent);
}
/* Formulas: of a fluent, which in a wide job stands in bits 7..0; of lower formulas. */
static inline uint32_t planreader_always(void) { return planreader_formula(PLANREADER_ALWAYS, 0, 0); }
static inline uint32_t planreader_fluent(unsigned fluent) { return planreader_formula(PLANREADER_FLUENT, fluent, 0); }
static inline uint32_t planreader_wide_fluent(unsigned fluent)
{
    return fluent < 256 ? 5u << 28 | 1u << 24 | fluent : 0;
}
static inline uint32_t planreader_not(unsigned formula) { return planreader_formula(PLANREADER_NOT, formula, 0); }
static inline uint32_t planreader_and(unsigned x, unsigned y) { return planreader_formula(PLANREADER_AND, x, y); }
static inline uint32_t planreader_or(unsigned x, unsigned y) { return planreader_formula(PLANREADER_OR, x, y); }
/* A lower formula, then for how many moments it has held: a number from 0 to 63, no formula. With 0 its value is that of the formula. */
static inline uint32_t planreader_held_for(unsigned formula, unsigned moments)
{
    return planreader_formula(PLANREADER_HELD_FOR, formula, moments);
}
/* Nodes: of an action, of a formula, of lower nodes in their order; a window's least and greatest offset or pause last. */
static inline uint32_t planreader_act(unsigned action) { return planreader_node(PLANREADER_ACT, action, 0, 0, 0); }
static inline uint32_t planreader_test(unsigned formula) { return planreader_node(PLANREADER_TEST, formula, 0, 0, 0); }
static inline uint32_t planreader_sequence(unsigned first, unsigned second)
{
    return planreader_node(PLANREADER_SEQUENCE, first, second, 0, 0);
}
static inline uint32_t planreader_choice(unsigned one, unsigned other) { return planreader_node(PLANREADER_CHOICE, one, other, 0, 0); }
static inline uint32_t planreader_if(unsigned formula, unsigned then_node, unsigned else_node)
{
    return planreader_node(PLANREADER_IF, formula, then_node, else_node, 0);
}
static inline uint32_t planreader_while(unsigned formula, unsigned body) { return planreader_node(PLANREADER_WHILE, formula, body, 0, 0); }
static inline uint32_t planreader_start_window(unsigned first, unsigned second, unsigned least, unsigned greatest)
{
    return planreader_node(PLANREADER_START_WINDOW, first, second, least, greatest);
}
static inline uint32_t planreader_end_window(unsigned first, unsigned second, unsigned least, unsigned greatest)
{
    return planreader_node(PLANREADER_END_WINDOW, first, second, least, greatest);
}
static inline uint32_t planreader_task_set(void) { return planreader_node(PLANREADER_TASK_SET, 0, 0, 0, 0); }

/* Readers of words: the field of a word of the kind in the name, whatever the others are. Of a wide job, and of its plans, those with wide_ read
 * what the names without it read of another; planreader_fact_is_true, and of a head its actions and last moment, are the same for both. */
static inline unsigned planreader_kind(uint32_t word) { return word >> 28; }
static inline unsigned planreader_form(uint32_t word) { return word >> 24 & 15; } /* kinds 5, 6 and 8 */
static inline int planreader_head_is_wide(uint32_t word) { return (word >> 24 & 15) == 1; }
static inline unsigned planreader_head_fluents(uint32_t word) { return word >> 16 & 255; }
static inline unsigned planreader_wide_head_fluents(uint32_t word) { return ((word >> 16) + 255) % 256 + 1; } /* 1 to 256 */
static inline unsigned planreader_head_actions(uint32_t word) { return word >> 8 & 255; }
static inline unsigned planreader_head_last(uint32_t word) { return word & 255; }
static inline unsigned planreader_known_fluent(uint32_t word) { return word & 63; }
static inline int planreader_known_is_true(uint32_t word) { return (word >> 6 & 1) == 0; }
static inline unsigned planreader_wide_known_fluent(uint32_t word) { return word & 255; }
static inline int planreader_wide_known_is_true(uint32_t word) { return (word >> 8 & 1) == 0; }
static inline unsigned planreader_action_number(uint32_t word) { return word >> 6 & 63; }
static inline unsigned planreader_action_duration(uint32_t word) { return word & 63; }
static inline unsigned planreader_law_role(uint32_t word) { return word >> 6 & 3; }
static inline unsigned planreader_law_fluent(uint32_t word) { return word & 63; }
static inline unsigned planreader_wide_law_role(uint32_t word) { return word >> 8 & 3; }
static inline unsigned planreader_wide_law_fluent(uint32_t word) { return word & 255; }
static inline unsigned planreader_shift_window_action(uint32_t word) { return word >> 12 & 63; }
static inline unsigned planreader_shift_window_from(uint32_t word) { return word >> 6 & 63; }
static inline unsigned planreader_shift_window_to(uint32_t word) { return word & 63; }
static inline unsigned planreader_group_number(uint32_t word) { return word >> 24 & 15; }
static inline unsigned planreader_group_limit(uint32_t word) { return word & 63; }
static inline unsigned planreader_group_member_group(uint32_t word) { return word >> 24 & 15; }
static inline unsigned planreader_group_member_action(uint32_t word) { return word & 63; }
static inline unsigned planreader_formula_x(uint32_t word) { return word >> 6 & 63; }
static inline unsigned planreader_formula_y(uint32_t word) { return word & 63; }
static inline unsigned planreader_wide_formula_fluent(uint32_t word) { return word & 255; } /* of form 1 */
static inline unsigned planreader_node_x(uint32_t word) { return word >> 18 & 63; }
static inline unsigned planreader_node_y(uint32_t word) { return word >> 12 & 63; }
static inline unsigned planreader_node_m(uint32_t word) { return word >> 6 & 63; }
static inline unsigned planreader_node_n(uint32_t word) { return word & 63; }
static inline unsigned planreader_member_node(uint32_t word) { return word & 63; }
static inline unsigned planreader_condition_formula(uint32_t word) { return word >> 18 & 63; }
static inline unsigned planreader_condition_i(uint32_t word) { return word >> 15 & 7; }
static inline unsigned planreader_condition_j(uint32_t word) { return word >> 12 & 7; }
static inline unsigned planreader_condition_m(uint32_t word) { return word >> 6 & 63; }
static inline unsigned planreader_condition_n(uint32_t word) { return word & 63; }
static inline unsigned planreader_start_moment(uint32_t word) { return word >> 6 & 63; }
static inline unsigned planreader_start_action(uint32_t word) { return word & 63; }
static inline unsigned planreader_fact_moment(uint32_t word) { return word >> 7 & 63; }
static inline unsigned planreader_fact_fluent(uint32_t word) { return word >> 1 & 63; }
static inline int planreader_fact_is_true(uint32_t word) { return (word & 1) == 0; }
static inline unsigned planreader_wide_fact_moment(uint32_t word) { return word >> 9 & 63; }
static inline unsigned planreader_wide_fact_fluent(uint32_t word) { return word >> 1 & 255; }
static inline unsigned planreader_reading_node(uint32_t word) { return word >> 12 & 63; }
static inline unsigned planreader_reading_begin(uint32_t word) { return word >> 6 & 63; }
static inline unsigned planreader_reading_end(uint32_t word) { return word & 63; }

#ifdef __cplusplus
}
#endif
#endif
