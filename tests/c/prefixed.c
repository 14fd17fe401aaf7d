/* A host that has functions of its own with the names of all calls, with the prefixed archive: jobs made by the header's makers, with every
 * kind and form, and a wide one, go through all calls. Compiled with PLANREADER_PREFIXED defined, as C11 and as C++17. */
#include "planreader.h"
#include <stdio.h>
#include <string.h>

#ifdef __cplusplus
extern "C" {
#endif
int check(int own);
int fill(int own);
int find(int own);
int trial_begin(int own);
int trial_start(int own);
int trial_on(int own);
int trial_show(int own);
#ifdef __cplusplus
}
#endif

int check(int own) { return own + 1; }
int fill(int own) { return own + 2; }
int find(int own) { return own + 3; }
int trial_begin(int own) { return own + 4; }
int trial_start(int own) { return own + 5; }
int trial_on(int own) { return own + 6; }
int trial_show(int own) { return own + 7; }

static int faults;
static uint32_t facts[PLANREADER_BUFFER_WORDS], reading[PLANREADER_BUFFER_WORDS];

static void expect(const char *what, uint64_t answer, unsigned number, unsigned position, unsigned length, unsigned count)
{
    if (planreader_number(answer) == number && planreader_position(answer) == position && planreader_length(answer) == length &&
        planreader_count(answer) == count)
        return;
    printf("%s: %u at %u, length %u, count %u\n", what, planreader_number(answer), planreader_position(answer),
           planreader_length(answer), planreader_count(answer));
    faults++;
}

/* The scope's case P3, Example 3 of 004 with the theory of its Example 1. Fluents f, g, h are false at first; b lasts 2 and makes h true, c
 * lasts 2 and makes g true, a lasts 3, needs g and h, and makes f true; the last moment is 5; b start window 0..0 c, end window 0..0 a. */
static void try_windows(void)
{
    enum { F, G, H };
    const uint32_t job[] = {
        planreader_head(3, 3, 5), planreader_known(F, 0), planreader_known(G, 0), planreader_known(H, 0),
        planreader_action(0, 2), planreader_law(PLANREADER_MAKES_TRUE, H),
        planreader_action(1, 2), planreader_law(PLANREADER_MAKES_TRUE, G),
        planreader_action(2, 3), planreader_law(PLANREADER_NEEDS_TRUE, G), planreader_law(PLANREADER_NEEDS_TRUE, H),
        planreader_law(PLANREADER_MAKES_TRUE, F),
        planreader_node(PLANREADER_ACT, 0, 0, 0, 0), planreader_node(PLANREADER_ACT, 1, 0, 0, 0),
        planreader_node(PLANREADER_START_WINDOW, 0, 1, 0, 0), planreader_node(PLANREADER_ACT, 2, 0, 0, 0),
        planreader_node(PLANREADER_END_WINDOW, 2, 3, 0, 0),
    };
    const uint32_t starts[] = {planreader_start(0, 0), planreader_start(0, 1), planreader_start(2, 2)};
    const uint32_t states[] = {
        planreader_fact(0, F, 0), planreader_fact(0, G, 0), planreader_fact(0, H, 0), planreader_fact(1, F, 0),
        planreader_fact(2, F, 0), planreader_fact(2, G, 1), planreader_fact(2, H, 1), planreader_fact(3, G, 1),
        planreader_fact(3, H, 1), planreader_fact(4, G, 1), planreader_fact(4, H, 1), planreader_fact(5, F, 1),
        planreader_fact(5, G, 1), planreader_fact(5, H, 1),
    };
    const uint32_t expected[] = {planreader_reading(4, 0, 5), planreader_reading(2, 0, 2), planreader_reading(0, 0, 2),
                                 planreader_reading(1, 0, 2), planreader_reading(3, 2, 5)};
    expect("P3, fill", planreader_fill(job, 17, starts, 3, facts, PLANREADER_BUFFER_WORDS), 0, 0, 14, 0);
    if (memcmp(facts, states, sizeof states) != 0) printf("P3: other facts\n"), faults++;
    expect("P3, check", planreader_check(job, 17, starts, 3, states, 14), 0, 0, 0, 0);
    expect("P3, find", planreader_find(job, 17, starts, 3, states, 14, reading, PLANREADER_BUFFER_WORDS), 0, 0, 5, 5);
    if (memcmp(reading, expected, sizeof expected) != 0) printf("P3: another reading\n"), faults++;
}

/* A job with every kind and form, one moment, no start: fluent 0 is true, and tests of it read from 0 to 0. */
static void try_forms(void)
{
    const uint32_t job[] = {
        planreader_head(2, 1, 0), planreader_known(0, 1), planreader_known(1, 0),
        planreader_action(0, 1), planreader_law(PLANREADER_NEEDS_TRUE, 0), planreader_law(PLANREADER_NEEDS_FALSE, 1),
        planreader_law(PLANREADER_MAKES_FALSE, 0), planreader_law(PLANREADER_MAKES_TRUE, 1),
        planreader_formula(PLANREADER_ALWAYS, 0, 0), planreader_formula(PLANREADER_FLUENT, 0, 0),
        planreader_formula(PLANREADER_NOT, 1, 0), planreader_formula(PLANREADER_AND, 0, 1), planreader_formula(PLANREADER_OR, 2, 3),
        planreader_formula(PLANREADER_HELD_FOR, 1, 0), /* formula 5: as formula 1 */
        planreader_node(PLANREADER_TEST, 4, 0, 0, 0), /* 0 */
        planreader_node(PLANREADER_ACT, 0, 0, 0, 0),
        planreader_node(PLANREADER_CHOICE, 1, 0, 0, 0), /* 2 */
        planreader_node(PLANREADER_TEST, 0, 0, 0, 0),
        planreader_node(PLANREADER_WHILE, 2, 3, 0, 0), /* 4 */
        planreader_node(PLANREADER_TEST, 2, 0, 0, 0),
        planreader_node(PLANREADER_IF, 2, 5, 2, 0), /* 6 */
        planreader_node(PLANREADER_SEQUENCE, 4, 6, 0, 0), /* 7 */
        planreader_node(PLANREADER_TEST, 5, 0, 0, 0),
        planreader_node(PLANREADER_TASK_SET, 0, 0, 0, 0), planreader_member(7), planreader_member(8), /* 9 */
        planreader_condition(PLANREADER_BEGIN_AFTER_BEGIN, 0, 0, 1, 0, 0),
        planreader_condition(PLANREADER_BEGIN_AFTER_END, 0, 0, 1, 0, 1),
        planreader_condition(PLANREADER_HOLDS_BEFORE, 1, 0, 0, 0, 0), planreader_condition(PLANREADER_HOLDS_AFTER, 3, 1, 0, 0, 0),
        planreader_condition(PLANREADER_HOLDS_BETWEEN, 4, 0, 1, 0, 0),
    };
    const uint32_t known[] = {planreader_fact(0, 0, 1), planreader_fact(0, 1, 0)};
    const uint32_t expected[] = {planreader_reading(9, 0, 0), planreader_reading(7, 0, 0), planreader_reading(4, 0, 0),
                                 planreader_reading(6, 0, 0), planreader_reading(2, 0, 0), planreader_reading(0, 0, 0),
                                 planreader_reading(8, 0, 0)};
    const size_t length = sizeof job / sizeof *job;
    expect("forms, fill", planreader_fill(job, length, NULL, 0, facts, PLANREADER_BUFFER_WORDS), 0, 0, 2, 0);
    if (memcmp(facts, known, sizeof known) != 0) printf("forms: other facts\n"), faults++;
    expect("forms, check", planreader_check(job, length, NULL, 0, known, 2), 0, 0, 0, 0);
    /* nodes 0, 2, 3, 4, 6, 7, 8 and 9 read from 0 to 0; the act 1 and the test 5 do not */
    expect("forms, find", planreader_find(job, length, NULL, 0, known, 2, reading, PLANREADER_BUFFER_WORDS), 0, 0, 7, 8);
    if (memcmp(reading, expected, sizeof expected) != 0) printf("forms: another reading\n"), faults++;
}

/* The scope's P1 by hand: its one action started at 0, then on to 1, where the fluent is true. */
static void try_trial(void)
{
    static planreader_trial trial;
    const uint32_t job[] = {planreader_head(1, 1, 1), planreader_known(0, 0), planreader_action(0, 1), planreader_makes(0, 1), planreader_act(0)};
    const uint32_t known[] = {planreader_fact(0, 0, 0), planreader_fact(1, 0, 1)};
    expect("trial, begin", planreader_trial_begin(job, 5, trial, PLANREADER_TRIAL_WORDS), 0, 0, 0, 0);
    expect("trial, start", planreader_trial_start(job, 5, trial, PLANREADER_TRIAL_WORDS, 0), 0, 0, 0, 0);
    expect("trial, on", planreader_trial_on(job, 5, trial, PLANREADER_TRIAL_WORDS), 0, 0, 0, 0);
    expect("trial, on after the last moment", planreader_trial_on(job, 5, trial, PLANREADER_TRIAL_WORDS), 14, 0, 0, 0);
    expect("trial, show", planreader_trial_show(job, 5, trial, PLANREADER_TRIAL_WORDS, facts, PLANREADER_BUFFER_WORDS), 0, 0, 2, 0);
    if (memcmp(facts, known, sizeof known) != 0) printf("trial: other facts\n"), faults++;
    if (planreader_trial_moment(trial) != 1 || planreader_trial_count(trial) != 1 || planreader_trial_starts(trial)[0] != planreader_start(0, 0))
        printf("trial: other words\n"), faults++;
}

/* A wide job of 256 fluents with every word that has another layout there: action 0 lasts 2, needs fluent 64 false and makes 255 true; fluent 0
 * is true, 64 and 255 are false at first, and nothing else is known. The root: act 0, then the test of fluent 255. Three triples: the act from
 * 0 to 2, the test at 2, and the root. */
static void try_wide(void)
{
    static uint32_t known[PLANREADER_WIDE_BUFFER_WORDS];
    static planreader_trial trial;
    const uint32_t job[] = {
        planreader_wide_head(256, 1, 2), planreader_wide_known(0, 1), planreader_wide_known(64, 0), planreader_wide_known(255, 0),
        planreader_action(0, 2), planreader_wide_needs(64, 0), planreader_wide_law(PLANREADER_MAKES_TRUE, 255),
        planreader_wide_fluent(255), planreader_act(0), planreader_test(0), planreader_sequence(0, 1),
    };
    const size_t length = sizeof job / sizeof *job;
    const uint32_t starts[] = {planreader_start(0, 0)};
    const uint32_t states[] = {planreader_wide_fact(0, 0, 1), planreader_wide_fact(0, 64, 0), planreader_wide_fact(0, 255, 0),
                               planreader_wide_fact(1, 0, 1), planreader_wide_fact(1, 64, 0),
                               planreader_wide_fact(2, 0, 1), planreader_wide_fact(2, 64, 0), planreader_wide_fact(2, 255, 1)};
    const uint32_t expected[] = {planreader_reading(2, 0, 2), planreader_reading(0, 0, 2), planreader_reading(1, 2, 2)};
    expect("wide, fill in too few words", planreader_fill(job, length, starts, 1, known, PLANREADER_BUFFER_WORDS), 12, 0, 0, 0);
    expect("wide, fill", planreader_fill(job, length, starts, 1, known, PLANREADER_WIDE_BUFFER_WORDS), 0, 0, 8, 0);
    if (memcmp(known, states, sizeof states) != 0) printf("wide: other facts\n"), faults++;
    expect("wide, check", planreader_check(job, length, starts, 1, states, 8), 0, 0, 0, 0);
    expect("wide, find", planreader_find(job, length, starts, 1, states, 8, reading, PLANREADER_BUFFER_WORDS), 0, 0, 3, 3);
    if (memcmp(reading, expected, sizeof expected) != 0) printf("wide: another reading\n"), faults++;
    expect("wide, begin", planreader_trial_begin(job, length, trial, PLANREADER_TRIAL_WORDS), 0, 0, 0, 0);
    expect("wide, start", planreader_trial_start(job, length, trial, PLANREADER_TRIAL_WORDS, 0), 0, 0, 0, 0);
    expect("wide, on", planreader_trial_on(job, length, trial, PLANREADER_TRIAL_WORDS), 0, 0, 0, 0);
    expect("wide, show in too few words", planreader_trial_show(job, length, trial, PLANREADER_TRIAL_WORDS, known, PLANREADER_BUFFER_WORDS), 12, 0, 0, 0);
    expect("wide, show", planreader_trial_show(job, length, trial, PLANREADER_TRIAL_WORDS, known, PLANREADER_WIDE_BUFFER_WORDS), 0, 0, 5, 0);
    if (memcmp(known, states, 5 * sizeof *states) != 0) printf("wide: other facts shown\n"), faults++;
}

int main(void)
{
    try_windows();
    try_forms();
    try_trial();
    try_wide();
    if (check(0) != 1 || fill(0) != 2 || find(0) != 3 || trial_begin(0) != 4 || trial_start(0) != 5 || trial_on(0) != 6 || trial_show(0) != 7)
        printf("the host's own calls are not its own\n"), faults++;
    if (strcmp(planreader_version, PLANREADER_VERSION) != 0) printf("the archive's version is %s\n", planreader_version), faults++;
    printf("prefixed: %s\n", faults ? "FAILED" : "ok");
    return faults != 0;
}
