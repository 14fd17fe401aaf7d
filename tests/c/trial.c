/* A host in C that steps plans by hand from begin to end, with the header's own readers of a trial: the door of the
 * examples, whose files it reads, so run it in the repository's root; and as many starts as moves can give. The facts
 * shown are those of fill for the trial's starts, up to its moment. Prints each fault, and exits with 1 if there is
 * one. The single calls are those of tests/vectors. */
#include "planreader.h"
#include <stdio.h>
#include <string.h>

enum { BUFFER = PLANREADER_WIDE_BUFFER_WORDS, FILE_WORDS = 8192 };

static int faults;
static planreader_trial trial;
static const uint32_t *job;
static size_t job_words;

static void fault(const char *what)
{
    printf("%s, at %u with %u starts\n", what, planreader_trial_moment(trial), planreader_trial_count(trial));
    faults++;
}

static void begins(void)
{
    if (trial_begin(job, job_words, trial, PLANREADER_TRIAL_WORDS) != 0) fault("trial_begin");
    if (planreader_trial_moment(trial) != 0 || planreader_trial_count(trial) != 0) fault("no fresh trial");
}

/* Starts an action, or gets the refusal. A refused start leaves the trial as it was. */
static void starts(uint32_t action, unsigned refusal)
{
    static planreader_trial before;
    memcpy(before, trial, sizeof trial);
    uint64_t answer = trial_start(job, job_words, trial, PLANREADER_TRIAL_WORDS, action);
    if (answer != (uint64_t)refusal << 56) fault("trial_start");
    if (refusal && memcmp(before, trial, sizeof trial) != 0) fault("trial_start changes a trial that it refuses");
    if (!refusal && planreader_trial_count(trial) != before[1] + 1) fault("trial_start counts other starts");
}

static void goes_on(unsigned refusal)
{
    unsigned next = planreader_trial_moment(trial) + (refusal ? 0 : 1);
    if (trial_on(job, job_words, trial, PLANREADER_TRIAL_WORDS) != (uint64_t)refusal << 56) fault("trial_on");
    if (planreader_trial_moment(trial) != next) fault("trial_on goes elsewhere");
}

static unsigned moment_of(uint32_t fact)
{
    return planreader_head_is_wide(job[0]) ? planreader_wide_fact_moment(fact) : planreader_fact_moment(fact);
}

/* Compares the facts shown with those of a whole plan up to the trial's moment. */
static void shows(const uint32_t *facts, unsigned all)
{
    static uint32_t shown[BUFFER];
    unsigned known = 0;
    uint64_t answer = trial_show(job, job_words, trial, PLANREADER_TRIAL_WORDS, shown, BUFFER);
    while (known < all && moment_of(facts[known]) <= planreader_trial_moment(trial)) known++;
    if (answer != (uint64_t)known << 24 || memcmp(shown, facts, known * sizeof *facts) != 0) fault("trial_show");
}

/* Compares the facts shown with those of fill, and has check take all of fill's. */
static void shows_as_fill(void)
{
    static uint32_t filled[BUFFER];
    const uint32_t *list = planreader_trial_starts(trial);
    if (planreader_trial_count(trial) > PLANREADER_TRIAL_WORDS - 2) {
        fault("more starts than a trial can have");
        return;
    }
    uint64_t answer = fill(job, job_words, list, planreader_trial_count(trial), filled, BUFFER);
    if (planreader_number(answer) != 0) fault("fill refuses the starts of a trial");
    shows(filled, planreader_length(answer));
    if (check(job, job_words, list, planreader_trial_count(trial), filled, planreader_length(answer)) != 0)
        fault("check refuses the starts of a trial");
}

static void is(const uint32_t *list, unsigned count)
{
    if (planreader_trial_count(trial) != count) fault("another number of starts");
    else if (memcmp(planreader_trial_starts(trial), list, count * sizeof *list) != 0) fault("other starts");
}

/* Returns how many words a file of the example has. They are little-endian, as they are in memory. */
static unsigned words_of(const char *path, uint32_t *words)
{
    FILE *file = fopen(path, "rb");
    if (!file) return 0;
    size_t count = fread(words, sizeof *words, FILE_WORDS, file);
    fclose(file);
    return (unsigned)count;
}

/* The door of the examples, each action started by hand at its moment: at the end the starts are those of starts.w32,
 * and the facts shown are at each moment those of plan.w32 up to it. */
static void door(void)
{
    static uint32_t words[FILE_WORDS], list[FILE_WORDS], plan[FILE_WORDS];
    static const uint32_t moments[] = {0, 2, 5, 6, 7, 9, 10, 11}; /* of actions 0 to 7 */
    unsigned count = words_of("examples/door/starts.w32", list), all = words_of("examples/door/plan.w32", plan);
    job = words, job_words = words_of("examples/door/job.w32", words);
    if (job_words == 0 || count != 8 || all <= count) {
        fault("no files of the door below this folder");
        return;
    }
    begins();
    for (uint32_t moment = 0, action = 0; moment <= 12; moment++) {
        if (action < 8 && moments[action] == moment) starts(action++, 0);
        shows(plan + count, all - count);
        shows_as_fill();
        goes_on(moment < 12 ? 0 : PLANREADER_TRIAL_BOUNDS);
    }
    is(list, count);
}

/* Starts every action at the trial's moment, the highest first; then once more, which is refused. */
static void start_all(void)
{
    for (uint32_t action = 64; action-- > 0;) starts(action, 0);
    starts(0, PLANREADER_START_IN_HAND);
    starts(63, PLANREADER_START_IN_HAND);
    starts(64, PLANREADER_START_WORD);
}

/* Fluents that are true throughout, and 64 actions of duration 1 that all start at each moment but the last, n. */
static void all_starts(uint32_t head, uint32_t fluents)
{
    static uint32_t words[1 + 256 + 64 + 1], list[4032];
    uint32_t last = planreader_head_last(head);
    job = words, job_words = 0;
    words[job_words++] = head;
    for (uint32_t f = 0; f < fluents; f++) words[job_words++] = 0x20000000u | f;
    for (uint32_t a = 0; a < 64; a++) words[job_words++] = planreader_action(a, 1);
    words[job_words++] = planreader_act(0);
    for (uint32_t i = 0; i < 64 * last; i++) list[i] = 0x90000000u | i;
    begins();
    for (uint32_t moment = 0; moment < last; moment++) start_all(), goes_on(0);
    starts(0, PLANREADER_START_ENDS_LATE);
    goes_on(PLANREADER_TRIAL_BOUNDS);
    is(list, 64 * last);
    shows_as_fill();
}

int main(void)
{
    door();
    all_starts(0x1040403fu, 64); /* n = 63: 4,032 starts and 4,096 facts */
    all_starts(0x11004003u, 256); /* wide, n = 3 */
    printf("c trial: %s\n", faults ? "FAILED" : "ok");
    return faults != 0;
}
