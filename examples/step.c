/* Steps a plan by hand: reads a job, and then moves from standard input, one a line, and says what each of them gives.
 * From the root of the package:
 *
 *     cc -std=c11 -Iinclude examples/step.c lib/libplanreader.a -o step && ./step examples/door/job.w32 <examples/step/moves.txt
 *
 *     start ACTION   starts an action at the present moment
 *     on             goes on one moment
 *     show           says what is known at the present moment, and which actions are in hand
 *     starts         lists the starts so far, as words
 *
 * Empty lines, and what follows a '#', are passed over. A refused move changes nothing, so the next one goes on from there.
 * Exit status: 0 if nothing was refused, 1 if something was, 2 for a job or a line that can't be used. */
#include "explain.h"
#include <stdlib.h>
#include <string.h>

/* Static: the calls ask for initialised words, and this also keeps the lists off the stack. */
static struct list job;
static planreader_trial trial;
static uint32_t facts[PLANREADER_WIDE_BUFFER_WORDS]; /* so many serve every job */
static int refusals;

/* Whether the answer is a refusal; if so, says it. Only one of the job has a position. */
static int refused(const char *move, uint64_t answer)
{
    unsigned number = planreader_number(answer);
    if (number == PLANREADER_ACCEPTED) return 0;
    refusals++;
    printf("%s: refused %u: %s\n", move, number, meaning(answer, &job));
    return 1;
}

static unsigned last_moment(void) { return planreader_head_last(job.words[0]); }

/* What a refused start of an action met with. It is put after the trial's starts, where explain.h looks for its reasons. */
static void explain_move(unsigned long action, unsigned number)
{
    static struct list starts;
    unsigned count = planreader_trial_count(trial), moment = planreader_trial_moment(trial);
    if (number == PLANREADER_START_WORD) {
        printf("  the job's actions are 0 to %u\n", planreader_head_actions(job.words[0]) - 1);
        return;
    }
    memcpy(starts.words, planreader_trial_starts(trial), count * sizeof *trial);
    starts.words[count] = planreader_start(moment, (unsigned)action);
    starts.length = count + 1;
    if (number == PLANREADER_START_ENDS_LATE)
        printf("  it would end at %u, and the last moment is %u\n", end_of(&job, starts.words[count]), last_moment());
    if (number == PLANREADER_START_IN_HAND || number == PLANREADER_START_CLASHES) explain_overlap(stdout, &job, &starts, number, count);
    if (number == PLANREADER_START_OUTSIDE_WINDOWS) explain_windows(stdout, &job, starts.words[count]);
    if (number == PLANREADER_GROUP_OVER_LIMIT) explain_groups(stdout, &job, &starts, count);
    if (number == PLANREADER_START_NEEDS) explain_needs(stdout, &job, &starts, count);
}

static void do_start(const char *move, unsigned long action)
{
    uint64_t answer = trial_start(job.words, job.length, trial, PLANREADER_TRIAL_WORDS, (uint32_t)action);
    unsigned moment = planreader_trial_moment(trial);
    if (refused(move, answer)) explain_move(action, planreader_number(answer));
    else printf("%s: from %u to %u\n", move, moment, end_of(&job, planreader_start(moment, (unsigned)action)));
}

/* The trial is one that moves gave, so that 14 here can only mean the last moment. */
static void do_on(void)
{
    if (refused("on", trial_on(job.words, job.length, trial, PLANREADER_TRIAL_WORDS))) printf("  the last moment is %u\n", last_moment());
    else printf("on: moment %u\n", planreader_trial_moment(trial));
}

/* The fluents that have a value at the trial's moment. */
static void say_fluents(unsigned length, const char *value)
{
    unsigned said = 0;
    printf("  %s:", value);
    for (unsigned fluent = 0; fluent < count_fluents(&job); fluent++)
        if (strcmp(value_at(&job, facts, length, planreader_trial_moment(trial), fluent), value) == 0) said += printf(" %u", fluent) > 0;
    printf("%s\n", said ? "" : " none");
}

static void do_show(void)
{
    uint64_t answer = trial_show(job.words, job.length, trial, PLANREADER_TRIAL_WORDS, facts, PLANREADER_WIDE_BUFFER_WORDS);
    if (refused("show", answer)) return;
    printf("show: moment %u of %u\n", planreader_trial_moment(trial), last_moment());
    say_fluents(planreader_length(answer), "true");
    say_fluents(planreader_length(answer), "false");
    say_fluents(planreader_length(answer), "open");
    for (unsigned i = 0; i < planreader_trial_count(trial); i++) {
        uint32_t start = planreader_trial_starts(trial)[i];
        if (planreader_trial_moment(trial) < end_of(&job, start))
            printf("  in hand: action %u until %u\n", planreader_start_action(start), end_of(&job, start));
    }
}

static void list_starts(void)
{
    printf("starts: %u\n", planreader_trial_count(trial));
    for (unsigned i = 0; i < planreader_trial_count(trial); i++) {
        uint32_t start = planreader_trial_starts(trial)[i];
        printf("%08lx  # moment %u, action %u\n", (unsigned long)start, planreader_start_moment(start), planreader_start_action(start));
    }
}

/* Does what a line says. 0 if it is no move. */
static int do_line(char *line)
{
    char said[32];
    line[strcspn(line, "#\r\n")] = 0;
    const char *move = strtok(line, " \t"), *value = strtok(NULL, " \t");
    if (move == NULL) return 1;
    if (strtok(NULL, " \t") != NULL) return 0;
    if (strcmp(move, "start") == 0 && value != NULL && strlen(value) <= 9 && value[strspn(value, "0123456789")] == 0) {
        snprintf(said, sizeof said, "start %s", value);
        do_start(said, strtoul(value, NULL, 10));
        return 1;
    }
    if (value != NULL) return 0;
    if (strcmp(move, "on") == 0) do_on();
    else if (strcmp(move, "show") == 0) do_show();
    else if (strcmp(move, "starts") == 0) list_starts();
    else return 0;
    return 1;
}

/* Begins the trial, and says so. 0 if the job is refused. */
static int begin(const char *path)
{
    uint64_t answer = trial_begin(job.words, job.length, trial, PLANREADER_TRIAL_WORDS);
    unsigned number = planreader_number(answer), position = planreader_position(answer);
    if (number == PLANREADER_ACCEPTED) {
        printf("begin: moment 0 of %u\n", last_moment());
        return 1;
    }
    printf("begin: %s refused %u at %u: %s\n", path, number, position, meaning(answer, &job));
    explain_job(stdout, &job, path, number, position);
    return 0;
}

int main(int argc, char **argv)
{
    char line[1024];
    if (argc != 2) {
        fprintf(stderr, "use: step JOB.w32, and lines 'start ACTION', 'on', 'show' and 'starts' from standard input\n");
        return 2;
    }
    const char *wrong = read_list(argv[1], &job);
    if (wrong != NULL) {
        fprintf(stderr, "step: %s %s\n", argv[1], wrong);
        return 2;
    }
    if (!begin(argv[1])) return 1;
    for (unsigned number = 1; fgets(line, sizeof line, stdin) != NULL; number++)
        if (!do_line(line)) {
            fflush(stdout);
            fprintf(stderr, "step: line %u is no move: 'start ACTION', 'on', 'show' or 'starts'\n", number);
            return 2;
        }
    return refusals != 0;
}
