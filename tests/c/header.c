/* The header's examples, compiled as C11 and as C++. */
#include "planreader.h"
#include <stdio.h>

int passes_with_its_own_facts(const uint32_t *job, size_t job_len, const uint32_t *starts, size_t starts_len);
int passes_with_its_own_facts(const uint32_t *job, size_t job_len, const uint32_t *starts, size_t starts_len)
{
    int passes = 0;
    uint32_t facts[PLANREADER_BUFFER_WORDS] = {0};
    uint64_t filled = fill(job, job_len, starts, starts_len, facts, PLANREADER_BUFFER_WORDS);
    if (planreader_number(filled) == 0)
        passes = check(job, job_len, starts, starts_len, facts, planreader_length(filled)) == 0;
    return passes;
}

uint64_t step_once(const uint32_t *job, size_t job_len);
uint64_t step_once(const uint32_t *job, size_t job_len)
{
    static planreader_trial trial;
    static uint32_t known[PLANREADER_BUFFER_WORDS];
    uint64_t answer = trial_begin(job, job_len, trial, PLANREADER_TRIAL_WORDS);
    if (answer == 0) answer = trial_start(job, job_len, trial, PLANREADER_TRIAL_WORDS, 0);
    if (answer == 0) answer = trial_on(job, job_len, trial, PLANREADER_TRIAL_WORDS);
    if (answer == 0) answer = trial_show(job, job_len, trial, PLANREADER_TRIAL_WORDS, known, PLANREADER_BUFFER_WORDS);
    for (unsigned i = 0; i < planreader_length(answer); i++)
        if (planreader_fact_moment(known[i]) == planreader_trial_moment(trial))
            printf("fluent %u is %s\n", planreader_fact_fluent(known[i]), planreader_fact_is_true(known[i]) ? "true" : "false");
    return answer;
}

void print_facts(const uint32_t *job, size_t job_len, const uint32_t *starts, size_t starts_len);
void print_facts(const uint32_t *job, size_t job_len, const uint32_t *starts, size_t starts_len)
{
    static uint32_t known[PLANREADER_WIDE_BUFFER_WORDS];
    uint64_t filled = fill(job, job_len, starts, starts_len, known, PLANREADER_WIDE_BUFFER_WORDS);
    int wide = planreader_number(filled) == 0 && planreader_head_is_wide(job[0]);
    for (unsigned i = 0; i < planreader_length(filled); i++)
        printf("at %u fluent %u is %s\n", wide ? planreader_wide_fact_moment(known[i]) : planreader_fact_moment(known[i]),
               wide ? planreader_wide_fact_fluent(known[i]) : planreader_fact_fluent(known[i]),
               planreader_fact_is_true(known[i]) ? "true" : "false");
}
