/* Wrong libraries: the proved calls, under the names right_check, right_fill and so on, with one fault in one call:
 * the row of the table that the environment's FAULT numbers, from 0. FAULT=count prints the number of rows. The
 * harness must catch each. */
#include "calls.h"
#include <stdio.h>
#include <stdlib.h>
#include <string.h>

uint64_t right_check(const uint32_t *, size_t, const uint32_t *, size_t, const uint32_t *, size_t);
uint64_t right_fill(const uint32_t *, size_t, const uint32_t *, size_t, uint32_t *, size_t);
uint64_t right_find(const uint32_t *, size_t, const uint32_t *, size_t, const uint32_t *, size_t, uint32_t *, size_t);
uint64_t right_trial_begin(const uint32_t *, size_t, uint32_t *, size_t);
uint64_t right_trial_start(const uint32_t *, size_t, uint32_t *, size_t, uint32_t);
uint64_t right_trial_on(const uint32_t *, size_t, uint32_t *, size_t);
uint64_t right_trial_show(const uint32_t *, size_t, const uint32_t *, size_t, uint32_t *, size_t);

/* The list that a fault is about; OUT is the buffer, or the trial of trial_begin, trial_start and trial_on. */
enum which { JOB, STARTS, FACTS, TRIAL, OUT };

enum spoil {
    READS_BEFORE,   /* reads the word before the list */
    READS_AFTER,    /* reads the word after the list */
    WRITES_TO,      /* writes the list's last word anew, as it was */
    WRITES_BEFORE,  /* clears the word before the list */
    WRITES_AFTER,   /* clears the word after the list */
    REFUSAL_WRITES, /* a refusal changes the last word of the list */
    SPILLS,         /* a success changes the word after those written */
    CLEARS_REST,    /* a success clears every word after those written */
    LEAVES_FIRST,   /* a success leaves the first word as it was */
    LEAVES_LAST,    /* a success leaves the last of the words written as it was */
    TAKES_IN,       /* the last of the words written depends on what stood in the first */
    REFUSES_LONG,   /* a longer list than needed is refused as one that is too short */
    ACCEPTS_SHORT,  /* a list that is one word too short is accepted */
    LENGTH_LEFT,    /* a refusal has a length */
    COUNT_LEFT,     /* a success has a count one too high */
    ANSWER_BEFORE,  /* every 15th call gives the answer of the call before */
};

static const struct fault {
    enum call call;
    enum spoil spoil;
    enum which which;
} faults[] = {
    {CHECK, READS_BEFORE, JOB},        {CHECK, READS_AFTER, JOB},
    {CHECK, READS_BEFORE, STARTS},     {CHECK, READS_AFTER, STARTS},
    {CHECK, READS_AFTER, FACTS},       {CHECK, WRITES_TO, JOB},
    {CHECK, LENGTH_LEFT, OUT},         {CHECK, ANSWER_BEFORE, OUT},
    {FILL, READS_AFTER, STARTS},       {FILL, WRITES_TO, STARTS},
    {FILL, WRITES_BEFORE, OUT},        {FILL, WRITES_AFTER, OUT},
    {FILL, REFUSAL_WRITES, OUT},       {FILL, SPILLS, OUT},
    {FILL, LEAVES_FIRST, OUT},         {FILL, TAKES_IN, OUT},
    {FILL, REFUSES_LONG, OUT},         {FILL, ACCEPTS_SHORT, OUT},
    {FILL, COUNT_LEFT, OUT},           {FIND, READS_BEFORE, FACTS},
    {FIND, READS_AFTER, FACTS},        {FIND, WRITES_TO, FACTS},
    {FIND, WRITES_BEFORE, OUT},        {FIND, WRITES_AFTER, OUT},
    {FIND, REFUSAL_WRITES, OUT},       {FIND, SPILLS, OUT},
    {FIND, LEAVES_LAST, OUT},          {FIND, TAKES_IN, OUT},
    {FIND, REFUSES_LONG, OUT},         {FIND, ACCEPTS_SHORT, OUT},
    {TRIAL_BEGIN, WRITES_AFTER, OUT},  {TRIAL_BEGIN, REFUSAL_WRITES, OUT},
    {TRIAL_BEGIN, CLEARS_REST, OUT},   {TRIAL_BEGIN, LEAVES_FIRST, OUT},
    {TRIAL_BEGIN, ACCEPTS_SHORT, OUT}, {TRIAL_START, READS_AFTER, OUT},
    {TRIAL_START, WRITES_BEFORE, OUT}, {TRIAL_START, REFUSAL_WRITES, OUT},
    {TRIAL_START, CLEARS_REST, OUT},   {TRIAL_START, LEAVES_LAST, OUT},
    {TRIAL_START, ANSWER_BEFORE, OUT}, {TRIAL_ON, WRITES_AFTER, OUT},
    {TRIAL_ON, REFUSAL_WRITES, OUT},   {TRIAL_ON, SPILLS, OUT},
    {TRIAL_ON, LEAVES_FIRST, OUT},     {TRIAL_ON, REFUSES_LONG, OUT},
    {TRIAL_SHOW, READS_AFTER, TRIAL},  {TRIAL_SHOW, WRITES_TO, TRIAL},
    {TRIAL_SHOW, WRITES_AFTER, OUT},   {TRIAL_SHOW, REFUSAL_WRITES, OUT},
    {TRIAL_SHOW, SPILLS, OUT},         {TRIAL_SHOW, TAKES_IN, OUT},
    {TRIAL_SHOW, ACCEPTS_SHORT, OUT},  {TRIAL_SHOW, LENGTH_LEFT, OUT},
};
enum { FAULTS = sizeof faults / sizeof *faults };
static struct fault fault;

__attribute__((constructor)) static void choose_fault(void)
{
    const char *text = getenv("FAULT");
    int number = text && strcmp(text, "count") ? atoi(text) : FAULTS;
    if (number >= 0 && number < FAULTS) fault = faults[number];
    else exit(printf("%d\n", FAULTS) < 0);
}

static uint64_t right(const struct request *r, uint32_t *out, size_t len)
{
    struct list job = r->job, starts = r->starts, facts = r->facts, trial = r->trial;
    switch (r->call) {
    case CHECK: return right_check(job.words, job.len, starts.words, starts.len, facts.words, facts.len);
    case FILL: return right_fill(job.words, job.len, starts.words, starts.len, out, len);
    case FIND: return right_find(job.words, job.len, starts.words, starts.len, facts.words, facts.len, out, len);
    case TRIAL_BEGIN: return right_trial_begin(job.words, job.len, out, len);
    case TRIAL_START: return right_trial_start(job.words, job.len, out, len, r->action);
    case TRIAL_ON: return right_trial_on(job.words, job.len, out, len);
    default: return right_trial_show(job.words, job.len, trial.words, trial.len, out, len);
    }
}

/* Reads or writes beside a list, or writes to it, by the fault. */
static void touch(struct list list)
{
    volatile uint32_t *words = (uint32_t *)(uintptr_t)list.words;
    if (list.len == 0) return;
    switch (fault.spoil) {
    case READS_BEFORE: (void)words[-1]; break;
    case READS_AFTER: (void)words[list.len]; break;
    case WRITES_TO: words[list.len - 1] = words[list.len - 1]; break;
    case WRITES_BEFORE: words[-1] = 0; break;
    case WRITES_AFTER: words[list.len] = 0; break;
    default: break;
    }
}

/* Spoils what a success has written: `done` words, in the place of those in `before`. */
static void spoil_words(uint32_t *out, size_t len, size_t done, const uint32_t *before)
{
    switch (fault.spoil) {
    case SPILLS: out[done] ^= done < len; break;
    case CLEARS_REST: memset(out + done, 0, (len - done) * sizeof *out); break;
    case LEAVES_FIRST: out[0] = before[0]; break;
    case LEAVES_LAST: out[done - 1] = before[done - 1]; break;
    case TAKES_IN: out[done - 1] ^= before[0] & 1u; break;
    default: break;
    }
}

/* Another answer in the place of the right one, for a list of `len` words of which the call needs `needed`. */
static uint64_t spoil_answer(const struct request *r, uint64_t answer, size_t len, size_t needed)
{
    static uint32_t room[BUFFER_MOST];
    static uint64_t before, calls;
    uint64_t last = before, number = r->call < TRIAL_BEGIN || r->call == TRIAL_SHOW ? 12 : 14;
    before = answer;
    switch (fault.spoil) {
    case REFUSES_LONG: return len > needed ? number << 56 : answer;
    case ACCEPTS_SHORT: return len + 1 == needed ? right(r, room, needed) : answer;
    case LENGTH_LEFT: return answer | (uint64_t)(planreader_number(answer) != 0) << 24;
    case COUNT_LEFT: return answer + (planreader_number(answer) == 0);
    case ANSWER_BEFORE: return ++calls % 15 ? answer : last;
    default: return answer;
    }
}

/* The call, with the fault if it is one of this call. */
static uint64_t spoiled(const struct request *r, uint32_t *out, size_t len)
{
    static uint32_t before[BUFFER_MOST];
    bool is_move = r->call >= TRIAL_BEGIN && r->call <= TRIAL_ON, fills = r->call == FILL || r->call == TRIAL_SHOW;
    size_t needed = is_move ? PLANREADER_TRIAL_WORDS : fills ? filler_words(head_of(r->job)) : PLANREADER_BUFFER_WORDS;
    if (r->call != fault.call) return right(r, out, len);
    if (len) memcpy(before, out, len * sizeof *out);
    uint64_t answer = right(r, out, len);
    touch((struct list[]){r->job, r->starts, r->facts, r->trial, {out, len}}[fault.which]);
    if (planreader_number(answer)) {
        if (fault.spoil == REFUSAL_WRITES && len) out[len - 1] ^= 1u;
    } else if (len) {
        size_t done = is_move ? 2 + out[1] : planreader_length(answer);
        if (done) spoil_words(out, len, done, before);
    }
    return spoil_answer(r, answer, len, needed);
}

uint64_t check(const uint32_t *job, size_t j, const uint32_t *starts, size_t s, const uint32_t *facts, size_t f)
{
    return spoiled(&(struct request){.call = CHECK, .job = {job, j}, .starts = {starts, s}, .facts = {facts, f}}, NULL,
                   0);
}

uint64_t fill(const uint32_t *job, size_t j, const uint32_t *starts, size_t s, uint32_t *buffer, size_t b)
{
    return spoiled(&(struct request){.call = FILL, .job = {job, j}, .starts = {starts, s}}, buffer, b);
}

uint64_t find(const uint32_t *job, size_t j, const uint32_t *starts, size_t s, const uint32_t *facts, size_t f,
              uint32_t *buffer, size_t b)
{
    return spoiled(&(struct request){.call = FIND, .job = {job, j}, .starts = {starts, s}, .facts = {facts, f}}, buffer,
                   b);
}

uint64_t trial_begin(const uint32_t *job, size_t j, uint32_t *trial, size_t t)
{
    return spoiled(&(struct request){.call = TRIAL_BEGIN, .job = {job, j}}, trial, t);
}

uint64_t trial_start(const uint32_t *job, size_t j, uint32_t *trial, size_t t, uint32_t action)
{
    return spoiled(&(struct request){.call = TRIAL_START, .job = {job, j}, .action = action}, trial, t);
}

uint64_t trial_on(const uint32_t *job, size_t j, uint32_t *trial, size_t t)
{
    return spoiled(&(struct request){.call = TRIAL_ON, .job = {job, j}}, trial, t);
}

uint64_t trial_show(const uint32_t *job, size_t j, const uint32_t *trial, size_t t, uint32_t *buffer, size_t b)
{
    return spoiled(&(struct request){.call = TRIAL_SHOW, .job = {job, j}, .trial = {trial, t}}, buffer, b);
}
