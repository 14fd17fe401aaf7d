#include "calls.h"
#include <stdio.h>
#include <stdlib.h>
#include <string.h>

const char *const call_names[CALLS] = {"check", "fill", "find", "trial_begin", "trial_start", "trial_on", "trial_show"};
const uint32_t call_numbers[CALLS] = {0x18fff, 0x197ff, 0x1bfff, 0x403f, 0x1c7ff, 0x1c7ff, 0x1d7ff};
unsigned long calls_seen[CALLS][NUMBERS], calls_made;

/* The counters that libFuzzer reads: answers by number and position, and by length and count. */
enum { PLACES = 16, SIZES = 25 };
__attribute__((section("__libfuzzer_extra_counters"))) static uint8_t extra[CALLS][NUMBERS][PLACES + 2 * SIZES];

void hold(bool met, enum call call, const char *what, uint64_t answer)
{
    if (met) return;
    fprintf(stderr, "violation: %s: %s (number %u, position %u, length %u, count %u)\n", call_names[call], what,
            planreader_number(answer), planreader_position(answer), planreader_length(answer),
            planreader_count(answer));
    abort();
}

static uint64_t call_archive(const struct request *r, uint32_t *out, size_t len)
{
    struct list job = r->job, starts = r->starts, facts = r->facts, trial = r->trial;
    switch (r->call) {
    case CHECK: return check(job.words, job.len, starts.words, starts.len, facts.words, facts.len);
    case FILL: return fill(job.words, job.len, starts.words, starts.len, out, len);
    case FIND: return find(job.words, job.len, starts.words, starts.len, facts.words, facts.len, out, len);
    case TRIAL_BEGIN: return trial_begin(job.words, job.len, out, len);
    case TRIAL_START: return trial_start(job.words, job.len, out, len, r->action);
    case TRIAL_ON: return trial_on(job.words, job.len, out, len);
    default: return trial_show(job.words, job.len, trial.words, trial.len, out, len);
    }
}

static size_t nodes_in(struct list job)
{
    size_t nodes = 0;
    for (size_t i = 0; i < job.len; i++) nodes += planreader_kind(job.words[i]) == PLANREADER_KIND_NODE;
    return nodes;
}

/* How many positions a number may have, from 0 on. */
static size_t positions(const struct request *r, unsigned number)
{
    switch (number) {
    case PLANREADER_JOB_SHAPE:
    case PLANREADER_JOB_FLUENT_TWICE: return r->job.len;
    case PLANREADER_JOB_VALUE: return r->job.len + 1;
    case PLANREADER_JOB_NODES: return nodes_in(r->job) ? nodes_in(r->job) : 1;
    case PLANREADER_ACCEPTED:
    case PLANREADER_JOB_LENGTH:
    case PLANREADER_BUFFER_SHORT:
    case PLANREADER_NO_READING:
    case PLANREADER_TRIAL_BOUNDS: return 1;
    case PLANREADER_FACTS_DIFFER: return r->facts.len + 1;
    default: return r->call >= TRIAL_BEGIN ? 1 : r->starts.len;
    }
}

/* Whether 12 is due: below 4,096 words; from fill and trial_show below 16,384 if the job is wide and well formed. */
static bool is_short(const struct request *r, size_t len, unsigned number)
{
    bool refused = number >= PLANREADER_JOB_LENGTH && number <= PLANREADER_JOB_NODES;
    size_t needed = r->call == FIND || refused ? PLANREADER_BUFFER_WORDS : filler_words(head_of(r->job));
    return len < PLANREADER_BUFFER_WORDS || len < needed;
}

static void hold_fields(const struct request *r, uint64_t answer, size_t out_len)
{
    unsigned number = planreader_number(answer);
    bool writes = call_numbers[r->call] >> PLANREADER_BUFFER_SHORT & 1u;
    bool bad_length = r->job.len < 1 || r->job.len > PLANREADER_JOB_WORDS, is_12 = number == PLANREADER_BUFFER_SHORT;
    bool counts = r->call == FIND && (number == 0 || number == PLANREADER_NO_READING);
    hold(number < NUMBERS && call_numbers[r->call] >> number & 1u, r->call, "a number that the call has not", answer);
    hold(planreader_position(answer) < positions(r, number), r->call, "a position beyond its list", answer);
    hold(planreader_length(answer) <= (writes && number == 0 ? out_len : 0), r->call, "too great a length", answer);
    hold(counts || planreader_count(answer) == 0, r->call, "a count that is not to be there", answer);
    hold(is_12 || (number == PLANREADER_JOB_LENGTH) == bad_length, r->call, "1 not by the job's length", answer);
    hold(!writes || is_12 == is_short(r, out_len, number), r->call, "12 not by the buffer's length", answer);
}

static unsigned log_2(unsigned n)
{
    unsigned log = 0;
    while (n >>= 1) log++;
    return log;
}

uint64_t make_call(const struct request *request, uint32_t *out, size_t out_len)
{
    uint64_t answer = call_archive(request, out, out_len);
    calls_made++;
    hold_fields(request, answer, out_len);
    unsigned number = planreader_number(answer), place = planreader_position(answer);
    uint8_t *noted = extra[request->call][number];
    calls_seen[request->call][number]++;
    if (number == PLANREADER_JOB_LENGTH) place = log_2((unsigned)request->job.len); /* tells no words from too many */
    noted[place < PLACES ? place : PLACES - 1]++;
    noted[PLACES + log_2(planreader_length(answer))]++;
    noted[PLACES + SIZES + log_2(planreader_count(answer))]++;
    return answer;
}

static struct guarded buffer_room = {.most = BUFFER_MOST};
static uint32_t contents[2][BUFFER_MOST]; /* what the buffer holds before a call */

__attribute__((constructor)) static void draw_contents(void)
{
    for (uint32_t i = 0; i < BUFFER_MOST; i++) {
        contents[0][i] = 0x5eed0000u + i * 7u;
        contents[1][i] = ~contents[0][i];
    }
}

/* Makes the call on a buffer that holds these words, and holds what it leaves there. */
static uint64_t write_once(const struct request *request, struct list before, uint32_t choices)
{
    uint32_t *buffer = guard_lend(&buffer_room, before, choices);
    uint64_t answer = make_call(request, buffer, before.len);
    size_t len = planreader_length(answer);
    hold(guard_intact(&buffer_room), request->call, "a word outside the buffer changed", answer);
    hold(same_words(buffer_room.words + len, before.words + len, before.len - len), request->call,
         "a word after those written changed", answer);
    return answer;
}

uint64_t write_call(const struct request *request, size_t len, uint32_t choices)
{
    static uint32_t kept[BUFFER_MOST];
    uint64_t first = write_once(request, (struct list){contents[0], len}, choices);
    struct list words = written(first);
    if (words.len) memcpy(kept, words.words, words.len * sizeof *kept);
    uint64_t second = write_once(request, (struct list){contents[1], len}, choices ^ LISTS_BEGIN);
    hold(first == second, request->call, "another answer for other words in the buffer", second);
    hold(same_words(buffer_room.words, kept, words.len), request->call, "other words for others in the buffer", second);
    return first;
}

struct list written(uint64_t answer) { return (struct list){buffer_room.words, planreader_length(answer)}; }
