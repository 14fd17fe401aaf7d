/* Runs check, fill and find on one input (input.h), then the trial calls (trial.c). What is held is the C boundary:
 * memory, fields, buffers, and that the calls agree with each other. Whether an answer is right is proved. */
#include "harness.h"
#include "calls.h"
#include <stdlib.h>
#include <string.h>

static struct guarded job_room = {.most = JOB_MOST}, starts_room = {.most = JOB_MOST};
static struct guarded facts_room = {.most = PLANREADER_WIDE_BUFFER_WORDS + 1};

/* Copies a list to a block with room for one word more. */
static uint32_t *keep(struct list list)
{
    uint32_t *copy = malloc((list.len + 1) * sizeof *copy);
    if (!copy) exit(2);
    if (list.len) memcpy(copy, list.words, list.len * sizeof *copy);
    return copy;
}

/* What check must answer for facts, by fill's answer and the facts that fill wrote. */
static uint64_t check_by_fill(uint64_t filled, struct list right, struct list given)
{
    uint64_t position = 0;
    if (planreader_number(filled)) return filled;
    while (position < right.len && position < given.len && right.words[position] == given.words[position]) position++;
    if (position == right.len && position == given.len) return 0;
    return (uint64_t)PLANREADER_FACTS_DIFFER << 56 | position << 40;
}

/* Holds check of some facts to what fill answered and wrote, twice. The facts stay lent. */
static uint64_t hold_check(struct request *request, struct list given, uint64_t filled, struct list right,
                           uint32_t choices)
{
    request->call = CHECK;
    request->facts = guard_lend_locked(&facts_room, given, choices);
    uint64_t answer = make_call(request, NULL, 0);
    hold(answer == check_by_fill(filled, right, given), CHECK, "an answer that fill's does not give", answer);
    hold(answer == make_call(request, NULL, 0), CHECK, "another answer the second time", answer);
    return answer;
}

/* Holds check on fill's own facts, on these with one more and with one less, and with one changed. */
static void hold_near_facts(struct request *request, uint64_t filled, struct list right, uint32_t choices)
{
    uint32_t *near = keep(right);
    near[right.len] = planreader_fact(0, 0, 1);
    hold_check(request, right, filled, right, choices);
    hold_check(request, (struct list){near, right.len + 1}, filled, right, choices);
    if (right.len) {
        hold_check(request, (struct list){near, right.len - 1}, filled, right, choices);
        near[right.len / 2] ^= 1u;
        hold_check(request, (struct list){near, right.len}, filled, right, choices ^ LISTS_BEGIN);
    }
    free(near);
}

/* Holds a call with another buffer than it needs: 12, or the same answer and the same words. */
static void hold_other_buffer(struct request *request, uint64_t answer, struct list right, size_t len, uint32_t choices)
{
    uint64_t again = write_call(request, len, choices);
    if (planreader_number(again) == PLANREADER_BUFFER_SHORT) return; /* make_call holds when it is due */
    hold(again == answer, request->call, "another answer with another buffer", again);
    bool is_same = same_words(written(again).words, right.words, right.len);
    hold(is_same, request->call, "other words with another buffer", again);
}

/* Makes a call with the buffer that it needs and with others: one word too short, for either 12, and the input's own.
 * Returns the answer, and the words written as a copy. */
static uint64_t hold_buffers(struct request *request, uint32_t choices, struct list *copy)
{
    uint32_t head = head_of(request->job);
    size_t needed = request->call == FIND ? PLANREADER_BUFFER_WORDS : filler_words(head);
    uint64_t answer = write_call(request, needed, choices);
    *copy = (struct list){keep(written(answer)), planreader_length(answer)};
    hold_other_buffer(request, answer, *copy, PLANREADER_BUFFER_WORDS - 1, choices);
    if (needed > PLANREADER_BUFFER_WORDS) {
        hold_other_buffer(request, answer, *copy, PLANREADER_BUFFER_WORDS, choices);
        hold_other_buffer(request, answer, *copy, needed - 1, choices);
    }
    hold_other_buffer(request, answer, *copy, buffer_words(choices, head), choices);
    return answer;
}

/* job, starts and facts may be one list: the answers are those of three equal lists. */
static void hold_one_list(struct list job, uint32_t choices)
{
    struct list starts = guard_lend_locked(&starts_room, job, choices);
    struct list facts = guard_lend_locked(&facts_room, job, choices);
    for (enum call call = CHECK; call <= FIND; call++) {
        struct request one = {call, job, job, job, {NULL, 0}, 0}, three = {call, job, starts, facts, {NULL, 0}, 0};
        size_t len = PLANREADER_WIDE_BUFFER_WORDS;
        uint64_t answer = call == CHECK ? make_call(&one, NULL, 0) : write_call(&one, len, choices);
        uint64_t other = call == CHECK ? make_call(&three, NULL, 0) : write_call(&three, len, choices);
        hold(answer == other, call, "another answer if the lists are one", answer);
    }
}

/* Holds that a list that was only read is as it was lent. */
static void hold_unchanged(const struct guarded *room, struct list list)
{
    bool is_same = guard_intact(room) && same_words(room->words, list.words, list.len);
    hold(is_same, CHECK, "a list that is only read changed", 0);
}

/* check, fill and find on one input. Returns fill's answer. */
static uint64_t examine(struct list job, struct list starts, struct list facts, uint32_t choices)
{
    struct list right, reading;
    struct request request = {.call = FILL, .job = guard_lend_locked(&job_room, job, choices)};
    request.starts = guard_lend_locked(&starts_room, starts, choices);
    uint64_t filled = hold_buffers(&request, choices, &right);
    bool accepted = planreader_number(filled) == 0;
    if (accepted && choices & FACTS_BY_FILL) facts = right;
    uint64_t checked = hold_check(&request, facts, filled, right, choices);
    request.call = FIND;
    uint64_t found = hold_buffers(&request, choices, &reading);
    bool passes = planreader_number(found) == 0 || planreader_number(found) == PLANREADER_NO_READING;
    hold(planreader_number(checked) ? found == checked : passes, FIND, "another refusal than check's", found);
    hold(planreader_number(found) || reading.len, FIND, "a reading without words", found);
    hold_unchanged(&facts_room, facts);
    if (accepted) hold_near_facts(&request, filled, right, choices);
    hold_unchanged(&starts_room, starts);
    hold_unchanged(&job_room, job);
    if (choices & ONE_LIST) hold_one_list(request.job, choices);
    free((void *)(uintptr_t)right.words);
    free((void *)(uintptr_t)reading.words);
    return filled;
}

int LLVMFuzzerTestOneInput(const uint8_t *data, size_t size)
{
    static struct input in;
    input_decode(&in, data, size);
    struct list job = {in.job, in.job_len}, starts = {in.starts, in.starts_len}, facts = {in.facts, in.facts_len};
    uint64_t filled = examine(job, starts, facts, in.choices);
    unsigned number = planreader_number(filled);
    bool is_refused = number >= PLANREADER_JOB_LENGTH && number <= PLANREADER_JOB_NODES;
    examine_trials(guard_lend_locked(&job_room, job, in.choices), is_refused ? filled : 0, starts, &in);
    hold_unchanged(&job_room, job);
    return 0;
}
