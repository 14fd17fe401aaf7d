/* Runs the trial calls on one input. fill foretells every answer and word: a trial is judged as fill judges its starts,
 * a new start as fill judges the list with it, and what is shown is fill's list up to the trial's moment. */
#include "calls.h"
#include "harness.h"

enum { TRIAL_MOST = 5000, STARTS_OF_TRIAL = 4096, ACTIONS_TRIED = 6, MOVES_TRIED = 16 };

static struct guarded trial_room = {.most = TRIAL_MOST};

/* The job, fill's refusal of it or 0, and where the lists lie: the same for all trials of an input. */
struct stage {
    struct list job;
    uint64_t refusal;
    uint32_t choices;
};

/* A trial outside the room: what a call gets, and then what it must leave. */
struct trial {
    uint32_t words[TRIAL_MOST];
    size_t len;
};

static uint32_t filled_facts[PLANREADER_WIDE_BUFFER_WORDS];

/* fill's answer for a trial's starts, with its list in filled_facts. */
static uint64_t fill_for(struct list job, const struct trial *trial)
{
    struct request request = {.call = FILL, .job = job, .starts = {trial->words + 2, trial->words[1]}};
    return make_call(&request, filled_facts, PLANREADER_WIDE_BUFFER_WORDS);
}

static uint64_t answer_of(unsigned number) { return (uint64_t)number << 56; }

/* Whether a list has the words of a trial, and no moment or start in it is too late. */
static bool is_in_bounds(struct list job, const struct trial *trial)
{
    bool has_words = trial->len >= PLANREADER_TRIAL_WORDS && trial->words[1] <= STARTS_OF_TRIAL;
    if (!has_words || trial->words[0] > planreader_head_last(job.words[0])) return false;
    for (size_t i = 0; i < trial->words[1]; i++)
        if (planreader_start_moment(trial->words[2 + i]) > trial->words[0]) return false;
    return true;
}

/* The refusal of the job or of the trial; 0 for a trial that moves could give, whose facts are then in filled_facts. */
static uint64_t trial_refusal(const struct stage *stage, const struct trial *trial, size_t *facts)
{
    if (stage->refusal) return stage->refusal;
    if (!is_in_bounds(stage->job, trial)) return answer_of(PLANREADER_TRIAL_BOUNDS);
    uint64_t filled = fill_for(stage->job, trial);
    *facts = planreader_length(filled);
    return answer_of(planreader_number(filled));
}

/* The refusal of an action's start at the moment of a sound trial. If it is 0, the start is put in its place. */
static uint64_t start_refusal(struct list job, struct trial *trial, uint32_t action)
{
    static struct trial with;
    if (action >= planreader_head_actions(job.words[0])) return answer_of(PLANREADER_START_WORD);
    uint32_t word = planreader_start(trial->words[0], action), at = 2 + trial->words[1];
    with = *trial;
    for (; at > 2 && with.words[at - 1] > word; at--) with.words[at] = with.words[at - 1];
    if (at > 2 && with.words[at - 1] == word) return answer_of(PLANREADER_START_IN_HAND);
    with.words[at] = word;
    with.words[1]++;
    unsigned number = planreader_number(fill_for(job, &with));
    if (number == 0) *trial = with;
    return answer_of(number);
}

/* What trial_begin or a move must answer; the trial becomes what it must leave. */
static uint64_t expected(enum call call, const struct stage *stage, struct trial *trial, uint32_t action)
{
    size_t facts;
    if (call == TRIAL_BEGIN) {
        if (stage->refusal) return stage->refusal;
        if (trial->len < PLANREADER_TRIAL_WORDS) return answer_of(PLANREADER_TRIAL_BOUNDS);
        trial->words[0] = trial->words[1] = 0;
        return 0;
    }
    uint64_t refusal = trial_refusal(stage, trial, &facts);
    if (refusal) return refusal;
    if (call == TRIAL_START) return start_refusal(stage->job, trial, action);
    if (trial->words[0] == planreader_head_last(stage->job.words[0])) return answer_of(PLANREADER_TRIAL_BOUNDS);
    trial->words[0]++;
    return 0;
}

/* Makes trial_begin or a move; holds the answer, the trial and the words around it. The trial becomes what is left. */
static uint64_t hold_move(enum call call, const struct stage *stage, struct trial *trial, uint32_t action)
{
    uint32_t *words = guard_lend(&trial_room, (struct list){trial->words, trial->len}, stage->choices);
    struct request request = {.call = call, .job = stage->job, .action = action};
    uint64_t right = expected(call, stage, trial, action), answer = make_call(&request, words, trial->len);
    hold(answer == right, call, "another answer than fill's", answer);
    hold(guard_intact(&trial_room), call, "a word outside the trial changed", answer);
    hold(same_words(trial_room.words, trial->words, trial->len), call, "other words left in the trial", answer);
    return answer;
}

/* Makes trial_show with a buffer of `len` words; holds the answer, the facts and the trial, which is locked. */
static void hold_show(const struct stage *stage, const struct trial *trial, size_t len)
{
    struct list words = {trial->words, trial->len};
    struct request request = {.call = TRIAL_SHOW, .job = stage->job};
    request.trial = guard_lend_locked(&trial_room, words, stage->choices);
    uint64_t answer = write_call(&request, len, stage->choices);
    size_t facts = 0, shown = 0;
    hold(guard_intact(&trial_room) && same_words(trial_room.words, words.words, words.len), TRIAL_SHOW,
         "a list that is only read changed", answer);
    if (planreader_number(answer) == PLANREADER_BUFFER_SHORT) return; /* make_call holds when it is due */
    uint64_t right = trial_refusal(stage, trial, &facts);
    if (right == 0)
        while (shown < facts && fact_moment(stage->job.words[0], filled_facts[shown]) <= trial->words[0]) shown++;
    hold(answer == (right | (uint64_t)shown << 24), TRIAL_SHOW, "another answer than fill's", answer);
    hold(same_words(written(answer).words, filled_facts, shown), TRIAL_SHOW, "other facts than fill's", answer);
}

/* The calls on one trial, each as if it were the only one. */
static void hold_trial(const struct stage *stage, const struct trial *trial, uint32_t action)
{
    static struct trial moved;
    uint32_t head = head_of(stage->job);
    for (enum call call = TRIAL_BEGIN; call <= TRIAL_ON; call++) {
        moved = *trial;
        hold_move(call, stage, &moved, action);
    }
    hold_show(stage, trial, filler_words(head));
    hold_show(stage, trial, PLANREADER_BUFFER_WORDS - 1);
    if (is_wide(head)) {
        hold_show(stage, trial, PLANREADER_BUFFER_WORDS);
        hold_show(stage, trial, PLANREADER_WIDE_BUFFER_WORDS - 1);
    }
    hold_show(stage, trial, buffer_words(stage->choices, head));
}

/* Makes a trial at a moment with these starts, whose words after the starts are other ones. */
static void make_trial(struct trial *trial, uint32_t moment, struct list starts)
{
    trial->len = PLANREADER_TRIAL_WORDS;
    trial->words[0] = moment;
    trial->words[1] = (uint32_t)starts.len;
    for (size_t i = 2; i < TRIAL_MOST; i++)
        trial->words[i] = i - 2 < starts.len ? starts.words[i - 2] : 0x5eed0000u + (uint32_t)i;
}

/* Steps through the starts from a fresh trial, at each moment from the last start down, for a number of moves. */
static void hold_walk(const struct stage *stage, struct list starts)
{
    static struct trial trial;
    make_trial(&trial, UINT32_MAX, starts);
    hold_move(TRIAL_BEGIN, stage, &trial, 0);
    for (size_t moves = 0, next = starts.len; moves < MOVES_TRIED; moves++) {
        while (next > 0 && planreader_start_moment(starts.words[next - 1]) > trial.words[0]) next--;
        bool is_now = next > 0 && planreader_start_moment(starts.words[next - 1]) == trial.words[0];
        if (is_now) hold_move(TRIAL_START, stage, &trial, planreader_start_action(starts.words[--next]));
        else if (hold_move(TRIAL_ON, stage, &trial, 0)) return;
        else next = starts.len;
    }
    hold_show(stage, &trial, filler_words(stage->job.words[0]));
}

void examine_trials(struct list job, uint64_t refusal, struct list starts, const struct input *in)
{
    static struct trial trial, moved;
    struct stage stage = {job, refusal, in->choices};
    uint32_t action = in->action + (in->odd & ODD_ACTION ? 1u << 16 : 0), latest = 0;
    make_trial(&trial, in->moment | (in->odd & ODD_MOMENT ? 1u << 31 : 0), starts);
    trial.len = trial_words(in->odd);
    trial.words[1] = trial_count(in->odd, starts.len);
    hold_trial(&stage, &trial, action);
    if (refusal) return; /* no call looks at the trial */
    for (size_t i = 0; i < starts.len; i++) {
        unsigned moment = planreader_start_moment(starts.words[i]);
        latest = moment > latest ? moment : latest;
    }
    make_trial(&trial, latest, starts);
    hold_trial(&stage, &trial, action);
    stage.choices ^= LISTS_BEGIN;
    for (uint32_t i = 0; i < ACTIONS_TRIED && i <= planreader_head_actions(job.words[0]); i++) {
        moved = trial;
        hold_move(TRIAL_START, &stage, &moved, i);
    }
    hold_walk(&stage, starts);
}
