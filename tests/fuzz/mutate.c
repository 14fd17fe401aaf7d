/* The mutator: it changes an input by words, and asks fill what to put right, so that find meets plans that pass. */
#include "dice.h"
#include "harness.h"
#include <stdlib.h>
#include <string.h>

/* A list of an input that can be changed. */
struct open_list {
    uint32_t *words;
    size_t *len, most;
};

static struct open_list open_job(struct input *in) { return (struct open_list){in->job, &in->job_len, JOB_MOST}; }
static struct open_list open_starts(struct input *in)
{
    return (struct open_list){in->starts, &in->starts_len, STARTS_MOST};
}
static struct open_list open_facts(struct input *in)
{
    return (struct open_list){in->facts, &in->facts_len, FACTS_MOST};
}

static struct open_list some_list(struct input *in, struct dice *dice)
{
    uint32_t which = roll(dice, in->choices & FACTS_BY_FILL ? 6 : 8);
    return which < 4 ? open_job(in) : which < 6 ? open_starts(in) : open_facts(in);
}

static size_t some_place(struct open_list list, struct dice *dice) { return roll(dice, (uint32_t)*list.len); }

static void insert(struct open_list list, size_t at, uint32_t word)
{
    if (*list.len >= list.most || at > *list.len) return;
    memmove(list.words + at + 1, list.words + at, (*list.len - at) * sizeof word);
    list.words[at] = word;
    ++*list.len;
}

static void erase(struct open_list list, size_t at)
{
    if (at >= *list.len) return;
    memmove(list.words + at, list.words + at + 1, (*list.len - at - 1) * sizeof *list.words);
    --*list.len;
}

/* The fields of a word by its kind, form and layout, as high and low bits. */
enum { ANY = 16, NARROW = 1, WIDE = 2, BOTH = NARROW | WIDE };
struct shape {
    uint8_t kind, form, layouts, number;
    struct {
        uint8_t high, low;
    } fields[6];
};
static const struct shape shapes[] = {
    {PLANREADER_KIND_KNOWN, ANY, NARROW, 2, {{6, 6}, {5, 0}}},
    {PLANREADER_KIND_KNOWN, ANY, WIDE, 2, {{8, 8}, {7, 0}}},
    {PLANREADER_KIND_ACTION, ANY, BOTH, 2, {{11, 6}, {5, 0}}},
    {PLANREADER_KIND_LAW, ANY, NARROW, 2, {{7, 6}, {5, 0}}},
    {PLANREADER_KIND_LAW, ANY, WIDE, 2, {{9, 8}, {7, 0}}},
    {PLANREADER_KIND_SHIFT_WINDOW, ANY, BOTH, 3, {{17, 12}, {11, 6}, {5, 0}}},
    {PLANREADER_KIND_GROUP, ANY, BOTH, 2, {{27, 24}, {5, 0}}},
    {PLANREADER_KIND_GROUP_MEMBER, ANY, BOTH, 2, {{27, 24}, {5, 0}}},
    {PLANREADER_KIND_FORMULA, PLANREADER_FLUENT, NARROW, 1, {{11, 6}}},
    {PLANREADER_KIND_FORMULA, PLANREADER_FLUENT, WIDE, 1, {{7, 0}}},
    {PLANREADER_KIND_FORMULA, PLANREADER_NOT, BOTH, 1, {{11, 6}}},
    {PLANREADER_KIND_FORMULA, PLANREADER_AND, BOTH, 2, {{11, 6}, {5, 0}}},
    {PLANREADER_KIND_FORMULA, PLANREADER_OR, BOTH, 2, {{11, 6}, {5, 0}}},
    {PLANREADER_KIND_FORMULA, PLANREADER_HELD_FOR, BOTH, 2, {{11, 6}, {5, 0}}},
    {PLANREADER_KIND_NODE, PLANREADER_ACT, BOTH, 1, {{23, 18}}},
    {PLANREADER_KIND_NODE, PLANREADER_TEST, BOTH, 1, {{23, 18}}},
    {PLANREADER_KIND_NODE, PLANREADER_SEQUENCE, BOTH, 2, {{23, 18}, {17, 12}}},
    {PLANREADER_KIND_NODE, PLANREADER_CHOICE, BOTH, 2, {{23, 18}, {17, 12}}},
    {PLANREADER_KIND_NODE, PLANREADER_IF, BOTH, 3, {{23, 18}, {17, 12}, {11, 6}}},
    {PLANREADER_KIND_NODE, PLANREADER_WHILE, BOTH, 2, {{23, 18}, {17, 12}}},
    {PLANREADER_KIND_NODE, PLANREADER_START_WINDOW, BOTH, 4, {{23, 18}, {17, 12}, {11, 6}, {5, 0}}},
    {PLANREADER_KIND_NODE, PLANREADER_END_WINDOW, BOTH, 4, {{23, 18}, {17, 12}, {11, 6}, {5, 0}}},
    {PLANREADER_KIND_MEMBER, ANY, BOTH, 1, {{5, 0}}},
    {PLANREADER_KIND_CONDITION, PLANREADER_BEGIN_AFTER_BEGIN, BOTH, 4, {{17, 15}, {14, 12}, {11, 6}, {5, 0}}},
    {PLANREADER_KIND_CONDITION, PLANREADER_BEGIN_AFTER_END, BOTH, 4, {{17, 15}, {14, 12}, {11, 6}, {5, 0}}},
    {PLANREADER_KIND_CONDITION, PLANREADER_HOLDS_BEFORE, BOTH, 4, {{23, 18}, {17, 15}, {11, 6}, {5, 0}}},
    {PLANREADER_KIND_CONDITION, PLANREADER_HOLDS_AFTER, BOTH, 4, {{23, 18}, {17, 15}, {11, 6}, {5, 0}}},
    {PLANREADER_KIND_CONDITION, PLANREADER_HOLDS_BETWEEN, BOTH, 5, {{23, 18}, {17, 15}, {14, 12}, {11, 6}, {5, 0}}},
    {PLANREADER_KIND_START, ANY, BOTH, 2, {{11, 6}, {5, 0}}},
    {PLANREADER_KIND_FACT, ANY, NARROW, 3, {{12, 7}, {6, 1}, {0, 0}}},
    {PLANREADER_KIND_FACT, ANY, WIDE, 3, {{14, 9}, {8, 1}, {0, 0}}},
    {PLANREADER_KIND_HEAD, ANY, BOTH, 3, {{23, 16}, {15, 8}, {7, 0}}},
};
enum { SHAPES = sizeof shapes / sizeof *shapes };

static unsigned layout_of(const struct input *in) { return in->job_len && is_wide(in->job[0]) ? WIDE : NARROW; }

/* The shape of a word, or NULL for a word of no known kind and form. */
static const struct shape *shape_of(uint32_t word, unsigned layout)
{
    for (size_t i = 0; i < SHAPES; i++) {
        bool is_form = shapes[i].form == ANY || shapes[i].form == planreader_form(word);
        if (shapes[i].kind == planreader_kind(word) && is_form && shapes[i].layouts & layout) return &shapes[i];
    }
    return NULL;
}

static uint32_t other_value(uint32_t value, struct dice *dice)
{
    switch (roll(dice, 5)) {
    case 0: return value + 1;
    case 1: return value - 1;
    case 2: return roll(dice, 256);
    default: return roll(dice, 6);
    }
}

/* Changes one field of a word; rarely its kind or form. */
static void change_field(struct input *in, struct dice *dice)
{
    struct open_list list = some_list(in, dice);
    if (!*list.len) return;
    uint32_t *word = &list.words[some_place(list, dice)];
    const struct shape *shape = shape_of(*word, layout_of(in));
    unsigned which = shape ? roll(dice, shape->number) : 0, low = chance(dice, 2) ? 28 : 24, high = low + 3;
    if (shape && !chance(dice, 20)) high = shape->fields[which].high, low = shape->fields[which].low;
    *word = with_field(*word, high, low, other_value(field(*word, high, low), dice));
}

/* Puts a new word of some shape after the last word of its kind, or anywhere. */
static void add_word(struct input *in, struct dice *dice)
{
    const struct shape *shape = &shapes[roll(dice, SHAPES)];
    struct open_list list = shape->kind == PLANREADER_KIND_START ? open_starts(in) : open_job(in);
    uint32_t word = (uint32_t)shape->kind << 28 | (shape->form == ANY ? 0 : (uint32_t)shape->form << 24);
    size_t at = *list.len;
    for (unsigned i = 0; i < shape->number; i++)
        word = with_field(word, shape->fields[i].high, shape->fields[i].low, roll(dice, chance(dice, 8) ? 64 : 5));
    while (at > 0 && planreader_kind(list.words[at - 1]) != shape->kind) at--;
    insert(list, at ? at : some_place(list, dice), word);
}

static unsigned nodes_in(const struct input *in)
{
    unsigned nodes = 0;
    for (size_t i = 0; i < in->job_len; i++) nodes += planreader_kind(in->job[i]) == PLANREADER_KIND_NODE;
    return nodes;
}

/* Puts a new root over the old one: a task set, a loop, or a pair with a new act. */
static void wrap_root(struct input *in, struct dice *dice)
{
    unsigned nodes = nodes_in(in), form = PLANREADER_SEQUENCE + roll(dice, 7), m = roll(dice, 3);
    struct open_list job = open_job(in);
    if (nodes == 0 || nodes > 62) return;
    bool is_set = form == PLANREADER_TASK_SET, is_loop = form == PLANREADER_WHILE || form == PLANREADER_IF;
    if (!is_set && !is_loop) insert(job, in->job_len, planreader_act(roll(dice, 4)));
    if (is_set) insert(job, in->job_len, planreader_task_set()), insert(job, in->job_len, planreader_member(nodes - 1));
    else if (is_loop) insert(job, in->job_len, planreader_while(0, nodes - 1));
    else if (form < PLANREADER_START_WINDOW) insert(job, in->job_len, planreader_node(form, nodes - 1, nodes, 0, 0));
    else insert(job, in->job_len, planreader_node(form, nodes - 1, nodes, m, m + roll(dice, 4)));
}

/* Deletes, copies, swaps or flips a bit of words. */
static void move_words(struct input *in, struct dice *dice)
{
    struct open_list list = some_list(in, dice);
    if (!*list.len) return;
    size_t a = some_place(list, dice), b = some_place(list, dice);
    uint32_t word = list.words[a];
    switch (roll(dice, 4)) {
    case 0: erase(list, a); break;
    case 1: insert(list, b, word); break;
    case 2: list.words[a] = list.words[b], list.words[b] = word; break;
    default: list.words[a] ^= 1u << roll(dice, 32); break;
    }
}

static uint64_t fill_of(const struct input *in, uint32_t *facts)
{
    return fill(in->job, in->job_len, in->starts, in->starts_len, facts, PLANREADER_WIDE_BUFFER_WORDS);
}

/* Writes fill's facts to the input, perhaps with one bit changed. */
static void write_facts(struct input *in, struct dice *dice)
{
    static uint32_t facts[PLANREADER_WIDE_BUFFER_WORDS];
    size_t len = planreader_length(fill_of(in, facts));
    if (len == 0 || len > 200) return;
    memcpy(in->facts, facts, len * sizeof *facts);
    in->facts_len = len;
    in->choices &= ~(uint32_t)FACTS_BY_FILL;
    if (chance(dice, 2)) in->facts[roll(dice, (uint32_t)len)] ^= 1u << roll(dice, 15);
}

/* Changes the trial or the choices; rarely makes the job about as long as a job may be. */
static void change_rest(struct input *in, struct dice *dice)
{
    size_t len = PLANREADER_JOB_WORDS - 2 + roll(dice, 5);
    switch (roll(dice, 5)) {
    case 0: in->moment = (uint8_t)roll(dice, 66); break;
    case 1: in->action = (uint8_t)roll(dice, chance(dice, 8) ? 256 : 6); break;
    case 2: in->odd = (uint8_t)(chance(dice, 2) ? roll(dice, 256) : 0); break;
    case 3: in->choices ^= 1u << roll(dice, 8); break;
    default:
        if (in->job_len == 0 || !chance(dice, 5)) break;
        while (in->job_len < len) insert(open_job(in), in->job_len, in->job[in->job_len - 1]);
    }
}

static int by_value(const void *a, const void *b)
{
    uint32_t x = *(const uint32_t *)a, y = *(const uint32_t *)b;
    return (x > y) - (x < y);
}

/* Numbers the job's actions as they stand, and sets their number in the head. */
static void number_actions(struct input *in)
{
    uint32_t number = 0;
    for (size_t i = 0; i < in->job_len; i++)
        if (planreader_kind(in->job[i]) == PLANREADER_KIND_ACTION) in->job[i] = with_field(in->job[i], 11, 6, number++);
    in->job[0] = with_field(in->job[0], 15, 8, number);
}

/* Leaves out the word that is refused, or puts an unnamed node under a new root. Returns whether it could. */
static bool mend(struct input *in, uint64_t answer)
{
    unsigned number = planreader_number(answer), position = planreader_position(answer), nodes = nodes_in(in);
    if (number == 0 || number == PLANREADER_JOB_LENGTH) return false;
    if (number == PLANREADER_JOB_VALUE && position == in->job_len) number_actions(in);
    else if (number < PLANREADER_JOB_NODES) erase(open_job(in), position);
    else if (number == PLANREADER_JOB_NODES && nodes == 0) insert(open_job(in), in->job_len, planreader_act(0));
    else if (number == PLANREADER_JOB_NODES && position + 1 < nodes && nodes < 64)
        insert(open_job(in), in->job_len, planreader_sequence(position, nodes - 1));
    else if (number == PLANREADER_JOB_NODES) return false;
    else erase(open_starts(in), position);
    return true;
}

/* Puts right what the mutations broke, mostly; the facts are then mostly those that fill writes. */
static void put_right(struct input *in, struct dice *dice)
{
    static uint32_t facts[PLANREADER_WIDE_BUFFER_WORDS];
    if (chance(dice, 4)) return;
    qsort(in->starts, in->starts_len, sizeof *in->starts, by_value);
    unsigned most = chance(dice, 4) ? 1 : 200;
    for (unsigned times = 0; times < most && mend(in, fill_of(in, facts)); times++) continue;
    if (chance(dice, 8)) return;
    in->choices |= FACTS_BY_FILL;
    in->facts_len = 0;
}

size_t LLVMFuzzerCustomMutator(uint8_t *data, size_t size, size_t most, unsigned int seed)
{
    static void (*const mutations[])(struct input *, struct dice *) = {
        change_field, change_field, change_field, add_word,    add_word,
        move_words,   move_words,   wrap_root,    write_facts, change_rest};
    static struct input in;
    struct dice dice = {seed};
    input_decode(&in, data, size);
    for (uint32_t times = 1 + roll(&dice, 4); times > 0; times--)
        mutations[roll(&dice, sizeof mutations / sizeof *mutations)](&in, &dice);
    put_right(&in, &dice);
    return input_encode(&in, data, most);
}
