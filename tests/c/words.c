/* The header's makers and readers of words against the scope's list of kinds and their bits, its enumerations against the scope's numbers,
 * its wide words against those of document 02, and its version against the file VERSION (given as VERSION_FILE). Compiled as C11 and as C++17. */
#include "planreader.h"
#include <stdio.h>
#include <string.h>

enum { KINDS = 14, FIELDS = 6 };

/* The fields of a kind, in the order of its maker's parameters: highest and lowest bit. */
struct layout {
    int fields;
    unsigned bits[FIELDS][2];
};

static const struct layout layouts[KINDS + 1] = {
    {0, {{0, 0}}},
    {3, {{23, 16}, {15, 8}, {7, 0}}}, /* 1: fluents, actions, last moment */
    {2, {{5, 0}, {6, 6}}}, /* 2: fluent, 0 true or 1 false */
    {2, {{11, 6}, {5, 0}}}, /* 3: number, duration */
    {2, {{7, 6}, {5, 0}}}, /* 4: role, fluent */
    {3, {{27, 24}, {11, 6}, {5, 0}}}, /* 5: form, X, Y */
    {5, {{27, 24}, {23, 18}, {17, 12}, {11, 6}, {5, 0}}}, /* 6: form, X, Y, M, N */
    {1, {{5, 0}}}, /* 7: node */
    {6, {{27, 24}, {23, 18}, {17, 15}, {14, 12}, {11, 6}, {5, 0}}}, /* 8: form, formula, i, j, M, N */
    {2, {{11, 6}, {5, 0}}}, /* 9: moment, action */
    {3, {{12, 7}, {6, 1}, {0, 0}}}, /* 10: moment, fluent, 0 true or 1 false */
    {3, {{17, 12}, {11, 6}, {5, 0}}}, /* 11: node, begin, end */
    {3, {{17, 12}, {11, 6}, {5, 0}}}, /* 12: action, from, to */
    {2, {{27, 24}, {5, 0}}}, /* 13: group, limit */
    {2, {{27, 24}, {5, 0}}}, /* 14: group, action */
};

static int faults;

static void fault(const char *what, unsigned kind, int field, uint32_t word)
{
    if (faults++ < 20) printf("%s: kind %u, field %d, word %08x\n", what, kind, field, (unsigned)word);
}

/* The word that the header makes of the fields' values; for the bit of truth, 1 means false. */
static uint32_t made(unsigned kind, const unsigned *v)
{
    switch (kind) {
    case PLANREADER_KIND_HEAD: return planreader_head(v[0], v[1], v[2]);
    case PLANREADER_KIND_KNOWN: return planreader_known(v[0], v[1] == 0);
    case PLANREADER_KIND_ACTION: return planreader_action(v[0], v[1]);
    case PLANREADER_KIND_LAW: return planreader_law(v[0], v[1]);
    case PLANREADER_KIND_FORMULA: return planreader_formula(v[0], v[1], v[2]);
    case PLANREADER_KIND_NODE: return planreader_node(v[0], v[1], v[2], v[3], v[4]);
    case PLANREADER_KIND_MEMBER: return planreader_member(v[0]);
    case PLANREADER_KIND_CONDITION: return planreader_condition(v[0], v[1], v[2], v[3], v[4], v[5]);
    case PLANREADER_KIND_START: return planreader_start(v[0], v[1]);
    case PLANREADER_KIND_FACT: return planreader_fact(v[0], v[1], v[2] == 0);
    case PLANREADER_KIND_READING: return planreader_reading(v[0], v[1], v[2]);
    case PLANREADER_KIND_SHIFT_WINDOW: return planreader_shift_window(v[0], v[1], v[2]);
    case PLANREADER_KIND_GROUP: return planreader_group(v[0], v[1]);
    default: return planreader_group_member(v[0], v[1]);
    }
}

static unsigned false_bit(int is_true) { return is_true ? 0 : 1; }

/* What the header reads of a word: a field's value. */
static unsigned value_read(unsigned kind, int field, uint32_t w)
{
    const unsigned values[KINDS + 1][FIELDS] = {
        {0},
        {planreader_head_fluents(w), planreader_head_actions(w), planreader_head_last(w)},
        {planreader_known_fluent(w), false_bit(planreader_known_is_true(w))},
        {planreader_action_number(w), planreader_action_duration(w)},
        {planreader_law_role(w), planreader_law_fluent(w)},
        {planreader_form(w), planreader_formula_x(w), planreader_formula_y(w)},
        {planreader_form(w), planreader_node_x(w), planreader_node_y(w), planreader_node_m(w), planreader_node_n(w)},
        {planreader_member_node(w)},
        {planreader_form(w), planreader_condition_formula(w), planreader_condition_i(w), planreader_condition_j(w),
         planreader_condition_m(w), planreader_condition_n(w)},
        {planreader_start_moment(w), planreader_start_action(w)},
        {planreader_fact_moment(w), planreader_fact_fluent(w), false_bit(planreader_fact_is_true(w))},
        {planreader_reading_node(w), planreader_reading_begin(w), planreader_reading_end(w)},
        {planreader_shift_window_action(w), planreader_shift_window_from(w), planreader_shift_window_to(w)},
        {planreader_group_number(w), planreader_group_limit(w)},
        {planreader_group_member_group(w), planreader_group_member_action(w)},
    };
    return values[kind][field];
}

/* By the layout, bit by bit: the value of a field, */
static unsigned value_laid(const unsigned *bits, uint32_t word)
{
    unsigned value = 0;
    for (unsigned bit = bits[0] + 1; bit-- > bits[1];) value = value * 2 + (word >> bit) % 2;
    return value;
}

/* and the word of a kind with the fields' values. */
static uint32_t word_laid(unsigned kind, const unsigned *v)
{
    uint32_t word = kind * 268435456u;
    for (int f = 0; f < layouts[kind].fields; f++)
        for (unsigned bit = layouts[kind].bits[f][1], rest = v[f]; rest > 0; bit++, rest /= 2)
            if (rest % 2) word += 1u << bit;
    return word;
}

static unsigned most(unsigned kind, int field)
{
    return value_laid(layouts[kind].bits[field], 0xffffffffu);
}

/* Every value of one field, the others none, or all that they can be; then a value too much, unless the field is a bit of truth. */
static void try_field(unsigned kind, int field, int others_full)
{
    unsigned v[FIELDS] = {0};
    for (int f = 0; f < layouts[kind].fields; f++) v[f] = others_full ? most(kind, f) : 0;
    for (v[field] = 0; v[field] <= most(kind, field); v[field]++) {
        uint32_t word = made(kind, v);
        if (word != word_laid(kind, v)) fault("made", kind, field, word);
        if (planreader_kind(word) != kind) fault("kind", kind, field, word);
        for (int f = 0; f < layouts[kind].fields; f++)
            if (value_read(kind, f, word) != v[f]) fault("read", kind, f, word);
    }
    if (most(kind, field) == 1) return;
    const unsigned too_much[] = {most(kind, field) + 1, 1u << 24, 1u << 31, 0xffffffffu};
    for (int i = 0; i < 4; i++) {
        v[field] = too_much[i];
        if (made(kind, v) != 0) fault("made of too much", kind, field, made(kind, v));
    }
}

/* Readers on any word, whatever stands in the bits that are not theirs. */
static void try_readers(unsigned kind)
{
    uint32_t word = 2463534242u;
    for (int i = 0; i < 10000; i++) {
        word ^= word << 13, word ^= word >> 17, word ^= word << 5;
        for (int f = 0; f < layouts[kind].fields; f++)
            if (value_read(kind, f, word) != value_laid(layouts[kind].bits[f], word)) fault("read of any word", kind, f, word);
    }
}

/* Words that the scope and the door's listing write out. */
static void try_listed(void)
{
    const uint32_t pairs[][2] = {
        {planreader_head(1, 1, 1), 0x10010101u},
        {planreader_known(0, 0), 0x20000040u},
        {planreader_action(0, 1), 0x30000001u},
        {planreader_law(PLANREADER_MAKES_TRUE, 0), 0x40000080u},
        {planreader_node(PLANREADER_ACT, 0, 0, 0, 0), 0x60000000u},
        {planreader_start(0, 0), 0x90000000u},
        {planreader_fact(0, 0, 0), 0xa0000001u},
        {planreader_fact(1, 0, 1), 0xa0000080u},
        {planreader_reading(0, 0, 1), 0xb0000001u},
        {planreader_law(PLANREADER_NEEDS_TRUE, 5), 0x40000005u},
        {planreader_law(PLANREADER_NEEDS_FALSE, 0), 0x40000040u},
        {planreader_law(PLANREADER_MAKES_FALSE, 0), 0x400000c0u},
        {planreader_formula(PLANREADER_FLUENT, 3, 0), 0x510000c0u},
        {planreader_formula(PLANREADER_NOT, 1, 0), 0x52000040u},
        {planreader_formula(PLANREADER_AND, 3, 4), 0x530000c4u},
        {planreader_formula(PLANREADER_HELD_FOR, 0, 2), 0x55000002u},
        {planreader_node(PLANREADER_TEST, 5, 0, 0, 0), 0x61140000u},
        {planreader_node(PLANREADER_SEQUENCE, 0, 16, 0, 0), 0x62010000u},
        {planreader_node(PLANREADER_IF, 0, 5, 4, 0), 0x64005100u},
        {planreader_node(PLANREADER_WHILE, 2, 6, 0, 0), 0x65086000u},
        {planreader_node(PLANREADER_END_WINDOW, 1, 2, 1, 3), 0x67042043u},
        {planreader_node(PLANREADER_TASK_SET, 0, 0, 0, 0), 0x68000000u},
        {planreader_member(9), 0x70000009u},
        {planreader_condition(PLANREADER_BEGIN_AFTER_BEGIN, 0, 0, 1, 0, 1), 0x80001001u},
        {planreader_shift_window(1, 2, 3), 0xc0001083u},
        {planreader_group(7, 2), 0xd7000002u},
        {planreader_group_member(7, 63), 0xe700003fu},
    };
    for (size_t i = 0; i < sizeof pairs / sizeof *pairs; i++)
        if (pairs[i][0] != pairs[i][1]) fault("listed", pairs[i][1] >> 28, 0, pairs[i][0]);
}

/* The shorter makers: as the scope lists the forms and their fields, on four different values, and on one that does not fit. */
static void try_short(void)
{
    const unsigned x = 5, y = 6, m = 7, n = 8;
    const struct {
        uint32_t word;
        unsigned kind, fields[FIELDS];
    } made_short[] = {
        {planreader_needs(x, 1), 4, {0, x}},
        {planreader_needs(x, 0), 4, {1, x}},
        {planreader_makes(x, 1), 4, {2, x}},
        {planreader_makes(x, 0), 4, {3, x}},
        {planreader_always(), 5, {0}},
        {planreader_fluent(x), 5, {1, x}},
        {planreader_not(x), 5, {2, x}},
        {planreader_and(x, y), 5, {3, x, y}},
        {planreader_or(x, y), 5, {4, x, y}},
        {planreader_held_for(x, y), 5, {5, x, y}},
        {planreader_act(x), 6, {0, x}},
        {planreader_test(x), 6, {1, x}},
        {planreader_sequence(x, y), 6, {2, x, y}},
        {planreader_choice(x, y), 6, {3, x, y}},
        {planreader_if(x, y, m), 6, {4, x, y, m}},
        {planreader_while(x, y), 6, {5, x, y}},
        {planreader_start_window(x, y, m, n), 6, {6, x, y, m, n}},
        {planreader_end_window(x, y, m, n), 6, {7, x, y, m, n}},
        {planreader_task_set(), 6, {8}},
    };
    for (size_t i = 0; i < sizeof made_short / sizeof *made_short; i++)
        if (made_short[i].word != word_laid(made_short[i].kind, made_short[i].fields)) fault("short", made_short[i].kind, (int)i, made_short[i].word);
    const uint32_t none[] = {planreader_needs(64, 1), planreader_makes(64, 0), planreader_fluent(64), planreader_or(0, 64), planreader_held_for(64, 0),
                             planreader_held_for(0, 64), planreader_act(64), planreader_if(0, 0, 64), planreader_end_window(0, 0, 0, 64)};
    for (size_t i = 0; i < sizeof none / sizeof *none; i++)
        if (none[i] != 0) fault("short of too much", 0, (int)i, none[i]);
}

/* Wide heads: fluents 1 to 256 in bits 23..16, where 256 stands as 0, and 1 in 27..24. Of 2 to 15 there, none is wide. */
static void try_wide_heads(void)
{
    const unsigned others[] = {0, 1, 63, 64, 255, 256, 1u << 24, 0xffffffffu};
    for (unsigned fluents = 0; fluents < 600; fluents++)
        for (int a = 0; a < 8; a++)
            for (int n = 0; n < 8; n++) {
                uint32_t word = planreader_wide_head(fluents, others[a], others[n]);
                int fits = fluents >= 1 && fluents <= 256 && others[a] < 256 && others[n] < 256;
                if (word != (fits ? 0x11000000u + fluents % 256 * 65536 + others[a] * 256 + others[n] : 0)) fault("wide head", 1, 0, word);
                if (!fits) continue;
                if (!planreader_head_is_wide(word) || planreader_kind(word) != 1) fault("wide head, kind", 1, 0, word);
                if (planreader_wide_head_fluents(word) != fluents) fault("wide head, fluents", 1, 0, word);
                if (planreader_head_actions(word) != others[a] || planreader_head_last(word) != others[n]) fault("wide head, read", 1, 1, word);
            }
    for (uint32_t size = 0; size < 16; size++)
        if (planreader_head_is_wide(0x10fffffeu + size * 16777216u) != (size == 1)) fault("is wide", 1, 0, size);
    if (planreader_wide_head(1u << 31, 1, 1) != 0 || planreader_wide_head(0xffffffffu, 1, 1) != 0) fault("wide head of too much", 1, 0, 0);
}

/* The other words of a wide job, by the bits of document 02: a fluent in 7..0, its value in 8, or a role in 9..8; in a fact the moment in 14..9,
 * the fluent in 8..1, the value in 0. */
static void try_wide_words(void)
{
    for (unsigned f = 0; f < 600; f++) {
        int fits = f < 256;
        for (unsigned v = 0; v < 2; v++) {
            if (planreader_wide_known(f, v == 0) != (fits ? 0x20000000u + v * 256 + f : 0)) fault("wide known", 2, (int)v, f);
            if (planreader_wide_needs(f, v == 0) != (fits ? 0x40000000u + v * 256 + f : 0)) fault("wide needs", 4, (int)v, f);
            if (planreader_wide_makes(f, v == 0) != (fits ? 0x40000200u + v * 256 + f : 0)) fault("wide makes", 4, (int)v, f);
            for (unsigned t = 0; t < 130; t++)
                if (planreader_wide_fact(t, f, v == 0) != (fits && t < 64 ? 0xa0000000u + t * 512 + f * 2 + v : 0)) fault("wide fact", 10, (int)v, f);
        }
        for (unsigned role = 0; role < 9; role++)
            if (planreader_wide_law(role, f) != (fits && role < 4 ? 0x40000000u + role * 256 + f : 0)) fault("wide law", 4, (int)role, f);
        if (planreader_wide_fluent(f) != (fits ? 0x51000000u + f : 0)) fault("wide fluent", 5, 0, f);
    }
    const uint32_t none[] = {planreader_wide_known(1u << 31, 1), planreader_wide_law(0, 0xffffffffu), planreader_wide_law(1u << 31, 0),
                             planreader_wide_fluent(1u << 31), planreader_wide_fact(1u << 31, 0, 1), planreader_wide_fact(0, 0xffffffffu, 1)};
    for (size_t i = 0; i < sizeof none / sizeof *none; i++)
        if (none[i] != 0) fault("wide of too much", 0, (int)i, none[i]);
}

/* Their readers on any word. */
static void try_wide_readers(void)
{
    const struct {
        unsigned (*read)(uint32_t);
        unsigned bits[2];
    } readers[] = {
        {planreader_wide_known_fluent, {7, 0}},   {planreader_wide_law_role, {9, 8}},     {planreader_wide_law_fluent, {7, 0}},
        {planreader_wide_formula_fluent, {7, 0}}, {planreader_wide_fact_moment, {14, 9}}, {planreader_wide_fact_fluent, {8, 1}},
    };
    const unsigned truth[] = {8, 8}, fluents[] = {23, 16};
    uint32_t word = 2463534242u;
    for (int i = 0; i < 10000; i++) {
        word ^= word << 13, word ^= word >> 17, word ^= word << 5;
        for (size_t r = 0; r < sizeof readers / sizeof *readers; r++)
            if (readers[r].read(word) != value_laid(readers[r].bits, word)) fault("wide read of any word", 0, (int)r, word);
        if (false_bit(planreader_wide_known_is_true(word)) != value_laid(truth, word)) fault("wide read of truth", 2, 1, word);
        unsigned laid = value_laid(fluents, word);
        if (planreader_wide_head_fluents(word) != (laid == 0 ? 256 : laid)) fault("wide read of fluents", 1, 0, word);
    }
}

/* Forms that no listing has, and refusals: in the scope's order. */
static void try_numbers(void)
{
    const int formulas[] = {PLANREADER_ALWAYS, PLANREADER_FLUENT, PLANREADER_NOT, PLANREADER_AND, PLANREADER_OR, PLANREADER_HELD_FOR};
    const int nodes[] = {PLANREADER_ACT, PLANREADER_TEST, PLANREADER_SEQUENCE, PLANREADER_CHOICE, PLANREADER_IF,
                         PLANREADER_WHILE, PLANREADER_START_WINDOW, PLANREADER_END_WINDOW, PLANREADER_TASK_SET};
    const int conditions[] = {PLANREADER_BEGIN_AFTER_BEGIN, PLANREADER_BEGIN_AFTER_END, PLANREADER_HOLDS_BEFORE,
                              PLANREADER_HOLDS_AFTER, PLANREADER_HOLDS_BETWEEN};
    const int refusals[] = {PLANREADER_ACCEPTED, PLANREADER_JOB_LENGTH, PLANREADER_JOB_SHAPE, PLANREADER_JOB_VALUE,
                            PLANREADER_JOB_FLUENT_TWICE, PLANREADER_JOB_NODES, PLANREADER_START_WORD, PLANREADER_START_ENDS_LATE,
                            PLANREADER_START_IN_HAND, PLANREADER_START_CLASHES, PLANREADER_START_NEEDS, PLANREADER_FACTS_DIFFER,
                            PLANREADER_BUFFER_SHORT, PLANREADER_NO_READING, PLANREADER_TRIAL_BOUNDS, PLANREADER_START_OUTSIDE_WINDOWS,
                            PLANREADER_GROUP_OVER_LIMIT};
    for (int i = 0; i < 6; i++)
        if (formulas[i] != i) fault("form", 5, i, 0);
    for (int i = 0; i < 5; i++)
        if (conditions[i] != i) fault("form", 8, i, 0);
    for (int i = 0; i < 9; i++)
        if (nodes[i] != i) fault("form", 6, i, 0);
    for (int i = 0; i < 17; i++)
        if (refusals[i] != i) fault("refusal", 0, i, 0);
    if (PLANREADER_KIND_SHIFT_WINDOW != 12) fault("kind", 12, 0, 0);
    if (PLANREADER_KIND_GROUP != 13) fault("kind", 13, 0, 0);
    if (PLANREADER_KIND_GROUP_MEMBER != 14) fault("kind", 14, 0, 0);
}

/* A text for every number: for 0 to 16 each its own, beyond them one that is none of these. */
static void try_texts(void)
{
    for (unsigned a = 0; a <= 17; a++) {
        if (strlen(planreader_refusal_text(a)) < 8) fault("no text", 0, (int)a, 0);
        for (unsigned b = 0; b < a; b++)
            if (strcmp(planreader_refusal_text(a), planreader_refusal_text(b)) == 0) fault("same text", 0, (int)a, 0);
    }
    for (unsigned a = 18; a < 300; a++)
        if (strcmp(planreader_refusal_text(a), planreader_refusal_text(17)) != 0) fault("text beyond 16", 0, (int)a, 0);
    if (strcmp(planreader_refusal_text(16), "a start that takes a group over its limit")) fault("text", 0, 16, 0);
}

/* A trial's words: the moment, the number of its starts, the starts; 4,098 of them, so that 4,096 starts have room. */
static void try_trial(void)
{
    static planreader_trial trial = {5, 2, 0x90000000u, 0x90000141u};
    const uint32_t *words = trial;
    if (PLANREADER_TRIAL_WORDS != 4098 || sizeof trial != 4 * 4098) fault("a trial of another size", 0, 0, 0);
    if (planreader_trial_moment(words) != 5) fault("trial's moment", 0, 0, planreader_trial_moment(words));
    if (planreader_trial_count(words) != 2) fault("trial's number of starts", 0, 1, planreader_trial_count(words));
    if (planreader_trial_starts(words) != words + 2 || planreader_trial_starts(trial)[1] != 0x90000141u) fault("trial's starts", 0, 2, 0);
}

int main(void)
{
    for (unsigned kind = 1; kind <= KINDS; kind++) {
        for (int field = 0; field < layouts[kind].fields; field++) {
            try_field(kind, field, 0);
            try_field(kind, field, 1);
        }
        try_readers(kind);
    }
    try_listed();
    try_short();
    try_wide_heads();
    try_wide_words();
    try_wide_readers();
    if (PLANREADER_BUFFER_WORDS != 4096 || PLANREADER_WIDE_BUFFER_WORDS != 16384) fault("a buffer of another length", 0, 0, 0);
    try_numbers();
    try_texts();
    try_trial();
    if (strcmp(PLANREADER_VERSION, VERSION_FILE) != 0) fault("PLANREADER_VERSION is not that of VERSION", 0, 0, 0);
    printf("words: %s\n", faults ? "FAILED" : "ok");
    return faults != 0;
}
