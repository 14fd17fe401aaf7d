/* A host in C: lists that are empty, overlap or are as large as they can be, calls on several threads at one time, and
 * the stack that each call uses on the largest plans of jobs of either width. Prints each fault, and exits with 1 if
 * there is one. The calls with small lists are those of tests/vectors. */
#define _POSIX_C_SOURCE 200809L
#include "planreader.h"
#include <pthread.h>
#include <stdio.h>
#include <stdlib.h>
#include <string.h>

static int faults;

static void expect(const char *what, uint64_t answer, unsigned number, unsigned position, unsigned length,
                   unsigned count)
{
    if (planreader_number(answer) == number && planreader_position(answer) == position &&
        planreader_length(answer) == length && planreader_count(answer) == count)
        return;
    printf("%s: %u at %u, length %u, count %u\n", what, planreader_number(answer), planreader_position(answer),
           planreader_length(answer), planreader_count(answer));
    faults++;
}

static void same(const char *what, const uint32_t *a, const uint32_t *b, size_t words)
{
    if (memcmp(a, b, words * sizeof *a) == 0) return;
    printf("%s: other words\n", what);
    faults++;
}

/* The scope's example: one fluent, initially false, and one action of one moment that makes it true. */
static const uint32_t job[] = {0x10010101u, 0x20000040u, 0x30000001u, 0x40000080u, 0x60000000u};
static const uint32_t starts[] = {0x90000000u}, facts[] = {0xa0000001u, 0xa0000080u};

static void empty_and_shared_lists(void)
{
    static uint32_t buffer[PLANREADER_BUFFER_WORDS];
    const uint32_t plan[] = {0x90000000u, 0xa0000001u, 0xa0000080u};
    expect("check, all lists NULL", check(NULL, 0, NULL, 0, NULL, 0), 1, 0, 0, 0);
    expect("fill, all lists NULL", fill(NULL, 0, NULL, 0, NULL, 0), 12, 0, 0, 0);
    expect("find, all lists NULL", find(NULL, 0, NULL, 0, NULL, 0, NULL, 0), 12, 0, 0, 0);
    expect("fill, NULL job and starts", fill(NULL, 0, NULL, 0, buffer, PLANREADER_BUFFER_WORDS), 1, 0, 0, 0);
    expect("trial_begin, all lists NULL", trial_begin(NULL, 0, NULL, 0), 1, 0, 0, 0);
    expect("trial_on, a NULL trial", trial_on(job, 5, NULL, 0), 14, 0, 0, 0);
    expect("trial_start, a NULL trial", trial_start(job, 5, NULL, 0, 0), 14, 0, 0, 0);
    expect("trial_show, all lists NULL", trial_show(NULL, 0, NULL, 0, NULL, 0), 12, 0, 0, 0);
    expect("check, one list thrice", check(job, 5, job, 5, job, 5), 6, 0, 0, 0);
    expect("check, starts and facts in one list", check(job, 5, plan, 1, plan + 1, 2), 0, 0, 0, 0);
    expect("check, starts that overlap the facts", check(job, 5, plan, 2, plan + 1, 2), 6, 1, 0, 0);
}

/* Calls on several threads at one time, each with a buffer of its own. Returns what went wrong, or NULL. */
enum { THREADS = 4, TIMES = 200 };
static void *call_often(void *lent)
{
    uint32_t *buffer = lent;
    for (int i = 0; i < TIMES; i++) {
        uint64_t filled = fill(job, 5, starts, 1, buffer, PLANREADER_BUFFER_WORDS);
        if (filled != (uint64_t)2 << 24 || memcmp(buffer, facts, sizeof facts) != 0) return lent;
        if (check(job, 5, starts, 1, buffer, 2) != 0) return lent;
        uint64_t found = find(job, 5, starts, 1, facts, 2, buffer, PLANREADER_BUFFER_WORDS);
        if (found != ((uint64_t)1 << 24 | 1) || buffer[0] != 0xb0000001u) return lent;
    }
    return NULL;
}

static void several_threads(void)
{
    static uint32_t buffers[THREADS][PLANREADER_BUFFER_WORDS];
    pthread_t threads[THREADS];
    void *wrong = NULL;
    for (int i = 0; i < THREADS; i++)
        if (pthread_create(&threads[i], NULL, call_often, buffers[i])) exit(2);
    for (int i = 0; i < THREADS; i++) {
        pthread_join(threads[i], &wrong);
        if (wrong) printf("another answer on thread %d\n", i), faults++;
    }
}

/* A largest plan: all fluents true from the start and known at all 64 moments; 64 actions of duration 1, each with as
 * many laws (needs, then makes, all true, so that nothing clashes), which between them name every fluent; every action
 * starts at every moment but the last. The least buffer has as many words as the plan has facts. */
struct width {
    const char *name;
    uint32_t head, formula, one_moment; /* of the plan, of its test, and of the chain below */
    unsigned fluents, laws, role, stride;
    size_t known;
};
static const struct width widths[] = {
    {"", 0x1040403fu, 0x50000000u, 0x10010100u, 64, 29, 6, 3, 4096},
    {", a wide job", 0x1100403fu, 0x510000ffu, 0x11010100u, 256, 26, 8, 19, 16384},
};
static const struct width *width;

enum { STARTS = 64 * 63 };
static uint32_t large_job[PLANREADER_JOB_WORDS], large_starts[STARTS], large_facts[16384], large_buffer[16384];
static size_t large_words;
static planreader_trial trial;

static void put_action(uint32_t a)
{
    large_job[large_words++] = 0x30000001u | a << 6;
    for (uint32_t i = 0; i < width->laws; i++) {
        uint32_t fluent = (a * (width->fluents / 64) + i * width->stride) % width->fluents;
        large_job[large_words++] = 0x40000000u | (i < 12 ? 0u : 2u) << width->role | fluent;
    }
}

static void make_plan(void)
{
    large_words = 0;
    large_job[large_words++] = width->head;
    for (uint32_t f = 0; f < width->fluents; f++) large_job[large_words++] = 0x20000000u | f;
    for (uint32_t a = 0; a < 64; a++) put_action(a);
    large_job[large_words++] = width->formula;
    large_job[large_words++] = 0x61000000u;
    for (uint32_t i = 0; i < STARTS; i++) large_starts[i] = 0x90000000u | i;
}

/* A task set of four members in a chain of 59 task sets of one member each, n = 0, so that writing the reading and
 * placing the members go as deep as they can. */
static void find_deep(void)
{
    uint32_t chain[12 + 59 * 2] = {width->one_moment, 0x30000001u, 0x50000000u, 0x61000000u, 0x61000000u, 0x61000000u,
                                   0x61000000u, 0x68000000u, 0x70000000u, 0x70000001u, 0x70000002u, 0x70000003u};
    for (uint32_t p = 5; p < 64; p++) {
        chain[2 + p * 2] = 0x68000000u;
        chain[3 + p * 2] = 0x70000000u | (p - 1);
    }
    expect("find, deep", find(chain, 130, NULL, 0, NULL, 0, large_buffer, PLANREADER_BUFFER_WORDS), 0, 0, 64, 64);
}

/* The calls on a largest plan, one after the other: each goes on from what those before it have left. */
static void large_fill(void)
{
    expect("fill, large", fill(large_job, large_words, large_starts, STARTS, large_facts, width->known), 0, 0,
           (unsigned)width->known, 0);
    for (uint32_t i = 0; i < width->known; i++) large_buffer[i] = 0xa0000000u + 2 * i;
    same("fill, large", large_facts, large_buffer, width->known);
}

static void large_check(void)
{
    unsigned last = (unsigned)width->known - 1;
    expect("check, large", check(large_job, large_words, large_starts, STARTS, large_facts, width->known), 0, 0, 0, 0);
    expect("check, large, the last fact missing",
           check(large_job, large_words, large_starts, STARTS, large_facts, last), 11, last, 0, 0);
}

static void large_find(void)
{
    expect("find, large", find(large_job, large_words, large_starts, STARTS, large_facts, width->known, large_buffer,
                               PLANREADER_BUFFER_WORDS), 13, 0, 0, 64);
    find_deep();
}

/* The trial is the whole plan but for its last start. */
static void large_begin(void)
{
    expect("trial_begin, large", trial_begin(large_job, large_words, trial, PLANREADER_TRIAL_WORDS), 0, 0, 0, 0);
    trial[0] = 62;
    trial[1] = STARTS - 1;
    memcpy(trial + 2, large_starts, (STARTS - 1) * sizeof *trial);
}

static void large_start(void)
{
    expect("trial_start, large", trial_start(large_job, large_words, trial, PLANREADER_TRIAL_WORDS, 63), 0, 0, 0, 0);
    same("trial_start, large", planreader_trial_starts(trial), large_starts, STARTS);
}

static void large_on(void)
{
    expect("trial_on, large", trial_on(large_job, large_words, trial, PLANREADER_TRIAL_WORDS), 0, 0, 0, 0);
}

static void large_show(void)
{
    expect("trial_show, large", trial_show(large_job, large_words, trial, PLANREADER_TRIAL_WORDS, large_buffer,
                                           width->known), 0, 0, (unsigned)width->known, 0);
    same("trial_show, large", large_buffer, large_facts, width->known);
}

static const struct measured {
    const char *name;
    void (*calls)(void);
} measured[] = {{"fill", large_fill},         {"check", large_check},       {"find", large_find},
                {"trial_begin", large_begin}, {"trial_start", large_start}, {"trial_on", large_on},
                {"trial_show", large_show}};

static void *on_thread(void *which)
{
    ((const struct measured *)which)->calls();
    return NULL;
}

/* Runs a call on a painted stack. Returns how much of the paint is gone. */
static size_t measure(const struct measured *which)
{
    enum { SIZE = 1 << 20 };
    unsigned char *stack;
    pthread_attr_t attr;
    pthread_t thread;
    size_t left = 0;
    if (posix_memalign((void **)&stack, 4096, SIZE)) exit(2);
    memset(stack, 0xa5, SIZE);
    pthread_attr_init(&attr);
    if (pthread_attr_setstack(&attr, stack, SIZE)) exit(2);
    if (pthread_create(&thread, &attr, on_thread, (void *)(uintptr_t)which)) exit(2);
    pthread_join(thread, NULL);
    while (left < SIZE && stack[left] == 0xa5) left++;
    free(stack);
    return SIZE - left;
}

/* No call uses more stack on the largest plan of a width than the header says. */
static void measure_all(void)
{
    printf("stack used%s, of the header's %u bytes, with the thread's own:", width->name, PLANREADER_STACK);
    for (size_t i = 0; i < sizeof measured / sizeof *measured; i++) {
        size_t used = measure(&measured[i]);
        printf(" %s %zu", measured[i].name, used);
        if (used <= PLANREADER_STACK) continue;
        printf(" (more than the header says)");
        faults++;
    }
    printf("\n");
}

int main(void)
{
    empty_and_shared_lists();
    several_threads();
    for (width = widths; width < widths + 2; width++) {
        make_plan();
        measure_all();
    }
    printf("c host: %s\n", faults ? "FAILED" : "ok");
    return faults != 0;
}
