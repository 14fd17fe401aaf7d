/* A CAM host in C: reads a job and a plan, passes them to fill, check and find, and says the answers in words.
 * From the root of the package:
 *
 *     cc -std=c11 -Iinclude examples/host.c lib/libplanreader.a -o host && ./host examples/door/job.w32 examples/door/plan.w32
 *
 * Exit status: 0 for a reading, 1 for a refusal, 2 for files that can't be used. */
#include "common.h"

/* Static: the calls ask for initialised words, and this also keeps the lists off the stack. */
static struct list job, plan;
static uint32_t facts[PLANREADER_WIDE_BUFFER_WORDS], reading[PLANREADER_BUFFER_WORDS];

/* How many of the plan's words are starts: the leading ones of kind 9. The others are facts. */
static size_t count_starts(void)
{
    size_t starts = 0;
    while (starts < plan.length && planreader_kind(plan.words[starts]) == PLANREADER_KIND_START) starts++;
    return starts;
}

/* Whether the answer is a refusal; if so, says it. */
static int refused(const char *call, uint64_t answer)
{
    unsigned number = planreader_number(answer);
    if (number == PLANREADER_ACCEPTED) return 0;
    printf("%s: refused %u at %u: %s\n", call, number, planreader_position(answer), meaning(answer, &job));
    return 1;
}

/* The job's word for a node: nodes are the words of kind 6, numbered from 0. A reading names only nodes of its job. */
static uint32_t node_word(unsigned node)
{
    size_t i = 0;
    while (planreader_kind(job.words[i]) != PLANREADER_KIND_NODE || node-- > 0) i++;
    return job.words[i];
}

/* Says one word of a reading; for an act also the number of its action. */
static void print_word(uint32_t word)
{
    static const char *const forms[] = {"act", "test", "sequence", "choice", "if", "while", "start window", "end window", "task set"};
    unsigned node = planreader_reading_node(word);
    unsigned form = planreader_form(node_word(node));
    printf("from %2u to %2u: node %u, %s", planreader_reading_begin(word), planreader_reading_end(word), node, forms[form]);
    if (form == PLANREADER_ACT) printf(" %u", planreader_node_x(node_word(node)));
    printf("\n");
}

/* Finds how the plan carries out the job's procedure, and says it. */
static int print_reading(size_t starts, const uint32_t *known, size_t known_length)
{
    uint64_t found = find(job.words, job.length, plan.words, starts, known, known_length, reading, PLANREADER_BUFFER_WORDS);
    if (refused("find", found)) {
        printf("find: %u triples\n", planreader_count(found));
        return 1;
    }
    printf("find: %u words, %u triples\n", planreader_length(found), planreader_count(found));
    for (unsigned i = 0; i < planreader_length(found); i++) print_word(reading[i]);
    return 0;
}

int main(int argc, char **argv)
{
    if (argc != 3) {
        fprintf(stderr, "use: host JOB.w32 PLAN.w32, files of whole words of at most 32 KiB\n");
        return 2;
    }
    if (!read_lists("host", argv + 1, &job, &plan)) return 2;
    size_t starts = count_starts();
    uint64_t filled = fill(job.words, job.length, plan.words, starts, facts, PLANREADER_WIDE_BUFFER_WORDS); /* so many serve every job */
    if (refused("fill", filled)) return 1;
    printf("fill: %u facts\n", planreader_length(filled));

    /* The plan's own facts, or where it lists none those of fill. */
    int listed = starts < plan.length;
    const uint32_t *known = listed ? plan.words + starts : facts;
    size_t known_length = listed ? plan.length - starts : planreader_length(filled);

    uint64_t checked = check(job.words, job.length, plan.words, starts, known, known_length);
    if (refused("check", checked)) return 1;
    printf("check: lawful\n");
    return print_reading(starts, known, known_length);
}
