/* Makes a plan file: reads a job and starts, and writes the starts and after them the facts that follow from them, by fill.
 * The package has it as bin/makeplan. From its root:
 *
 *     cc -std=c11 -Iinclude examples/makeplan.c lib/libplanreader.a -o makeplan
 *     ./makeplan examples/door/job.w32 examples/door/starts.w32 plan.w32
 *
 * Exit status: 0 if the plan was written, 1 for a refusal, 2 for files that can't be used, or a plan that is too long for one. After a refusal,
 * and for a plan that is too long, no file is written, and one of that name stays as it was. */
#include "explain.h"

static struct list job, starts;
static uint32_t facts[PLANREADER_WIDE_BUFFER_WORDS]; /* so many serve every job */

/* Says a refusal: the file concerned, the number and position, what it means, and more of what stands there. */
static void say_refusal(const char *job_path, const char *starts_path, uint64_t answer)
{
    unsigned number = planreader_number(answer), position = planreader_position(answer);
    int of_start = number >= PLANREADER_START_WORD;
    fprintf(stderr, "makeplan: %s: refused %u at %u: %s\n", of_start ? starts_path : job_path, number, position, meaning(answer, &job));
    if (of_start) explain_start(stderr, &job, &starts, number, position);
    else explain_job(stderr, &job, job_path, number, position);
}

/* Says that no plan was written, and that one that is there is of an earlier run. */
static void say_not_written(const char *path)
{
    FILE *file = fopen(path, "rb");
    fprintf(stderr, "makeplan: %s not written%s\n", path, file == NULL ? "" : "; the file of that name is an older one");
    if (file != NULL) fclose(file);
}

/* Writes words to a file, each as four bytes, lowest first. 0 if it fails. */
static int put_words(FILE *file, const uint32_t *words, size_t length)
{
    for (size_t i = 0; i < length; i++)
        for (unsigned shift = 0; shift < 32; shift += 8)
            if (putc((int)(words[i] >> shift & 255), file) == EOF) return 0;
    return 1;
}

/* Writes the plan: the starts, then the first of the facts. 0 if it fails. */
static int write_plan(const char *path, size_t facts_length)
{
    FILE *file = fopen(path, "wb");
    if (file == NULL) return 0;
    int good = put_words(file, starts.words, starts.length) && put_words(file, facts, facts_length);
    return fclose(file) == 0 && good;
}

int main(int argc, char **argv)
{
    if (argc != 4) {
        fprintf(stderr, "use: makeplan JOB.w32 STARTS.w32 PLAN.w32: writes PLAN.w32, the starts and the facts that follow from them\n");
        return 2;
    }
    if (!read_lists("makeplan", argv + 1, &job, &starts)) {
        say_not_written(argv[3]);
        return 2;
    }
    uint64_t filled = fill(job.words, job.length, starts.words, starts.length, facts, PLANREADER_WIDE_BUFFER_WORDS);
    if (planreader_number(filled) != PLANREADER_ACCEPTED) {
        say_refusal(argv[1], argv[2], filled);
        say_not_written(argv[3]);
        return 1;
    }
    /* At most 4,032 lawful starts and 4,096 facts are never above the 32 KiB that planread takes, but a wide job may have 16,384 facts. */
    if (starts.length + planreader_length(filled) > FILE_WORDS) {
        fprintf(stderr, "makeplan: %zu starts and %u facts are more than the %u words of a plan file\n", starts.length,
                planreader_length(filled), FILE_WORDS);
        say_not_written(argv[3]);
        return 2;
    }
    if (!write_plan(argv[3], planreader_length(filled))) {
        fprintf(stderr, "makeplan: %s can't be written\n", argv[3]);
        return 2;
    }
    printf("%s: %zu starts, %u facts\n", argv[3], starts.length, planreader_length(filled));
    return 0;
}
