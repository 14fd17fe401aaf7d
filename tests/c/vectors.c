/* Makes every call of the listings named on the command line, those of tests/vectors, through the header, on lent words
 * with guard words on both sides. Compares the number, position, length and count of each answer, and every word of the
 * lent lists. Prints each difference, then how many calls there were, and exits with 0 only if there were calls and no
 * differences. tests/vectors/README.md says what a listing is. */
#include "planreader.h"
#include <stdio.h>
#include <stdlib.h>
#include <string.h>

enum { MOST = 100000, GUARD = 64, WHOLE = GUARD + MOST + GUARD, LINE = 1 << 17 };

/* The words of a list, as a line gives them. */
struct words {
    uint32_t word[MOST];
    size_t count;
};

/* The memory that is lent to a call for a list, between guard words, and what it held before the call. */
struct lent {
    uint32_t all[WHOLE], before[WHOLE];
    size_t length;
};

enum list { JOB, STARTS, FACTS, TRIAL, BUFFER, LISTS };
static const char *const list_names[] = {"job", "starts", "facts", "trial", "buffer"};
enum call { CHECK, FILL, FIND, BEGIN, START, ON, SHOW, CALLS };
static const char *const call_names[] = {"check",       "fill",     "find",      "trial_begin",
                                         "trial_start", "trial_on", "trial_show"};

static struct words given[LISTS], expected; /* expected: what the call writes; nothing is given for the buffer */
static struct lent lent[LISTS];
static size_t buffer_length, trial_length;
static uint32_t action;

static uint64_t answer; /* of the last call */
static int unread; /* the last find has written a reading that no line has given so far */

static const char *file, *why; /* where the pass is, and the line of why of the case */
static unsigned line_number, calls, cases, differences;

static void differs(const char *what, size_t at)
{
    printf("%s:%u: %s: %s %zu\n", file, line_number, why, what, at);
    differences++;
}

static void compare(const char *what, unsigned is, unsigned should_be)
{
    if (is == should_be) return;
    printf("%s:%u: %s: the %s is %u, not %u\n", file, line_number, why, what, is, should_be);
    differences++;
}

static void no_listing(const char *what)
{
    printf("%s:%u: %s\n", file, line_number, what);
    exit(2);
}

/* If the text begins with the word, returns what follows it and its blank; otherwise NULL. */
static const char *after(const char *text, const char *word)
{
    size_t length = strlen(word);
    if (strncmp(text, word, length) != 0 || (text[length] != ' ' && text[length] != '\0')) return NULL;
    return text + length + (text[length] == ' ');
}

/* Reads a number to its end, and returns what follows it and its blank. */
static const char *take_number(const char *text, int base, unsigned *number)
{
    char *end;
    *number = (unsigned)strtoul(text, &end, base);
    if (end == text || (*end != ' ' && *end != '\0')) no_listing("no number");
    return end + (*end == ' ');
}

/* If the text begins with the word, reads the number after it, and returns what follows. */
static const char *take_named(const char *text, const char *word, unsigned *number)
{
    const char *rest = after(text, word);
    return rest ? take_number(rest, 10, number) : text;
}

static void append(struct words *list, uint32_t word, uint32_t step, unsigned long times)
{
    if (times > MOST - list->count) no_listing("too many words");
    for (; times; times--, word += step) list->word[list->count++] = word;
}

/* Reads words to the end of the line: W, W*N or W+S*N. */
static void take_words(const char *text, struct words *list)
{
    char *end;
    list->count = 0;
    for (; *text; text = end + (*end == ' ')) {
        unsigned long word = strtoul(text, &end, 16), step = 0, times = 1;
        int stepped = *end == '+';
        if (end == text || word > UINT32_MAX) no_listing("no word");
        if (stepped) step = strtoul(end + 1, &end, 16);
        if (stepped && *end != '*') no_listing("a step without a number of words");
        if (*end == '*') times = strtoul(end + 1, &end, 10);
        if (*end != ' ' && *end != '\0') no_listing("no word");
        append(list, (uint32_t)word, (uint32_t)step, times);
    }
}

/* Lends so many words: those of the list first, then noise. An empty list is lent as NULL. */
static uint32_t *lend(enum list list, size_t length)
{
    struct lent *room = &lent[list];
    size_t count = given[list].count < length ? given[list].count : length;
    if (length > MOST) no_listing("too many words are lent");
    for (uint32_t i = 0; i < GUARD + length + GUARD; i++) room->all[i] = 0x5eed0000u + 7u * i;
    memcpy(room->all + GUARD, given[list].word, count * sizeof *room->all);
    memcpy(room->before, room->all, (GUARD + length + GUARD) * sizeof *room->all);
    room->length = length;
    return length ? room->all + GUARD : NULL;
}

static uint64_t make(enum call call)
{
    const uint32_t *job = lend(JOB, given[JOB].count), *starts = lend(STARTS, given[STARTS].count);
    const uint32_t *facts = lend(FACTS, given[FACTS].count);
    uint32_t *trial = lend(TRIAL, trial_length), *buffer = lend(BUFFER, buffer_length);
    size_t jobs = given[JOB].count, all_starts = given[STARTS].count, all_facts = given[FACTS].count;
    switch (call) {
    case CHECK: return check(job, jobs, starts, all_starts, facts, all_facts);
    case FILL: return fill(job, jobs, starts, all_starts, buffer, buffer_length);
    case FIND: return find(job, jobs, starts, all_starts, facts, all_facts, buffer, buffer_length);
    case BEGIN: return trial_begin(job, jobs, trial, trial_length);
    case START: return trial_start(job, jobs, trial, trial_length, action);
    case ON: return trial_on(job, jobs, trial, trial_length);
    default: return trial_show(job, jobs, trial, trial_length, buffer, buffer_length);
    }
}

/* Compares a list and its guard words with what they were, but for the first words of the list. */
static void compare_rest(enum list list, size_t first)
{
    const struct lent *room = &lent[list];
    for (size_t i = 0; i < GUARD + room->length + GUARD; i++) {
        if (room->all[i] == room->before[i] || (i >= GUARD && i < GUARD + first)) continue;
        printf("%s:%u: %s: a word of the %s or beside it is changed: ", file, line_number, why, list_names[list]);
        printf("%08x at %ld\n", (unsigned)room->all[i], (long)i - GUARD);
        differences++;
        return;
    }
}

/* Returns the index of the first word of a list that is not the expected one, or the number of expected words. */
static size_t expected_until(enum list list)
{
    size_t i = 0;
    while (i < expected.count && i < lent[list].length && lent[list].all[GUARD + i] == expected.word[i]) i++;
    return i;
}

/* Whether the last find has written the expected reading. */
static int is_expected_reading(void)
{
    return planreader_length(answer) == expected.count && expected_until(BUFFER) == expected.count;
}

/* Compares what a call has written with the expected words, and all other words with what they were. */
static void compare_words(enum call call, int any_reading)
{
    int written = call == BEGIN || call == START || call == ON ? TRIAL : BUFFER;
    size_t first = call == FIND ? planreader_length(answer) : expected.count;
    if (call == FIND)
        unread = !any_reading && !is_expected_reading();
    else if (expected_until((enum list)written) < expected.count)
        differs("another word is written at", expected_until((enum list)written));
    if (first > lent[written].length) differs("the length goes beyond the buffer:", first), first = 0;
    for (int list = 0; list < LISTS; list++) compare_rest((enum list)list, list == written ? first : 0);
}

/* Makes a call and compares its answer with the line's. Readings of a find may have several lengths, but none is 0. */
static void take_call(enum call call, const char *rest)
{
    unsigned number, position = 0, count = 0;
    rest = take_number(rest, 10, &number);
    rest = take_named(rest, "at", &position);
    rest = take_named(rest, "count", &count);
    const char *writes = after(rest, "writes");
    if (*rest && !writes) no_listing("no answer");
    take_words(writes ? writes : "", &expected);
    answer = make(call);
    calls++;
    compare("number", planreader_number(answer), number);
    compare("position", planreader_position(answer), position);
    compare("count", planreader_count(answer), count);
    int has_length = call == FILL || call == FIND || call == SHOW, has_reading = call == FIND && number == 0;
    if (!has_reading) compare("length", planreader_length(answer), has_length ? (unsigned)expected.count : 0);
    if (has_reading && planreader_length(answer) == 0) differs("the reading's length is", 0);
    compare_words(call, has_reading && !writes);
}

/* Says so if the last find has written a reading that none of its lines has given. */
static void end_readings(void)
{
    if (unread) differs("the reading is none of those above; its words are", planreader_length(answer));
    unread = 0;
}

/* Sets a list or a number, if the line says so. */
static int take_setting(const char *line)
{
    unsigned number;
    const char *rest;
    for (int list = JOB; list < BUFFER; list++)
        if ((rest = after(line, list_names[list]))) return take_words(rest, &given[list]), 1;
    if ((rest = after(line, "action"))) return take_number(rest, 16, &action), 1;
    if ((rest = after(line, "buffer"))) return take_number(rest, 10, &number), buffer_length = number, 1;
    if ((rest = after(line, "length"))) return take_number(rest, 10, &number), trial_length = number, 1;
    return 0;
}

static void take_line(const char *line)
{
    static char name[LINE];
    const char *rest = after(line, "or");
    if (rest) {
        take_words(rest, &expected);
        if (is_expected_reading()) unread = 0;
        return;
    }
    end_readings();
    if (*line == '#' || *line == '\0' || take_setting(line)) return;
    if ((rest = after(line, "case"))) {
        cases++;
        why = strcpy(name, rest);
        return;
    }
    int call = 0;
    while (call < CALLS && !(rest = after(line, call_names[call]))) call++;
    if (call == CALLS) no_listing("no line of a listing");
    take_call((enum call)call, rest);
}

/* At the top of a listing nothing is set. */
static void take_file(const char *path)
{
    static char line[LINE];
    FILE *listing = fopen(path, "r");
    file = path, why = "", line_number = 0, action = 0, buffer_length = 4096, trial_length = 4098;
    for (int list = 0; list < LISTS; list++) given[list].count = 0;
    if (!listing) no_listing("can't be read");
    while (line_number++, fgets(line, LINE, listing)) {
        size_t length = strcspn(line, "\n");
        if (line[length] != '\n') no_listing("a line that is too long, or has no end");
        line[length] = '\0';
        take_line(line);
    }
    end_readings();
    fclose(listing);
}

int main(int argc, char **argv)
{
    for (int i = 1; i < argc; i++) take_file(argv[i]);
    printf("%u calls of %u cases, %u differences\n", calls, cases, differences);
    return differences != 0 || calls == 0;
}
