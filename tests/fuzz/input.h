/* An input of the fuzzer: 32-bit words in the machine's byte order, then three bytes. What is missing counts as 0.
 *
 *   word 0, control:  3..0  length of the buffer: see buffer_words
 *                     4     facts: the words given (0), or those that fill writes if it accepts the plan (1)
 *                     5     a list ends at an inaccessible page (0), or begins after one (1)
 *                     6     pointer of an empty list: NULL (0), or into an inaccessible page (1)
 *                     7     also call with the job in the place of every list
 *                     19..8 number of job words J; 31..20 number of start words S
 *   then J job words, S start words, and fact words to the end. A list that is cut short has the words that are there.
 *
 *   The three bytes describe a trial with these starts.
 *   byte 0            the trial's moment
 *   byte 1            the action to start
 *   byte 2            2..0 length of the trial's list: see trial_words; 5..3 its number of starts: see trial_count;
 *                     6    the action is higher by 2^16; 7 the moment is higher by 2^31
 */
#ifndef INPUT_H
#define INPUT_H
#include "word.h"

enum { JOB_MOST = 4095, STARTS_MOST = 4095, FACTS_MOST = 8192, BYTES_MOST = 16384, BUFFER_MOST = 16640 };
enum { FACTS_BY_FILL = 1u << 4, LISTS_BEGIN = 1u << 5, EMPTY_POINTS = 1u << 6, ONE_LIST = 1u << 7, CHOICES = 0xffu };
enum { ODD_ACTION = 1u << 6, ODD_MOMENT = 1u << 7 };

struct input {
    uint32_t choices; /* bits 7..0 of the control word */
    size_t job_len, starts_len, facts_len;
    uint32_t job[JOB_MOST], starts[STARTS_MOST], facts[FACTS_MOST];
    uint8_t moment, action, odd; /* the three bytes */
};

void input_decode(struct input *in, const uint8_t *data, size_t size);

/* Writes at most `most` bytes and returns their number. Words that do not fit are left out. */
size_t input_encode(const struct input *in, uint8_t *data, size_t most);

/* The buffer's length by the control word and the job's head: the one needed, a shorter or a longer one. */
size_t buffer_words(uint32_t choices, uint32_t head);

/* The length of the trial's list by byte 2: mostly 4,098, or a shorter or longer one. */
size_t trial_words(uint8_t odd);

/* What the trial says of its number of starts: mostly the right number, or one more, or about the most allowed. */
uint32_t trial_count(uint8_t odd, size_t starts);
#endif
