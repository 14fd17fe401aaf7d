/* The seven calls as one: what each takes and may answer, and what every answer and every lent buffer owes. */
#ifndef CALLS_H
#define CALLS_H
#include "guard.h"

enum call { CHECK, FILL, FIND, TRIAL_BEGIN, TRIAL_START, TRIAL_ON, TRIAL_SHOW, CALLS };
enum { NUMBERS = 17 };

/* The call, and the lists that it only reads. A call takes no notice of what it has no parameter for. */
struct request {
    enum call call;
    struct list job, starts, facts, trial;
    uint32_t action;
};

extern const char *const call_names[CALLS];
extern const uint32_t call_numbers[CALLS]; /* the numbers that each call may answer, as a set of bits */
extern unsigned long calls_seen[CALLS][NUMBERS], calls_made;

/* Prints a violation by a call and aborts, unless the condition is met. */
void hold(bool met, enum call call, const char *what, uint64_t answer);

/* Makes the call, and holds its answer to what the header says of its fields. `out` is the buffer, or the trial of
 * trial_begin, trial_start and trial_on. */
uint64_t make_call(const struct request *request, uint32_t *out, size_t out_len);

/* Makes a call that writes to a buffer, twice, on different words in the buffer and at either end of its room: the
 * answers and the words written must be the same, and no other word may change. */
uint64_t write_call(const struct request *request, size_t len, uint32_t choices);

/* The words that the last write_call wrote, if this was its answer. */
struct list written(uint64_t answer);
#endif
