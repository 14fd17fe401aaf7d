/* What libFuzzer and replay.c call: one input in, abort on a violation; and the mutator. */
#ifndef HARNESS_H
#define HARNESS_H
#include "input.h"

int LLVMFuzzerTestOneInput(const uint8_t *data, size_t size);
size_t LLVMFuzzerCustomMutator(uint8_t *data, size_t size, size_t most, unsigned int seed);

/* The trial calls on one input. The job is lent, locked; `refusal` is fill's refusal of the job, or 0. */
void examine_trials(struct list job, uint64_t refusal, struct list starts, const struct input *in);
#endif
