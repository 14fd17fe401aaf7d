#include "input.h"
#include <string.h>

static size_t least(size_t a, size_t b) { return a < b ? a : b; }

/* Moves at most `wanted` words from the data to a list of at most `most`, and returns their number. */
static size_t take(uint32_t *to, size_t wanted, size_t most, const uint8_t **data, size_t *left)
{
    size_t len = least(least(wanted, most), *left);
    if (len) memcpy(to, *data, len * sizeof *to);
    *data += len * sizeof *to;
    *left -= len;
    return len;
}

void input_decode(struct input *in, const uint8_t *data, size_t size)
{
    uint32_t control = 0;
    size_t left = size / sizeof control;
    const uint8_t *bytes = data + left * sizeof control;
    take(&control, 1, 1, &data, &left);
    in->choices = control & CHOICES;
    in->job_len = take(in->job, field(control, 19, 8), JOB_MOST, &data, &left);
    in->starts_len = take(in->starts, field(control, 31, 20), STARTS_MOST, &data, &left);
    in->facts_len = take(in->facts, left, FACTS_MOST, &data, &left);
    size_t rest = size % sizeof control;
    in->moment = rest > 0 ? bytes[0] : 0;
    in->action = rest > 1 ? bytes[1] : 0;
    in->odd = rest > 2 ? bytes[2] : 0;
}

/* Writes words to the data from byte `at` on, so far as they fit, and returns the byte after them. */
static size_t put(uint8_t *data, size_t at, size_t most, const uint32_t *from, size_t len)
{
    size_t words = least(len, (most - at) / sizeof *from);
    if (words) memcpy(data + at, from, words * sizeof *from);
    return at + words * sizeof *from;
}

size_t input_encode(const struct input *in, uint8_t *data, size_t most)
{
    uint32_t control = in->choices | (uint32_t)in->job_len << 8 | (uint32_t)in->starts_len << 20;
    size_t at = put(data, 0, most, &control, 1);
    at = put(data, at, most, in->job, in->job_len);
    at = put(data, at, most, in->starts, in->starts_len);
    at = put(data, at, most, in->facts, in->facts_len);
    const uint8_t bytes[] = {in->moment, in->action, in->odd};
    for (size_t i = 0; i < sizeof bytes && at < most; i++) data[at++] = bytes[i];
    return at;
}

size_t buffer_words(uint32_t choices, uint32_t head)
{
    static const uint16_t narrow[16] = {4096, 0,    1,    64,   2048, 4032, 4094,  4095,
                                        4097, 4098, 4160, 4200, 4500, 4999, 16384, BUFFER_MOST};
    static const uint16_t wide[16] = {16384, 0,    1,     64,    4094,  4095,  4096,  4097,
                                      5000,  8192, 12288, 16382, 16383, 16385, 16386, BUFFER_MOST};
    return is_wide(head) ? wide[choices & 15u] : narrow[choices & 15u];
}

size_t trial_words(uint8_t odd)
{
    static const uint16_t lengths[8] = {4098, 4098, 4098, 4098, 4099, 5000, 4097, 0};
    return lengths[odd & 7u];
}

uint32_t trial_count(uint8_t odd, size_t starts)
{
    switch (odd >> 3 & 7u) {
    case 5: return (uint32_t)starts + 1;
    case 6: return 4096;
    case 7: return starts % 2 ? 4097 : 0xffffffffu;
    default: return (uint32_t)starts;
    }
}
