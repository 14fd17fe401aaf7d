/* Random numbers from a seed. */
#ifndef DICE_H
#define DICE_H
#include <stdbool.h>
#include <stdint.h>

struct dice {
    uint64_t state;
};

/* A number from 0 to sides - 1; 0 for no sides. */
static inline uint32_t roll(struct dice *dice, uint32_t sides)
{
    /* splitmix64 */
    uint64_t z = dice->state += UINT64_C(0x9e3779b97f4a7c15);
    z = (z ^ z >> 30) * UINT64_C(0xbf58476d1ce4e5b9);
    z = (z ^ z >> 27) * UINT64_C(0x94d049bb133111eb);
    return sides ? (uint32_t)((z ^ z >> 31) >> 32) % sides : 0;
}

/* True once in so many times. */
static inline bool chance(struct dice *dice, uint32_t one_in) { return roll(dice, one_in) == 0; }
#endif
