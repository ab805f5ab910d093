/* Random numbers for what is generated: a seed gives the same on every machine. */
#ifndef RANDOM_H
#define RANDOM_H

#include <stdbool.h>
#include <stddef.h>
#include <stdint.h>

/* It starts as the seed. */
struct random {
    uint64_t state;
};

/* Steele, Lea and Flood's SplitMix64. */
static inline uint32_t draw(struct random *random) {
    uint64_t z = random->state += UINT64_C(0x9E3779B97F4A7C15);
    z = (z ^ z >> 30) * UINT64_C(0xBF58476D1CE4E5B9);
    z = (z ^ z >> 27) * UINT64_C(0x94D049BB133111EB);
    return (uint32_t)((z ^ z >> 31) >> 32);
}

static inline uint32_t below(struct random *random, uint32_t limit) {
    return (uint32_t)((uint64_t)draw(random) * limit >> 32);
}

static inline bool chance(struct random *random, uint32_t percent) {
    return below(random, 100) < percent;
}

static inline void fill(struct random *random, uint8_t *bytes, size_t count) {
    for (size_t i = 0; i < count; i++)
        bytes[i] = (uint8_t)draw(random);
}

#define PICK(random, row) ((row)[below(random, sizeof(row) / sizeof *(row))])

#endif
