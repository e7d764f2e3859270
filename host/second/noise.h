/* A small seeded source of numbers, the same on every machine. */
#ifndef NOISE_H
#define NOISE_H

#include <stdbool.h>
#include <stddef.h>
#include <stdint.h>

void noise_seed(uint64_t seed);
uint64_t noise(void);
uint32_t below(uint32_t limit);                 /* 0 to limit - 1, limit not 0 */
int64_t between(int64_t low, int64_t high);     /* low to high, both included */
bool chance(uint32_t percent);
void noise_fill(uint8_t *bytes, size_t n);

/* One of a list of numbers. */
uint32_t one_of(const uint32_t *list, uint32_t n);
#define ONE_OF(...) \
    one_of((const uint32_t[]){ __VA_ARGS__ }, \
           (uint32_t)(sizeof((const uint32_t[]){ __VA_ARGS__ }) / sizeof(uint32_t)))

#endif
