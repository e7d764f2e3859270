/* The readings of the simulated meter: a flow that rises and falls slowly. */
#ifndef READINGS_H
#define READINGS_H

#include <stdint.h>

#include "memory.h"

struct readings {
    unsigned second;
    /* What had flowed before the trip began, in 0.01 m3, and what has since, in 3600ths of that: the sum of each second's flow. */
    uint64_t before_trip, flowed;
    /* The total in the newest record of the history, in 0.1 m3. */
    uint64_t recorded;
};

/* The readings go on from the totals in the meter's bank, or in its history; a fresh bank has none, an empty ring neither, and they begin anew. */
struct readings begin_readings(const struct meter *meter);

/* Lets one second pass, and posts what the meter then reads into its access 1 areas. */
void post_next_second(struct readings *readings, struct meter *meter);

/* What the meter reads at a second, in 0.01 m3/h and in 0.1 degrees, and what has flowed in all, in 0.01 m3. */
unsigned flow_at(unsigned second);
unsigned temperature_at(unsigned second);
uint64_t total_volume(const struct readings *readings);

#endif
