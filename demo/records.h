/* The history of the simulated meter: a record every few seconds. */
#ifndef RECORDS_H
#define RECORDS_H

#include "readings.h"

/* Makes a record of the simulated flow, pressure, temperature and volume, and adds it to the meter's ring. Hands back 0 where it is there; else it says why not. */
int add_next_record(struct readings *readings, struct meter *meter);

/* The total volume in the newest record, in 0.01 m3; 0 where there is none. */
uint64_t total_recorded(const struct meter *meter);

#endif
