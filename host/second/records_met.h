/* Records and rings, held to what their bytes say. */
#ifndef RECORDS_MET_H
#define RECORDS_MET_H

#include "calls.h"
#include "counts.h"

/* What the last call, which gave this outcome, has done against the rules on
 * record areas, rings and records; NULL if nothing. It is read from the call's
 * bytes alone, so that a slip which both sides have is seen as well. */
const char *record_breach(const struct call *call, const struct outcome *outcome);

/* Counts what the last call has met. */
void count_records(struct counts *counts, const struct call *call,
                   const struct outcome *outcome);

/* How many records a ring says that it has; 0 if it is too short to say. */
uint32_t stored_in(const uint8_t *ring, size_t ring_n);

/* Whether the call's frame starts at the address of a record. */
bool starts_at_record(const struct call *call);

/* A list of records by their age, which begins with what the call's ring holds.
 * A record that the last call added comes behind the others, and none is ever
 * taken out; NULL if the call did what the list says. Counts what was met. */
void list_begin(const struct call *call);
const char *list_follow(struct counts *counts, const struct call *call,
                        const struct outcome *outcome);

#endif
