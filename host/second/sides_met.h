/* Values at, next to and beyond both ends of what an item can have. */
#ifndef SIDES_MET_H
#define SIDES_MET_H

#include "calls.h"
#include "counts.h"

/* What the last call, which gave this outcome, has told against the rules on the
 * side at which an item misses its range; NULL if nothing. It is read from the
 * call's bytes alone, so that a slip which both sides have is seen as well. */
const char *side_breach(const struct call *call, const struct outcome *outcome);

/* Counts what the last call has met. */
void count_sides(struct counts *counts, const struct call *call, const struct outcome *outcome);

#endif
