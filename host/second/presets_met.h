/* Registers that are only written, and the two versions of a sheet that know them or
 * do not, held to what their bytes say. A preset is a register of access 2 here. */
#ifndef PRESETS_MET_H
#define PRESETS_MET_H

#include "calls.h"
#include "counts.h"

/* What the last call, which gave this outcome, has done against the rules on
 * versions, accesses and presets, and on the items that a bank holds; NULL if
 * nothing. It is read from the call's bytes alone, so that a slip which both sides
 * have is seen as well. */
const char *preset_breach(const struct call *call, const struct outcome *outcome);

/* Counts what the last call has met. */
void count_presets(struct counts *counts, const struct call *call,
                   const struct outcome *outcome);

#endif
