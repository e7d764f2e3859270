/* Stations at and beyond both ends of what a meter can have. */
#ifndef STATIONS_MET_H
#define STATIONS_MET_H

#include "calls.h"
#include "counts.h"
#include "sheets_made.h"

/* What the last call, which gave this outcome, has done against the rules on
 * stations; NULL if nothing. It is read from the call's bytes alone, so that a
 * slip which both sides have is seen as well. */
const char *station_breach(const struct call *call, const struct outcome *outcome);

/* Counts what the last call has met. */
void count_stations(struct counts *counts, const struct call *call,
                    const struct outcome *outcome);

#endif
