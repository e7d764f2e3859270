/* Rings made for the comparison. */
#ifndef RINGS_MADE_H
#define RINGS_MADE_H

#include "sheets_made.h"

/* The largest ring, and what a spoiled one may have more. */
enum { RING_ROOM = 4 + 2 * RECORDS_MOST * RECORD_WORDS_MOST + 200 };

/* The bytes of a ring of the sheet; 0 where it has no record area. */
size_t made_ring_size(const struct made *made);

/* A ring that is not refused: empty, partly full, full, wrapped, or one that
 * adding never makes. The records are noise, stored or not. */
void make_ring(const struct made *made, uint8_t *ring);

/* Makes a ring one that is refused, in one of the ways there are; hands back
 * how many bytes it has then. */
size_t spoil_ring(const struct made *made, uint8_t *ring);

#endif
