/* Memory lent to a call, between two canaries. */
#ifndef LENT_H
#define LENT_H

#include <stdbool.h>
#include <stddef.h>
#include <stdint.h>

/* The room of the largest ring, and some more. */
enum { LENT_CANARY = 32, LENT_ROOM = 620800 };

struct lent {
    uint64_t store[(2 * LENT_CANARY + LENT_ROOM + 16) / 8];
    size_t front;   /* bytes of the store before the lent ones */
    size_t n;
    uint8_t *at;    /* null for an empty slice, if so asked */
};

/* Lends a copy of n bytes at an address that is offset (0 to 7) above a
 * multiple of eight. */
void lend(struct lent *lent, const uint8_t *bytes, size_t n, unsigned offset, bool null);

/* Ends the loan; false if a canary was changed. */
bool lent_back(struct lent *lent);

/* The lent bytes, also where the slice was given as null. */
const uint8_t *lent_bytes(const struct lent *lent);

#endif
