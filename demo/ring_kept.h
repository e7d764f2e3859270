/* A ring that outlasts a power cut, by cedarskein.h, "A power cut": its records lie once in memory which outlasts a cut, its two words twice. */
#ifndef RING_KEPT_H
#define RING_KEPT_H

#include "last_good.h"

#define HEAD_SIZE 4
#define KEPT_HEADS (2 * (HEAD_SIZE + CHECK_SIZE))

/* The ring at work, a sheet that has a record area, and where the ring is kept: its records in ring_n - HEAD_SIZE bytes, both copies of its two
   words in KEPT_HEADS. A ring may lie in lasting memory itself, where that can be lent like any other: the two functions of records are then NULL. */
struct kept_ring {
    const uint8_t *sheet;
    size_t sheet_n;
    uint8_t *ring;
    size_t ring_n;
    struct lasting records, heads;
};

/* After each cedarskein_add_record that answered 0, before a frame is answered: writes the newest record, and then each copy of the two words that
   differs from them, never the only good one first. Hands back 0 where all was stored. Where it was not, call it again before anything more is
   added. */
int keep_newest(const struct kept_ring *kept);

/* The same with all records: of a new ring, of one that was made empty, and where more was added after a store that failed. */
int keep_whole_ring(const struct kept_ring *kept);

enum restored_ring {
    RING_RESTORED,    /* as it was kept, and in both copies */
    RING_IN_ONE_COPY, /* as it was kept, but the other copy could not be written: keep_newest, before anything is added */
    RING_LOST,        /* no copy is good: the ring is empty, nothing is written, and keep_whole_ring begins a new history */
    RING_UNREAD       /* it could not be loaded, and may be good all the same: nothing is written, and the two words are as they were */
};

/* At start-up: loads the records, puts a good copy into the two words, and writes the other one anew where it differs. With RING_UNREAD try again;
   until it is restored add nothing, and make the two words 0 where frames must be answered. */
enum restored_ring restore_ring(const struct kept_ring *kept);

#endif
