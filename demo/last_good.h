/* The last good copy of cedarskein.h, "A power cut": a bank that is kept twice in memory which outlasts a cut. */
#ifndef LAST_GOOD_H
#define LAST_GOOD_H

#include "cedarskein.h"

#define CHECK_SIZE 2

/* Memory that outlasts a cut, from byte 0 on. Each function hands back 0 where all the bytes were loaded or stored. */
struct lasting {
    int (*load)(void *memory, size_t at, uint8_t *bytes, size_t n);
    int (*store)(void *memory, size_t at, const uint8_t *bytes, size_t n);
    void *memory;
};

/* The bank at work, which lies in plain memory, its sheet, and where its copies are. */
struct kept_bank {
    const uint8_t *sheet;
    size_t sheet_n;
    uint8_t *bank;
    size_t bank_n;
    struct lasting lasting;
};

enum restored { FROM_FIRST_COPY, FROM_SECOND_COPY, NO_GOOD_COPY };

/* The bytes of lasting memory that both copies take. */
size_t kept_size(size_t bank_n);

/* After each call that answered 0, before a reply is sent: writes both copies where an item or the mark differs from the first, or an earlier
   write failed. Hands back 0 where both are as they should be. */
int keep_settings(const struct kept_bank *kept);

/* Once an hour, and before the meter is switched off: writes both copies, so that the readings are kept too. */
int keep_readings(const struct kept_bank *kept);

/* At start-up: puts a good copy into the bank, and writes the other one anew where it differs. With NO_GOOD_COPY nothing is written:
   cedarskein_bank_fresh and keep_readings are then the last resort. */
enum restored restore_bank(const struct kept_bank *kept);

#endif
