/* Banks from before an update of the library: of the AS-WE 40 without its presets, which it has since version 3.2, and at a station that no meter has
   since 1.3. cedarskein.h has both, under "A board from before version 3.2" and "Stations". */
#ifndef OLD_BANK_H
#define OLD_BANK_H

#include "last_good.h"
#include "memory.h"

/* The characters of a reason, and of the part of it that is about a station. */
enum { WHY_ROOM = 400, STATION_ROOM = 200 };

/* Whether the station is all that is wrong with a bank that is not sound. Its settings need not be lost, so it is not called spoiled: then it says why
   the bank is refused, and what helps. */
int is_at_bad_station(const struct meter *meter, const uint8_t *bank, char why[STATION_ROOM]);

/* Whether a meter is an AS-WE 40, and so many bytes are as many as a bank of it had before version 3.2; or a file that kept one, with both its copies and
   their check values. */
int is_old_bank_size(const struct meter *meter, size_t n);
int is_old_file_size(const struct meter *meter, size_t n);

/* Puts the bank of such bytes into the meter, carried over to its sheet. Hands back which copy it was, a bare bank being the first; with NO_GOOD_COPY
   the meter's bank is as it was, and it says why. */
enum restored carry_bytes_over(struct meter *meter, const uint8_t *bytes, size_t n, char why[WHY_ROOM]);

#endif
