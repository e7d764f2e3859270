/* A bank of the AS-WE 40 from before version 3.2, carried over to the sheet with the presets: cedarskein.h, "A board from before version 3.2". */
#ifndef CARRIED_H
#define CARRIED_H

#include "cedarskein.h"

#define OLD_ASWE_40_BANK_SIZE 78

/* Takes the sheet of the AS-WE 40 and a bank of the old one, and fills a bank of the new one: settings, readings and mark as they were, the presets
   at their low bounds. Gives back 0, else 2 or 3, with the new bank as it was, or 4: all is carried over, but the bank is not sound, as with a station
   of 0 or 248 to 255 ("Stations"). The old bank is only read. */
uint32_t carry_over(const uint8_t *sheet, size_t sheet_n, const uint8_t old[OLD_ASWE_40_BANK_SIZE], uint8_t *bank, size_t bank_n);

#endif
