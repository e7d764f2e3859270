/* A bank of the AS-WE 40 from before version 3.2, carried over. */
#include "carried.h"

#include <string.h>

/* In both banks the settings in front of the presets lie first; behind the presets lie the other settings, the readings and the mark. */
enum { IN_FRONT = 40, PRESETS = 14, BEHIND = OLD_ASWE_40_BANK_SIZE - IN_FRONT };

uint32_t carry_over(const uint8_t *sheet, size_t sheet_n, const uint8_t old[OLD_ASWE_40_BANK_SIZE], uint8_t *bank, size_t bank_n)
{
    uint32_t number = CEDARSKEIN_BANK_MISFITS;
    if (bank_n == OLD_ASWE_40_BANK_SIZE + PRESETS)
        number = cedarskein_bank_fresh(sheet, sheet_n, bank, bank_n);
    if (number != CEDARSKEIN_DONE)
        return number;
    memcpy(bank, old, IN_FRONT);
    memcpy(bank + IN_FRONT + PRESETS, old + IN_FRONT, BEHIND);
    return cedarskein_bank_check(sheet, sheet_n, bank, bank_n);
}
