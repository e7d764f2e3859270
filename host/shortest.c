#include "cedarskein.h"
#include "cedarskein_sheets.h"
#include <stdio.h>

int main(void)
{
    static uint8_t bank[CEDARSKEIN_UX_BANK_SIZE], out[CEDARSKEIN_LEAST_OUT];
    const uint8_t frame[] = { 0x01, 0x03, 0x01, 0x01, 0x00, 0x02, 0x94, 0x37 };
    uint32_t length, rate, i;
    cedarskein_bank_fresh(cedarskein_ux_sheet, sizeof cedarskein_ux_sheet, bank, sizeof bank);
    if (cedarskein_answer(cedarskein_ux_sheet, sizeof cedarskein_ux_sheet, bank, sizeof bank, NULL, 0,
                          frame, sizeof frame, out, sizeof out, &length, &rate) != CEDARSKEIN_DONE)
        return 1;
    for (i = 0; i < length; i++)
        printf("%02X ", out[i]);
    puts(rate ? "at 9600" : "at 4800");
    return 0;
}
