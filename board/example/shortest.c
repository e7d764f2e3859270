/* The shortest program for a board: answers one frame, and writes the reply to the serial line in hex. */
#include "cedarskein.h"
#include "cedarskein_sheets.h"
#include "uart.h"

static void write_text(const char *text)
{
    while (*text != 0)
        uart_send((uint8_t)*text++);
}

static void write_byte(uint8_t byte)
{
    static const char digits[] = "0123456789ABCDEF";
    const char text[] = { digits[byte >> 4], digits[byte & 15], ' ', 0 };
    write_text(text);
}

int main(void)
{
    static uint8_t bank[CEDARSKEIN_UX_BANK_SIZE], out[CEDARSKEIN_LEAST_OUT];
    const uint8_t frame[] = { 0x01, 0x03, 0x01, 0x01, 0x00, 0x02, 0x94, 0x37 };
    uint32_t length, rate, i;
    uart_open(9600);
    cedarskein_bank_fresh(cedarskein_ux_sheet, sizeof cedarskein_ux_sheet, bank, sizeof bank);
    if (cedarskein_answer(cedarskein_ux_sheet, sizeof cedarskein_ux_sheet, bank, sizeof bank, NULL, 0,
                          frame, sizeof frame, out, sizeof out, &length, &rate) != CEDARSKEIN_DONE)
        return 1;
    for (i = 0; i < length; i++)
        write_byte(out[i]);
    write_text(rate ? "at 9600\n" : "at 4800\n");
    return 0;
}
