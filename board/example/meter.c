/* A meter on the serial line of a board: a UX15/25 whose settings a master reads and writes. It runs until the board is switched off. */
#include "cedarskein.h"
#include "cedarskein_sheets.h"
#include "uart.h"

#define SHEET cedarskein_ux_sheet, sizeof cedarskein_ux_sheet

/* One byte more than a frame has, so that one which is too long is seen to be. */
static uint8_t bank[CEDARSKEIN_UX_BANK_SIZE], frame[CEDARSKEIN_LONGEST_FRAME + 1], out[CEDARSKEIN_LEAST_OUT];

/* The bits per second that the bank holds (see "The next station and the next rate" in cedarskein.h). */
static uint32_t bits_per_second(void)
{
    uint32_t place = 256u * cedarskein_ux_sheet[18] + cedarskein_ux_sheet[19];
    return bank[2 * place + 1] == 1 ? 9600 : 4800;
}

/* A pause of 3.5 characters of 10 bits ends a frame. An emulator is stopped and goes on as its host has time, which looks like a pause: EMULATED has a
 * longer one, a tenth of a second. */
static uint32_t pause_ticks(void)
{
#ifdef EMULATED
    return CLOCK_HZ / 10;
#else
    return CLOCK_HZ / bits_per_second() * 35;
#endif
}

/* Far less than a character takes. Without it the emulator is busy with the questions for a byte, and hardly gets round to fetching one. */
static void wait_a_little(void)
{
    volatile uint32_t i;
    for (i = 0; i < 500; i++) {
    }
}

/* Takes in one frame. What goes past the buffer is dropped, and the frame's length tells it. */
static uint32_t frame_received(void)
{
    uint32_t n = 0, last = clock_now();
    while (n == 0 || clock_since(last) < pause_ticks()) {
        int byte = uart_received();
        if (byte < 0) {
            wait_a_little();
            continue;
        }
        last = clock_now();
        if (n < sizeof frame)
            frame[n++] = (uint8_t)byte;
    }
    return n;
}

/* Once the reply is out the line goes on at the rate that the bank holds now. A board waits here until the last bit has left. */
static void send(uint32_t length)
{
    uint32_t i;
    for (i = 0; i < length; i++)
        uart_send(out[i]);
    uart_open(bits_per_second());
}

/* A meter starts from the last good copy of its bank, and keeps what a frame stored before it replies ("A power cut"); it posts its readings between two
 * frames. This one begins fresh each time. */
int main(void)
{
    uint32_t length, rate;
    if (cedarskein_bank_fresh(SHEET, bank, sizeof bank) != CEDARSKEIN_DONE)
        return 1;
    uart_open(bits_per_second());
    clock_open();
    for (;;) {
        uint32_t n = frame_received();
        if (cedarskein_answer(SHEET, bank, sizeof bank, NULL, 0, frame, n, out, sizeof out, &length, &rate) == CEDARSKEIN_DONE)
            send(length);
    }
}
