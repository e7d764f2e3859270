/* The door's check value against the host's own: each byte into each state, and noise of every length, as a running state and whole. */
#include "calls.h"

#include "cedarskein.h"
#include "expect.h"

static struct lent bytes;

static uint16_t running(void)
{
    uint16_t state = cedarskein_check_start();
    size_t i;
    for (i = 0; i < bytes.n; i++)
        state = cedarskein_check_take(state, bytes.bytes[i]);
    return state;
}

static void noise_of(size_t n)
{
    at_case("noise of %lu bytes", (unsigned long)n);
    lend(&bytes, n, n % LENT_SHIFTS);
    lent_keep(&bytes);
    expect_number(check_of(bytes.bytes, n), cedarskein_check_value(bytes.bytes, n), "check_value");
    expect_number(check_of(bytes.bytes, n), running(), "check_start and check_take");
    expect(lent_as_before(&bytes), "the bytes are as before");
}

/* What the host makes of each state that a byte has been mixed into. */
static uint16_t shifted[0x10000];

static uint32_t first_wrong_byte(uint16_t state)
{
    uint32_t byte = 0;
    while (byte < 0x100 && cedarskein_check_take(state, (uint8_t)byte) == shifted[state ^ byte])
        byte++;
    return byte;
}

static void every_step(void)
{
    uint32_t state;
    for (state = 0; state < 0x10000; state++)
        shifted[state] = check_with((uint16_t)state, 0);
    for (state = 0; state < 0x10000; state++) {
        at_case("the state %04lX", (unsigned long)state);
        expect_number(0x100, first_wrong_byte((uint16_t)state), "the first byte, if under 100, that check_take takes otherwise");
    }
}

int main(void)
{
    size_t n;
    every_step();
    for (n = 0; n <= 300; n++)
        noise_of(n);
    noise_of(5000);
    return told("each byte into each state of the check value; check values of 0 to 300 and 5000 bytes of noise");
}
