/* A program for a box that asks, whole: it reads the totals of a UX15/25 at station 1. What came back is a constant here, so that the
 * program needs no line; a box sends the query, and takes in what comes until the line is quiet. Nothing of a meter is in it, and linked
 * with -Wl,--gc-sections it has no code of the meter's half either. */
#include "cedarskein.h"
#include "cedarskein_registers.h"
#include <stdio.h>

enum { STATION = 1, WORDS = 6 };

/* The total volume and the trip volume, three words each, in steps of 0.01 m3. */
static const uint8_t came_back[] = { 0x01, 0x03, 0x0C, 0x00, 0x00, 0x00, 0x12, 0xD6, 0x87, 0x00, 0x00, 0x00, 0x00, 0x30, 0x39, 0xE9, 0xBC };

static void print_volume(const char *name, const uint8_t *words)
{
    uint64_t steps = 0;
    int k;
    for (k = 0; k < 6; k++)
        steps = 256 * steps + words[k];
    printf("%s: %lu.%02lu m3\n", name, (unsigned long)(steps / 100), (unsigned long)(steps % 100));
}

int main(void)
{
    uint8_t out[CEDARSKEIN_LEAST_OUT];
    uint32_t length, error, i;
    if (cedarskein_query(CEDARSKEIN_READ, STATION, CEDARSKEIN_UX_TOTAL_VOLUME, WORDS, NULL, 0, out, sizeof out, &length)
        != CEDARSKEIN_DONE)
        return 1;
    printf("sent:");
    for (i = 0; i < length; i++)
        printf(" %02X", out[i]);
    printf("\n");
    if (cedarskein_reply(CEDARSKEIN_READ, STATION, CEDARSKEIN_UX_TOTAL_VOLUME, WORDS, NULL, 0, came_back, sizeof came_back, out, sizeof out,
                         &length, &error) != CEDARSKEIN_DONE)
        return 1;
    if (error != 0) {
        printf("the meter refuses with error %02lX\n", (unsigned long)error);
        return 1;
    }
    print_volume("total volume", out);
    print_volume("trip volume", out + 6);
    return 0;
}
