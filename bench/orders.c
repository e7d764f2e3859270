/* Holds the C of fast.c to the archive on made calls of the box that asks: `orders SEED CALLS`.
 *
 * Orders are of each kind, their numbers at both sides of every limit and far beyond; what comes back is the right reply, an error, or
 * either with a byte, its length or its check changed. Both sides make each call on memory of their own, and all that they hand back or
 * leave there must agree. Exit 0 if it does, and each number, each order that is done and each error was met. */
#include "cedarskein.h"
#include "fast.h"

#include <inttypes.h>
#include <stdio.h>
#include <stdlib.h>
#include <string.h>

enum { ORDERS = 5, NUMBERS = 14, ERRORS = 4, UNTOLD = 99 };

/* What a call is told and lent, on one side, and what it hands back. */
struct lent {
    uint32_t order, station, address, number;
    uint8_t values[120], reply[128], out[128];
    size_t values_n, reply_n, out_n;
    uint32_t result, length, error;
};

static struct lent sides[2];
static uint32_t state;
static unsigned long met_result[2][NUMBERS], met_order[2][ORDERS], met_error[ERRORS];

static uint32_t below(uint32_t limit)
{
    state ^= state << 13;
    state ^= state >> 17;
    state ^= state << 5;
    return (state >> 3) % limit;
}

static int chance(uint32_t percent)
{
    return below(100) < percent;
}

static void noise(uint8_t *bytes, size_t n)
{
    for (size_t k = 0; k < n; k++)
        bytes[k] = (uint8_t)below(256);
}

static void put(uint8_t *bytes, size_t at, uint32_t word)
{
    bytes[2 * at] = (uint8_t)(word >> 8);
    bytes[2 * at + 1] = (uint8_t)word;
}

static void seal(uint8_t *frame, size_t n)
{
    if (n < 2)
        return;
    uint16_t check = fast_check_value(frame, n - 2);
    frame[n - 2] = (uint8_t)check;
    frame[n - 1] = (uint8_t)(check >> 8);
}

/* ---- What is made ---- */

/* A number about a limit; now and then one that is the limit's or a small one in its lower bits alone. */
static uint32_t about(uint32_t limit)
{
    uint32_t number = limit + below(5) - 2;
    if (chance(5))
        number |= 1u << (8 + below(24));
    return number;
}

static uint32_t made_number(uint32_t order)
{
    if (order == CEDARSKEIN_WRITE)
        return chance(80) ? below(0x10000) : about(0xFFFF);
    return chance(70) ? 1 + below(47) : chance(50) ? about(47) : about(1);
}

static void make_order(struct lent *lent)
{
    lent->order = chance(97) ? below(ORDERS) : about(ORDERS);
    lent->station = chance(80) ? 1 + below(247) : chance(50) ? about(247) : about(1);
    lent->address = chance(60) ? below(0x10000) : 0x10000 - (chance(80) ? below(50) : 0);
    if (chance(2))
        lent->address = about(0xFFFFFFFF);
    lent->number = made_number(lent->order);
    lent->values_n = chance(80) ? 2 + 2 * (size_t)below(45) : chance(50) ? 86 + below(8) : below(5);
    if (lent->order != CEDARSKEIN_WRITES && chance(50))
        lent->values_n = below(sizeof lent->values);
    lent->out_n = chance(97) ? 100 + below(20) : 98 + below(3);
}

/* The right reply to an order: the front of its query, or a byte count and values. */
static size_t right_reply(const struct lent *lent, uint8_t *reply)
{
    static const uint8_t functions[ORDERS] = { 3, 3, 6, 16, 5 };
    uint32_t order = lent->order % ORDERS, bytes = 2 * (lent->number % 48);
    noise(reply, sizeof lent->reply);
    reply[0] = (uint8_t)lent->station;
    reply[1] = functions[order];
    if (order < CEDARSKEIN_WRITE) {
        reply[2] = (uint8_t)bytes;
        return 5 + bytes;
    }
    put(reply, 1, lent->address);
    put(reply, 2, order == CEDARSKEIN_WRITE ? lent->number : order == CEDARSKEIN_CLEAR ? 0 : (uint32_t)lent->values_n / 2);
    return 8;
}

static size_t error_reply(uint8_t *reply)
{
    reply[1] |= 0x80;
    reply[2] = (uint8_t)(chance(80) ? 1 + below(3) : below(6));
    return chance(90) ? 5 : 4 + below(3);
}

/* A bit of one of the first bytes, or the length. */
static size_t changed(uint8_t *reply, size_t n)
{
    if (chance(70))
        reply[below(6)] ^= (uint8_t)(1u << below(8));
    else
        n = chance(70) ? n + below(3) - 1 : below(110);
    return n;
}

static void make_reply(struct lent *lent)
{
    size_t n = right_reply(lent, lent->reply);
    if (chance(25))
        n = error_reply(lent->reply);
    if (chance(50))
        n = changed(lent->reply, n);
    if (chance(5))
        n = changed(lent->reply, n);
    seal(lent->reply, n);
    if (chance(5) && n > 0)
        lent->reply[below((uint32_t)n)] ^= (uint8_t)(1u << below(8));
    lent->reply_n = n;
}

static void make_lent(struct lent *lent)
{
    memset(lent, 0, sizeof *lent);
    noise(lent->values, sizeof lent->values);
    noise(lent->out, sizeof lent->out);
    make_order(lent);
    make_reply(lent);
    lent->length = lent->error = UNTOLD;
}

/* ---- Both sides ---- */

static uint32_t called(struct lent *l, int fast, int reads)
{
    const uint8_t *values = l->values_n == 0 ? NULL : l->values;
    if (reads)
        return (fast ? fast_reply : cedarskein_reply)(l->order, l->station, l->address, l->number, values, l->values_n, l->reply, l->reply_n,
                                                      l->out, l->out_n, &l->length, &l->error);
    return (fast ? fast_query : cedarskein_query)(l->order, l->station, l->address, l->number, values, l->values_n, l->out, l->out_n,
                                                  &l->length);
}

static void count_met(int reads)
{
    const struct lent *lent = &sides[0];
    met_result[reads][lent->result < NUMBERS ? lent->result : 1]++;
    if (lent->result != CEDARSKEIN_DONE)
        return;
    if (reads && lent->error != 0)
        met_error[lent->error < ERRORS ? lent->error : 0]++;
    else
        met_order[reads][lent->order % ORDERS]++;
}

static void print_call(int reads)
{
    for (int side = 0; side < 2; side++)
        printf("%s of %s: number %" PRIu32 ", length %" PRIu32 ", error %" PRIu32 "\n", reads ? "reply" : "query", side ? "fast" : "archive",
               sides[side].result, sides[side].length, sides[side].error);
    printf("order %" PRIX32 ", station %" PRIX32 ", address %" PRIX32 ", number %" PRIX32 ", %zu bytes of values, out of %zu; came back:",
           sides[0].order, sides[0].station, sides[0].address, sides[0].number, sides[0].values_n, sides[0].out_n);
    for (size_t k = 0; k < sides[0].reply_n; k++)
        printf(" %02X", sides[0].reply[k]);
    printf("\n");
}

static int agree(int reads)
{
    make_lent(&sides[0]);
    sides[1] = sides[0];
    for (int side = 0; side < 2; side++)
        sides[side].result = called(&sides[side], side, reads);
    count_met(reads);
    if (memcmp(&sides[0], &sides[1], sizeof sides[0]) == 0)
        return 1;
    print_call(reads);
    return 0;
}

/* Of a query 0, 5 and 9, of a reply 10 to 13 too, and no other; each order done at both; each error. */
static int all_met(void)
{
    int met = met_error[0] == 0 && met_error[1] && met_error[2] && met_error[3];
    for (int k = 0; k < NUMBERS; k++) {
        int of_both = k == CEDARSKEIN_DONE || k == CEDARSKEIN_SMALL_OUT || k == CEDARSKEIN_NO_FRAME;
        met &= (met_result[0][k] != 0) == of_both;
        met &= (met_result[1][k] != 0) == (of_both || k >= CEDARSKEIN_REPLY_DAMAGED);
    }
    for (int k = 0; k < ORDERS; k++)
        met &= met_order[0][k] != 0 && met_order[1][k] != 0;
    return met;
}

int main(int count, char **words)
{
    unsigned long calls = count > 2 ? strtoul(words[2], NULL, 10) : 400000, k;
    state = count > 1 ? (uint32_t)strtoul(words[1], NULL, 10) | 1 : 1;
    for (k = 0; k < calls; k++)
        if (!agree(k % 2 != 0))
            return 1;
    if (!all_met()) {
        printf("FAILED: a number, an order that is done or an error was never met\n");
        return 1;
    }
    printf("%lu calls of the box that asks, seed %s: no difference; %lu queries built, %lu replies read, 13 told %lu times\n", calls,
           count > 1 ? words[1] : "1", met_result[0][CEDARSKEIN_DONE], met_result[1][CEDARSKEIN_DONE], met_result[1][CEDARSKEIN_REPLY_BODY]);
    return 0;
}
