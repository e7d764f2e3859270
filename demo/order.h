/* An order in words, as "read 0103 2": the order that the library builds a query of and reads the reply against. */
#ifndef ORDER_H
#define ORDER_H

#include <stddef.h>
#include <stdint.h>

#include "cedarskein.h"

/* The values of one write of several. */
enum { MOST_WRITTEN = 45 };

/* What the header has under "The box that asks"; kind is a number of enum cedarskein_order. One value more than can be written is kept, so that too
   many show. */
struct order {
    uint32_t kind, station, address, number;
    uint8_t values[2 * (MOST_WRITTEN + 1)];
    size_t values_n;
};

/* Takes the words of an order: all of it but the station. Hands back -1, and says what is wrong with an example of a good one, where they are none. */
int take_order(struct order *order, const char *text);

/* Takes a number in a text of n characters, hexadecimal with 0x in front or without, or decimal. What is too large for it becomes the largest. Hands
   back -1 where the text is no such number. */
int take_number(const char *text, size_t n, int base, uint32_t *number);

/* How many addresses behind the first an order is for. */
uint32_t addresses_behind(const struct order *order);

/* The order's query, and its bytes; 0 of them, and words that say why, where the library has no frame for the order. */
uint32_t build_query(const struct order *order, uint8_t query[CEDARSKEIN_LEAST_OUT]);

#endif
