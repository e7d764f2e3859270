/* What an order came to, in words. */
#ifndef ASKED_H
#define ASKED_H

#include "memory.h"
#include "order.h"
#include "serial_line.h"

/* An order and the last try at it. */
struct asked {
    const struct order *order;
    /* A meter with the sheet that has the names, the sheet's name, and the rate of the line as document 01 counts it. */
    const struct meter *meter;
    const char *sheet;
    unsigned rate;
    uint8_t query[CEDARSKEIN_LEAST_OUT];
    size_t query_n;
    /* What came, 0 bytes where nothing did. */
    uint8_t reply[REPLY_ROOM];
    size_t reply_n;
    /* What the library says of it: the number, CEDARSKEIN_SILENCE where there was nothing to say it of; the meter's error; the values. */
    uint32_t number, error, values_n;
    uint8_t values[CEDARSKEIN_LEAST_OUT];
};

/* How often an order is sent before it is given up. A preset is sent once: a meter that takes it over at once would set its total again with each try,
   and lose what it counted in between. */
int most_tries(const struct asked *asked);

/* A try: its number and its query ahead of it, and what came behind it, with the reason where it is refused. */
void tell_sent(const struct asked *asked, int number);
void tell_came(const struct asked *asked);

/* The end, after the last try: done with the registers, an error, refused or no answer. */
void tell_end(const struct asked *asked);

#endif
