/* Orders of a box, and what could come back to them, made for the comparison. */
#ifndef ORDERS_MADE_H
#define ORDERS_MADE_H

#include "calls.h"
#include "frames_made.h"

enum { VALUES_ROOM = 400, REPLY_ROOM = 400 };

struct made_order {
    struct asked asked;
    uint8_t values[VALUES_ROOM];
    size_t values_n;
};

/* An order that has a frame, often one at a limit. A number or values that it has no
 * use for are noise. */
void make_order(struct made_order *order);

/* Puts an order beyond a limit, or beyond several. */
void spoil_order(struct made_order *order);

/* Makes an order another one, mostly in a single thing. */
void change_order(struct made_order *order);

/* An order for the meter of a sheet, a bank and a ring with so many records stored;
 * the frame is the one that a master sends for it, and its length is handed back. Now
 * and then a read starts at a record, or the words are not a record's. */
size_t make_order_of_meter(const struct made *made, const uint8_t *bank, uint32_t stored,
                           struct made_order *order, uint8_t *frame);

/* What a meter could send back, values, an echo or an error; its length. Of an order
 * beyond a limit the lower bits are taken, as if they were the order. */
size_t make_reply(const struct made_order *order, uint8_t *reply);

/* Puts a fault into such a reply, or several; the length then. */
size_t spoil_reply(uint8_t *reply, size_t n);

#endif
