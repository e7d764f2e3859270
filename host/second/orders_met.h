/* Orders, queries and replies, held to what their bytes say. */
#ifndef ORDERS_MET_H
#define ORDERS_MET_H

#include "calls.h"
#include "counts.h"

/* What the last call, which gave this outcome, has done against the rules on orders
 * and replies; NULL if nothing. It is read from the call's bytes alone, so that a
 * slip which both sides have is seen as well. */
const char *order_breach(const struct call *call, const struct outcome *outcome);

/* The same of a meter that got the query of an order and has just answered it, and of
 * that answer, which has just been read against the order. The meter's sheet, bank and
 * ring are sound. */
const char *answered_breach(const struct call *query, const struct call *answer,
                            const struct outcome *outcome);
const char *read_breach(const struct call *reply, const struct call *answer,
                        const struct outcome *outcome);

/* The same of the reason that is told of the query. */
const char *query_reason_breach(const struct call *query, const struct call *why,
                                const struct outcome *outcome);

/* Counts what the last call has met; and what an order has come to, whose answer has
 * just been read. */
void count_orders(struct counts *counts, const struct call *call, const struct outcome *outcome);
void count_asked(struct counts *counts, const struct call *reply, const struct call *answer,
                 const struct outcome *outcome);

#endif
