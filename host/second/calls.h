/* One call made on both sides, the library and the second statement. */
#ifndef CALLS_H
#define CALLS_H

#include <stdbool.h>
#include <stddef.h>
#include <stdint.h>

/* Those without a sheet come first. */
enum call_sort {
    CALL_CHECK_START,
    CALL_CHECK_TAKE,
    CALL_CHECK_VALUE,
    CALL_QUERY,
    CALL_REPLY,
    CALL_SHEET_CHECK,
    CALL_BANK_CHECK,
    CALL_BANK_FRESH,
    CALL_POST,
    CALL_SET_MARK,
    CALL_ANSWER,
    CALL_WHY,
    CALL_RING_CHECK,
    CALL_ADD_RECORD,
    CALL_COUNT
};

/* The buffers of a call; those it does not have are empty. The bytes are a
 * frame, posted words, a record or what came back to a query; the values are those of
 * an order. */
enum part { PART_SHEET, PART_BANK, PART_RING, PART_BYTES, PART_OUT, PART_VALUES, PART_COUNT };

/* The numbers of an order. */
struct asked {
    uint32_t order, station, address, number;
};

struct call {
    enum call_sort sort;
    const uint8_t *part[PART_COUNT];    /* before the call */
    size_t part_n[PART_COUNT];
    uint32_t value;                     /* address, mark, or running state */
    uint8_t byte;                       /* for the running state */
    struct asked asked;                 /* for a query and a reply */
};

/* What a call hands back; 0 where it has no such thing. The side is that of an
 * item's range, and none of the two that are compared. */
struct outcome {
    uint32_t number, length, rate, reason, address, side, error;
};

/* Makes the call on both sides. False, with the whole call printed, if they
 * differ in what they hand back or in any byte of any buffer, or if one of
 * them wrote where it must not. The outcome and the lent buffers are those of
 * both. */
bool same_on_both_sides(const struct call *call, struct outcome *outcome);

/* A buffer of the library's side as the last call left it. */
const uint8_t *part_after(enum part part);

/* Whether the last call, this one, changed a buffer, or its bank; whether its
 * frame got silence and it left all as it was. */
bool part_changed(const struct call *call, enum part part);
bool bank_changed(const struct call *call);
bool is_untouched(const struct call *call, const struct outcome *outcome);

/* Prints the call in hexadecimal. */
void print_call(const struct call *call);

const char *call_name(enum call_sort sort);

#endif
