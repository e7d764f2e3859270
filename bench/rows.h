/* The calls that are measured: a sheet, a bank and a ring of it, and a frame or a record; or an order with its values, and what came back
 * to it as the frame. */
#ifndef ROWS_H
#define ROWS_H

#include <stddef.h>
#include <stdint.h>

enum { SHEET_ROOM = 1024, BANK_ROOM = 1024, FRAME_ROOM = 128, OUT_ROOM = 128, RECORD_ROOM = 94, VALUES_ROOM = 90,
       RING_ROOM = 4 + 2 * 6600 * 22 };

/* Who is called. */
struct side {
    const char *name;
    uint16_t (*check_take)(uint16_t, uint8_t);
    uint16_t (*check_value)(const uint8_t *, size_t);
    uint32_t (*sheet_check)(const uint8_t *, size_t);
    uint32_t (*bank_fresh)(const uint8_t *, size_t, uint8_t *, size_t);
    uint32_t (*answer)(const uint8_t *, size_t, uint8_t *, size_t, const uint8_t *, size_t, const uint8_t *, size_t, uint8_t *,
                       size_t, uint32_t *, uint32_t *);
    uint32_t (*why)(const uint8_t *, size_t, const uint8_t *, size_t, const uint8_t *, size_t, const uint8_t *, size_t, uint32_t *,
                    uint32_t *, uint32_t *);
    uint32_t (*ring_check)(const uint8_t *, size_t, const uint8_t *, size_t);
    uint32_t (*add_record)(const uint8_t *, size_t, uint8_t *, size_t, const uint8_t *, size_t);
    uint32_t (*query)(uint32_t, uint32_t, uint32_t, uint32_t, const uint8_t *, size_t, uint8_t *, size_t, uint32_t *);
    uint32_t (*reply)(uint32_t, uint32_t, uint32_t, uint32_t, const uint8_t *, size_t, const uint8_t *, size_t, uint8_t *, size_t,
                      uint32_t *, uint32_t *);
};

/* What is asked, of station 1. */
struct order {
    uint32_t order, address, number;
};

/* No side, and no error: one that a call does not write is seen by it. */
enum { UNTOLD_SIDE = 99, UNTOLD_ERROR = 99 };

enum called { SHEET_CHECK, BANK_FRESH, ANSWER, WHY, RING_CHECK, ADD_RECORD, CHECK_TAKE, CHECK_VALUE, QUERY, REPLY };

struct row {
    uint8_t sheet[SHEET_ROOM], bank[BANK_ROOM], ring[RING_ROOM], frame[FRAME_ROOM], out[OUT_ROOM], record[RECORD_ROOM],
        values[VALUES_ROOM];
    size_t sheet_n, bank_n, ring_n, frame_n, record_n, values_n;
    struct order order;
    enum called called;
    uint32_t number, length, rate, reason, address, missed_side, error;
};

extern const char *const row_names[];   /* ends with NULL */

const struct side *side_named(const char *name);

/* Makes a row ready by its name: its bank fresh, but where the call is to make it so, its ring full, its answer buffer all zero. 0 if there is
 * none of this name. */
int row_make(struct row *row, const char *name);

void row_call(const struct side *side, struct row *row);

#endif
