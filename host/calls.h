/* The door's calls on lent memory. Whatever a test is about, each call here is held to what it must leave alone. */
#ifndef CALLS_H
#define CALLS_H

#include "lent.h"

struct meter {
    struct lent sheet, bank, ring, frame, out, words, record;
    uint32_t length, rate;          /* of the last frame answered */
    uint32_t reason, address, side; /* of the last frame asked about */
};

/* A sheet of n bytes, a bank of the size that it asks for, made fresh (noise where the sheet is refused), an empty ring of the size
 * that it asks for (null where it has no record area), the frame 01 03 01 01 00 02 with its check, an answer buffer of 100 bytes, two
 * posted bytes, and a record of the size that it asks for; all shifted alike. */
void meter_fresh(struct meter *meter, const uint8_t *sheet, size_t n, size_t shift);

/* A record area: its row, the three words behind the item rows. All 0 where a sheet has none. */
struct records {
    uint16_t first, count, words;
};

/* The record area of what may be a sheet; the bytes that its ring has; and the bytes of a ring in front of a place's record. */
struct records records_of(const uint8_t *sheet, size_t n);
size_t ring_size(struct records records);
size_t record_at(struct records records, size_t place);

/* A sheet of n bytes without a record area, and this one put behind it. Hands back the bytes that it has then. */
#define RECORD_ROW 6
size_t put_records(uint8_t *into, const uint8_t *sheet, size_t n, struct records records);

/* A frame of n bytes, of which the last two become the check of those in front. */
void meter_frame(struct meter *meter, const uint8_t *bytes, size_t n, size_t shift);
void seal(uint8_t *frame, size_t n);

/* Frames for the station that the bank holds: one with two words behind its function, as a read or a 06, and a 10. */
void meter_short_frame(struct meter *meter, uint8_t function, uint16_t address, uint16_t second);
void meter_write_many(struct meter *meter, uint16_t address, const uint16_t *words, uint16_t count);

/* The check value, by the host's own reckoning. */
uint16_t check_with(uint16_t value, uint8_t byte);
uint16_t check_of(const uint8_t *bytes, size_t n);

/* The words of a bank or a sheet, and the rate that a bank holds, as cedarskein.h says to find it. */
uint16_t word_at(const uint8_t *bytes, size_t place);
void set_word(uint8_t *bytes, size_t place, uint16_t word);
uint8_t station_of(const uint8_t *sheet, const uint8_t *bank);
uint8_t rate_of(const uint8_t *sheet, const uint8_t *bank);

/* An item has one of the two sides, and no other reason has any. */
void expect_side_of(uint32_t reason, uint32_t side);

uint32_t call_sheet_check(struct meter *meter);
uint32_t call_bank_check(struct meter *meter);
uint32_t call_bank_fresh(struct meter *meter);
uint32_t call_post(struct meter *meter, uint32_t address);
uint32_t call_set_mark(struct meter *meter, uint32_t mark);
uint32_t call_answer(struct meter *meter);
uint32_t call_why(struct meter *meter);
uint32_t call_ring_check(struct meter *meter);
uint32_t call_add_record(struct meter *meter);

/* The box at the other end of the line: an order with its values, what came back, and an answer buffer. */
struct box {
    uint32_t order, station, address, number;
    struct lent values, reply, out;
    uint32_t length; /* of the last query built, or of the values of the last reply read */
    uint32_t error;  /* of the last reply read */
};

/* An order without values, which are null, no reply, and an answer buffer of 100 bytes. */
void box_order(struct box *box, uint32_t order, uint32_t station, uint32_t address, uint32_t number, size_t shift);

/* A reply of n bytes, of which the last two become the check of those in front. */
void box_reply(struct box *box, const uint8_t *bytes, size_t n, size_t shift);

uint32_t call_query(struct box *box);
uint32_t call_reply(struct box *box);

#endif
