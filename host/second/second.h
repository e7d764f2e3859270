/* A second statement of the rules of docs/RULES.md, for the host tests.
 *
 * The fourteen functions do what the library's fourteen do. They are written for
 * reading, rule by rule in that page's order, and share nothing with the library.
 * Words are two bytes, upper byte first. A null pointer with length 0 is an
 * empty slice, as the ring of a sheet without a record area. Frame and answer
 * buffer must be separate memory. */
#ifndef SECOND_H
#define SECOND_H

#include <stddef.h>
#include <stdint.h>

uint16_t second_check_start(void);
uint16_t second_check_take(uint16_t state, uint8_t byte);
uint16_t second_check_value(const uint8_t *bytes, size_t bytes_n);

uint32_t second_sheet_check(const uint8_t *sheet, size_t sheet_n);
uint32_t second_bank_check(const uint8_t *sheet, size_t sheet_n,
                           const uint8_t *bank, size_t bank_n);
uint32_t second_bank_fresh(const uint8_t *sheet, size_t sheet_n,
                           uint8_t *bank, size_t bank_n);
uint32_t second_post(const uint8_t *sheet, size_t sheet_n,
                     uint8_t *bank, size_t bank_n, uint32_t address,
                     const uint8_t *words, size_t words_n);
uint32_t second_set_mark(const uint8_t *sheet, size_t sheet_n,
                         uint8_t *bank, size_t bank_n, uint32_t mark);
uint32_t second_answer(const uint8_t *sheet, size_t sheet_n,
                       uint8_t *bank, size_t bank_n,
                       const uint8_t *ring, size_t ring_n,
                       const uint8_t *frame, size_t frame_n,
                       uint8_t *out, size_t out_n,
                       uint32_t *length, uint32_t *rate);
uint32_t second_why(const uint8_t *sheet, size_t sheet_n,
                    const uint8_t *bank, size_t bank_n,
                    const uint8_t *ring, size_t ring_n,
                    const uint8_t *frame, size_t frame_n,
                    uint32_t *reason, uint32_t *address, uint32_t *side);
uint32_t second_ring_check(const uint8_t *sheet, size_t sheet_n,
                           const uint8_t *ring, size_t ring_n);
uint32_t second_add_record(const uint8_t *sheet, size_t sheet_n,
                           uint8_t *ring, size_t ring_n,
                           const uint8_t *record, size_t record_n);
uint32_t second_query(uint32_t order, uint32_t station, uint32_t address, uint32_t number,
                      const uint8_t *values, size_t values_n,
                      uint8_t *out, size_t out_n, uint32_t *length);
uint32_t second_reply(uint32_t order, uint32_t station, uint32_t address, uint32_t number,
                      const uint8_t *values, size_t values_n,
                      const uint8_t *reply, size_t reply_n,
                      uint8_t *out, size_t out_n, uint32_t *length, uint32_t *error);

/* The numbers of rules N0 to N8, and with rules N9 to N13 those of a box that asks. */
enum second_number {
    NUMBER_DONE = 0,
    NUMBER_SILENCE = 1,
    NUMBER_SHEET = 2,
    NUMBER_BANK_SIZE = 3,
    NUMBER_BANK_SOUND = 4,
    NUMBER_BUFFER = 5,
    NUMBER_POSTED_ADDRESS = 6,
    NUMBER_BAD_INPUT = 7,           /* posted bytes, a mark or a record */
    NUMBER_RING = 8,
    NUMBER_NO_FRAME = 9,
    NUMBER_REPLY_DAMAGED = 10,
    NUMBER_REPLY_STATION = 11,
    NUMBER_REPLY_FUNCTION = 12,
    NUMBER_REPLY_BODY = 13,
    NUMBER_COUNT
};

/* What a box can ask of a meter: rule Q2. */
enum second_order {
    ORDER_READ = 0,                 /* registers */
    ORDER_RECORD = 1,               /* one record of a history */
    ORDER_WRITE = 2,                /* one register, by 06 */
    ORDER_WRITES = 3,               /* registers, by 10, also where it is one */
    ORDER_CLEAR = 4,
    ORDER_COUNT
};

/* The rules of a sheet, in their order: rules S0 to S64, and rules S81 to S85 of
 * a record area. */
enum second_rule {
    RULE_NONE,
    RULE_HEADER,
    RULE_VERSION,
    RULE_AREAS,
    RULE_AREA_OFFSET,
    RULE_ITEMS,
    RULE_ITEM_OFFSET,
    RULE_BANK_WORDS,
    RULE_FUNCTIONS,
    RULE_LENGTH_WORD,
    RULE_WORD_11,
    RULE_BYTE_LENGTH,
    RULE_ACCESS,
    RULE_FIRST_ABOVE_LAST,
    RULE_AREAS_ASCEND,
    RULE_AREAS_SHARE,
    RULE_AREA_FIRST_PLACE,
    RULE_LENGTHS_SUM,
    RULE_CLEAR_IN_AREA,
    RULE_CLEAR_NOT_ZERO,
    RULE_WRITE_ONLY,
    RULE_KIND,
    RULE_LOW_FIRST_WORD,
    RULE_HIGH_FIRST_WORD,
    RULE_LOW_ABOVE_HIGH,
    RULE_ITEMS_ASCEND,
    RULE_PLACE_MISSING,
    RULE_PLACE_TWICE,
    RULE_PLACE_OTHER,
    RULE_PAIR_TWO_AREAS,
    RULE_SAME_PLACE,
    RULE_ADDRESS_ITEM,
    RULE_RATE_ITEM,
    RULE_ADDRESS_HOLDS_1,
    RULE_RATE_HOLDS_1,
    RULE_ADDRESS_RANGE,
    RULE_RATE_RANGE,
    RULE_RECORD_COUNT,
    RULE_RECORD_WORDS,
    RULE_RECORDS_END,
    RULE_RECORDS_SHARE,
    RULE_CLEAR_IN_RECORDS,
    RULE_COUNT
};

/* Where a frame stopped in 01's order of judgement, or what sort of good
 * frame it was. STEP_REFUSED: sheet, bank or ring is refused before any step. */
enum second_step {
    STEP_REFUSED,
    STEP_1_SHORT,
    STEP_1_LONG,
    STEP_1_CHECK,
    STEP_2_STATION,
    STEP_3_FUNCTION,
    STEP_4_NOT_8,
    STEP_4_BELOW_9,
    STEP_4_NOT_9_PLUS,
    STEP_5_RECORD_COUNT,
    STEP_5_READ_COUNT_0,
    STEP_5_WRITE_COUNT_0,
    STEP_5_BYTE_COUNT,
    STEP_6_ABOVE_FFFF,
    STEP_6_NO_AREA,
    STEP_6_READ_ONLY,
    STEP_6_WRITE_ONLY,
    STEP_6_OVER_47,
    STEP_6_NOT_CLEAR,
    STEP_6_RECORD,
    STEP_6_NOT_STORED,
    STEP_7_CLEAR_VALUE,
    STEP_7_BAD_ITEM,
    STEP_GOOD_READ,
    STEP_GOOD_RECORD,
    STEP_GOOD_CLEAR,
    STEP_GOOD_WRITE_ONE,
    STEP_GOOD_WRITE_MANY,
    STEP_COUNT
};

/* The reasons for silence or an error, in their order: rule Y1. */
enum second_reason {
    REASON_NONE = 0,
    REASON_TOO_SHORT = 1,
    REASON_TOO_LONG = 2,
    REASON_CHECK = 3,
    REASON_STATION = 4,
    REASON_FUNCTION = 5,
    REASON_BODY_LENGTH = 6,
    REASON_BAD_COUNT = 7,
    REASON_ADDRESS = 8,
    REASON_CLEAR_VALUE = 9,
    REASON_ITEM = 10,
    REASON_COUNT
};

/* The side at which a value misses the range of its item: rule B13. */
enum second_side {
    SIDE_NONE = 0,                  /* the value is in range */
    SIDE_TOO_LOW = 1,
    SIDE_TOO_HIGH = 2
};

/* The first rule that the sheet breaks, RULE_NONE if it is sound. */
enum second_rule second_broken_rule(const uint8_t *sheet, size_t sheet_n);

/* All rules that the sheet breaks: bit r is set if rule r is broken. Rows are
 * judged only up to one area and one item above the largest numbers. */
uint64_t second_broken_rules(const uint8_t *sheet, size_t sheet_n);

/* The step a frame stops at; nothing is written. */
enum second_step second_step(const uint8_t *sheet, size_t sheet_n,
                             const uint8_t *bank, size_t bank_n,
                             const uint8_t *ring, size_t ring_n,
                             const uint8_t *frame, size_t frame_n);

const char *second_rule_name(enum second_rule rule);
const char *second_step_name(enum second_step step);
const char *second_reason_name(enum second_reason reason);

#endif
