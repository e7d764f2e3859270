/* The door's fourteen functions once more, written by hand in C for speed: the yardstick of the measurements in bench.c.
 * They keep every rule that include/cedarskein.h states, make the same checks on every call, and owe the same. */
#ifndef FAST_H
#define FAST_H

#include <stddef.h>
#include <stdint.h>

uint16_t fast_check_start(void);
uint16_t fast_check_take(uint16_t state, uint8_t byte);
uint16_t fast_check_value(const uint8_t *bytes, size_t bytes_n);
uint32_t fast_sheet_check(const uint8_t *sheet, size_t sheet_n);
uint32_t fast_bank_check(const uint8_t *sheet, size_t sheet_n, const uint8_t *bank, size_t bank_n);
uint32_t fast_bank_fresh(const uint8_t *sheet, size_t sheet_n, uint8_t *bank, size_t bank_n);
uint32_t fast_post(const uint8_t *sheet, size_t sheet_n, uint8_t *bank, size_t bank_n, uint32_t address,
                   const uint8_t *words, size_t words_n);
uint32_t fast_set_mark(const uint8_t *sheet, size_t sheet_n, uint8_t *bank, size_t bank_n, uint32_t mark);
uint32_t fast_answer(const uint8_t *sheet, size_t sheet_n, uint8_t *bank, size_t bank_n, const uint8_t *ring,
                     size_t ring_n, const uint8_t *frame, size_t frame_n, uint8_t *out, size_t out_n, uint32_t *length,
                     uint32_t *rate);
uint32_t fast_why(const uint8_t *sheet, size_t sheet_n, const uint8_t *bank, size_t bank_n, const uint8_t *ring,
                  size_t ring_n, const uint8_t *frame, size_t frame_n, uint32_t *reason, uint32_t *address,
                  uint32_t *side);
uint32_t fast_ring_check(const uint8_t *sheet, size_t sheet_n, const uint8_t *ring, size_t ring_n);
uint32_t fast_add_record(const uint8_t *sheet, size_t sheet_n, uint8_t *ring, size_t ring_n, const uint8_t *record,
                         size_t record_n);
uint32_t fast_query(uint32_t order, uint32_t station, uint32_t address, uint32_t number, const uint8_t *values,
                    size_t values_n, uint8_t *out, size_t out_n, uint32_t *length);
uint32_t fast_reply(uint32_t order, uint32_t station, uint32_t address, uint32_t number, const uint8_t *values,
                    size_t values_n, const uint8_t *reply, size_t reply_n, uint8_t *out, size_t out_n, uint32_t *length,
                    uint32_t *error);

#endif
