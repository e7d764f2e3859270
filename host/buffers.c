/* Buffers of every size and at every alignment, frames and replies of every length, and null pointers for nothing. */
#include "calls.h"

#include "cedarskein.h"
#include "cedarskein_sheets.h"
#include "expect.h"

#include <string.h>

#define LONGEST_TRIED 300

static const size_t out_sizes[] = { 0, 1, 99, 100, 101, 5000 };
static struct meter meter;
static struct box box;

/* The number for a frame that gets an answer where it passes. */
static uint32_t number_of(size_t out_n, int passes)
{
    if (out_n < CEDARSKEIN_LEAST_OUT)
        return CEDARSKEIN_SMALL_OUT;
    return passes ? CEDARSKEIN_DONE : CEDARSKEIN_SILENCE;
}

/* The reason for a frame of n bytes: its length, or else the fault that it has. */
static uint32_t reason_of(size_t n, uint32_t fault)
{
    if (n < 4)
        return CEDARSKEIN_TOO_SHORT;
    return n > CEDARSKEIN_LONGEST_FRAME ? CEDARSKEIN_TOO_LONG : fault;
}

/* Why goes by the frame alone, whatever out is. */
static void told_why(uint32_t fault, const char *what)
{
    expect_number(CEDARSKEIN_DONE, call_why(&meter), what);
    expect_number(reason_of(meter.frame.n, fault), meter.reason, what);
}

/* Noise behind a station and a function that no sheet allows, with a right check: error 01 where the length is 4 to 100. */
static void unknown_function(size_t n)
{
    static const uint8_t error[3] = { 0x01, 0x87, 0x01 };
    int passes = 4 <= n && n <= CEDARSKEIN_LONGEST_FRAME;
    size_t i;
    if (n > 1) {
        meter.frame.bytes[0] = 1;
        meter.frame.bytes[1] = 7;
    }
    seal(meter.frame.bytes, n);
    told_why(CEDARSKEIN_FUNCTION, "why, with a right check");
    expect_number(number_of(meter.out.n, passes), call_answer(&meter), "a right check");
    if (!passes || meter.out.n < CEDARSKEIN_LEAST_OUT)
        return;
    expect_number(5, meter.length, "the length of error 01");
    for (i = 0; i < sizeof error; i++)
        expect_number(error[i], meter.out.bytes[i], "a byte of error 01");
}

static void silent(const char *what)
{
    expect_number(number_of(meter.out.n, 0), call_answer(&meter), what);
}

/* A frame of one length into a buffer of one size. */
static void frame_of(size_t n, size_t out_n)
{
    size_t shift = (n + out_n) % LENT_SHIFTS;
    at_case("a frame of %lu bytes, out of %lu bytes", (unsigned long)n, (unsigned long)out_n);
    meter_fresh(&meter, cedarskein_ux_sheet, CEDARSKEIN_UX_SHEET_SIZE, shift);
    lend(&meter.frame, n, shift);
    lend(&meter.out, out_n, shift);
    unknown_function(n);
    if (n < 2)
        return;
    meter.frame.bytes[n - 1] ^= 0x80;
    told_why(CEDARSKEIN_CHECK, "why, with a wrong check");
    silent("a wrong check");
    meter.frame.bytes[0] = 2;
    seal(meter.frame.bytes, n);
    told_why(CEDARSKEIN_STATION, "why, for another station");
    silent("another station");
}

/* What comes back in any length, at any size of out. */
static void came_back(size_t n, size_t out_n)
{
    uint32_t passes = 4 <= n && n <= CEDARSKEIN_LONGEST_FRAME ? CEDARSKEIN_REPLY_FUNCTION : CEDARSKEIN_REPLY_DAMAGED;
    at_case("%lu bytes come back, out of %lu bytes", (unsigned long)n, (unsigned long)out_n);
    box_order(&box, CEDARSKEIN_READ, 1, 0x0100, 47, 0);
    lend(&box.out, out_n, (n + out_n) % LENT_SHIFTS);
    lend(&box.reply, n, n % LENT_SHIFTS);
    if (n > 1) {
        box.reply.bytes[0] = 1;
        box.reply.bytes[1] = 7;
    }
    seal(box.reply.bytes, n);
    expect_number(out_n < CEDARSKEIN_LEAST_OUT ? CEDARSKEIN_SMALL_OUT : passes, call_reply(&box), "reply");
}

static void frames_into(size_t out_n)
{
    size_t n;
    for (n = 0; n <= LONGEST_TRIED; n++) {
        frame_of(n, out_n);
        came_back(n, out_n);
    }
}

/* Each buffer at its own alignment, every one of them. */
static void shifted(size_t shift)
{
    static const uint8_t write_two[13] = { 0x01, 0x10, 0x01, 0x0F, 0x00, 0x02, 0x04, 0x00, 0x01, 0x13, 0x88 };
    at_case("alignment %lu", (unsigned long)shift);
    meter_fresh(&meter, cedarskein_ux_sheet, CEDARSKEIN_UX_SHEET_SIZE, shift);
    meter_frame(&meter, write_two, sizeof write_two, (3 * shift + 1) % LENT_SHIFTS);
    lend(&meter.out, 101, (5 * shift + 2) % LENT_SHIFTS);
    lend(&meter.words, 22, (7 * shift + 3) % LENT_SHIFTS);
    expect_number(0, call_why(&meter), "why");
    expect_number(CEDARSKEIN_NO_REASON, meter.reason, "the reason");
    expect_number(0, call_answer(&meter), "answer");
    expect_number(8, meter.length, "length");
    expect_number(0x1388, word_at(meter.bank.bytes, 0x10), "0110 is then");
    expect_number(0, call_post(&meter, 0x0200), "post");
    expect_number(word_at(meter.words.bytes, 10), word_at(meter.bank.bytes, 33), "020A is then");
    expect_number(0, call_set_mark(&meter, 1), "set_mark");
    expect_number(1, word_at(meter.bank.bytes, 34), "the mark is then");
    expect_number(0, call_bank_check(&meter), "bank_check");
    expect_number(0, call_sheet_check(&meter), "sheet_check");
}

/* The ring and the record, each at its own alignment: three records are added to two places, and each is read. */
static void ring_shifted(size_t shift)
{
    static const struct records records = { 0x0400, 2, 47 };
    uint8_t sheet[CEDARSKEIN_UX_SHEET_SIZE + RECORD_ROW], read[8] = { 0x01, 0x03, 0x04, 0x00, 0x00, 0x01 };
    size_t k, ring_shift = (3 * shift + 1) % LENT_SHIFTS;
    at_case("a ring at alignment %lu", (unsigned long)ring_shift);
    put_records(sheet, cedarskein_ux_sheet, CEDARSKEIN_UX_SHEET_SIZE, records);
    meter_fresh(&meter, sheet, sizeof sheet, ring_shift);
    for (k = 0; k < 3; k++) {
        lend(&meter.record, 94, (5 * shift + k) % LENT_SHIFTS);
        expect_number(0, call_add_record(&meter), "add_record");
        expect_number(0, call_ring_check(&meter), "ring_check");
        meter_frame(&meter, read, sizeof read, (7 * shift + k) % LENT_SHIFTS);
        expect_number(0, call_why(&meter), "why");
        expect_number(CEDARSKEIN_NO_REASON, meter.reason, "the reason");
        expect_number(0, call_answer(&meter), "answer");
        expect_number(99, meter.length, "length");
        expect(memcmp(meter.out.bytes + 3, meter.record.bytes, 94) == 0, "the reply has the record");
    }
}

/* The box's values, what came back, and out, each at its own alignment: the longest query, its echo, and the longest reply. */
static void box_shifted(size_t shift)
{
    uint8_t reply[99] = { 0x11, 0x03, 94 };
    at_case("a box at alignment %lu", (unsigned long)shift);
    box_order(&box, CEDARSKEIN_WRITES, 0x11, 0x0100, 0, (3 * shift + 1) % LENT_SHIFTS);
    lend(&box.values, 90, shift);
    expect_number(0, call_query(&box), "query");
    expect_number(99, box.length, "length");
    expect(memcmp(box.out.bytes + 7, box.values.bytes, 90) == 0, "the query has the values");
    box_reply(&box, box.out.bytes, 8, (5 * shift + 2) % LENT_SHIFTS);
    expect_number(0, call_reply(&box), "reply, an echo");
    box_order(&box, CEDARSKEIN_RECORD, 0x11, 0x0400, 47, (7 * shift + 3) % LENT_SHIFTS);
    expect_number(0, call_query(&box), "query");
    box_reply(&box, reply, sizeof reply, shift);
    expect_number(0, call_reply(&box), "reply, of 47 words");
    expect_number(94, box.length, "the bytes of values");
}

/* No values, nothing that came back, no out. */
static void null_box(void)
{
    at_case("a box without anything");
    box_order(&box, CEDARSKEIN_READ, 1, 0x0100, 2, 0);
    expect_number(0, call_query(&box), "query without values");
    expect_number(10, call_reply(&box), "reply, where nothing came back");
    lend_null(&box.out);
    expect_number(5, call_query(&box), "query without out");
    expect_number(5, call_reply(&box), "reply without out");
    box.order = CEDARSKEIN_WRITES;
    expect_number(9, call_query(&box), "query of no writes");
    expect_number(9, call_reply(&box), "reply to no writes");
}

/* No record area: a ring of no bytes, null or not, is right, and any other is not. */
static void null_ring(void)
{
    at_case("no ring");
    meter_fresh(&meter, cedarskein_ux_sheet, CEDARSKEIN_UX_SHEET_SIZE, 0);
    lend_null(&meter.ring);
    expect_number(0, call_ring_check(&meter), "ring_check without a ring");
    expect_number(0, call_why(&meter), "why without a ring");
    expect_number(0, call_answer(&meter), "answer without a ring");
    expect_number(2, call_add_record(&meter), "add_record without a ring");
    lend(&meter.ring, 0, 3);
    expect_number(0, call_ring_check(&meter), "ring_check with a ring of no bytes");
    expect_number(0, call_why(&meter), "why with a ring of no bytes");
    expect_number(0, call_answer(&meter), "answer with a ring of no bytes");
    lend(&meter.ring, 1, 3);
    expect_number(8, call_ring_check(&meter), "ring_check with a ring of one byte");
    expect_number(8, call_why(&meter), "why with a ring of one byte");
    expect_number(8, call_answer(&meter), "answer with a ring of one byte");
    expect_number(2, call_add_record(&meter), "add_record with a ring of one byte");
}

/* A record area, and nothing lent for it. */
static void null_record(void)
{
    static const struct records records = { 0x0400, 2, 47 };
    uint8_t sheet[CEDARSKEIN_UX_SHEET_SIZE + RECORD_ROW];
    at_case("no record, no ring");
    put_records(sheet, cedarskein_ux_sheet, CEDARSKEIN_UX_SHEET_SIZE, records);
    meter_fresh(&meter, sheet, sizeof sheet, 0);
    lend_null(&meter.record);
    expect_number(7, call_add_record(&meter), "add_record without a record");
    lend_null(&meter.ring);
    expect_number(8, call_add_record(&meter), "add_record without a ring");
    expect_number(8, call_ring_check(&meter), "ring_check without a ring");
    expect_number(8, call_why(&meter), "why without a ring");
    expect_number(8, call_answer(&meter), "answer without a ring");
    lend_null(&meter.sheet);
    expect_number(2, call_add_record(&meter), "add_record without anything");
    expect_number(2, call_ring_check(&meter), "ring_check without anything");
}

static void null_sheet(void)
{
    at_case("no sheet");
    meter_fresh(&meter, cedarskein_ux_sheet, CEDARSKEIN_UX_SHEET_SIZE, 0);
    lend_null(&meter.sheet);
    expect_number(2, call_sheet_check(&meter), "sheet_check");
    expect_number(2, call_bank_check(&meter), "bank_check");
    expect_number(2, call_bank_fresh(&meter), "bank_fresh");
    expect_number(2, call_post(&meter, 0x0200), "post");
    expect_number(2, call_set_mark(&meter, 0), "set_mark");
    expect_number(2, call_why(&meter), "why");
    expect_number(2, call_answer(&meter), "answer");
}

static void null_bank(void)
{
    at_case("no bank");
    meter_fresh(&meter, cedarskein_ux_sheet, CEDARSKEIN_UX_SHEET_SIZE, 0);
    lend_null(&meter.bank);
    expect_number(3, call_bank_check(&meter), "bank_check");
    expect_number(3, call_bank_fresh(&meter), "bank_fresh");
    expect_number(3, call_post(&meter, 0x0200), "post");
    expect_number(3, call_set_mark(&meter, 0), "set_mark");
    expect_number(3, call_why(&meter), "why");
    expect_number(3, call_answer(&meter), "answer");
}

/* No frame, no out, no words; and none of anything. */
static void nulls(void)
{
    null_sheet();
    null_bank();
    null_ring();
    null_record();
    null_box();
    at_case("no frame, no out, no words");
    meter_fresh(&meter, cedarskein_ux_sheet, CEDARSKEIN_UX_SHEET_SIZE, 0);
    lend_null(&meter.words);
    expect_number(7, call_post(&meter, 0x0200), "post");
    lend_null(&meter.frame);
    expect_number(0, call_why(&meter), "why without a frame");
    expect_number(CEDARSKEIN_TOO_SHORT, meter.reason, "the reason without a frame");
    expect_number(1, call_answer(&meter), "answer without a frame");
    lend_null(&meter.out);
    expect_number(5, call_answer(&meter), "answer without out");
    lend_null(&meter.bank);
    lend_null(&meter.sheet);
    expect_number(2, call_answer(&meter), "answer without anything");
    expect_number(2, call_why(&meter), "why without anything");
    expect_number(0xFFFF, cedarskein_check_value(NULL, 0), "check_value of nothing");
}

static void all_sizes(void)
{
    size_t i;
    for (i = 0; i < sizeof out_sizes / sizeof out_sizes[0]; i++)
        frames_into(out_sizes[i]);
}

static void all_shifts(void)
{
    size_t shift;
    for (shift = 0; shift < LENT_SHIFTS; shift++) {
        shifted(shift);
        ring_shifted(shift);
        box_shifted(shift);
    }
}

int main(void)
{
    all_sizes();
    all_shifts();
    nulls();
    return told("frames and replies of 0 to 300 bytes, buffers of 0, 1, 99, 100, 101 and 5000, every alignment, null for nothing");
}
