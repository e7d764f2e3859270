/* History records: sheets with a record area, rings of every shape filled past full and read back by frames, and both sides of each limit.
 * What a call must leave alone is looked at in calls.c. */
#include "calls.h"

#include "cedarskein.h"
#include "cedarskein_sheets.h"
#include "expect.h"

#include <string.h>

#define UX_N CEDARSKEIN_UX_SHEET_SIZE
#define ASWE_N CEDARSKEIN_ASWE_40_SHEET_SIZE
#define MOST_RECORDS 6600
#define MOST_WORDS 47
#define HISTORY 0x0400

static struct meter meter;
static struct records records;

/* A meter of a sheet with this record area, its ring empty. */
static void start_with(const uint8_t *sheet, size_t n, uint16_t first, uint16_t count, uint16_t words)
{
    uint8_t bytes[CEDARSKEIN_LONGEST_SHEET];
    records.first = first;
    records.count = count;
    records.words = words;
    meter_fresh(&meter, bytes, put_records(bytes, sheet, n, records), (size_t)(first + count + words) % LENT_SHIFTS);
}

static void start(uint16_t first, uint16_t count, uint16_t words)
{
    start_with(cedarskein_ux_sheet, UX_N, first, count, words);
}

/* ---- Records by their serial number, the first one's 1: the plain list is the numbers themselves ---- */

static void write_record(uint8_t *bytes, unsigned serial)
{
    size_t k;
    for (k = 0; k < records.words; k++)
        set_word(bytes, k, (uint16_t)(40503u * serial + 257u * k));
}

static int holds_record(const uint8_t *bytes, unsigned serial)
{
    uint8_t record[2 * MOST_WORDS];
    write_record(record, serial);
    return memcmp(bytes, record, 2 * (size_t)records.words) == 0;
}

static void lend_record(unsigned serial)
{
    lend(&meter.record, 2 * (size_t)records.words, serial % LENT_SHIFTS);
    write_record(meter.record.bytes, serial);
}

/* How many records are stored once the one with this serial number is. */
static unsigned stored_at(unsigned serial)
{
    return serial < records.count ? serial : records.count;
}

static void frame_of(uint8_t function, uint16_t address, uint16_t second)
{
    uint8_t frame[8] = { 1, 0 };
    frame[1] = function;
    set_word(frame, 1, address);
    set_word(frame, 2, second);
    meter_frame(&meter, frame, sizeof frame, address % LENT_SHIFTS);
}

/* ---- What a frame gets ---- */

static void expect_reason(uint32_t reason, uint32_t address)
{
    expect_number(CEDARSKEIN_DONE, call_why(&meter), "why");
    expect_number(reason, meter.reason, "the reason");
    expect_number(address, meter.address, "the address");
}

static void expect_error(uint8_t code, uint32_t reason, uint32_t address)
{
    uint8_t bank[CEDARSKEIN_LONGEST_BANK];
    memcpy(bank, meter.bank.bytes, meter.bank.n);
    expect_reason(reason, address);
    expect_number(CEDARSKEIN_DONE, call_answer(&meter), "answer");
    expect_number(5, meter.length, "the length of an error");
    expect_number(meter.frame.bytes[1] | 0x80u, meter.out.bytes[1], "the function of an error");
    expect_number(code, meter.out.bytes[2], "the code of an error");
    expect(memcmp(bank, meter.bank.bytes, meter.bank.n) == 0, "nothing is stored");
}

static void expect_record(unsigned serial)
{
    const uint8_t *out = meter.out.bytes;
    expect_reason(CEDARSKEIN_NO_REASON, 0);
    expect_number(CEDARSKEIN_DONE, call_answer(&meter), "answer");
    expect_number(5 + 2u * records.words, meter.length, "the length of a reply with a record");
    expect(out[0] == 1 && out[1] == 3 && out[2] == 2 * records.words, "station, 03, and the record's bytes");
    expect(holds_record(out + 3, serial), "the record");
}

/* A read of a record by its number, with the newest one's serial number. */
static void read_number(unsigned number, unsigned newest)
{
    uint16_t address = (uint16_t)(records.first + number - 1);
    at_case("record %u of %u at %04X, %u words, the newest is the %u. added", number, records.count, records.first, records.words, newest);
    frame_of(3, address, 1);
    if (number <= stored_at(newest))
        expect_record(newest - (number - 1));
    else
        expect_error(2, CEDARSKEIN_ADDRESS, address);
}

/* ---- Small rings: every record is read after each addition ---- */

static void fill_and_read(uint16_t first, uint16_t count, uint16_t words)
{
    unsigned serial, number;
    at_case("%u records of %u words at %04X", count, words, first);
    start(first, count, words);
    expect_number(CEDARSKEIN_DONE, call_ring_check(&meter), "ring_check of an empty ring");
    for (number = 1; number <= count; number++)
        read_number(number, 0);
    for (serial = 1; serial <= 3u * count + 2; serial++) {
        at_case("the %u. record, into %u places of %u words", serial, count, words);
        lend_record(serial);
        expect_number(CEDARSKEIN_DONE, call_add_record(&meter), "add_record");
        expect_number(CEDARSKEIN_DONE, call_ring_check(&meter), "ring_check");
        for (number = 1; number <= count; number++)
            read_number(number, serial);
    }
}

/* ---- Large rings: a ring that is written here beside the one at work, and direct calls ---- */

static uint8_t model[LENT_LONGEST];

static void model_add(unsigned serial)
{
    size_t place = (serial - 1) % records.count;
    write_record(model + record_at(records, place), serial);
    set_word(model, 0, (uint16_t)place);
    set_word(model, 1, (uint16_t)stored_at(serial));
}

static void add_up_to(unsigned last, unsigned serial)
{
    const struct lent *sheet = &meter.sheet, *ring = &meter.ring;
    uint8_t record[2 * MOST_WORDS];
    for (; serial <= last; serial++) {
        write_record(record, serial);
        expect_number(CEDARSKEIN_DONE, cedarskein_add_record(sheet->bytes, sheet->n, ring->bytes, ring->n, record, 2 * (size_t)records.words),
                      "add_record");
        model_add(serial);
    }
    expect(memcmp(model, ring->bytes, ring->n) == 0, "the ring is as the one written beside it");
}

/* One read without the looks at all that is lent, which a large ring makes long. */
static void read_plainly(unsigned number, unsigned newest)
{
    uint8_t out[CEDARSKEIN_LEAST_OUT], frame[8] = { 1, 3, 0, 0, 0, 1 };
    uint32_t length, rate;
    set_word(frame, 1, (uint16_t)(records.first + number - 1));
    seal(frame, sizeof frame);
    at_case("record %u of %u of %u words, the newest is the %u. added", number, records.count, records.words, newest);
    expect_number(CEDARSKEIN_DONE, cedarskein_answer(meter.sheet.bytes, meter.sheet.n, meter.bank.bytes, meter.bank.n, meter.ring.bytes,
                                                     meter.ring.n, frame, sizeof frame, out, sizeof out, &length, &rate), "answer");
    if (number > stored_at(newest))
        expect(length == 5 && out[1] == 0x83 && out[2] == 2, "error 02");
    else
        expect(length == 5 + 2u * records.words && holds_record(out + 3, newest - (number - 1)), "the record");
}

static void read_all(unsigned newest)
{
    unsigned number;
    lent_keep(&meter.ring);
    for (number = 1; number <= records.count; number++)
        read_plainly(number, newest);
    expect(lent_as_before(&meter.ring), "the ring is as before all reads");
    read_number(1, newest);
    read_number(stored_at(newest), newest);
    if (stored_at(newest) < records.count)
        read_number(stored_at(newest) + 1, newest);
    read_number(records.count, newest);
}

static void fill_large(uint16_t first, uint16_t words)
{
    static const unsigned stops[6] = { 1, 3300, 6599, 6600, 6601, 6600 + 4000 };
    unsigned added = 0;
    size_t k;
    start(first, MOST_RECORDS, words);
    memcpy(model, meter.ring.bytes, meter.ring.n);
    for (k = 0; k < sizeof stops / sizeof stops[0]; k++) {
        at_case("up to the %u. record of %u words at %04X", stops[k], words, first);
        add_up_to(stops[k] - 1, added + 1);
        lend_record(stops[k]);
        expect_number(CEDARSKEIN_DONE, call_add_record(&meter), "add_record");
        model_add(stops[k]);
        added = stops[k];
        read_all(added);
    }
    expect_number(2 * (2 + (size_t)MOST_RECORDS * words), meter.ring.n, "the ring's bytes");
    expect_number(CEDARSKEIN_DONE, call_ring_check(&meter), "ring_check");
}

/* ---- Rings as adding never makes them: taken, where no rule of a ring names them ---- */

static void ring_with(uint16_t newest, uint16_t stored)
{
    int sound = newest < records.count && stored <= records.count && (stored != 0 || newest == 0);
    uint32_t number = sound ? CEDARSKEIN_DONE : CEDARSKEIN_BAD_RING;
    at_case("%u places, the newest at %u, %u stored", records.count, newest, stored);
    set_word(meter.ring.bytes, 0, newest);
    set_word(meter.ring.bytes, 1, stored);
    frame_of(3, 0x0100, 1);
    expect_number(number, call_ring_check(&meter), "ring_check");
    expect_number(number, call_why(&meter), "why");
    expect_number(number, call_answer(&meter), "answer");
    lend_record(7);
    expect_number(number, call_add_record(&meter), "add_record");
    expect_number(CEDARSKEIN_DONE, call_bank_check(&meter), "bank_check does not know the ring");
    expect_number(CEDARSKEIN_DONE, call_post(&meter, 0x0200), "post does not know the ring");
    expect_number(CEDARSKEIN_DONE, call_set_mark(&meter, 0), "set_mark does not know the ring");
    expect_number(CEDARSKEIN_DONE, call_bank_fresh(&meter), "bank_fresh does not know the ring");
}

/* The record at place p is that of serial number p + 1, whatever the two words are. */
static void read_around(uint16_t newest, uint16_t stored)
{
    unsigned number;
    size_t place;
    for (place = 0; place < records.count; place++)
        write_record(meter.ring.bytes + record_at(records, place), (unsigned)place + 1);
    set_word(meter.ring.bytes, 0, newest);
    set_word(meter.ring.bytes, 1, stored);
    for (number = 1; number <= records.count; number++) {
        at_case("record %u of %u, the newest at %u, %u stored", number, records.count, newest, stored);
        frame_of(3, (uint16_t)(records.first + number - 1), 1);
        if (number <= stored)
            expect_record((newest + records.count - (number - 1)) % records.count + 1);
        else
            expect_error(2, CEDARSKEIN_ADDRESS, records.first + number - 1u);
    }
}

static void odd_rings(uint16_t count, uint16_t words)
{
    static const uint16_t far[5] = { 0x0100, 0x0101, 0x7FFF, 0x8000, 0xFFFF };
    uint16_t newest, stored;
    size_t k;
    start(HISTORY, count, words);
    for (newest = 0; newest < count + 2; newest++)
        for (stored = 0; stored < count + 2; stored++) {
            ring_with(newest, stored);
            if (newest < count && stored <= count && (stored != 0 || newest == 0))
                read_around(newest, stored);
        }
    for (k = 0; k < sizeof far / sizeof far[0]; k++) {
        ring_with(far[k], 1);
        ring_with(0, far[k]);
        ring_with(far[k], 0);
    }
}

static void ring_sizes(uint16_t count, uint16_t words)
{
    size_t right, n;
    start(HISTORY, count, words);
    right = meter.ring.n;
    for (n = 0; n <= right + 2; n++) {
        uint32_t number = n == right ? CEDARSKEIN_DONE : CEDARSKEIN_BAD_RING;
        at_case("a ring of %lu bytes for %u records of %u words", (unsigned long)n, count, words);
        start(HISTORY, count, words);
        lent_resize(&meter.ring, n);
        expect_number(number, call_ring_check(&meter), "ring_check");
        expect_number(number, call_why(&meter), "why");
        expect_number(number, call_answer(&meter), "answer");
        expect_number(number, call_add_record(&meter), "add_record");
    }
}

static void record_sizes(uint16_t words)
{
    size_t n;
    for (n = 0; n <= 2u * MOST_WORDS + 4; n++) {
        at_case("a record of %lu bytes for %u words", (unsigned long)n, words);
        start(HISTORY, 3, words);
        lend(&meter.record, n, n % LENT_SHIFTS);
        expect_number(n == 2u * words ? CEDARSKEIN_DONE : CEDARSKEIN_BAD_INPUT, call_add_record(&meter), "add_record");
    }
}

/* ---- The sheet's rules ---- */

static void row_is(uint32_t number, uint16_t first, uint16_t count, uint16_t words)
{
    start(first, count, words);
    at_case("a record area at %04X of %u records of %u words", first, count, words);
    expect_number(number, call_sheet_check(&meter), "sheet_check");
    expect_number(number, call_ring_check(&meter), "ring_check");
    expect_number(number, call_add_record(&meter), "add_record");
    expect_number(number, call_why(&meter), "why");
    expect_number(number, call_answer(&meter), "answer");
}

static void rows_by_size(void)
{
    row_is(2, HISTORY, 0, 1);
    row_is(0, HISTORY, 1, 1);
    row_is(0, HISTORY, MOST_RECORDS, 1);
    row_is(2, HISTORY, MOST_RECORDS + 1, 1);
    row_is(2, HISTORY, 0xFFFF, 1);
    row_is(2, HISTORY, 1, 0);
    row_is(0, HISTORY, 1, MOST_WORDS);
    row_is(2, HISTORY, 1, MOST_WORDS + 1);
    row_is(2, HISTORY, 1, 0x0101);
    row_is(2, HISTORY, 1, 0xFFFF);
    row_is(0, HISTORY, MOST_RECORDS, MOST_WORDS);
}

/* UX15/25 has areas 0100 to 0116 and 0200 to 020A, and its clear address is 0300. */
static void rows_by_place(void)
{
    row_is(0, 0xFFFF, 1, 1);
    row_is(2, 0xFFFF, 2, 1);
    row_is(0, 0x10000 - MOST_RECORDS, MOST_RECORDS, 1);
    row_is(2, 0x10000 - MOST_RECORDS + 1, MOST_RECORDS, 1);
    row_is(0, 0x0000, 0x0100, 1);
    row_is(2, 0x0000, 0x0101, 1);
    row_is(2, 0x0000, MOST_RECORDS, 1);
    row_is(0, 0x0117, 0x0200 - 0x0117, 1);
    row_is(2, 0x0117, 0x0200 - 0x0117 + 1, 1);
    row_is(2, 0x0116, 1, 1);
    row_is(2, 0x0110, 2, 1);
    row_is(2, 0x00FF, 0x0118 - 0x00FF, 1);
    row_is(2, 0x01FF, 0x020C - 0x01FF, 1);
    row_is(2, 0x020A, 1, 1);
    row_is(0, 0x020B, 0x0300 - 0x020B, 1);
    row_is(2, 0x020B, 0x0300 - 0x020B + 1, 1);
    row_is(2, 0x0300, 1, 1);
    row_is(2, 0x02FF, 3, 1);
    row_is(0, 0x0301, MOST_RECORDS, 1);
}

/* A word of the sheet changed, or its end: word 11 and the three words go together, and word 7 counts them. */
static void word_is(uint32_t number, size_t place, uint16_t word, size_t sheet_n, const char *what)
{
    start(HISTORY, 3, 22);
    at_case("%s", what);
    set_word(meter.sheet.bytes, place, word);
    lent_resize(&meter.sheet, sheet_n);
    expect_number(number, call_sheet_check(&meter), "sheet_check");
    expect_number(number, call_ring_check(&meter), "ring_check");
    expect_number(number, call_answer(&meter), "answer");
}

static void words_of_the_header(void)
{
    size_t n = UX_N + RECORD_ROW;
    word_is(0, 11, 1, n, "word 11 is 1, with three words");
    word_is(2, 11, 0, n, "word 11 is 0, with three words");
    word_is(2, 11, 2, n, "word 11 is 2, with three words");
    word_is(2, 11, 0x0100, n, "word 11 is 0100, with three words");
    word_is(2, 11, 0x0101, n, "word 11 is 0101, with three words");
    word_is(2, 11, 0xFFFF, n, "word 11 is FFFF, with three words");
    word_is(2, 7, UX_N / 2, n, "word 7 leaves the three words out");
    word_is(2, 7, UX_N / 2, UX_N, "word 11 is 1, without three words");
    word_is(2, 7, UX_N / 2 + 2, n - 2, "word 11 is 1, with two words");
    word_is(2, 7, UX_N / 2 + 4, n + 2, "word 11 is 1, with four words");
    word_is(2, 7, UX_N / 2 + 3, n + 1, "a byte more");
    word_is(0, 6, 14, n, "03 is not allowed");
    word_is(2, 0, 0, n, "version 0");
    word_is(0, 0, 2, n, "version 2");
    word_is(2, 0, 3, n, "version 3");
}

/* One record area, or none: a second one is not taken, though word 7 counts it. */
static void two_areas(void)
{
    start(HISTORY, 3, 22);
    at_case("word 11 is 2, and word 7 counts six words");
    lent_resize(&meter.sheet, UX_N + 2 * RECORD_ROW);
    memcpy(meter.sheet.bytes + UX_N + RECORD_ROW, meter.sheet.bytes + UX_N, RECORD_ROW);
    set_word(meter.sheet.bytes, 7, (UX_N + 2 * RECORD_ROW) / 2);
    set_word(meter.sheet.bytes, 11, 2);
    expect_number(CEDARSKEIN_SHEET_BREAKS_RULE, call_sheet_check(&meter), "sheet_check");
    expect_number(CEDARSKEIN_SHEET_BREAKS_RULE, call_ring_check(&meter), "ring_check");
    lend_null(&meter.ring);
    expect_number(CEDARSKEIN_SHEET_BREAKS_RULE, call_ring_check(&meter), "ring_check without a ring");
    expect_number(CEDARSKEIN_SHEET_BREAKS_RULE, call_answer(&meter), "answer without a ring");
}

/* Where 05 is not allowed word 10 is 0 and no clear address: 0 may be a record's. Where it is, and is there, it may not. */
static void records_at_0(void)
{
    start_with(cedarskein_aswe_40_sheet, ASWE_N, 0, 0x00FF, 5);
    at_case("AS-WE with records from 0 on");
    expect_number(CEDARSKEIN_DONE, call_sheet_check(&meter), "sheet_check");
    lend_record(1);
    expect_number(CEDARSKEIN_DONE, call_add_record(&meter), "add_record");
    frame_of(3, 0, 1);
    expect_record(1);
    start(0, 2, 5);
    at_case("UX15/25 with records from 0 on and the clear address there");
    set_word(meter.sheet.bytes, 10, 0);
    expect_number(CEDARSKEIN_SHEET_BREAKS_RULE, call_sheet_check(&meter), "sheet_check");
    set_word(meter.sheet.bytes, 10, 1);
    expect_number(CEDARSKEIN_SHEET_BREAKS_RULE, call_sheet_check(&meter), "sheet_check");
    set_word(meter.sheet.bytes, 10, 2);
    expect_number(CEDARSKEIN_DONE, call_sheet_check(&meter), "sheet_check, the clear address behind them");
    start(0x02FF, 3, 5);
    at_case("UX15/25 without 05, with records where its clear address was");
    set_word(meter.sheet.bytes, 6, 13);
    set_word(meter.sheet.bytes, 10, 0);
    expect_number(CEDARSKEIN_DONE, call_sheet_check(&meter), "sheet_check");
}

/* 8 areas of 8 words, 64 items: with a record area the longest sheet there is. */
static size_t longest_sheet(uint8_t *sheet)
{
    static const uint16_t header[12] = { 1, 8, 12, 64, 44, 64, 15, 428, 0, 1, 0x0080, 0 };
    size_t k;
    for (k = 0; k < 12; k++)
        set_word(sheet, k, header[k]);
    for (k = 0; k < 8; k++) {
        set_word(sheet, 12 + 4 * k, (uint16_t)(0x0100 * (k + 1)));
        set_word(sheet, 13 + 4 * k, (uint16_t)(0x0100 * (k + 1) + 7));
        set_word(sheet, 14 + 4 * k, (uint16_t)(8 * k));
        set_word(sheet, 15 + 4 * k, 3);
    }
    for (k = 0; k < 64; k++) {
        memset(sheet + 2 * (44 + 6 * k), 0, 12);
        set_word(sheet, 45 + 6 * k, (uint16_t)k);
        set_word(sheet, 47 + 6 * k, k == 0);
        set_word(sheet, 49 + 6 * k, k == 0 ? 0xF7 : 1);
    }
    return 856;
}

static void largest(void)
{
    uint8_t sheet[CEDARSKEIN_LONGEST_SHEET];
    size_t n = longest_sheet(sheet);
    unsigned serial;
    start_with(sheet, n, 0x0808, MOST_RECORDS, MOST_WORDS);
    at_case("the longest sheet");
    expect_number(CEDARSKEIN_LONGEST_SHEET, meter.sheet.n, "its bytes");
    expect_number(CEDARSKEIN_DONE, call_sheet_check(&meter), "sheet_check");
    for (serial = 1; serial <= 3; serial++) {
        lend_record(serial);
        expect_number(CEDARSKEIN_DONE, call_add_record(&meter), "add_record");
    }
    read_number(1, 3);
    read_number(3, 3);
    read_number(4, 3);
    lent_resize(&meter.sheet, CEDARSKEIN_LONGEST_SHEET + 1);
    expect_number(CEDARSKEIN_SHEET_BREAKS_RULE, call_sheet_check(&meter), "sheet_check of a byte more");
}

/* ---- Frames at, into and around a record area ---- */

static void ask(const char *what, uint8_t function, uint16_t address, uint16_t second)
{
    at_case("%s", what);
    frame_of(function, address, second);
}

/* Three records of which two are stored. */
static void start_with_two(uint16_t first)
{
    unsigned serial;
    start(first, 3, 22);
    for (serial = 1; serial <= 2; serial++) {
        lend_record(serial);
        expect_number(CEDARSKEIN_DONE, call_add_record(&meter), "add_record");
    }
}

/* A count other than 1 is told first, whatever else is wrong: behind what is stored, over 47, beyond FFFF. */
static void counts(void)
{
    static const uint16_t others[9] = { 0, 2, 3, 4, 47, 48, 0x0100, 0x0101, 0xFFFF };
    uint16_t number;
    size_t k;
    start_with_two(HISTORY);
    for (k = 0; k < 9; k++)
        for (number = 0; number < 3; number++) {
            at_case("count %u at record %u", others[k], number + 1);
            frame_of(3, (uint16_t)(HISTORY + number), others[k]);
            expect_error(3, CEDARSKEIN_COUNT, 0);
        }
    ask("the address behind the records", 3, HISTORY + 3, 1);
    expect_error(2, CEDARSKEIN_ADDRESS, HISTORY + 3);
    ask("count 0 behind the records", 3, HISTORY + 3, 0);
    expect_error(3, CEDARSKEIN_COUNT, 0);
    ask("count 48 behind the records", 3, HISTORY + 3, 48);
    expect_error(2, CEDARSKEIN_COUNT, 0);
    ask("the address in front of the records", 3, HISTORY - 1, 1);
    expect_error(2, CEDARSKEIN_ADDRESS, HISTORY - 1);
    ask("a run from in front of the records", 3, HISTORY - 1, 2);
    expect_error(2, CEDARSKEIN_ADDRESS, HISTORY - 1);
    start(0xFFFF, 1, 1);
    ask("count 2 at a record at FFFF", 3, 0xFFFF, 2);
    expect_error(3, CEDARSKEIN_COUNT, 0);
    read_number(1, 0);
}

/* Areas right in front of the records and right behind them: a run from an area stops at the first record, one from a record is a count. */
static void neighbours(void)
{
    start_with_two(0x020B);
    ask("the last register in front of the records", 3, 0x020A, 1);
    expect_reason(CEDARSKEIN_NO_REASON, 0);
    ask("a run from an area into the records", 3, 0x020A, 2);
    expect_error(2, CEDARSKEIN_ADDRESS, 0x020B);
    ask("a run from an area over the records", 3, 0x0200, 47);
    expect_error(2, CEDARSKEIN_ADDRESS, 0x020B);
    read_number(1, 2);
    start_with_two(0x01FD);
    ask("the last record and the register behind it", 3, 0x01FF, 2);
    expect_error(3, CEDARSKEIN_COUNT, 0);
    ask("the first register behind the records", 3, 0x0200, 1);
    expect_reason(CEDARSKEIN_NO_REASON, 0);
    read_number(2, 2);
}

static void write_many(uint16_t address, uint16_t words)
{
    uint8_t frame[CEDARSKEIN_LONGEST_FRAME] = { 1, 0x10 };
    set_word(frame, 1, address);
    set_word(frame, 2, words);
    frame[6] = (uint8_t)(2 * words);
    meter_frame(&meter, frame, 9 + 2 * (size_t)words, 0);
}

/* The mark is set, so that a clear that is done is seen. */
static void writes(void)
{
    start_with_two(0x0117);
    expect_number(CEDARSKEIN_DONE, call_set_mark(&meter, 1), "set_mark");
    ask("06 at a record", 6, 0x0117, 0);
    expect_error(2, CEDARSKEIN_ADDRESS, 0x0117);
    ask("05 at a record", 5, 0x0117, 0);
    expect_error(2, CEDARSKEIN_ADDRESS, 0x0117);
    ask("05 at a record, with a wrong value", 5, 0x0117, 1);
    expect_error(2, CEDARSKEIN_ADDRESS, 0x0117);
    at_case("10 at a record");
    write_many(0x0118, 1);
    expect_error(2, CEDARSKEIN_ADDRESS, 0x0118);
    at_case("10 from an area into the records");
    write_many(0x0115, 3);
    expect_error(2, CEDARSKEIN_ADDRESS, 0x0117);
    at_case("10 of no word at a record");
    write_many(0x0117, 0);
    expect_error(3, CEDARSKEIN_COUNT, 0);
    at_case("10 up to the records");
    write_many(0x0115, 2);
    expect_reason(CEDARSKEIN_NO_REASON, 0);
}

static void posted(uint32_t number, uint32_t address, size_t n)
{
    at_case("%lu bytes posted at %lX", (unsigned long)n, (unsigned long)address);
    lend(&meter.words, n, 0);
    expect_number(number, call_post(&meter, address), "post");
}

static void posts(void)
{
    start_with_two(0x020B);
    posted(0, 0x020A, 2);
    posted(6, 0x020A, 4);
    posted(6, 0x020B, 2);
    posted(6, 0x020D, 2);
    posted(7, 0x020B, 1);
    posted(7, 0x020B, 0);
}

/* Silence and error 01 come before any count or address. */
static void earlier_steps(void)
{
    start_with_two(HISTORY);
    at_case("a read of a record with a byte more");
    frame_of(3, HISTORY, 1);
    lent_resize(&meter.frame, 9);
    seal(meter.frame.bytes, 9);
    expect_reason(CEDARSKEIN_BODY_LENGTH, 0);
    expect_number(CEDARSKEIN_SILENCE, call_answer(&meter), "answer");
    at_case("a read of a record for another station");
    frame_of(3, HISTORY, 1);
    meter.frame.bytes[0] = 2;
    seal(meter.frame.bytes, 8);
    expect_reason(CEDARSKEIN_STATION, 0);
    expect_number(CEDARSKEIN_SILENCE, call_answer(&meter), "answer");
    at_case("03 is not allowed");
    set_word(meter.sheet.bytes, 6, 14);
    frame_of(3, HISTORY, 1);
    expect_error(1, CEDARSKEIN_FUNCTION, 0);
}

/* Registers are answered as without records, whatever the ring holds. */
static void registers(void)
{
    start_with_two(HISTORY);
    ask("a write", 6, 0x010F, 1);
    expect_reason(CEDARSKEIN_NO_REASON, 0);
    expect_number(CEDARSKEIN_DONE, call_answer(&meter), "answer");
    expect_number(1, word_at(meter.bank.bytes, 15), "010F is then");
    ask("a clear", 5, 0x0300, 0);
    expect_number(CEDARSKEIN_DONE, call_set_mark(&meter, 1), "set_mark");
    expect_number(CEDARSKEIN_DONE, call_answer(&meter), "answer");
    expect_number(0, word_at(meter.bank.bytes, 34), "the mark is then");
    ask("a read of too many", 3, 0x0100, 48);
    expect_error(2, CEDARSKEIN_COUNT, 0);
}

static void rules(void)
{
    rows_by_size();
    rows_by_place();
    words_of_the_header();
    two_areas();
    records_at_0();
    largest();
    counts();
    neighbours();
    writes();
    posts();
    earlier_steps();
    registers();
}

int main(void)
{
    rules();
    fill_and_read(HISTORY, 1, 1);
    fill_and_read(HISTORY, 1, MOST_WORDS);
    fill_and_read(0xFFFD, 3, 22);
    fill_and_read(0x0000, 3, MOST_WORDS);
    fill_and_read(0x0117, 5, 1);
    odd_rings(1, 1);
    odd_rings(5, 3);
    ring_sizes(1, 1);
    ring_sizes(3, 22);
    record_sizes(1);
    record_sizes(22);
    record_sizes(MOST_WORDS);
    fill_large(HISTORY, 22);
    fill_large(0x10000 - MOST_RECORDS, 1);
    fill_large(HISTORY, MOST_WORDS);
    return told("history records: rings filled past full and read by frames, and both sides of each limit");
}
