/* Whole exchanges: the box builds a query, a meter answers it, and the box reads what comes back. At the makers' sheets and at two with a
 * history: values, records, what is done and each error; a new station and a new rate; silence where another station is meant; and replies
 * that are damaged on their way. What a call must leave alone is looked at in calls.c. */
#include "calls.h"

#include "cedarskein.h"
#include "cedarskein_registers.h"
#include "cedarskein_sheets.h"
#include "expect.h"

#include <stdio.h>
#include <string.h>

enum { READ = CEDARSKEIN_READ, RECORD = CEDARSKEIN_RECORD, WRITE = CEDARSKEIN_WRITE, WRITES = CEDARSKEIN_WRITES,
       CLEAR = CEDARSKEIN_CLEAR, ORDERS = 5 };
enum { MOST_READ = 47, READ_ONLY = 1, WRITE_ONLY = 2 };

static struct box box;

/* ---- The meters ---- */

#define HISTORY_FILE "../sheets/history_example.sheet"

struct sheet {
    const char *name;
    const uint8_t *bytes;
    size_t n;
};

static struct meter meter;
static const struct sheet *at_sheet;
static uint8_t history[CEDARSKEIN_LONGEST_SHEET], few_records[CEDARSKEIN_UX_SHEET_SIZE + RECORD_ROW];
static struct sheet sheets[6] = {
    { "UX15/25", cedarskein_ux_sheet, CEDARSKEIN_UX_SHEET_SIZE },
    { "AS-WE 40", cedarskein_aswe_40_sheet, CEDARSKEIN_ASWE_40_SHEET_SIZE },
    { "AS-WE 50", cedarskein_aswe_50_sheet, CEDARSKEIN_ASWE_50_SHEET_SIZE },
    { "AS-WE 80", cedarskein_aswe_80_sheet, CEDARSKEIN_ASWE_80_SHEET_SIZE },
    { "UX15/25 with records", few_records, sizeof few_records },
    { "the example with a history", history, 0 }
};

/* A sheet's own words: its areas, and where it has the station, the rate and the clear. */
static uint16_t sheet_word(size_t place)
{
    return word_at(meter.sheet.bytes, place);
}

struct area {
    uint16_t first, last, place, access;
};

static struct area area_of(size_t k)
{
    struct area area;
    area.first = sheet_word(12 + 4 * k);
    area.last = sheet_word(13 + 4 * k);
    area.place = sheet_word(14 + 4 * k);
    area.access = sheet_word(15 + 4 * k);
    return area;
}

static uint16_t address_at(uint16_t place)
{
    size_t k = 0;
    while (place - area_of(k).place > area_of(k).last - area_of(k).first)
        k++;
    return (uint16_t)(area_of(k).first + place - area_of(k).place);
}

/* Readings that are noise, so that each value tells its register; and the mark set. */
static void start(const struct sheet *sheet)
{
    size_t k;
    at_case("%s", sheet->name);
    at_sheet = sheet;
    meter_fresh(&meter, sheet->bytes, sheet->n, 0);
    for (k = 0; k < sheet_word(1); k++) {
        struct area area = area_of(k);
        lend(&meter.words, 2 * (size_t)(area.last - area.first + 1), k);
        expect_number(area.access == READ_ONLY ? 0 : 6, call_post(&meter, area.first), "post");
    }
    expect_number(CEDARSKEIN_DONE, call_set_mark(&meter, 1), "set_mark");
}

static uint8_t meter_station(void)
{
    return station_of(meter.sheet.bytes, meter.bank.bytes);
}

/* ---- The exchange ---- */

/* A built query is never silent by its length, and never an error for its count but where a read starts at a record. */
static void expect_judged(void)
{
    struct records records = records_of(meter.sheet.bytes, meter.sheet.n);
    int at_record = box.order == READ && box.address - records.first < records.count;
    expect_number(CEDARSKEIN_DONE, call_why(&meter), "why");
    expect(meter.reason == CEDARSKEIN_NO_REASON || meter.reason == CEDARSKEIN_STATION || meter.reason == CEDARSKEIN_FUNCTION
               || meter.reason == CEDARSKEIN_ADDRESS || meter.reason == CEDARSKEIN_ITEM
               || (meter.reason == CEDARSKEIN_COUNT && at_record), "the reason is one that an order can have");
}

/* The query goes to the meter, and what it answers comes back: the number that this is read with, or silence. */
static uint32_t asked(void)
{
    static const uint8_t codes[11] = { 0, 0, 0, 0, 0, 1, 0, 3, 2, 3, 3 };
    uint32_t number = call_query(&box);
    expect_number(CEDARSKEIN_DONE, number, "query");
    if (number != CEDARSKEIN_DONE || box.length > CEDARSKEIN_LONGEST_FRAME)
        return number;
    lend_copy(&meter.frame, box.out.bytes, box.length, box.length % LENT_SHIFTS);
    expect_judged();
    number = call_answer(&meter);
    expect((number == CEDARSKEIN_SILENCE) == (meter.reason == CEDARSKEIN_STATION), "silence is for another station alone");
    if (number != CEDARSKEIN_DONE)
        return number;
    lend_copy(&box.reply, meter.out.bytes, meter.length, meter.length % LENT_SHIFTS);
    number = call_reply(&box);
    if (number == CEDARSKEIN_DONE && meter.reason <= CEDARSKEIN_ITEM)
        expect_number(codes[meter.reason], box.error, "the error of what the meter judged");
    return number;
}

static void ask(uint32_t kind, uint32_t address, uint32_t number)
{
    at_case("%s, order %lu at %04lX, number %lX", at_sheet->name, (unsigned long)kind, (unsigned long)address, (unsigned long)number);
    box_order(&box, kind, meter_station(), address, number, address % LENT_SHIFTS);
}

static void expect_error(uint32_t error)
{
    expect_number(CEDARSKEIN_DONE, asked(), "the exchange");
    expect_number(error, box.error, "the error");
}

static void expect_bank_words(uint16_t place, uint16_t count)
{
    expect_error(0);
    expect(box.length == 2u * count && memcmp(box.out.bytes, meter.bank.bytes + 2 * (size_t)place, box.length) == 0,
           "the values are the bank's words");
}

/* Every run inside an area, which brings the bank's words where it can be read; one that begins in front of it and one that ends behind it,
 * where no sheet here has a register. */
static void reads_of_area(struct area area)
{
    uint16_t first, count;
    for (first = area.first; first <= area.last; first++)
        for (count = 1; count <= area.last - first + 1 && count <= MOST_READ; count++) {
            ask(READ, first, count);
            if (area.access == WRITE_ONLY)
                expect_error(2);
            else
                expect_bank_words((uint16_t)(area.place + first - area.first), count);
        }
    ask(READ, area.first - 1u, 2);
    expect_error(2);
    ask(READ, area.last, 2);
    expect_error(2);
}

/* An item's row of the sheet: its kind, its place, and the lower words of its bounds. */
struct item {
    uint16_t kind, place, low, high;
};

static struct item item_of(size_t k)
{
    size_t row = sheet_word(4) + 6 * k;
    struct item item;
    item.kind = sheet_word(row);
    item.place = sheet_word(row + 1);
    item.low = sheet_word(row + 3);
    item.high = sheet_word(row + 5);
    return item;
}

static int is_setting(uint16_t place)
{
    return place == sheet_word(8) || place == sheet_word(9);
}

/* Each bound is stored, and a value beyond it is not. Station and rate are left as they are here. */
static void writes_of_item(struct item item)
{
    uint16_t address = address_at(item.place);
    if (item.kind == 2 || is_setting(item.place))
        return;
    ask(WRITE, address, item.high);
    expect_error(0);
    expect_number(item.high, word_at(meter.bank.bytes, item.place), "the word is then");
    ask(WRITE, address, item.low);
    expect_error(0);
    expect_number(item.low, word_at(meter.bank.bytes, item.place), "the word is then");
    if (item.high == 0xFFFF)
        return;
    ask(WRITE, address, item.high + 1u);
    expect_error(3);
    expect_number(item.low, word_at(meter.bank.bytes, item.place), "the word is as it was");
}

/* One write and several of what the bank holds: done where the area takes writes. A run that leaves its area is refused. */
static void writes_of_area(struct area area)
{
    uint16_t words = (uint16_t)(area.last - area.first + 1);
    uint8_t *bank = meter.bank.bytes + 2 * (size_t)area.place;
    ask(WRITE, area.first, word_at(bank, 0));
    expect_error(area.access == READ_ONLY ? 2 : 0);
    ask(WRITES, area.first, 0);
    lend_copy(&box.values, bank, 2 * (size_t)words, 5);
    expect_error(area.access == READ_ONLY ? 2 : 0);
    ask(WRITES, area.last, 0);
    lend_copy(&box.values, bank + 2 * (size_t)(words - 1), 2, 5);
    expect_error(area.access == READ_ONLY ? 2 : 0);
    lent_resize(&box.values, 4);
    expect_error(2);
}

/* A clear at its address, elsewhere, and where the sheet does not allow it. */
static void clears(void)
{
    int allowed = (sheet_word(6) & 2) != 0;
    ask(CLEAR, sheet_word(10) + 1u, 0xFF00);
    expect_error(allowed ? 2 : 1);
    expect_number(1, word_at(meter.bank.bytes, sheet_word(5)), "the mark is as it was");
    ask(CLEAR, sheet_word(10), 0xFF00);
    expect_error(allowed ? 0 : 1);
    expect_number(allowed ? 0 : 1, word_at(meter.bank.bytes, sheet_word(5)), "the mark is then");
}

static void registers(void)
{
    size_t k;
    for (k = 0; k < sheet_word(1); k++)
        reads_of_area(area_of(k));
    for (k = 0; k < sheet_word(3); k++)
        writes_of_item(item_of(k));
    for (k = 0; k < sheet_word(1); k++)
        writes_of_area(area_of(k));
    ask(WRITES, address_at(sheet_word(8)), 0);
    lend(&box.values, 2, 0);
    set_word(box.values.bytes, 0, 0);
    expect_error(3);
    clears();
}

/* ---- A new station and a new rate ---- */

/* The echo comes from the station and at the rate before; then the meter is where it was told to be, and nowhere else. */
static void moves_to(uint8_t station, uint16_t rate)
{
    uint8_t before = meter_station(), rate_before = rate_of(meter.sheet.bytes, meter.bank.bytes);
    ask(WRITE, address_at(sheet_word(9)), rate);
    expect_error(0);
    expect_number(rate_before, meter.rate, "the rate of the echo");
    ask(WRITE, address_at(sheet_word(8)), station);
    expect_error(0);
    expect_number(rate, meter.rate, "the rate of what is asked next");
    ask(READ, address_at(sheet_word(8)), 1);
    expect_bank_words(sheet_word(8), 1);
    expect_number(station, word_at(box.out.bytes, 0), "the station that is read");
    box_order(&box, READ, before, address_at(sheet_word(8)), 1, 0);
    expect_number(station == before ? CEDARSKEIN_DONE : CEDARSKEIN_SILENCE, asked(), "the exchange at the station before");
}

/* Rate and station by one 10, and what is behind the station in every sheet here, of which FFFF is a bad value: the error comes from the
 * station before too, with what was ahead of it stored. */
static void moves_by_10(uint8_t station, uint16_t rate, int bad_behind)
{
    uint8_t before = meter_station();
    ask(WRITES, address_at(sheet_word(9)), 0);
    lend(&box.values, bad_behind ? 6 : 4, 1);
    set_word(box.values.bytes, 0, rate);
    set_word(box.values.bytes, 1, station);
    if (bad_behind)
        set_word(box.values.bytes, 2, 0xFFFF);
    expect_number(sheet_word(9) + 1u, sheet_word(8), "the station is behind the rate");
    expect_error(bad_behind ? 3 : 0);
    expect_number(before, box.reply.bytes[0], "the station of the reply");
    expect_number(rate, rate_of(meter.sheet.bytes, meter.bank.bytes), "the rate is then");
    ask(READ, address_at(sheet_word(8)), 1);
    expect_number(station, box.station, "the station is then");
    expect_bank_words(sheet_word(8), 1);
}

static void stations(void)
{
    static const uint8_t tried[6] = { 2, 17, 17, 128, 247, 1 };
    size_t k;
    for (k = 0; k < sizeof tried; k++) {
        moves_to(tried[k], (uint16_t)(k % 2));
        moves_by_10((uint8_t)(248 - tried[k]), (uint16_t)((k + 1) % 2), 0);
        moves_by_10((uint8_t)(100 + k), (uint16_t)(k % 2), 1);
    }
}

/* Silence is for every station but the bank's own. */
static void silences(uint8_t station)
{
    uint32_t asked_for, kind;
    start(&sheets[0]);
    set_word(meter.bank.bytes, sheet_word(8), station);
    for (asked_for = 1; asked_for <= 247; asked_for++)
        for (kind = 0; kind < ORDERS; kind++) {
            at_case("order %lu for station %lu at a meter of station %u", (unsigned long)kind, (unsigned long)asked_for, station);
            box_order(&box, kind, asked_for, CEDARSKEIN_UX_PULSE_CONSTANT, 1, 0);
            lend(&box.values, 2, 0);
            expect_number(asked_for == station ? CEDARSKEIN_DONE : CEDARSKEIN_SILENCE, asked(), "the exchange");
        }
}

/* ---- A history ---- */

static void add_records(unsigned many)
{
    while (many-- > 0) {
        lend(&meter.record, meter.record.n, many % LENT_SHIFTS);
        expect_number(CEDARSKEIN_DONE, call_add_record(&meter), "add_record");
    }
}

/* Record k is read as its words by an order that has as many, and by no other. */
static void record_is(struct records records, unsigned k)
{
    uint16_t place = (uint16_t)((word_at(meter.ring.bytes, 0) + records.count - (k - 1)) % records.count);
    uint32_t address = records.first + k - 1u, words;
    ask(RECORD, address, records.words);
    expect_error(0);
    expect(memcmp(box.out.bytes, meter.ring.bytes + record_at(records, place), box.length) == 0, "the values are the record's words");
    for (words = 1; words <= MOST_READ; words++) {
        if (words == records.words)
            continue;
        ask(RECORD, address, words);
        expect_number(CEDARSKEIN_REPLY_BODY, asked(), "the exchange with other words");
    }
    ask(READ, address, 1);
    expect_number(records.words == 1 ? CEDARSKEIN_DONE : CEDARSKEIN_REPLY_BODY, asked(), "a read of one register at a record");
    ask(READ, address, 2);
    expect_error(3);
}

static void records(unsigned stored)
{
    struct records records = records_of(meter.sheet.bytes, meter.sheet.n);
    add_records(stored);
    record_is(records, 1);
    record_is(records, stored < records.count ? stored : records.count);
    if (stored < records.count) {
        ask(RECORD, records.first + stored, records.words);
        expect_error(2);
    }
    ask(RECORD, records.first - 1u, 1);
    expect_number(CEDARSKEIN_DONE, asked(), "a record in front of the records");
    ask(RECORD, records.first + (uint32_t)records.count, records.words);
    expect_error(2);
    ask(WRITE, records.first, 0);
    expect_error(2);
    ask(WRITES, records.first, 0);
    lend(&box.values, 2, 0);
    expect_error(2);
    ask(CLEAR, records.first, 0);
    expect_error(2);
}

/* ---- Replies of a meter, damaged on their way ---- */

/* A right reply with bits of it changed, as they are counted in sending order: refused, whatever else it says now. */
static void hit(const uint8_t *right, size_t n, size_t bit, uint32_t pattern)
{
    size_t k;
    at_case("a reply of %lu bytes to order %lu, pattern %lX from bit %lu on", (unsigned long)n, (unsigned long)box.order,
            (unsigned long)pattern, (unsigned long)bit);
    memcpy(box.reply.bytes, right, n);
    for (k = 0; k < 32; k++)
        if (pattern >> k & 1)
            box.reply.bytes[(bit + k) / 8] ^= (uint8_t)(1u << (bit + k) % 8);
    expect_number(CEDARSKEIN_REPLY_DAMAGED, call_reply(&box), "reply");
}

/* Two bits, however far apart. */
static void hit_two(const uint8_t *right, size_t n, size_t bit, size_t other)
{
    at_case("a reply of %lu bytes to order %lu, bits %lu and %lu", (unsigned long)n, (unsigned long)box.order, (unsigned long)bit,
            (unsigned long)other);
    memcpy(box.reply.bytes, right, n);
    box.reply.bytes[bit / 8] ^= (uint8_t)(1u << bit % 8);
    box.reply.bytes[other / 8] ^= (uint8_t)(1u << other % 8);
    expect_number(CEDARSKEIN_REPLY_DAMAGED, call_reply(&box), "reply");
}

/* Each bit alone, each two of a short reply and some of a long one, three, and a run of sixteen from each bit on. */
static void damaged(const uint8_t *right, size_t n)
{
    size_t bit, other;
    for (bit = 0; bit < 8 * n; bit++)
        hit(right, n, bit, 1);
    for (bit = 0; bit < 8 * n; bit++)
        for (other = bit + 1; other < 8 * n; other += n < 10 ? 1 : 17)
            hit_two(right, n, bit, other);
    for (bit = 0; bit + 32 <= 8 * n; bit++)
        hit(right, n, bit, 0x80000001 | 1u << (1 + bit % 30));
    for (bit = 0; bit + 16 <= 8 * n; bit++) {
        hit(right, n, bit, 0xFFFF);
        hit(right, n, bit, 0x8001u | (uint32_t)(256 * noise() + noise()));
    }
    memcpy(box.reply.bytes, right, n);
}

/* Order 3 has the number as its one value. */
static void damaged_exchange(uint32_t kind, uint32_t address, uint32_t number, uint32_t error)
{
    uint8_t right[CEDARSKEIN_LONGEST_FRAME];
    size_t n;
    ask(kind, address, number);
    lend(&box.values, 2, 0);
    set_word(box.values.bytes, 0, (uint16_t)number);
    expect_error(error);
    n = box.reply.n;
    memcpy(right, box.reply.bytes, n);
    damaged(right, n);
    expect_number(CEDARSKEIN_DONE, call_reply(&box), "the reply as it was sent");
}

static void damaged_exchanges(void)
{
    start(&sheets[4]);
    add_records(1);
    damaged_exchange(READ, CEDARSKEIN_UX_REFERENCE_TEMPERATURE, 23, 0);
    damaged_exchange(READ, CEDARSKEIN_UX_FLOW, 1, 0);
    damaged_exchange(RECORD, 0x0400, 22, 0);
    damaged_exchange(WRITE, CEDARSKEIN_UX_PULSE_CONSTANT, 4, 0);
    damaged_exchange(WRITES, CEDARSKEIN_UX_GAS_PRESSURE_SETTING, 5000, 0);
    damaged_exchange(CLEAR, CEDARSKEIN_UX_VOLUME_ALARM_CLEAR, 0, 0);
    damaged_exchange(READ, 0x0117, 1, 2);
    damaged_exchange(WRITE, CEDARSKEIN_UX_PULSE_CONSTANT, 5, 3);
    damaged_exchange(RECORD, 0x0401, 22, 2);
}

static void make_sheets(void)
{
    static const struct records few = { 0x0400, 3, 22 };
    FILE *file = fopen(HISTORY_FILE, "rb");
    put_records(few_records, cedarskein_ux_sheet, CEDARSKEIN_UX_SHEET_SIZE, few);
    at_case("the file of the example with a history");
    expect(file != NULL, "it can be read");
    if (file == NULL)
        return;
    sheets[5].n = fread(history, 1, sizeof history, file);
    fclose(file);
    expect_number(CEDARSKEIN_DONE, cedarskein_sheet_check(history, sheets[5].n), "sheet_check");
}

static void exchanges(void)
{
    size_t k;
    make_sheets();
    for (k = 0; k < sizeof sheets / sizeof sheets[0] && sheets[k].n > 0; k++) {
        start(&sheets[k]);
        if (records_of(sheets[k].bytes, sheets[k].n).count > 0)
            records(2);
        registers();
        stations();
    }
    start(&sheets[4]);
    records(5);
    silences(1);
    silences(128);
    silences(247);
    damaged_exchanges();
}

int main(void)
{
    exchanges();
    return told("exchanges: queries of the box, answered by meters of six sheets and read again, whole and damaged");
}
