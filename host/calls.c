/* Each call of the door, with what it must leave alone looked at afterwards. */
#include "calls.h"

#include "cedarskein.h"
#include "expect.h"

#include <string.h>

/* The numbers that a call hands back beside its own: length, length and rate, length and error, or reason, address and side. */
struct numbers {
    uint32_t front[4], first, between[4], second, between_last[4], third, behind[4];
};

uint16_t word_at(const uint8_t *bytes, size_t place)
{
    return (uint16_t)(256 * bytes[2 * place] + bytes[2 * place + 1]);
}

void set_word(uint8_t *bytes, size_t place, uint16_t word)
{
    bytes[2 * place] = (uint8_t)(word >> 8);
    bytes[2 * place + 1] = (uint8_t)(word & 0xFF);
}

uint8_t station_of(const uint8_t *sheet, const uint8_t *bank)
{
    return bank[2 * (256 * sheet[16] + sheet[17]) + 1];
}

uint8_t rate_of(const uint8_t *sheet, const uint8_t *bank)
{
    return bank[2 * (256 * sheet[18] + sheet[19]) + 1];
}

/* One byte into the check, rules C2 and C3: written here a second time, so that the door's own value is held to it. */
uint16_t check_with(uint16_t value, uint8_t byte)
{
    int bit;
    value ^= byte;
    for (bit = 0; bit < 8; bit++)
        value = (uint16_t)((value & 1) ? (value >> 1) ^ 0xA001 : value >> 1);
    return value;
}

uint16_t check_of(const uint8_t *bytes, size_t n)
{
    uint16_t value = 0xFFFF;
    size_t i;
    for (i = 0; i < n; i++)
        value = check_with(value, bytes[i]);
    return value;
}

void seal(uint8_t *frame, size_t n)
{
    uint16_t value;
    if (n < 2)
        return;
    value = check_of(frame, n - 2);
    frame[n - 2] = (uint8_t)(value & 0xFF);
    frame[n - 1] = (uint8_t)(value >> 8);
}

void meter_frame(struct meter *meter, const uint8_t *bytes, size_t n, size_t shift)
{
    lend_copy(&meter->frame, bytes, n, shift);
    seal(meter->frame.bytes, n);
}

void meter_short_frame(struct meter *meter, uint8_t function, uint16_t address, uint16_t second)
{
    uint8_t frame[8];
    frame[0] = station_of(meter->sheet.bytes, meter->bank.bytes);
    frame[1] = function;
    set_word(frame, 1, address);
    set_word(frame, 2, second);
    meter_frame(meter, frame, sizeof frame, address % LENT_SHIFTS);
}

void meter_write_many(struct meter *meter, uint16_t address, const uint16_t *words, uint16_t count)
{
    uint8_t frame[CEDARSKEIN_LONGEST_FRAME] = { 0, 0x10 };
    size_t k;
    frame[0] = station_of(meter->sheet.bytes, meter->bank.bytes);
    set_word(frame, 1, address);
    set_word(frame, 2, count);
    frame[6] = (uint8_t)(2 * count);
    for (k = 0; k < count; k++)
        set_word(frame + 7, k, words[k]);
    meter_frame(meter, frame, 9 + 2 * (size_t)count, address % LENT_SHIFTS);
}

struct records records_of(const uint8_t *sheet, size_t n)
{
    static const struct records none = { 0, 0, 0 };
    struct records records;
    size_t row = n < 24 ? 0 : 12 + 4 * (size_t)word_at(sheet, 1) + 6 * (size_t)word_at(sheet, 3);
    if (row == 0 || word_at(sheet, 11) != 1 || 2 * (row + 3) > n)
        return none;
    records.first = word_at(sheet, row);
    records.count = word_at(sheet, row + 1);
    records.words = word_at(sheet, row + 2);
    return records.count > 6600 || records.words > 47 ? none : records;
}

size_t record_at(struct records records, size_t place)
{
    return 2 * (2 + place * records.words);
}

size_t ring_size(struct records records)
{
    return records.count == 0 ? 0 : record_at(records, records.count);
}

size_t put_records(uint8_t *into, const uint8_t *sheet, size_t n, struct records records)
{
    memcpy(into, sheet, n);
    set_word(into, 7, (uint16_t)((n + RECORD_ROW) / 2));
    set_word(into, 11, 1);
    set_word(into + n, 0, records.first);
    set_word(into + n, 1, records.count);
    set_word(into + n, 2, records.words);
    return n + RECORD_ROW;
}

/* An empty ring: the two words are 0, and the records' bytes are noise. */
static void lend_ring(struct meter *meter, struct records records, size_t shift)
{
    if (ring_size(records) == 0) {
        lend_null(&meter->ring);
        return;
    }
    lend(&meter->ring, ring_size(records), shift);
    set_word(meter->ring.bytes, 0, 0);
    set_word(meter->ring.bytes, 1, 0);
}

void meter_fresh(struct meter *meter, const uint8_t *sheet, size_t n, size_t shift)
{
    static const uint8_t read_two[8] = { 0x01, 0x03, 0x01, 0x01, 0x00, 0x02 };
    struct records records = records_of(sheet, n);
    size_t bank_words = n < 12 ? 0 : word_at(sheet, 5);
    lend_copy(&meter->sheet, sheet, n, shift);
    lend(&meter->bank, bank_words <= 256 ? 2 * bank_words + 2 : CEDARSKEIN_LONGEST_BANK, shift);
    lend_ring(meter, records, shift);
    meter_frame(meter, read_two, sizeof read_two, shift);
    lend(&meter->out, CEDARSKEIN_LEAST_OUT, shift);
    lend(&meter->words, 2, shift);
    lend(&meter->record, 2 * (size_t)records.words, shift);
    call_bank_fresh(meter);
}

static void keep_all(struct meter *meter)
{
    lent_keep(&meter->sheet);
    lent_keep(&meter->bank);
    lent_keep(&meter->ring);
    lent_keep(&meter->frame);
    lent_keep(&meter->out);
    lent_keep(&meter->words);
    lent_keep(&meter->record);
}

/* What every call leaves alone: all but the bank, out and the ring, and what lies around these. */
static void expect_only_read(const struct meter *meter)
{
    expect(lent_as_before(&meter->sheet), "the sheet is as before");
    expect(lent_as_before(&meter->frame), "the frame is as before");
    expect(lent_as_before(&meter->words), "the posted bytes are as before");
    expect(lent_as_before(&meter->record), "the record is as before");
    expect(lent_as_before_but(&meter->bank, meter->bank.n), "the memory around the bank is as before");
    expect(lent_as_before_but(&meter->out, meter->out.n), "the memory around out is as before");
}

/* The ring too, which one call alone may write. */
static void expect_left_alone(const struct meter *meter)
{
    expect_only_read(meter);
    expect(lent_as_before(&meter->ring), "the ring is as before");
}

/* A number of a call that may write the bank and nothing else. */
static uint32_t banked(const struct meter *meter, uint32_t number)
{
    expect_left_alone(meter);
    expect(lent_as_before(&meter->out), "out is as before");
    if (number != CEDARSKEIN_DONE)
        expect(lent_as_before(&meter->bank), "the bank of a refused call is as before");
    return number;
}

/* A number of a call that writes nothing. */
static uint32_t judged(const struct meter *meter, uint32_t number)
{
    expect(lent_as_before(&meter->bank), "the bank is as before");
    return banked(meter, number);
}

uint32_t call_sheet_check(struct meter *meter)
{
    keep_all(meter);
    return judged(meter, cedarskein_sheet_check(meter->sheet.bytes, meter->sheet.n));
}

uint32_t call_bank_check(struct meter *meter)
{
    keep_all(meter);
    return judged(meter, cedarskein_bank_check(meter->sheet.bytes, meter->sheet.n, meter->bank.bytes, meter->bank.n));
}

uint32_t call_bank_fresh(struct meter *meter)
{
    keep_all(meter);
    return banked(meter, cedarskein_bank_fresh(meter->sheet.bytes, meter->sheet.n, meter->bank.bytes, meter->bank.n));
}

uint32_t call_post(struct meter *meter, uint32_t address)
{
    keep_all(meter);
    return banked(meter, cedarskein_post(meter->sheet.bytes, meter->sheet.n, meter->bank.bytes, meter->bank.n, address,
                                         meter->words.bytes, meter->words.n));
}

uint32_t call_set_mark(struct meter *meter, uint32_t mark)
{
    keep_all(meter);
    return banked(meter, cedarskein_set_mark(meter->sheet.bytes, meter->sheet.n, meter->bank.bytes, meter->bank.n, mark));
}

/* One number is written, two of them, or all three, and nothing around them. */
static void expect_numbers_alone(const struct numbers *numbers, int many)
{
    struct numbers as_written;
    memset(&as_written, 0xA5, sizeof as_written);
    as_written.first = numbers->first;
    if (many >= 2)
        as_written.second = numbers->second;
    if (many == 3)
        as_written.third = numbers->third;
    expect(memcmp(&as_written, numbers, sizeof as_written) == 0, "the memory around the numbers is as before");
}

static int has_check(const uint8_t *frame, size_t n)
{
    uint16_t value = check_of(frame, n - 2);
    return frame[n - 2] == (value & 0xFF) && frame[n - 1] == value >> 8;
}

/* A reply: it passes, it goes out at the rate before the frame from the station before the frame, and out behind it is as before. */
static void expect_reply(const struct meter *meter, uint8_t station, uint8_t rate)
{
    const uint8_t *out = meter->out.bytes;
    uint32_t n = meter->length;
    expect(5 <= n && n <= 99, "a reply has 5 to 99 bytes");
    if (n < 5 || 99 < n)
        return;
    expect(has_check(out, n), "the reply has its check, lower byte first");
    expect(out[0] == station, "the reply is from the station before the frame");
    expect_number(rate, meter->rate, "the reply goes out at the rate before the frame");
    expect(lent_as_before_but(&meter->out, n), "out behind the reply is as before");
}

static void expect_nothing_written(const struct meter *meter)
{
    expect_number(0, meter->length, "length without a reply");
    expect_number(0, meter->rate, "rate without a reply");
    expect(lent_as_before(&meter->bank), "the bank without a reply is as before");
    expect(lent_as_before(&meter->out), "out without a reply is as before");
}

uint32_t call_answer(struct meter *meter)
{
    struct numbers numbers;
    uint32_t number;
    const struct lent *sheet = &meter->sheet, *bank = &meter->bank;
    memset(&numbers, 0xA5, sizeof numbers);
    keep_all(meter);
    number = cedarskein_answer(sheet->bytes, sheet->n, bank->bytes, bank->n, meter->ring.bytes, meter->ring.n, meter->frame.bytes,
                               meter->frame.n, meter->out.bytes, meter->out.n, &numbers.first, &numbers.second);
    meter->length = numbers.first;
    meter->rate = numbers.second;
    expect_left_alone(meter);
    expect_numbers_alone(&numbers, 2);
    if (number == CEDARSKEIN_DONE) {
        const uint8_t *bank_before = bank->before + (bank->bytes - bank->block);
        expect_reply(meter, station_of(sheet->bytes, bank_before), rate_of(sheet->bytes, bank_before));
    } else {
        expect_nothing_written(meter);
    }
    return number;
}

void expect_side_of(uint32_t reason, uint32_t side)
{
    if (reason == CEDARSKEIN_ITEM)
        expect(side == CEDARSKEIN_TOO_LOW || side == CEDARSKEIN_TOO_HIGH, "an item has a side, 1 or 2");
    else
        expect_number(CEDARSKEIN_NO_SIDE, side, "the side where the reason is no item");
}

/* A reason of the header, none with a refusal; and an address and a side where the reason has one. */
static void expect_told(const struct meter *meter, uint32_t number)
{
    expect(meter->reason <= CEDARSKEIN_ITEM, "a reason is 0 to 10");
    expect(meter->address <= 0x10000, "an address is 0 to 10000");
    if (number != CEDARSKEIN_DONE)
        expect_number(CEDARSKEIN_NO_REASON, meter->reason, "the reason of a refused call");
    if (meter->reason != CEDARSKEIN_ADDRESS && meter->reason != CEDARSKEIN_ITEM)
        expect_number(0, meter->address, "the address where the reason has none");
    expect_side_of(meter->reason, meter->side);
}

/* Whatever is told, all that is lent is only read. */
uint32_t call_why(struct meter *meter)
{
    struct numbers numbers;
    uint32_t number;
    memset(&numbers, 0xA5, sizeof numbers);
    keep_all(meter);
    number = cedarskein_why(meter->sheet.bytes, meter->sheet.n, meter->bank.bytes, meter->bank.n, meter->ring.bytes, meter->ring.n,
                            meter->frame.bytes, meter->frame.n, &numbers.first, &numbers.second, &numbers.third);
    meter->reason = numbers.first;
    meter->address = numbers.second;
    meter->side = numbers.third;
    expect_numbers_alone(&numbers, 3);
    expect_told(meter, number);
    return judged(meter, number);
}

uint32_t call_ring_check(struct meter *meter)
{
    keep_all(meter);
    return judged(meter, cedarskein_ring_check(meter->sheet.bytes, meter->sheet.n, meter->ring.bytes, meter->ring.n));
}

/* The ring as it was, with the record behind the newest one and counted, and nothing else in it. */
static void expect_added(const struct meter *meter)
{
    struct records records = records_of(meter->sheet.bytes, meter->sheet.n);
    const uint8_t *before = meter->ring.before + (meter->ring.bytes - meter->ring.block), *after = meter->ring.bytes;
    uint16_t stored = word_at(before, 1);
    size_t place = stored == 0 || word_at(before, 0) + 1u >= records.count ? 0 : word_at(before, 0) + 1u;
    size_t at = record_at(records, place), end = record_at(records, place + 1);
    expect(records.count != 0 && meter->ring.n == ring_size(records), "a record is added to no other than a ring of the sheet");
    if (records.count == 0 || meter->ring.n != ring_size(records))
        return;
    expect_number(place, word_at(after, 0), "the place of the newest record is then");
    expect_number(stored < records.count ? stored + 1u : records.count, word_at(after, 1), "the number stored is then");
    expect(memcmp(after + at, meter->record.bytes, end - at) == 0, "the record is stored whole");
    expect(memcmp(after + 4, before + 4, at - 4) == 0 && memcmp(after + end, before + end, meter->ring.n - end) == 0,
           "the other records are as before");
    expect(lent_as_before_but(&meter->ring, meter->ring.n), "the memory around the ring is as before");
}

uint32_t call_add_record(struct meter *meter)
{
    uint32_t number;
    keep_all(meter);
    number = cedarskein_add_record(meter->sheet.bytes, meter->sheet.n, meter->ring.bytes, meter->ring.n, meter->record.bytes,
                                   meter->record.n);
    expect_only_read(meter);
    expect(lent_as_before(&meter->bank), "the bank is as before");
    expect(lent_as_before(&meter->out), "out is as before");
    if (number == CEDARSKEIN_DONE)
        expect_added(meter);
    else
        expect(lent_as_before(&meter->ring), "the ring of a refused call is as before");
    return number;
}

/* ---- The box that asks ---- */

void box_order(struct box *box, uint32_t order, uint32_t station, uint32_t address, uint32_t number, size_t shift)
{
    box->order = order;
    box->station = station;
    box->address = address;
    box->number = number;
    lend_null(&box->values);
    lend_null(&box->reply);
    lend(&box->out, CEDARSKEIN_LEAST_OUT, shift);
}

void box_reply(struct box *box, const uint8_t *bytes, size_t n, size_t shift)
{
    lend_copy(&box->reply, bytes, n, shift);
    seal(box->reply.bytes, n);
}

static void keep_box(struct box *box)
{
    lent_keep(&box->values);
    lent_keep(&box->reply);
    lent_keep(&box->out);
}

/* What both calls leave alone: all but out, of which a refused call touches nothing either, and one that is done no more than it says. */
static void expect_box_left_alone(const struct box *box, uint32_t number)
{
    expect(lent_as_before(&box->values), "the values are as before");
    expect(lent_as_before(&box->reply), "what came back is as before");
    expect(lent_as_before_but(&box->out, box->out.n), "the memory around out is as before");
    if (number == CEDARSKEIN_DONE)
        return;
    expect(lent_as_before(&box->out), "out of a refused call is as before");
    expect_number(0, box->length, "the length of a refused call");
    expect_number(0, box->error, "the error of a refused call");
}

/* A query: it passes, it is for the order's station, and out behind it is as before. */
static void expect_query(const struct box *box)
{
    uint32_t n = box->length;
    expect(8 <= n && n <= 99, "a query has 8 to 99 bytes");
    if (n < 8 || 99 < n)
        return;
    expect(has_check(box->out.bytes, n), "the query has its check, lower byte first");
    expect_number(box->station, box->out.bytes[0], "the station of the query");
    expect(lent_as_before_but(&box->out, n), "out behind the query is as before");
}

uint32_t call_query(struct box *box)
{
    struct numbers numbers;
    uint32_t number;
    memset(&numbers, 0xA5, sizeof numbers);
    keep_box(box);
    number = cedarskein_query(box->order, box->station, box->address, box->number, box->values.bytes, box->values.n, box->out.bytes,
                              box->out.n, &numbers.first);
    box->length = numbers.first;
    box->error = 0;
    expect_numbers_alone(&numbers, 1);
    expect_box_left_alone(box, number);
    if (number == CEDARSKEIN_DONE)
        expect_query(box);
    return number;
}

/* What a reply says: the values of an order that reads, which stand in the reply behind its byte count; done; or one error of three. */
static void expect_read(const struct box *box)
{
    int reads = box->order == CEDARSKEIN_READ || box->order == CEDARSKEIN_RECORD;
    expect(box->error <= 3, "an error is 0 to 3");
    expect_number(reads && box->error == 0 ? 2 * box->number : 0, box->length, "the bytes of values");
    if (box->length > box->out.n || box->length + 3 > box->reply.n)
        return;
    expect(memcmp(box->out.bytes, box->reply.bytes + 3, box->length) == 0, "the values are the reply's");
    expect(lent_as_before_but(&box->out, box->length), "out behind the values is as before");
}

uint32_t call_reply(struct box *box)
{
    struct numbers numbers;
    uint32_t number;
    memset(&numbers, 0xA5, sizeof numbers);
    keep_box(box);
    number = cedarskein_reply(box->order, box->station, box->address, box->number, box->values.bytes, box->values.n, box->reply.bytes,
                              box->reply.n, box->out.bytes, box->out.n, &numbers.first, &numbers.second);
    box->length = numbers.first;
    box->error = numbers.second;
    expect_numbers_alone(&numbers, 2);
    expect_box_left_alone(box, number);
    if (number == CEDARSKEIN_DONE)
        expect_read(box);
    return number;
}
