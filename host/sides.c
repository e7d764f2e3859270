/* Which end of its range a bad item misses: both sides of both bounds of each kind, in whole pairs and in halves, the first of several bad
 * items, and no side where the reason is no item or the call is refused. What a call must leave alone is looked at in calls.c. */
#include "calls.h"

#include "cedarskein.h"
#include "cedarskein_sheets.h"
#include "expect.h"

#include <string.h>

enum { WORD = 0, SIGNED = 1, PAIR = 2 };

struct sheet {
    const char *name;
    const uint8_t *bytes;
    size_t n;
};

static struct meter meter;

/* ---- A sheet with ranges that the makers' do not have ---- */

struct range {
    uint16_t kind;
    uint32_t low, high;
};

/* Station and rate; pairs with a low bound above 0, across the sign bit and at the last values; signed words with both bounds on one side
 * of 0; words across the sign bit and at the last values. The first pair is at address MADE_PAIR, the first signed word at MADE_SIGNED. */
static const struct range ranges[] = {
    { WORD, 1, 0xF7 }, { WORD, 0, 1 },
    { PAIR, 0x00020005, 0x00040003 }, { PAIR, 0x00010000, 0x7FFFFFFF }, { PAIR, 0x7FFFFFFF, 0x80000000 },
    { PAIR, 0x80000001, 0xFFFFFFFE }, { PAIR, 0xFFFFFFFF, 0xFFFFFFFF }, { PAIR, 0, 0 }, { PAIR, 0, 0xFFFFFFFF },
    { SIGNED, 0xFF9C, 0xFFF6 }, { SIGNED, 0x000A, 0x003C }, { SIGNED, 0x8000, 0xFFFF }, { SIGNED, 0x0000, 0x7FFF },
    { SIGNED, 0x8001, 0x7FFE }, { SIGNED, 0x8000, 0x7FFF },
    { WORD, 0x0010, 0x00F0 }, { WORD, 0x7FFF, 0x8000 }, { WORD, 0x8001, 0xFFFE }, { WORD, 0xFFFF, 0xFFFF }, { WORD, 0, 0 }
};
enum { RANGES = sizeof ranges / sizeof ranges[0], PLACES = 27, MADE_PAIR = 2, MADE_SIGNED = 16 };
static uint8_t made[2 * (12 + 4 + 6 * RANGES)];

/* Puts an item row behind the rows in front of it, and hands back the place behind the item. */
static uint16_t put_range(size_t k, uint16_t place)
{
    uint8_t *row = made + 2 * (16 + 6 * k);
    set_word(row, 0, ranges[k].kind);
    set_word(row, 1, place);
    set_word(row, 2, (uint16_t)(ranges[k].low >> 16));
    set_word(row, 3, (uint16_t)ranges[k].low);
    set_word(row, 4, (uint16_t)(ranges[k].high >> 16));
    set_word(row, 5, (uint16_t)ranges[k].high);
    return (uint16_t)(place + (ranges[k].kind == PAIR ? 2 : 1));
}

/* One area, from address 0 on, so that an item's address is its place. */
static void put_front(void)
{
    static const uint16_t front[16] = { 1, 1, 12, RANGES, 16, PLACES, 13, sizeof made / 2, 0, 1, 0, 0, 0, PLACES - 1, 0, 3 };
    size_t k;
    for (k = 0; k < 16; k++)
        set_word(made, k, front[k]);
}

static void make_sheet(void)
{
    uint16_t place = 0;
    size_t k;
    put_front();
    for (k = 0; k < RANGES; k++)
        place = put_range(k, place);
    at_case("the sheet made here");
    expect_number(PLACES, place, "its places");
    expect_number(CEDARSKEIN_DONE, cedarskein_sheet_check(made, sizeof made), "sheet_check");
}

static const struct sheet sheets[5] = {
    { "UX15/25", cedarskein_ux_sheet, CEDARSKEIN_UX_SHEET_SIZE },
    { "AS-WE 40", cedarskein_aswe_40_sheet, CEDARSKEIN_ASWE_40_SHEET_SIZE },
    { "AS-WE 50", cedarskein_aswe_50_sheet, CEDARSKEIN_ASWE_50_SHEET_SIZE },
    { "AS-WE 80", cedarskein_aswe_80_sheet, CEDARSKEIN_ASWE_80_SHEET_SIZE },
    { "a sheet made here", made, sizeof made }
};

/* ---- Writes, and what is told of them ---- */

static void start(const struct sheet *sheet)
{
    meter_fresh(&meter, sheet->bytes, sheet->n, 0);
}

static void write_one(uint16_t address, uint16_t word)
{
    meter_short_frame(&meter, 0x06, address, word);
}

static void write_many(uint16_t address, const uint16_t *words, uint16_t count)
{
    meter_write_many(&meter, address, words, count);
}

static void expect_told(uint32_t reason, uint32_t address, uint32_t side)
{
    expect_number(CEDARSKEIN_DONE, call_why(&meter), "why");
    expect_number(reason, meter.reason, "the reason");
    expect_number(address, meter.address, "the address");
    expect_number(side, meter.side, "the side");
}

/* ---- Every item of a sheet, at both sides of both bounds ---- */

/* An item, with its bounds as the numbers that they mean. */
struct item {
    uint16_t kind, place, address;
    int64_t low, high;
};

static int64_t value_of(uint16_t kind, uint16_t upper, uint16_t lower)
{
    if (kind == SIGNED && lower >= 0x8000)
        return (int64_t)lower - 0x10000;
    return (int64_t)upper * 0x10000 + lower;
}

static uint16_t address_of(const uint8_t *sheet, uint16_t place)
{
    size_t row = 12;
    while (place - word_at(sheet, row + 2) > word_at(sheet, row + 1) - word_at(sheet, row))
        row += 4;
    return (uint16_t)(word_at(sheet, row) + place - word_at(sheet, row + 2));
}

static struct item item_of(const uint8_t *sheet, size_t k)
{
    size_t row = word_at(sheet, 4) + 6 * k;
    struct item item;
    item.kind = word_at(sheet, row);
    item.place = word_at(sheet, row + 1);
    item.address = address_of(sheet, item.place);
    item.low = value_of(item.kind, word_at(sheet, row + 2), word_at(sheet, row + 3));
    item.high = value_of(item.kind, word_at(sheet, row + 4), word_at(sheet, row + 5));
    return item;
}

/* What is told of a write that would give the item this value; and the reply, which does not say which end was missed. */
static void expect_judged(const struct item *item, int64_t value)
{
    if (item->low <= value && value <= item->high)
        expect_told(CEDARSKEIN_NO_REASON, 0, CEDARSKEIN_NO_SIDE);
    else
        expect_told(CEDARSKEIN_ITEM, item->address, value < item->low ? CEDARSKEIN_TOO_LOW : CEDARSKEIN_TOO_HIGH);
    expect_number(CEDARSKEIN_DONE, call_answer(&meter), "answer");
    expect_number(meter.reason == CEDARSKEIN_ITEM ? 5 : 8, meter.length, "an error, or none");
    expect(meter.reason != CEDARSKEIN_ITEM || meter.out.bytes[2] == 3, "error 03");
}

/* The item in the bank: its bits are those of a word, or of a pair. */
static void put_item(const struct item *item, uint32_t bits)
{
    if (item->kind == PAIR)
        set_word(meter.bank.bytes, item->place, (uint16_t)(bits >> 16));
    set_word(meter.bank.bytes, item->place + (item->kind == PAIR), (uint16_t)bits);
}

/* The whole item is sent; then a bank holds it. */
static void whole(const struct sheet *sheet, const struct item *item, int64_t value)
{
    uint16_t words[2];
    words[0] = (uint16_t)((uint32_t)value >> 16);
    words[1] = (uint16_t)value;
    at_case("%s, %04X is to be %ld", sheet->name, item->address, (long)value);
    start(sheet);
    if (item->kind == PAIR)
        write_many(item->address, words, 2);
    else
        write_one(item->address, words[1]);
    expect_judged(item, value);
    start(sheet);
    put_item(item, (uint32_t)value);
    expect_number(item->low <= value && value <= item->high ? CEDARSKEIN_DONE : CEDARSKEIN_BANK_NOT_SOUND, call_bank_check(&meter),
                  "bank_check");
}

/* The bounds and their neighbours, and the ends of what the kind's bits can be; a neighbour that is beyond these is left out. */
static void wholes(const struct sheet *sheet, const struct item *item)
{
    int64_t least = item->kind == SIGNED ? -0x8000 : 0;
    int64_t most = item->kind == PAIR ? 0xFFFFFFFF : item->kind == SIGNED ? 0x7FFF : 0xFFFF;
    int64_t values[8];
    size_t k;
    values[0] = least;
    values[1] = item->low - 1;
    values[2] = item->low;
    values[3] = item->low + 1;
    values[4] = item->high - 1;
    values[5] = item->high;
    values[6] = item->high + 1;
    values[7] = most;
    for (k = 0; k < 8; k++)
        if (least <= values[k] && values[k] <= most)
            whole(sheet, item, values[k]);
}

/* One half is sent, and the other one is the bank's: the pair is judged, and not the half. */
static void half(const struct sheet *sheet, const struct item *item, uint32_t held, int is_lower, uint16_t sent)
{
    uint32_t joined = is_lower ? (held & 0xFFFF0000) | sent : (uint32_t)sent << 16 | (held & 0xFFFF);
    at_case("%s, %04X holds %08lX, its %s half is to be %04X", sheet->name, item->address, (unsigned long)held,
            is_lower ? "lower" : "upper", sent);
    start(sheet);
    put_item(item, held);
    write_one((uint16_t)(item->address + is_lower), sent);
    expect_judged(item, joined);
}

static void either_half(const struct sheet *sheet, const struct item *item, uint32_t held, uint16_t sent)
{
    half(sheet, item, held, 0, sent);
    half(sheet, item, held, 1, sent);
}

/* The half of a bound and its neighbours, each as the half that it is of. */
static void around(const struct sheet *sheet, const struct item *item, uint32_t held, uint32_t bound)
{
    uint16_t k;
    for (k = 0; k < 3; k++) {
        half(sheet, item, held, 0, (uint16_t)((bound >> 16) + k - 1));
        half(sheet, item, held, 1, (uint16_t)(bound + k - 1));
    }
}

/* A bank that holds one bound, and as each half the words around both bounds' halves and the ends of all words. */
static void halves(const struct sheet *sheet, const struct item *item, uint32_t held)
{
    static const uint16_t ends[4] = { 0, 0x7FFF, 0x8000, 0xFFFF };
    size_t k;
    for (k = 0; k < 4; k++)
        either_half(sheet, item, held, ends[k]);
    around(sheet, item, held, (uint32_t)item->low);
    around(sheet, item, held, (uint32_t)item->high);
}

static void every_item(const struct sheet *sheet)
{
    size_t k;
    for (k = 0; k < word_at(sheet->bytes, 3); k++) {
        struct item item = item_of(sheet->bytes, k);
        wholes(sheet, &item);
        if (item.kind != PAIR)
            continue;
        halves(sheet, &item, (uint32_t)item.low);
        halves(sheet, &item, (uint32_t)item.high);
    }
}

/* ---- Chosen writes, with what is told of them in figures ---- */

static const struct sheet *const ux = &sheets[0];
static const struct sheet *const own = &sheets[4];

static void one_is(const char *what, const struct sheet *sheet, uint16_t address, uint16_t word, uint32_t item, uint32_t side)
{
    at_case("%s", what);
    start(sheet);
    write_one(address, word);
    expect_told(CEDARSKEIN_ITEM, item, side);
}

/* The bank holds a pair, of which one half is sent. */
static void one_is_beside(const char *what, const struct sheet *sheet, uint16_t place, uint32_t held, uint16_t address, uint16_t word,
                          uint32_t side)
{
    at_case("%s", what);
    start(sheet);
    set_word(meter.bank.bytes, place, (uint16_t)(held >> 16));
    set_word(meter.bank.bytes, place + 1, (uint16_t)held);
    write_one(address, word);
    expect_told(CEDARSKEIN_ITEM, address_of(sheet->bytes, place), side);
}

static void many_are(const char *what, const struct sheet *sheet, uint16_t address, const uint16_t *words, uint16_t count, uint32_t item,
                     uint32_t side)
{
    at_case("%s", what);
    start(sheet);
    write_many(address, words, count);
    expect_told(CEDARSKEIN_ITEM, item, side);
}

static void chosen(void)
{
    static const uint16_t over[2] = { 0x0001, 0x86A0 };
    static const uint16_t upper_last[2] = { 0x0001, 0x0005 }, lower_first[3] = { 0x0004, 0x0001, 0x0000 };
    one_is("-11 where -10 is the lowest", ux, 0x0100, 0xFFF5, 0x0100, 1);
    one_is("61 where 60 is the highest", ux, 0x0100, 0x003D, 0x0100, 2);
    one_is("0 where 1 is the lowest", ux, 0x0109, 0x0000, 0x0109, 1);
    one_is("FFFF, which has no sign", ux, 0x0101, 0xFFFF, 0x0101, 2);
    one_is("-9 where -10 is the highest", own, MADE_SIGNED, 0xFFF7, MADE_SIGNED, 2);
    one_is("-101 where -100 is the lowest", own, MADE_SIGNED, 0xFF9B, MADE_SIGNED, 1);
    one_is("0 where -10 is the highest", own, MADE_SIGNED, 0x0000, MADE_SIGNED, 2);
    many_are("100000 where 99999 is the highest", ux, 0x0103, over, 2, 0x0103, 2);
    one_is_beside("0001 upon 9876", ux, 3, 0x00009876, 0x0103, 0x0001, 2);
    one_is_beside("86A0 under 0001", ux, 3, 0x00010000, 0x0104, 0x86A0, 2);
    one_is_beside("0001 upon 0005, where 00020005 is the lowest", own, MADE_PAIR, 0x00020005, MADE_PAIR, 0x0001, 1);
    one_is_beside("0004 under 0002, where 00020005 is the lowest", own, MADE_PAIR, 0x00020005, MADE_PAIR + 1, 0x0004, 1);
    one_is_beside("0005 upon 0005, where 00040003 is the highest", own, MADE_PAIR, 0x00020005, MADE_PAIR, 0x0005, 2);
    one_is_beside("0004 under 0004, where 00040003 is the highest", own, MADE_PAIR, 0x00040003, MADE_PAIR + 1, 0x0004, 2);
    many_are("an upper half at the end of a write", own, 1, upper_last, 2, MADE_PAIR, 2);
    many_are("a lower half at the start of a write", own, MADE_PAIR + 1, lower_first, 3, MADE_PAIR, 1);
}

/* Two bad items, each at another end: the first one's side is told. UX 0101 is 0 to 4, 0109 is 1 to 16, 010E is 1 to 247. */
static void first_of_two(void)
{
    static const uint16_t low_first[2] = { 0xFFF5, 0x0005 }, high_first[10] = { 0x003D };
    static const uint16_t high_second[10] = { 0x003C, 0x0005 }, low_far[6] = { 0x0000, 0, 0, 0, 0, 0x00F8 };
    static const uint16_t pair_first[3] = { 0x0001, 0x86A0, 0x0000 }, half_first[6] = { 0x86A0 };
    many_are("too low, and too high behind it", ux, 0x0100, low_first, 2, 0x0100, 1);
    many_are("too high, and too low far behind it", ux, 0x0100, high_first, 10, 0x0100, 2);
    many_are("good, too high, and too low far behind it", ux, 0x0100, high_second, 10, 0x0101, 2);
    many_are("too low, and too high far behind it", ux, 0x0109, low_far, 6, 0x0109, 1);
    many_are("a pair that is too high, and too low behind it", ux, 0x0107, pair_first, 3, 0x0107, 2);
    at_case("a lower half that is too high, and too low far behind it");
    start(ux);
    set_word(meter.bank.bytes, 3, 0x0001);
    write_many(0x0104, half_first, 6);
    expect_told(CEDARSKEIN_ITEM, 0x0103, 2);
}

/* ---- No side ---- */

/* A frame with a value that no item takes and, ahead of that, another reason. */
static void other_reason(uint32_t reason, uint32_t address, const uint8_t *bytes, size_t n)
{
    at_case("a bad value, and reason %lu ahead of it", (unsigned long)reason);
    start(ux);
    meter_frame(&meter, bytes, n, 0);
    if (reason == CEDARSKEIN_CHECK)
        meter.frame.bytes[n - 1] ^= 1;
    expect_told(reason, address, CEDARSKEIN_NO_SIDE);
}

static void other_reasons(void)
{
    static const uint8_t good[8] = { 1, 0x06, 0x01, 0x00, 0x00, 0x3C }, write[8] = { 1, 0x06, 0x01, 0x00, 0xFF, 0xF5 };
    static const uint8_t longer[101] = { 1, 0x10, 0x01, 0x00, 0x00, 46, 92, 0xFF, 0xF5 }, station[8] = { 2, 0x06, 0x01, 0x00, 0xFF, 0xF5 };
    static const uint8_t function[8] = { 1, 0x86, 0x01, 0x00, 0xFF, 0xF5 }, body[9] = { 1, 0x06, 0x01, 0x00, 0xFF, 0xF5, 0 };
    static const uint8_t count[11] = { 1, 0x10, 0x01, 0x00, 0, 2, 2, 0xFF, 0xF5 }, read_only[8] = { 1, 0x06, 0x02, 0x00, 0xFF, 0xF5 };
    static const uint8_t beyond[13] = { 1, 0x10, 0x01, 0x16, 0, 2, 4, 0xFF, 0xF5, 0, 0 }, clear[8] = { 1, 0x05, 0x03, 0x00, 0xFF, 0xF5 };
    other_reason(CEDARSKEIN_NO_REASON, 0, good, sizeof good);
    other_reason(CEDARSKEIN_TOO_SHORT, 0, write, 3);
    other_reason(CEDARSKEIN_TOO_LONG, 0, longer, sizeof longer);
    other_reason(CEDARSKEIN_CHECK, 0, write, sizeof write);
    other_reason(CEDARSKEIN_STATION, 0, station, sizeof station);
    other_reason(CEDARSKEIN_FUNCTION, 0, function, sizeof function);
    other_reason(CEDARSKEIN_BODY_LENGTH, 0, body, sizeof body);
    other_reason(CEDARSKEIN_COUNT, 0, count, sizeof count);
    other_reason(CEDARSKEIN_ADDRESS, 0x0200, read_only, sizeof read_only);
    other_reason(CEDARSKEIN_ADDRESS, 0x0117, beyond, sizeof beyond);
    other_reason(CEDARSKEIN_CLEAR_VALUE, 0, clear, sizeof clear);
}

/* A write that would be told a side, were the call not refused. */
static void refused_as(uint32_t number)
{
    expect_number(number, call_why(&meter), "why");
    expect_number(CEDARSKEIN_NO_SIDE, meter.side, "the side of a refused call");
}

static void refusals_of(uint16_t word)
{
    at_case("%04X at 0100, and a refusal", word);
    start(ux);
    write_one(0x0100, word);
    meter.sheet.bytes[23] ^= 1;
    refused_as(CEDARSKEIN_SHEET_BREAKS_RULE);
    meter.sheet.bytes[23] ^= 1;
    lend(&meter.ring, 2, 0);
    refused_as(CEDARSKEIN_BAD_RING);
    set_word(meter.bank.bytes, 0, word);
    refused_as(CEDARSKEIN_BANK_NOT_SOUND);
    lent_resize(&meter.bank, meter.bank.n + 2);
    refused_as(CEDARSKEIN_BANK_MISFITS);
}

int main(void)
{
    size_t s;
    make_sheet();
    for (s = 0; s < sizeof sheets / sizeof sheets[0]; s++)
        every_item(&sheets[s]);
    chosen();
    first_of_two();
    other_reasons();
    refusals_of(0xFFF5);
    refusals_of(0x003D);
    return told("the end that a bad item misses, of every item of five sheets, whole and by halves");
}
