/* A board from before 3.2 with an AS-WE 40, which takes the new sheet: its bank carried over as cedarskein.h says, by demo/carried.c. Each
 * setting at both ends of its range and between them, readings, and both marks: every register reads as before. A bank that is not sound,
 * another size, and a power cut at every byte of what is written then. What a call must leave alone is looked at in calls.c. */
#include "calls.h"

#include "../demo/carried.h"
#include "../demo/last_good.h"
#include "cedarskein.h"
#include "cedarskein_registers.h"
#include "cedarskein_sheets.h"
#include "expect.h"
#include "old_sheets.h"

#include <string.h>

#define OLD aswe_40_sheet_of_3_1
#define OLD_N OLD_ASWE_SHEET_SIZE
#define NEW cedarskein_aswe_40_sheet
#define NEW_N CEDARSKEIN_ASWE_40_SHEET_SIZE
#define NEW_BANK CEDARSKEIN_ASWE_40_BANK_SIZE

enum { ITEMS = 22, AREAS = 5, REGISTERS = 38, MARK = REGISTERS, READINGS = 16, FIRST_PRESET = 20, PRESETS = 7, NEW_MARK = 45 };

static struct meter meter;
static struct lent old; /* the bank that is carried over, which is only read */

/* ---- The board before ---- */

/* An item of the old sheet, all of which are words: its place, and its bounds as the numbers that they mean. */
struct item {
    size_t place;
    long low, high;
};

static long number_of(uint16_t kind, uint16_t word)
{
    return kind == 1 && word >= 0x8000 ? (long)word - 0x10000 : word;
}

static struct item item_of(size_t k)
{
    size_t row = word_at(OLD, 4) + 6 * k;
    struct item item;
    item.place = word_at(OLD, row + 1);
    item.low = number_of(word_at(OLD, row), word_at(OLD, row + 3));
    item.high = number_of(word_at(OLD, row), word_at(OLD, row + 5));
    return item;
}

/* Where an item stands: at an end of its range, or between both. */
enum stand { LOW, BETWEEN, HIGH, STANDS };

static uint16_t word_of(const struct item *item, enum stand stand)
{
    return (uint16_t)(stand == LOW ? item->low : stand == HIGH ? item->high : (item->low + item->high) / 2);
}

/* The board under its old sheet, which is taken as it was: one item stands so and the others otherwise, with readings and a mark. */
static void board(size_t k, enum stand stand, enum stand others, uint32_t mark)
{
    size_t i;
    at_case("item %lu stands at %d and the others at %d, mark %lu", (unsigned long)k, stand, others, (unsigned long)mark);
    meter_fresh(&meter, OLD, OLD_N, k % LENT_SHIFTS);
    for (i = 0; i < ITEMS; i++) {
        struct item item = item_of(i);
        set_word(meter.bank.bytes, item.place, word_of(&item, i == k ? stand : others));
    }
    lend(&meter.words, 2 * READINGS, k % LENT_SHIFTS);
    expect_number(CEDARSKEIN_DONE, call_post(&meter, CEDARSKEIN_ASWE_ACTUAL_FLOW), "post under the old sheet");
    expect_number(CEDARSKEIN_DONE, call_set_mark(&meter, mark), "set_mark under the old sheet");
}

/* ---- What its master reads ---- */

static void read_of(uint16_t first, uint16_t count)
{
    meter_short_frame(&meter, 0x03, first, count);
}

/* Each register alone and each area whole, by 03: what the replies are, one behind another, with the rate that each goes out at. */
struct replies {
    uint8_t bytes[6 * (REGISTERS + AREAS) + 4 * REGISTERS];
    size_t n;
};

static void read_into(struct replies *replies, uint16_t first, uint16_t count)
{
    read_of(first, count);
    expect_number(CEDARSKEIN_DONE, call_answer(&meter), "a read");
    expect_number(5 + 2u * count, meter.length, "the bytes of a read");
    if (replies->n + meter.length + 1 > sizeof replies->bytes)
        return;
    memcpy(replies->bytes + replies->n, meter.out.bytes, meter.length);
    replies->bytes[replies->n + meter.length] = (uint8_t)meter.rate;
    replies->n += meter.length + 1;
}

static void read_all(struct replies *replies)
{
    size_t k;
    memset(replies, 0, sizeof *replies);
    for (k = 0; k < AREAS; k++) {
        uint16_t first = word_at(OLD, 12 + 4 * k), last = word_at(OLD, 13 + 4 * k), address;
        for (address = first; address <= last; address++)
            read_into(replies, address, 1);
        read_into(replies, first, (uint16_t)(last - first + 1));
    }
}

/* ---- The board after ---- */

/* The new sheet and the old bank: 3 from every call on a bank, and nothing is written. */
static void new_sheet(void)
{
    lend_copy(&meter.sheet, NEW, NEW_N, 0);
    read_of(CEDARSKEIN_ASWE_STATION, 1);
    expect_number(CEDARSKEIN_BANK_MISFITS, call_bank_check(&meter), "bank_check of the old bank");
    expect_number(CEDARSKEIN_BANK_MISFITS, call_bank_fresh(&meter), "bank_fresh of the old bank");
    expect_number(CEDARSKEIN_BANK_MISFITS, call_post(&meter, CEDARSKEIN_ASWE_ACTUAL_FLOW), "post to the old bank");
    expect_number(CEDARSKEIN_BANK_MISFITS, call_set_mark(&meter, 1), "set_mark of the old bank");
    expect_number(CEDARSKEIN_BANK_MISFITS, call_why(&meter), "why, with the old bank");
    expect_number(CEDARSKEIN_BANK_MISFITS, call_answer(&meter), "answer, with the old bank");
}

/* A new bank of noise takes the old one, as it lies in the meter, over: the number, and nothing around the new bank is written. */
static uint32_t carried(size_t bank_n)
{
    uint32_t number;
    lend_copy(&old, meter.bank.bytes, OLD_ASWE_BANK_SIZE, bank_n % LENT_SHIFTS);
    lend(&meter.bank, bank_n, bank_n % LENT_SHIFTS);
    lent_keep(&old);
    lent_keep(&meter.bank);
    number = carry_over(meter.sheet.bytes, meter.sheet.n, old.bytes, meter.bank.bytes, meter.bank.n);
    expect(lent_as_before(&old), "the old bank is as before");
    expect(lent_as_before_but(&meter.bank, meter.bank.n), "the memory around the new bank is as before");
    return number;
}

/* A preset is taken now, at its place, and a read of it is not. */
static void preset_written(uint16_t k, uint16_t word)
{
    uint16_t address = (uint16_t)(CEDARSKEIN_ASWE_PRESET_VOLUME_UPPER_DIGIT + k);
    uint8_t before[NEW_BANK];
    memcpy(before, meter.bank.bytes, sizeof before);
    set_word(before, FIRST_PRESET + k, word);
    meter_short_frame(&meter, 0x06, address, word);
    expect_number(CEDARSKEIN_DONE, call_answer(&meter), "a write of a preset");
    expect_number(8, meter.length, "the bytes of its echo");
    expect(memcmp(before, meter.bank.bytes, sizeof before) == 0, "the preset is stored, and nothing else");
    read_of(address, 1);
    expect_number(CEDARSKEIN_DONE, call_answer(&meter), "a read of a preset");
    expect(meter.length == 5 && meter.out.bytes[2] == 2, "error 02");
}

static void board_carried_over(size_t k, enum stand stand, enum stand others, uint32_t mark)
{
    static struct replies before, after;
    uint8_t station, rate;
    size_t i;
    board(k, stand, others, mark);
    station = station_of(OLD, meter.bank.bytes);
    rate = rate_of(OLD, meter.bank.bytes);
    read_all(&before);
    new_sheet();
    expect_number(CEDARSKEIN_DONE, carried(NEW_BANK), "carried over");
    expect_number(CEDARSKEIN_DONE, call_bank_check(&meter), "bank_check of the new bank");
    for (i = 0; i < PRESETS; i++)
        expect_number(0, word_at(meter.bank.bytes, FIRST_PRESET + i), "a preset");
    expect_number(mark, word_at(meter.bank.bytes, NEW_MARK), "the mark");
    expect_number(station, station_of(NEW, meter.bank.bytes), "the station");
    expect_number(rate, rate_of(NEW, meter.bank.bytes), "the rate");
    read_all(&after);
    expect(before.n == after.n && memcmp(before.bytes, after.bytes, before.n) == 0, "every register reads as under the old sheet");
    preset_written((uint16_t)(k % PRESETS), (uint16_t)(1 + k % 9));
}

static void boards(void)
{
    size_t k;
    int stand;
    for (k = 0; k < ITEMS; k++)
        for (stand = LOW; stand < STANDS; stand++) {
            board_carried_over(k, (enum stand)stand, LOW, 0);
            board_carried_over(k, (enum stand)stand, BETWEEN, 1);
            board_carried_over(k, (enum stand)stand, HIGH, (uint32_t)k % 2);
        }
}

/* ---- What is not carried over ---- */

/* A word out of its range, which is 4 under the old sheet too. */
static void unsound(size_t place, uint16_t word)
{
    board(0, LOW, HIGH, 1);
    at_case("place %lu of the old bank holds %04X", (unsigned long)place, word);
    set_word(meter.bank.bytes, place, word);
    expect_number(CEDARSKEIN_BANK_NOT_SOUND, call_bank_check(&meter), "bank_check under the old sheet");
    lend_copy(&meter.sheet, NEW, NEW_N, 0);
    expect_number(CEDARSKEIN_BANK_NOT_SOUND, carried(NEW_BANK), "carried over");
    expect_number(CEDARSKEIN_BANK_NOT_SOUND, call_bank_check(&meter), "bank_check of the new bank");
}

/* Both neighbours of each range, where there is one: a word holds 0 to FFFF, with a sign -8000 to 7FFF. */
static void unsounds(void)
{
    size_t k;
    for (k = 0; k < ITEMS; k++) {
        struct item item = item_of(k);
        if (item.low != 0)
            unsound(item.place, (uint16_t)(item.low - 1));
        if (item.high != 0xFFFF)
            unsound(item.place, (uint16_t)(item.high + 1));
    }
    unsound(MARK, 2);
    unsound(MARK, 0x0100);
}

/* A new bank of another size, or of another sheet, and a sheet that is none: nothing is written. */
static void refused(const uint8_t *sheet, size_t sheet_n, size_t bank_n, uint32_t number)
{
    board(0, HIGH, LOW, 1);
    at_case("a sheet of %lu bytes and a new bank of %lu", (unsigned long)sheet_n, (unsigned long)bank_n);
    lend_copy(&meter.sheet, sheet, sheet_n, 0);
    expect_number(number, carried(bank_n), "carried over");
    expect(lent_as_before(&meter.bank), "the new bank is as before");
}

static void refusals(void)
{
    size_t n;
    for (n = 0; n <= 2 * NEW_BANK; n++)
        if (n != NEW_BANK)
            refused(NEW, NEW_N, n, CEDARSKEIN_BANK_MISFITS);
    refused(NEW, NEW_N - 1, NEW_BANK, CEDARSKEIN_SHEET_BREAKS_RULE);
    refused(OLD, OLD_N, NEW_BANK, CEDARSKEIN_BANK_MISFITS);
    refused(OLD, OLD_N, OLD_ASWE_BANK_SIZE, CEDARSKEIN_BANK_MISFITS);
    refused(cedarskein_ux_sheet, CEDARSKEIN_UX_SHEET_SIZE, CEDARSKEIN_UX_BANK_SIZE, CEDARSKEIN_BANK_MISFITS);
}

/* ---- A power cut ---- */

#define OLD_KEPT (2 * (OLD_ASWE_BANK_SIZE + CHECK_SIZE))
#define NEW_KEPT (2 * (NEW_BANK + CHECK_SIZE))
#define NO_CUT 0xFFFFFFFFu

/* Memory that outlasts a cut: the copies of the old bank, and those of the new one where these do not lie. */
static uint8_t chip[OLD_KEPT + NEW_KEPT];
static unsigned bytes_left; /* that are still written before the power goes */

static int load(void *memory, size_t at, uint8_t *bytes, size_t n)
{
    memcpy(bytes, (const uint8_t *)memory + at, n);
    return 0;
}

static int store(void *memory, size_t at, const uint8_t *bytes, size_t n)
{
    size_t i;
    for (i = 0; i < n && bytes_left > 0; i++, bytes_left--)
        ((uint8_t *)memory)[at + i] = bytes[i];
    return i < n;
}

static uint8_t old_bank[OLD_ASWE_BANK_SIZE], new_bank[NEW_BANK];
static const struct kept_bank kept_old = { OLD, OLD_N, old_bank, sizeof old_bank, { load, store, chip } };
static const struct kept_bank kept_new = { NEW, NEW_N, new_bank, sizeof new_bank, { load, store, chip + OLD_KEPT } };

/* Start-up with the new library: where no new copy is good, carry over and write both; only then are the old ones given up. Says whether
 * there is a bank. */
static int starts_up(unsigned until_cut)
{
    static const uint8_t erased[OLD_KEPT];
    bytes_left = until_cut;
    memset(new_bank, 0xFF, sizeof new_bank);
    memset(old_bank, 0xFF, sizeof old_bank);
    if (restore_bank(&kept_new) == NO_GOOD_COPY) {
        if (restore_bank(&kept_old) == NO_GOOD_COPY || carry_over(NEW, NEW_N, old_bank, new_bank, sizeof new_bank) != CEDARSKEIN_DONE)
            return 0;
        if (keep_readings(&kept_new) != 0)
            return 1;
    }
    store(chip, 0, erased, sizeof erased);
    return 1;
}

static void cut_at(unsigned first, unsigned second, const uint8_t *carried_bank)
{
    at_case("a cut after %u bytes, and one after %u at the next start-up", first, second);
    expect(starts_up(first), "a bank before the first cut");
    expect(starts_up(second), "a bank before the second cut");
    expect(starts_up(NO_CUT), "a bank afterwards");
    expect(memcmp(new_bank, carried_bank, sizeof new_bank) == 0, "the bank is the one carried over");
    expect(memcmp(chip + OLD_KEPT, chip + OLD_KEPT + NEW_KEPT / 2, NEW_KEPT / 2) == 0, "both new copies are alike");
}

/* From both old copies on, and bytes in the place of the new ones that are noise: the first cut comes after each number of bytes. */
static void cuts(void)
{
    uint8_t before[sizeof chip], carried_bank[NEW_BANK];
    unsigned first, second;
    size_t i;
    board(0, HIGH, BETWEEN, 1);
    memcpy(old_bank, meter.bank.bytes, sizeof old_bank);
    carry_over(NEW, NEW_N, old_bank, carried_bank, sizeof carried_bank);
    for (i = 0; i < sizeof chip; i++)
        chip[i] = noise();
    bytes_left = NO_CUT;
    keep_readings(&kept_old);
    memcpy(before, chip, sizeof before);
    for (first = 0; first <= sizeof chip; first++)
        for (second = 0; second <= sizeof chip; second += 29) {
            memcpy(chip, before, sizeof chip);
            cut_at(first, second, carried_bank);
        }
}

int main(void)
{
    boards();
    unsounds();
    refusals();
    cuts();
    return told("an AS-WE 40 of before 3.2 carried over to the sheet with presets: each setting at its ends and between, and cuts");
}
