/* The last good copy of cedarskein.h, "A power cut", which demo/last_good.c has as C: a cut at every byte, and the writes of an hour. */
#include "calls.h"

#include "../demo/last_good.h"
#include "cedarskein.h"
#include "cedarskein_sheets.h"
#include "expect.h"

#include <string.h>

#define SHEET cedarskein_ux_sheet, CEDARSKEIN_UX_SHEET_SIZE
#define BANK CEDARSKEIN_UX_BANK_SIZE
#define COPY (BANK + CHECK_SIZE)
#define WHOLE (2 * COPY)
#define PRESETS_SHEET cedarskein_aswe_40_sheet, CEDARSKEIN_ASWE_40_SHEET_SIZE
#define PRESETS_BANK CEDARSKEIN_ASWE_40_BANK_SIZE
#define NO_CUT 0xFFFFFFFFu

/* Memory that outlasts a cut, with room for the larger of two banks, and how often each copy was begun. */
static struct {
    uint8_t bytes[2 * (PRESETS_BANK + CHECK_SIZE)];
    unsigned bytes_left; /* that are still written before the power goes */
    unsigned first_written, second_written;
} chip;

static int load(void *memory, size_t at, uint8_t *bytes, size_t n)
{
    (void)memory;
    memcpy(bytes, chip.bytes + at, n);
    return 0;
}

static int store(void *memory, size_t at, const uint8_t *bytes, size_t n)
{
    size_t i;
    (void)memory;
    chip.first_written += at < COPY;
    chip.second_written += at >= COPY;
    for (i = 0; i < n && chip.bytes_left > 0; i++, chip.bytes_left--)
        chip.bytes[at + i] = bytes[i];
    return i < n;
}

static uint8_t bank[BANK];
static const struct kept_bank kept = { SHEET, bank, BANK, { load, store, NULL } };

static void send_to(const struct kept_bank *meter, uint8_t *frame, size_t n)
{
    uint8_t out[CEDARSKEIN_LEAST_OUT];
    uint32_t length, rate;
    seal(frame, n);
    expect_number(CEDARSKEIN_DONE, cedarskein_answer(meter->sheet, meter->sheet_n, meter->bank, meter->bank_n, NULL, 0, frame, n, out,
                                                     sizeof out, &length, &rate), "the frame");
    keep_settings(meter);
}

static void send(uint8_t *frame, size_t n)
{
    send_to(&kept, frame, n);
}

/* The bank before and after a frame that changes both words of the pair at 0103, from 0000 FFFF to 0001 0000. */
static uint8_t bank_before[BANK], bank_after[BANK];

static void make_banks(void)
{
    uint8_t frame[13] = { 0x01, 0x10, 0x01, 0x03, 0x00, 0x02, 0x04, 0x00, 0x01, 0x00, 0x00 };
    at_case("the bank before and after");
    cedarskein_bank_fresh(SHEET, bank, BANK);
    set_word(bank, 4, 0xFFFF);
    memcpy(bank_before, bank, BANK);
    send(frame, sizeof frame);
    memcpy(bank_after, bank, BANK);
    expect(memcmp(bank_before, bank_after, BANK) != 0, "the frame changes the bank");
}

/* Between the two words of the pair the bank is not sound: the reason for all this. */
static void cut_within_the_pair(void)
{
    uint8_t half[BANK];
    at_case("the upper word alone");
    memcpy(half, bank_before, BANK);
    set_word(half, 3, 0x0001);
    expect_number(CEDARSKEIN_BANK_NOT_SOUND, cedarskein_bank_check(SHEET, half, BANK), "bank_check");
}

/* Starts up with that many bytes until the next cut. Says whether a copy was good. */
static int starts_up(unsigned bytes_left)
{
    chip.bytes_left = bytes_left;
    memset(bank, 0xFF, BANK);
    return restore_bank(&kept) != NO_GOOD_COPY;
}

/* Both copies hold the bank before; keeping the one after is cut, then the first start-up is, and the second goes through. */
static void cut_after(unsigned bytes, unsigned bytes_at_start)
{
    at_case("a cut after %u bytes, and after %u at start-up", bytes, bytes_at_start);
    chip.bytes_left = WHOLE;
    memcpy(bank, bank_before, BANK);
    keep_readings(&kept);
    chip.bytes_left = bytes;
    memcpy(bank, bank_after, BANK);
    keep_settings(&kept);
    expect(starts_up(bytes_at_start), "a copy is good");
    expect(starts_up(WHOLE), "a copy is good at the second start-up");
    expect(memcmp(bank, bank_before, BANK) == 0 || memcmp(bank, bank_after, BANK) == 0, "the bank is that before or that after");
    if (bytes >= COPY)
        expect(memcmp(bank, bank_after, BANK) == 0, "the bank is that after");
    expect(memcmp(chip.bytes, chip.bytes + COPY, COPY) == 0, "both copies are alike again");
}

static void cuts(void)
{
    unsigned i;
    for (i = 0; i < (WHOLE + 1) * (WHOLE + 1); i++)
        cut_after(i / (WHOLE + 1), i % (WHOLE + 1));
}

static void nothing_kept(void)
{
    at_case("memory that was never written");
    memset(chip.bytes, 0xFF, sizeof chip.bytes);
    expect(!starts_up(WHOLE), "no copy is good");
    expect_number(WHOLE, chip.bytes_left, "bytes that may be written still: none was");
}

/* A copy ends with its check value as a frame does, low byte first: over both together the check value is 0. */
static void copies_end_as_frames_do(void)
{
    at_case("a copy and its check value");
    chip.bytes_left = WHOLE;
    memcpy(bank, bank_after, BANK);
    keep_readings(&kept);
    expect_number(0, cedarskein_check_value(chip.bytes, COPY), "the check value of the first copy and its own");
    expect_number(0, cedarskein_check_value(chip.bytes + COPY, COPY), "the check value of the second copy and its own");
}

/* A store that fails half-way, and no start-up behind it: the next call writes both copies again, though no setting has changed. */
static void failed_store(unsigned bytes)
{
    at_case("a store that fails after %u bytes", bytes);
    chip.bytes_left = NO_CUT;
    memcpy(bank, bank_before, BANK);
    keep_readings(&kept);
    chip.bytes_left = bytes;
    memcpy(bank, bank_after, BANK);
    expect(keep_settings(&kept) != 0, "the failure is told");
    chip.bytes_left = NO_CUT;
    expect(keep_settings(&kept) == 0, "the next call keeps it");
    expect(memcmp(chip.bytes, bank_after, BANK) == 0 && memcmp(chip.bytes, chip.bytes + COPY, COPY) == 0, "both copies are the bank after");
}

static void failed_stores(void)
{
    unsigned bytes;
    for (bytes = 0; bytes < WHOLE; bytes++)
        failed_store(bytes);
}

static void expect_written(unsigned times, const char *what)
{
    expect_number(times, chip.first_written, what);
    expect_number(times, chip.second_written, what);
    chip.first_written = chip.second_written = 0;
}

static void post_for_an_hour(void)
{
    uint8_t words[22] = { 0 };
    unsigned second;
    for (second = 1; second <= 3600; second++) {
        set_word(words, 1, (uint16_t)second);
        expect_number(CEDARSKEIN_DONE, cedarskein_post(SHEET, bank, BANK, 0x0200, words, sizeof words), "the reading");
        keep_settings(&kept);
    }
}

/* A reading each second, and what changes a setting or the mark: how often each copy is written. */
static void writes_of_an_hour(void)
{
    uint8_t read[8] = { 0x01, 0x03, 0x02, 0x00, 0x00, 0x0B };
    uint8_t write[8] = { 0x01, 0x06, 0x01, 0x04, 0x13, 0x88 };
    uint8_t stops_half_way[15] = { 0x01, 0x10, 0x01, 0x01, 0x00, 0x03, 0x06, 0x00, 0x04, 0x00, 0x02, 0x00, 0x00 };
    uint8_t rate_and_station[13] = { 0x01, 0x10, 0x01, 0x0D, 0x00, 0x02, 0x04, 0x00, 0x00, 0x00, 0x07 };
    at_case("the writes of an hour");
    cedarskein_bank_fresh(SHEET, bank, BANK);
    memset(&chip, 0, sizeof chip);
    chip.bytes_left = NO_CUT;
    keep_readings(&kept);
    expect_written(1, "a fresh bank");
    post_for_an_hour();
    expect_written(0, "3,600 readings");
    send(read, sizeof read);
    expect_written(0, "a read");
    send(write, sizeof write);
    expect_written(1, "a new limit");
    send(write, sizeof write);
    expect_written(0, "the same limit again");
    send(stops_half_way, sizeof stops_half_way);
    expect_written(1, "an error that stored part");
    cedarskein_set_mark(SHEET, bank, BANK, 1);
    keep_settings(&kept);
    expect_written(1, "the mark");
    send(rate_and_station, sizeof rate_and_station);
    expect_written(1, "rate and station");
    keep_readings(&kept);
    expect_written(1, "the readings, once an hour");
    expect(starts_up(WHOLE) && word_at(bank, 24) == 3600, "the last reading is kept");
    expect_written(0, "a start-up with two good copies");
}

/* What can only be written must last as what can be read too: no master can tell that it is gone. */
static void presets_are_kept(void)
{
    static uint8_t presets[PRESETS_BANK];
    static const struct kept_bank meter = { PRESETS_SHEET, presets, PRESETS_BANK, { load, store, NULL } };
    uint8_t upper_digit[8] = { 0x01, 0x06, 0x01, 0x18, 0x00, 0x09 };
    uint8_t reverse_volume[13] = { 0x01, 0x10, 0x01, 0x1D, 0x00, 0x02, 0x04, 0xFF, 0xFF, 0xFF, 0xFE };
    at_case("the presets of the AS-WE 40");
    cedarskein_bank_fresh(PRESETS_SHEET, presets, PRESETS_BANK);
    chip.bytes_left = NO_CUT;
    keep_readings(&meter);
    expect_written(1, "a fresh bank");
    send_to(&meter, upper_digit, sizeof upper_digit);
    expect_written(1, "the first preset");
    send_to(&meter, reverse_volume, sizeof reverse_volume);
    expect_written(1, "the last preset");
    send_to(&meter, reverse_volume, sizeof reverse_volume);
    expect_written(0, "the same preset again");
    memset(presets, 0xFF, sizeof presets);
    expect_number(FROM_FIRST_COPY, restore_bank(&meter), "start-up");
    expect(word_at(presets, 20) == 9 && word_at(presets, 25) == 0xFFFF && word_at(presets, 26) == 0xFFFE, "the presets are kept");
}

int main(void)
{
    make_banks();
    cut_within_the_pair();
    cuts();
    nothing_kept();
    copies_end_as_frames_do();
    failed_stores();
    writes_of_an_hour();
    presets_are_kept();
    return told("a power cut at every byte of the copies and another at start-up, and the writes of an hour");
}
