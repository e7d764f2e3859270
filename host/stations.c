/* The stations: which frames are answered at all, and a board from before 1.3, whose sheet had stations 0 to 255. */
#include "calls.h"

#include "../demo/carried.h"
#include "cedarskein.h"
#include "cedarskein_registers.h"
#include "cedarskein_sheets.h"
#include "expect.h"
#include "old_sheets.h"

#include <string.h>

#define LOWEST 1
#define HIGHEST 247

static struct meter meter;

struct sheet {
    const char *name;
    const uint8_t *bytes;
    size_t n;
};

static size_t station_place(void)
{
    return word_at(meter.sheet.bytes, 8);
}

/* ---- Which frames are answered ---- */

static const struct sheet sheets[4] = {
    { "UX15/25", cedarskein_ux_sheet, CEDARSKEIN_UX_SHEET_SIZE },
    { "AS-WE 40", cedarskein_aswe_40_sheet, CEDARSKEIN_ASWE_40_SHEET_SIZE },
    { "AS-WE 50", cedarskein_aswe_50_sheet, CEDARSKEIN_ASWE_50_SHEET_SIZE },
    { "AS-WE 80", cedarskein_aswe_80_sheet, CEDARSKEIN_ASWE_80_SHEET_SIZE }
};

/* Frames that every meter's own station answers: a read, a write of 0101, a write of two, a clear, a function that is none. */
static const struct { uint8_t bytes[13]; size_t n; } frames[5] = {
    { { 0, 0x03, 0x01, 0x00, 0x00, 0x02 }, 8 },
    { { 0, 0x06, 0x01, 0x01, 0x00, 0x01 }, 8 },
    { { 0, 0x10, 0x01, 0x01, 0x00, 0x02, 0x04, 0x00, 0x02, 0x00, 0x01 }, 13 },
    { { 0, 0x05, 0x03, 0x00, 0x00, 0x00 }, 8 },
    { { 0, 0x07 }, 4 }
};

/* Each station byte at a bank of one station: a reply from that one alone. What silence leaves alone is looked at in calls.c. */
static void every_byte(const struct sheet *sheet, uint8_t station)
{
    unsigned byte;
    size_t k;
    meter_fresh(&meter, sheet->bytes, sheet->n, station % LENT_SHIFTS);
    set_word(meter.bank.bytes, station_place(), station);
    expect_number(CEDARSKEIN_DONE, call_set_mark(&meter, 1), "the mark");
    for (byte = 0; byte < 256; byte++)
        for (k = 0; k < sizeof frames / sizeof frames[0]; k++) {
            at_case("%s at station %u, frame %lu for %u", sheet->name, station, (unsigned long)k, byte);
            meter_frame(&meter, frames[k].bytes, frames[k].n, k);
            meter.frame.bytes[0] = (uint8_t)byte;
            seal(meter.frame.bytes, meter.frame.n);
            expect_number(byte == station ? CEDARSKEIN_DONE : CEDARSKEIN_SILENCE, call_answer(&meter), "answer");
            expect_number(CEDARSKEIN_DONE, call_why(&meter), "why");
            expect((meter.reason == CEDARSKEIN_STATION) == (byte != station), "the station is the reason, or it is not");
        }
}

/* A write of the station: what it takes, and whether the meter is there afterwards. */
static void station_set(const struct sheet *sheet, uint32_t station)
{
    uint8_t frame[8] = { LOWEST, 0x06, 0, 0, 0, 0 };
    int good = LOWEST <= station && station <= HIGHEST;
    uint16_t address = sheet->bytes == cedarskein_ux_sheet ? CEDARSKEIN_UX_STATION : CEDARSKEIN_ASWE_STATION;
    at_case("%s, station %lu is set", sheet->name, (unsigned long)station);
    meter_fresh(&meter, sheet->bytes, sheet->n, 0);
    set_word(frame, 1, address);
    set_word(frame, 2, (uint16_t)station);
    meter_frame(&meter, frame, sizeof frame, 0);
    expect_number(CEDARSKEIN_DONE, call_why(&meter), "why");
    expect_number(good ? CEDARSKEIN_NO_REASON : CEDARSKEIN_ITEM, meter.reason, "the reason");
    expect_number(good ? CEDARSKEIN_NO_SIDE : station < LOWEST ? CEDARSKEIN_TOO_LOW : CEDARSKEIN_TOO_HIGH, meter.side, "the side");
    expect_number(CEDARSKEIN_DONE, call_answer(&meter), "answer");
    expect_number(good ? 8 : 5, meter.length, "an echo, or error 03");
    expect(good || meter.out.bytes[2] == 3, "error 03");
    expect_number(good ? station : LOWEST, word_at(meter.bank.bytes, station_place()), "the station");
}

/* ---- A board from before 1.3 ---- */

static const struct sheet old_sheets[3] = {
    { "AS-WE 40", old_aswe_40_sheet, OLD_ASWE_SHEET_SIZE },
    { "AS-WE 50", old_aswe_50_sheet, OLD_ASWE_SHEET_SIZE },
    { "AS-WE 80", old_aswe_80_sheet, OLD_ASWE_SHEET_SIZE }
};

/* What came in their place with 1.3; bore 40 has another one since 3.2. */
static const struct sheet sheets_of_1_3[3] = {
    { "AS-WE 40", aswe_40_sheet_of_3_1, OLD_ASWE_SHEET_SIZE },
    { "AS-WE 50", cedarskein_aswe_50_sheet, CEDARSKEIN_ASWE_50_SHEET_SIZE },
    { "AS-WE 80", cedarskein_aswe_80_sheet, CEDARSKEIN_ASWE_80_SHEET_SIZE }
};

/* The board's bank: every setting at its high bound, but the station; readings that are noise, and the mark 1. */
static void old_bank(const struct sheet *sheet, uint8_t station)
{
    size_t row, rows = word_at(sheet->bytes, 4), items = word_at(sheet->bytes, 3);
    meter_fresh(&meter, sheet->bytes, sheet->n, station % LENT_SHIFTS);
    for (row = rows; row < rows + 6 * items; row += 6)
        set_word(meter.bank.bytes, word_at(sheet->bytes, row + 1), word_at(sheet->bytes, row + 5));
    set_word(meter.bank.bytes, station_place(), station);
    set_word(meter.bank.bytes, word_at(sheet->bytes, 5), 1);
}

/* The calls that begin with a sheet and a bank, on a frame for that station. */
static void all_calls(uint32_t number, uint8_t station)
{
    meter_frame(&meter, frames[0].bytes, frames[0].n, 0);
    meter.frame.bytes[0] = station;
    seal(meter.frame.bytes, meter.frame.n);
    expect_number(number, call_bank_check(&meter), "bank_check");
    expect_number(number, call_post(&meter, 0x0200), "post");
    expect_number(number, call_set_mark(&meter, 1), "set_mark");
    expect_number(number, call_why(&meter), "why");
    expect_number(number, call_answer(&meter), "answer");
}

/* The AS-WE 40's bank has another size since 3.2: 3 from every call, until it is carried over, whatever its station is. */
static void carried_to_presets(const struct sheet *new, uint8_t station, uint32_t number)
{
    static const uint8_t presets[CEDARSKEIN_ASWE_40_BANK_SIZE - OLD_ASWE_BANK_SIZE];
    uint8_t old[OLD_ASWE_BANK_SIZE];
    all_calls(CEDARSKEIN_BANK_MISFITS, station);
    memcpy(old, meter.bank.bytes, sizeof old);
    lend(&meter.bank, CEDARSKEIN_ASWE_40_BANK_SIZE, station % LENT_SHIFTS);
    expect_number(number, carry_over(new->bytes, new->n, old, meter.bank.bytes, meter.bank.n), "carried over to the presets");
    expect(memcmp(meter.bank.bytes, old, 40) == 0 && memcmp(meter.bank.bytes + 54, old + 40, 38) == 0, "all is where the header says");
    expect(memcmp(meter.bank.bytes + 40, presets, sizeof presets) == 0, "the presets are 0");
}

/* What include/cedarskein.h says to do: the bank gets a station, and is checked. */
static uint32_t give_station(const uint8_t *sheet, size_t sheet_n, uint8_t *bank, size_t bank_n, uint8_t station)
{
    size_t place = 256 * (size_t)sheet[16] + sheet[17];
    bank[2 * place] = 0;
    bank[2 * place + 1] = station;
    return cedarskein_bank_check(sheet, sheet_n, bank, bank_n);
}

/* Every byte of the bank but the station's word is as it was. */
static int settings_kept(const uint8_t *before)
{
    size_t i, at = 2 * station_place();
    for (i = 0; i < meter.bank.n; i++)
        if (i != at && i != at + 1 && meter.bank.bytes[i] != before[i])
            return 0;
    return 1;
}

/* An old sheet, and the one that came in its place, which has another range of stations and nothing else. */
static void old_and_new(const struct sheet *old, const struct sheet *new)
{
    size_t i, differing = 0;
    at_case("the old sheet of %s", old->name);
    for (i = 0; i < old->n; i++)
        differing += old->bytes[i] != new->bytes[i];
    expect(old->n == new->n && differing == 2, "two bytes differ, of the low bound and of the high bound");
    meter_fresh(&meter, old->bytes, old->n, 0);
    expect_number(CEDARSKEIN_SHEET_BREAKS_RULE, call_sheet_check(&meter), "sheet_check");
    expect_number(CEDARSKEIN_SHEET_BREAKS_RULE, call_bank_fresh(&meter), "bank_fresh");
}

/* The board after the update: 2 with the old sheet; with the new one 3 where the bank has another size, until it is carried over; then 4
 * where the station is kept back, until the bank gets another. */
static void board_updated(const struct sheet *old, const struct sheet *new, uint8_t station, uint8_t given)
{
    uint8_t before[CEDARSKEIN_ASWE_40_BANK_SIZE];
    uint32_t number = station < LOWEST || HIGHEST < station ? CEDARSKEIN_BANK_NOT_SOUND : CEDARSKEIN_DONE;
    at_case("%s from station %u to %u", old->name, station, given);
    old_bank(old, station);
    all_calls(CEDARSKEIN_SHEET_BREAKS_RULE, station);
    lend_copy(&meter.sheet, new->bytes, new->n, 0);
    if (new->bytes == cedarskein_aswe_40_sheet)
        carried_to_presets(new, station, number);
    memcpy(before, meter.bank.bytes, meter.bank.n);
    if (number == CEDARSKEIN_BANK_NOT_SOUND)
        all_calls(number, station);
    else
        expect_number(number, call_bank_check(&meter), "a bank at another station is good as it is");
    expect(memcmp(before, meter.bank.bytes, meter.bank.n) == 0, "the bank is as it was");
    expect_number(CEDARSKEIN_DONE, give_station(new->bytes, new->n, meter.bank.bytes, meter.bank.n, given), "the bank gets a station");
    expect(settings_kept(before), "all but the station is kept");
    expect_number(given, word_at(meter.bank.bytes, station_place()), "the station");
    meter_frame(&meter, frames[0].bytes, frames[0].n, 0);
    meter.frame.bytes[0] = given;
    seal(meter.frame.bytes, meter.frame.n);
    expect_number(CEDARSKEIN_DONE, call_answer(&meter), "the meter answers there");
    expect(meter.length == 9 && memcmp(meter.out.bytes + 3, before + 2, 4) == 0, "with the settings of 0100 and 0101 as they were");
}

int main(void)
{
    static const uint8_t tried[7] = { 1, 2, 17, 128, 245, 246, 247 };
    size_t s, k;
    unsigned station;
    for (s = 0; s < 4; s++) {
        for (k = 0; k < sizeof tried; k++)
            every_byte(&sheets[s], tried[k]);
        for (station = 0; station < 0x300; station++)
            station_set(&sheets[s], station);
        station_set(&sheets[s], 0xFFFF);
    }
    for (s = 0; s < 3; s++) {
        old_and_new(&old_sheets[s], &sheets_of_1_3[s]);
        for (station = 0; station < 256; station++)
            for (k = 0; k < sizeof tried; k++)
                board_updated(&old_sheets[s], &sheets[s + 1], (uint8_t)station, tried[k]);
    }
    return told("the stations, and a board from before 1.3");
}
