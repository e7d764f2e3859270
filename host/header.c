/* The headers, as C and as C++: the named sizes, the sheets, the registers' addresses, every function of the door, where a bank holds
 * rate, station and presets, how one without presets is carried over, where a ring holds a record, and the box that asks. */
#include "cedarskein.h"
#include "cedarskein_registers.h"
#include "cedarskein_sheets.h"

#include <stdio.h>
#include <string.h>

static int failures;

static void expect(int holds, const char *what)
{
    if (holds)
        return;
    failures++;
    printf("FAILED: %s\n", what);
}

static void sheet_and_bank(const uint8_t *sheet, size_t sheet_n, size_t bank_n, const char *what)
{
    static uint8_t bank[CEDARSKEIN_LONGEST_BANK];
    expect(cedarskein_sheet_check(sheet, sheet_n) == CEDARSKEIN_DONE, what);
    expect(bank_n == (size_t)(2 * (256 * sheet[10] + sheet[11]) + 2), what);
    expect(cedarskein_bank_fresh(sheet, sheet_n, bank, bank_n) == CEDARSKEIN_DONE, what);
    expect(cedarskein_bank_check(sheet, sheet_n, bank, bank_n) == CEDARSKEIN_DONE, what);
    expect(bank[2 * (256 * sheet[18] + sheet[19]) + 1] == 1, what);
    expect(bank[2 * (256 * sheet[16] + sheet[17]) + 1] == 1, what);
}

static void sheets(void)
{
    sheet_and_bank(cedarskein_ux_sheet, CEDARSKEIN_UX_SHEET_SIZE, CEDARSKEIN_UX_BANK_SIZE, "UX15/25");
    sheet_and_bank(cedarskein_aswe_40_sheet, CEDARSKEIN_ASWE_40_SHEET_SIZE, CEDARSKEIN_ASWE_40_BANK_SIZE, "AS-WE 40");
    sheet_and_bank(cedarskein_aswe_50_sheet, CEDARSKEIN_ASWE_50_SHEET_SIZE, CEDARSKEIN_ASWE_50_BANK_SIZE, "AS-WE 50");
    sheet_and_bank(cedarskein_aswe_80_sheet, CEDARSKEIN_ASWE_80_SHEET_SIZE, CEDARSKEIN_ASWE_80_BANK_SIZE, "AS-WE 80");
}

/* Rate and station are written in one frame: the reply goes out as before, and the bank holds the new ones where the header says. */
static void next_rate_and_station(void)
{
    static const uint8_t *sheet = cedarskein_ux_sheet;
    static uint8_t bank[CEDARSKEIN_UX_BANK_SIZE], out[CEDARSKEIN_LEAST_OUT];
    uint8_t frame[13] = { 0x01, 0x10, CEDARSKEIN_UX_BIT_RATE >> 8, CEDARSKEIN_UX_BIT_RATE & 0xFF, 0x00, 0x02, 0x04, 0x00, 0x00, 0x00, 0x07 };
    uint16_t value = cedarskein_check_value(frame, 11);
    uint32_t length = 0, rate = 0;
    frame[11] = (uint8_t)(value & 0xFF);
    frame[12] = (uint8_t)(value >> 8);
    cedarskein_bank_fresh(sheet, CEDARSKEIN_UX_SHEET_SIZE, bank, sizeof bank);
    expect(cedarskein_answer(sheet, CEDARSKEIN_UX_SHEET_SIZE, bank, sizeof bank, NULL, 0, frame, sizeof frame, out, sizeof out, &length,
                             &rate) == CEDARSKEIN_DONE, "a reply");
    expect(length == 8 && rate == 1 && out[0] == 1, "the reply goes out as before the frame");
    expect(bank[2 * (256 * sheet[18] + sheet[19]) + 1] == 0, "the next rate");
    expect(bank[2 * (256 * sheet[16] + sheet[17]) + 1] == 7, "the next station");
}

static void posted_and_marked(void)
{
    static uint8_t bank[CEDARSKEIN_UX_BANK_SIZE];
    static const uint8_t words[2] = { 0x30, 0x39 };
    const uint8_t *sheet = cedarskein_ux_sheet;
    cedarskein_bank_fresh(sheet, CEDARSKEIN_UX_SHEET_SIZE, bank, sizeof bank);
    expect(cedarskein_post(sheet, CEDARSKEIN_UX_SHEET_SIZE, bank, sizeof bank, CEDARSKEIN_UX_FLOW, words, sizeof words) == CEDARSKEIN_DONE,
           "post");
    expect(bank[46] == 0x30 && bank[47] == 0x39, "the posted word lies upper byte first");
    expect(cedarskein_set_mark(sheet, CEDARSKEIN_UX_SHEET_SIZE, bank, sizeof bank, 1) == CEDARSKEIN_DONE, "set_mark");
    expect(bank[68] == 0 && bank[69] == 1, "the mark is the last word");
}

/* A 06 for station 1. */
static void write_of(uint8_t *frame, uint16_t address, uint16_t word)
{
    uint16_t value;
    frame[0] = 0x01;
    frame[1] = 0x06;
    frame[2] = (uint8_t)(address >> 8);
    frame[3] = (uint8_t)(address & 0xFF);
    frame[4] = (uint8_t)(word >> 8);
    frame[5] = (uint8_t)(word & 0xFF);
    value = cedarskein_check_value(frame, 6);
    frame[6] = (uint8_t)(value & 0xFF);
    frame[7] = (uint8_t)(value >> 8);
}

/* A 06 at the AS-WE 40: the bytes of its reply, 5 of an error. */
static uint32_t written(uint8_t *bank, uint16_t address, uint16_t word)
{
    static uint8_t out[CEDARSKEIN_LEAST_OUT];
    uint8_t frame[8];
    uint32_t length = 99, rate = 99;
    write_of(frame, address, word);
    expect(cedarskein_answer(cedarskein_aswe_40_sheet, CEDARSKEIN_ASWE_40_SHEET_SIZE, bank, CEDARSKEIN_ASWE_40_BANK_SIZE, NULL, 0, frame,
                             sizeof frame, out, sizeof out, &length, &rate) == CEDARSKEIN_DONE, "an answer to a write");
    return length;
}

/* The presets by their names: the firmware finds them at their places, from byte 40 of the bank on. */
static void presets(void)
{
    static const uint8_t as_written[14] = { 0x00, 0x09, 0x27, 0x0F, 0x00, 0x00, 0x12, 0x34, 0x00, 0x00, 0x00, 0x00, 0xFF, 0xFF };
    static uint8_t bank[CEDARSKEIN_ASWE_40_BANK_SIZE];
    cedarskein_bank_fresh(cedarskein_aswe_40_sheet, CEDARSKEIN_ASWE_40_SHEET_SIZE, bank, sizeof bank);
    expect(written(bank, CEDARSKEIN_ASWE_PRESET_VOLUME_UPPER_DIGIT, 9) == 8, "9 as the upper digit");
    expect(written(bank, CEDARSKEIN_ASWE_PRESET_VOLUME_UPPER_DIGIT, 10) == 5, "10 as the upper digit");
    expect(written(bank, CEDARSKEIN_ASWE_PRESET_VOLUME_MIDDLE_DIGITS, 9999) == 8, "9999 as the middle digits");
    expect(written(bank, CEDARSKEIN_ASWE_PRESET_VOLUME_LOWER_DIGITS, 10000) == 5, "10000 as the lower digits");
    expect(written(bank, CEDARSKEIN_ASWE_PRESET_SECOND_VOLUME, 0x1234) == 8, "the upper half of the second volume");
    expect(written(bank, CEDARSKEIN_ASWE_PRESET_REVERSE_VOLUME + 1, 0xFFFF) == 8, "the lower half of the reverse volume");
    expect(memcmp(bank + 40, as_written, sizeof as_written) == 0, "where the presets lie");
}

/* The header's own lines on a bank from before 3.2. A fresh one was then what that of bore 50 is still. */
static void carried_over(void)
{
    static const uint8_t *sheet = cedarskein_aswe_40_sheet, *old_sheet = cedarskein_aswe_50_sheet;
    static const uint8_t readings[4] = { 0x12, 0x34, 0x56, 0x78 };
    static uint8_t old[CEDARSKEIN_ASWE_50_BANK_SIZE], bank[92];
    const size_t sheet_n = CEDARSKEIN_ASWE_40_SHEET_SIZE, old_n = CEDARSKEIN_ASWE_50_SHEET_SIZE;
    uint32_t number;
    cedarskein_bank_fresh(old_sheet, old_n, old, sizeof old);
    cedarskein_post(old_sheet, old_n, old, sizeof old, CEDARSKEIN_ASWE_ACTUAL_FLOW, readings, sizeof readings);
    expect(cedarskein_bank_check(sheet, sheet_n, old, sizeof old) == CEDARSKEIN_BANK_MISFITS, "the old bank with the new sheet");
    number = cedarskein_bank_fresh(sheet, sheet_n, bank, 92);
    expect(number == CEDARSKEIN_DONE, "a bank to carry over to");
    memcpy(bank, old, 40);
    memcpy(bank + 54, old + 40, 38);
    number = cedarskein_bank_check(sheet, sheet_n, bank, 92);
    expect(number == CEDARSKEIN_DONE, "a bank that was carried over");
    expect(bank[54] == 0xFF && bank[55] == 0x9C && memcmp(bank + 58, readings, sizeof readings) == 0, "where 0123 and the readings lie then");
}

/* A read of one register too many: the address behind the area, and the reasons' numbers. */
static void reasons(void)
{
    static const int numbers[11] = { CEDARSKEIN_NO_REASON, CEDARSKEIN_TOO_SHORT, CEDARSKEIN_TOO_LONG, CEDARSKEIN_CHECK, CEDARSKEIN_STATION,
                                     CEDARSKEIN_FUNCTION, CEDARSKEIN_BODY_LENGTH, CEDARSKEIN_COUNT, CEDARSKEIN_ADDRESS,
                                     CEDARSKEIN_CLEAR_VALUE, CEDARSKEIN_ITEM };
    static uint8_t bank[CEDARSKEIN_UX_BANK_SIZE];
    uint8_t frame[8] = { 0x01, 0x03, 0x01, 0x00, 0x00, 0x18 };
    uint16_t value = cedarskein_check_value(frame, 6);
    uint32_t reason = 99, address = 99, side = 99;
    int i;
    frame[6] = (uint8_t)(value & 0xFF);
    frame[7] = (uint8_t)(value >> 8);
    for (i = 0; i < 11; i++)
        expect(numbers[i] == i, "the reasons are 0 to 10");
    cedarskein_bank_fresh(cedarskein_ux_sheet, CEDARSKEIN_UX_SHEET_SIZE, bank, sizeof bank);
    expect(cedarskein_why(cedarskein_ux_sheet, CEDARSKEIN_UX_SHEET_SIZE, bank, sizeof bank, NULL, 0, frame, sizeof frame, &reason, &address,
                          &side) == CEDARSKEIN_DONE, "why");
    expect(reason == CEDARSKEIN_ADDRESS && address == 0x0117 && side == CEDARSKEIN_NO_SIDE, "the reason and the address, and no side");
}

/* A write of the reference temperature, a signed word, and the end that it misses. */
static void told_side(uint16_t word, uint32_t expected)
{
    static uint8_t bank[CEDARSKEIN_UX_BANK_SIZE];
    uint8_t frame[8];
    uint32_t reason = 99, address = 99, side = 99;
    write_of(frame, CEDARSKEIN_UX_REFERENCE_TEMPERATURE, word);
    cedarskein_bank_fresh(cedarskein_ux_sheet, CEDARSKEIN_UX_SHEET_SIZE, bank, sizeof bank);
    expect(cedarskein_why(cedarskein_ux_sheet, CEDARSKEIN_UX_SHEET_SIZE, bank, sizeof bank, NULL, 0, frame, sizeof frame, &reason, &address,
                          &side) == CEDARSKEIN_DONE, "why, of an item");
    expect(reason == CEDARSKEIN_ITEM && address == CEDARSKEIN_UX_REFERENCE_TEMPERATURE && side == expected, "the item and its side");
}

static void item_sides(void)
{
    static const int numbers[3] = { CEDARSKEIN_NO_SIDE, CEDARSKEIN_TOO_LOW, CEDARSKEIN_TOO_HIGH };
    int i;
    for (i = 0; i < 3; i++)
        expect(numbers[i] == i, "the sides are 0 to 2");
    told_side(0xFFF5, CEDARSKEIN_TOO_LOW);
    told_side(0x003D, CEDARSKEIN_TOO_HIGH);
}

/* A ring's size and the place of a record, by the header's own expressions. N is 3 and w 2; five records are added, 1 to 5. */
static void ring_of(const uint8_t *sheet, size_t sheet_n)
{
    static uint8_t ring[2 * (2 + 3 * 2)];
    size_t row = 2 * (12 + 4 * (size_t)sheet[3] + 6 * (size_t)sheet[7]);
    size_t first = 256 * (size_t)sheet[row] + sheet[row + 1];
    size_t N = 256 * (size_t)sheet[row + 2] + sheet[row + 3];
    size_t w = sheet[row + 5];
    size_t ring_n = 2 * (2 + (size_t)N * w);
    size_t newest, place, k;
    uint8_t record[4] = { 0, 0, 0, 0 };
    expect(first == 0x0400 && ring_n == sizeof ring, "the first address, and a ring's size");
    for (k = 1; k <= 5; k++) {
        record[3] = (uint8_t)k;
        expect(cedarskein_add_record(sheet, sheet_n, ring, ring_n, record, sizeof record) == CEDARSKEIN_DONE, "add_record");
    }
    expect(cedarskein_ring_check(sheet, sheet_n, ring, ring_n) == CEDARSKEIN_DONE, "ring_check");
    expect(cedarskein_ring_check(sheet, sheet_n, ring, ring_n - 2) == CEDARSKEIN_BAD_RING, "ring_check of a shorter one");
    for (k = 1; k <= N; k++) {
        newest = 256 * (size_t)ring[0] + ring[1];
        place = (newest + N - (k - 1)) % N;
        expect((ring + 2 * (2 + (size_t)place * w))[3] == 6 - k, "where a record lies");
    }
}

static void records(void)
{
    static const uint8_t row[6] = { 0x04, 0x00, 0x00, 0x03, 0x00, 0x02 };
    static uint8_t sheet[CEDARSKEIN_UX_SHEET_SIZE + sizeof row];
    memcpy(sheet, cedarskein_ux_sheet, CEDARSKEIN_UX_SHEET_SIZE);
    memcpy(sheet + CEDARSKEIN_UX_SHEET_SIZE, row, sizeof row);
    sheet[14] = (uint8_t)(sizeof sheet / 2 / 256);
    sheet[15] = (uint8_t)(sizeof sheet / 2 % 256);
    sheet[23] = 1;
    expect(cedarskein_sheet_check(sheet, sizeof sheet) == CEDARSKEIN_DONE, "a sheet with a record area");
    ring_of(sheet, sizeof sheet);
    expect(cedarskein_ring_check(cedarskein_ux_sheet, CEDARSKEIN_UX_SHEET_SIZE, NULL, 0) == CEDARSKEIN_DONE, "no record area and no ring");
}

/* The orders' numbers and those of the two calls. */
static void order_numbers(void)
{
    static const int orders[5] = { CEDARSKEIN_READ, CEDARSKEIN_RECORD, CEDARSKEIN_WRITE, CEDARSKEIN_WRITES, CEDARSKEIN_CLEAR };
    static const int refusals[5] = { CEDARSKEIN_NO_FRAME, CEDARSKEIN_REPLY_DAMAGED, CEDARSKEIN_REPLY_STATION, CEDARSKEIN_REPLY_FUNCTION,
                                     CEDARSKEIN_REPLY_BODY };
    int i;
    for (i = 0; i < 5; i++) {
        expect(orders[i] == i, "the orders are 0 to 4");
        expect(refusals[i] == 9 + i, "what is refused of them is 9 to 13");
    }
}

/* As the header has it: the query is built and sent, and what comes back is read against the same order. */
static void box_that_asks(void)
{
    static uint8_t bank[CEDARSKEIN_UX_BANK_SIZE], out[CEDARSKEIN_LEAST_OUT], reply[CEDARSKEIN_LEAST_OUT];
    const uint32_t station = 1, address = CEDARSKEIN_UX_REFERENCE_TEMPERATURE, count = 15;
    uint32_t length = 99, rate = 99, error = 99, reply_n = 99;
    cedarskein_bank_fresh(cedarskein_ux_sheet, CEDARSKEIN_UX_SHEET_SIZE, bank, sizeof bank);
    expect(cedarskein_query(0, station, address, count, NULL, 0, out, sizeof out, &length) == CEDARSKEIN_DONE && length == 8, "query");
    expect(cedarskein_answer(cedarskein_ux_sheet, CEDARSKEIN_UX_SHEET_SIZE, bank, sizeof bank, NULL, 0, out, length, reply, sizeof reply,
                             &reply_n, &rate) == CEDARSKEIN_DONE, "the meter answers it");
    expect(cedarskein_reply(0, station, address, count, NULL, 0, reply, reply_n, out, sizeof out, &length, &error) == CEDARSKEIN_DONE,
           "reply");
    expect(length == 30 && error == 0 && memcmp(out, bank, 30) == 0, "the values are the bank's words");
    expect(cedarskein_query(0, 248, address, count, NULL, 0, out, sizeof out, &length) == CEDARSKEIN_NO_FRAME && length == 0, "no station");
    expect(cedarskein_reply(0, 2, address, count, NULL, 0, reply, reply_n, out, sizeof out, &length, &error) == CEDARSKEIN_REPLY_STATION,
           "a reply of another station");
}

static void versions(void)
{
    char version[30];
    sprintf(version, "%d.%d.%d", CEDARSKEIN_VERSION_MAJOR, CEDARSKEIN_VERSION_MINOR, CEDARSKEIN_VERSION_PATCH);
    expect(strcmp(version, CEDARSKEIN_VERSION) == 0, "the version is said alike");
    expect(CEDARSKEIN_VERSION_MAJOR > 3 || (CEDARSKEIN_VERSION_MAJOR == 3 && CEDARSKEIN_VERSION_MINOR >= 2),
           "why tells a side from version 3 on, the box asks from 3.1 on, and the AS-WE 40 has presets from 3.2 on");
    expect(cedarskein_check_take(cedarskein_check_start(), 0x01) == 0x807E, "check_take");
}

int main(void)
{
    sheets();
    next_rate_and_station();
    posted_and_marked();
    presets();
    carried_over();
    reasons();
    item_sides();
    records();
    order_numbers();
    box_that_asks();
    versions();
    return failures != 0;
}
