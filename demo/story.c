/* The pump hand's story: a new limit comes back with error 03. What is in the meter now, and why? And what a newer meter tells of the last nights, and how
   a total is set that no read shows. */
#include <stdio.h>
#include <stdlib.h>
#include <string.h>

#include "cedarskein_registers.h"
#include "cedarskein_sheets.h"
#include "hex.h"
#include "reasons.h"
#include "registers.h"

static struct meter meter;
static uint8_t reply[CEDARSKEIN_LEAST_OUT];

/* A line of the listing is an address, a kind and two bounds: behind these, the register's name, and the bounds in its unit. */
static void tell_item(const char *line)
{
    unsigned address;
    long low, high;
    printf("  %-18s", line);
    if (sscanf(line, "%4x %*c %ld %ld", &address, &low, &high) == 3) {
        struct register_row row = register_at(&meter, address);
        printf("%s: ", row.name);
        print_range(&row, low, high);
    }
    printf("\n");
}

/* The listing comes from the listing program, by standard input: a line with counts, and then the items. */
static void tell_listing(void)
{
    char line[80];
    if (fgets(line, sizeof line, stdin))
        printf("  %s", line);
    while (fgets(line, sizeof line, stdin)) {
        line[strcspn(line, "\n")] = '\0';
        tell_item(line);
    }
}

/* Bytes in hex, the check set off by a wider gap. */
static void tell_bytes(const char *arrow, const uint8_t *bytes, size_t n)
{
    printf("  %s", arrow);
    for (size_t k = 0; k < n; k++)
        printf(k + 2 == n ? "  %02X" : " %02X", bytes[k]);
    printf("\n");
}

static size_t from_hex(uint8_t *frame, const char *hex)
{
    struct hex_fault fault;
    return (size_t)bytes_of_hex(hex, strlen(hex), frame, &fault);
}

static size_t add_check(uint8_t *frame, size_t n)
{
    uint16_t check = cedarskein_check_value(frame, n);
    frame[n] = (uint8_t)check;
    frame[n + 1] = (uint8_t)(check >> 8);
    return n + 2;
}

/* Why a frame got silence or an error; a reply needs no reason. */
static void tell_why(const struct reason *reason)
{
    if (reason->number == CEDARSKEIN_NO_REASON)
        return;
    printf("  ? ");
    print_sentence(reason);
}

/* The reason is asked ahead of the answer, with the bank as it is before the frame. */
static void send_frame(const uint8_t *frame, size_t n)
{
    struct reason reason;
    uint32_t length, rate;
    tell_bytes(">", frame, n);
    struct meter before = meter;
    ask_reason(&reason, &before, frame, n);
    uint32_t number = cedarskein_answer(meter.sheet, meter.sheet_n, meter.bank, meter.bank_n, meter.ring, meter.ring_n, frame, n, reply,
                                        sizeof reply, &length, &rate);
    if (number == CEDARSKEIN_DONE)
        tell_bytes("<", reply, length);
    else if (number == CEDARSKEIN_SILENCE)
        printf("  < silence\n");
    else
        printf("  < number %u\n", (unsigned)number);
    tell_why(&reason);
}

static void ask(const char *hex)
{
    uint8_t frame[CEDARSKEIN_LONGEST_FRAME];
    send_frame(frame, add_check(frame, from_hex(frame, hex)));
}

/* The pair at a word of a read's reply. */
static unsigned pair_read(size_t word)
{
    const uint8_t *words = reply + 3;
    return word_at(words, word) << 16 | word_at(words, word + 1);
}

/* A value of one of the three limits, as words and in their unit. */
static void tell_limit(const char *what, unsigned pair, const char *end)
{
    struct register_row row = register_at(&meter, CEDARSKEIN_UX_ALARM_UPPER_LIMIT);
    printf("  %s %04X %04X, ", what, pair >> 16, pair & 0xFFFF);
    print_value(&row, pair);
    printf("%s\n", end);
}

static void tell_named_limit(unsigned address, unsigned pair, const char *end)
{
    char name[40], what[40];
    struct register_row row = register_at(&meter, address);
    snprintf(name, sizeof name, "%s:", row.name);
    snprintf(what, sizeof what, "%-18s", name);
    tell_limit(what, pair, end);
}

static void tell_meter(void)
{
    printf("You stand at the pump in the orchard, and want its gas alarm to come later. The meter is a UX15/25,\n"
           "station 1. This is its sheet, listed, with the names and units of docs/REGISTERS.md:\n\n");
    tell_listing();
    printf("\nu is a word, s a signed word, p a pair: two registers that hold one number. Then come the lowest\n"
           "and the highest value. The three limits count tenths: 99999 is 9999.9 m3/h.\n"
           "Below, > goes to the meter and < comes back; the last two bytes are the check. ? tells why there is\n"
           "silence or an error, as make why does.\n");
}

static void tell_limit_before(void)
{
    printf("\n1. The limit before\n");
    ask("01 10 01 03 00 02 04 00 00 98 76");
    printf("  The hand before you set the Alarm upper limit, 0103 and 0104, to 3903.0 m3/h.\n");
    ask("01 03 01 03 00 02");
    tell_limit("You read it back:", pair_read(0), ".");
}

static void tell_refused_limit(void)
{
    printf("\n2. Your new limit is 5000.0 m3/h\n");
    ask("01 10 01 03 00 02 04 00 07 A1 20");
    printf("  Sent was 0007 A120, which is 500000: in hundredths, as the Volume alarm limit counts, not in tenths.\n");
    ask("01 03 01 03 00 02");
    tell_limit("In the meter is still", pair_read(0), ". A pair is one number: not even its 0007 was stored.");
}

static void tell_half_limit(void)
{
    printf("\n3. Half of a limit, sent alone\n");
    ask("01 06 01 03 00 01");
    printf("  Half a pair is judged with the half in the meter: 0001 9876 is 104566.\n");
    ask("01 06 01 04 13 88");
    printf("  Stored: with the 0000 in the meter it makes 0000 1388, which is 500.0 m3/h.\n");
    ask("01 03 01 03 00 02");
    tell_limit("In the meter is now", pair_read(0), ".");
}

static void tell_half_way(void)
{
    printf("\n4. Three limits in one write, the second is bad\n");
    ask("01 10 01 03 00 06 0C 00 00 03 E8 00 01 86 A0 00 00 00 32");
    printf("  Sent were 100.0, 10000.0 and 5.0 m3/h. Those ahead of the first bad one are stored, no others.\n");
    ask("01 03 01 03 00 06");
    tell_named_limit(CEDARSKEIN_UX_ALARM_UPPER_LIMIT, pair_read(0), ": stored, though the reply was an error.");
    tell_named_limit(CEDARSKEIN_UX_ALARM_LOWER_LIMIT, pair_read(2), ": the bad one, as it was.");
    tell_named_limit(CEDARSKEIN_UX_ALARM_HYSTERESIS, pair_read(4), ": good, but behind the bad one, as it was.");
}

static void tell_silence(void)
{
    uint8_t before[CEDARSKEIN_LONGEST_BANK];
    uint8_t damaged[CEDARSKEIN_LONGEST_FRAME];
    memcpy(before, meter.bank, meter.bank_n);
    printf("\n5. Frames that the meter does not answer\n");
    size_t n = add_check(damaged, from_hex(damaged, "01 06 01 04 13 88"));
    damaged[5] ^= 0x80;
    send_frame(damaged, n);
    printf("  This is the half limit of 3, damaged on the way: one bit, 88 came in as 08.\n");
    ask("02 06 01 04 13 88");
    printf("  This is the same for station 2, and its check agrees.\n");
    ask("00 06 01 04 13 88");
    printf("  This is the same from a controller that means every meter at once.\n");
    printf("  The bank, the meter's memory, is %s it was before these three.\n",
           memcmp(before, meter.bank, meter.bank_n) == 0 ? "byte for byte what" : "NOT what");
}

/* A sheet of the story's own: a station at 0000 and a rate at 0001, and a history of three records of two words, at 0400 to 0402. */
static const unsigned HISTORY_SHEET[] = {
    1, 1, 12, 2, 16, 2, 1, 31, 0, 1, 0, 1, /* the header: 03 alone is allowed, and there is a record area */
    0x0000, 0x0001, 0, 3,
    0, 0, 0, 1, 0, 0xF7,
    0, 1, 0, 0, 0, 1,
    0x0400, 3, 2,
};

static void begin_history_meter(void)
{
    size_t words = sizeof HISTORY_SHEET / sizeof *HISTORY_SHEET;
    for (size_t k = 0; k < words; k++)
        store_word(meter.sheet, k, HISTORY_SHEET[k]);
    meter.sheet_n = 2 * words;
    set_up_meter(&meter, "the sheet of the story's last meter");
}

/* What the meter does by itself when a night is over. */
static void add_night(unsigned month, unsigned day, unsigned tenths)
{
    uint8_t record[4];
    store_word(record, 0, month << 8 | day);
    store_word(record, 1, tenths);
    uint32_t number = cedarskein_add_record(meter.sheet, meter.sheet_n, meter.ring, meter.ring_n, record, sizeof record);
    if (number != CEDARSKEIN_DONE)
        printf("  the record was not added: number %u\n", (unsigned)number);
}

/* The record of a read's reply, in words. */
static void tell_night(const char *what)
{
    const uint8_t *words = reply + 3;
    printf("  %s: %04X %04X, month %u, day %u, %u.%u m3.\n", what, word_at(words, 0), word_at(words, 1), words[0], words[1],
           word_at(words, 1) / 10, word_at(words, 1) % 10);
}

static void tell_first_nights(void)
{
    printf("\n6. What was burnt last night\n"
           "  The pump house has a newer meter, with a history. Each morning it adds a record of two words, the\n"
           "  day and the volume in tenths of m3. It has room for three, at 0400 to 0402; the newest is at 0400.\n");
    ask("01 03 04 00 00 01");
    printf("  It was switched on today. Two nights pass.\n");
    add_night(11, 14, 312);
    add_night(11, 15, 287);
    ask("01 03 04 00 00 01");
    printf("  One register was asked for, and a whole record comes.\n");
    tell_night("The newest");
    ask("01 03 04 02 00 01");
    ask("01 03 04 00 00 02");
    printf("  Ask for 0400, and then for 0401.\n");
}

static void tell_full_history(void)
{
    printf("\n7. The history is full\n"
           "  Two more nights pass, four in all. The fourth record takes the room of the first.\n");
    add_night(11, 16, 305);
    add_night(11, 17, 298);
    ask("01 03 04 00 00 01");
    tell_night("The newest");
    ask("01 03 04 02 00 01");
    tell_night("The oldest that there is");
    printf("  Read in time: the record of day 14 is gone.\n");
}

static void begin_aswe_meter(void)
{
    memcpy(meter.sheet, cedarskein_aswe_40_sheet, sizeof cedarskein_aswe_40_sheet);
    meter.sheet_n = sizeof cedarskein_aswe_40_sheet;
    set_up_meter(&meter, "the AS-WE 40's sheet");
}

/* What the firmware finds in the bank: the three presets as words, and the volume that they make up, in tenths. */
static void tell_preset_volume(void)
{
    unsigned upper = (unsigned)value_at(&meter, CEDARSKEIN_ASWE_PRESET_VOLUME_UPPER_DIGIT);
    unsigned middle = (unsigned)value_at(&meter, CEDARSKEIN_ASWE_PRESET_VOLUME_MIDDLE_DIGITS);
    unsigned lower = (unsigned)value_at(&meter, CEDARSKEIN_ASWE_PRESET_VOLUME_LOWER_DIGITS);
    unsigned tenths = 100000000 * upper + 10000 * middle + lower;
    printf("  In the bank, where the meter's firmware takes it from: %04X %04X %04X, %u.%u m3.\n", upper, middle, lower, tenths / 10, tenths % 10);
}

static void tell_preset(void)
{
    printf("\n8. A total that goes on where the old one stopped\n"
           "  The other pump has an AS-WE 40, and today a new board in it. The old one had counted 12345678.9 m3.\n"
           "  Three presets set such a total: 0118 takes its first digit, 0119 the next four, 011A the last four.\n");
    ask("01 06 01 18 00 0C");
    printf("  Sent was 000C, which is 12: one digit too many.\n");
    ask("01 10 01 18 00 03 06 00 01 09 29 1A 85");
    printf("  Sent were 1, 2345 and 6789.\n");
    ask("01 03 01 18 00 03");
    printf("  A preset is not for reading. Its write was answered without an error, so it is stored.\n");
    tell_preset_volume();
}

static void tell_where_next(void)
{
    printf("\nAfter an error 03 to a write, read back: the reply does not say how much was stored. What cannot be\n"
           "read, send again.\n\n"
           "Next: make meter    a meter like the first one, on a line of its own, for your own program\n"
           "      make why      why a meter is silent or answers with an error, for a frame of yours or a capture\n"
           "      make test     the proofs that it is so for every frame and every sheet\n"
           "      docs/REGISTERS.md    each register's name, range and unit\n"
           "      docs/CLAIMS.md       what is claimed, sentence by sentence\n");
}

int main(int argc, char **argv)
{
    if (argc != 2) {
        fprintf(stderr, "usage: list < SHEET | story SHEET\n");
        return 1;
    }
    load_meter(&meter, argv[1]);
    tell_meter();
    tell_limit_before();
    tell_refused_limit();
    tell_half_limit();
    tell_half_way();
    tell_silence();
    begin_history_meter();
    tell_first_nights();
    tell_full_history();
    begin_aswe_meter();
    tell_preset();
    tell_where_next();
    return 0;
}
