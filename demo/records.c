/* The history of the simulated meter: made-up records in the shape of document 004's table. No register shows what they hold: a sheet with a history
   is no maker's, and the readings of such a sheet count seconds. */
#define _XOPEN_SOURCE 700
#include "records.h"

#include <stdio.h>
#include <time.h>

/* The words of 004's record, and where it has the total. A sheet with shorter records gets the first of them, one with longer ones zeros behind. */
enum { WORDS_OF_004 = 22, TOTAL_WORD = 11 };

/* In 0.01 kPa. */
enum { PRESSURE_READING = 20130 };

struct record {
    uint8_t bytes[2 * LONGEST_RECORD];
    unsigned words;
};

static void add_word(struct record *record, unsigned word)
{
    store_word(record->bytes, record->words++, word & 0xFFFF);
}

static void add_pair(struct record *record, uint64_t pair)
{
    add_word(record, (unsigned)(pair >> 16));
    add_word(record, (unsigned)pair);
}

/* The year; month and day; hour and minute: by the clock of the computer. */
static void add_time(struct record *record)
{
    time_t now = time(NULL);
    struct tm clock = { 0 };
    localtime_r(&now, &clock);
    add_word(record, (unsigned)clock.tm_year + 1900);
    add_word(record, (unsigned)(clock.tm_mon + 1) << 8 | (unsigned)clock.tm_mday);
    add_word(record, (unsigned)clock.tm_hour << 8 | (unsigned)clock.tm_min);
}

/* Volumes in 0.1 m3, in all and since the record before. As with AS-WE, actual and compensated flow are the same here, nothing flows back, and there is
   no error. */
static struct record record_of(const struct readings *readings, uint64_t volume)
{
    struct record record = { { 0 }, 0 };
    unsigned flow = flow_at(readings->second);
    add_pair(&record, flow);
    add_pair(&record, PRESSURE_READING);
    add_pair(&record, 10 * temperature_at(readings->second));
    add_pair(&record, volume);
    add_word(&record, 0);
    add_pair(&record, flow / 10);
    add_pair(&record, volume);
    add_time(&record);
    add_pair(&record, volume - readings->recorded);
    add_pair(&record, volume - readings->recorded);
    add_pair(&record, 0);
    return record;
}

int add_next_record(struct readings *readings, struct meter *meter)
{
    uint64_t volume = total_volume(readings) / 10;
    struct record record = record_of(readings, volume);
    uint32_t number = cedarskein_add_record(meter->sheet, meter->sheet_n, meter->ring, meter->ring_n, record.bytes, 2 * history_of(meter).words);
    readings->recorded = volume;
    if (number == CEDARSKEIN_DONE)
        return 0;
    printf("adding a record handed back %u\n", (unsigned)number);
    return -1;
}

uint64_t total_recorded(const struct meter *meter)
{
    if (!has_history(meter) || history_of(meter).words < WORDS_OF_004 || records_stored(meter) == 0)
        return 0;
    const uint8_t *newest = record_numbered(meter, 1);
    return 10 * ((uint64_t)word_at(newest, TOTAL_WORD) << 16 | word_at(newest, TOTAL_WORD + 1));
}
