/* What a meter remembers: its sheet, read from a file, its bank and its history. */
#include "memory.h"

#include <errno.h>
#include <stdio.h>
#include <stdlib.h>
#include <string.h>

#include "frame.h"

/* Words of the sheet's header, and the words of the header, of an area row and of an item row, by document 01; those of a record area and in front of a
   ring's records, by request W3 of document 02. */
enum { VERSION = 0, AREAS = 1, ITEMS = 3, ITEM_ROWS = 4, BANK_WORDS = 5, FUNCTIONS = 6, SHEET_WORDS = 7, PLACE_OF_STATION = 8, PLACE_OF_RATE = 9,
       CLEAR_ADDRESS = 10, HAS_RECORDS = 11 };
enum { HEADER = 12, AREA_ROW = 4, ITEM_ROW = 6, RECORD_AREA = 3 };
enum { NEWEST = 0, STORED = 1, IN_FRONT_OF_RECORDS = 2, MOST_RECORDS = 6600 };

/* The versions of a sheet: with the second, by request W7 of document 02, an area can be written only. */
enum { FIRST_VERSION = 1, LAST_VERSION = 2 };

unsigned word_at(const uint8_t *bytes, size_t number)
{
    return (unsigned)bytes[2 * number] << 8 | bytes[2 * number + 1];
}

void store_word(uint8_t *bytes, size_t number, unsigned word)
{
    bytes[2 * number] = (uint8_t)(word >> 8);
    bytes[2 * number + 1] = (uint8_t)word;
}

static int refuse(const char *path, const char *why)
{
    fprintf(stderr, "%s: %s\n", path, why);
    return -1;
}

static int read_sheet(struct meter *meter, const char *path)
{
    FILE *file = fopen(path, "rb");
    if (!file)
        return refuse(path, strerror(errno));
    /* One byte more than a sheet can have is asked for, so that a longer file shows. */
    meter->sheet_n = fread(meter->sheet, 1, sizeof meter->sheet, file);
    int why = ferror(file) ? errno : 0;
    fclose(file);
    if (why != 0)
        return refuse(path, strerror(why));
    if (meter->sheet_n > CEDARSKEIN_LONGEST_SHEET)
        return refuse(path, "no sheet: it is longer than any");
    return 0;
}

static struct item item_of_row(const uint8_t *row)
{
    struct item item = { word_at(row, 0), word_at(row, 1), word_at(row, 2) << 16 | word_at(row, 3), word_at(row, 4) << 16 | word_at(row, 5) };
    return item;
}

/* The row of the station's item in what may be no sheet: NULL where there is none. */
static uint8_t *find_station_row(struct meter *meter)
{
    size_t words = meter->sheet_n / 2;
    if (words < HEADER)
        return NULL;
    for (size_t at = word_at(meter->sheet, ITEM_ROWS); at + ITEM_ROW <= words; at += ITEM_ROW)
        if (word_at(meter->sheet, at + 1) == word_at(meter->sheet, PLACE_OF_STATION))
            return meter->sheet + 2 * at;
    return NULL;
}

/* Whether a sheet would be good with stations that a meter can have, and those that it has. */
static int only_stations_are_bad(const struct meter *meter, struct item *stations)
{
    struct meter mended = *meter;
    uint8_t *row = find_station_row(&mended);
    if (!row)
        return 0;
    *stations = item_of_row(row);
    store_word(row, 2, 0);
    store_word(row, 3, FIRST_STATION);
    store_word(row, 4, 0);
    store_word(row, 5, LAST_STATION);
    return (stations->low < FIRST_STATION || LAST_STATION < stations->high)
        && cedarskein_sheet_check(mended.sheet, mended.sheet_n) == CEDARSKEIN_DONE;
}

/* Whether a sheet with a record area would be good without it. The area is the sheet's last words. */
static int only_records_are_bad(const struct meter *meter)
{
    struct meter without = *meter;
    if (meter->sheet_n < 2 * (HEADER + RECORD_AREA) || !has_history(meter) || meter->sheet_n != 2 * (size_t)word_at(meter->sheet, SHEET_WORDS))
        return 0;
    without.sheet_n -= 2 * RECORD_AREA;
    store_word(without.sheet, SHEET_WORDS, word_at(meter->sheet, SHEET_WORDS) - RECORD_AREA);
    store_word(without.sheet, HAS_RECORDS, 0);
    return cedarskein_sheet_check(without.sheet, without.sheet_n) == CEDARSKEIN_DONE;
}

/* Whether a sheet of the length that it tells has more record areas than one, or would be good with the other number of 0 and 1. */
static int number_of_histories_is_bad(const struct meter *meter)
{
    struct meter mended = *meter;
    if (meter->sheet_n < 2 * HEADER || meter->sheet_n != 2 * (size_t)word_at(meter->sheet, SHEET_WORDS))
        return 0;
    store_word(mended.sheet, HAS_RECORDS, !has_history(meter));
    return word_at(meter->sheet, HAS_RECORDS) > 1 || cedarskein_sheet_check(mended.sheet, mended.sheet_n) == CEDARSKEIN_DONE;
}

/* Whether a sheet would be good with the version that allows most. */
static int only_version_is_bad(const struct meter *meter)
{
    struct meter mended = *meter;
    if (meter->sheet_n < 2 * HEADER)
        return 0;
    store_word(mended.sheet, VERSION, LAST_VERSION);
    return cedarskein_sheet_check(mended.sheet, mended.sheet_n) == CEDARSKEIN_DONE;
}

/* The first address that can only be written. There is one in a sheet whose version, the first, is its only fault. */
static unsigned first_written_only(const struct meter *meter)
{
    unsigned number = 0;
    while (area_at(meter, number).access != WRITE_ONLY_AREA)
        number++;
    return area_at(meter, number).first;
}

static void tell_version(const struct meter *meter, char *why, size_t n)
{
    unsigned version = word_at(meter->sheet, VERSION);
    if (version == FIRST_VERSION)
        snprintf(why, n, "its version is %u, and its registers from %04X on can only be written (access %d), which by request W7 of document 02 takes "
                 "version %d", version, first_written_only(meter), WRITE_ONLY_AREA, LAST_VERSION);
    else
        snprintf(why, n, "its version is %u; there are versions %d and %d", version, FIRST_VERSION, LAST_VERSION);
}

/* AS-WE sheets from before version 1.3 have stations 0 to 255 and no other fault, which is worth its own words; so is what is not of document 01: a
   record area, and a version for registers that are only written. */
static void tell_fault(const struct meter *meter, char *why, size_t n)
{
    struct item stations;
    if (only_stations_are_bad(meter, &stations)) {
        snprintf(why, n, "its stations are %lu to %lu; they must lie within %d to %d, as those of the files in sheets/ do", (unsigned long)stations.low,
                 (unsigned long)stations.high, FIRST_STATION, LAST_STATION);
    } else if (only_records_are_bad(meter)) {
        struct record_area area = history_of(meter);
        snprintf(why, n, "its history is %u records of %u words from %04X on; it must be 1 to %d records of 1 to %d words, at addresses up to FFFF that "
                 "nothing else has", area.records, area.words, area.first, MOST_RECORDS, LONGEST_RECORD);
    } else if (number_of_histories_is_bad(meter)) {
        snprintf(why, n, "its word %d is %u; by request W3 of document 02 it is the number of record areas at the sheet's end, 0 or 1", HAS_RECORDS,
                 word_at(meter->sheet, HAS_RECORDS));
    } else if (only_version_is_bad(meter)) {
        tell_version(meter, why, n);
    } else {
        snprintf(why, n, "it breaks a rule of document 01");
    }
}

static int refuse_sheet(const struct meter *meter, const char *path)
{
    char why[240];
    tell_fault(meter, why, sizeof why);
    fprintf(stderr, "%s: no sheet: %s\n", path, why);
    return -1;
}

/* An empty ring: zeros. A meter lasts as long as its program, so the memory is never given back. */
static int make_empty_ring(struct meter *meter)
{
    meter->ring = NULL;
    meter->ring_n = 0;
    if (!has_history(meter))
        return 0;
    struct record_area area = history_of(meter);
    meter->ring_n = 2 * (IN_FRONT_OF_RECORDS + (size_t)area.records * area.words);
    meter->ring = calloc(meter->ring_n, 1);
    return meter->ring ? 0 : -1;
}

int set_up_meter(struct meter *meter, const char *name)
{
    if (cedarskein_sheet_check(meter->sheet, meter->sheet_n) != CEDARSKEIN_DONE)
        return refuse_sheet(meter, name);
    meter->bank_n = 2 * bank_word_count(meter) + 2;
    if (cedarskein_bank_fresh(meter->sheet, meter->sheet_n, meter->bank, meter->bank_n) != CEDARSKEIN_DONE)
        return refuse(name, "the bank has not 2B + 2 bytes");
    return make_empty_ring(meter) == 0 ? 0 : refuse(name, "there is no memory for its history");
}

int load_meter(struct meter *meter, const char *path)
{
    return read_sheet(meter, path) == 0 ? set_up_meter(meter, path) : -1;
}

unsigned area_count(const struct meter *meter)
{
    return word_at(meter->sheet, AREAS);
}

struct area area_at(const struct meter *meter, unsigned number)
{
    const uint8_t *row = meter->sheet + 2 * (HEADER + AREA_ROW * number);
    struct area area = { word_at(row, 0), word_at(row, 1), word_at(row, 2), word_at(row, 3) };
    return area;
}

unsigned access_at(const struct meter *meter, unsigned address)
{
    for (unsigned number = 0; number < area_count(meter); number++)
        if (area_at(meter, number).first <= address && address <= area_at(meter, number).last)
            return area_at(meter, number).access;
    return NO_AREA;
}

unsigned place_of(const struct meter *meter, unsigned address)
{
    unsigned number = 0;
    while (number + 1 < area_count(meter) && area_at(meter, number + 1).first <= address)
        number++;
    return area_at(meter, number).place + address - area_at(meter, number).first;
}

int has_history(const struct meter *meter)
{
    return word_at(meter->sheet, HAS_RECORDS) == 1;
}

struct record_area history_of(const struct meter *meter)
{
    const uint8_t *row = meter->sheet + 2 * (word_at(meter->sheet, SHEET_WORDS) - RECORD_AREA);
    struct record_area area = { word_at(row, 0), word_at(row, 1), word_at(row, 2) };
    return area;
}

int lies_in_history(const struct meter *meter, unsigned address)
{
    if (!has_history(meter))
        return 0;
    struct record_area area = history_of(meter);
    return area.first <= address && address < area.first + area.records;
}

unsigned records_stored(const struct meter *meter)
{
    return word_at(meter->ring, STORED);
}

const uint8_t *record_numbered(const struct meter *meter, unsigned number)
{
    struct record_area area = history_of(meter);
    unsigned place = (word_at(meter->ring, NEWEST) + area.records - (number - 1)) % area.records;
    return meter->ring + 2 * (IN_FRONT_OF_RECORDS + (size_t)place * area.words);
}

struct item item_from(const struct meter *meter, unsigned place)
{
    const uint8_t *row = meter->sheet + 2 * word_at(meter->sheet, ITEM_ROWS);
    const uint8_t *last = row + 2 * ITEM_ROW * (word_at(meter->sheet, ITEMS) - 1);
    while (row < last && word_at(row, 1) < place)
        row += 2 * ITEM_ROW;
    return item_of_row(row);
}

uint32_t item_value(const struct meter *meter, const struct item *item)
{
    uint32_t first = word_at(meter->bank, item->place);
    return item->kind == PAIR_ITEM ? first << 16 | word_at(meter->bank, item->place + 1) : first;
}

int allows_function(const struct meter *meter, uint8_t function)
{
    static const uint8_t bits[] = { [READ] = 1, [CLEAR] = 2, [WRITE] = 4, [WRITE_SEVERAL] = 8 };
    return function < sizeof bits && (word_at(meter->sheet, FUNCTIONS) & bits[function]) != 0;
}

unsigned clear_address(const struct meter *meter)
{
    return word_at(meter->sheet, CLEAR_ADDRESS);
}

unsigned bank_word_count(const struct meter *meter)
{
    return word_at(meter->sheet, BANK_WORDS);
}

unsigned station_of(const struct meter *meter)
{
    return word_at(meter->bank, word_at(meter->sheet, PLACE_OF_STATION));
}

struct item station_item(const struct meter *meter)
{
    return item_from(meter, word_at(meter->sheet, PLACE_OF_STATION));
}

unsigned rate_of(const struct meter *meter)
{
    return word_at(meter->bank, word_at(meter->sheet, PLACE_OF_RATE));
}

unsigned mark_of(const struct meter *meter)
{
    return word_at(meter->bank, bank_word_count(meter));
}
