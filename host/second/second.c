/* The rules of docs/RULES.md, stated once more for the host tests. A comment
 * names the rule that the function below it states. */
#include "second.h"

#include <stdbool.h>
#include <string.h>

/* ---- Words ---- */

/* rule G7 */
static uint32_t word_at(const uint8_t *bytes, size_t index)
{
    return (uint32_t)bytes[2 * index] << 8 | bytes[2 * index + 1];
}

static void put_word(uint8_t *bytes, size_t index, uint32_t word)
{
    bytes[2 * index] = (uint8_t)(word >> 8 & 0xFF);
    bytes[2 * index + 1] = (uint8_t)(word & 0xFF);
}

/* ---- The sheet: its words, rows and places ---- */

struct sheet {
    const uint8_t *bytes;
    size_t n;
};

/* A word of the sheet; 0 where the sheet has ended, so that every rule can be
 * asked of any bytes. */
static uint32_t sheet_word(const struct sheet *sheet, size_t index)
{
    if (index >= sheet->n / 2)
        return 0;
    return word_at(sheet->bytes, index);
}

static uint32_t version(const struct sheet *sheet) { return sheet_word(sheet, 0); }
static uint32_t area_count(const struct sheet *sheet) { return sheet_word(sheet, 1); }
static uint32_t item_count(const struct sheet *sheet) { return sheet_word(sheet, 3); }
static uint32_t bank_words(const struct sheet *sheet) { return sheet_word(sheet, 5); }
static uint32_t functions(const struct sheet *sheet) { return sheet_word(sheet, 6); }
static uint32_t address_place(const struct sheet *sheet) { return sheet_word(sheet, 8); }
static uint32_t rate_place(const struct sheet *sheet) { return sheet_word(sheet, 9); }
static uint32_t clear_address(const struct sheet *sheet) { return sheet_word(sheet, 10); }

/* rule S11: word 11 says whether there is a record area. */
static bool has_records(const struct sheet *sheet) { return sheet_word(sheet, 11) == 1; }

/* rule S20: the words of an area row */
static uint32_t area_word(const struct sheet *sheet, size_t area, size_t column)
{
    return sheet_word(sheet, 12 + 4 * area + column);
}

static uint32_t area_first(const struct sheet *sheet, size_t area)
{
    return area_word(sheet, area, 0);
}

static uint32_t area_last(const struct sheet *sheet, size_t area)
{
    return area_word(sheet, area, 1);
}

static uint32_t area_place(const struct sheet *sheet, size_t area)
{
    return area_word(sheet, area, 2);
}

static uint32_t area_access(const struct sheet *sheet, size_t area)
{
    return area_word(sheet, area, 3);
}

/* rule S21: what may be done in an area. */
enum { READ_ONLY = 1, WRITE_ONLY = 2, READ_AND_WRITE = 3 };

static uint32_t area_length(const struct sheet *sheet, size_t area)
{
    if (area_first(sheet, area) > area_last(sheet, area))
        return 0;
    return area_last(sheet, area) - area_first(sheet, area) + 1;
}

static bool area_holds_address(const struct sheet *sheet, size_t area, uint64_t address)
{
    return area_first(sheet, area) <= address && address <= area_last(sheet, area);
}

static bool area_holds_place(const struct sheet *sheet, size_t area, uint32_t place)
{
    return area_place(sheet, area) <= place
        && place < area_place(sheet, area) + area_length(sheet, area);
}

/* rule S40: the words of an item row */
static uint32_t item_word(const struct sheet *sheet, size_t item, size_t column)
{
    return sheet_word(sheet, 12 + 4 * (size_t)area_count(sheet) + 6 * item + column);
}

static uint32_t item_kind(const struct sheet *sheet, size_t item)
{
    return item_word(sheet, item, 0);
}

static uint32_t item_place(const struct sheet *sheet, size_t item)
{
    return item_word(sheet, item, 1);
}

static bool item_is_pair(const struct sheet *sheet, size_t item)
{
    return item_kind(sheet, item) == 2;
}

/* What two words mean in an item of a kind: rules S42, S43 and B3. */
static int64_t value_of(uint32_t kind, uint32_t upper, uint32_t lower)
{
    if (kind == 2)
        return (int64_t)upper * 65536 + lower;
    if (kind == 1 && lower >= 0x8000)
        return (int64_t)lower - 65536;
    return lower;
}

static int64_t item_low(const struct sheet *sheet, size_t item)
{
    return value_of(item_kind(sheet, item), item_word(sheet, item, 2), item_word(sheet, item, 3));
}

static int64_t item_high(const struct sheet *sheet, size_t item)
{
    return value_of(item_kind(sheet, item), item_word(sheet, item, 4), item_word(sheet, item, 5));
}

/* rule B13: where a value lies by the range of an item. Whatever asks for a range
 * asks here: a sheet for that of its address and rate, a bank, a write, and the
 * reason for an error. */
static enum second_side side_missed(const struct sheet *sheet, size_t item, int64_t value)
{
    if (value < item_low(sheet, item))
        return SIDE_TOO_LOW;
    return value > item_high(sheet, item) ? SIDE_TOO_HIGH : SIDE_NONE;
}

static bool item_covers(const struct sheet *sheet, size_t item, uint32_t place)
{
    uint32_t first = item_place(sheet, item);
    return place == first || (item_is_pair(sheet, item) && place == first + 1);
}

/* The item that covers a place; the number of items if there is none. */
static size_t item_at(const struct sheet *sheet, uint32_t place)
{
    size_t item = 0;
    while (item < item_count(sheet) && !item_covers(sheet, item, place))
        item++;
    return item;
}

/* The area that holds a place; the number of areas if there is none. */
static size_t area_of_place(const struct sheet *sheet, uint32_t place)
{
    size_t area = 0;
    while (area < area_count(sheet) && !area_holds_place(sheet, area, place))
        area++;
    return area;
}

/* The area that holds an address; the number of areas if there is none. */
static size_t area_of_address(const struct sheet *sheet, uint64_t address)
{
    size_t area = 0;
    while (area < area_count(sheet) && !area_holds_address(sheet, area, address))
        area++;
    return area;
}

/* rule S80: the three words of a record area, behind the item rows. */
static uint32_t records_word(const struct sheet *sheet, size_t column)
{
    return sheet_word(sheet, 12 + 4 * (size_t)area_count(sheet) + 6 * (size_t)item_count(sheet)
                             + column);
}

static uint32_t records_first(const struct sheet *sheet) { return records_word(sheet, 0); }
static uint32_t record_count(const struct sheet *sheet) { return records_word(sheet, 1); }
static uint32_t record_words(const struct sheet *sheet) { return records_word(sheet, 2); }

/* rule S86: the address behind the last record; it is above FFFF where the area
 * ends there or beyond. */
static uint32_t records_end(const struct sheet *sheet)
{
    return records_first(sheet) + record_count(sheet);
}

/* rule S86; false for every address where the sheet has no record area. */
static bool is_record_address(const struct sheet *sheet, uint32_t address)
{
    return has_records(sheet) && records_first(sheet) <= address && address < records_end(sheet);
}

/* ---- The rules of the header ---- */

/* rule S12: room for a header */
static bool keeps_header(const struct sheet *sheet) { return sheet->n >= 24; }

/* rule S0 */
static bool keeps_version(const struct sheet *sheet)
{
    return version(sheet) == 1 || version(sheet) == 2;
}

/* rule S1 */
static bool keeps_areas(const struct sheet *sheet)
{
    return 1 <= area_count(sheet) && area_count(sheet) <= 8;
}

/* rule S2 */
static bool keeps_area_offset(const struct sheet *sheet) { return sheet_word(sheet, 2) == 12; }

/* rule S3 */
static bool keeps_items(const struct sheet *sheet)
{
    return 2 <= item_count(sheet) && item_count(sheet) <= 64;
}

/* rule S4 */
static bool keeps_item_offset(const struct sheet *sheet)
{
    return sheet_word(sheet, 4) == 12 + 4 * area_count(sheet);
}

/* rule S5 */
static bool keeps_bank_words(const struct sheet *sheet)
{
    return 2 <= bank_words(sheet) && bank_words(sheet) <= 256;
}

/* rule S6 */
static bool keeps_functions(const struct sheet *sheet) { return functions(sheet) <= 15; }

/* rule S7, with the words of a record area where there is one */
static bool keeps_length_word(const struct sheet *sheet)
{
    return sheet_word(sheet, 7) == 12 + 4 * area_count(sheet) + 6 * item_count(sheet)
                                   + (has_records(sheet) ? 3 : 0);
}

/* rule S11 */
static bool keeps_word_11(const struct sheet *sheet) { return sheet_word(sheet, 11) <= 1; }

/* rule S12 */
static bool keeps_byte_length(const struct sheet *sheet)
{
    return sheet->n == 2 * (size_t)sheet_word(sheet, 7);
}

/* ---- The rules of the area rows ---- */

/* rule S21 */
static bool keeps_access(const struct sheet *sheet)
{
    for (size_t area = 0; area < area_count(sheet); area++)
        if (area_access(sheet, area) < READ_ONLY || area_access(sheet, area) > READ_AND_WRITE)
            return false;
    return true;
}

/* rule S22 */
static bool keeps_first_last(const struct sheet *sheet)
{
    for (size_t area = 0; area < area_count(sheet); area++)
        if (area_first(sheet, area) > area_last(sheet, area))
            return false;
    return true;
}

/* rule S23, of first addresses */
static bool keeps_areas_ascend(const struct sheet *sheet)
{
    for (size_t area = 1; area < area_count(sheet); area++)
        if (area_first(sheet, area) <= area_first(sheet, area - 1))
            return false;
    return true;
}

static bool areas_share(const struct sheet *sheet, size_t one, size_t other)
{
    return area_length(sheet, one) > 0 && area_length(sheet, other) > 0
        && area_first(sheet, one) <= area_last(sheet, other)
        && area_first(sheet, other) <= area_last(sheet, one);
}

/* rule S23, of each two areas */
static bool keeps_areas_apart(const struct sheet *sheet)
{
    for (size_t area = 1; area < area_count(sheet); area++)
        for (size_t before = 0; before < area; before++)
            if (areas_share(sheet, area, before))
                return false;
    return true;
}

/* rule S24 */
static bool keeps_first_place(const struct sheet *sheet)
{
    uint64_t sum = 0;
    for (size_t area = 0; area < area_count(sheet); area++) {
        if (area_place(sheet, area) != sum)
            return false;
        sum += area_length(sheet, area);
    }
    return true;
}

/* rule S25 */
static bool keeps_lengths_sum(const struct sheet *sheet)
{
    uint64_t sum = 0;
    for (size_t area = 0; area < area_count(sheet); area++)
        sum += area_length(sheet, area);
    return sum == bank_words(sheet);
}

static bool clear_allowed(const struct sheet *sheet) { return (functions(sheet) & 2) != 0; }

/* rule S26 */
static bool keeps_clear_apart(const struct sheet *sheet)
{
    return !clear_allowed(sheet)
        || area_of_address(sheet, clear_address(sheet)) == area_count(sheet);
}

/* rule S27 */
static bool keeps_clear_zero(const struct sheet *sheet)
{
    return clear_allowed(sheet) || clear_address(sheet) == 0;
}

/* rule S30; a sheet of version 2 need not have such an area. */
static bool keeps_write_only(const struct sheet *sheet)
{
    for (size_t area = 0; area < area_count(sheet); area++)
        if (area_access(sheet, area) == WRITE_ONLY && version(sheet) != 2)
            return false;
    return true;
}

/* ---- The rules of the item rows ---- */

/* rule S41 */
static bool keeps_kind(const struct sheet *sheet)
{
    for (size_t item = 0; item < item_count(sheet); item++)
        if (item_kind(sheet, item) > 2)
            return false;
    return true;
}

/* rule S42: column 2 is the first word of the low bound, column 4 that of the
 * high bound. */
static bool first_words_are_0(const struct sheet *sheet, size_t column)
{
    for (size_t item = 0; item < item_count(sheet); item++)
        if (item_kind(sheet, item) <= 1 && item_word(sheet, item, column) != 0)
            return false;
    return true;
}

static bool keeps_low_first_word(const struct sheet *sheet) { return first_words_are_0(sheet, 2); }
static bool keeps_high_first_word(const struct sheet *sheet) { return first_words_are_0(sheet, 4); }

/* rule S44 */
static bool keeps_low_high(const struct sheet *sheet)
{
    for (size_t item = 0; item < item_count(sheet); item++)
        if (item_low(sheet, item) > item_high(sheet, item))
            return false;
    return true;
}

/* rule S46 */
static bool keeps_items_ascend(const struct sheet *sheet)
{
    for (size_t item = 1; item < item_count(sheet); item++)
        if (item_place(sheet, item) <= item_place(sheet, item - 1))
            return false;
    return true;
}

static uint32_t times_covered(const struct sheet *sheet, uint32_t place)
{
    uint32_t times = 0;
    for (size_t item = 0; item < item_count(sheet); item++)
        if (item_covers(sheet, item, place))
            times++;
    return times;
}

/* Whether the places of an area are those of items: of one that can be written. */
static bool area_has_items(const struct sheet *sheet, size_t area)
{
    return area_access(sheet, area) == WRITE_ONLY || area_access(sheet, area) == READ_AND_WRITE;
}

/* Rule S47: whether the places of such areas are each covered least to most times. */
static bool covered_between(const struct sheet *sheet, uint32_t least, uint32_t most)
{
    for (size_t area = 0; area < area_count(sheet); area++)
        for (uint32_t i = 0; area_has_items(sheet, area) && i < area_length(sheet, area); i++) {
            uint32_t times = times_covered(sheet, area_place(sheet, area) + i);
            if (times < least || most < times)
                return false;
        }
    return true;
}

/* rule S47: no place of an area that can be written is left out, and none is
 * covered twice. */
static bool keeps_none_missing(const struct sheet *sheet)
{
    return covered_between(sheet, 1, UINT32_MAX);
}

static bool keeps_none_twice(const struct sheet *sheet)
{
    return covered_between(sheet, 0, 1);
}

static bool place_has_item(const struct sheet *sheet, uint32_t place)
{
    size_t area = area_of_place(sheet, place);
    return area < area_count(sheet) && area_has_items(sheet, area);
}

/* rule S47, of places outside of areas that can be written */
static bool keeps_no_other(const struct sheet *sheet)
{
    for (size_t item = 0; item < item_count(sheet); item++) {
        uint32_t place = item_place(sheet, item);
        if (!place_has_item(sheet, place))
            return false;
        if (item_is_pair(sheet, item) && !place_has_item(sheet, place + 1))
            return false;
    }
    return true;
}

/* rule S48 */
static bool keeps_pair_in_area(const struct sheet *sheet)
{
    for (size_t item = 0; item < item_count(sheet); item++) {
        uint32_t place = item_place(sheet, item);
        if (item_is_pair(sheet, item)
            && area_of_place(sheet, place) != area_of_place(sheet, place + 1))
            return false;
    }
    return true;
}

/* rule S60 */
static bool keeps_different_places(const struct sheet *sheet)
{
    return address_place(sheet) != rate_place(sheet);
}

static bool kind_0_item_at(const struct sheet *sheet, uint32_t place)
{
    size_t item = item_at(sheet, place);
    return item < item_count(sheet) && item_kind(sheet, item) == 0;
}

/* rule S61 */
static bool keeps_address_item(const struct sheet *sheet)
{
    return kind_0_item_at(sheet, address_place(sheet));
}

static bool keeps_rate_item(const struct sheet *sheet)
{
    return kind_0_item_at(sheet, rate_place(sheet));
}

/* rule S62; a place without an item has no range to judge. */
static bool range_at_holds_1(const struct sheet *sheet, uint32_t place)
{
    size_t item = item_at(sheet, place);
    return item == item_count(sheet) || side_missed(sheet, item, 1) == SIDE_NONE;
}

static bool keeps_address_holds_1(const struct sheet *sheet)
{
    return range_at_holds_1(sheet, address_place(sheet));
}

static bool keeps_rate_holds_1(const struct sheet *sheet)
{
    return range_at_holds_1(sheet, rate_place(sheet));
}

/* rule S63: the stations that a meter can have. A frame for 0 is meant for all
 * meters at once, and the numbers above the highest are given to none. */
enum { LOWEST_STATION = 1, HIGHEST_STATION = 0xF7 };

static bool keeps_address_range(const struct sheet *sheet)
{
    size_t item = item_at(sheet, address_place(sheet));
    return item == item_count(sheet)
        || (item_low(sheet, item) >= LOWEST_STATION && item_high(sheet, item) <= HIGHEST_STATION);
}

/* rule S64 */
static bool keeps_rate_range(const struct sheet *sheet)
{
    size_t item = item_at(sheet, rate_place(sheet));
    return item == item_count(sheet)
        || (item_low(sheet, item) == 0 && item_high(sheet, item) == 1);
}

/* ---- The rules of the record area ----
 * A sheet without one keeps them all. */

enum { MOST_RECORDS = 6600, MOST_RECORD_WORDS = 47 };

/* rule S81 */
static bool keeps_record_count(const struct sheet *sheet)
{
    return !has_records(sheet)
        || (1 <= record_count(sheet) && record_count(sheet) <= MOST_RECORDS);
}

/* rule S82 */
static bool keeps_record_words(const struct sheet *sheet)
{
    return !has_records(sheet)
        || (1 <= record_words(sheet) && record_words(sheet) <= MOST_RECORD_WORDS);
}

/* rule S83 */
static bool keeps_records_end(const struct sheet *sheet)
{
    return !has_records(sheet) || records_end(sheet) <= 0x10000;
}

/* rule S84, of one area. A record area of no records has no address to share. */
static bool records_share(const struct sheet *sheet, size_t area)
{
    return area_length(sheet, area) > 0 && record_count(sheet) > 0
        && records_first(sheet) <= area_last(sheet, area)
        && area_first(sheet, area) < records_end(sheet);
}

/* rule S84 */
static bool keeps_records_apart(const struct sheet *sheet)
{
    for (size_t area = 0; has_records(sheet) && area < area_count(sheet); area++)
        if (records_share(sheet, area))
            return false;
    return true;
}

/* rule S85 */
static bool keeps_clear_off_records(const struct sheet *sheet)
{
    return !clear_allowed(sheet) || !is_record_address(sheet, clear_address(sheet));
}

/* ---- All rules in their order ---- */

struct rule {
    const char *name;
    bool (*kept)(const struct sheet *);
};

static const struct rule rules[RULE_COUNT] = {
    [RULE_NONE] = { "sound", NULL },
    [RULE_HEADER] = { "header of 12 words", keeps_header },
    [RULE_VERSION] = { "version", keeps_version },
    [RULE_AREAS] = { "areas 1 to 8", keeps_areas },
    [RULE_AREA_OFFSET] = { "offset of area rows", keeps_area_offset },
    [RULE_ITEMS] = { "items 2 to 64", keeps_items },
    [RULE_ITEM_OFFSET] = { "offset of item rows", keeps_item_offset },
    [RULE_BANK_WORDS] = { "bank words 2 to 256", keeps_bank_words },
    [RULE_FUNCTIONS] = { "functions 0 to 15", keeps_functions },
    [RULE_LENGTH_WORD] = { "length word", keeps_length_word },
    [RULE_WORD_11] = { "word 11 zero or one", keeps_word_11 },
    [RULE_BYTE_LENGTH] = { "byte length", keeps_byte_length },
    [RULE_ACCESS] = { "access 1, 2 or 3", keeps_access },
    [RULE_FIRST_ABOVE_LAST] = { "first not above last", keeps_first_last },
    [RULE_AREAS_ASCEND] = { "areas ascend", keeps_areas_ascend },
    [RULE_AREAS_SHARE] = { "areas share no address", keeps_areas_apart },
    [RULE_AREA_FIRST_PLACE] = { "area's first place", keeps_first_place },
    [RULE_LENGTHS_SUM] = { "lengths sum to B", keeps_lengths_sum },
    [RULE_CLEAR_IN_AREA] = { "clear address in no area", keeps_clear_apart },
    [RULE_CLEAR_NOT_ZERO] = { "word 10 zero without 05", keeps_clear_zero },
    [RULE_WRITE_ONLY] = { "access 2 only in version 2", keeps_write_only },
    [RULE_KIND] = { "kind 0 to 2", keeps_kind },
    [RULE_LOW_FIRST_WORD] = { "first word of low is 0", keeps_low_first_word },
    [RULE_HIGH_FIRST_WORD] = { "first word of high is 0", keeps_high_first_word },
    [RULE_LOW_ABOVE_HIGH] = { "low not above high", keeps_low_high },
    [RULE_ITEMS_ASCEND] = { "items ascend", keeps_items_ascend },
    [RULE_PLACE_MISSING] = { "no place missing", keeps_none_missing },
    [RULE_PLACE_TWICE] = { "no place twice", keeps_none_twice },
    [RULE_PLACE_OTHER] = { "no other place", keeps_no_other },
    [RULE_PAIR_TWO_AREAS] = { "pair within one area", keeps_pair_in_area },
    [RULE_SAME_PLACE] = { "address and rate differ", keeps_different_places },
    [RULE_ADDRESS_ITEM] = { "address a kind 0 item", keeps_address_item },
    [RULE_RATE_ITEM] = { "rate a kind 0 item", keeps_rate_item },
    [RULE_ADDRESS_HOLDS_1] = { "address range holds 1", keeps_address_holds_1 },
    [RULE_RATE_HOLDS_1] = { "rate range holds 1", keeps_rate_holds_1 },
    [RULE_ADDRESS_RANGE] = { "address within 1 to F7", keeps_address_range },
    [RULE_RATE_RANGE] = { "rate 0 to 1", keeps_rate_range },
    [RULE_RECORD_COUNT] = { "records 1 to 6600", keeps_record_count },
    [RULE_RECORD_WORDS] = { "words of a record 1 to 47", keeps_record_words },
    [RULE_RECORDS_END] = { "records end by FFFF", keeps_records_end },
    [RULE_RECORDS_SHARE] = { "records and areas share none", keeps_records_apart },
    [RULE_CLEAR_IN_RECORDS] = { "clear address no record's", keeps_clear_off_records }
};

enum second_rule second_broken_rule(const uint8_t *bytes, size_t bytes_n)
{
    struct sheet sheet = { bytes, bytes_n };
    for (int rule = RULE_NONE + 1; rule < RULE_COUNT; rule++)
        if (!rules[rule].kept(&sheet))
            return (enum second_rule)rule;
    return RULE_NONE;
}

uint64_t second_broken_rules(const uint8_t *bytes, size_t bytes_n)
{
    struct sheet sheet = { bytes, bytes_n };
    bool rows = area_count(&sheet) <= 9 && item_count(&sheet) <= 65;
    uint64_t broken = 0;
    for (int rule = RULE_NONE + 1; rule < RULE_COUNT; rule++)
        if ((rule <= RULE_BYTE_LENGTH || rows) && !rules[rule].kept(&sheet))
            broken |= (uint64_t)1 << rule;
    return broken;
}

const char *second_rule_name(enum second_rule rule)
{
    return rules[rule].name;
}

/* ---- The bank ---- */

/* rule B1 */
static size_t bank_size(const struct sheet *sheet)
{
    return 2 * (size_t)bank_words(sheet) + 2;
}

/* rule B3: what an item holds in the bank. */
static int64_t item_value(const struct sheet *sheet, const uint8_t *bank, size_t item)
{
    uint32_t place = item_place(sheet, item);
    if (item_is_pair(sheet, item))
        return value_of(2, word_at(bank, place), word_at(bank, place + 1));
    return value_of(item_kind(sheet, item), 0, word_at(bank, place));
}

/* rules B10 to B12 */
static bool bank_sound(const struct sheet *sheet, const uint8_t *bank)
{
    for (size_t item = 0; item < item_count(sheet); item++)
        if (side_missed(sheet, item, item_value(sheet, bank, item)) != SIDE_NONE)
            return false;
    return word_at(bank, bank_words(sheet)) <= 1;
}

/* rules N50 and N51, here 2 and 3. */
static uint32_t refuse_size(const struct sheet *sheet, size_t bank_n)
{
    if (second_broken_rule(sheet->bytes, sheet->n) != RULE_NONE)
        return NUMBER_SHEET;
    if (bank_n != bank_size(sheet))
        return NUMBER_BANK_SIZE;
    return NUMBER_DONE;
}

/* The same order, here 2, 3 and 4. */
static uint32_t refuse_bank(const struct sheet *sheet, const uint8_t *bank, size_t bank_n)
{
    uint32_t number = refuse_size(sheet, bank_n);
    if (number != NUMBER_DONE)
        return number;
    return bank_sound(sheet, bank) ? NUMBER_DONE : NUMBER_BANK_SOUND;
}

uint32_t second_sheet_check(const uint8_t *sheet, size_t sheet_n)
{
    return second_broken_rule(sheet, sheet_n) == RULE_NONE ? NUMBER_DONE : NUMBER_SHEET;
}

uint32_t second_bank_check(const uint8_t *sheet, size_t sheet_n,
                           const uint8_t *bank, size_t bank_n)
{
    struct sheet rows = { sheet, sheet_n };
    return refuse_bank(&rows, bank, bank_n);
}

static void put_low_bound(const struct sheet *sheet, uint8_t *bank, size_t item)
{
    uint32_t place = item_place(sheet, item);
    if (item_is_pair(sheet, item)) {
        put_word(bank, place, item_word(sheet, item, 2));
        put_word(bank, place + 1, item_word(sheet, item, 3));
    } else {
        put_word(bank, place, item_word(sheet, item, 3));
    }
}

/* rules B20 to B24 */
uint32_t second_bank_fresh(const uint8_t *sheet, size_t sheet_n,
                           uint8_t *bank, size_t bank_n)
{
    struct sheet rows = { sheet, sheet_n };
    uint32_t number = refuse_size(&rows, bank_n);
    if (number != NUMBER_DONE)
        return number;
    memset(bank, 0, bank_n);
    for (size_t item = 0; item < item_count(&rows); item++)
        put_low_bound(&rows, bank, item);
    put_word(bank, address_place(&rows), 1);
    put_word(bank, rate_place(&rows), 1);
    return NUMBER_DONE;
}

/* ---- The ring ----
 * Two words, where the newest record stands and how many there are, and then
 * the room of every record, in the order of their places. */

enum { RING_HEAD = 4 };

/* rule T1 */
static uint32_t ring_newest(const uint8_t *ring) { return word_at(ring, 0); }
static uint32_t ring_stored(const uint8_t *ring) { return word_at(ring, 1); }

/* rule S80: a record's words, as bytes. */
static size_t record_bytes(const struct sheet *sheet)
{
    return 2 * (size_t)record_words(sheet);
}

/* rules T2 and T14 */
static size_t ring_size(const struct sheet *sheet)
{
    return has_records(sheet) ? RING_HEAD + record_count(sheet) * record_bytes(sheet) : 0;
}

/* rule T2: where the record of a place begins in the ring. */
static size_t record_offset(const struct sheet *sheet, uint32_t place)
{
    return RING_HEAD + place * record_bytes(sheet);
}

/* rules T11 to T13, of a ring of the right size. What the records' room holds is
 * free, and so is the newest one's place unless nothing is stored. */
static bool ring_sound(const struct sheet *sheet, const uint8_t *ring)
{
    if (ring_newest(ring) >= record_count(sheet) || ring_stored(ring) > record_count(sheet))
        return false;
    return ring_stored(ring) > 0 || ring_newest(ring) == 0;
}

/* rule N8, of a sound sheet: rules T10 and T14. */
static bool ring_refused(const struct sheet *sheet, const uint8_t *ring, size_t ring_n)
{
    if (ring_n != ring_size(sheet))
        return true;
    return has_records(sheet) && !ring_sound(sheet, ring);
}

/* rule T20: the place of a record by its number; 1 is the newest, and each next
 * one lies in front of the one before, round from place 0 to the last. */
static uint32_t place_of_record(const struct sheet *sheet, const uint8_t *ring, uint32_t number)
{
    return (ring_newest(ring) + record_count(sheet) - (number - 1)) % record_count(sheet);
}

/* rule T30: where the next record goes, the first to place 0, every other behind
 * the newest. In a full ring that is the oldest one's room. */
static uint32_t next_place(const struct sheet *sheet, const uint8_t *ring)
{
    return ring_stored(ring) == 0 ? 0 : (ring_newest(ring) + 1) % record_count(sheet);
}

/* rules N50 and N51, here 2 and 8. */
uint32_t second_ring_check(const uint8_t *sheet, size_t sheet_n,
                           const uint8_t *ring, size_t ring_n)
{
    struct sheet rows = { sheet, sheet_n };
    if (second_broken_rule(sheet, sheet_n) != RULE_NONE)
        return NUMBER_SHEET;
    return ring_refused(&rows, ring, ring_n) ? NUMBER_RING : NUMBER_DONE;
}

/* rules T30 to T33, and N50 with 2, 8 and 7. To a sheet without a record area
 * nothing can be added, whatever the ring. */
uint32_t second_add_record(const uint8_t *sheet, size_t sheet_n,
                           uint8_t *ring, size_t ring_n,
                           const uint8_t *record, size_t record_n)
{
    struct sheet rows = { sheet, sheet_n };
    if (second_broken_rule(sheet, sheet_n) != RULE_NONE || !has_records(&rows))
        return NUMBER_SHEET;
    if (ring_refused(&rows, ring, ring_n))
        return NUMBER_RING;
    if (record_n != record_bytes(&rows))
        return NUMBER_BAD_INPUT;
    uint32_t place = next_place(&rows, ring);
    memcpy(ring + record_offset(&rows, place), record, record_n);
    put_word(ring, 0, place);
    if (ring_stored(ring) < record_count(&rows))
        put_word(ring, 1, ring_stored(ring) + 1);
    return NUMBER_DONE;
}

/* rules N50 and N51: the refusals ahead of a frame, 2, 3, 4 and 8. */
static uint32_t refuse_ring(const struct sheet *sheet, const uint8_t *bank, size_t bank_n,
                            const uint8_t *ring, size_t ring_n)
{
    uint32_t number = refuse_bank(sheet, bank, bank_n);
    if (number != NUMBER_DONE)
        return number;
    return ring_refused(sheet, ring, ring_n) ? NUMBER_RING : NUMBER_DONE;
}

/* ---- Posting and the mark ---- */

static bool address_has_access(const struct sheet *sheet, uint64_t address, uint32_t access)
{
    size_t area = area_of_address(sheet, address);
    return area < area_count(sheet) && area_access(sheet, area) == access;
}

/* The place of an address that lies in an area. */
static uint32_t place_of(const struct sheet *sheet, uint32_t address)
{
    size_t area = area_of_address(sheet, address);
    return area_place(sheet, area) + (address - area_first(sheet, area));
}

/* rules B31 and B32 */
static bool posted_addresses_good(const struct sheet *sheet, uint32_t address, size_t count)
{
    for (size_t i = 0; i < count; i++)
        if (!address_has_access(sheet, (uint64_t)address + i, READ_ONLY))
            return false;
    return true;
}

uint32_t second_post(const uint8_t *sheet, size_t sheet_n,
                     uint8_t *bank, size_t bank_n, uint32_t address,
                     const uint8_t *words, size_t words_n)
{
    struct sheet rows = { sheet, sheet_n };
    uint32_t number = refuse_bank(&rows, bank, bank_n);
    if (number != NUMBER_DONE)
        return number;
    if (words_n == 0 || words_n % 2 == 1)
        return NUMBER_BAD_INPUT;
    if (!posted_addresses_good(&rows, address, words_n / 2))
        return NUMBER_POSTED_ADDRESS;
    for (uint32_t i = 0; i < words_n / 2; i++)
        put_word(bank, place_of(&rows, address + i), word_at(words, i));
    return NUMBER_DONE;
}

/* rules B40 and B41 */
uint32_t second_set_mark(const uint8_t *sheet, size_t sheet_n,
                         uint8_t *bank, size_t bank_n, uint32_t mark)
{
    struct sheet rows = { sheet, sheet_n };
    uint32_t number = refuse_bank(&rows, bank, bank_n);
    if (number != NUMBER_DONE)
        return number;
    if (mark > 1)
        return NUMBER_BAD_INPUT;
    put_word(bank, bank_words(&rows), mark);
    return NUMBER_DONE;
}

/* ---- The check value ---- */

/* rule C1 */
uint16_t second_check_start(void)
{
    return 0xFFFF;
}

/* rules C2 and C3 */
uint16_t second_check_take(uint16_t state, uint8_t byte)
{
    uint32_t value = (uint32_t)state ^ byte;
    for (int i = 0; i < 8; i++) {
        uint32_t out = value & 1;
        value >>= 1;
        if (out == 1)
            value ^= 0xA001;
    }
    return (uint16_t)value;
}

uint16_t second_check_value(const uint8_t *bytes, size_t bytes_n)
{
    uint16_t state = second_check_start();
    for (size_t i = 0; i < bytes_n; i++)
        state = second_check_take(state, bytes[i]);
    return state;
}

/* rules C4 and C5 */
static bool check_agrees(const uint8_t *frame, size_t frame_n)
{
    uint16_t value = second_check_value(frame, frame_n - 2);
    return frame[frame_n - 2] == (value & 0xFF) && frame[frame_n - 1] == value >> 8;
}

/* ---- The parts of a frame ---- */

enum { READ = 0x03, CLEAR = 0x05, WRITE_ONE = 0x06, WRITE_MANY = 0x10 };

/* A frame before a sound sheet, a sound bank and a ring that goes with them. */
struct query {
    struct sheet sheet;
    const uint8_t *bank;
    const uint8_t *ring;
    const uint8_t *frame;
    size_t n;
};

static uint32_t function_of(const struct query *query) { return query->frame[1]; }
static uint32_t start_of(const struct query *query) { return word_at(query->frame + 2, 0); }

/* rule J2: the count of a 03 or 10, the value of a 05 or 06. */
static uint32_t count_or_value_of(const struct query *query)
{
    return word_at(query->frame + 4, 0);
}

static bool is_write(const struct query *query)
{
    return function_of(query) == WRITE_ONE || function_of(query) == WRITE_MANY;
}

/* rules J53 and J66: whether the frame is a read that starts in the record area. */
static bool reads_records(const struct query *query)
{
    return function_of(query) == READ && is_record_address(&query->sheet, start_of(query));
}

/* rule S86: the number of the record that such a read asks for. */
static uint32_t record_asked(const struct query *query)
{
    return start_of(query) - records_first(&query->sheet) + 1;
}

/* rule J4: how many addresses the run of a 03, 06 or 10 has. */
static uint32_t run_of(const struct query *query)
{
    return function_of(query) == WRITE_ONE ? 1 : count_or_value_of(query);
}

/* rule J2: the i-th word that a write brings. */
static uint32_t written_word(const struct query *query, uint32_t i)
{
    if (function_of(query) == WRITE_ONE)
        return count_or_value_of(query);
    return word_at(query->frame + 7, i);
}

/* ---- The order of judgement, one function for each step ----
 * Each gives the step that the frame stops at, or lets it go on. */
#define GOES_ON STEP_REFUSED

/* step 1: rule J10 */
static enum second_step step_1(const struct query *query)
{
    if (query->n < 4)
        return STEP_1_SHORT;
    if (query->n > 100)
        return STEP_1_LONG;
    if (!check_agrees(query->frame, query->n))
        return STEP_1_CHECK;
    return GOES_ON;
}

/* step 2: rules J20 and J21. 0 needs no question of its own: by rule S63 no
 * sound bank is there, so it differs from the bank's address. */
static enum second_step step_2(const struct query *query)
{
    if (query->frame[0] != word_at(query->bank, address_place(&query->sheet)))
        return STEP_2_STATION;
    return GOES_ON;
}

/* rule S13 */
static uint32_t function_bit(uint32_t function)
{
    switch (function) {
    case READ: return 1;
    case CLEAR: return 2;
    case WRITE_ONE: return 4;
    case WRITE_MANY: return 8;
    default: return 0;
    }
}

/* step 3: rule J30 */
static enum second_step step_3(const struct query *query)
{
    if ((functions(&query->sheet) & function_bit(function_of(query))) == 0)
        return STEP_3_FUNCTION;
    return GOES_ON;
}

/* step 4: rules J40 and J41 */
static enum second_step step_4(const struct query *query)
{
    if (function_of(query) != WRITE_MANY)
        return query->n == 8 ? GOES_ON : STEP_4_NOT_8;
    if (query->n < 9)
        return STEP_4_BELOW_9;
    if (query->n != 9 + (size_t)query->frame[6])
        return STEP_4_NOT_9_PLUS;
    return GOES_ON;
}

/* step 5: rules J50 to J53; of records one at a time, however many are stored. */
static enum second_step step_5(const struct query *query)
{
    uint32_t count = count_or_value_of(query);
    if (reads_records(query) && count != 1)
        return STEP_5_RECORD_COUNT;
    if (function_of(query) == READ && count == 0)
        return STEP_5_READ_COUNT_0;
    if (function_of(query) == WRITE_MANY && count == 0)
        return STEP_5_WRITE_COUNT_0;
    if (function_of(query) == WRITE_MANY && query->frame[6] != 2 * count)
        return STEP_5_BYTE_COUNT;
    return GOES_ON;
}

/* step 6 for one address of a run: rules J60 to J62. A record's address lies in
 * no area, so that a run that gets there from outside stops. */
static enum second_step step_6_address(const struct query *query, uint32_t address)
{
    if (address > 0xFFFF)
        return STEP_6_ABOVE_FFFF;
    if (is_record_address(&query->sheet, address))
        return STEP_6_RECORD;
    if (area_of_address(&query->sheet, address) == area_count(&query->sheet))
        return STEP_6_NO_AREA;
    if (is_write(query) && address_has_access(&query->sheet, address, READ_ONLY))
        return STEP_6_READ_ONLY;
    if (!is_write(query) && address_has_access(&query->sheet, address, WRITE_ONLY))
        return STEP_6_WRITE_ONLY;
    return GOES_ON;
}

static enum second_step step_6_run(const struct query *query)
{
    enum second_step step = GOES_ON;
    for (uint32_t i = 0; i < run_of(query) && step == GOES_ON; i++)
        step = step_6_address(query, start_of(query) + i);
    return step;
}

/* step 6: rules J60 to J66 */
static enum second_step step_6(const struct query *query)
{
    if (reads_records(query))
        return record_asked(query) <= ring_stored(query->ring) ? GOES_ON : STEP_6_NOT_STORED;
    if (function_of(query) == CLEAR)
        return start_of(query) == clear_address(&query->sheet)
            ? GOES_ON : STEP_6_NOT_CLEAR;
    enum second_step step = step_6_run(query);
    if (step == GOES_ON && function_of(query) == READ && count_or_value_of(query) > 47)
        return STEP_6_OVER_47;
    return step;
}

/* ---- A write cut into items ---- */

static size_t written_item(const struct query *query, uint32_t i)
{
    return item_at(&query->sheet, place_of(&query->sheet, start_of(query) + i));
}

/* Whether the i-th word of the write is the upper half of a pair. */
static bool is_upper_half(const struct query *query, uint32_t i)
{
    size_t item = written_item(query, i);
    return item_is_pair(&query->sheet, item)
        && item_place(&query->sheet, item) == place_of(&query->sheet, start_of(query) + i);
}

/* How many words of the write the item at the i-th word takes: rule K2. */
static uint32_t words_taken(const struct query *query, uint32_t i)
{
    return is_upper_half(query, i) && i + 1 < run_of(query) ? 2 : 1;
}

/* The value that a pair would get from the i-th word on: rules K2 and K3. */
static int64_t pair_to_be(const struct query *query, uint32_t i)
{
    uint32_t place = item_place(&query->sheet, written_item(query, i));
    uint32_t upper = word_at(query->bank, place);
    uint32_t lower = word_at(query->bank, place + 1);
    if (is_upper_half(query, i)) {
        upper = written_word(query, i);
        if (words_taken(query, i) == 2)
            lower = written_word(query, i + 1);
    } else {
        lower = written_word(query, i);
    }
    return value_of(2, upper, lower);
}

/* rule K4: the side at which the item at the i-th word would miss its range; it is
 * bad unless there is none. */
static enum second_side written_side(const struct query *query, uint32_t i)
{
    const struct sheet *sheet = &query->sheet;
    size_t item = written_item(query, i);
    if (item_is_pair(sheet, item))
        return side_missed(sheet, item, pair_to_be(query, i));
    return side_missed(sheet, item, value_of(item_kind(sheet, item), 0, written_word(query, i)));
}

/* rules K1 and K4: how many words of a write stand in front of its first bad
 * item; all of them if no item is bad. */
static uint32_t words_before_bad(const struct query *query)
{
    uint32_t i = 0;
    while (i < run_of(query) && written_side(query, i) == SIDE_NONE)
        i += words_taken(query, i);
    return i;
}

/* step 7: rules J70 and J71 */
static enum second_step step_7(const struct query *query)
{
    if (function_of(query) == CLEAR && count_or_value_of(query) != 0)
        return STEP_7_CLEAR_VALUE;
    if (is_write(query) && words_before_bad(query) < run_of(query))
        return STEP_7_BAD_ITEM;
    return GOES_ON;
}

static enum second_step good_step(const struct query *query)
{
    switch (function_of(query)) {
    case READ: return reads_records(query) ? STEP_GOOD_RECORD : STEP_GOOD_READ;
    case CLEAR: return STEP_GOOD_CLEAR;
    case WRITE_ONE: return STEP_GOOD_WRITE_ONE;
    default: return STEP_GOOD_WRITE_MANY;
    }
}

/* rule J1: the steps one after the other. */
static enum second_step judge(const struct query *query)
{
    static enum second_step (*const steps[7])(const struct query *) = {
        step_1, step_2, step_3, step_4, step_5, step_6, step_7
    };
    for (int i = 0; i < 7; i++) {
        enum second_step step = steps[i](query);
        if (step != GOES_ON)
            return step;
    }
    return good_step(query);
}

/* ---- What a frame does to the bank ---- */

/* rules K5 to K7. The number of words is taken before any is stored. */
static void store_words(const struct query *query, uint8_t *bank)
{
    uint32_t count = words_before_bad(query);
    for (uint32_t i = 0; i < count; i++)
        put_word(bank, place_of(&query->sheet, start_of(query) + i), written_word(query, i));
}

/* rules K8 and K9 */
static void store(const struct query *query, uint8_t *bank, enum second_step step)
{
    if (step == STEP_GOOD_CLEAR)
        put_word(bank, bank_words(&query->sheet), 0);
    if (step == STEP_GOOD_WRITE_ONE || step == STEP_GOOD_WRITE_MANY || step == STEP_7_BAD_ITEM)
        store_words(query, bank);
}

/* ---- Replies ---- */

/* The error code of a step; 0 for silence and for good frames. */
static uint8_t error_of(enum second_step step)
{
    switch (step) {
    case STEP_3_FUNCTION:
        return 1;
    case STEP_6_ABOVE_FFFF: case STEP_6_NO_AREA: case STEP_6_READ_ONLY: case STEP_6_WRITE_ONLY:
    case STEP_6_OVER_47: case STEP_6_NOT_CLEAR: case STEP_6_RECORD: case STEP_6_NOT_STORED:
        return 2;
    case STEP_5_READ_COUNT_0: case STEP_5_WRITE_COUNT_0: case STEP_5_BYTE_COUNT:
    case STEP_5_RECORD_COUNT:
    case STEP_7_CLEAR_VALUE: case STEP_7_BAD_ITEM:
        return 3;
    default:
        return 0;
    }
}

static bool is_silence(enum second_step step)
{
    return step < STEP_GOOD_READ && error_of(step) == 0;
}

/* rule R1 */
static uint32_t reply_words(const struct query *query, uint8_t *out)
{
    uint32_t count = count_or_value_of(query);
    out[0] = query->frame[0];
    out[1] = READ;
    out[2] = (uint8_t)(2 * count);
    for (uint32_t i = 0; i < count; i++)
        put_word(out + 3, i, word_at(query->bank, place_of(&query->sheet, start_of(query) + i)));
    return 3 + 2 * count;
}

/* rules R9 and T21: a whole record, as it was added. */
static uint32_t reply_record(const struct query *query, uint8_t *out)
{
    const struct sheet *sheet = &query->sheet;
    uint32_t place = place_of_record(sheet, query->ring, record_asked(query));
    out[0] = query->frame[0];
    out[1] = READ;
    out[2] = (uint8_t)record_bytes(sheet);
    memcpy(out + 3, query->ring + record_offset(sheet, place), record_bytes(sheet));
    return 3 + (uint32_t)record_bytes(sheet);
}

/* rules R2 and R3: each is the first six bytes of the frame. */
static uint32_t reply_echo(const struct query *query, uint8_t *out)
{
    memcpy(out, query->frame, 6);
    return 6;
}

/* rules R4 and R5 */
static uint32_t reply_error(const struct query *query, uint8_t *out, uint8_t code)
{
    out[0] = query->frame[0];
    out[1] = query->frame[1] | 0x80;
    out[2] = code;
    return 3;
}

static uint32_t reply_body(const struct query *query, uint8_t *out, enum second_step step)
{
    if (error_of(step) != 0)
        return reply_error(query, out, error_of(step));
    if (step == STEP_GOOD_READ)
        return reply_words(query, out);
    if (step == STEP_GOOD_RECORD)
        return reply_record(query, out);
    return reply_echo(query, out);
}

/* rule R6: the check behind n bytes; the length of the whole frame is handed back. */
static uint32_t add_check(uint8_t *out, uint32_t n)
{
    uint16_t value = second_check_value(out, n);
    out[n] = (uint8_t)(value & 0xFF);
    out[n + 1] = (uint8_t)(value >> 8);
    return n + 2;
}

static uint32_t reply(const struct query *query, uint8_t *out, enum second_step step)
{
    return add_check(out, reply_body(query, out, step));
}

/* rule R7: the rate is taken before anything is stored, and the station is that
 * of the frame, which agreed in step 2. */
uint32_t second_answer(const uint8_t *sheet, size_t sheet_n,
                       uint8_t *bank, size_t bank_n,
                       const uint8_t *ring, size_t ring_n,
                       const uint8_t *frame, size_t frame_n,
                       uint8_t *out, size_t out_n,
                       uint32_t *length, uint32_t *rate)
{
    struct query query = { { sheet, sheet_n }, bank, ring, frame, frame_n };
    *length = 0;
    *rate = 0;
    uint32_t number = refuse_ring(&query.sheet, bank, bank_n, ring, ring_n);
    if (number != NUMBER_DONE)
        return number;
    if (out_n < 100)
        return NUMBER_BUFFER;
    enum second_step step = judge(&query);
    if (is_silence(step))
        return NUMBER_SILENCE;
    *rate = word_at(bank, rate_place(&query.sheet));
    *length = reply(&query, out, step);
    store(&query, bank, step);
    return NUMBER_DONE;
}

enum second_step second_step(const uint8_t *sheet, size_t sheet_n,
                             const uint8_t *bank, size_t bank_n,
                             const uint8_t *ring, size_t ring_n,
                             const uint8_t *frame, size_t frame_n)
{
    struct query query = { { sheet, sheet_n }, bank, ring, frame, frame_n };
    if (refuse_ring(&query.sheet, bank, bank_n, ring, ring_n) != NUMBER_DONE)
        return STEP_REFUSED;
    return judge(&query);
}

static const char *const step_names[STEP_COUNT] = {
    [STEP_REFUSED] = "refused before any step",
    [STEP_1_SHORT] = "1 below 4 bytes",
    [STEP_1_LONG] = "1 above 100 bytes",
    [STEP_1_CHECK] = "1 wrong check",
    [STEP_2_STATION] = "2 other station",
    [STEP_3_FUNCTION] = "3 function not allowed",
    [STEP_4_NOT_8] = "4 not of 8 bytes",
    [STEP_4_BELOW_9] = "4 10 below 9 bytes",
    [STEP_4_NOT_9_PLUS] = "4 10 not 9 plus byte count",
    [STEP_5_RECORD_COUNT] = "5 a record, count not 1",
    [STEP_5_READ_COUNT_0] = "5 03 with count 0",
    [STEP_5_WRITE_COUNT_0] = "5 10 with count 0",
    [STEP_5_BYTE_COUNT] = "5 byte count not twice",
    [STEP_6_ABOVE_FFFF] = "6 above FFFF",
    [STEP_6_NO_AREA] = "6 in no area",
    [STEP_6_READ_ONLY] = "6 write to access 1",
    [STEP_6_WRITE_ONLY] = "6 read of access 2",
    [STEP_6_OVER_47] = "6 count over 47",
    [STEP_6_NOT_CLEAR] = "6 not the clear address",
    [STEP_6_RECORD] = "6 run into records, or a write",
    [STEP_6_NOT_STORED] = "6 a record not stored",
    [STEP_7_CLEAR_VALUE] = "7 clear value not 0",
    [STEP_7_BAD_ITEM] = "7 bad item",
    [STEP_GOOD_READ] = "good 03",
    [STEP_GOOD_RECORD] = "good 03 of a record",
    [STEP_GOOD_CLEAR] = "good 05",
    [STEP_GOOD_WRITE_ONE] = "good 06",
    [STEP_GOOD_WRITE_MANY] = "good 10"
};

const char *second_step_name(enum second_step step)
{
    return step_names[step];
}

/* ---- Why a frame gets silence or an error ----
 * One question for each reason, in the order of rule Y1. A question is asked
 * only of a frame that all questions in front of it have let pass, so it may
 * take what they settle for granted. The steps above are not asked: a slip in
 * them would otherwise be told here as well, and not be seen. */

/* rule Y10 */
static bool is_too_short(const struct query *query) { return query->n < 4; }

/* rule Y11 */
static bool is_too_long(const struct query *query) { return query->n > 100; }

/* rule Y12 */
static bool has_wrong_check(const struct query *query)
{
    return !check_agrees(query->frame, query->n);
}

/* rule Y13 */
static bool is_for_another_station(const struct query *query)
{
    return query->frame[0] != word_at(query->bank, address_place(&query->sheet));
}

/* rule Y14 */
static bool has_closed_function(const struct query *query)
{
    return (functions(&query->sheet) & function_bit(function_of(query))) == 0;
}

/* rule Y15: a 10 has its byte count at byte 6, if it is long enough to have
 * one. */
static bool has_other_length(const struct query *query)
{
    if (function_of(query) == WRITE_MANY)
        return query->n < 9 || query->n != 9 + (size_t)query->frame[6];
    return query->n != 8;
}

/* How many registers a read may ask for: rule J64, and of records one, rule J53. */
static uint32_t most_read(const struct query *query)
{
    return is_record_address(&query->sheet, start_of(query)) ? 1 : 47;
}

/* rule Y16: a read of too many is told here, ahead of its addresses, though it
 * gets the error of an address unless it starts in the record area. */
static bool has_bad_count(const struct query *query)
{
    uint32_t count = count_or_value_of(query);
    switch (function_of(query)) {
    case READ: return count == 0 || count > most_read(query);
    case WRITE_MANY: return count == 0 || query->frame[6] != 2 * count;
    default: return false;
    }
}

/* How many addresses the frame is about, from its start upward. */
static uint32_t addresses_of(const struct query *query)
{
    uint32_t function = function_of(query);
    return function == READ || function == WRITE_MANY ? count_or_value_of(query) : 1;
}

/* Whether a read may have an address: one of an area that can be read, by
 * rules J60 and J61, or the address of a stored record, rule J66, if that is where
 * the read starts. */
static bool is_open_to_read(const struct query *query, uint32_t address)
{
    const struct sheet *sheet = &query->sheet;
    if (address == start_of(query) && is_record_address(sheet, address))
        return address - records_first(sheet) < ring_stored(query->ring);
    return address_has_access(sheet, address, READ_ONLY)
        || address_has_access(sheet, address, READ_AND_WRITE);
}

/* Whether a write may: rules J60 and J61. */
static bool is_open_to_write(const struct query *query, uint32_t address)
{
    return address_has_access(&query->sheet, address, WRITE_ONLY)
        || address_has_access(&query->sheet, address, READ_AND_WRITE);
}

/* Whether the function may be used at an address. No area has an address above
 * FFFF. */
static bool is_open(const struct query *query, uint32_t address)
{
    switch (function_of(query)) {
    case READ: return is_open_to_read(query, address);
    case CLEAR: return address == clear_address(&query->sheet);
    default: return is_open_to_write(query, address);
    }
}

/* rule Y20: the lowest address that is not open; the one behind the last where
 * all are. */
static uint32_t first_closed(const struct query *query)
{
    uint32_t i = 0;
    while (i < addresses_of(query) && is_open(query, start_of(query) + i))
        i++;
    return start_of(query) + i;
}

/* rule Y17 */
static bool has_closed_address(const struct query *query)
{
    return first_closed(query) < start_of(query) + addresses_of(query);
}

/* rule Y18 */
static bool has_clear_value(const struct query *query)
{
    return function_of(query) == CLEAR && count_or_value_of(query) != 0;
}

/* rule Y19 */
static bool has_bad_item(const struct query *query)
{
    return is_write(query) && words_before_bad(query) < run_of(query);
}

/* rule Y21: the item's own first address, which lies in front of the write
 * where that begins with a lower half. */
static uint32_t bad_item_address(const struct query *query)
{
    const struct sheet *sheet = &query->sheet;
    uint32_t place = item_place(sheet, written_item(query, words_before_bad(query)));
    size_t area = area_of_place(sheet, place);
    return area_first(sheet, area) + (place - area_place(sheet, area));
}

struct reason {
    const char *name;
    bool (*holds)(const struct query *);
};

static const struct reason reasons[REASON_COUNT] = {
    [REASON_NONE] = { "none", NULL },
    [REASON_TOO_SHORT] = { "too short", is_too_short },
    [REASON_TOO_LONG] = { "too long", is_too_long },
    [REASON_CHECK] = { "check", has_wrong_check },
    [REASON_STATION] = { "station", is_for_another_station },
    [REASON_FUNCTION] = { "function", has_closed_function },
    [REASON_BODY_LENGTH] = { "body length", has_other_length },
    [REASON_BAD_COUNT] = { "count", has_bad_count },
    [REASON_ADDRESS] = { "address", has_closed_address },
    [REASON_CLEAR_VALUE] = { "clear value", has_clear_value },
    [REASON_ITEM] = { "item", has_bad_item }
};

/* rules Y0 and Y1 */
static enum second_reason first_reason(const struct query *query)
{
    for (int reason = REASON_NONE + 1; reason < REASON_COUNT; reason++)
        if (reasons[reason].holds(query))
            return (enum second_reason)reason;
    return REASON_NONE;
}

/* rules Y20 and Y21; no other reason has an address. */
static uint32_t address_told(const struct query *query, enum second_reason reason)
{
    if (reason == REASON_ADDRESS)
        return first_closed(query);
    return reason == REASON_ITEM ? bad_item_address(query) : 0;
}

/* rules Y23 and Y24: the side at which the first bad item would miss its range, whose
 * value the reason is about; no other reason has a side. */
static enum second_side side_told(const struct query *query, enum second_reason reason)
{
    return reason == REASON_ITEM ? written_side(query, words_before_bad(query)) : SIDE_NONE;
}

/* rules Y2 and Y3 */
uint32_t second_why(const uint8_t *sheet, size_t sheet_n,
                    const uint8_t *bank, size_t bank_n,
                    const uint8_t *ring, size_t ring_n,
                    const uint8_t *frame, size_t frame_n,
                    uint32_t *reason, uint32_t *address, uint32_t *side)
{
    struct query query = { { sheet, sheet_n }, bank, ring, frame, frame_n };
    *reason = REASON_NONE;
    *address = 0;
    *side = SIDE_NONE;
    uint32_t number = refuse_ring(&query.sheet, bank, bank_n, ring, ring_n);
    if (number != NUMBER_DONE)
        return number;
    enum second_reason first = first_reason(&query);
    *reason = first;
    *address = address_told(&query, first);
    *side = side_told(&query, first);
    return NUMBER_DONE;
}

const char *second_reason_name(enum second_reason reason)
{
    return reasons[reason].name;
}

/* ---- The box that asks: its orders ----
 * The box has no sheet and no bank. All that it goes by is the order, and what comes
 * back is read against that alone. */

/* rules Q1 and Q2; the numbers have 32 bits and are asked about whole, rule Q16. */
struct order {
    uint32_t kind;                  /* one of enum second_order, or none */
    uint32_t station, address;
    uint32_t number;                /* how many words, or the value of a write */
    const uint8_t *values;          /* for several writes */
    size_t values_n;
};

/* What fits 100 bytes: the reply to a read, rule Q12, and the query of a write,
 * rule Q13. */
enum { MOST_ASKED = 47, MOST_WRITTEN = 45 };

static bool words_fit(size_t words, size_t most)
{
    return 1 <= words && words <= most;
}

/* rule Q15: whether a run of addresses ends by FFFF. 64 bits, since the sum of two
 * numbers of 32 bits need not fit these. */
static bool run_fits(const struct order *order, uint64_t addresses)
{
    return order->address + addresses <= 0x10000;
}

/* rule Q5 */
static size_t words_to_write(const struct order *order)
{
    return order->values_n / 2;
}

/* rule Q13: several writes have whole words. */
static bool values_fit(const struct order *order)
{
    return order->values_n % 2 == 0 && words_fit(words_to_write(order), MOST_WRITTEN);
}

/* rules Q10 to Q15. Number and values are asked about only where the order has a use
 * for them, rule Q9. A record has one address, however many words it has: rule Q7. */
static bool has_frame(const struct order *order)
{
    if (order->station < LOWEST_STATION || order->station > HIGHEST_STATION)
        return false;
    switch (order->kind) {
    case ORDER_READ:
        return words_fit(order->number, MOST_ASKED) && run_fits(order, order->number);
    case ORDER_RECORD: return words_fit(order->number, MOST_ASKED) && run_fits(order, 1);
    case ORDER_WRITE: return order->number <= 0xFFFF && run_fits(order, 1);
    case ORDER_WRITES: return values_fit(order) && run_fits(order, words_to_write(order));
    case ORDER_CLEAR: return run_fits(order, 1);
    default: return false;
    }
}

/* rules Q22 and Q40, here 9 and then 5: the buffer must have room for the longest
 * frame, also where nothing is written to it, rule N5. */
static uint32_t refuse_order(const struct order *order, size_t out_n)
{
    if (!has_frame(order))
        return NUMBER_NO_FRAME;
    return out_n < 100 ? NUMBER_BUFFER : NUMBER_DONE;
}

/* rule Q3 */
static uint8_t function_asked(const struct order *order)
{
    switch (order->kind) {
    case ORDER_WRITE: return WRITE_ONE;
    case ORDER_WRITES: return WRITE_MANY;
    case ORDER_CLEAR: return CLEAR;
    default: return READ;
    }
}

/* rule Q6: the word behind the address, a count or a value. A record is read alone,
 * and a clear has the value 0. */
static uint32_t word_asked(const struct order *order)
{
    switch (order->kind) {
    case ORDER_RECORD: return 1;
    case ORDER_WRITES: return (uint32_t)words_to_write(order);
    case ORDER_CLEAR: return 0;
    default: return order->number;
    }
}

/* ---- The query of an order ---- */

/* rules Q4, Q20 and Q21: all but the check; how many bytes that is. */
static uint32_t put_query(const struct order *order, uint8_t *out)
{
    out[0] = (uint8_t)order->station;
    out[1] = function_asked(order);
    put_word(out + 2, 0, order->address);
    put_word(out + 2, 1, word_asked(order));
    if (order->kind != ORDER_WRITES)
        return 6;
    out[6] = (uint8_t)order->values_n;
    memcpy(out + 7, order->values, order->values_n);
    return 7 + (uint32_t)order->values_n;
}

/* rules Q22 and Q23 */
uint32_t second_query(uint32_t order, uint32_t station, uint32_t address, uint32_t number,
                      const uint8_t *values, size_t values_n,
                      uint8_t *out, size_t out_n, uint32_t *length)
{
    struct order asked = { order, station, address, number, values, values_n };
    *length = 0;
    uint32_t refused = refuse_order(&asked, out_n);
    if (refused != NUMBER_DONE)
        return refused;
    *length = add_check(out, put_query(&asked, out));
    return NUMBER_DONE;
}

/* ---- The reply to an order ---- */

/* rules R5 and Q32 */
enum { ERROR_BIT = 0x80 };

/* What stands between the function and the check. */
struct body {
    const uint8_t *bytes;
    size_t n;
};

/* rule Q30: rule J10 once more, of what has come back. */
static bool reply_passes(const uint8_t *reply, size_t reply_n)
{
    return 4 <= reply_n && reply_n <= 100 && check_agrees(reply, reply_n);
}

/* rule Q32: the query's own function, or that with the top bit set. */
static bool function_fits(const struct order *order, uint8_t function)
{
    return function == function_asked(order) || function == (function_asked(order) | ERROR_BIT);
}

/* rules Q30 to Q32: 10, 11 and 12, in this order. */
static uint32_t refuse_reply(const struct order *order, const uint8_t *reply, size_t reply_n)
{
    if (!reply_passes(reply, reply_n))
        return NUMBER_REPLY_DAMAGED;
    if (reply[0] != order->station)
        return NUMBER_REPLY_STATION;
    return function_fits(order, reply[1]) ? NUMBER_DONE : NUMBER_REPLY_FUNCTION;
}

/* rule Q33: which code can follow which function is not asked. */
static bool is_error_body(const struct body *body)
{
    return body->n == 1 && 1 <= body->bytes[0] && body->bytes[0] <= 3;
}

/* rule Q8 */
static bool brings_values(const struct order *order)
{
    return order->kind == ORDER_READ || order->kind == ORDER_RECORD;
}

/* rule Q34: the byte count and as many bytes, those of the words that were asked for. */
static bool is_values_body(const struct order *order, const struct body *body)
{
    size_t bytes = 2 * (size_t)order->number;
    return body->n == 1 + bytes && body->bytes[0] == bytes;
}

/* rule Q35: the two words behind the query's function, and nothing more. */
static bool is_echo_body(const struct order *order, const struct body *body)
{
    return body->n == 4 && word_at(body->bytes, 0) == order->address
        && word_at(body->bytes, 1) == word_asked(order);
}

/* rules Q36 and Q41, of an error */
static uint32_t read_error(const struct body *body, uint32_t *error)
{
    if (!is_error_body(body))
        return NUMBER_REPLY_BODY;
    *error = body->bytes[0];
    return NUMBER_DONE;
}

/* rules Q36, Q41 and Q42, of values */
static uint32_t read_values(const struct order *order, const struct body *body, uint8_t *out,
                            uint32_t *length)
{
    if (!is_values_body(order, body))
        return NUMBER_REPLY_BODY;
    *length = 2 * order->number;
    memcpy(out, body->bytes + 1, *length);
    return NUMBER_DONE;
}

/* rules Q36 and Q40 to Q42; what was done has nothing to hand back. */
uint32_t second_reply(uint32_t order, uint32_t station, uint32_t address, uint32_t number,
                      const uint8_t *values, size_t values_n,
                      const uint8_t *reply, size_t reply_n,
                      uint8_t *out, size_t out_n, uint32_t *length, uint32_t *error)
{
    struct order asked = { order, station, address, number, values, values_n };
    *length = 0;
    *error = 0;
    uint32_t refused = refuse_order(&asked, out_n);
    if (refused == NUMBER_DONE)
        refused = refuse_reply(&asked, reply, reply_n);
    if (refused != NUMBER_DONE)
        return refused;
    struct body body = { reply + 2, reply_n - 4 };
    if ((reply[1] & ERROR_BIT) != 0)
        return read_error(&body, error);
    if (brings_values(&asked))
        return read_values(&asked, &body, out, length);
    return is_echo_body(&asked, &body) ? NUMBER_DONE : NUMBER_REPLY_BODY;
}
