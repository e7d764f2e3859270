/* Doors that break their promise, each in one way: the tests are linked with them once more, and must fail. The environment's BREACH
 * says which. The linker's --wrap puts these in front of the archive's functions. */
#include "cedarskein.h"

#include <stdlib.h>
#include <string.h>

uint16_t __real_cedarskein_check_take(uint16_t state, uint8_t byte);
uint16_t __real_cedarskein_check_value(const uint8_t *bytes, size_t bytes_n);
uint32_t __real_cedarskein_sheet_check(const uint8_t *sheet, size_t sheet_n);
uint32_t __real_cedarskein_bank_check(const uint8_t *sheet, size_t sheet_n, const uint8_t *bank, size_t bank_n);
uint32_t __real_cedarskein_bank_fresh(const uint8_t *sheet, size_t sheet_n, uint8_t *bank, size_t bank_n);
uint32_t __real_cedarskein_post(const uint8_t *sheet, size_t sheet_n, uint8_t *bank, size_t bank_n, uint32_t address,
                                const uint8_t *words, size_t words_n);
uint32_t __real_cedarskein_set_mark(const uint8_t *sheet, size_t sheet_n, uint8_t *bank, size_t bank_n, uint32_t mark);
uint32_t __real_cedarskein_answer(const uint8_t *sheet, size_t sheet_n, uint8_t *bank, size_t bank_n, const uint8_t *ring,
                                  size_t ring_n, const uint8_t *frame, size_t frame_n, uint8_t *out, size_t out_n, uint32_t *length,
                                  uint32_t *rate);
uint32_t __real_cedarskein_why(const uint8_t *sheet, size_t sheet_n, const uint8_t *bank, size_t bank_n, const uint8_t *ring,
                               size_t ring_n, const uint8_t *frame, size_t frame_n, uint32_t *reason, uint32_t *address,
                               uint32_t *side);
uint32_t __real_cedarskein_ring_check(const uint8_t *sheet, size_t sheet_n, const uint8_t *ring, size_t ring_n);
uint32_t __real_cedarskein_add_record(const uint8_t *sheet, size_t sheet_n, uint8_t *ring, size_t ring_n, const uint8_t *record,
                                      size_t record_n);
uint32_t __real_cedarskein_query(uint32_t order, uint32_t station, uint32_t address, uint32_t number, const uint8_t *values,
                                 size_t values_n, uint8_t *out, size_t out_n, uint32_t *length);
uint32_t __real_cedarskein_reply(uint32_t order, uint32_t station, uint32_t address, uint32_t number, const uint8_t *values,
                                 size_t values_n, const uint8_t *reply, size_t reply_n, uint8_t *out, size_t out_n,
                                 uint32_t *length, uint32_t *error);

/* The environment is asked once: a test makes a hundred thousand calls and more, and each asks for every breach of its door. */
static int breach_is(const char *name)
{
    static const char *breach;
    static int asked;
    if (!asked)
        breach = getenv("BREACH");
    asked = 1;
    return breach != NULL && strcmp(breach, name) == 0;
}

/* The state at hand is looked at first: a test makes some sixteen million of these calls. */
uint16_t __wrap_cedarskein_check_take(uint16_t state, uint8_t byte)
{
    uint16_t value = __real_cedarskein_check_take(state, byte);
    if (state == 0x1D5A && byte == 0xC3 && breach_is("take_wrong_once"))
        return value ^ 1;
    if (state == 0 && breach_is("take_of_state_zero"))
        return byte;
    return value;
}

uint16_t __wrap_cedarskein_check_value(const uint8_t *bytes, size_t bytes_n)
{
    uint16_t value = __real_cedarskein_check_value(bytes, bytes_n);
    if (breach_is("check_upper_byte_first"))
        return (uint16_t)(value << 8 | value >> 8);
    if (breach_is("check_of_nothing") && bytes_n == 0)
        return 0;
    return value;
}

static uint32_t word_of(const uint8_t *bytes)
{
    return (uint32_t)(256 * bytes[0] + bytes[1]);
}

static void put_word(uint8_t *bytes, uint32_t word)
{
    bytes[0] = (uint8_t)(word >> 8);
    bytes[1] = (uint8_t)word;
}

static void seal(uint8_t *frame, size_t n)
{
    uint16_t value = __real_cedarskein_check_value(frame, n - 2);
    frame[n - 2] = (uint8_t)(value & 0xFF);
    frame[n - 1] = (uint8_t)(value >> 8);
}

/* ---- The record area, as the sheet's row has it ---- */

struct records {
    uint32_t first, count, words;
};

static size_t record_row(const uint8_t *sheet)
{
    return 2 * (12 + 4 * word_of(sheet + 2) + 6 * word_of(sheet + 6));
}

/* Of a sheet that may be refused for it; none where no three words end it. */
static struct records records_told(const uint8_t *sheet, size_t sheet_n)
{
    struct records records = { 0, 0, 0 };
    size_t row = sheet_n < 24 ? 0 : record_row(sheet);
    if (row == 0 || sheet[23] != 1 || row + 6 != sheet_n || sheet_n > CEDARSKEIN_LONGEST_SHEET)
        return records;
    records.first = word_of(sheet + row);
    records.count = word_of(sheet + row + 2);
    records.words = word_of(sheet + row + 4);
    return records;
}

static struct records records_of(const uint8_t *sheet, size_t sheet_n)
{
    static const struct records none = { 0, 0, 0 };
    return __real_cedarskein_sheet_check(sheet, sheet_n) == 0 ? records_told(sheet, sheet_n) : none;
}

static int is_record(const struct records *records, uint32_t address)
{
    return records->first <= address && address < records->first + records->count;
}

/* Whether a run gets to the records from in front of them. */
static int runs_into(const struct records *records, uint32_t start, size_t count)
{
    return records->count != 0 && start < records->first && records->first - start < count;
}

/* The check of an AS-WE sheet whose stations, item 9, are 1 to F7, whatever they are. */
static uint32_t check_with_new_stations(const uint8_t *sheet, size_t sheet_n)
{
    static const uint8_t bounds[8] = { 0, 0, 0, 1, 0, 0, 0, 0xF7 };
    uint8_t changed[CEDARSKEIN_LONGEST_SHEET];
    memcpy(changed, sheet, sheet_n);
    memcpy(changed + 24 + 5 * 8 + 9 * 12 + 4, bounds, sizeof bounds);
    return __real_cedarskein_sheet_check(changed, sheet_n);
}

/* The check of a sheet with another record area. The makers' sheets have nothing at 4000 and behind it. */
#define FREE_ADDRESS 0x4000
static uint32_t check_with_records(const uint8_t *sheet, size_t sheet_n, uint32_t first, uint32_t count, uint32_t words)
{
    uint8_t changed[CEDARSKEIN_LONGEST_SHEET], *row = changed + sheet_n - 6;
    memcpy(changed, sheet, sheet_n);
    row[0] = (uint8_t)(first >> 8);
    row[1] = (uint8_t)first;
    row[2] = (uint8_t)(count >> 8);
    row[3] = (uint8_t)count;
    row[4] = (uint8_t)(words >> 8);
    row[5] = (uint8_t)words;
    return __real_cedarskein_sheet_check(changed, sheet_n);
}

/* Whether some area begins at a record, and whether the first record lies in an area: two runs share an address where either holds. */
static int area_begins_in(const uint8_t *sheet, const struct records *records)
{
    uint32_t k;
    for (k = 0; k < word_of(sheet + 2); k++)
        if (is_record(records, word_of(sheet + 24 + 8 * k)))
            return 1;
    return 0;
}

static int begins_in_area(const uint8_t *sheet, const struct records *records)
{
    uint32_t k;
    for (k = 0; k < word_of(sheet + 2); k++)
        if (word_of(sheet + 24 + 8 * k) <= records->first && records->first <= word_of(sheet + 26 + 8 * k))
            return 1;
    return 0;
}

/* A sheet that is refused for where its records lie, and for nothing else, and that a broken door takes. */
static int takes_records_there(const uint8_t *sheet, size_t sheet_n, const struct records *told)
{
    int begins = area_begins_in(sheet, told), inside = begins_in_area(sheet, told);
    int clear = (sheet[13] & 2) != 0 && is_record(told, word_of(sheet + 20));
    int beyond = told->first + told->count > 0x10000;
    if (check_with_records(sheet, sheet_n, FREE_ADDRESS, told->count, told->words) != 0)
        return 0;
    if (breach_is("records_from_within_an_area_are_taken"))
        return inside && !begins && !clear && !beyond;
    if (breach_is("records_over_an_area_are_taken"))
        return begins && !inside && !clear && !beyond;
    if (breach_is("clear_address_among_records_is_taken"))
        return clear && !begins && !inside && !beyond;
    return breach_is("records_beyond_ffff_are_taken") && beyond && !begins && !inside && !clear;
}

/* The same, for the number of its records or their words. */
static int takes_records(const uint8_t *sheet, size_t sheet_n)
{
    struct records told = records_told(sheet, sheet_n);
    if (told.count + told.words == 0)
        return 0;
    if (breach_is("no_records_are_taken") && told.count == 0)
        return check_with_records(sheet, sheet_n, told.first, 1, told.words) == 0;
    if (breach_is("records_6601_are_taken") && told.count == 6601)
        return check_with_records(sheet, sheet_n, told.first, 6600, told.words) == 0;
    if (breach_is("records_of_no_word_are_taken") && told.words == 0)
        return check_with_records(sheet, sheet_n, told.first, told.count, 1) == 0;
    if (breach_is("records_of_48_words_are_taken") && told.words == 48)
        return check_with_records(sheet, sheet_n, told.first, told.count, 47) == 0;
    return takes_records_there(sheet, sheet_n, &told);
}

/* ---- Versions and accesses ---- */

/* The row of the area that an address lies in, and NULL where it lies in none; and the access there, which is then 0. */
static const uint8_t *area_with(const uint8_t *sheet, uint32_t address)
{
    uint32_t k;
    for (k = 0; k < word_of(sheet + 2); k++)
        if (word_of(sheet + 24 + 8 * k) <= address && address <= word_of(sheet + 26 + 8 * k))
            return sheet + 24 + 8 * k;
    return NULL;
}

static uint32_t access_at(const uint8_t *sheet, uint32_t address)
{
    const uint8_t *area = area_with(sheet, address);
    return area == NULL ? 0 : word_of(area + 6);
}

static uint32_t place_of(const uint8_t *sheet, uint32_t address)
{
    const uint8_t *area = area_with(sheet, address);
    return word_of(area + 4) + address - word_of(area);
}

static uint32_t access_of_place(const uint8_t *sheet, uint32_t place)
{
    const uint8_t *area = sheet + 24;
    while (place - word_of(area + 4) > word_of(area + 2) - word_of(area))
        area += 8;
    return word_of(area + 6);
}

static int has_access(const uint8_t *sheet, uint32_t access)
{
    uint32_t k;
    for (k = 0; k < word_of(sheet + 2); k++)
        if (word_of(sheet + 30 + 8 * k) == access)
            return 1;
    return 0;
}

/* The sheet with another version, or with another access in each area of one: as a door sees it that takes the one for the other. The
 * copy is good until the next is made. */
static uint8_t other_sheet[CEDARSKEIN_LONGEST_SHEET];

static const uint8_t *with_version(const uint8_t *sheet, size_t sheet_n, uint32_t version)
{
    memcpy(other_sheet, sheet, sheet_n);
    put_word(other_sheet, version);
    return other_sheet;
}

static const uint8_t *with_access(const uint8_t *sheet, size_t sheet_n, uint32_t access, uint32_t other)
{
    uint32_t k;
    memcpy(other_sheet, sheet, sheet_n);
    for (k = 0; k < word_of(sheet + 2); k++)
        if (word_of(sheet + 30 + 8 * k) == access)
            put_word(other_sheet + 30 + 8 * k, other);
    return other_sheet;
}

static int is_taken(const uint8_t *sheet, size_t sheet_n)
{
    return __real_cedarskein_sheet_check(sheet, sheet_n) == 0;
}

/* Whether the sheet would be sound with one more item, of a kind, at some place that is only written. */
static int lacks_item(const uint8_t *sheet, size_t sheet_n, uint8_t kind)
{
    static const uint8_t highest[4] = { 0xFF, 0xFF, 0xFF, 0xFF };
    size_t rows = 2 * word_of(sheet + 8), at;
    uint8_t *row;
    for (at = rows; at <= rows + 12 * word_of(sheet + 6); at += 12) {
        memcpy(other_sheet, sheet, at);
        memset(row = other_sheet + at, 0, 12);
        row[1] = kind;
        put_word(row + 2, at == rows ? 0 : word_of(row - 10) + (row[-11] == 2 ? 2 : 1));
        memcpy(row + (kind == 2 ? 8 : 10), highest, kind == 2 ? 4 : 2);
        memcpy(row + 12, sheet + at, sheet_n - at);
        put_word(other_sheet + 6, word_of(sheet + 6) + 1);
        put_word(other_sheet + 14, word_of(sheet + 14) + 6);
        if (is_taken(other_sheet, sheet_n + 12) && access_of_place(other_sheet, word_of(row + 2)) == 2)
            return 1;
    }
    return 0;
}

/* Whether it would be sound with two neighbouring areas that are written as one. */
static int has_two_for_one(const uint8_t *sheet, size_t sheet_n)
{
    size_t k, rest;
    for (k = 0; k + 1 < word_of(sheet + 2); k++) {
        uint8_t *row = other_sheet + 24 + 8 * k;
        rest = 24 + 8 * (k + 2);
        memcpy(other_sheet, sheet, sheet_n);
        if (word_of(row + 6) - 2 > 1 || word_of(row + 14) - 2 > 1 || word_of(row + 2) + 1 != word_of(row + 8))
            continue;
        memcpy(row + 2, row + 10, 2);
        memmove(row + 8, row + 16, sheet_n - rest);
        put_word(other_sheet + 2, word_of(sheet + 2) - 1);
        put_word(other_sheet + 8, word_of(sheet + 8) - 4);
        put_word(other_sheet + 14, word_of(sheet + 14) - 4);
        if (is_taken(other_sheet, sheet_n - 8))
            return 1;
    }
    return 0;
}

/* A sheet that is refused for its version, an access or what its items cover, and for nothing else, and that a broken door takes. */
static int takes_version(const uint8_t *sheet, size_t sheet_n)
{
    uint32_t version = sheet_n < 24 ? 0 : word_of(sheet);
    if (sheet_n < 24 || sheet_n + 12 > sizeof other_sheet || sheet_n < record_row(sheet) || word_of(sheet + 8) != 12 + 4 * word_of(sheet + 2))
        return 0;
    if (breach_is("version_0_is_taken") && version == 0)
        return is_taken(with_version(sheet, sheet_n, 2), sheet_n);
    if (breach_is("version_3_is_taken") && version == 3)
        return is_taken(with_version(sheet, sheet_n, 2), sheet_n);
    if (breach_is("version_is_cut"))
        return is_taken(with_version(sheet, sheet_n, version & 0xFF), sheet_n);
    if (breach_is("access_2_in_version_1_is_taken") && version == 1)
        return is_taken(with_version(sheet, sheet_n, 2), sheet_n);
    if (breach_is("access_0_is_taken"))
        return is_taken(with_access(sheet, sheet_n, 0, 1), sheet_n);
    if (breach_is("access_4_is_taken"))
        return is_taken(with_access(sheet, sheet_n, 4, 3), sheet_n);
    if (breach_is("access_is_cut"))
        return is_taken(with_access(sheet, sheet_n, 0x0102, 2), sheet_n);
    if (breach_is("uncovered_write_only_is_taken"))
        return lacks_item(sheet, sheet_n, 0) || lacks_item(sheet, sheet_n, 2);
    return breach_is("pair_over_two_written_areas_is_taken") && version == 2 && has_two_for_one(sheet, sheet_n);
}

/* The other way round: a sound sheet that a broken door refuses. */
static int refuses_version(const uint8_t *sheet)
{
    uint32_t version = word_of(sheet);
    if (breach_is("version_1_is_refused"))
        return version == 1;
    if (breach_is("version_2_is_refused"))
        return version == 2;
    if (breach_is("version_2_without_write_only_is_refused"))
        return version == 2 && !has_access(sheet, 2);
    if (breach_is("version_2_with_records_is_refused"))
        return version == 2 && sheet[23] == 1;
    if (breach_is("station_in_write_only_is_refused"))
        return access_of_place(sheet, word_of(sheet + 16)) == 2;
    return breach_is("rate_in_write_only_is_refused") && access_of_place(sheet, word_of(sheet + 18)) == 2;
}

uint32_t __wrap_cedarskein_sheet_check(const uint8_t *sheet, size_t sheet_n)
{
    uint32_t number = __real_cedarskein_sheet_check(sheet, sheet_n);
    volatile uint8_t read = 0;
    if (number == 2 && (takes_records(sheet, sheet_n) || takes_version(sheet, sheet_n)))
        return 0;
    if (number == 0 && refuses_version(sheet))
        return 2;
    if (breach_is("old_sheet_is_taken") && number == 2 && sheet_n == 328)
        return check_with_new_stations(sheet, sheet_n);
    if (breach_is("sheet_cut_is_taken") && sheet_n == 255)
        return 0;
    if (breach_is("sheet_read_beyond") && sheet_n > 0)
        read = *(volatile const uint8_t *)(sheet + sheet_n);
    (void)read;
    return number;
}

/* Puts words of a fresh bank where a bank is only written. */
static void make_fresh_there(const uint8_t *sheet, size_t sheet_n, uint8_t *bank, size_t bank_n)
{
    uint8_t fresh[CEDARSKEIN_LONGEST_BANK];
    uint32_t place;
    __real_cedarskein_bank_fresh(sheet, sheet_n, fresh, bank_n);
    for (place = 0; place < word_of(sheet + 10); place++)
        if (access_of_place(sheet, place) == 2)
            memcpy(bank + 2 * place, fresh + 2 * place, 2);
}

/* Whether a bank is unsound for what is only written, and for nothing else. */
static int bad_where_only_written(const uint8_t *sheet, size_t sheet_n, const uint8_t *bank, size_t bank_n, uint32_t number)
{
    uint8_t mended[CEDARSKEIN_LONGEST_BANK];
    if (number != 4)
        return 0;
    memcpy(mended, bank, bank_n);
    make_fresh_there(sheet, sheet_n, mended, bank_n);
    return __real_cedarskein_bank_check(sheet, sheet_n, mended, bank_n) == 0;
}

uint32_t __wrap_cedarskein_bank_check(const uint8_t *sheet, size_t sheet_n, const uint8_t *bank, size_t bank_n)
{
    uint32_t number = __real_cedarskein_bank_check(sheet, sheet_n, bank, bank_n);
    if (breach_is("bank_bad_where_only_written_is_sound") && bad_where_only_written(sheet, sheet_n, bank, bank_n, number))
        return 0;
    if (breach_is("bank_of_78_is_sound_with_presets") && number == 3 && bank_n == 78 && sheet_n == 396)
        return 0;
    if (breach_is("bank_check_takes_access_2_in_version_1") && number == 2 && sheet_n == 396 && word_of(sheet) == 1)
        return __real_cedarskein_bank_check(with_version(sheet, sheet_n, 2), sheet_n, bank, bank_n);
    if (breach_is("bank_check_is_done"))
        return 0;
    if (breach_is("bank_at_station_0_is_sound") && number == 4 && word_of(bank + 2 * word_of(sheet + 16)) == 0)
        return 0;
    if (breach_is("bank_at_station_248_is_sound") && number == 4 && word_of(bank + 2 * word_of(sheet + 16)) == 248)
        return 0;
    return number;
}

/* A fresh bank, right but for what is only written. */
static void spoil_fresh(const uint8_t *sheet, uint8_t *bank, const uint8_t *before)
{
    const uint8_t *row = sheet + 2 * word_of(sheet + 8), *end = row + 12 * word_of(sheet + 6);
    for (; row < end; row += 12) {
        uint8_t *at = bank + 2 * word_of(row + 2);
        size_t n = row[1] == 2 ? 4 : 2;
        if (access_of_place(sheet, word_of(row + 2)) != 2)
            continue;
        if (breach_is("fresh_leaves_what_is_only_written"))
            memcpy(at, before + 2 * word_of(row + 2), n);
        if (breach_is("fresh_is_0_where_only_written"))
            memset(at, 0, n);
        if (breach_is("fresh_is_high_where_only_written"))
            memcpy(at, row + 12 - n, n);
    }
}

uint32_t __wrap_cedarskein_bank_fresh(const uint8_t *sheet, size_t sheet_n, uint8_t *bank, size_t bank_n)
{
    uint8_t before[CEDARSKEIN_LONGEST_BANK];
    uint32_t number;
    if (breach_is("fresh_tests_soundness") && __real_cedarskein_bank_check(sheet, sheet_n, bank, bank_n) == 4)
        return 4;
    if (bank_n <= sizeof before && bank_n > 0)
        memcpy(before, bank, bank_n);
    number = __real_cedarskein_bank_fresh(sheet, sheet_n, bank, bank_n);
    if (number == 0)
        spoil_fresh(sheet, bank, before);
    if (breach_is("fresh_takes_version_3") && number == 2 && sheet_n > 23 && sheet_n <= sizeof other_sheet && word_of(sheet) == 3)
        return __real_cedarskein_bank_fresh(with_version(sheet, sheet_n, 2), sheet_n, bank, bank_n);
    if (breach_is("fresh_of_78_with_presets") && number == 3 && bank_n == 78 && sheet_n == 396)
        return 0;
    if (breach_is("fresh_writes_when_refused") && number != 0 && bank_n > 0)
        bank[bank_n - 1] ^= 1;
    if (breach_is("fresh_writes_in_front") && number == 0)
        bank[-1] ^= 1;
    if (breach_is("fresh_station_0") && number == 0)
        bank[29] = 0;
    return number;
}

/* The first address of a run in an area of this access, or the one behind the run; with 0, the first in no area. Of a sound sheet. */
static uint32_t first_with(const uint8_t *sheet, uint32_t first, uint32_t end, uint32_t access)
{
    while (first < end && access_at(sheet, first) != access)
        first++;
    return first;
}

/* How many places lie in front of an address and are only written: by so many each place was less before there were such areas. */
static uint32_t places_more(const uint8_t *sheet, uint32_t address)
{
    uint32_t place, many = 0;
    for (place = 0; place < place_of(sheet, address); place++)
        many += access_of_place(sheet, place) == 2;
    return many;
}

/* Words that were stored, from an address on, where they would lie without the places that are only written. */
static void store_as_before(const uint8_t *sheet, uint8_t *bank, const uint8_t *before, uint32_t address, size_t n)
{
    uint8_t *at = bank + 2 * place_of(sheet, address);
    size_t less = 2 * places_more(sheet, address);
    if (less == 0 || n > CEDARSKEIN_LONGEST_BANK)
        return;
    memmove(at - less, at, n);
    memcpy(at + (n < less ? 0 : n - less), before + (at - bank) + (n < less ? 0 : n - less), n < less ? n : less);
}

/* What a posting comes to at a broken door where it gets to what is only written. */
static uint32_t post_otherwise(const uint8_t *sheet, size_t sheet_n, uint8_t *bank, size_t bank_n, uint32_t address, size_t words_n,
                               uint32_t number, const uint8_t *before)
{
    uint32_t end = address + (uint32_t)(words_n / 2);
    if (breach_is("post_to_a_bank_bad_where_only_written") && bad_where_only_written(sheet, sheet_n, bank, bank_n, number))
        return 0;
    if (breach_is("post_by_the_places_of_before") && number == 0)
        store_as_before(sheet, bank, before, address, words_n);
    if (number != 6 || address > 0xFFFF || end > 0x10000 || first_with(sheet, address, end, 0) != end)
        return number;
    if (breach_is("post_where_only_written_is_taken") && first_with(sheet, address, end, 3) == end)
        return 0;
    return number;
}

uint32_t __wrap_cedarskein_post(const uint8_t *sheet, size_t sheet_n, uint8_t *bank, size_t bank_n, uint32_t address,
                                const uint8_t *words, size_t words_n)
{
    struct records records = records_of(sheet, sheet_n);
    uint8_t before[CEDARSKEIN_LONGEST_BANK];
    uint32_t number;
    if (bank_n > 0 && bank_n <= sizeof before)
        memcpy(before, bank, bank_n);
    if (breach_is("post_cuts_the_address"))
        address &= 0xFFFF;
    if (breach_is("post_leaves_the_last") && words_n > 2)
        words_n -= 2;
    if (breach_is("post_takes_odd") && words_n % 2 == 1)
        words_n -= 1;
    if (breach_is("post_stops_at_the_records") && words_n % 2 == 0 && runs_into(&records, address, words_n / 2))
        words_n = 2 * (size_t)(records.first - address);
    if (breach_is("post_stops_where_only_written") && words_n % 2 == 0 && words_n < 1000 && is_taken(sheet, sheet_n)
        && access_at(sheet, address) == 1)
        words_n = 2 * (size_t)(first_with(sheet, address, address + (uint32_t)(words_n / 2), 2) - address);
    number = __real_cedarskein_post(sheet, sheet_n, bank, bank_n, address, words, words_n);
    number = post_otherwise(sheet, sheet_n, bank, bank_n, address, words_n, number, before);
    if (breach_is("post_at_a_record_is_taken") && number == 6 && is_record(&records, address))
        return 0;
    return number;
}

uint32_t __wrap_cedarskein_set_mark(const uint8_t *sheet, size_t sheet_n, uint8_t *bank, size_t bank_n, uint32_t mark)
{
    uint32_t number;
    if (breach_is("mark_is_cut"))
        mark &= 0xFFFF;
    number = __real_cedarskein_set_mark(sheet, sheet_n, bank, bank_n, mark);
    if (breach_is("mark_in_a_bank_bad_where_only_written") && bad_where_only_written(sheet, sheet_n, bank, bank_n, number))
        return 0;
    return number;
}

static void spoil_refusal(uint8_t *bank, size_t bank_n, uint8_t *out, size_t out_n, uint32_t *length, uint32_t *rate)
{
    if (breach_is("refused_frame_writes_out") && out_n > 0)
        out[out_n - 1] ^= 1;
    if (breach_is("refused_frame_writes_bank") && bank_n > 0)
        bank[bank_n - 1] ^= 1;
    if (breach_is("refused_frame_has_a_length"))
        *length = 5;
    if (breach_is("refused_frame_has_a_rate"))
        *rate = 1;
}

static void spoil_reply(uint8_t *out, size_t out_n, uint32_t *length, uint32_t *rate)
{
    if (breach_is("reply_writes_behind_itself") && *length < out_n)
        out[*length] ^= 1;
    if (breach_is("reply_writes_behind_out"))
        out[out_n] ^= 1;
    if (breach_is("reply_at_the_other_rate"))
        *rate ^= 1;
    if (breach_is("reply_of_invented_length"))
        *length += 1;
    if (breach_is("reply_with_a_wrong_byte"))
        out[2] ^= 1;
    if (breach_is("rate_written_wide"))
        rate[1] = 0;
}

/* A frame of 101 bytes with a right check, as one of 100. */
static const uint8_t *shortened(const uint8_t *frame)
{
    static uint8_t shorter[100];
    uint16_t value = __real_cedarskein_check_value(frame, 99);
    if (frame[99] != (value & 0xFF) || frame[100] != value >> 8)
        return frame;
    memcpy(shorter, frame, 98);
    value = __real_cedarskein_check_value(shorter, 98);
    shorter[98] = (uint8_t)(value & 0xFF);
    shorter[99] = (uint8_t)(value >> 8);
    return shorter;
}

/* A frame with a right check for a station that is not the bank's becomes one for the bank's own; any other stays as it is. */
static const uint8_t *as_own(const uint8_t *sheet, size_t sheet_n, const uint8_t *bank, size_t bank_n, const uint8_t *frame, size_t frame_n,
                             uint8_t station)
{
    static uint8_t own[CEDARSKEIN_LONGEST_FRAME];
    uint16_t value;
    if (frame_n < 4 || CEDARSKEIN_LONGEST_FRAME < frame_n || frame[0] != station || __real_cedarskein_check_value(frame, frame_n) != 0)
        return frame;
    if (__real_cedarskein_bank_check(sheet, sheet_n, bank, bank_n) != 0)
        return frame;
    memcpy(own, frame, frame_n);
    own[0] = bank[2 * word_of(sheet + 16) + 1];
    value = __real_cedarskein_check_value(own, frame_n - 2);
    own[frame_n - 2] = (uint8_t)(value & 0xFF);
    own[frame_n - 1] = (uint8_t)(value >> 8);
    return own;
}

/* The same of any other station, where the bank's own is only written. */
static const uint8_t *as_own_where_only_written(const uint8_t *sheet, size_t sheet_n, const uint8_t *bank, size_t bank_n,
                                                const uint8_t *frame, size_t frame_n)
{
    if (frame_n == 0 || !is_taken(sheet, sheet_n) || access_of_place(sheet, word_of(sheet + 16)) != 2)
        return frame;
    return as_own(sheet, sheet_n, bank, bank_n, frame, frame_n, frame[0]);
}

/* A frame for station 0 stores what it would at the bank's own station. */
static void store_broadcast(const uint8_t *sheet, size_t sheet_n, uint8_t *bank, size_t bank_n, const uint8_t *ring, size_t ring_n,
                            const uint8_t *frame, size_t frame_n)
{
    const uint8_t *own = as_own(sheet, sheet_n, bank, bank_n, frame, frame_n, 0);
    uint8_t out[CEDARSKEIN_LEAST_OUT];
    uint32_t length, rate;
    if (own != frame)
        __real_cedarskein_answer(sheet, sheet_n, bank, bank_n, ring, ring_n, own, frame_n, out, sizeof out, &length, &rate);
}

/* ---- The ring, as the two calls on a frame are lent it ---- */

/* Whether a frame reads a record: one that starts there, with a right check. */
static int reads_record(const struct records *records, const uint8_t *frame, size_t frame_n)
{
    return frame_n == 8 && frame[1] == 0x03 && __real_cedarskein_check_value(frame, frame_n) == 0
        && is_record(records, word_of(frame + 2));
}

/* The ring with another number stored, or the newest record one place on: as a door would see it that reckons otherwise. */
static const uint8_t *other_ring(const uint8_t *ring, size_t ring_n, uint32_t newest, uint32_t stored)
{
    static uint8_t other[2 * (2 + 6600 * 47)];
    memcpy(other, ring, ring_n);
    other[0] = (uint8_t)(newest >> 8);
    other[1] = (uint8_t)newest;
    other[2] = (uint8_t)(stored >> 8);
    other[3] = (uint8_t)stored;
    return other;
}

/* The ring that a broken door answers from, where the ring is sound. */
static const uint8_t *ring_seen(const uint8_t *sheet, size_t sheet_n, const uint8_t *ring, size_t ring_n, const struct records *records)
{
    if (records->count == 0 || __real_cedarskein_ring_check(sheet, sheet_n, ring, ring_n) != 0)
        return ring;
    if (breach_is("record_off_by_one") && word_of(ring + 2) == records->count)
        return other_ring(ring, ring_n, (word_of(ring) + 1) % records->count, word_of(ring + 2));
    if (breach_is("record_round_is_missed") && word_of(ring) + 1 < word_of(ring + 2))
        return other_ring(ring, ring_n, records->count - 1, word_of(ring + 2));
    if (breach_is("record_beyond_is_answered") && word_of(ring + 2) < records->count && word_of(ring + 2) > 0)
        return other_ring(ring, ring_n, word_of(ring), word_of(ring + 2) + 1);
    if (breach_is("last_record_is_not_stored") && word_of(ring + 2) == records->count && records->count > 1)
        return other_ring(ring, ring_n, word_of(ring), word_of(ring + 2) - 1);
    return ring;
}

/* The count that a broken door takes a read of a record to have: 1. */
static const uint8_t *as_count_1(const struct records *records, const uint8_t *frame, size_t frame_n)
{
    static uint8_t one[8];
    uint16_t value;
    if (!reads_record(records, frame, frame_n))
        return frame;
    memcpy(one, frame, 4);
    one[4] = 0;
    one[5] = 1;
    value = __real_cedarskein_check_value(one, 6);
    one[6] = (uint8_t)(value & 0xFF);
    one[7] = (uint8_t)(value >> 8);
    return one;
}

/* A run from outside that a broken door ends in front of the records, and then answers. */
static const uint8_t *as_run_outside(const struct records *records, const uint8_t *frame, size_t *frame_n)
{
    static uint8_t front[CEDARSKEIN_LONGEST_FRAME];
    int reads = *frame_n == 8 && frame[1] == 0x03 && breach_is("read_stops_at_the_records");
    int writes = *frame_n > 8 && frame[1] == 0x10 && breach_is("write_stops_at_the_records");
    size_t n = *frame_n;
    uint16_t value;
    if (!(reads || writes) || n > sizeof front || __real_cedarskein_check_value(frame, n) != 0)
        return frame;
    if (!runs_into(records, word_of(frame + 2), word_of(frame + 4)) || (writes && frame[6] != 2 * word_of(frame + 4)))
        return frame;
    memcpy(front, frame, n);
    front[4] = 0;
    front[5] = (uint8_t)(records->first - word_of(frame + 2));
    front[6] = (uint8_t)(2 * front[5]);
    n = reads ? 8 : 9 + (size_t)front[6];
    value = __real_cedarskein_check_value(front, n - 2);
    front[n - 2] = (uint8_t)(value & 0xFF);
    front[n - 1] = (uint8_t)(value >> 8);
    *frame_n = n;
    return front;
}

/* The reply to a write or a clear at a record, as if it were done; or a clear there that is done without a word. */
static void spoil_write(const struct records *records, const uint8_t *frame, uint8_t *mark, uint8_t *out, uint32_t *length)
{
    uint16_t value;
    int taken = (frame[1] == 0x05 && breach_is("clear_at_a_record_is_taken"))
        || (frame[1] == 0x06 && breach_is("write_at_a_record_is_taken"));
    if (frame[1] == 0x10 && breach_is("long_write_at_a_record_is_taken"))
        taken = 1;
    if (out[1] != (frame[1] | 0x80) || out[2] != 2 || !is_record(records, word_of(frame + 2)))
        return;
    if (frame[1] == 0x05 && breach_is("clear_at_a_record_clears_the_mark"))
        *mark = 0;
    if (!taken)
        return;
    memcpy(out, frame, 6);
    value = __real_cedarskein_check_value(out, 6);
    out[6] = (uint8_t)(value & 0xFF);
    out[7] = (uint8_t)(value >> 8);
    *length = 8;
}

/* Error 03 where 02 belongs, or the other way round, for a read that starts at a record. */
static void spoil_code(uint8_t *out, uint8_t code)
{
    uint16_t value;
    out[2] = code;
    value = __real_cedarskein_check_value(out, 3);
    out[3] = (uint8_t)(value & 0xFF);
    out[4] = (uint8_t)(value >> 8);
}

/* The reply to a read of a record, right but for one thing. */
static void spoil_record(const struct records *records, const uint8_t *frame, size_t frame_n, uint8_t *out, uint32_t *length)
{
    uint32_t n = *length;
    uint16_t value;
    if (!reads_record(records, frame, frame_n))
        return;
    if (breach_is("record_count_48_is_an_address") && out[1] == 0x83 && out[2] == 3 && word_of(frame + 4) > 47)
        spoil_code(out, 2);
    if (breach_is("record_beyond_is_a_count") && out[1] == 0x83 && out[2] == 2)
        spoil_code(out, 3);
    if (!breach_is("record_of_one_word_short") || out[1] != 0x03 || n < 9)
        return;
    out[2] = (uint8_t)(out[2] - 2);
    value = __real_cedarskein_check_value(out, n - 4);
    out[n - 4] = (uint8_t)(value & 0xFF);
    out[n - 3] = (uint8_t)(value >> 8);
    *length = n - 2;
}

/* What an answer may not do to the ring, or read of it. */
static void spoil_ring(uint8_t *ring, size_t ring_n, uint32_t number)
{
    volatile uint8_t read = 0;
    if (breach_is("answer_writes_the_ring") && number == 0 && ring_n > 0)
        ring[ring_n - 1] ^= 1;
    if (breach_is("refused_answer_writes_the_ring") && number != 0 && ring_n > 0)
        ring[0] ^= 1;
    if (breach_is("answer_reads_behind_the_ring") && ring_n > 0)
        read = *(volatile const uint8_t *)(ring + ring_n);
    (void)read;
}

/* The refusals of a frame in another order, or one that is missed. No sheet has a ring of two bytes. */
static uint32_t other_refusal(uint32_t number, size_t ring_n, size_t out_n)
{
    if (breach_is("ring_behind_out") && number == 8 && out_n < CEDARSKEIN_LEAST_OUT)
        return 5;
    if (breach_is("ring_before_bank") && number == 4 && ring_n == 2)
        return 8;
    if (breach_is("small_out_is_silence") && number == 5)
        return 1;
    return number;
}

/* ---- Reads and writes of what is only written ---- */

/* What the two calls on a frame are lent. */
struct asked {
    const uint8_t *sheet;
    size_t sheet_n;
    const uint8_t *bank;
    size_t bank_n;
    const uint8_t *ring;
    size_t ring_n;
    const uint8_t *frame;
    size_t frame_n;
};

static struct asked asked_of(const uint8_t *sheet, size_t sheet_n, const uint8_t *bank, size_t bank_n, const uint8_t *ring, size_t ring_n,
                             const uint8_t *frame, size_t frame_n)
{
    struct asked asked = { 0, 0, 0, 0, 0, 0, 0, 0 };
    asked.sheet = sheet;
    asked.sheet_n = sheet_n;
    asked.bank = bank;
    asked.bank_n = bank_n;
    asked.ring = ring;
    asked.ring_n = ring_n;
    asked.frame = frame;
    asked.frame_n = frame_n;
    return asked;
}

/* The run of a read or a write that gets as far as its addresses, and its first address that is only written, or the one behind it. A read
 * is closed there where each address in front of it can be read. */
struct run {
    uint32_t first, end, at;
    int reads, writes, touches, is_closed_there;
};

static struct run run_of(const struct asked *a)
{
    struct run run = { 0, 0, 0, 0, 0, 0, 0 };
    uint32_t reason, address, side;
    if (__real_cedarskein_why(a->sheet, a->sheet_n, a->bank, a->bank_n, a->ring, a->ring_n, a->frame, a->frame_n, &reason, &address,
                              &side) != 0)
        return run;
    if ((reason != CEDARSKEIN_NO_REASON && reason != CEDARSKEIN_ADDRESS && reason != CEDARSKEIN_ITEM) || a->frame[1] == 0x05)
        return run;
    run.first = word_of(a->frame + 2);
    run.end = run.first + (a->frame[1] == 0x06 ? 1 : word_of(a->frame + 4));
    run.at = first_with(a->sheet, run.first, run.end, 2);
    run.reads = a->frame[1] == 0x03;
    run.writes = !run.reads;
    run.touches = run.at < run.end;
    run.is_closed_there = run.reads && run.touches && address == run.at;
    return run;
}

/* The sheet with other bounds for the items that are only written: any word, or for pairs of all 32 bits another end. */
static const uint8_t *with_bounds(const uint8_t *sheet, size_t sheet_n, int any_word, uint32_t pair_end)
{
    uint8_t *row = other_sheet + 2 * word_of(sheet + 8), *end = row + 12 * word_of(sheet + 6);
    memcpy(other_sheet, sheet, sheet_n);
    for (; row < end; row += 12) {
        uint32_t place = word_of(row + 2);
        if (access_of_place(sheet, place) != 2 || place == word_of(sheet + 16) || place == word_of(sheet + 18))
            continue;
        if (any_word && row[1] != 2) {
            put_word(row + 6, row[1] == 1 ? 0x8000 : 0);
            put_word(row + 10, row[1] == 1 ? 0x7FFF : 0xFFFF);
        }
        if (!any_word && row[1] == 2 && word_of(row + 8) == 0xFFFF) {
            put_word(row + 8, pair_end >> 16);
            put_word(row + 10, pair_end & 0xFFFF);
        }
    }
    return other_sheet;
}

/* The same frame for addresses at which no sheet here has any, so that it is refused by 02; or a read with another count. */
static const uint8_t *other_frame(const uint8_t *frame, size_t frame_n, uint32_t start, uint32_t second)
{
    static uint8_t other[CEDARSKEIN_LONGEST_FRAME];
    memcpy(other, frame, frame_n);
    put_word(other + 2, start);
    put_word(other + 4, second);
    seal(other, frame_n);
    return other;
}

/* A write that a broken door refuses. */
static int refuses_write(const struct asked *a, const struct run *run)
{
    int in_both = first_with(a->sheet, run->first, run->end, 3) != run->end;
    if (breach_is("write_where_only_written_is_refused"))
        return 1;
    if (breach_is("long_write_where_only_written_is_refused"))
        return a->frame[1] == 0x10;
    if (breach_is("write_over_written_neighbours_is_refused"))
        return in_both;
    return breach_is("half_where_only_written_is_refused") && a->frame[1] == 0x06 && run->first == 0x011B;
}

/* The sheet and the frame as a broken door sees them. */
static void see_otherwise(struct asked *a, const struct run *run)
{
    if (run->is_closed_there && breach_is("read_where_only_written_is_answered"))
        a->sheet = with_access(a->sheet, a->sheet_n, 2, 3);
    if (run->is_closed_there && run->first < run->at && breach_is("read_stops_where_only_written"))
        a->frame = other_frame(a->frame, a->frame_n, run->first, run->at - run->first);
    if (run->writes && refuses_write(a, run))
        a->frame = other_frame(a->frame, a->frame_n, 0xFFFF, word_of(a->frame + 4));
    if (run->writes && breach_is("item_that_is_only_written_is_not_judged"))
        a->sheet = with_bounds(a->sheet, a->sheet_n, 1, 0);
    if (run->writes && breach_is("full_pair_is_judged_with_sign"))
        a->sheet = with_bounds(a->sheet, a->sheet_n, 0, 0x7FFFFFFF);
    if (run->writes && breach_is("full_pair_lacks_its_last"))
        a->sheet = with_bounds(a->sheet, a->sheet_n, 0, 0xFFFFFFFE);
}

/* A read of what is only written: another code than 02, one that tells of what was written, or zeros. */
static void spoil_closed_read(const struct asked *a, const struct run *run, uint8_t *out, uint32_t *length)
{
    uint32_t held = word_of(a->bank + 2 * place_of(a->sheet, run->at)), words = run->end - run->first;
    if (out[1] != 0x83)
        return;
    if (breach_is("read_where_only_written_is_error_03"))
        spoil_code(out, 3);
    if (breach_is("read_where_only_written_is_error_01"))
        spoil_code(out, 1);
    if (breach_is("read_tells_whether_one_was_written") && held != 0)
        spoil_code(out, 3);
    if (!breach_is("read_where_only_written_brings_zeros") || first_with(a->sheet, run->first, run->end, 0) != run->end)
        return;
    out[1] = 0x03;
    out[2] = (uint8_t)(2 * words);
    memset(out + 3, 0, 2 * words);
    *length = 5 + 2 * words;
    seal(out, *length);
}

/* A write of what is only written, stored otherwise, or done though a part of it is only read. */
static void spoil_written(const struct asked *a, const struct run *run, uint8_t *bank, const uint8_t *before, uint8_t *out, uint32_t *length)
{
    uint8_t *at = bank + 2 * place_of(a->sheet, run->at), upper[2];
    size_t n = 2 * (size_t)(first_with(a->sheet, run->at, run->end, 3) - run->at);
    int is_error = (out[1] & 0x80) != 0;
    if (breach_is("what_is_only_written_is_not_stored") && !is_error)
        memcpy(at, before + (at - bank), n);
    if (breach_is("in_front_of_a_bad_item_is_not_stored_where_only_written") && is_error && out[2] == 3)
        memcpy(at, before + (at - bank), n);
    if (breach_is("written_one_place_on_where_only_written") && !is_error) {
        memmove(at + 2, at, n);
        memcpy(at, before + (at - bank), 2);
    }
    if (breach_is("halves_are_swapped_where_only_written") && !is_error && run->first == 0x011B && run->end == 0x011D) {
        memcpy(upper, at, 2);
        memcpy(at, at + 2, 2);
        memcpy(at + 2, upper, 2);
    }
    if (!breach_is("write_from_write_only_to_read_only_is_done") || !is_error || out[2] != 2
        || first_with(a->sheet, run->first, run->end, 0) != run->end || first_with(a->sheet, run->first, run->end, 1) == run->end)
        return;
    memcpy(out, a->frame, 6);
    *length = 8;
    seal(out, 8);
}

/* Registers behind those that are only written, at the places that they had before there were any. */
static void spoil_places(const struct asked *a, const struct run *run, uint8_t *bank, const uint8_t *before, uint8_t *out, uint32_t length)
{
    if (run->touches || (out[1] & 0x80) != 0 || area_with(a->sheet, run->first) == NULL)
        return;
    if (run->writes && breach_is("write_by_the_places_of_before"))
        store_as_before(a->sheet, bank, before, run->first, 2 * (size_t)(run->end - run->first));
    if (run->writes || !breach_is("read_by_the_places_of_before"))
        return;
    memcpy(out + 3, bank + 2 * (place_of(a->sheet, run->first) - places_more(a->sheet, run->first)), length - 5);
    seal(out, length);
}

/* The answer of the archive, right but where a run has to do with what is only written. */
static uint32_t answer_otherwise(struct asked a, uint8_t *bank, uint8_t *out, size_t out_n, uint32_t *length, uint32_t *rate)
{
    struct asked seen = a;
    struct run run = run_of(&a);
    uint8_t before[CEDARSKEIN_LONGEST_BANK];
    uint32_t number;
    if (a.bank_n > 0 && a.bank_n <= sizeof before)
        memcpy(before, bank, a.bank_n);
    if (run.touches)
        see_otherwise(&seen, &run);
    number = __real_cedarskein_answer(seen.sheet, seen.sheet_n, bank, seen.bank_n, seen.ring, seen.ring_n, seen.frame, seen.frame_n, out,
                                      out_n, length, rate);
    if (number == 0 && run.is_closed_there)
        spoil_closed_read(&a, &run, out, length);
    if (number == 0 && run.touches && run.writes)
        spoil_written(&a, &run, bank, before, out, length);
    if (number == 0 && (run.reads || run.writes))
        spoil_places(&a, &run, bank, before, out, *length);
    if (breach_is("rate_where_only_written_is_the_next") && number == 0 && access_of_place(a.sheet, word_of(a.sheet + 18)) == 2)
        *rate = bank[2 * word_of(a.sheet + 18) + 1];
    if (breach_is("answer_takes_version_3") && number == 2 && a.sheet_n > 23 && a.sheet_n <= sizeof other_sheet && word_of(a.sheet) == 3)
        return is_taken(with_version(a.sheet, a.sheet_n, 2), a.sheet_n) ? 1 : 2;
    if (breach_is("answer_at_a_bank_of_78_with_presets") && number == 3 && a.bank_n == 78 && a.sheet_n == 396)
        return 1;
    if (breach_is("answer_at_a_bank_bad_where_only_written") && bad_where_only_written(a.sheet, a.sheet_n, bank, a.bank_n, number))
        return 1;
    return number;
}

uint32_t __wrap_cedarskein_answer(const uint8_t *sheet, size_t sheet_n, uint8_t *bank, size_t bank_n, const uint8_t *ring,
                                  size_t ring_n, const uint8_t *frame, size_t frame_n, uint8_t *out, size_t out_n, uint32_t *length,
                                  uint32_t *rate)
{
    struct records records = records_of(sheet, sheet_n);
    uint8_t bank_before[CEDARSKEIN_LONGEST_BANK];
    uint32_t number;
    if (breach_is("frame_of_101_is_answered") && frame_n == 101) {
        frame = shortened(frame);
        frame_n = 100;
    }
    if (breach_is("station_0_is_answered"))
        frame = as_own(sheet, sheet_n, bank, bank_n, frame, frame_n, 0);
    if (breach_is("station_255_is_answered"))
        frame = as_own(sheet, sheet_n, bank, bank_n, frame, frame_n, 255);
    if (breach_is("station_where_only_written_is_not_compared"))
        frame = as_own_where_only_written(sheet, sheet_n, bank, bank_n, frame, frame_n);
    if (breach_is("broadcast_is_stored"))
        store_broadcast(sheet, sheet_n, bank, bank_n, ring, ring_n, frame, frame_n);
    if (breach_is("frame_is_written") && frame_n > 0)
        ((uint8_t *)(uintptr_t)frame)[frame_n - 1] ^= 1;
    if (breach_is("record_count_2_is_answered"))
        frame = as_count_1(&records, frame, frame_n);
    frame = as_run_outside(&records, frame, &frame_n);
    if (bank_n > 0 && bank_n <= sizeof bank_before)
        memcpy(bank_before, bank, bank_n);
    number = answer_otherwise(asked_of(sheet, sheet_n, bank, bank_n, ring_seen(sheet, sheet_n, ring, ring_n, &records), ring_n, frame,
                                       frame_n), bank, out, out_n, length, rate);
    if (breach_is("nothing_is_stored") && number == 0)
        memcpy(bank, bank_before, bank_n);
    if (number == 0) {
        spoil_reply(out, out_n, length, rate);
        spoil_record(&records, frame, frame_n, out, length);
        spoil_write(&records, frame, bank + bank_n - 1, out, length);
    } else {
        spoil_refusal(bank, bank_n, out, out_n, length, rate);
    }
    spoil_ring((uint8_t *)(uintptr_t)ring, ring_n, number);
    return other_refusal(number, ring_n, out_n);
}

/* ---- The two calls on a ring ---- */

/* What a check of a ring may not do to what it is lent, or read of it. */
static void spoil_checked(uint8_t *sheet, size_t sheet_n, uint8_t *ring, size_t ring_n)
{
    volatile uint8_t read = 0;
    if (breach_is("ring_check_writes_the_sheet") && sheet_n > 0)
        sheet[sheet_n - 1] ^= 1;
    if (breach_is("ring_check_writes_the_ring") && ring_n > 0)
        ring[ring_n - 1] ^= 1;
    if (breach_is("ring_check_reads_behind_the_ring") && ring_n > 0)
        read = *(volatile const uint8_t *)(ring + ring_n);
    (void)read;
}

uint32_t __wrap_cedarskein_ring_check(const uint8_t *sheet, size_t sheet_n, const uint8_t *ring, size_t ring_n)
{
    struct records records = records_of(sheet, sheet_n);
    uint32_t number = __real_cedarskein_ring_check(sheet, sheet_n, ring, ring_n);
    int fits = records.count != 0 && ring_n == 2 * (2 + (size_t)records.count * records.words);
    spoil_checked((uint8_t *)(uintptr_t)sheet, sheet_n, (uint8_t *)(uintptr_t)ring, ring_n);
    if (breach_is("ring_at_place_n_is_sound") && number == 8 && fits && word_of(ring) == records.count && word_of(ring + 2) <= records.count)
        return 0;
    if (breach_is("ring_above_n_is_sound") && number == 8 && fits && word_of(ring) < records.count && word_of(ring + 2) > records.count)
        return 0;
    if (breach_is("empty_ring_elsewhere_is_sound") && number == 8 && fits && word_of(ring + 2) == 0 && word_of(ring) < records.count)
        return 0;
    if (breach_is("ring_off_its_round_is_refused") && number == 0 && fits && word_of(ring + 2) != 0
        && word_of(ring + 2) < records.count && word_of(ring) + 1 != word_of(ring + 2))
        return 8;
    if (breach_is("longer_ring_is_sound") && number == 8 && records.count != 0 && ring_n == 2 * (2 + (size_t)records.count * records.words) + 1)
        return 0;
    if (breach_is("ring_without_records_is_sound") && number == 8 && sheet[23] == 0)
        return 0;
    return number;
}

/* An addition, right but for one thing. */
static void spoil_added(uint8_t *ring, const struct records *records, const uint8_t *before)
{
    uint32_t stored = word_of(before + 2);
    uint8_t *at = ring + 4 + 2 * (size_t)word_of(ring) * records->words;
    if (breach_is("added_number_goes_past_n") && stored == records->count)
        ring[3]++;
    if (breach_is("oldest_is_not_overwritten") && stored == records->count)
        memcpy(ring, before, 4);
    if (breach_is("added_number_stays") && stored == 0)
        ring[3] = 0;
    if (breach_is("added_last_word_is_missed"))
        at[2 * records->words - 1] ^= 1;
    if (breach_is("added_writes_the_next_place") && records->count > 1)
        ring[4 + 2 * (size_t)((word_of(ring) + 1) % records->count) * records->words] ^= 1;
    if (breach_is("added_behind_the_ring"))
        ring[4 + 2 * (size_t)records->count * records->words] ^= 1;
}

/* The same of an addition: sheet and record are only read, and a record that is too short no further than it goes. */
static void spoil_add_lent(uint8_t *sheet, size_t sheet_n, uint8_t *record, size_t record_n, size_t asked)
{
    volatile uint8_t read = 0;
    if (breach_is("add_writes_the_sheet") && sheet_n > 0)
        sheet[sheet_n - 1] ^= 1;
    if (breach_is("add_writes_the_record") && record_n > 0)
        record[record_n - 1] ^= 1;
    if (breach_is("add_reads_behind_the_record") && record_n > 0 && record_n == asked)
        read = *(volatile const uint8_t *)(record + record_n);
    if (breach_is("short_record_is_read_whole") && record_n > 0 && record_n < asked)
        read = *(volatile const uint8_t *)(record + asked - 1);
    (void)read;
}

uint32_t __wrap_cedarskein_add_record(const uint8_t *sheet, size_t sheet_n, uint8_t *ring, size_t ring_n, const uint8_t *record,
                                      size_t record_n)
{
    struct records records = records_of(sheet, sheet_n);
    uint8_t before[4] = { 0, 0, 0, 0 };
    uint32_t number;
    if (ring_n >= sizeof before)
        memcpy(before, ring, sizeof before);
    if (breach_is("longer_record_is_cut") && records.count != 0 && record_n > 2 * (size_t)records.words)
        record_n = 2 * (size_t)records.words;
    number = __real_cedarskein_add_record(sheet, sheet_n, ring, ring_n, record, record_n);
    spoil_add_lent((uint8_t *)(uintptr_t)sheet, sheet_n, (uint8_t *)(uintptr_t)record, record_n, 2 * (size_t)records.words);
    if (number == 0)
        spoil_added(ring, &records, before);
    if (breach_is("refused_record_is_written") && number != 0 && ring_n > 0)
        ring[ring_n - 1] ^= 1;
    if (breach_is("record_length_before_ring") && number == 8 && record_n != 2 * (size_t)records.words)
        return 7;
    if (breach_is("no_record_area_is_8") && number == 2 && __real_cedarskein_sheet_check(sheet, sheet_n) == 0)
        return 8;
    return number;
}

/* Reasons told out of their order, or one beside the right one. */
static void spoil_reason(const uint8_t *frame, size_t frame_n, uint32_t *reason, uint32_t *address, uint32_t *side)
{
    static const uint8_t functions[4] = { 0x03, 0x05, 0x06, 0x10 };
    int known = frame_n > 1 && memchr(functions, frame[1], sizeof functions) != NULL;
    if (breach_is("why_broadcast_has_no_reason") && *reason == CEDARSKEIN_STATION && frame[0] == 0)
        *reason = CEDARSKEIN_NO_REASON;
    if (breach_is("why_reason_off_by_one") && *reason == CEDARSKEIN_CLEAR_VALUE) {
        *reason = CEDARSKEIN_ITEM;
        *side = CEDARSKEIN_TOO_HIGH;
    }
    if (breach_is("why_function_before_station") && *reason == CEDARSKEIN_STATION && !known)
        *reason = CEDARSKEIN_FUNCTION;
    if (breach_is("why_length_before_function") && *reason == CEDARSKEIN_FUNCTION && frame_n != 8)
        *reason = CEDARSKEIN_BODY_LENGTH;
    if (breach_is("why_check_before_long") && *reason == CEDARSKEIN_TOO_LONG && __real_cedarskein_check_value(frame, frame_n) != 0)
        *reason = CEDARSKEIN_CHECK;
    if (breach_is("why_short_is_check") && *reason == CEDARSKEIN_TOO_SHORT && frame_n > 1)
        *reason = CEDARSKEIN_CHECK;
    if (breach_is("why_byte_count_is_length") && *reason == CEDARSKEIN_COUNT && frame[1] == 0x10 && word_of(frame + 4) != 0)
        *reason = CEDARSKEIN_BODY_LENGTH;
    if (breach_is("why_value_before_clear_address") && *reason == CEDARSKEIN_ADDRESS && frame[1] == 0x05 && word_of(frame + 4) != 0) {
        *reason = CEDARSKEIN_CLEAR_VALUE;
        *address = 0;
    }
    if (breach_is("why_48_is_an_address") && *reason == CEDARSKEIN_COUNT && frame[1] == 0x03 && word_of(frame + 4) > 47) {
        *reason = CEDARSKEIN_ADDRESS;
        *address = word_of(frame + 2);
    }
}

/* A 10 of which only the words in front of the first bad address are asked about. */
static void spoil_long_write(const uint8_t *sheet, size_t sheet_n, const uint8_t *bank, size_t bank_n, const uint8_t *ring,
                             size_t ring_n, const uint8_t *frame, uint32_t *reason, uint32_t *address, uint32_t *side)
{
    uint8_t front[CEDARSKEIN_LONGEST_FRAME];
    uint32_t words = *address - word_of(frame + 2), front_reason, front_address, front_side;
    size_t n = 7 + 2 * (size_t)words;
    uint16_t value;
    memcpy(front, frame, n);
    front[5] = (uint8_t)words;
    front[6] = (uint8_t)(2 * words);
    value = __real_cedarskein_check_value(front, n);
    front[n] = (uint8_t)(value & 0xFF);
    front[n + 1] = (uint8_t)(value >> 8);
    __real_cedarskein_why(sheet, sheet_n, bank, bank_n, ring, ring_n, front, n + 2, &front_reason, &front_address, &front_side);
    if (front_reason != CEDARSKEIN_ITEM)
        return;
    *reason = front_reason;
    *address = front_address;
    *side = front_side;
}

/* Another address than the one to tell. */
static void spoil_address(const uint8_t *frame, uint32_t *reason, uint32_t *address)
{
    if (breach_is("why_address_is_cut"))
        *address &= 0xFFFF;
    if (breach_is("why_address_is_the_start") && *reason == CEDARSKEIN_ADDRESS)
        *address = word_of(frame + 2);
    if (breach_is("why_address_one_behind") && *reason == CEDARSKEIN_ADDRESS)
        *address += 1;
    if (breach_is("why_clear_has_no_address") && *reason == CEDARSKEIN_ADDRESS && frame[1] == 0x05)
        *address = 0;
    if (breach_is("why_item_at_its_lower_half") && *reason == CEDARSKEIN_ITEM && *address < word_of(frame + 2))
        *address += 1;
    if (breach_is("why_item_is_the_start") && *reason == CEDARSKEIN_ITEM)
        *address = word_of(frame + 2);
    if (breach_is("why_count_has_an_address") && *reason == CEDARSKEIN_COUNT)
        *address = word_of(frame + 2);
    if (breach_is("why_address_written_wide"))
        address[1] = 0;
}

/* What is written or read beside the three numbers. */
static void spoil_lent(uint8_t *bank, size_t bank_n, uint8_t *frame, size_t frame_n)
{
    volatile uint8_t read = 0;
    if (breach_is("why_writes_the_bank") && bank_n > 0)
        bank[bank_n - 1] ^= 1;
    if (breach_is("why_writes_the_frame") && frame_n > 0)
        frame[frame_n - 1] ^= 1;
    if (breach_is("why_reads_behind_the_frame") && frame_n > 0)
        read = *(volatile const uint8_t *)(frame + frame_n);
    (void)read;
}

static void spoil_refused_why(uint32_t reason_before, uint32_t side_before, uint32_t *reason, uint32_t *address, uint32_t *side)
{
    if (breach_is("refused_why_has_a_reason"))
        *reason = CEDARSKEIN_TOO_SHORT;
    if (breach_is("refused_why_has_an_address"))
        *address = 1;
    if (breach_is("refused_why_leaves_the_reason"))
        *reason = reason_before;
    if (breach_is("refused_why_has_a_side"))
        *side = CEDARSKEIN_TOO_LOW;
    if (breach_is("refused_why_leaves_the_side"))
        *side = side_before;
}

/* What is told of a read that starts at a record. */
static void spoil_record_reason(const struct records *records, const uint8_t *frame, size_t frame_n, uint32_t *reason, uint32_t *address)
{
    if (!reads_record(records, frame, frame_n))
        return;
    if (breach_is("why_record_count_2_is_an_address") && *reason == CEDARSKEIN_COUNT && word_of(frame + 4) == 2) {
        *reason = CEDARSKEIN_ADDRESS;
        *address = word_of(frame + 2) + 1;
    }
    if (breach_is("why_record_beyond_is_a_count") && *reason == CEDARSKEIN_ADDRESS) {
        *reason = CEDARSKEIN_COUNT;
        *address = 0;
    }
    if (breach_is("why_record_beyond_has_no_reason") && *reason == CEDARSKEIN_ADDRESS) {
        *reason = CEDARSKEIN_NO_REASON;
        *address = 0;
    }
}

/* What is told of a run that gets to the records from outside, and of a write or a clear at one. */
static void spoil_outside_reason(const struct records *records, const uint8_t *frame, uint32_t *reason, uint32_t *address)
{
    int none = 0;
    if (*reason != CEDARSKEIN_ADDRESS)
        return;
    if (breach_is("why_run_into_records_has_no_reason"))
        none = *address == records->first && *address > word_of(frame + 2);
    if (breach_is("why_clear_at_a_record_has_no_reason"))
        none = frame[1] == 0x05 && is_record(records, word_of(frame + 2));
    if (breach_is("why_write_at_a_record_has_no_reason"))
        none = (frame[1] == 0x06 || frame[1] == 0x10) && is_record(records, word_of(frame + 2));
    if (!none)
        return;
    *reason = CEDARSKEIN_NO_REASON;
    *address = 0;
}

/* ---- The side, as a door would tell it that judges otherwise ---- */

static uint32_t pair_of(const uint8_t *bytes)
{
    return word_of(bytes) << 16 | word_of(bytes + 2);
}

/* The row of the item whose first address was told. */
static const uint8_t *item_row(const uint8_t *sheet, uint32_t address)
{
    const uint8_t *row = sheet + 24 + 8 * word_of(sheet + 2);
    uint32_t place = place_of(sheet, address);
    while (word_of(row + 2) != place)
        row += 12;
    return row;
}

/* What a write sends of an item: the words from its first one on, and how many words of the write that are at most. */
struct sent {
    const uint8_t *words;
    uint32_t left;
    int is_lower_half;
};

static struct sent sent_of(const uint8_t *frame, uint32_t address)
{
    struct sent sent;
    uint32_t start = word_of(frame + 2), count = frame[1] == 0x06 ? 1 : word_of(frame + 4);
    uint32_t in_front = address < start ? 0 : address - start;
    sent.words = frame + (frame[1] == 0x06 ? 4 : 7) + 2 * in_front;
    sent.left = count - in_front;
    sent.is_lower_half = address < start;
    return sent;
}

/* Of a value that misses one end. */
static uint32_t side_by(uint32_t value, uint32_t low)
{
    return value < low ? CEDARSKEIN_TOO_LOW : CEDARSKEIN_TOO_HIGH;
}

/* A pair of which one half is sent, judged by that alone. */
static void spoil_half_side(const struct sent *sent, uint32_t low, uint32_t *side)
{
    uint32_t word = word_of(sent->words);
    if (breach_is("why_side_of_the_half_sent"))
        *side = side_by(word, low);
    if (breach_is("why_side_by_halves"))
        *side = side_by(word, sent->is_lower_half ? low & 0xFFFF : low >> 16);
}

/* An item of which all is sent, judged as one of another kind. */
static void spoil_kind_side(uint32_t kind, const uint8_t *words, uint32_t low, uint32_t *side)
{
    if (breach_is("why_side_without_sign") && kind == 1)
        *side = side_by(word_of(words), low);
    if (breach_is("why_side_of_a_word_with_sign") && kind == 0)
        *side = side_by(word_of(words) ^ 0x8000, low ^ 0x8000);
    if (breach_is("why_side_of_a_pair_with_sign") && kind == 2)
        *side = side_by(pair_of(words) ^ 0x80000000, low ^ 0x80000000);
    if (breach_is("why_side_of_a_pair_lower_word_first") && kind == 2)
        *side = side_by(word_of(words + 2) << 16 | word_of(words), low);
}

/* A first bad item, told with another side than its own. */
static void spoil_item_side(const uint8_t *sheet, const uint8_t *frame, uint32_t address, uint32_t *side)
{
    const uint8_t *row = item_row(sheet, address);
    struct sent sent = sent_of(frame, address);
    if (row[1] == 2 && (sent.is_lower_half || sent.left == 1))
        spoil_half_side(&sent, pair_of(row + 4), side);
    else
        spoil_kind_side(row[1], sent.words, pair_of(row + 4), side);
    if (breach_is("why_side_is_swapped"))
        *side = CEDARSKEIN_TOO_LOW + CEDARSKEIN_TOO_HIGH - *side;
    if (breach_is("why_item_has_no_side"))
        *side = CEDARSKEIN_NO_SIDE;
}

/* The words of a write behind its first bad item, asked about on their own: where one of them is bad too, its side. */
static void spoil_first_side(const uint8_t *sheet, size_t sheet_n, const uint8_t *bank, size_t bank_n, const uint8_t *ring,
                             size_t ring_n, const uint8_t *frame, uint32_t address, uint32_t *side)
{
    uint8_t rest[CEDARSKEIN_LONGEST_FRAME] = { frame[0], 0x10 };
    struct sent sent = sent_of(frame, address);
    uint32_t taken = item_row(sheet, address)[1] == 2 && !sent.is_lower_half ? 2 : 1;
    uint32_t rest_reason, rest_address, rest_side, start = address + taken + sent.is_lower_half;
    size_t n = 7 + 2 * (size_t)(sent.left - taken);
    uint16_t value;
    if (sent.left <= taken)
        return;
    rest[2] = (uint8_t)(start >> 8);
    rest[3] = (uint8_t)start;
    rest[5] = (uint8_t)(sent.left - taken);
    rest[6] = (uint8_t)(2 * rest[5]);
    memcpy(rest + 7, sent.words + 2 * taken, rest[6]);
    value = __real_cedarskein_check_value(rest, n);
    rest[n] = (uint8_t)(value & 0xFF);
    rest[n + 1] = (uint8_t)(value >> 8);
    __real_cedarskein_why(sheet, sheet_n, bank, bank_n, ring, ring_n, rest, n + 2, &rest_reason, &rest_address, &rest_side);
    if (rest_reason == CEDARSKEIN_ITEM)
        *side = rest_side;
}

/* A side where there is none, or none where there is one; and what is written beside it. */
static void spoil_side(uint32_t reason, uint32_t side_before, uint32_t *side)
{
    if (breach_is("why_side_is_not_written") && reason == CEDARSKEIN_ITEM)
        *side = side_before;
    if (breach_is("why_leaves_the_side") && reason != CEDARSKEIN_ITEM)
        *side = side_before;
    if (breach_is("why_no_reason_has_a_side") && reason == CEDARSKEIN_NO_REASON)
        *side = CEDARSKEIN_TOO_LOW;
    if (breach_is("why_clear_value_has_a_side") && reason == CEDARSKEIN_CLEAR_VALUE)
        *side = CEDARSKEIN_TOO_LOW;
    if (breach_is("why_side_written_wide"))
        side[1] = 0;
}

/* What is told of a run that touches what is only written. */
static void spoil_touching_reason(const struct asked *a, uint32_t *reason, uint32_t *address)
{
    struct run run = run_of(a);
    if (!run.touches)
        return;
    if (breach_is("why_write_where_only_written_is_an_address") && run.writes && *reason == CEDARSKEIN_NO_REASON) {
        *reason = CEDARSKEIN_ADDRESS;
        *address = run.at;
    }
    if (!run.is_closed_there)
        return;
    if (breach_is("why_read_where_only_written_tells_its_end"))
        *address = word_of(area_with(a->sheet, run.at) + 2);
    if (breach_is("why_read_where_only_written_tells_its_area"))
        *address = word_of(area_with(a->sheet, run.at));
    if (breach_is("why_read_where_only_written_tells_the_start"))
        *address = run.first;
    if (breach_is("why_tells_whether_one_was_written") && word_of(a->bank + 2 * place_of(a->sheet, run.at)) != 0)
        *address += 1;
    if (breach_is("why_read_where_only_written_has_no_reason")) {
        *reason = CEDARSKEIN_NO_REASON;
        *address = 0;
    }
    if (breach_is("why_read_where_only_written_is_a_count")) {
        *reason = CEDARSKEIN_COUNT;
        *address = 0;
    }
}

uint32_t __wrap_cedarskein_why(const uint8_t *sheet, size_t sheet_n, const uint8_t *bank, size_t bank_n, const uint8_t *ring,
                               size_t ring_n, const uint8_t *frame, size_t frame_n, uint32_t *reason, uint32_t *address,
                               uint32_t *side)
{
    struct asked asked = asked_of(sheet, sheet_n, bank, bank_n, ring, ring_n, frame, frame_n);
    struct records records = records_of(sheet, sheet_n);
    uint32_t reason_before = *reason, address_before = *address, side_before = *side;
    uint32_t number = __real_cedarskein_why(sheet, sheet_n, bank, bank_n, ring, ring_n, frame, frame_n, reason, address, side);
    spoil_lent((uint8_t *)(uintptr_t)bank, bank_n, (uint8_t *)(uintptr_t)frame, frame_n);
    if (breach_is("why_writes_the_ring") && ring_n > 0)
        ((uint8_t *)(uintptr_t)ring)[ring_n - 1] ^= 1;
    if (breach_is("why_leaves_the_address") && *address == 0)
        *address = address_before;
    if (breach_is("why_size_before_sheet") && number == 2 && sheet_n > 12 && bank_n != 2 * word_of(sheet + 10) + 2)
        return 3;
    if (breach_is("why_of_an_unsound_bank") && number == 4)
        return 0;
    if (breach_is("why_of_a_bad_ring") && number == 8)
        return 0;
    if (breach_is("why_of_a_bank_bad_where_only_written") && bad_where_only_written(sheet, sheet_n, bank, bank_n, number))
        return 0;
    if (breach_is("why_item_before_address") && *reason == CEDARSKEIN_ADDRESS && frame[1] == 0x10)
        spoil_long_write(sheet, sheet_n, bank, bank_n, ring, ring_n, frame, reason, address, side);
    if (breach_is("why_side_of_a_later_item") && *reason == CEDARSKEIN_ITEM)
        spoil_first_side(sheet, sheet_n, bank, bank_n, ring, ring_n, frame, *address, side);
    if (number == 0 && *reason == CEDARSKEIN_ITEM)
        spoil_item_side(sheet, frame, *address, side);
    if (number == 0) {
        spoil_side(*reason, side_before, side);
        spoil_reason(frame, frame_n, reason, address, side);
        spoil_record_reason(&records, frame, frame_n, reason, address);
        spoil_outside_reason(&records, frame, reason, address);
        spoil_touching_reason(&asked, reason, address);
        spoil_address(frame, reason, address);
    } else {
        spoil_refused_why(reason_before, side_before, reason, address, side);
    }
    return number;
}

/* ---- The box that asks ---- */

static int orders_read(uint32_t order)
{
    return order == CEDARSKEIN_READ || order == CEDARSKEIN_RECORD;
}

/* What both calls are told of an order. */
struct order {
    uint32_t order, station, address, number;
    size_t values_n;
};

/* The number of an order that has no frame, to a broken door that cuts it to the width that a frame has for it. */
static void cut_order(struct order *order)
{
    if (breach_is("order_is_cut"))
        order->order &= 0xFF;
    if (breach_is("order_station_is_cut"))
        order->station &= 0xFF;
    if (breach_is("order_address_is_cut"))
        order->address &= 0xFFFF;
    if (breach_is("order_value_is_cut") && order->order == CEDARSKEIN_WRITE)
        order->number &= 0xFFFF;
    if (breach_is("order_count_is_cut") && orders_read(order->order))
        order->number &= 0xFFFF;
    if (breach_is("order_values_are_cut") && order->order == CEDARSKEIN_WRITES)
        order->values_n &= 0xFFFF;
    if (breach_is("odd_values_are_cut") && order->order == CEDARSKEIN_WRITES && order->values_n > 1)
        order->values_n &= ~(size_t)1;
}

/* One beyond a limit, which a broken door takes as if it were the limit: the frame that it builds is the limit's. */
static void stretch_order(struct order *order)
{
    size_t words = order->order == CEDARSKEIN_WRITES ? order->values_n / 2 : order->order == CEDARSKEIN_READ ? order->number : 1;
    if (breach_is("order_5_is_taken") && order->order == 5)
        order->order = CEDARSKEIN_CLEAR;
    if (breach_is("order_for_station_0_is_taken") && order->station == 0)
        order->station = 1;
    if (breach_is("order_for_station_248_is_taken") && order->station == 248)
        order->station = 247;
    if (breach_is("read_of_48_is_taken") && order->order == CEDARSKEIN_READ && order->number == 48)
        order->number = 47;
    if (breach_is("record_of_48_is_taken") && order->order == CEDARSKEIN_RECORD && order->number == 48)
        order->number = 47;
    if (breach_is("read_of_0_is_taken") && order->order == CEDARSKEIN_READ && order->number == 0)
        order->number = 1;
    if (breach_is("record_of_0_is_taken") && order->order == CEDARSKEIN_RECORD && order->number == 0)
        order->number = 1;
    if (breach_is("values_46_are_taken") && order->order == CEDARSKEIN_WRITES && order->values_n == 92)
        order->values_n = 90;
    if (breach_is("run_to_10000_is_taken") && order->address <= 0xFFFF && words <= 47 && order->address + words == 0x10001)
        order->address -= 1;
}

/* The other way round: one at a limit, which a broken door refuses. */
static int refuses_at_limit(const struct order *order)
{
    int writes = order->order == CEDARSKEIN_WRITES;
    if (breach_is("order_for_station_247_is_refused") && order->station == 247)
        return 1;
    if (breach_is("read_of_47_is_refused") && order->order == CEDARSKEIN_READ && order->number == 47)
        return 1;
    if (breach_is("record_at_ffff_is_a_run") && order->order == CEDARSKEIN_RECORD && order->address + order->number > 0x10000)
        return 1;
    if (breach_is("values_45_are_refused") && writes && order->values_n == 90)
        return 1;
    if (breach_is("run_to_ffff_is_refused") && writes && order->address + order->values_n / 2 == 0x10000)
        return 1;
    if (breach_is("number_of_writes_is_looked_at") && writes && order->number > 0xFFFF)
        return 1;
    if (breach_is("number_of_a_clear_is_looked_at") && order->order == CEDARSKEIN_CLEAR && order->number > 0xFFFF)
        return 1;
    return breach_is("values_of_a_read_are_looked_at") && order->order == CEDARSKEIN_READ && order->values_n % 2 == 1;
}

/* The order as a broken door sees it, or one of none of the five where it refuses. */
static struct order order_seen(uint32_t kind, uint32_t station, uint32_t address, uint32_t number, size_t values_n)
{
    struct order order = { 0, 0, 0, 0, 0 };
    order.order = kind;
    order.station = station;
    order.address = address;
    order.number = number;
    order.values_n = values_n;
    cut_order(&order);
    stretch_order(&order);
    if (refuses_at_limit(&order))
        order.order = 0xFFFFFFFF;
    return order;
}

/* A query with another word in it, its check made right. */
static void spoil_query(const struct order *order, uint8_t *out, uint32_t *length)
{
    int spoilt = 1;
    if (breach_is("query_of_a_clear_has_ff00") && order->order == CEDARSKEIN_CLEAR)
        out[4] = 0xFF;
    else if (breach_is("query_of_a_record_has_its_words") && order->order == CEDARSKEIN_RECORD)
        out[5] = (uint8_t)order->number;
    else if (breach_is("query_of_one_value_by_06") && order->order == CEDARSKEIN_WRITES && order->values_n == 2) {
        out[1] = 0x06;
        memmove(out + 4, out + 7, 2);
        *length = 8;
    } else if (breach_is("query_address_lower_byte_first")) {
        uint8_t upper = out[2];
        out[2] = out[3];
        out[3] = upper;
    } else if (breach_is("query_values_lower_byte_first") && order->order == CEDARSKEIN_WRITES) {
        uint8_t upper = out[7];
        out[7] = out[8];
        out[8] = upper;
    } else if (breach_is("query_byte_count_is_the_count") && order->order == CEDARSKEIN_WRITES)
        out[6] = out[5];
    else if (breach_is("query_last_value_is_missed") && order->order == CEDARSKEIN_WRITES)
        out[*length - 3] ^= 1;
    else
        spoilt = 0;
    if (spoilt)
        seal(out, *length);
}

/* What is written or read beside the query. */
static void spoil_query_lent(uint32_t number, const uint8_t *values, size_t values_n, uint8_t *out, size_t out_n, uint32_t *length)
{
    volatile uint8_t read = 0;
    if (breach_is("query_writes_behind_itself") && number == 0)
        out[*length] ^= 1;
    if (breach_is("query_writes_the_values") && values_n > 0 && number == 0)
        ((uint8_t *)(uintptr_t)values)[0] ^= 1;
    if (breach_is("query_reads_behind_the_values") && values_n > 0)
        read = *(volatile const uint8_t *)(values + values_n);
    if (breach_is("query_reads_values_of_no_use") && values_n > 0)
        read = *(volatile const uint8_t *)values;
    if (breach_is("refused_query_writes_out") && number != 0 && out_n > 0)
        out[0] ^= 1;
    if (breach_is("query_length_written_wide"))
        length[1] = 0;
    (void)read;
}

uint32_t __wrap_cedarskein_query(uint32_t order, uint32_t station, uint32_t address, uint32_t number, const uint8_t *values,
                                 size_t values_n, uint8_t *out, size_t out_n, uint32_t *length)
{
    struct order seen = order_seen(order, station, address, number, values_n);
    uint32_t before = *length, result;
    result = __real_cedarskein_query(seen.order, seen.station, seen.address, seen.number, values, seen.values_n, out, out_n, length);
    spoil_query_lent(result, values, values_n, out, out_n, length);
    if (result == 0)
        spoil_query(&seen, out, length);
    if (breach_is("query_check_upper_byte_first") && result == 0) {
        uint8_t lower = out[*length - 2];
        out[*length - 2] = out[*length - 1];
        out[*length - 1] = lower;
    }
    if (breach_is("refused_query_has_a_length") && result != 0)
        *length = 8;
    if (breach_is("refused_query_leaves_the_length") && result != 0)
        *length = before;
    if (breach_is("query_small_out_before_order") && result == 9 && out_n < CEDARSKEIN_LEAST_OUT)
        return 5;
    if (breach_is("query_out_of_99_is_enough") && result == 5 && out_n == 99)
        return 0;
    return result;
}

/* A reply that a broken door takes for the right one: what it does not compare is made right. */
static void make_right(const struct order *order, uint8_t *reply, size_t n, const uint8_t *query)
{
    int echoes = order->order > CEDARSKEIN_RECORD;
    if (breach_is("reply_station_is_not_compared"))
        reply[0] = query[0];
    if (breach_is("reply_function_is_not_compared") && (reply[1] & 0x80) == 0)
        reply[1] = query[1];
    if (breach_is("reply_error_function_is_not_compared") && (reply[1] & 0x80) != 0)
        reply[1] = query[1] | 0x80;
    if (breach_is("reply_top_bit_is_not_looked_at") && n != 5)
        reply[1] &= 0x7F;
    if (breach_is("echo_upper_address_is_not_compared") && echoes && n == 8)
        reply[2] = query[2];
    if (breach_is("echo_address_is_not_compared") && echoes && n == 8)
        memcpy(reply + 2, query + 2, 2);
    if (breach_is("echo_value_is_not_compared") && order->order == CEDARSKEIN_WRITE && n == 8)
        memcpy(reply + 4, query + 4, 2);
    if (breach_is("echo_count_is_not_compared") && order->order == CEDARSKEIN_WRITES && n == 8)
        memcpy(reply + 4, query + 4, 2);
    if (breach_is("echo_of_a_clear_is_not_compared") && order->order == CEDARSKEIN_CLEAR && n == 8)
        memcpy(reply + 4, query + 4, 2);
    if (breach_is("byte_count_is_not_compared") && !echoes && n == 5 + 2 * (size_t)order->number)
        reply[2] = (uint8_t)(2 * order->number);
    if (breach_is("byte_count_is_taken_as_words") && !echoes && reply[2] == order->number && n == 5 + 2 * (size_t)order->number)
        reply[2] = (uint8_t)(2 * order->number);
    if (breach_is("error_0_is_taken") && n == 5 && reply[2] == 0)
        reply[2] = 1;
    if (breach_is("error_4_is_taken") && n == 5 && reply[1] == (query[1] | 0x80) && reply[2] == 4)
        reply[2] = 3;
}

/* Bytes too many, or a check that is wrong, which a broken door does not see: hands back the length that it sees. */
static size_t seen_length(const struct order *order, uint8_t *reply, size_t n)
{
    if (breach_is("reply_check_is_not_compared"))
        seal(reply, n);
    if (breach_is("reply_check_lower_byte_alone"))
        reply[n - 1] = (uint8_t)(__real_cedarskein_check_value(reply, n - 2) >> 8);
    if (breach_is("error_of_two_bytes_is_taken") && n == 6 && (reply[1] & 0x80) != 0)
        return 5;
    if (breach_is("longer_echo_is_taken") && n > 8 && order->order > CEDARSKEIN_RECORD && (reply[1] & 0x80) == 0)
        return 8;
    if (breach_is("longer_values_are_taken") && orders_read(order->order) && n > 5 + 2 * (size_t)order->number)
        return 5 + 2 * (size_t)order->number;
    return n;
}

/* The query of an order, with zeros for its values, which a reply does not tell and a reading of it may not look at. */
static uint32_t query_front(const struct order *order, uint8_t *query)
{
    static const uint8_t zeros[90] = { 0 };
    size_t values_n = order->order == CEDARSKEIN_WRITES && order->values_n <= sizeof zeros ? order->values_n : 0;
    uint32_t length;
    return __real_cedarskein_query(order->order, order->station, order->address, order->number, zeros, values_n, query, CEDARSKEIN_LEAST_OUT,
                                   &length);
}

/* A reply as a broken door sees it. Any other stays as it is: one of a length that no frame has, one with a wrong check. */
static const uint8_t *reply_seen(const struct order *order, const uint8_t *reply, size_t *reply_n)
{
    static uint8_t seen[CEDARSKEIN_LONGEST_FRAME];
    uint8_t query[CEDARSKEIN_LEAST_OUT];
    size_t n = *reply_n;
    if (n < 4 || n > sizeof seen || query_front(order, query) != 0)
        return reply;
    memcpy(seen, reply, n);
    n = seen_length(order, seen, n);
    if (n == *reply_n && __real_cedarskein_check_value(seen, n) != 0)
        return reply;
    make_right(order, seen, n, query);
    seal(seen, n);
    *reply_n = n;
    return seen;
}

/* The refusals of a reply in another order. A reply that is told by its station has a right check, and so a function and a body. */
static uint32_t other_reply_refusal(const struct order *order, const uint8_t *reply, size_t reply_n, size_t out_n, uint32_t number)
{
    uint8_t function = order->order == CEDARSKEIN_WRITES ? 0x10 : order->order == CEDARSKEIN_WRITE ? 0x06
        : order->order == CEDARSKEIN_CLEAR ? 0x05 : 0x03;
    int other_function = reply_n > 3 && (reply[1] & 0x7F) != function;
    if (breach_is("reply_small_out_before_order") && number == 9 && out_n < CEDARSKEIN_LEAST_OUT)
        return 5;
    if (breach_is("reply_damage_before_out") && number == 5 && reply_n < 4)
        return 10;
    if (breach_is("reply_of_nothing_is_done") && number == 10 && reply_n == 0)
        return 0;
    if (breach_is("reply_function_before_station") && number == 11 && other_function)
        return 12;
    if (breach_is("reply_station_before_check") && number == 10 && reply_n > 3 && reply[0] != order->station)
        return 11;
    if (breach_is("reply_body_before_function") && number == 12 && reply_n == 4)
        return 13;
    if (breach_is("reply_body_before_station") && number == 11 && reply_n == 4)
        return 13;
    if (breach_is("reply_other_error_is_a_body") && number == 12 && (reply[1] & 0x80) != 0)
        return 13;
    return number;
}

/* What a reply is read as, right but for one thing. */
static void spoil_read(uint32_t number, uint8_t *out, size_t out_n, uint32_t *length, uint32_t *error)
{
    uint8_t upper;
    if (breach_is("reply_out_behind_the_values") && number == 0 && *length > 0 && *length < out_n)
        out[*length] ^= 1;
    if (breach_is("reply_error_writes_out") && number == 0 && *error != 0)
        out[0] = (uint8_t)(out[0] + 1);
    if (breach_is("reply_done_writes_out") && number == 0 && *length == 0 && *error == 0)
        out[0] ^= 1;
    if (breach_is("refused_reply_writes_out") && number == 13 && out_n > 0)
        out[0] ^= 1;
    if (breach_is("reply_values_lower_byte_first") && number == 0 && *length > 0) {
        upper = out[0];
        out[0] = out[1];
        out[1] = upper;
    }
    if (breach_is("reply_last_value_is_missed") && number == 0 && *length > 2)
        *length -= 2;
    if (breach_is("reply_length_is_in_words") && number == 0)
        *length /= 2;
    if (breach_is("reply_error_has_a_length") && number == 0 && *error != 0)
        *length = 2;
    if (breach_is("reply_error_is_the_next") && number == 0 && *error == 2)
        *error = 3;
}

/* The two numbers of a reply, as a broken door leaves them. */
static void spoil_reply_numbers(uint32_t number, uint32_t length_before, uint32_t error_before, uint32_t *length, uint32_t *error)
{
    if (breach_is("reply_error_is_not_zeroed") && number == 0 && *error == 0)
        *error = error_before;
    if (breach_is("refused_reply_leaves_the_error") && number != 0)
        *error = error_before;
    if (breach_is("refused_reply_has_an_error") && number == 13)
        *error = 1;
    if (breach_is("refused_reply_leaves_the_length") && number != 0)
        *length = length_before;
    if (breach_is("refused_reply_has_a_length") && number != 0)
        *length = 2;
    if (breach_is("reply_of_no_values_leaves_the_length") && number == 0 && *length == 0)
        *length = length_before;
    if (breach_is("reply_error_written_wide"))
        error[1] = 0;
}

/* What is written or read of what a reply is lent beside out. */
static void spoil_reply_lent(const uint8_t *values, size_t values_n, const uint8_t *reply, size_t reply_n)
{
    volatile uint8_t read = 0;
    if (breach_is("reply_reads_the_values") && values_n > 0)
        read = *(volatile const uint8_t *)values;
    if (breach_is("reply_reads_behind_itself") && reply_n > 0)
        read = *(volatile const uint8_t *)(reply + reply_n);
    if (breach_is("reply_is_written") && reply_n > 0)
        ((uint8_t *)(uintptr_t)reply)[reply_n - 1] ^= 1;
    (void)read;
}

uint32_t __wrap_cedarskein_reply(uint32_t order, uint32_t station, uint32_t address, uint32_t number, const uint8_t *values,
                                 size_t values_n, const uint8_t *reply, size_t reply_n, uint8_t *out, size_t out_n,
                                 uint32_t *length, uint32_t *error)
{
    struct order seen = order_seen(order, station, address, number, values_n);
    uint32_t length_before = *length, error_before = *error, result;
    size_t seen_n = reply_n;
    const uint8_t *frame = reply_seen(&seen, reply, &seen_n);
    result = __real_cedarskein_reply(seen.order, seen.station, seen.address, seen.number, values, seen.values_n, frame, seen_n, out, out_n,
                                     length, error);
    spoil_reply_lent(values, values_n, reply, reply_n);
    spoil_read(result, out, out_n, length, error);
    spoil_reply_numbers(result, length_before, error_before, length, error);
    return other_reply_refusal(&seen, reply, reply_n, out_n, result);
}
