#include "presets_met.h"
#include "cedarskein_sheets.h"
#include "records_met.h"
#include "sheets_made.h"

#include <string.h>

/* ---- The sheet in the bytes of a call ---- */

/* A word of the sheet; 0 behind its end, since what was taken need not be sound. */
static uint32_t word(const struct call *call, size_t index)
{
    return 2 * index + 2 > call->part_n[PART_SHEET] ? 0 : get16(call->part[PART_SHEET], index);
}

/* The words that the rows of the items begin at and end in front of. */
static size_t items_begin(const struct call *call)
{
    size_t begin = 12 + 4 * (size_t)word(call, 1);
    size_t end = call->part_n[PART_SHEET] / 2;
    return begin < end ? begin : end;
}

static size_t items_end(const struct call *call)
{
    size_t rows = items_begin(call) + 6 * (size_t)word(call, 3);
    size_t end = call->part_n[PART_SHEET] / 2;
    return rows < end ? rows : end;
}

/* The row of the area that has an address, or a place; 0 if none has. */
static size_t row_of_address(const struct call *call, uint64_t address)
{
    for (size_t row = 12; row < items_begin(call); row += 4)
        if (word(call, row) <= address && address <= word(call, row + 1))
            return row;
    return 0;
}

static size_t row_of_place(const struct call *call, uint32_t place)
{
    for (size_t row = 12; row < items_begin(call); row += 4) {
        uint32_t behind = word(call, row + 1) - word(call, row);
        if (word(call, row + 2) <= place && place <= word(call, row + 2) + behind)
            return row;
    }
    return 0;
}

/* The access at an address, or at a place; 0 in no area. */
static uint32_t access_at(const struct call *call, uint64_t address)
{
    size_t row = row_of_address(call, address);
    return row == 0 ? 0 : word(call, row + 3);
}

/* The place at an address that an area has. */
static uint32_t place_of(const struct call *call, uint32_t address)
{
    size_t row = row_of_address(call, address);
    return word(call, row + 2) + (address - word(call, row));
}

static uint32_t access_of_place(const struct call *call, uint32_t place)
{
    size_t row = row_of_place(call, place);
    return row == 0 ? 0 : word(call, row + 3);
}

static bool has_presets(const struct call *call)
{
    for (size_t row = 12; row < items_begin(call); row += 4)
        if (word(call, row + 3) == 2)
            return true;
    return false;
}

/* Whether some of so many addresses from one on are those of presets. */
static bool run_has_preset(const struct call *call, uint64_t start, uint64_t count)
{
    for (size_t row = 12; row < items_begin(call); row += 4)
        if (word(call, row + 3) == 2 && word(call, row) < start + count
            && start <= word(call, row + 1))
            return true;
    return false;
}

/* ---- A sheet that is taken ---- */

/* The items' places, row after row, are those that can be written, area after area;
 * a pair does not reach into the next. */
static bool items_fit(const struct call *call)
{
    size_t item = items_begin(call);
    for (size_t row = 12; row < items_begin(call); row += 4) {
        uint32_t place = word(call, row + 2);
        uint32_t end = place + word(call, row + 1) - word(call, row) + 1;
        if (word(call, row + 3) == 1)
            continue;
        for (; place < end; item += 6) {
            if (item >= items_end(call) || word(call, item + 1) != place)
                return false;
            place += word(call, item) == 2 ? 2 : 1;
        }
        if (place != end)
            return false;
    }
    return item == items_end(call);
}

static const char *sheet_breach(const struct call *call)
{
    uint32_t version = word(call, 0);
    if (version != 1 && version != 2)
        return "a sheet was taken whose version is neither 1 nor 2";
    for (size_t row = 12; row < items_begin(call); row += 4)
        if (word(call, row + 3) - 1 > 2)
            return "a sheet was taken with an access that is none of 1, 2 and 3";
    if (version == 1 && has_presets(call))
        return "a sheet of version 1 was taken with access 2";
    if ((word(call, 6) & 2) != 0 && access_at(call, word(call, 10)) == 2)
        return "a sheet was taken whose clear address is a preset's";
    return items_fit(call) ? NULL : "a sheet was taken whose items are not what can be written";
}

/* ---- Banks ---- */

/* A word of a bank; 0 behind its end. */
static uint32_t bank_word(const struct call *call, const uint8_t *bank, size_t place)
{
    return 2 * place + 2 > call->part_n[PART_BANK] ? 0 : get16(bank, place);
}

/* The number that two words are; one with a sign is moved up, so that all compare as
 * they are. */
static uint64_t number_of(uint32_t kind, uint32_t upper, uint32_t lower)
{
    return kind == 2 ? (uint64_t)upper << 16 | lower : kind == 1 ? lower ^ 0x8000 : lower;
}

static uint64_t low_of(const struct call *call, size_t item)
{
    return number_of(word(call, item), word(call, item + 2), word(call, item + 3));
}

static uint64_t high_of(const struct call *call, size_t item)
{
    return number_of(word(call, item), word(call, item + 4), word(call, item + 5));
}

static uint32_t last_place(const struct call *call, size_t item)
{
    return word(call, item + 1) + (word(call, item) == 2 ? 1 : 0);
}

static uint64_t value_in(const struct call *call, const uint8_t *bank, size_t item)
{
    return number_of(word(call, item), bank_word(call, bank, word(call, item + 1)),
                     bank_word(call, bank, last_place(call, item)));
}

/* Every item, those of presets too, and the mark. */
static bool bank_is_good(const struct call *call, const uint8_t *bank)
{
    for (size_t item = items_begin(call); item < items_end(call); item += 6)
        if (value_in(call, bank, item) < low_of(call, item)
            || high_of(call, item) < value_in(call, bank, item))
            return false;
    return bank_word(call, bank, word(call, 5)) < 2;
}

/* The word of a fresh bank at a place: of an item its low bound, but for the station
 * and the rate; else 0. */
static uint32_t fresh_word(const struct call *call, uint32_t place)
{
    if (place == word(call, 8) || place == word(call, 9))
        return 1;
    for (size_t item = items_begin(call); item < items_end(call); item += 6) {
        if (last_place(call, item) == place)
            return word(call, item + 3);
        if (word(call, item + 1) == place)
            return word(call, item + 2);
    }
    return 0;
}

static bool bank_is_fresh(const struct call *call, const uint8_t *bank)
{
    for (uint32_t place = 0; place <= word(call, 5); place++)
        if (bank_word(call, bank, place) != fresh_word(call, place))
            return false;
    return true;
}

static const char *bank_breach(const struct call *call, const struct outcome *outcome)
{
    bool refused = outcome->number == NUMBER_BANK_SOUND;
    if (call->part_n[PART_BANK] != 2 * (size_t)word(call, 5) + 2)
        return "a bank of another size than the sheet's was taken";
    if (call->sort == CALL_BANK_FRESH)
        return bank_is_fresh(call, part_after(PART_BANK)) ? NULL
            : "a fresh bank has another word than its item's low bound, or 0";
    if (bank_is_good(call, call->part[PART_BANK]) == refused)
        return refused ? "a good bank was refused" : "a bank was taken with an item out of range";
    return refused || bank_is_good(call, part_after(PART_BANK))
        ? NULL : "a bank was left with an item out of range";
}

/* ---- Runs of addresses ---- */

static bool is_read(const uint8_t *frame) { return frame[1] == 0x03; }
static uint32_t start_of(const uint8_t *frame) { return get16(frame + 2, 0); }

static uint32_t run_of(const uint8_t *frame)
{
    return frame[1] == 0x06 ? 1 : get16(frame + 4, 0);
}

static uint32_t last_of(const uint8_t *frame)
{
    return start_of(frame) + run_of(frame) - 1;
}

/* Whether the call's frame is a read or a write by its function and its length, one
 * that no record's address begins, and that begins at a preset or gets to one. */
static bool meets_preset(const struct call *call)
{
    const uint8_t *frame = call->part[PART_BYTES];
    size_t n = call->part_n[PART_BYTES];
    if (n < 8 || (is_read(frame) && starts_at_record(call)))
        return false;
    if (!is_read(frame) && frame[1] != 0x06 && frame[1] != 0x10)
        return false;
    if (frame[1] == 0x10 ? n < 9 || n != 9 + (size_t)frame[6] : n != 8)
        return false;
    return access_at(call, start_of(frame)) == 2
        || run_has_preset(call, start_of(frame), run_of(frame));
}

/* A read has the areas of access 1 and 3, a write those of access 2 and 3. */
static bool is_open(const struct call *call, const uint8_t *frame, uint32_t address)
{
    uint32_t access = access_at(call, address);
    return access == 3 || access == (is_read(frame) ? 1u : 2u);
}

/* The first address of the run that is not open; the one behind the run if all are. */
static uint32_t first_shut(const struct call *call)
{
    const uint8_t *frame = call->part[PART_BYTES];
    uint32_t address = start_of(frame);
    while (address - start_of(frame) < run_of(frame) && is_open(call, frame, address))
        address++;
    return address;
}

static bool all_open(const struct call *call)
{
    const uint8_t *frame = call->part[PART_BYTES];
    return first_shut(call) == start_of(frame) + run_of(frame);
}

/* No register, or a 10 that has not two bytes for each. */
static bool counts_differ(const uint8_t *frame)
{
    return run_of(frame) == 0 || (frame[1] == 0x10 && frame[6] != 2 * run_of(frame));
}

/* ---- What a frame gets that meets a preset ---- */

/* The error of a reply; 0 for none. */
static uint8_t error_of(const struct outcome *outcome)
{
    const uint8_t *out = part_after(PART_OUT);
    return outcome->length == 5 && (out[1] & 0x80) != 0 ? out[2] : 0;
}

/* The i-th word that a write sends. */
static uint32_t word_sent(const uint8_t *frame, uint32_t i)
{
    return get16(frame + (frame[1] == 0x06 ? 4 : 7), i);
}

/* Whether the bank has, at the address of each, the words that a write sent. */
static bool words_are_stored(const struct call *call)
{
    const uint8_t *frame = call->part[PART_BYTES];
    for (uint32_t i = 0; i < run_of(frame); i++) {
        uint32_t place = place_of(call, start_of(frame) + i);
        if (bank_word(call, part_after(PART_BANK), place) != word_sent(frame, i))
            return false;
    }
    return true;
}

static const char *answer_breach(const struct call *call, const struct outcome *outcome)
{
    uint8_t error = error_of(outcome);
    if (error == 1 || !meets_preset(call))
        return NULL;
    bool shut = counts_differ(call->part[PART_BYTES]) || !all_open(call);
    if (shut && bank_changed(call))
        return "a run that presets, or what is beside them, shut out has changed the bank";
    if (counts_differ(call->part[PART_BYTES]))
        return error == 3 ? NULL : "wrong counts at presets were not met with error 03";
    if (is_read(call->part[PART_BYTES]))
        return error == 2 ? NULL : "a read with a preset was not met with error 02";
    if (shut)
        return error == 2 ? NULL : "a write beyond presets was not met with error 02";
    if (error == 2)
        return "a write of presets was met with error 02";
    return error == 3 || words_are_stored(call) ? NULL : "presets that were written are not stored";
}

static const char *reason_breach(const struct call *call, const struct outcome *outcome)
{
    const uint8_t *frame = call->part[PART_BYTES];
    uint32_t reason = outcome->reason;
    if ((REASON_TOO_SHORT <= reason && reason <= REASON_BODY_LENGTH) || !meets_preset(call))
        return NULL;
    if (counts_differ(frame) || (is_read(frame) && run_of(frame) > 47))
        return reason == REASON_BAD_COUNT ? NULL
            : "the reason for a wrong count at presets is not the count";
    if (all_open(call))
        return reason == REASON_NONE || reason == REASON_ITEM ? NULL
            : "the reason against a write of presets is none of its items";
    if (reason != REASON_ADDRESS)
        return "the reason for a run that presets shut out is not an address";
    return outcome->address == first_shut(call) ? NULL
        : "the address of a run that presets shut out is not the first shut";
}

static const char *post_breach(const struct call *call, const struct outcome *outcome)
{
    size_t n = call->part_n[PART_BYTES];
    if (n == 0 || n % 2 == 1 || !run_has_preset(call, call->value, n / 2))
        return NULL;
    if (outcome->number != NUMBER_POSTED_ADDRESS)
        return "words posted at a preset were not met with 6";
    return bank_changed(call) ? "words posted at a preset have changed the bank" : NULL;
}

/* ---- What holds of every call ---- */

static bool has_bank(const struct call *call)
{
    return CALL_BANK_CHECK <= call->sort && call->sort <= CALL_WHY;
}

const char *preset_breach(const struct call *call, const struct outcome *outcome)
{
    if (call->sort < CALL_SHEET_CHECK || outcome->number == NUMBER_SHEET)
        return NULL;
    const char *breach = sheet_breach(call);
    if (breach == NULL && has_bank(call) && outcome->number != NUMBER_BANK_SIZE)
        breach = bank_breach(call, outcome);
    if (breach != NULL || outcome->number == NUMBER_BANK_SIZE
        || outcome->number == NUMBER_BANK_SOUND)
        return breach;
    if (call->sort == CALL_POST)
        return post_breach(call, outcome);
    if (outcome->number != NUMBER_DONE)
        return NULL;
    if (call->sort == CALL_ANSWER)
        return answer_breach(call, outcome);
    return call->sort == CALL_WHY ? reason_breach(call, outcome) : NULL;
}

/* ---- Counting sheets that are taken ---- */

static void met(struct counts *counts, enum preset_met preset, bool holds)
{
    if (holds)
        counts->preset[preset]++;
}

static void count_neighbours(struct counts *counts, const struct call *call)
{
    for (size_t row = 12; row + 4 < items_begin(call); row += 4) {
        uint32_t first = word(call, row + 3) - 1;
        uint32_t next = word(call, row + 7) - 1;
        if (first < 3 && next < 3)
            met(counts, (enum preset_met)(PRESET_NEXT_1_1 + 3 * first + next),
                word(call, row + 1) + 1 == word(call, row + 4));
    }
}

static void count_items(struct counts *counts, const struct call *call)
{
    bool pair = false, all_bits = false;
    for (size_t item = items_begin(call); item < items_end(call); item += 6) {
        bool here = word(call, item) == 2 && access_of_place(call, word(call, item + 1)) == 2;
        pair = pair || here;
        all_bits = all_bits || (here && low_of(call, item) == 0
                                && high_of(call, item) == UINT32_MAX);
    }
    met(counts, PRESET_PAIR, pair);
    met(counts, PRESET_ALL_BITS, all_bits);
}

/* The sheet of AS-WE 40 as it is handed out, and the one of before, which has nothing
 * between 0116 and 0123: what differs from bores 50 and 80 is the bound at 0109. */
static void count_aswe_40(struct counts *counts, const struct call *call)
{
    size_t n = call->part_n[PART_SHEET];
    size_t at_0109 = items_begin(call) + 6 * 10;
    met(counts, PRESET_ASWE_40,
        n == CEDARSKEIN_ASWE_40_SHEET_SIZE
            && memcmp(call->part[PART_SHEET], cedarskein_aswe_40_sheet, n) == 0);
    met(counts, PRESET_PLAIN_ASWE_40,
        n == CEDARSKEIN_ASWE_50_SHEET_SIZE && word(call, at_0109 + 5) == 0x10
            && memcmp(call->part[PART_SHEET], cedarskein_aswe_50_sheet, 2 * at_0109) == 0);
}

static void count_taken_sheet(struct counts *counts, const struct call *call)
{
    bool presets = has_presets(call);
    bool reads = false;
    for (size_t row = 12; row < items_begin(call); row += 4)
        reads = reads || word(call, row + 3) != 2;
    met(counts, PRESET_VERSION_1, word(call, 0) == 1);
    met(counts, PRESET_VERSION_2_PLAIN, word(call, 0) == 2 && !presets);
    met(counts, PRESET_VERSION_2, presets);
    met(counts, PRESET_ALL_AREAS, !reads);
    met(counts, PRESET_STATION, access_of_place(call, word(call, 8)) == 2);
    met(counts, PRESET_RATE, access_of_place(call, word(call, 9)) == 2);
    met(counts, PRESET_AND_RECORDS, presets && word(call, 11) == 1);
    count_items(counts, call);
    count_neighbours(counts, call);
    count_aswe_40(counts, call);
}

/* ---- Counting sheets that are refused ---- */

/* Whether the call's sheet is sound with one word another. */
static bool is_sound_with(const struct call *call, size_t index, uint32_t other)
{
    uint8_t sheet[SHEET_ROOM];
    size_t n = call->part_n[PART_SHEET];
    memcpy(sheet, call->part[PART_SHEET], n);
    put16(sheet, index, other);
    return second_sheet_check(sheet, n) == NUMBER_DONE;
}

/* Sheets that are refused for their version and for nothing else. Of a large one the
 * lower byte would do. */
static void count_refused_version(struct counts *counts, const struct call *call)
{
    uint32_t version = word(call, 0);
    if (version == 2 || !is_sound_with(call, 0, 2))
        return;
    met(counts, PRESET_IN_VERSION_1, version == 1);
    met(counts, PRESET_VERSION_0, version == 0);
    met(counts, PRESET_VERSION_3, version == 3);
    met(counts, PRESET_VERSION_LARGE, version > 0xFF && (version & 0xFF) - 1 < 2);
    met(counts, PRESET_VERSION_OTHER, version != 1 && has_presets(call));
}

/* Likewise for the access of one area, with items or without. */
static void count_refused_access(struct counts *counts, const struct call *call)
{
    for (size_t row = 12; row < items_begin(call); row += 4) {
        uint32_t access = word(call, row + 3);
        if (access - 1 < 3 || !(is_sound_with(call, row + 3, 1) || is_sound_with(call, row + 3, 3)))
            continue;
        met(counts, PRESET_ACCESS_0, access == 0);
        met(counts, PRESET_ACCESS_4, access == 4);
        met(counts, PRESET_ACCESS_LARGE, access > 0xFF && (access & 0xFF) - 1 < 3);
    }
}

/* How many places of presets so many items hold. */
static uint32_t places_held(const struct call *call, uint32_t times)
{
    uint32_t places = 0;
    for (uint32_t place = 0; place < word(call, 5); place++) {
        uint32_t held = 0;
        for (size_t item = items_begin(call); item < items_end(call); item += 6)
            if (word(call, item + 1) == place || last_place(call, item) == place)
                held++;
        if (held == times && access_of_place(call, place) == 2)
            places++;
    }
    return places;
}

/* A pair over two areas, one of them of presets. */
static void count_pair_over(struct counts *counts, const struct call *call)
{
    for (size_t item = items_begin(call); item < items_end(call); item += 6) {
        size_t first = row_of_place(call, word(call, item + 1));
        size_t next = row_of_place(call, last_place(call, item));
        if (first == next)
            continue;
        uint32_t sum = word(call, first + 3) + word(call, next + 3);
        met(counts, PRESET_PAIR_OVER_2_2, sum == 4);
        met(counts, PRESET_PAIR_OVER_2_3, sum == 5);
    }
}

static void count_refused_sheet(struct counts *counts, const struct call *call)
{
    if (call->part_n[PART_SHEET] < 24
        || second_sheet_check(call->part[PART_SHEET], call->part_n[PART_SHEET]) == NUMBER_DONE)
        return;
    count_refused_version(counts, call);
    count_refused_access(counts, call);
    if (!has_presets(call))
        return;
    uint64_t broken = second_broken_rules(call->part[PART_SHEET], call->part_n[PART_SHEET]);
    if (broken == (uint64_t)1 << RULE_PLACE_MISSING)
        met(counts, PRESET_PLACE_MISSING, places_held(call, 0) > 0);
    if (broken == (uint64_t)1 << RULE_PLACE_TWICE)
        met(counts, PRESET_PLACE_TWICE, places_held(call, 2) > 0);
    if (broken == (uint64_t)1 << RULE_PAIR_TWO_AREAS)
        count_pair_over(counts, call);
}

/* ---- Counting banks ---- */

/* A bank that is refused for one preset and for nothing else: at its low bound the
 * bank is sound. */
static void count_refused_bank(struct counts *counts, const struct call *call)
{
    for (size_t item = items_begin(call); item < items_end(call); item += 6) {
        const uint8_t *before = call->part[PART_BANK];
        uint64_t value = value_in(call, before, item);
        bool low = value < low_of(call, item);
        uint8_t bank[BANK_ROOM];
        if ((!low && value <= high_of(call, item)) || last_place(call, item) >= word(call, 5)
            || access_of_place(call, word(call, item + 1)) != 2)
            continue;
        memcpy(bank, before, call->part_n[PART_BANK]);
        put16(bank, word(call, item + 1), word(call, item + 2));
        put16(bank, last_place(call, item), word(call, item + 3));
        if (!bank_is_good(call, bank))
            continue;
        met(counts, low ? PRESET_BANK_TOO_LOW : PRESET_BANK_TOO_HIGH, true);
        met(counts, PRESET_BANK_PAIR, word(call, item) == 2);
    }
}

/* Presets of a fresh bank that zeros, or ones, would not be. */
static void count_fresh(struct counts *counts, const struct call *call)
{
    bool low = false;
    for (uint32_t place = 0; place < word(call, 5); place++)
        low = low || (access_of_place(call, place) == 2 && fresh_word(call, place) > 1);
    met(counts, PRESET_FRESH_LOW, low);
    met(counts, PRESET_FRESH_STATION, access_of_place(call, word(call, 8)) == 2);
    met(counts, PRESET_FRESH_RATE, access_of_place(call, word(call, 9)) == 2);
}

/* ---- Counting reads ---- */

/* A read that a preset alone shuts out: which of its addresses it is, from a sort
 * on. */
static void count_shut_read(struct counts *counts, const struct call *call, enum preset_met from)
{
    const uint8_t *frame = call->part[PART_BYTES];
    uint32_t shut = first_shut(call);
    uint32_t start = start_of(frame);
    uint32_t last = last_of(frame);
    bool open_again = is_open(call, frame, last);
    if (access_at(call, shut) != 2)
        return;
    met(counts, from, start == last);
    met(counts, (enum preset_met)(from + 1), shut == start && open_again);
    met(counts, (enum preset_met)(from + 2), shut > start && open_again);
    met(counts, (enum preset_met)(from + 3), shut > start && shut == last);
}

static void count_read(struct counts *counts, const struct call *call, uint8_t error)
{
    const uint8_t *frame = call->part[PART_BYTES];
    bool meets = meets_preset(call);
    if (error == 0 && !starts_at_record(call)) {
        met(counts, PRESET_READ_UP_TO, access_at(call, last_of(frame) + 1) == 2);
        met(counts, PRESET_READ_BEHIND, access_at(call, start_of(frame) - UINT64_C(1)) == 2);
    }
    met(counts, PRESET_READ_NONE, meets && run_of(frame) == 0);
    met(counts, PRESET_READ_OVER_47, meets && run_of(frame) > 47);
    if (meets && 0 < run_of(frame) && run_of(frame) <= 47)
        count_shut_read(counts, call, PRESET_READ_ONE);
}

/* ---- Counting writes ---- */

/* The row of a pair among presets that has the address as its upper half (0) or its
 * lower (1); 0 if none has. */
static size_t pair_at(const struct call *call, uint32_t address, uint32_t half)
{
    if (access_at(call, address) != 2)
        return 0;
    for (size_t item = items_begin(call); item < items_end(call); item += 6)
        if (word(call, item) == 2 && word(call, item + 1) + half == place_of(call, address))
            return item;
    return 0;
}

static bool takes_all(const struct call *call, size_t item)
{
    return item != 0 && low_of(call, item) == 0 && high_of(call, item) == UINT32_MAX;
}

static bool place_changed(const struct call *call, uint32_t place)
{
    return bank_word(call, call->part[PART_BANK], place)
        != bank_word(call, part_after(PART_BANK), place);
}

static void count_good_write(struct counts *counts, const struct call *call)
{
    const uint8_t *frame = call->part[PART_BYTES];
    size_t first = row_of_address(call, start_of(frame));
    size_t last = row_of_address(call, last_of(frame));
    uint32_t from = word(call, first + 3);
    uint32_t to = word(call, last + 3);
    size_t lower = pair_at(call, start_of(frame), 1);
    size_t upper = pair_at(call, last_of(frame), 0);
    met(counts, PRESET_WRITE_ONE, frame[1] == 0x06 && from == 2);
    met(counts, PRESET_WRITE_MANY, frame[1] == 0x10 && from == 2 && first == last);
    met(counts, PRESET_WRITE_2_TO_3, from == 2 && to == 3);
    met(counts, PRESET_WRITE_3_TO_2, from == 3 && to == 2);
    met(counts, PRESET_WRITE_2_TO_2, from == 2 && to == 2 && first != last);
    met(counts, PRESET_LOWER_GOOD, lower != 0);
    met(counts, PRESET_UPPER_GOOD, upper != 0);
    met(counts, PRESET_LOWER_ALL_BITS, takes_all(call, lower));
    met(counts, PRESET_UPPER_ALL_BITS, takes_all(call, upper));
}

/* A write that got error 02, by what shuts it out. */
static void count_shut_write(struct counts *counts, const struct call *call)
{
    const uint8_t *frame = call->part[PART_BYTES];
    uint32_t from = access_at(call, start_of(frame));
    uint32_t shut = access_at(call, first_shut(call));
    met(counts, PRESET_WRITE_2_TO_1, from == 2 && shut == 1);
    met(counts, PRESET_WRITE_2_TO_NONE, from == 2 && shut == 0);
    met(counts, PRESET_WRITE_1_TO_2, from == 1 && access_at(call, last_of(frame)) == 2);
}

/* A write that got error 03 for an item. */
static void count_bad_write(struct counts *counts, const struct call *call)
{
    const uint8_t *frame = call->part[PART_BYTES];
    bool stored = false;
    for (uint32_t place = 0; place < word(call, 5); place++)
        stored = stored || (access_of_place(call, place) == 2 && place_changed(call, place));
    met(counts, PRESET_STORED_AHEAD, stored);
    met(counts, PRESET_BAD, frame[1] == 0x06);
    met(counts, PRESET_LOWER_BAD, frame[1] == 0x06 && pair_at(call, start_of(frame), 1) != 0);
    met(counts, PRESET_UPPER_BAD, frame[1] == 0x06 && pair_at(call, start_of(frame), 0) != 0);
}

static void count_write(struct counts *counts, const struct call *call, uint8_t error)
{
    uint32_t station = word(call, 8);
    uint32_t rate = word(call, 9);
    if (!meets_preset(call) || counts_differ(call->part[PART_BYTES]))
        return;
    if (error == 0)
        count_good_write(counts, call);
    if (error == 2)
        count_shut_write(counts, call);
    if (error == 3)
        count_bad_write(counts, call);
    met(counts, PRESET_STATION_CHANGED,
        access_of_place(call, station) == 2 && place_changed(call, station));
    met(counts, PRESET_RATE_CHANGED, access_of_place(call, rate) == 2 && place_changed(call, rate));
}

static void count_answer(struct counts *counts, const struct call *call,
                         const struct outcome *outcome)
{
    const uint8_t *frame = call->part[PART_BYTES];
    uint8_t error = error_of(outcome);
    if (error == 1)
        return;
    if (is_read(frame))
        count_read(counts, call, error);
    else if (frame[1] == 0x05)
        met(counts, PRESET_CLEAR, access_at(call, start_of(frame)) == 2);
    else
        count_write(counts, call, error);
}

/* ---- Counting the rest ---- */

static void count_why(struct counts *counts, const struct call *call,
                      const struct outcome *outcome)
{
    const uint8_t *frame = call->part[PART_BYTES];
    if (outcome->reason == REASON_ADDRESS && meets_preset(call)) {
        if (is_read(frame))
            count_shut_read(counts, call, PRESET_WHY_READ_ONE);
        else
            met(counts, PRESET_WHY_WRITE_BEYOND, access_at(call, start_of(frame)) == 2);
    }
    if (outcome->reason != REASON_ITEM || access_at(call, outcome->address) != 2)
        return;
    met(counts, PRESET_WHY_TOO_LOW, outcome->side == SIDE_TOO_LOW);
    met(counts, PRESET_WHY_TOO_HIGH, outcome->side == SIDE_TOO_HIGH);
    met(counts, PRESET_WHY_BEHIND, start_of(frame) < outcome->address);
}

static void count_post(struct counts *counts, const struct call *call,
                       const struct outcome *outcome)
{
    uint64_t address = call->value;
    uint64_t end = address + call->part_n[PART_BYTES] / 2;
    bool at = access_at(call, address) == 2;
    met(counts, PRESET_POST_ODD, outcome->number == NUMBER_BAD_INPUT && at
                                     && call->part_n[PART_BYTES] % 2 == 1);
    met(counts, PRESET_POST_UP_TO, outcome->number == NUMBER_DONE && access_at(call, end) == 2);
    if (outcome->number != NUMBER_POSTED_ADDRESS)
        return;
    met(counts, PRESET_POST_AT, at);
    while (address < end && access_at(call, address) == 1)
        address++;
    met(counts, PRESET_POST_INTO, !at && access_at(call, address) == 2);
}

void count_presets(struct counts *counts, const struct call *call,
                   const struct outcome *outcome)
{
    if (call->sort < CALL_SHEET_CHECK)
        return;
    if (outcome->number == NUMBER_SHEET) {
        count_refused_sheet(counts, call);
        return;
    }
    count_taken_sheet(counts, call);
    if (outcome->number == NUMBER_BANK_SOUND)
        count_refused_bank(counts, call);
    if (call->sort == CALL_POST)
        count_post(counts, call, outcome);
    if (outcome->number != NUMBER_DONE)
        return;
    if (call->sort == CALL_BANK_FRESH)
        count_fresh(counts, call);
    if (call->sort == CALL_ANSWER)
        count_answer(counts, call, outcome);
    if (call->sort == CALL_WHY)
        count_why(counts, call, outcome);
}
