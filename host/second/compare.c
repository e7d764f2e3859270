/* Compares the library with the second statement of 01 over made calls.
 *
 *   compare [seed [calls]]      defaults: seed 1, 50000 calls
 *
 * Exit 0 if no call differs and, from 50000 calls on, each thing that is
 * counted was met at least once in 1000 calls of its half of the line, the
 * meter's or that of the box that asks; else 1. */
#include "calls.h"
#include "counts.h"
#include "frames_faulty.h"
#include "frames_made.h"
#include "noise.h"
#include "orders_made.h"
#include "orders_met.h"
#include "presets_met.h"
#include "records_met.h"
#include "rings_made.h"
#include "second.h"
#include "sheets_made.h"
#include "sides_met.h"
#include "stations_met.h"

#include <inttypes.h>
#include <stdio.h>
#include <stdlib.h>
#include <string.h>

enum { MOST_DIFFERENCES = 5, OUT_ROOM = 5000, CALLS_FOR_ONE = 1000, LEAST_CALLS = 50000 };

/* What several calls one after the other are about. */
struct subject {
    struct made made;               /* the sound sheet behind the bytes */
    uint8_t sheet[SHEET_ROOM];
    size_t sheet_n;
    uint8_t bank[BANK_ROOM];
    size_t bank_n;
    uint8_t ring[RING_ROOM];
    size_t ring_n;
    enum second_rule made_broken;   /* broken on purpose, RULE_NONE if none */
    enum second_rule broken;        /* first broken rule, RULE_NONE if sound */
    unsigned left;                  /* calls still to make */
    bool changed;                   /* a call has changed the bank */
};

static struct subject subject;
static struct counts counts;
static uint64_t differences;
static uint64_t calls_asked;

static void met(enum special special)
{
    counts.special[special]++;
}

static void differs(const struct call *call, const char *what)
{
    if (what != NULL) {
        printf("%s\n", what);
        print_call(call);
    }
    differences++;
    if (differences >= MOST_DIFFERENCES) {
        printf("stopped after %" PRIu64 " differences\n", differences);
        exit(1);
    }
}

/* ---- Sheets ---- */

/* Rules that have several limits, or hold for several accesses. */
static const enum second_rule several[] = {
    RULE_VERSION, RULE_ACCESS, RULE_CLEAR_IN_AREA, RULE_PLACE_MISSING, RULE_PLACE_TWICE,
    RULE_PAIR_TWO_AREAS, RULE_RECORD_COUNT, RULE_RECORD_WORDS, RULE_RECORDS_END,
    RULE_RECORDS_SHARE, RULE_CLEAR_IN_RECORDS, RULE_PLACE_MISSING, RULE_PLACE_TWICE,
    RULE_PLACE_TWICE, RULE_PAIR_TWO_AREAS, RULE_PAIR_TWO_AREAS, RULE_PAIR_TWO_AREAS
};

enum { SEVERAL = sizeof several / sizeof several[0], ALL_RULES = RULE_COUNT - (RULE_NONE + 1) };

static enum second_rule rule_at(uint32_t at)
{
    return at < ALL_RULES ? (enum second_rule)(RULE_NONE + 1 + at) : several[at - ALL_RULES];
}

/* Each rule in turn, so that all are met equally often, and then these once more. */
static enum second_rule next_rule(void)
{
    static uint32_t at;
    enum second_rule rule = rule_at(at);
    at = (at + 1) % (ALL_RULES + SEVERAL);
    return rule;
}

static void break_next_rule(void)
{
    subject.made_broken = next_rule();
    if (!make_broken(subject.made_broken, &subject.made, subject.sheet, &subject.sheet_n)) {
        printf("no sheet was found that breaks: %s\n", second_rule_name(subject.made_broken));
        exit(1);
    }
}

/* One thing is changed for any rule, whatever the second statement says of it. */
static void change_sheet(void)
{
    enum second_rule rule = chance(70) ? several[below(SEVERAL)] : rule_at(below(ALL_RULES));
    make_changed(rule, &subject.made, subject.sheet, &subject.sheet_n);
}

/* Noise of any length; often with a header that starts well. */
static void random_sheet(void)
{
    subject.sheet_n = chance(30) ? below(60) : below(1000);
    noise_fill(subject.sheet, SHEET_ROOM);
    if (chance(50)) {
        put16(subject.sheet, 0, 1 + below(2));
        put16(subject.sheet, 1, 1 + below(8));
        put16(subject.sheet, 2, 12);
    }
}

static void cut_sheet(void)
{
    noise_fill(subject.sheet + subject.sheet_n, 2);
    switch (below(4)) {
    case 0: subject.sheet_n += 1 + below(2); break;
    case 1: subject.sheet_n -= 1 + below(2); break;
    case 2: subject.sheet_n = 0; break;
    default: subject.sheet_n = below((uint32_t)subject.sheet_n); break;
    }
}

/* One word changed: by one, by one bit, or to anything. */
static void poke_sheet(void)
{
    size_t words = subject.sheet_n / 2;
    size_t at = chance(40) ? below(12) : below((uint32_t)words);
    uint32_t word = get16(subject.sheet, at);
    put16(subject.sheet, at,
          ONE_OF(word + 1, word - 1, 0, 1, word ^ 1u << below(16), below(0x10000)));
}

/* An area of up to 65536 addresses, with B as it was or as 16 bits hold it. */
static void huge_sheet(void)
{
    size_t row = 12 + 4 * (size_t)below(subject.made.areas_n);
    put16(subject.sheet, row, below(3));
    put16(subject.sheet, row + 1, 0xFFFF - below(3));
    if (chance(50))
        put16(subject.sheet, 5, 0xFFFF - get16(subject.sheet, row) + 1);
}

/* The address's range at, next to and beyond its ends, low and high apart, so
 * that several rules are broken, or one, or none. */
static void poke_range(void)
{
    int item = made_item_of(&subject.made, subject.made.address_place);
    size_t row = 12 + 4 * (size_t)subject.made.areas_n + 6 * (size_t)item;
    put16(subject.sheet, row + 3, ONE_OF(0, 0, 0, 0, 1, 1, 1, 2, LAST_STATION, 0xF8, 0xFF));
    put16(subject.sheet, row + 5, ONE_OF(0, 1, 2, 0xF6, LAST_STATION, 0xF8, 0xFF, 0x0100, 0xFFFF));
}

/* The word that the record area begins at, which a sheet without one is given:
 * of one record, next to an area or elsewhere. */
static size_t give_records(void)
{
    if (subject.made.records.is)
        return subject.sheet_n / 2 - 3;
    size_t row = subject.sheet_n / 2;
    put16(subject.sheet, row, some_records_first(&subject.made, 1));
    put16(subject.sheet, row + 1, 1);
    put16(subject.sheet, row + 2, 1);
    put16(subject.sheet, 7, (uint32_t)row + 3);
    put16(subject.sheet, 11, 1);
    subject.sheet_n += 6;
    return row;
}

/* The records' first address where they share one with an area, or just do not. */
static uint32_t first_near_area(uint32_t count)
{
    const struct made_area *area = &subject.made.areas[below(subject.made.areas_n)];
    return ONE_OF(area->last, area->last + 1, area->first - count, area->first - count + 1,
                  below(0x10000));
}

/* One of the words of a record area at, next to or beyond its limits, or word 11
 * with no record area behind it. */
static void poke_records(void)
{
    if (!subject.made.records.is && chance(25)) {
        put16(subject.sheet, 11, ONE_OF(1, 2, 2, 3, 0x0100));
        return;
    }
    size_t row = give_records();
    switch (below(6)) {
    case 0: case 1:
        put16(subject.sheet, row, first_near_area(get16(subject.sheet, row + 1)));
        break;
    case 2: put16(subject.sheet, row + 1, ONE_OF(0, 1, 2, 6600, 6601, 0xFFFF)); break;
    case 3: put16(subject.sheet, row + 2, ONE_OF(0, 1, 22, 46, 47, 48, 0xFFFF)); break;
    case 4: put16(subject.sheet, 11, ONE_OF(0, 2, 3, 0x0100)); break;
    default:
        put16(subject.sheet, 7, (uint32_t)row + ONE_OF(0, 1, 2, 3, 4));
        subject.sheet_n = 2 * (row + ONE_OF(0, 3, 3));
        break;
    }
}

/* The version, or the access of an area, at, next to and beyond its limits, so that
 * several rules are broken, or one, or none. */
static void poke_version(void)
{
    size_t row = 12 + 4 * (size_t)below(subject.made.areas_n);
    if (chance(50))
        put16(subject.sheet, 0, ONE_OF(0, 1, 1, 1, 2, 3, 3, 4, 0x0101, 0x0102, 0x0200, 0xFFFF));
    else
        put16(subject.sheet, row + 3, ONE_OF(0, 0, 1, 2, 2, 3, 4, 4, 0x0101, 0x0102, 0x0103));
}

static void make_subject_sheet(void)
{
    subject.made_broken = RULE_NONE;
    make_sound(&subject.made);
    subject.sheet_n = put_sheet(&subject.made, subject.sheet);
    uint32_t sort = below(100);
    if (sort < 36)
        break_next_rule();
    else if (sort < 38)
        random_sheet();
    else if (sort < 40)
        cut_sheet();
    else if (sort < 43)
        poke_sheet();
    else if (sort < 44)
        huge_sheet();
    else if (sort < 49)
        poke_range();
    else if (sort < 52)
        poke_records();
    else if (sort < 56)
        poke_version();
    else if (sort < 60)
        change_sheet();
    subject.broken = second_broken_rule(subject.sheet, subject.sheet_n);
}

static bool sheet_is_as_made(void)
{
    uint8_t bytes[SHEET_ROOM];
    size_t n = put_sheet(&subject.made, bytes);
    return n == subject.sheet_n && memcmp(bytes, subject.sheet, n) == 0;
}

/* ---- Banks ---- */

static void make_subject_bank(void)
{
    subject.bank_n = 2 * (size_t)subject.made.bank_words + 2;
    make_bank(&subject.made, subject.bank);
    if (chance(25))
        second_bank_fresh(subject.sheet, subject.sheet_n, subject.bank, subject.bank_n);
}

/* ---- Rings ---- */

static void lend_ring(struct call *call)
{
    call->part[PART_RING] = subject.ring;
    call->part_n[PART_RING] = subject.ring_n;
}

/* The list of records begins anew with each ring. */
static void make_subject_ring(void)
{
    struct call call;
    memset(&call, 0, sizeof call);
    subject.ring_n = made_ring_size(&subject.made);
    make_ring(&subject.made, subject.ring);
    call.part[PART_SHEET] = subject.sheet;
    call.part_n[PART_SHEET] = subject.sheet_n;
    lend_ring(&call);
    list_begin(&call);
}

/* The ring for the next call; true if it is the subject's own. */
static bool choose_ring(struct call *call)
{
    static uint8_t ring[RING_ROOM];
    bool own = chance(call->sort == CALL_ANSWER || call->sort == CALL_WHY ? 92 : 72);
    lend_ring(call);
    if (own)
        return true;
    memcpy(ring, subject.ring, subject.ring_n);
    call->part[PART_RING] = ring;
    call->part_n[PART_RING] = spoil_ring(&subject.made, ring);
    return false;
}

static uint32_t stored_in_ring(const struct call *call)
{
    return stored_in(call->part[PART_RING], call->part_n[PART_RING]);
}

/* More calls where records are added one after the other. */
static unsigned calls_to_make(void)
{
    if (subject.broken != RULE_NONE)
        return 1 + below(2);
    return 1 + below(subject.made.records.is && chance(30) ? 24 : 9);
}

static void make_subject(void)
{
    make_subject_sheet();
    make_subject_bank();
    make_subject_ring();
    subject.left = calls_to_make();
    subject.changed = false;
}

/* A station beyond the ends; of some words the lower byte alone would do. */
static void spoil_station(uint8_t *bank)
{
    put16(bank, subject.made.address_place,
          ONE_OF(0, 0, 0, 0xF8, 0xF8, 0xFF, 0xFF, 0x0100, 0x0101, 0x01F7, 0xFFFF));
}

/* A bank of another size, not sound, or noise. */
static size_t spoil_bank(uint8_t *bank, size_t n)
{
    noise_fill(bank + n, 4);
    switch (below(11)) {
    case 0: return n + 1;
    case 1: return n + 2;
    case 2: return n - 1;
    case 3: return n - 2;
    case 4: return 0;
    case 5: put16(bank, n / 2 - 1, ONE_OF(2, 3, 0x0100, 0x0101, 0xFFFF)); return n;
    case 6: noise_fill(bank, n); return n;
    case 7: case 8: spoil_station(bank); return n;
    default:
        while (!spoil_item(&subject.made, bank))
            ;
        return n;
    }
}

/* The bank for the next call; true if it is the subject's own. The memory has
 * all words of a bank, also where fewer are lent. */
static bool choose_bank(struct call *call)
{
    static uint8_t bank[BANK_ROOM];
    memcpy(bank, subject.bank, subject.bank_n);
    bool framed = call->sort == CALL_ANSWER || call->sort == CALL_WHY;
    bool own = chance(framed || call->sort == CALL_POST ? 88 : 75);
    call->part[PART_BANK] = bank;
    call->part_n[PART_BANK] = own ? subject.bank_n : spoil_bank(bank, subject.bank_n);
    return own;
}

/* ---- Counting what a frame met ---- */

static void count_reply(const uint8_t *out)
{
    if ((out[1] & 0x80) != 0 && out[2] >= 1 && out[2] <= 3)
        met((enum special)(SPECIAL_REPLY_ERROR_1 + (out[2] - 1)));
    else if (out[1] == 0x03)
        met(SPECIAL_REPLY_READ);
    else if (out[1] == 0x05)
        met(SPECIAL_REPLY_CLEAR);
    else if (out[1] == 0x06)
        met(SPECIAL_REPLY_WRITE_ONE);
    else if (out[1] == 0x10)
        met(SPECIAL_REPLY_WRITE_MANY);
}

/* Whether an address is the upper (0) or lower (1) half of a pair. */
static bool is_half(uint32_t address, uint32_t half)
{
    int area = made_area_of(&subject.made, address);
    if (area < 0)
        return false;
    uint32_t place = subject.made.areas[area].place + (address - subject.made.areas[area].first);
    int item = made_item_of(&subject.made, place);
    return item >= 0 && subject.made.items[item].kind == 2
        && subject.made.items[item].place + half == place;
}

static bool over_areas(uint32_t start, uint32_t last)
{
    return made_area_of(&subject.made, start) != made_area_of(&subject.made, last);
}

static void count_read(const uint8_t *frame)
{
    uint32_t start = get16(frame + 2, 0);
    uint32_t count = get16(frame + 4, 0);
    if (count == 47)
        met(SPECIAL_READ_47);
    if (over_areas(start, start + count - 1))
        met(SPECIAL_READ_OVER_AREAS);
}

static void count_good_write(const uint8_t *frame)
{
    uint32_t start = get16(frame + 2, 0);
    uint32_t last = frame[1] == 0x10 ? start + get16(frame + 4, 0) - 1 : start;
    if (over_areas(start, last))
        met(SPECIAL_WRITE_OVER_AREAS);
    if (is_half(start, 1))
        met(SPECIAL_LOWER_ALONE_GOOD);
    if (is_half(last, 0))
        met(SPECIAL_UPPER_ALONE_GOOD);
}

static void count_bad_write(const struct call *call, bool changed)
{
    const uint8_t *frame = call->part[PART_BYTES];
    uint32_t start = get16(frame + 2, 0);
    if (changed)
        met(SPECIAL_STORED_PART);
    if (frame[1] == 0x06 && is_half(start, 1))
        met(SPECIAL_LOWER_ALONE_BAD);
    if (frame[1] == 0x06 && is_half(start, 0))
        met(SPECIAL_UPPER_ALONE_BAD);
}

static bool word_changed(const struct call *call, uint32_t place)
{
    return get16(call->part[PART_BANK], place) != get16(part_after(PART_BANK), place);
}

static void count_changes(const struct call *call, enum second_step step)
{
    bool address = word_changed(call, subject.made.address_place);
    if (address)
        met(SPECIAL_ADDRESS_CHANGED);
    if (address && step == STEP_7_BAD_ITEM)
        met(SPECIAL_PART_CHANGED_ADDRESS);
    if (word_changed(call, subject.made.rate_place))
        met(SPECIAL_RATE_CHANGED);
    if (step == STEP_GOOD_CLEAR && word_changed(call, subject.made.bank_words))
        met(SPECIAL_CLEARED_MARK);
}

static void count_good_frame(const struct call *call, enum second_step step)
{
    count_reply(part_after(PART_OUT));
    if (!sheet_is_as_made())
        return;
    if (step == STEP_GOOD_READ)
        count_read(call->part[PART_BYTES]);
    if (step == STEP_GOOD_WRITE_ONE || step == STEP_GOOD_WRITE_MANY)
        count_good_write(call->part[PART_BYTES]);
    if (step == STEP_7_BAD_ITEM)
        count_bad_write(call, bank_changed(call));
    count_changes(call, step);
}

static bool step_is_silent(enum second_step step)
{
    return step == STEP_2_STATION || (STEP_1_SHORT <= step && step <= STEP_1_CHECK)
        || (STEP_4_NOT_8 <= step && step <= STEP_4_NOT_9_PLUS);
}

static void count_frame(const struct call *call, const struct outcome *outcome)
{
    enum second_step step = second_step(call->part[PART_SHEET], call->part_n[PART_SHEET],
                                        call->part[PART_BANK], call->part_n[PART_BANK],
                                        call->part[PART_RING], call->part_n[PART_RING],
                                        call->part[PART_BYTES], call->part_n[PART_BYTES]);
    if (outcome->number == NUMBER_DONE || outcome->number == NUMBER_SILENCE)
        counts.step[step]++;
    if (outcome->number == NUMBER_DONE)
        count_good_frame(call, step);
    if (outcome->number == NUMBER_BUFFER && step_is_silent(step))
        met(SPECIAL_SILENCE_SMALL_BUFFER);
}

/* ---- Counting why ---- */

static void count_bad_count(const struct call *call)
{
    const uint8_t *frame = call->part[PART_BYTES];
    if (frame[1] == 0x03 && starts_at_record(call))
        met(SPECIAL_WHY_RECORD_COUNT);
    else if (get16(frame + 4, 0) == 0)
        met(SPECIAL_WHY_COUNT_0);
    else
        met(frame[1] == 0x03 ? SPECIAL_WHY_OVER_47 : SPECIAL_WHY_BYTE_COUNT);
}

static void count_bad_address(const struct call *call, uint32_t address)
{
    const uint8_t *frame = call->part[PART_BYTES];
    if (frame[1] == 0x03 && starts_at_record(call))
        met(SPECIAL_WHY_RECORD);
    else if (frame[1] == 0x05)
        met(SPECIAL_WHY_CLEAR_ADDRESS);
    else
        met(frame[1] == 0x03 ? SPECIAL_WHY_READ_ADDRESS : SPECIAL_WHY_WRITE_ADDRESS);
    if (address > get16(frame + 2, 0))
        met(SPECIAL_WHY_ADDRESS_BEHIND);
    if (address == 0x10000)
        met(SPECIAL_WHY_10000);
}

static void count_bad_item(const uint8_t *frame, uint32_t address)
{
    uint32_t start = get16(frame + 2, 0);
    if (address == start)
        met(SPECIAL_WHY_ITEM_AT_START);
    else
        met(address > start ? SPECIAL_WHY_ITEM_BEHIND : SPECIAL_WHY_ITEM_IN_FRONT);
}

static void count_why(const struct call *call, const struct outcome *why)
{
    const uint8_t *frame = call->part[PART_BYTES];
    if (why->number != NUMBER_DONE || why->reason >= REASON_COUNT)
        return;
    counts.reason[why->reason]++;
    if (why->reason == REASON_BAD_COUNT)
        count_bad_count(call);
    if (why->reason == REASON_ADDRESS)
        count_bad_address(call, why->address);
    if (why->reason == REASON_ITEM)
        count_bad_item(frame, why->address);
}

/* ---- Making a call ---- */

static bool has_empty_part(const struct call *call)
{
    switch (call->sort) {
    case CALL_CHECK_START: case CALL_CHECK_TAKE: return false;
    case CALL_CHECK_VALUE: return call->part_n[PART_BYTES] == 0;
    case CALL_QUERY: return call->part_n[PART_VALUES] == 0;
    case CALL_REPLY:
        return call->part_n[PART_VALUES] == 0 || call->part_n[PART_BYTES] == 0;
    case CALL_SHEET_CHECK: return call->part_n[PART_SHEET] == 0;
    case CALL_POST:
        return call->part_n[PART_BANK] == 0 || call->part_n[PART_BYTES] == 0;
    case CALL_ANSWER:
        return call->part_n[PART_BANK] == 0 || call->part_n[PART_BYTES] == 0
            || call->part_n[PART_OUT] == 0;
    case CALL_WHY: return call->part_n[PART_BANK] == 0 || call->part_n[PART_BYTES] == 0;
    case CALL_RING_CHECK: return call->part_n[PART_RING] == 0;
    case CALL_ADD_RECORD:
        return call->part_n[PART_RING] == 0 || call->part_n[PART_BYTES] == 0;
    default: return call->part_n[PART_BANK] == 0;
    }
}

static void count_call(const struct call *call, const struct outcome *outcome)
{
    counts.calls++;
    counts.call[call->sort]++;
    if (has_empty_part(call))
        met(SPECIAL_NULL_SLICE);
    if (call->sort >= CALL_QUERY && outcome->number < NUMBER_COUNT)
        counts.number[call->sort][outcome->number]++;
    if (call->sort < CALL_SHEET_CHECK)
        return;
    if (subject.made_broken != RULE_NONE)
        counts.rule_alone[subject.made_broken]++;
    counts.rule_first[subject.broken]++;
    if (subject.changed)
        met(SPECIAL_CHAINED);
}

/* A sheet that is sound by its making. To one without a record area nothing can
 * be added. */
static bool is_refused_as_made(const struct call *call, const struct outcome *outcome)
{
    return call->sort >= CALL_SHEET_CHECK && outcome->number == NUMBER_SHEET && sheet_is_as_made()
        && !(call->sort == CALL_ADD_RECORD && !subject.made.records.is);
}

/* Makes the call on both sides, holds it to what is known of stations, of presets, of
 * records, of the sides of a range and of orders, and counts it. */
static struct outcome make_call(const struct call *call)
{
    struct outcome outcome;
    if (!same_on_both_sides(call, &outcome))
        differs(call, NULL);
    const char *breach = station_breach(call, &outcome);
    if (breach == NULL)
        breach = preset_breach(call, &outcome);
    if (breach == NULL)
        breach = record_breach(call, &outcome);
    if (breach == NULL)
        breach = side_breach(call, &outcome);
    if (breach == NULL)
        breach = order_breach(call, &outcome);
    if (breach == NULL && is_refused_as_made(call, &outcome))
        breach = "a sheet that was made sound is refused";
    if (breach != NULL)
        differs(call, breach);
    count_call(call, &outcome);
    count_stations(&counts, call, &outcome);
    count_presets(&counts, call, &outcome);
    count_records(&counts, call, &outcome);
    count_sides(&counts, call, &outcome);
    count_orders(&counts, call, &outcome);
    return outcome;
}

/* The bank that the call left goes into the next one. */
static void keep_bank(const struct call *call, bool own)
{
    if (!own || !bank_changed(call))
        return;
    memcpy(subject.bank, part_after(PART_BANK), subject.bank_n);
    subject.changed = true;
}

/* The ring too, and the list of its records follows. */
static void keep_ring(const struct call *call, const struct outcome *outcome, bool own)
{
    if (!own)
        return;
    const char *breach = list_follow(&counts, call, outcome);
    if (breach != NULL)
        differs(call, breach);
    if (call->sort == CALL_ADD_RECORD && part_changed(call, PART_RING))
        memcpy(subject.ring, part_after(PART_RING), subject.ring_n);
}

static struct call new_call(enum call_sort sort)
{
    struct call call;
    memset(&call, 0, sizeof call);
    call.sort = sort;
    if (sort >= CALL_SHEET_CHECK) {
        call.part[PART_SHEET] = subject.sheet;
        call.part_n[PART_SHEET] = subject.sheet_n;
    }
    return call;
}

static void call_check(enum call_sort sort)
{
    static uint8_t bytes[600];
    struct call call = new_call(sort);
    if (sort == CALL_CHECK_TAKE) {
        call.value = below(0x10000);
        call.byte = (uint8_t)below(256);
    }
    if (sort == CALL_CHECK_VALUE) {
        call.part[PART_BYTES] = bytes;
        call.part_n[PART_BYTES] = chance(10) ? 0 : chance(50) ? below(12) : below(sizeof bytes);
        noise_fill(bytes, call.part_n[PART_BYTES]);
    }
    make_call(&call);
}

static void call_sheet(void)
{
    struct call call = new_call(CALL_SHEET_CHECK);
    make_call(&call);
}

static void call_bank(enum call_sort sort)
{
    struct call call = new_call(sort);
    bool own = choose_bank(&call);
    make_call(&call);
    keep_bank(&call, own);
}

static void count_post(const struct call *call, const struct outcome *outcome)
{
    if (!sheet_is_as_made())
        return;
    uint32_t count = (uint32_t)(call->part_n[PART_BYTES] / 2);
    int area = made_area_of(&subject.made, call->value);
    if (outcome->number == NUMBER_DONE && over_areas(call->value, call->value + count - 1))
        met(SPECIAL_POST_OVER_AREAS);
    if (outcome->number == NUMBER_BAD_INPUT && call->part_n[PART_BYTES] > 0
        && (area < 0 || subject.made.areas[area].access != 1))
        met(SPECIAL_7_BEFORE_6);
}

static void call_post(void)
{
    static uint8_t words[POST_ROOM];
    struct call call = new_call(CALL_POST);
    bool own = choose_bank(&call);
    call.part_n[PART_BYTES] = make_post(&subject.made, &call.value, words);
    call.part[PART_BYTES] = words;
    struct outcome outcome = make_call(&call);
    count_post(&call, &outcome);
    keep_bank(&call, own);
}

static void call_mark(void)
{
    struct call call = new_call(CALL_SET_MARK);
    bool own = choose_bank(&call);
    call.value = chance(60) ? below(2) : ONE_OF(2, 256, 65536, 65537, 0xFFFFFFFF, 0x80000000);
    make_call(&call);
    keep_bank(&call, own);
}

static void call_ring(void)
{
    struct call call = new_call(CALL_RING_CHECK);
    choose_ring(&call);
    make_call(&call);
}

/* A whole record, mostly; else none, one byte or word less or more, or two. */
static size_t some_record_bytes(void)
{
    size_t right = 2 * (size_t)subject.made.records.words;
    if (chance(60))
        return right;
    switch (below(7)) {
    case 0: return 0;
    case 1: return right == 0 ? 0 : right - 1;
    case 2: return right + 1;
    case 3: return right == 0 ? 0 : right - 2;
    case 4: return right + 2;
    case 5: return 2 * right;
    default: return below(100);
    }
}

static void call_add(void)
{
    static uint8_t record[4 * RECORD_WORDS_MOST + 100];
    struct call call = new_call(CALL_ADD_RECORD);
    bool own = choose_ring(&call);
    call.part_n[PART_BYTES] = some_record_bytes();
    noise_fill(record, call.part_n[PART_BYTES]);
    call.part[PART_BYTES] = record;
    struct outcome outcome = make_call(&call);
    keep_ring(&call, &outcome, own);
}

/* Too small more often where the ring is refused, which is told first. */
static void choose_out(struct call *call, bool large_enough)
{
    static uint8_t out[OUT_ROOM];
    bool has_ring = call->sort >= CALL_SHEET_CHECK;
    uint32_t small = has_ring && call->part[PART_RING] != subject.ring ? 40 : 8;
    call->part_n[PART_OUT] = ONE_OF(100, 100, 100, 100, 101, 101, 300, 300, 256, 120);
    if (chance(2))
        call->part_n[PART_OUT] = OUT_ROOM;
    if (!large_enough && chance(small))
        call->part_n[PART_OUT] = ONE_OF(0, 1, 50, 99, 99);
    noise_fill(out, call->part_n[PART_OUT]);
    call->part[PART_OUT] = out;
}

static void call_answer(void)
{
    static uint8_t frame[FRAME_ROOM];
    struct call call = new_call(CALL_ANSWER);
    bool own = choose_bank(&call);
    bool own_ring = choose_ring(&call);
    call.part_n[PART_BYTES] = make_frame(&subject.made, call.part[PART_BANK],
                                         stored_in_ring(&call), frame);
    call.part[PART_BYTES] = frame;
    choose_out(&call, false);
    struct outcome outcome = make_call(&call);
    count_frame(&call, &outcome);
    keep_bank(&call, own);
    keep_ring(&call, &outcome, own_ring);
}

/* The error code that goes out for a reason; 0 for silence and for a reply
 * without error. */
static uint8_t error_of_reason(const struct call *call, uint32_t reason)
{
    const uint8_t *frame = call->part[PART_BYTES];
    switch (reason) {
    case REASON_FUNCTION: return 1;
    case REASON_BAD_COUNT:
        return frame[1] == 0x03 && get16(frame + 4, 0) > 47 && !starts_at_record(call) ? 2 : 3;
    case REASON_ADDRESS: return 2;
    case REASON_CLEAR_VALUE: case REASON_ITEM: return 3;
    default: return 0;
    }
}

/* Whether the answer is the one that the reason says; a refusal is the same
 * number for both. */
static bool answer_fits(const struct call *call, const struct outcome *why,
                        const struct outcome *answer)
{
    if (why->number != NUMBER_DONE)
        return answer->number == why->number;
    const uint8_t *frame = call->part[PART_BYTES];
    const uint8_t *out = part_after(PART_OUT);
    uint8_t error = error_of_reason(call, why->reason);
    if (error == 0 && why->reason != REASON_NONE)
        return answer->number == NUMBER_SILENCE;
    if (answer->number != NUMBER_DONE)
        return false;
    if (error == 0)
        return out[1] == frame[1] && (out[1] & 0x80) == 0;
    return answer->length == 5 && out[1] == (frame[1] | 0x80) && out[2] == error;
}

/* Whether the frame with its faults gets the reason, the address and the side that
 * it was made for. */
static bool as_made(const struct faulty *faulty, const struct outcome *why)
{
    bool several = (faulty->faults & (faulty->faults - 1)) != 0;
    if (several)
        counts.reason_of_several[faulty->reason]++;
    return why->reason == faulty->reason && why->address == faulty->address
        && why->side == faulty->side;
}

/* A frame for the call's bank and ring; whether its reason is known. */
static bool choose_frame(struct call *call, struct faulty *faulty, bool own)
{
    uint32_t stored = stored_in_ring(call);
    bool known = chance(50);
    if (known)
        make_faulty(&subject.made, subject.bank, stored, faulty);
    else
        faulty->n = make_frame(&subject.made, call->part[PART_BANK], stored, faulty->frame);
    call->part[PART_BYTES] = faulty->frame;
    call->part_n[PART_BYTES] = faulty->n;
    return known && own && sheet_is_as_made();
}

/* A frame that was asked about is answered: the bank and the ring are the same for
 * both. */
static struct outcome answer_too(struct call *call, const struct outcome *why)
{
    call->sort = CALL_ANSWER;
    choose_out(call, true);
    struct outcome answer = make_call(call);
    count_frame(call, &answer);
    if (!answer_fits(call, why, &answer))
        differs(call, "the answer is not the one that the reason says");
    return answer;
}

static void call_why(void)
{
    static struct faulty faulty;
    struct call call = new_call(CALL_WHY);
    bool own = choose_bank(&call);
    bool own_ring = choose_ring(&call);
    bool known = choose_frame(&call, &faulty, own);
    struct outcome why = make_call(&call);
    count_why(&call, &why);
    if (known && why.number == NUMBER_DONE && !as_made(&faulty, &why))
        differs(&call, "the reason is not the one that the frame was made for");
    struct outcome answer = answer_too(&call, &why);
    keep_bank(&call, own);
    keep_ring(&call, &answer, own_ring);
}

/* A call for the reason, lent a copy of the subject's bank and room for a frame. */
static struct call new_why(uint8_t *bank, uint8_t *frame)
{
    struct call call = new_call(CALL_WHY);
    memcpy(bank, subject.bank, subject.bank_n);
    call.part[PART_BANK] = bank;
    call.part_n[PART_BANK] = subject.bank_n;
    lend_ring(&call);
    call.part[PART_BYTES] = frame;
    return call;
}

/* A write at an end of an item's range is asked about, and sometimes answered. */
static void call_end(void)
{
    static uint8_t bank[BANK_ROOM], frame[FRAME_ROOM];
    struct call call = new_why(bank, frame);
    call.part_n[PART_BYTES] = make_end_write(&subject.made, bank, frame);
    if (call.part_n[PART_BYTES] == 0)
        return;
    struct outcome why = make_call(&call);
    count_why(&call, &why);
    if (chance(20) && counts.calls < calls_asked)
        answer_too(&call, &why);
}

/* Some of them, on one sheet. */
static void call_ends(void)
{
    for (uint32_t ends = 1 + below(6); ends > 0 && counts.calls < calls_asked; ends--)
        call_end();
}

/* A frame about registers that are only written is asked about and answered; false if
 * the sheet has none. */
static bool call_preset(void)
{
    static uint8_t bank[BANK_ROOM], frame[FRAME_ROOM];
    struct call call = new_why(bank, frame);
    call.part_n[PART_BYTES] = make_preset_frame(&subject.made, bank, frame);
    if (call.part_n[PART_BYTES] == 0)
        return false;
    struct outcome why = make_call(&call);
    count_why(&call, &why);
    answer_too(&call, &why);
    keep_bank(&call, true);
    return true;
}

/* A passing frame, damaged: whatever the frame, the reason is its check, and
 * the answer is silence. */
static void call_damaged(void)
{
    static uint8_t frame[FRAME_ROOM];
    struct call call = new_call(CALL_ANSWER);
    call.part[PART_BANK] = subject.bank;
    call.part_n[PART_BANK] = subject.bank_n;
    lend_ring(&call);
    call.part_n[PART_BYTES] = make_passing_frame(&subject.made, subject.bank,
                                                 stored_in_ring(&call), frame);
    call.part[PART_BYTES] = frame;
    enum damage damage = damage_frame(frame, call.part_n[PART_BYTES]);
    call.sort = CALL_WHY;
    struct outcome outcome = make_call(&call);
    count_why(&call, &outcome);
    if (outcome.number != NUMBER_DONE || outcome.reason != REASON_CHECK)
        differs(&call, "a damaged frame's reason is not its check");
    call.sort = CALL_ANSWER;
    choose_out(&call, true);
    outcome = make_call(&call);
    count_frame(&call, &outcome);
    counts.damage[damage]++;
    if (!is_untouched(&call, &outcome))
        differs(&call, "a damaged frame was not met with silence");
}

/* Two calls are on one frame, and six at most on one order; the last calls of a run
 * may be left alone. */
static bool is_room_for(uint64_t calls)
{
    return calls_asked - counts.calls >= calls;
}

/* ---- The box that asks ---- */

static struct call new_order(enum call_sort sort, const struct made_order *order)
{
    struct call call = new_call(sort);
    call.asked = order->asked;
    call.part[PART_VALUES] = order->values;
    call.part_n[PART_VALUES] = order->values_n;
    return call;
}

/* A call of the box, or of the meter that it asks. */
static struct outcome make_box_call(const struct call *call)
{
    counts.calls_of_box++;
    return make_call(call);
}

/* Values whose number of bytes, or of words, has lower bits that would do. */
static void lend_large_values(struct call *call)
{
    static const uint8_t values[0x20000 + 90];
    call->part[PART_VALUES] = values;
    call->part_n[PART_VALUES] = ONE_OF(0x10000, 0x20000) + ONE_OF(0, 1, 2, 90);
}

static void call_query(void)
{
    static struct made_order order;
    make_order(&order);
    if (chance(60))
        spoil_order(&order);
    struct call call = new_order(CALL_QUERY, &order);
    if (chance(1))
        lend_large_values(&call);
    choose_out(&call, false);
    make_box_call(&call);
}

/* What comes back to an order of any sort, in any way. */
static void call_reply(void)
{
    static struct made_order order;
    static uint8_t reply[REPLY_ROOM];
    make_order(&order);
    if (chance(35))
        spoil_order(&order);
    size_t n = make_reply(&order, reply);
    if (chance(70))
        n = spoil_reply(reply, n);
    if (chance(5))
        change_order(&order);
    struct call call = new_order(CALL_REPLY, &order);
    if (chance(1))
        lend_large_values(&call);
    call.part[PART_BYTES] = reply;
    call.part_n[PART_BYTES] = n;
    choose_out(&call, false);
    make_box_call(&call);
}

/* A reply that was good before it was damaged: 10, whatever it was. */
static void read_damaged(const struct made_order *order, const uint8_t *bytes, size_t n)
{
    static uint8_t reply[REPLY_ROOM];
    struct call call = new_order(CALL_REPLY, order);
    memcpy(reply, bytes, n);
    counts.reply_damage[damage_frame(reply, n)]++;
    call.part[PART_BYTES] = reply;
    call.part_n[PART_BYTES] = n;
    choose_out(&call, true);
    struct outcome outcome = make_box_call(&call);
    if (outcome.number != NUMBER_REPLY_DAMAGED)
        differs(&call, "a damaged reply was not refused for it");
}

static void call_damaged_reply(void)
{
    static struct made_order order;
    uint8_t reply[REPLY_ROOM];
    make_order(&order);
    size_t n = make_reply(&order, reply);
    read_damaged(&order, reply, n);
}

/* A call that needs no meter. */
static void some_box_call(void)
{
    uint32_t sort = below(100);
    if (sort < 40)
        call_query();
    else if (sort < 95)
        call_reply();
    else
        call_damaged_reply();
}

/* ---- The box and the subject's meter ---- */

/* The query of an order is the frame that the order was made of. */
static bool build_query(struct call *call, const uint8_t *frame, size_t n)
{
    choose_out(call, true);
    struct outcome outcome = make_box_call(call);
    bool same = outcome.number == NUMBER_DONE && outcome.length == n
        && memcmp(part_after(PART_OUT), frame, n) == 0;
    if (!same)
        differs(call, "the query is not the frame that the order was made of");
    return same;
}

static void ask_about_query(const struct call *query, struct call *call)
{
    call->sort = CALL_WHY;
    struct outcome why = make_box_call(call);
    count_why(call, &why);
    const char *breach = query_reason_breach(query, call, &why);
    if (breach != NULL)
        differs(call, breach);
}

/* The meter gets the frame; its answer's length, 0 for silence. */
static size_t answer_query(const struct call *query, struct call *call, uint8_t *reply)
{
    call->sort = CALL_ANSWER;
    choose_out(call, true);
    struct outcome answer = make_box_call(call);
    count_frame(call, &answer);
    const char *breach = answered_breach(query, call, &answer);
    if (breach != NULL)
        differs(call, breach);
    if (answer.number == NUMBER_SILENCE)
        counts.asked_met[ASKED_OTHER_STATION]++;
    memcpy(reply, part_after(PART_OUT), answer.length);
    keep_ring(call, &answer, true);
    return answer.length;
}

/* The answer is read against the order, which the meter got. */
static void read_answer(const struct made_order *order, const struct call *answer,
                        const uint8_t *reply, size_t n)
{
    struct call call = new_order(CALL_REPLY, order);
    call.part[PART_BYTES] = reply;
    call.part_n[PART_BYTES] = n;
    choose_out(&call, true);
    struct outcome outcome = make_box_call(&call);
    const char *breach = read_breach(&call, answer, &outcome);
    if (breach != NULL)
        differs(&call, breach);
    count_asked(&counts, &call, answer, &outcome);
}

/* The answer is read against another order. Whether it is taken is for its bytes to
 * say, since it may tell nothing of what differs. */
static void read_for_other(struct made_order *order, const uint8_t *reply, size_t n)
{
    change_order(order);
    struct call call = new_order(CALL_REPLY, order);
    call.part[PART_BYTES] = reply;
    call.part_n[PART_BYTES] = n;
    choose_out(&call, true);
    struct outcome outcome = make_box_call(&call);
    counts.asked_met[outcome.number == NUMBER_DONE ? ASKED_OTHER_TAKEN : ASKED_OTHER_REFUSED]++;
}

/* An order on its whole way: built, asked about, answered and read; the answer is read
 * damaged too, and for another order. The meter has a copy of the bank, since what is
 * read is held to what the bank was before. */
static void call_meter(void)
{
    static struct made_order order;
    uint8_t frame[FRAME_ROOM], reply[REPLY_ROOM], bank[BANK_ROOM];
    struct call answer = new_call(CALL_ANSWER);
    memcpy(bank, subject.bank, subject.bank_n);
    answer.part[PART_BANK] = bank;
    answer.part_n[PART_BANK] = subject.bank_n;
    lend_ring(&answer);
    answer.part_n[PART_BYTES] = make_order_of_meter(&subject.made, bank, stored_in_ring(&answer),
                                                    &order, frame);
    answer.part[PART_BYTES] = frame;
    struct call query = new_order(CALL_QUERY, &order);
    if (!build_query(&query, frame, answer.part_n[PART_BYTES]))
        return;
    if (chance(30))
        ask_about_query(&query, &answer);
    size_t n = answer_query(&query, &answer, reply);
    keep_bank(&answer, true);
    if (n == 0)
        return;
    read_answer(&order, &answer, reply, n);
    if (chance(20))
        read_damaged(&order, reply, n);
    if (chance(40))
        read_for_other(&order, reply, n);
}

/* ---- Records one after the other ---- */

static void add_whole_record(void)
{
    uint8_t record[2 * RECORD_WORDS_MOST];
    struct call call = new_call(CALL_ADD_RECORD);
    lend_ring(&call);
    call.part_n[PART_BYTES] = 2 * (size_t)subject.made.records.words;
    noise_fill(record, call.part_n[PART_BYTES]);
    call.part[PART_BYTES] = record;
    struct outcome outcome = make_call(&call);
    keep_ring(&call, &outcome, true);
}

static void read_one_record(void)
{
    uint8_t frame[8];
    struct call call = new_call(CALL_ANSWER);
    call.part[PART_BANK] = subject.bank;
    call.part_n[PART_BANK] = subject.bank_n;
    lend_ring(&call);
    put_start(frame, 0x03, some_record(&subject.made, stored_in_ring(&call)), 1);
    frame[0] = own_station(&subject.made, subject.bank);
    call.part[PART_BYTES] = frame;
    call.part_n[PART_BYTES] = add_check(frame, 6);
    choose_out(&call, true);
    struct outcome outcome = make_call(&call);
    count_frame(&call, &outcome);
    keep_ring(&call, &outcome, true);
}

/* Some records are added, and then some are read. */
static void call_sequence(void)
{
    for (uint32_t adds = 1 + below(4); adds > 0 && counts.calls < calls_asked; adds--)
        add_whole_record();
    for (uint32_t reads = 1 + below(4); reads > 0 && counts.calls < calls_asked; reads--)
        read_one_record();
}


/* An order for the subject's meter, where there is one. */
static bool some_order_call(bool sound)
{
    if (!sound || !chance(8) || !is_room_for(6))
        return false;
    call_meter();
    return true;
}

/* Frames about registers that are only written, some of them on one sheet. */
static bool some_preset_call(bool sound)
{
    uint32_t frames = 1 + below(4);
    if (!sound || !chance(14) || !is_room_for(2) || !call_preset())
        return false;
    while (--frames > 0 && is_room_for(2))
        call_preset();
    return true;
}

/* A call about a ring: more of them where there are records to add. */
static bool some_ring_call(bool sound)
{
    bool records = sound && subject.made.records.is;
    if (!chance(records ? 18 : 5))
        return false;
    if (records && chance(15))
        call_sequence();
    else if (chance(22))
        call_ring();
    else
        call_add();
    return true;
}

static void some_call(void)
{
    bool sound = subject.broken == RULE_NONE && sheet_is_as_made();
    bool writes = sound && (subject.made.functions & 12) == 12;
    uint32_t sort = below(100);
    if (some_order_call(sound) || some_preset_call(sound) || some_ring_call(sound))
        return;
    if (sort < 1)
        call_check(CALL_CHECK_START);
    else if (sort < 2)
        call_check(CALL_CHECK_TAKE);
    else if (sort < 4)
        call_check(CALL_CHECK_VALUE);
    else if (sort < (sound ? 6 : 38))
        call_sheet();
    else if (sort < (sound ? 11 : 49))
        call_bank(CALL_BANK_CHECK);
    else if (sort < (sound ? 15 : 59))
        call_bank(CALL_BANK_FRESH);
    else if (sort < (sound ? 30 : 69))
        call_post();
    else if (sort < (sound ? 33 : 79))
        call_mark();
    else if (sort < (sound ? 61 : 90) || !is_room_for(2))
        call_answer();
    else if (sort < 64 && sound)
        call_damaged();
    else if (sort < 69 && writes)
        call_ends();
    else
        call_why();
}

int main(int argc, char **argv)
{
    uint64_t seed = argc > 1 ? strtoull(argv[1], NULL, 10) : 1;
    uint64_t calls = argc > 2 ? strtoull(argv[2], NULL, 10) : LEAST_CALLS;
    noise_seed(seed);
    calls_asked = calls;
    while (counts.calls < calls) {
        if (chance(19)) {
            some_box_call();
            continue;
        }
        if (subject.left == 0)
            make_subject();
        subject.left--;
        some_call();
    }
    bool enough = counts_enough(&counts, calls >= LEAST_CALLS ? CALLS_FOR_ONE : 0);
    printf("seed %" PRIu64 ": compared %" PRIu64 " calls, %" PRIu64 " differences\n", seed,
           counts.calls, differences);
    return differences == 0 && enough ? 0 : 1;
}
