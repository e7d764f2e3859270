/* For each rule of the sheet an otherwise sound sheet that breaks it alone.
 *
 * Each breaker changes a sound sheet in one respect. Some changes break a
 * second rule or none, as the sheet's shape has it; make_broken then takes the
 * next sheet, so that only sheets with the one rule broken are handed out.
 *
 * Three rules cannot be broken alone, and for them it is the first broken rule:
 * - a sheet below 12 words has no length word that its byte length could
 *   agree with and still be 12 + 4A + 6I;
 * - address and rate at one place have one range, and none is both 0 to 1 and
 *   within 1 to F7;
 * - a rate range that does not hold 1 is not 0 to 1 either.
 * Parts of other rules cannot be broken alone either: 0 areas (B would be 0),
 * 0 or 1 items (address and rate need two), B of 0 or 1 (two items need two
 * places), an address range of 0 alone (it is not within 1 to F7), another version
 * than 1 and 2 with access 2 (which is for version 2), an access that is none in an
 * area of items (which are in no other). Those are met among the poked and the random
 * sheets. */
#include "noise.h"
#include "sheets_made.h"

#include <string.h>

typedef void break_made(struct made *made);
typedef void break_bytes(uint8_t *bytes, size_t *n);

/* ---- The header ---- */

static void cut_header(uint8_t *bytes, size_t *n)
{
    (void)bytes;
    *n = below(24);
}

static void break_version(uint8_t *bytes, size_t *n)
{
    (void)n;
    put16(bytes, 0, ONE_OF(0, 0, 0, 0, 3, 3, 3, 4, 0x0101, 0x0102, 0x0200, 0x8002));
}

static struct made_area *last_area(struct made *made)
{
    return &made->areas[made->areas_n - 1];
}

/* Areas of one word behind the last one until there are nine. */
static void make_nine_areas(struct made *made)
{
    while (made->areas_n < 9) {
        const struct made_area *last = last_area(made);
        struct made_area *area = &made->areas[made->areas_n];
        area->first = last->last + 1 + below(2);
        area->last = area->first;
        area->place = made->bank_words;
        area->access = 1;
        made->areas_n++;
        made->bank_words++;
    }
}

static void break_area_offset(uint8_t *bytes, size_t *n)
{
    (void)n;
    put16(bytes, 2, ONE_OF(0, 11, 13, 16, 24, 0x010C, 0xFFFF));
}

/* The last area grows, one word and one item at a time, to 65 items. */
static void make_65_items(struct made *made)
{
    while (made->items_n < 65) {
        struct made_item *item = &made->items[made->items_n++];
        struct made_area *last = last_area(made);
        item->kind = below(2);
        item->place = made->bank_words++;
        item->low = between(0, 100);
        item->high = between(item->low, 1000);
        last->last++;
    }
}

static void break_item_offset(uint8_t *bytes, size_t *n)
{
    (void)n;
    uint32_t offset = get16(bytes, 4);
    put16(bytes, 4, ONE_OF(0, 12, offset - 1, offset + 1, offset + 4, 2 * offset, offset + 0x8000));
}

/* A longer last area, so that B is above 256. */
static void make_257_words(struct made *made)
{
    uint32_t wanted = chance(60) ? 257 : 258 + below(300);
    struct made_area *last = last_area(made);
    if (made->bank_words < wanted) {
        last->last += wanted - made->bank_words;
        made->bank_words = wanted;
    }
}

static void break_functions(uint8_t *bytes, size_t *n)
{
    (void)n;
    put16(bytes, 6, get16(bytes, 6) + ONE_OF(0x10, 0x20, 0x0100, 0x1000, 0x8000, 0xFFF0));
}

static void break_length_word(uint8_t *bytes, size_t *n)
{
    uint32_t more = 1 + below(6);
    noise_fill(bytes + *n, 2 * more);
    *n += 2 * more;
    if (chance(20))
        *n -= 4 * more;
    put16(bytes, 7, (uint32_t)(*n / 2));
}

static void break_word_11(uint8_t *bytes, size_t *n)
{
    (void)n;
    put16(bytes, 11, ONE_OF(2, 2, 3, 0x0100, 0x0101, 0x8000, 0xFFFF));
}

static void break_byte_length(uint8_t *bytes, size_t *n)
{
    noise_fill(bytes + *n, 100);
    *n += ONE_OF(1, 2, 3, 4, 12, 100);
    if (chance(20))
        *n = 2 * (size_t)get16(bytes, 7) - 1;
}

/* ---- Area rows ---- */

static struct made_area *some_area(struct made *made)
{
    return &made->areas[below(made->areas_n)];
}

static void break_access(struct made *made)
{
    some_area(made)->access = ONE_OF(0, 0, 0, 4, 4, 4, 5, 6, 7, 0x0101, 0x0102, 0x0103, 0x0200,
                                     0x0300, 0xFFFF);
}

/* An area with first one above last has no address and no place, so that no
 * sum changes. */
static void insert_empty_area(struct made *made)
{
    uint32_t at = below(made->areas_n + 1);
    uint32_t first = at == 0 ? made->areas[0].first - 1 : made->areas[at - 1].last + 1;
    uint32_t place = at < made->areas_n ? made->areas[at].place : made->bank_words;
    if (made->areas_n >= 9 || first == 0 || first > 0xFFFF)
        return;
    memmove(&made->areas[at + 1], &made->areas[at],
            (made->areas_n - at) * sizeof made->areas[0]);
    made->areas[at].first = first;
    made->areas[at].last = first - 1 - below(first < 3 ? 1 : 3);
    made->areas[at].place = place;
    made->areas[at].access = ONE_OF(1, made->version == 2 ? 2 : 3, 3);
    made->areas_n++;
}

static uint32_t length_of(const struct made_area *area)
{
    return area->last - area->first + 1;
}

static void move_area(struct made_area *area, uint32_t first)
{
    area->last = first + (area->last - area->first);
    area->first = first;
}

/* Two areas change their sides. */
static void swap_areas(struct made *made)
{
    uint32_t at = below(made->areas_n);
    if (at + 1 == made->areas_n)
        return;
    struct made_area *lower = &made->areas[at];
    struct made_area *upper = lower + 1;
    uint32_t first = lower->first;
    move_area(lower, upper->last - (lower->last - lower->first));
    move_area(upper, first);
}

/* An area moves down onto the one before it, by one address or more. */
static void overlap_areas(struct made *made)
{
    uint32_t at = below(made->areas_n);
    if (at + 1 == made->areas_n)
        return;
    const struct made_area *lower = &made->areas[at];
    move_area(&made->areas[at + 1], lower->last - below(length_of(lower)));
}

static void break_area_place(struct made *made)
{
    struct made_area *area = some_area(made);
    area->place = (area->place + ONE_OF(1, 2, 5, 0x0100, 0xFFFF, 0xFFFE)) & 0xFFFF;
}

static void break_sum(struct made *made)
{
    made->bank_words += ONE_OF(1, 2, 0xFFFFFFFF, 10, 0xFFFFFFFE);
}

static void break_clear_apart(struct made *made)
{
    const struct made_area *area = some_area(made);
    made->functions |= 2;
    made->clear = ONE_OF(area->first, area->last, area->first + below(length_of(area)));
}

static void break_clear_zero(struct made *made)
{
    made->functions &= 13;
    made->clear = ONE_OF(1, 0x0300, 0x0100, 0x8000, 0xFFFF, some_area(made)->first);
}

/* Areas that are only written, in the version that does not know them. */
static void break_write_only(struct made *made)
{
    struct made_area *area = some_area(made);
    made->version = 1;
    if (area->access == 3)
        area->access = 2;
}

/* ---- Item rows ---- */

static struct made_item *some_item(struct made *made)
{
    return &made->items[below(made->items_n)];
}

static void break_kind(struct made *made)
{
    struct made_item *item = some_item(made);
    if (item->kind != 2)
        item->kind = ONE_OF(3, 4, 5, 0x0100, 0x0101, 0x0102, 0x8000, 0xFFFF);
}

/* One first word of the low (column 2) or high (column 4) bounds. */
static void poke_first_word(uint8_t *bytes, size_t column)
{
    size_t item = below(get16(bytes, 3));
    size_t row = 12 + 4 * (size_t)get16(bytes, 1) + 6 * item;
    put16(bytes, row + column, ONE_OF(1, 2, 0x0100, 0x8000, 0xFFFF));
}

static void break_low_word(uint8_t *bytes, size_t *n)
{
    (void)n;
    poke_first_word(bytes, 2);
}

static void break_high_word(uint8_t *bytes, size_t *n)
{
    (void)n;
    poke_first_word(bytes, 4);
}

static void break_low_high(struct made *made)
{
    struct made_item *item = some_item(made);
    int64_t low = item->low;
    if (chance(50) && item->high < kind_most(item->kind)) {
        item->low = item->high + 1;
    } else {
        item->low = item->high;
        item->high = low;
    }
}

static void swap_items(struct made *made)
{
    struct made_item *one = some_item(made);
    struct made_item *other = chance(50) ? some_item(made) : &made->items[0];
    struct made_item kept = *one;
    *one = *other;
    *other = kept;
}

static void drop_item(struct made *made)
{
    uint32_t at = below(made->items_n);
    made->items_n--;
    memmove(&made->items[at], &made->items[at + 1],
            (made->items_n - at) * sizeof made->items[0]);
}

/* One item less, or a pair that takes one place only. */
static void leave_place_out(struct made *made)
{
    struct made_item *item = some_item(made);
    if (chance(60) || item->kind != 2) {
        drop_item(made);
    } else {
        item->kind = below(2);
        item->low = 0;
        item->high = 9;
        item->place += below(2);
    }
}

static void insert_item(struct made *made, uint32_t kind, uint32_t place)
{
    uint32_t at = 0;
    while (at < made->items_n && made->items[at].place < place)
        at++;
    memmove(&made->items[at + 1], &made->items[at],
            (made->items_n - at) * sizeof made->items[0]);
    struct made_item item = { kind, place, 1, 100 };
    made->items[at] = item;
    made->items_n++;
}

/* A word becomes a pair over the next item, or the lower half of a pair gets
 * an item of its own. */
static void cover_twice(struct made *made)
{
    struct made_item *item = some_item(made);
    if (item->kind == 2) {
        insert_item(made, below(3), item->place + 1);
    } else {
        item->kind = 2;
        item->low = 0;
        item->high = 70000;
    }
}

/* An item in a read-only area or behind the last place. */
static void cover_other(struct made *made)
{
    const struct made_area *area = some_area(made);
    uint32_t place = area->place + below(length_of(area));
    if (area->access != 1)
        place = made->bank_words + ONE_OF(0, 1, 2, 0x1000);
    insert_item(made, below(3), place);
}

static uint32_t item_end(const struct made_item *item)
{
    return item->place + (item->kind == 2 ? 2 : 1);
}

/* The words on both sides of a place become one pair, if they are items of their own;
 * not the address or the rate, which would break another rule. */
static bool join_at(struct made *made, uint32_t edge)
{
    for (uint32_t i = 1; i < made->items_n; i++) {
        struct made_item *before = &made->items[i - 1];
        const struct made_item *item = &made->items[i];
        bool setting = before->place == made->address_place || before->place == made->rate_place
            || edge == made->address_place || edge == made->rate_place;
        if (item->place != edge || item->kind == 2 || before->kind == 2 || item_end(before) != edge
            || setting)
            continue;
        before->kind = 2;
        before->low = 0;
        before->high = 99999;
        made->items_n--;
        memmove(&made->items[i], &made->items[i + 1],
                (made->items_n - i) * sizeof made->items[0]);
        return true;
    }
    return false;
}

/* The last word of an area and the first of the next become one pair. In version 2
 * these areas are often only written. */
static void join_over_areas(struct made *made)
{
    uint32_t at = 0;
    bool joined = false;
    for (int tries = 0; tries < 8 && !joined; tries++) {
        at = below(made->areas_n);
        joined = join_at(made, made->areas[at].place);
    }
    if (joined && made->version == 2 && chance(30)) {
        made->areas[at - 1].access = 2;
        made->areas[at].access = 2;
    }
}

/* ---- Address and rate ---- */

static struct made_item *item_of_place(struct made *made, uint32_t place)
{
    return &made->items[made_item_of(made, place)];
}

static void same_place(struct made *made)
{
    made->address_place = made->rate_place;
}

/* Another place for the address or the rate: in a pair whose range would do,
 * read only, or behind the bank. */
static uint32_t wrong_place(struct made *made, int64_t low, int64_t high)
{
    struct made_item *item = some_item(made);
    const struct made_area *area = some_area(made);
    if (item->kind == 2) {
        item->low = low;
        item->high = high;
        return item->place + below(2);
    }
    if (area->access == 1)
        return area->place + below(length_of(area));
    return made->bank_words + ONE_OF(0, 1, 0x1000);
}

static void break_address_item(struct made *made)
{
    if (chance(40))
        item_of_place(made, made->address_place)->kind = 1;
    else
        made->address_place = wrong_place(made, FIRST_STATION, LAST_STATION);
}

static void break_rate_item(struct made *made)
{
    if (chance(40))
        item_of_place(made, made->rate_place)->kind = 1;
    else
        made->rate_place = wrong_place(made, 0, 1);
}

static void set_range(struct made *made, uint32_t place, int64_t low, int64_t high)
{
    struct made_item *item = item_of_place(made, place);
    item->low = low;
    item->high = high;
}

static void break_address_holds_1(struct made *made)
{
    int64_t low = chance(30) ? 2 : between(2, LAST_STATION);
    int64_t high = chance(30) ? LAST_STATION : between(low, LAST_STATION);
    set_range(made, made->address_place, low, high);
}

static void break_rate_holds_1(struct made *made)
{
    int64_t low = chance(50) ? 0 : between(2, 0xFF);
    set_range(made, made->rate_place, low, low == 0 ? 0 : between(low, 0xFFFF));
}

/* From 0 on, above F7, or both, as the table of AS-WE has it. Each range holds
 * 1, and some end in a word whose lower byte alone would do. */
static void break_address_range(struct made *made)
{
    uint32_t within = ONE_OF(1, 2, 0xF6, LAST_STATION, LAST_STATION);
    uint32_t above = ONE_OF(0xF8, 0xF8, 0xF9, 0xFF, 0xFF, 0x0100, 0x0101, 0x01F7, 0x7FFF, 0x8000,
                            0xFFFF);
    switch (below(3)) {
    case 0: set_range(made, made->address_place, 0, within); break;
    case 1: set_range(made, made->address_place, FIRST_STATION, above); break;
    default: set_range(made, made->address_place, 0, chance(50) ? 0xFF : above); break;
    }
}

static void break_rate_range(struct made *made)
{
    if (chance(50))
        set_range(made, made->rate_place, 0, ONE_OF(2, 3, 0xFF, 0x0101, 0xFFFF));
    else
        set_range(made, made->rate_place, 1, ONE_OF(1, 2, 0xFFFF));
}

/* ---- The record area ---- */

/* A sheet without a record area gets one. */
static struct made_records *some_records(struct made *made)
{
    struct made_records *records = &made->records;
    if (!records->is) {
        records->is = true;
        records->count = 1 + below(8);
        records->words = 1 + below(RECORD_WORDS_MOST);
        records->first = some_records_first(made, records->count);
    }
    return records;
}

static void break_record_count(struct made *made)
{
    struct made_records *records = some_records(made);
    records->count = chance(30) ? 0
        : chance(80) ? RECORDS_MOST + 1 : ONE_OF(RECORDS_MOST + 2, 7000, 0x4000, 0x8000);
    if (records->count > 0)
        records->first = some_records_first(made, records->count);
}

static void break_record_words(struct made *made)
{
    some_records(made)->words = chance(40) ? 0 : chance(70) ? RECORD_WORDS_MOST + 1
        : ONE_OF(49, 0x0100, 0x0101, 0x012F, 0x8000, 0xFFFF);
}

/* By one address, or by more. */
static void break_records_end(struct made *made)
{
    struct made_records *records = some_records(made);
    if (records->count == 1)
        records->count = 2 + below(3);
    uint32_t beyond = chance(60) ? 1 : 1 + below(records->count - 1);
    records->first = 0x10000 - records->count + beyond;
}

/* One address with the area's first or last, some inside of it, or all of it. */
static void share_records(struct made *made)
{
    const struct made_area *area = some_area(made);
    struct made_records *records = some_records(made);
    switch (below(4)) {
    case 0: records->first = area->last; break;
    case 1: records->first = (area->first - records->count + 1) & 0xFFFF; break;
    case 2: records->first = area->first + below(length_of(area)); break;
    default:
        records->first = area->first == 0 ? 0 : area->first - 1;
        records->count = length_of(area) + 2;
        break;
    }
}

static void clear_in_records(struct made *made)
{
    const struct made_records *records = some_records(made);
    made->functions |= 2;
    made->clear = ONE_OF(records->first, records->first + records->count - 1,
                         records->first + below(records->count));
}

/* ---- All of them ---- */

struct breaker {
    break_made *on_made;
    break_bytes *on_bytes;
};

static const struct breaker breakers[RULE_COUNT] = {
    [RULE_HEADER] = { NULL, cut_header },
    [RULE_VERSION] = { NULL, break_version },
    [RULE_AREAS] = { make_nine_areas, NULL },
    [RULE_AREA_OFFSET] = { NULL, break_area_offset },
    [RULE_ITEMS] = { make_65_items, NULL },
    [RULE_ITEM_OFFSET] = { NULL, break_item_offset },
    [RULE_BANK_WORDS] = { make_257_words, NULL },
    [RULE_FUNCTIONS] = { NULL, break_functions },
    [RULE_LENGTH_WORD] = { NULL, break_length_word },
    [RULE_WORD_11] = { NULL, break_word_11 },
    [RULE_BYTE_LENGTH] = { NULL, break_byte_length },
    [RULE_ACCESS] = { break_access, NULL },
    [RULE_FIRST_ABOVE_LAST] = { insert_empty_area, NULL },
    [RULE_AREAS_ASCEND] = { swap_areas, NULL },
    [RULE_AREAS_SHARE] = { overlap_areas, NULL },
    [RULE_AREA_FIRST_PLACE] = { break_area_place, NULL },
    [RULE_LENGTHS_SUM] = { break_sum, NULL },
    [RULE_CLEAR_IN_AREA] = { break_clear_apart, NULL },
    [RULE_CLEAR_NOT_ZERO] = { break_clear_zero, NULL },
    [RULE_WRITE_ONLY] = { break_write_only, NULL },
    [RULE_KIND] = { break_kind, NULL },
    [RULE_LOW_FIRST_WORD] = { NULL, break_low_word },
    [RULE_HIGH_FIRST_WORD] = { NULL, break_high_word },
    [RULE_LOW_ABOVE_HIGH] = { break_low_high, NULL },
    [RULE_ITEMS_ASCEND] = { swap_items, NULL },
    [RULE_PLACE_MISSING] = { leave_place_out, NULL },
    [RULE_PLACE_TWICE] = { cover_twice, NULL },
    [RULE_PLACE_OTHER] = { cover_other, NULL },
    [RULE_PAIR_TWO_AREAS] = { join_over_areas, NULL },
    [RULE_SAME_PLACE] = { same_place, NULL },
    [RULE_ADDRESS_ITEM] = { break_address_item, NULL },
    [RULE_RATE_ITEM] = { break_rate_item, NULL },
    [RULE_ADDRESS_HOLDS_1] = { break_address_holds_1, NULL },
    [RULE_RATE_HOLDS_1] = { break_rate_holds_1, NULL },
    [RULE_ADDRESS_RANGE] = { break_address_range, NULL },
    [RULE_RATE_RANGE] = { break_rate_range, NULL },
    [RULE_RECORD_COUNT] = { break_record_count, NULL },
    [RULE_RECORD_WORDS] = { break_record_words, NULL },
    [RULE_RECORDS_END] = { break_records_end, NULL },
    [RULE_RECORDS_SHARE] = { share_records, NULL },
    [RULE_CLEAR_IN_RECORDS] = { clear_in_records, NULL }
};

bool can_break_alone(enum second_rule rule)
{
    return rule != RULE_HEADER && rule != RULE_SAME_PLACE && rule != RULE_RATE_HOLDS_1;
}

static bool is_broken_so(enum second_rule rule, const uint8_t *bytes, size_t n)
{
    if (can_break_alone(rule))
        return second_broken_rules(bytes, n) == (uint64_t)1 << rule;
    return second_broken_rule(bytes, n) == rule;
}

void make_changed(enum second_rule rule, struct made *made, uint8_t *bytes, size_t *n)
{
    make_sound(made);
    struct made broken = *made;
    if (breakers[rule].on_made != NULL)
        breakers[rule].on_made(&broken);
    *n = put_sheet(&broken, bytes);
    if (breakers[rule].on_bytes != NULL)
        breakers[rule].on_bytes(bytes, n);
}

bool make_broken(enum second_rule rule, struct made *made, uint8_t *bytes, size_t *n)
{
    for (int tries = 0; tries < 2000; tries++) {
        make_changed(rule, made, bytes, n);
        if (is_broken_so(rule, bytes, *n))
            return true;
    }
    return false;
}
