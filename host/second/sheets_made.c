/* Sound sheets of many shapes, the two makers' maps, and sound banks. The
 * sheets with a broken rule are in sheets_broken.c, the rings in rings_made.c. */
#include "sheets_made.h"
#include "noise.h"

#include <string.h>

void put16(uint8_t *bytes, size_t index, uint32_t word)
{
    bytes[2 * index] = (uint8_t)(word >> 8 & 0xFF);
    bytes[2 * index + 1] = (uint8_t)(word & 0xFF);
}

uint32_t get16(const uint8_t *bytes, size_t index)
{
    return (uint32_t)bytes[2 * index] << 8 | bytes[2 * index + 1];
}

int made_area_of(const struct made *made, uint32_t address)
{
    for (uint32_t i = 0; i < made->areas_n; i++)
        if (made->areas[i].first <= address && address <= made->areas[i].last)
            return (int)i;
    return -1;
}

int made_item_of(const struct made *made, uint32_t place)
{
    for (uint32_t i = 0; i < made->items_n; i++) {
        const struct made_item *item = &made->items[i];
        if (item->place == place || (item->kind == 2 && item->place + 1 == place))
            return (int)i;
    }
    return -1;
}

bool made_is_record(const struct made *made, uint32_t address)
{
    const struct made_records *records = &made->records;
    return records->is && records->first <= address && address - records->first < records->count;
}

bool made_has_access(const struct made *made, uint32_t address, uint32_t access)
{
    int area = made_area_of(made, address);
    return area >= 0 && made->areas[area].access == access;
}

bool made_is_open(const struct made *made, uint32_t address, bool write)
{
    return made_area_of(made, address) >= 0 && !made_has_access(made, address, write ? 1 : 2);
}

/* ---- Values ---- */

int64_t kind_least(uint32_t kind)
{
    return kind == 1 ? -32768 : 0;
}

int64_t kind_most(uint32_t kind)
{
    if (kind == 2)
        return INT64_C(0xFFFFFFFF);
    return kind == 1 ? 32767 : 65535;
}

static int64_t clamp(uint32_t kind, int64_t value)
{
    if (value < kind_least(kind))
        return kind_least(kind);
    return value > kind_most(kind) ? kind_most(kind) : value;
}

int64_t value_within(const struct made_item *item)
{
    switch (below(4)) {
    case 0: return item->low;
    case 1: return item->high;
    default: return between(item->low, item->high);
    }
}

bool value_outside(const struct made_item *item, int64_t *value)
{
    bool above = chance(50);
    int64_t step = chance(80) ? 1 : between(1, 300);
    *value = above ? item->high + step : item->low - step;
    return kind_least(item->kind) <= *value && *value <= kind_most(item->kind);
}

/* A value near a place where bounds often go wrong: the ends of a kind, the
 * sign, the step from one word to two. */
static int64_t value_near_edge(uint32_t kind)
{
    int64_t near = between(-4, 4);
    switch (below(4)) {
    case 0: return clamp(kind, kind_least(kind) + near);
    case 1: return clamp(kind, kind_most(kind) + near);
    case 2: return clamp(kind, 0x8000 + near);
    default: return clamp(kind, 0x10000 * between(1, 3) + near);
    }
}

static int64_t some_bound(uint32_t kind)
{
    if (chance(40))
        return value_near_edge(kind);
    if (chance(40))
        return clamp(kind, between(-20, 300));
    return between(kind_least(kind), kind_most(kind));
}

static void make_bounds(struct made_item *item)
{
    int64_t one = some_bound(item->kind);
    int64_t other = some_bound(item->kind);
    if (chance(25))
        other = clamp(item->kind, one + between(0, 9));
    item->low = one < other ? one : other;
    item->high = one < other ? other : one;
    if (chance(item->kind == 2 ? 16 : 5)) {
        item->low = kind_least(item->kind);
        item->high = kind_most(item->kind);
    }
}

/* ---- Areas and items ---- */

static void add_area(struct made *made, uint32_t length, uint32_t access)
{
    struct made_area *area = &made->areas[made->areas_n];
    area->first = 0;
    area->last = length - 1;
    area->place = made->bank_words;
    area->access = access;
    made->bank_words += length;
    made->areas_n++;
}

static void add_item(struct made *made, uint32_t kind, uint32_t place)
{
    struct made_item *item = &made->items[made->items_n];
    item->kind = kind;
    item->place = place;
    make_bounds(item);
    made->items_n++;
}

/* Fills one area with items; it stops when the rows are used up. */
static void fill_area(struct made *made, const struct made_area *area, uint32_t pairs)
{
    uint32_t end = area->place + (area->last - area->first) + 1;
    uint32_t place = area->place;
    while (place < end && made->items_n < 66) {
        bool pair = place + 1 < end && chance(pairs);
        add_item(made, pair ? 2 : chance(35) ? 1 : 0, place);
        place += pair ? 2 : 1;
    }
}

static void fill_areas(struct made *made, uint32_t pairs)
{
    for (uint32_t i = 0; i < made->areas_n; i++)
        if (made->areas[i].access != 1)
            fill_area(made, &made->areas[i], pairs);
}

/* ---- Addresses ---- */

static bool has_write_only(const struct made *made)
{
    for (uint32_t i = 0; i < made->areas_n; i++)
        if (made->areas[i].access == 2)
            return true;
    return false;
}

/* None in so many of a hundred. */
static uint32_t some_gap(uint32_t none)
{
    if (chance(none))
        return 0;
    if (chance(70))
        return (uint32_t)between(1, 4);
    return chance(80) ? below(300) : below(7000);
}

/* Where there are areas of access 2, what is right beside them matters most. */
static uint32_t lay_with_gaps(struct made *made)
{
    uint32_t next = 0;
    uint32_t none = has_write_only(made) ? 85 : 55;
    for (uint32_t i = 0; i < made->areas_n; i++) {
        uint32_t length = made->areas[i].last - made->areas[i].first + 1;
        if (i > 0)
            next += some_gap(none);
        made->areas[i].first = next;
        made->areas[i].last = next + length - 1;
        next += length;
    }
    return next;
}

static void shift_areas(struct made *made, uint32_t from, uint32_t shift)
{
    for (uint32_t i = from; i < made->areas_n; i++) {
        made->areas[i].first += shift;
        made->areas[i].last += shift;
    }
}

/* At 0000, up to FFFF, both, or anywhere. */
static void lay_addresses(struct made *made)
{
    uint32_t room = 0x10000 - lay_with_gaps(made);
    switch (below(6)) {
    case 0: break;
    case 1: shift_areas(made, 0, room); break;
    case 2: shift_areas(made, below(made->areas_n), room); break;
    default: shift_areas(made, 0, below(room + 1)); break;
    }
}

/* ---- Address, rate, functions, clear address ---- */

/* The range holds 1 and so begins there: rules S62 and S63. */
static void make_address(struct made *made, struct made_item *item)
{
    made->address_place = item->place;
    item->kind = 0;
    item->low = FIRST_STATION;
    item->high = chance(60) ? ONE_OF(1, 2, 0xF6, 0xF6, LAST_STATION, LAST_STATION, LAST_STATION)
                            : between(FIRST_STATION, LAST_STATION);
}

static void make_rate(struct made *made, struct made_item *item)
{
    made->rate_place = item->place;
    item->kind = 0;
    item->low = 0;
    item->high = 1;
}

/* Takes two of the words; false if the sheet has none or only one. */
static bool choose_address_and_rate(struct made *made)
{
    uint32_t words[70];
    uint32_t n = 0;
    for (uint32_t i = 0; i < made->items_n; i++)
        if (made->items[i].kind != 2)
            words[n++] = i;
    if (n < 2)
        return false;
    uint32_t one = below(n);
    uint32_t other = (one + 1 + below(n - 1)) % n;
    make_address(made, &made->items[words[one]]);
    make_rate(made, &made->items[words[other]]);
    return true;
}

static uint32_t some_clear(const struct made *made)
{
    const struct made_area *area = &made->areas[below(made->areas_n)];
    switch (below(5)) {
    case 0: return 0;
    case 1: return 0xFFFF;
    case 2: return (area->first - 1) & 0xFFFF;
    case 3: return (area->last + 1) & 0xFFFF;
    default: return below(0x10000);
    }
}

static void choose_functions(struct made *made)
{
    made->functions = chance(72) ? 15 : below(16);
    made->clear = 0;
    if ((made->functions & 2) == 0)
        return;
    do
        made->clear = some_clear(made);
    while (made_area_of(made, made->clear) >= 0);
}

/* ---- The record area ---- */

/* Mostly few records, so that a ring is soon full; the most are rare. */
static uint32_t some_record_count(void)
{
    uint32_t sort = below(200);
    if (sort < 26)
        return 1;
    if (sort < 58)
        return 2;
    if (sort < 154)
        return 3 + below(6);
    if (sort < 166)
        return 9 + below(60);
    if (sort < 170)
        return 250 + below(20);
    return RECORDS_MOST - (chance(10) ? 1 : 0);
}

/* Long records in large rings are rarer still. */
static uint32_t some_record_words(uint32_t count)
{
    if (count > 1000 && chance(96))
        return 1;
    if (count > 200 && chance(80))
        return 1 + below(3);
    return chance(75) ? ONE_OF(1, 1, 2, 22, 46, RECORD_WORDS_MOST, RECORD_WORDS_MOST)
                      : 1 + below(RECORD_WORDS_MOST);
}

uint32_t some_records_first(const struct made *made, uint32_t count)
{
    const struct made_area *area = &made->areas[below(made->areas_n)];
    bool beside = made_area_of(made, area->last + 1) >= 0;
    if (area->access == 2 || beside)    /* rather one to read from into the records */
        area = &made->areas[chance(50) ? below(made->areas_n) : made->areas_n - 1];
    switch (below(14)) {
    case 0: return 0;
    case 1: return 0x10000 - count;
    case 2: return (made->clear + 1) & 0xFFFF;
    case 3: return (made->clear - count) & 0xFFFF;
    case 4: case 5: return (area->first - count) & 0xFFFF;
    case 6: case 7: case 8: case 9: case 10: case 11: return (area->last + 1) & 0xFFFF;
    default: return below(0x10000 - count + 1);
    }
}

static bool records_are_free(const struct made *made)
{
    uint32_t first = made->records.first;
    uint32_t last = first + made->records.count - 1;
    for (uint32_t i = 0; i < made->areas_n; i++)
        if (made->areas[i].first <= last && first <= made->areas[i].last)
            return false;
    bool on_clear = first <= made->clear && made->clear <= last;
    return last <= 0xFFFF && !((made->functions & 2) != 0 && on_clear);
}

/* A record area, if one that is free is soon found. */
static void add_records(struct made *made)
{
    made->records.is = true;
    for (int tries = 0; tries < 8; tries++) {
        made->records.count = some_record_count();
        made->records.words = some_record_words(made->records.count);
        made->records.first = some_records_first(made, made->records.count);
        if (records_are_free(made))
            return;
    }
    memset(&made->records, 0, sizeof made->records);
}

/* ---- Shapes ---- */

static void shape_small(struct made *made)
{
    uint32_t areas = 1 + below(8);
    uint32_t open = below(areas);
    for (uint32_t i = 0; i < areas; i++)
        add_area(made, 1 + below(5), i == open || chance(55) ? 3 : 1);
    fill_areas(made, 35);
}

static void shape_middle(struct made *made)
{
    uint32_t areas = 1 + below(4);
    for (uint32_t i = 0; i < areas; i++)
        add_area(made, 1 + below(20), chance(65) ? 3 : 1);
    fill_areas(made, 35);
}

/* Areas that are only written between such as can be read, now and then two of them
 * one behind the other. */
static void shape_mixed(struct made *made)
{
    uint32_t areas = 3 + below(4);
    for (uint32_t i = 0; i < areas; i++)
        add_area(made, 1 + below(4), i % 2 == 1 || chance(25) ? 2 : ONE_OF(1, 3));
    fill_areas(made, 40);
}

/* Long runs for reading. */
static void shape_long_read(struct made *made)
{
    add_area(made, 2 + below(6), 3);
    add_area(made, 44 + below(6), 1);
    if (chance(80))
        add_area(made, 1 + below(60), 1);
    if (chance(50))
        add_area(made, 1 + below(8), 3);
    fill_areas(made, 30);
}

/* Long runs for writing. */
static void shape_long_write(struct made *made)
{
    if (chance(30))
        add_area(made, 1 + below(100), 1);
    add_area(made, 40 + below(60), 3);
    fill_areas(made, 60);
}

/* The fewest words and items. */
static void shape_least(struct made *made)
{
    if (chance(50)) {
        add_area(made, 2, 3);
    } else {
        add_area(made, 1, 3);
        add_area(made, 1, 3);
    }
    fill_areas(made, 0);
}

/* One area, or two that use all 256 places. */
static void shape_one_area(struct made *made)
{
    add_area(made, 2 + below(126), 3);
    fill_areas(made, 75);
    if (chance(50))
        add_area(made, 256 - made->bank_words, 1);
}

/* 8 areas, 64 items, 256 words: the words and the pairs stand in two areas one
 * behind the other, somewhere among six read-only ones. */
static void shape_largest(struct made *made)
{
    uint32_t words = 2 + below(60);
    uint32_t pairs = 64 - words;
    uint32_t rest = 256 - words - 2 * pairs;
    uint32_t at = below(7);
    uint32_t read_only = 0;
    for (uint32_t i = 0; i < 8; i++) {
        if (i == at) {
            add_area(made, words, 3);
        } else if (i == at + 1) {
            add_area(made, 2 * pairs, 3);
        } else {
            uint32_t length = ++read_only == 6 ? rest : 1 + below(20);
            add_area(made, length, 1);
            rest -= length;
        }
    }
    fill_area(made, &made->areas[at], 0);
    fill_area(made, &made->areas[at + 1], 100);
}

/* ---- Versions ---- */

/* Of the areas that can be written, none, some or all can no more be read. The items
 * stay as they are. */
static void close_to_reads(struct made *made)
{
    uint32_t percent = ONE_OF(20, 50, 50, 80, 100);
    for (uint32_t i = 0; i < made->areas_n; i++)
        if (made->areas[i].access == 3 && chance(percent))
            made->areas[i].access = 2;
}

static void choose_version(struct made *made)
{
    made->version = has_write_only(made) || chance(55) ? 2 : 1;
    if (made->version == 2 && !has_write_only(made) && chance(80))
        close_to_reads(made);
}

static bool made_is_sound(const struct made *made)
{
    return made->items_n >= 2 && made->items_n <= 64
        && made->bank_words >= 2 && made->bank_words <= 256;
}

static bool try_shape(struct made *made)
{
    static void (*const shapes[])(struct made *) = {
        shape_small, shape_small, shape_small, shape_middle, shape_middle, shape_mixed,
        shape_mixed, shape_mixed, shape_long_read, shape_long_read, shape_long_read,
        shape_long_write, shape_long_write, shape_least, shape_one_area, shape_largest
    };
    memset(made, 0, sizeof *made);
    shapes[below(sizeof shapes / sizeof shapes[0])](made);
    if (!made_is_sound(made) || !choose_address_and_rate(made))
        return false;
    choose_version(made);
    lay_addresses(made);
    choose_functions(made);
    return true;
}

/* ---- The two makers' maps ---- */

struct map_area { uint32_t first, last, access; };
struct map_item { uint32_t address, kind; int64_t low, high; };

static const struct map_area ux_areas[] = { { 0x0100, 0x0116, 3 }, { 0x0200, 0x020A, 1 } };

static const struct map_item ux_items[] = {
    { 0x0100, 1, -10, 60 }, { 0x0101, 0, 0, 4 }, { 0x0102, 0, 0, 1 },
    { 0x0103, 2, 0, 0x1869F }, { 0x0105, 2, 0, 0x1869F }, { 0x0107, 2, 0, 0x1869F },
    { 0x0109, 0, 1, 0x10 }, { 0x010A, 2, 0, 0x1869F }, { 0x010C, 0, 0, 1 },
    { 0x010D, 0, 0, 1 }, { 0x010E, 0, 1, 0xF7 }, { 0x010F, 0, 0, 1 },
    { 0x0110, 0, 0, 0x2710 }, { 0x0111, 0, 0, 2 }, { 0x0112, 0, 0, 0x03E8 },
    { 0x0113, 2, 0, 0xF423F }, { 0x0115, 0, 0, 1 }, { 0x0116, 0, 0, 4 }
};

static const struct map_area as_areas[] = {
    { 0x00FF, 0x0109, 3 }, { 0x010D, 0x0113, 3 }, { 0x0115, 0x0116, 3 },
    { 0x0123, 0x0124, 3 }, { 0x01FF, 0x020E, 1 }
};

static const struct map_item as_items[] = {
    { 0x00FF, 0, 0, 1 }, { 0x0100, 0, 0, 1 }, { 0x0101, 0, 0, 0x2710 },
    { 0x0102, 0, 0, 6 }, { 0x0103, 0, 0, 1 }, { 0x0104, 0, 0, 1 },
    { 0x0105, 0, 1, 0x10 }, { 0x0106, 0, 0x0320, 0x04B0 }, { 0x0107, 0, 0, 1 },
    { 0x0108, 0, 1, 0xF7 }, { 0x0109, 0, 0, 0x10 }, { 0x010D, 0, 0x01F4, 0x07CF },
    { 0x010E, 0, 0, 0xFFFF }, { 0x010F, 0, 1, 0x0C }, { 0x0110, 0, 1, 0x1F },
    { 0x0111, 0, 0, 0x17 }, { 0x0112, 0, 0, 0x3B }, { 0x0113, 0, 1, 0x0120 },
    { 0x0115, 0, 0, 5 }, { 0x0116, 0, 1, 4 }, { 0x0123, 1, -100, 0x0258 },
    { 0x0124, 0, 0, 0x03E8 }
};

/* What AS-WE of bore 40 has more; the pairs have all numbers of two words. */
static const struct map_area preset_area = { 0x0118, 0x011E, 2 };

static const struct map_item preset_items[] = {
    { 0x0118, 0, 0, 9 }, { 0x0119, 0, 0, 0x270F }, { 0x011A, 0, 0, 0x270F },
    { 0x011B, 2, 0, INT64_C(0xFFFFFFFF) }, { 0x011D, 2, 0, INT64_C(0xFFFFFFFF) }
};

static uint32_t map_place(const struct made *made, uint32_t address)
{
    const struct made_area *area = &made->areas[made_area_of(made, address)];
    return area->place + (address - area->first);
}

static void put_map_areas(struct made *made, const struct map_area *areas, uint32_t n)
{
    for (; n > 0; areas++, n--) {
        add_area(made, areas->last - areas->first + 1, areas->access);
        made->areas[made->areas_n - 1].first = areas->first;
        made->areas[made->areas_n - 1].last = areas->last;
    }
}

static void put_map_items(struct made *made, const struct map_item *items, uint32_t n)
{
    for (; n > 0; items++, n--) {
        add_item(made, items->kind, map_place(made, items->address));
        made->items[made->items_n - 1].low = items->low;
        made->items[made->items_n - 1].high = items->high;
    }
}

void make_ux(struct made *made)
{
    memset(made, 0, sizeof *made);
    put_map_areas(made, ux_areas, 2);
    put_map_items(made, ux_items, 18);
    made->version = 1;
    made->functions = 15;
    made->clear = 0x0300;
    made->rate_place = map_place(made, 0x010D);
    made->address_place = map_place(made, 0x010E);
}

static void put_as_we(struct made *made, uint32_t bore, bool presets)
{
    memset(made, 0, sizeof *made);
    put_map_areas(made, as_areas, 3);
    if (presets)
        put_map_areas(made, &preset_area, 1);
    put_map_areas(made, as_areas + 3, 2);
    put_map_items(made, as_items, 20);
    if (presets)
        put_map_items(made, preset_items, 5);
    put_map_items(made, as_items + 20, 2);
    made->items[10].high = bore == 40 ? 0x10 : bore == 50 ? 0x1E : 0x3C;
    made->version = presets ? 2 : 1;
    made->functions = 13;
    made->rate_place = map_place(made, 0x0107);
    made->address_place = map_place(made, 0x0108);
}

void make_as_we(struct made *made, uint32_t bore)
{
    put_as_we(made, bore, bore == 40);
}

void make_plain_as_we_40(struct made *made)
{
    put_as_we(made, 40, false);
}

/* The record area of the makers' newer meters, on AS-WE's map. */
static void add_history(struct made *made)
{
    made->records.is = true;
    made->records.first = 0x0400;
    made->records.count = RECORDS_MOST;
    made->records.words = 22;
}

void make_sound(struct made *made)
{
    uint32_t sort = below(100);
    if (sort < 9) {
        make_ux(made);
    } else if (sort < 18) {
        make_as_we(made, ONE_OF(40, 40, 50, 80));
    } else if (sort < 20) {
        make_plain_as_we_40(made);
    } else {
        while (!try_shape(made))
            ;
    }
    if (9 <= sort && sort < 20 && chance(6))
        add_history(made);
    else if (chance(65))
        add_records(made);
}

/* ---- Sheets and banks in bytes ---- */

static void put_bound(const struct made_item *item, uint8_t *words, int64_t bound)
{
    put16(words, 0, item->kind == 2 ? (uint32_t)(bound >> 16 & 0xFFFF) : 0);
    put16(words, 1, (uint32_t)(bound & 0xFFFF));
}

static void put_header(const struct made *made, uint8_t *bytes)
{
    const uint32_t header[12] = {
        made->version, made->areas_n, 12, made->items_n, 12 + 4 * made->areas_n,
        made->bank_words, made->functions,
        12 + 4 * made->areas_n + 6 * made->items_n + (made->records.is ? 3 : 0),
        made->address_place, made->rate_place, made->clear, made->records.is ? 1 : 0
    };
    for (size_t i = 0; i < 12; i++)
        put16(bytes, i, header[i]);
}

size_t put_sheet(const struct made *made, uint8_t *bytes)
{
    put_header(made, bytes);
    uint8_t *row = bytes + 24;
    for (uint32_t i = 0; i < made->areas_n; i++, row += 8) {
        put16(row, 0, made->areas[i].first);
        put16(row, 1, made->areas[i].last);
        put16(row, 2, made->areas[i].place);
        put16(row, 3, made->areas[i].access);
    }
    for (uint32_t i = 0; i < made->items_n; i++, row += 12) {
        put16(row, 0, made->items[i].kind);
        put16(row, 1, made->items[i].place);
        put_bound(&made->items[i], row + 4, made->items[i].low);
        put_bound(&made->items[i], row + 8, made->items[i].high);
    }
    if (made->records.is) {
        put16(row, 0, made->records.first);
        put16(row, 1, made->records.count);
        put16(row, 2, made->records.words);
        row += 6;
    }
    return (size_t)(row - bytes);
}

static void put_value(const struct made_item *item, uint8_t *bank, int64_t value)
{
    if (item->kind == 2) {
        put16(bank, item->place, (uint32_t)(value >> 16 & 0xFFFF));
        put16(bank, item->place + 1, (uint32_t)(value & 0xFFFF));
    } else {
        put16(bank, item->place, (uint32_t)(value & 0xFFFF));
    }
}

void make_bank(const struct made *made, uint8_t *bank)
{
    noise_fill(bank, 2 * (size_t)made->bank_words);
    for (uint32_t i = 0; i < made->items_n; i++)
        put_value(&made->items[i], bank, value_within(&made->items[i]));
    put16(bank, made->bank_words, below(2));
}

bool spoil_item(const struct made *made, uint8_t *bank)
{
    const struct made_item *item = &made->items[below(made->items_n)];
    int64_t value;
    for (int tries = 0; tries < 6 && item->kind != 2 && chance(75); tries++)
        item = &made->items[below(made->items_n)];
    if (!value_outside(item, &value))
        return false;
    put_value(item, bank, value);
    return true;
}
