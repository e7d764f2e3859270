/* Frames near every limit, damaged frames, and posted words. */
#include "frames_made.h"
#include "noise.h"

#include <string.h>

/* ---- Addresses, counts, stations ---- */

/* At, inside or next to the record area. */
static uint32_t address_near_records(const struct made *made)
{
    const struct made_records *records = &made->records;
    return (records->first + ONE_OF(0, records->count - 1, records->count, 0xFFFF,
                                    below(records->count))) & 0xFFFF;
}

/* An address at, inside or next to an area, or anywhere. */
uint32_t some_address(const struct made *made)
{
    const struct made_area *area = &made->areas[below(made->areas_n)];
    uint32_t length = area->last - area->first + 1;
    if (made->records.is && chance(8))
        return address_near_records(made);
    switch (below(12)) {
    case 0: return area->last;
    case 1: return (area->first - 1) & 0xFFFF;
    case 2: return (area->last + 1) & 0xFFFF;
    case 3: return ONE_OF(0, 1, 0xFFFE, 0xFFFF, made->clear, below(0x10000));
    case 4: case 5: return area->first;
    default: return area->first + below(length);
    }
}

/* An address that can be written. */
static uint32_t open_address(const struct made *made)
{
    const struct made_area *area;
    do
        area = &made->areas[below(made->areas_n)];
    while (area->access == 1);
    return chance(30) ? area->first : area->first + below(area->last - area->first + 1);
}

uint32_t run_length(const struct made *made, uint32_t start, bool write)
{
    uint32_t n = 0;
    while (made_is_open(made, start + n, write))
        n++;
    return n;
}

static uint32_t some_count(const struct made *made, uint32_t start)
{
    uint32_t run = run_length(made, start, false);
    switch (below(10)) {
    case 0: return ONE_OF(0, 0, 0, 0, 0, 0, 0, 0, 1, 46, 48, 0x7FFF, 0x8000, 0xFFFF);
    case 1: return ONE_OF(0, 0, 0, 0, 0, 0, 0, 0, 0, 46, 47, 48);
    case 2: return run;
    case 3: return run + 1;
    case 4: return ONE_OF(0x0100, 0x0101, 0x0102, 0x0080, 0x8001, 0x10000 - start) & 0xFFFF;
    case 5: return 1 + below(60);
    default: return run == 0 ? 1 : 1 + below(run < 47 ? run : 47);
    }
}

uint8_t own_station(const struct made *made, const uint8_t *bank)
{
    return (uint8_t)get16(bank, made->address_place);
}

/* Mostly the bank's own; else one that no meter has, one near the own, or any. */
static uint8_t some_station(const struct made *made, const uint8_t *bank)
{
    uint32_t own = own_station(made, bank);
    if (chance(86))
        return (uint8_t)own;
    return (uint8_t)ONE_OF(0, 0, 0, 0, 0, 0xF8, 0xFF, own + 1, own ^ 0x80, own - 1, below(256));
}

/* ---- The check ---- */

/* The right check behind n bytes, low byte first. */
size_t add_check(uint8_t *frame, size_t n)
{
    uint16_t value = second_check_value(frame, n);
    frame[n] = (uint8_t)(value & 0xFF);
    frame[n + 1] = (uint8_t)(value >> 8);
    return n + 2;
}

/* A check that is wrong in one of the ways a hand makes it wrong. */
static void spoil_check(uint8_t *frame, size_t n)
{
    uint8_t kept = frame[n - 2];
    switch (below(4)) {
    case 0:
        frame[n - 2] = frame[n - 1];
        frame[n - 1] = kept;
        break;
    case 1: frame[n - 2]++; break;
    case 2: frame[n - 1] ^= 0xFF; break;
    default: noise_fill(frame + n - 2, 2); break;
    }
}

/* ---- Bodies: all bytes but the check ---- */

size_t put_start(uint8_t *frame, uint32_t function, uint32_t start, uint32_t word)
{
    frame[1] = (uint8_t)function;
    put16(frame + 2, 0, start);
    put16(frame + 4, 0, word);
    return 6;
}

static size_t body_read(const struct made *made, uint8_t *frame)
{
    uint32_t start = some_address(made);
    return put_start(frame, 0x03, start, some_count(made, start));
}

static size_t body_clear(const struct made *made, uint8_t *frame)
{
    uint32_t start = made->clear;
    if (chance(25))
        start = chance(50) ? some_address(made) : (start + ONE_OF(1, 0xFFFF)) & 0xFFFF;
    return put_start(frame, 0x05, start, chance(60) ? 0 : ONE_OF(1, 0xFF00, 0x0100, 0xFFFF, 2));
}

/* A word for half a pair: such that the pair is near one of its bounds. */
static uint32_t half_word(const struct made_item *item, bool upper)
{
    int64_t bound = chance(50) ? item->low : item->high;
    int64_t half = upper ? bound >> 16 : bound & 0xFFFF;
    int64_t near = chance(60) ? between(-1, 1) : between(-300, 300);
    return (uint32_t)((chance(10) ? (int64_t)below(0x10000) : half + near) & 0xFFFF);
}

/* A value inside the bounds, or just outside where it may be bad. */
static int64_t some_value(const struct made_item *item, bool bad)
{
    int64_t value;
    if (bad && value_outside(item, &value))
        return value;
    return value_within(item);
}

/* The words for the item at one address of a write with so many words left;
 * hands back how many words were put. */
static uint32_t put_item_words(const struct made *made, uint8_t *words, uint32_t address,
                               uint32_t left, bool bad)
{
    int area = made_area_of(made, address);
    if (area < 0 || made->areas[area].access == 1) {
        noise_fill(words, 2);
        return 1;
    }
    uint32_t place = made->areas[area].place + (address - made->areas[area].first);
    const struct made_item *item = &made->items[made_item_of(made, place)];
    if (item->kind == 2 && (left == 1 || item->place != place)) {
        put16(words, 0, half_word(item, item->place == place));
        return 1;
    }
    int64_t value = some_value(item, bad);
    if (item->kind == 2)
        put16(words, 0, (uint32_t)(value >> 16 & 0xFFFF));
    put16(words, item->kind == 2 ? 1 : 0, (uint32_t)(value & 0xFFFF));
    return item->kind == 2 ? 2 : 1;
}

/* The words of a whole write; the bad-th item is bad, if it is reached. */
static void put_words(const struct made *made, uint8_t *words, uint32_t start, uint32_t count,
                      uint32_t bad)
{
    uint32_t i = 0;
    for (uint32_t item = 0; i < count; item++)
        i += put_item_words(made, words + 2 * i, start + i, count - i, item == bad);
}

static size_t body_write_one(const struct made *made, uint8_t *frame)
{
    uint32_t start = chance(85) ? open_address(made) : some_address(made);
    uint8_t word[4];
    put_words(made, word, start, 1, chance(40) ? 0 : 1);
    return put_start(frame, 0x06, start, get16(word, 0));
}

/* The length of a write: mostly what the areas allow, at most 45 words. */
static uint32_t write_count(const struct made *made, uint32_t start)
{
    uint32_t run = run_length(made, start, true);
    uint32_t most = run == 0 ? 1 : run < 45 ? run : 45;
    switch (below(10)) {
    case 0: return most;
    case 1: return most < 45 ? most + 1 : 45;
    case 2: return 1 + below(45);
    case 3: return 1 + below(3);
    default: return 1 + below(most);
    }
}

static size_t body_write_many(const struct made *made, uint8_t *frame)
{
    uint32_t start = chance(88) ? open_address(made) : some_address(made);
    uint32_t count = write_count(made, start);
    put_start(frame, 0x10, start, count);
    frame[6] = (uint8_t)(2 * count);
    put_words(made, frame + 7, start, count, chance(45) ? below(1 + count) : 100);
    return 7 + 2 * count;
}

/* A write of several whose counts do not agree: by one, by 128 or 256 words,
 * or with no words; the length fits the byte count. */
static size_t body_counts_off(const struct made *made, uint8_t *frame)
{
    size_t n = body_write_many(made, frame);
    uint32_t count = get16(frame + 4, 0);
    switch (below(6)) {
    case 0: put16(frame + 4, 0, 0); break;
    case 1:
        put16(frame + 4, 0, 0);
        frame[6] = 0;
        return 7;
    case 2: put16(frame + 4, 0, count + ONE_OF(0x80, 0x0100, 0x8000)); break;
    case 3: put16(frame + 4, 0, count + ONE_OF(1, 0xFFFF)); break;
    case 4: frame[6]++; n++; break;
    default: frame[6]--; n--; break;
    }
    return n;
}

/* A body whose length is wrong: cut, longer, or with its byte count off. */
static size_t body_length_off(const struct made *made, uint8_t *frame)
{
    size_t n;
    switch (below(4)) {
    case 0: n = body_read(made, frame); break;
    case 1: n = body_clear(made, frame); break;
    case 2: n = body_write_one(made, frame); break;
    default: n = body_write_many(made, frame); break;
    }
    noise_fill(frame + n, 8);
    if (frame[1] == 0x10 && chance(40))
        frame[6] = (uint8_t)(frame[6] + ONE_OF(1, 2, 0xFF, 0xFE));
    else if (frame[1] == 0x10 && chance(50))
        n = 2 + below(5);
    else
        n = chance(50) ? n + 1 + below(4) : 2 + below((uint32_t)n - 2);
    return n;
}

/* Any function, of any length up to 100 bytes in all. */
static size_t body_other_function(const struct made *made, uint8_t *frame)
{
    noise_fill(frame + 1, 97);
    put_start(frame, 0, some_address(made), 1);
    frame[1] = (uint8_t)(chance(60)
        ? ONE_OF(0x83, 0x85, 0x86, 0x90, 0, 1, 2, 4, 7, 8, 0x0F, 0x11, 0x13, 0x16, 0x17, 0xFF, 0x30)
        : below(256));
    return chance(50) ? 6 : 2 + below(97);
}

/* Noise of 0 to 300 bytes in all, often with a function that is known. */
static size_t body_noise(const struct made *made, uint8_t *frame)
{
    (void)made;
    noise_fill(frame + 1, 300);
    frame[1] = (uint8_t)ONE_OF(3, 5, 6, 0x10, 0x83, below(256));
    return chance(50) ? (size_t)ONE_OF(2, 3, 4, 97, 98, 99, 100, 254, 258) : 2 + below(298);
}

/* A write of several that is too long as a whole but right otherwise. */
static size_t body_too_long(const struct made *made, uint8_t *frame)
{
    uint32_t start = open_address(made);
    uint32_t count = 46 + below(60);
    put_start(frame, 0x10, start, count);
    frame[6] = (uint8_t)(2 * count);
    put_words(made, frame + 7, start, count, 1000);
    return 7 + 2 * count;
}

/* ---- Bodies for what is met too seldom otherwise ---- */

/* A read of 46 to 49 words where so many lie in one run, if there is one. */
static size_t body_long_read(const struct made *made, uint8_t *frame)
{
    uint32_t start = some_address(made);
    for (int tries = 0; tries < 12 && run_length(made, start, false) < 48; tries++)
        start = made->areas[below(made->areas_n)].first + below(3);
    return put_start(frame, 0x03, start & 0xFFFF, ONE_OF(46, 47, 47, 47, 48, 48, 48, 49));
}

/* An area with a neighbour behind it, both of which can be written, or none of the
 * two; the last area if the search finds none. */
static const struct made_area *area_with_neighbour(const struct made *made, bool write)
{
    for (int tries = 0; tries < 12; tries++) {
        const struct made_area *area = &made->areas[below(made->areas_n)];
        int next = made_area_of(made, area->last + 1);
        if (next >= 0 && (area->access != 1) == write
            && (made->areas[next].access != 1) == write)
            return area;
    }
    return &made->areas[made->areas_n - 1];
}

/* A read or write from one area into the next. */
static size_t body_over_areas(const struct made *made, uint8_t *frame)
{
    const struct made_area *area = area_with_neighbour(made, true);
    uint32_t back = below(area->last - area->first + 1) % 4;
    uint32_t start = area->last - back;
    uint32_t count = back + 2 + below(2);
    if (chance(36))
        return put_start(frame, 0x03, start, count);
    put_start(frame, 0x10, start, count);
    frame[6] = (uint8_t)(2 * count);
    put_words(made, frame + 7, start, count, chance(30) ? below(count) : 100);
    return 7 + 2 * (size_t)count;
}

uint32_t address_of_place(const struct made *made, uint32_t place)
{
    uint32_t area = made->areas_n - 1;
    while (made->areas[area].place > place)
        area--;
    return made->areas[area].first + (place - made->areas[area].place);
}

/* A write that brings a new address or rate and then a bad item. */
static size_t body_address_then_bad(const struct made *made, uint8_t *frame)
{
    uint32_t place = chance(70) ? made->address_place : made->rate_place;
    uint32_t start = address_of_place(made, place);
    uint32_t run = run_length(made, start, true);
    uint32_t count = 1 + below(run < 5 ? run : 5);
    put_start(frame, 0x10, start, count);
    frame[6] = (uint8_t)(2 * count);
    put_words(made, frame + 7, start, count, 1 + below(2));
    return 7 + 2 * (size_t)count;
}

/* A write of the station alone: at both ends of what a meter can have, next to
 * them and beyond; of some words the lower byte alone would do. */
static size_t body_station(const struct made *made, uint8_t *frame)
{
    uint32_t start = address_of_place(made, made->address_place);
    uint32_t station = chance(35) ? LAST_STATION
        : ONE_OF(0, 0, 0, 1, 2, 0xF6, 0xF8, 0xF8, 0xFF, 0x0100, 0x0101, 0x01F7, 0xFFFF);
    if (chance(60))
        return put_start(frame, 0x06, start, station);
    size_t n = put_start(frame, 0x10, start, 1);
    frame[n] = 2;
    put16(frame + n + 1, 0, station);
    return n + 3;
}

/* A write of one half of a pair, if the sheet has a pair. */
static size_t body_half(const struct made *made, uint8_t *frame)
{
    const struct made_item *item = &made->items[below(made->items_n)];
    for (int tries = 0; tries < 12 && item->kind != 2; tries++)
        item = &made->items[below(made->items_n)];
    uint32_t half = item->kind == 2 ? below(2) : 0;
    return put_start(frame, 0x06, address_of_place(made, item->place) + half,
                     half_word(item, half == 0));
}

/* A 10 that ends before its byte count or right behind its count. */
static size_t body_cut_write(const struct made *made, uint8_t *frame)
{
    body_write_many(made, frame);
    return 2 + below(6);
}

/* ---- Bodies about records ---- */

uint32_t some_record(const struct made *made, uint32_t stored)
{
    uint32_t count = made->records.count;
    uint32_t number;
    switch (below(10)) {
    case 0: number = 1 + below(3) / 2; break;
    case 1: number = count; break;
    case 2: case 3: number = stored; break;
    case 4: case 5: number = stored + 1; break;
    default: number = 1 + below(stored > 0 && chance(80) ? stored : count); break;
    }
    if (number < 1 || number > count)
        number = 1 + below(count);
    return made->records.first + (number - 1);
}

static uint32_t some_record_count(void)
{
    return chance(55) ? 1
        : ONE_OF(0, 0, 0, 0, 2, 2, 2, 2, 2, 3, 46, 47, 47, 47, 47, 48, 48, 49, 0x0101, 0xFFFF);
}

static size_t body_record(const struct made *made, uint32_t stored, uint8_t *frame)
{
    uint32_t start = some_record(made, stored);
    uint32_t count = some_record_count();
    if (chance(12)) {
        start = made->records.first + (chance(50) ? 0 : made->records.count - 1);
        count = 2;
    }
    return put_start(frame, 0x03, start, count);
}

/* A write of several whose count is sometimes not that of its bytes. */
static void put_counts(uint8_t *frame, uint32_t count)
{
    frame[6] = (uint8_t)(2 * count);
    if (chance(26))
        put16(frame + 4, 0, count + ONE_OF(0, 1, 0x80, 0x0100, 0x10000 - count));
}

/* From the area in front of the records, if there is one, into them: a read or a
 * write. */
static size_t body_into_records(const struct made *made, uint8_t *frame)
{
    uint32_t back = 1 + below(3);
    if (made_area_of(made, made->records.first - back) < 0)
        back = 1;
    uint32_t start = made->records.first - back;
    uint32_t count = back + 1 + below(2);
    if (chance(45))
        return put_start(frame, 0x03, start, count);
    size_t n = put_start(frame, 0x10, start, count) + 1;
    put_counts(frame, count);
    put_words(made, frame + n, start, count, 100);
    return n + 2 * (size_t)count;
}

/* A write or a clear at a record. */
static size_t body_on_record(const struct made *made, uint32_t stored, uint8_t *frame)
{
    uint32_t start = some_record(made, stored);
    uint32_t count = 1 + below(3);
    switch (below(5)) {
    case 0: return put_start(frame, 0x05, start, chance(60) ? 0 : ONE_OF(1, 0xFF00));
    case 1: return put_start(frame, 0x06, start, below(0x10000));
    default: break;
    }
    size_t n = put_start(frame, 0x10, start, count) + 1;
    put_counts(frame, count);
    noise_fill(frame + n, 2 * (size_t)count);
    return n + 2 * (size_t)count;
}

/* Into the records mostly where an area lies right in front of them. */
static size_t body_of_records(const struct made *made, uint32_t stored, uint8_t *frame)
{
    bool next = made_area_of(made, made->records.first - 1) >= 0;
    uint32_t sort = below(20);
    if (sort < 5)
        return body_on_record(made, stored, frame);
    return made->records.first > 0 && sort < (next ? 15 : 6) ? body_into_records(made, frame)
                                                             : body_record(made, stored, frame);
}

/* ---- Bodies about registers that are only written ---- */

/* An area that is only written, rather one with something to read right in front of
 * it and right behind; NULL if the search finds none. */
static const struct made_area *write_only_area(const struct made *made)
{
    const struct made_area *found = NULL;
    for (int tries = 0; tries < 16; tries++) {
        const struct made_area *area = &made->areas[below(made->areas_n)];
        if (area->access != 2)
            continue;
        found = area;
        if (made_is_open(made, area->first - 1, false) && made_is_open(made, area->last + 1, false))
            return area;
    }
    return found;
}

/* How many addresses right in front of one can be read, at most so many. */
static uint32_t open_in_front(const struct made *made, uint32_t address, uint32_t most)
{
    uint32_t n = 0;
    while (n < most && made_is_open(made, address - n - 1, false))
        n++;
    return n;
}

/* Reads that go from in front of the area to behind it, end in it or right in front
 * of it, begin in it or right behind it; and of one register, of none, or of too many
 * from there on. */
static size_t body_read_write_only(const struct made *made, const struct made_area *area,
                                   uint8_t *frame)
{
    uint32_t length = area->last - area->first + 1;
    uint32_t front = open_in_front(made, area->first, 1 + below(3));
    uint32_t behind = run_length(made, area->last + 1, false);
    uint32_t start = area->first - front;
    if (behind > 2)
        behind = 1 + below(2);
    if (front > 0 && behind > 0 && chance(45))
        return put_start(frame, 0x03, start, front + length + behind);
    if (front > 0 && chance(50))
        return put_start(frame, 0x03, start, front + (chance(60) ? 1 : 0));
    if (behind > 0 && chance(65))
        return chance(60) ? put_start(frame, 0x03, area->last, 1 + behind)
                          : put_start(frame, 0x03, area->last + 1, behind);
    return put_start(frame, 0x03, area->first + below(length), ONE_OF(1, 1, 1, 0, 47, 48, 48));
}

/* The same count, or one more where it would end between the halves of a pair. */
static uint32_t whole_items(const struct made *made, uint32_t start, uint32_t count)
{
    uint32_t last = start + count - 1;
    int area = made_area_of(made, last);
    if (area < 0 || made->areas[area].access == 1)
        return count;
    uint32_t place = made->areas[area].place + (last - made->areas[area].first);
    const struct made_item *item = &made->items[made_item_of(made, place)];
    return item->kind == 2 && item->place == place ? count + 1 : count;
}

/* Out of the area, or into it from the one in front. */
static size_t body_past_write_only(const struct made *made, const struct made_area *area,
                                   uint8_t *frame)
{
    uint32_t length = area->last - area->first + 1;
    uint32_t back = below(length < 3 ? length : 3);
    uint32_t start = area->last - back;
    uint32_t count = back + 2 + below(2);
    bool behind = made_area_of(made, area->last + 1) >= 0;
    if (made_area_of(made, area->first - 1) >= 0 && chance(behind ? 50 : 85)) {
        start = area->first - 1;
        count = 2 + below(2);
    }
    if (chance(70))
        count = whole_items(made, start, count);
    size_t n = put_start(frame, 0x10, start, count) + 1;
    frame[6] = (uint8_t)(2 * count);
    put_words(made, frame + n, start, count, 100);
    return n + 2 * (size_t)count;
}

/* Half of a pair in the area, if the search finds one; else a clear there. */
static size_t body_half_write_only(const struct made *made, const struct made_area *area,
                                   uint8_t *frame)
{
    for (int tries = 0; tries < 12; tries++) {
        uint32_t at = below(area->last - area->first + 1);
        const struct made_item *item = &made->items[made_item_of(made, area->place + at)];
        if (item->kind == 2 && item->place == area->place + at && chance(20))
            at++;
        if (item->kind == 2)
            return put_start(frame, 0x06, area->first + at,
                             half_word(item, item->place == area->place + at));
    }
    return put_start(frame, 0x05, area->first, 0);
}

/* Some registers of the area. */
static size_t body_write_write_only(const struct made *made, const struct made_area *area,
                                    uint8_t *frame)
{
    uint32_t length = area->last - area->first + 1;
    uint32_t at = below(length);
    uint32_t count = 1 + below(length - at < 6 ? length - at : 6);
    size_t n = put_start(frame, 0x10, area->first + at, count) + 1;
    frame[6] = (uint8_t)(2 * count);
    put_words(made, frame + n, area->first + at, count, chance(60) ? ONE_OF(0, 1, 1, 2) : 100);
    return n + 2 * (size_t)count;
}

static size_t body_of_write_only(const struct made *made, const struct made_area *area,
                                 uint8_t *frame)
{
    uint32_t sort = below(25);
    if (sort < 8)
        return body_read_write_only(made, area, frame);
    if (sort < 15)
        return body_past_write_only(made, area, frame);
    return sort < 20 ? body_half_write_only(made, area, frame)
                     : body_write_write_only(made, area, frame);
}

/* ---- Frames ---- */

typedef size_t make_body(const struct made *made, uint8_t *frame);

static make_body *some_body(void)
{
    static make_body *const bodies[] = {
        body_read, body_read, body_read, body_read, body_read,
        body_long_read, body_long_read, body_long_read, body_long_read, body_long_read,
        body_long_read, body_long_read, body_long_read, body_long_read, body_long_read,
        body_long_read,
        body_clear, body_clear, body_clear,
        body_write_one, body_write_one, body_write_one,
        body_half, body_half, body_half, body_half, body_half, body_half,
        body_write_many, body_write_many, body_write_many, body_write_many, body_write_many,
        body_write_many,
        body_over_areas, body_over_areas, body_over_areas, body_over_areas, body_over_areas,
        body_over_areas, body_over_areas, body_over_areas, body_over_areas,
        body_address_then_bad, body_address_then_bad, body_address_then_bad,
        body_address_then_bad, body_address_then_bad, body_address_then_bad,
        body_address_then_bad,
        body_station, body_station, body_station, body_station, body_station, body_station,
        body_counts_off, body_counts_off, body_length_off, body_length_off, body_cut_write,
        body_cut_write, body_other_function, body_noise, body_too_long
    };
    return bodies[below(sizeof bodies / sizeof bodies[0])];
}

/* About records, and about registers that are only written, where there are any, in
 * so many of a hundred. */
static size_t put_body(const struct made *made, uint32_t stored, uint8_t *frame)
{
    const struct made_area *area = chance(12) ? write_only_area(made) : NULL;
    if (area != NULL)
        return body_of_write_only(made, area, frame);
    if (made->records.is && chance(50))
        return body_of_records(made, stored, frame);
    return some_body()(made, frame);
}

size_t make_frame(const struct made *made, const uint8_t *bank, uint32_t stored, uint8_t *frame)
{
    size_t n = put_body(made, stored, frame);
    frame[0] = some_station(made, bank);
    n = add_check(frame, n);
    if (chance(3))
        spoil_check(frame, n);
    if (chance(2))
        n = below(4);
    if (chance(1))
        n = below((uint32_t)n + 1);
    return n;
}

size_t make_preset_frame(const struct made *made, const uint8_t *bank, uint8_t *frame)
{
    const struct made_area *area = write_only_area(made);
    if (area == NULL)
        return 0;
    frame[0] = own_station(made, bank);
    return add_check(frame, body_of_write_only(made, area, frame));
}

size_t make_passing_frame(const struct made *made, const uint8_t *bank, uint32_t stored,
                          uint8_t *frame)
{
    size_t n;
    do {
        n = put_body(made, stored, frame);
        frame[0] = own_station(made, bank);
    } while (n > 98);
    return add_check(frame, n);
}

/* ---- Writes at the ends of a range ---- */

/* A write of one item, or of half a pair. */
struct end_write {
    uint32_t start, count;
    uint8_t words[4];
};

/* An end of the range, the value next to it outside, or an end of what the words
 * can hold; of a word with a sign, one that would lie on the other side of the range
 * without it. False if an item has no such value. */
static bool value_at_end(const struct made_item *item, uint32_t end, int64_t *value)
{
    int64_t least = kind_least(item->kind);
    int64_t most = kind_most(item->kind);
    const int64_t values[6] = { item->low - 1, item->low, item->high, item->high + 1, least, most };
    *value = values[end];
    if (end == 4 && item->low < 0)
        return false;
    if (end == 5 && item->kind == 1 && item->low >= 0)
        return false;
    return least <= *value && *value <= most;
}

static void put_pair(uint8_t *words, int64_t value)
{
    put16(words, 0, (uint32_t)(value >> 16 & 0xFFFF));
    put16(words, 1, (uint32_t)(value & 0xFFFF));
}

/* A whole item with a value at an end; false if this item has none. */
static bool put_end(const struct made_item *item, uint32_t end, struct end_write *write)
{
    int64_t value;
    if (!value_at_end(item, end, &value))
        return false;
    put_pair(write->words, value);
    write->count = item->kind == 2 ? 2 : 1;
    if (item->kind != 2)
        put16(write->words, 0, get16(write->words, 1));
    return true;
}

/* Half a pair that is bad with what the bank then has: a half near one of the
 * bounds, and often the upper half of one, which only the other half makes bad.
 * False if it is good. */
static bool put_bad_half(const struct made_item *item, bool upper, uint8_t *bank,
                         struct end_write *write)
{
    int64_t bound = chance(60) ? item->low : item->high;
    int64_t held = upper ? value_within(item) : bound;
    uint32_t word = upper && chance(85) ? (uint32_t)(bound >> 16) : half_word(item, upper);
    int64_t value = upper ? (int64_t)word * 0x10000 + (held & 0xFFFF)
                          : (held >> 16) * 0x10000 + word;
    if (item->low <= value && value <= item->high)
        return false;
    put_pair(bank + 2 * (size_t)item->place, held);
    put16(write->words, 0, word);
    write->start += upper ? 0 : 1;
    write->count = 1;
    return true;
}

/* An item of one kind at one end, or half a pair; false if the search finds none in
 * the sheet. */
static bool find_end_write(const struct made *made, uint8_t *bank, struct end_write *write)
{
    uint32_t kind = ONE_OF(0, 1, 1, 1, 2, 2, 2, 2, 2);
    uint32_t end = ONE_OF(0, 0, 0, 1, 2, 2, 3, 3, 4, 4, 5);
    bool half = kind == 2 && chance(60);
    bool upper = chance(60);
    bool found = false;
    for (int tries = 0; tries < 40 && !found; tries++) {
        const struct made_item *item = &made->items[below(made->items_n)];
        write->start = address_of_place(made, item->place);
        found = item->kind == kind && (half ? put_bad_half(item, upper, bank, write)
                                            : put_end(item, end, write));
    }
    return found;
}

size_t make_end_write(const struct made *made, uint8_t *bank, uint8_t *frame)
{
    struct end_write write;
    if (!find_end_write(made, bank, &write))
        return 0;
    frame[0] = own_station(made, bank);
    if (write.count == 1 && chance(70))
        return add_check(frame, put_start(frame, 0x06, write.start, get16(write.words, 0)));
    size_t n = put_start(frame, 0x10, write.start, write.count);
    frame[n++] = (uint8_t)(2 * write.count);
    memcpy(frame + n, write.words, 2 * (size_t)write.count);
    return add_check(frame, n + 2 * (size_t)write.count);
}

/* ---- Damage ---- */

/* Bit 0 is the first one sent: the lowest bit of the first byte. */
static void flip(uint8_t *frame, size_t bit)
{
    frame[bit / 8] ^= (uint8_t)(1 << bit % 8);
}

/* Flips so many different bits. */
static void flip_bits(uint8_t *frame, size_t n, uint32_t count)
{
    size_t flipped[3];
    for (uint32_t i = 0; i < count; i++) {
        bool again;
        do {
            flipped[i] = below((uint32_t)(8 * n));
            again = (i > 0 && flipped[i] == flipped[0]) || (i > 1 && flipped[i] == flipped[1]);
        } while (again);
        flip(frame, flipped[i]);
    }
}

static void flip_burst(uint8_t *frame, size_t n)
{
    size_t first = below((uint32_t)(8 * n - 15));
    uint32_t pattern = chance(20) ? 0xFFFF : 1 + below(0xFFFF);
    for (size_t i = 0; i < 16; i++)
        if ((pattern >> i & 1) == 1)
            flip(frame, first + i);
}

enum damage damage_frame(uint8_t *frame, size_t n)
{
    enum damage damage = (enum damage)(1 + below(DAMAGE_COUNT - 1));
    if (damage == DAMAGE_BURST)
        flip_burst(frame, n);
    else
        flip_bits(frame, n, (uint32_t)damage);
    return damage;
}

/* ---- Posting ---- */

/* Right in front of the records, if that can be posted at; else near them. */
static uint32_t post_near_records(const struct made *made)
{
    uint32_t address = made->records.first - 1;
    int area = made_area_of(made, address);
    if (area >= 0 && made->areas[area].access == 1 && chance(80))
        return address;
    return address_near_records(made);
}

/* Right in front of an area that is only written, where that can be posted at, or now
 * and then in one; false if the search finds neither. */
static bool post_near_write_only(const struct made *made, uint32_t *address)
{
    bool found = false;
    for (int tries = 0; tries < 12 && !found; tries++) {
        const struct made_area *area = &made->areas[below(made->areas_n)];
        bool in_front = made_has_access(made, area->first - 1, 1);
        found = area->access == 2 && chance(in_front ? 90 : 6);
        *address = in_front && chance(90) ? area->first - 1
                                          : area->first + below(area->last - area->first + 1);
    }
    return found;
}

/* An address to post at: mostly in an access 1 area, if the sheet has one. */
static uint32_t post_address(const struct made *made)
{
    const struct made_area *area = &made->areas[below(made->areas_n)];
    uint32_t address;
    for (int tries = 0; tries < 6 && area->access != 1; tries++)
        area = &made->areas[below(made->areas_n)];
    if (made->records.is && chance(50))
        return post_near_records(made);
    if (chance(85) && post_near_write_only(made, &address))
        return address;
    if (chance(50))
        return area_with_neighbour(made, false)->last;
    if (chance(8))
        return some_address(made) + ONE_OF(0x10000, 0xFFFF0000, 0x80000000);
    if (chance(10))
        return some_address(made);
    return chance(30) ? area->first : area->first + below(area->last - area->first + 1);
}

static uint32_t post_count(const struct made *made, uint32_t address)
{
    uint32_t run = 0;
    while (made_has_access(made, address + run, 1))
        run++;
    bool into = made_is_record(made, address + run) || made_has_access(made, address + run, 2);
    if (run > 0 && into && chance(92))
        return chance(made_is_record(made, address + run) ? 85 : 50) ? run + 1 + below(2) : run;
    switch (below(8)) {
    case 0: return run;
    case 1: return run + 1;
    case 2: return address < 0x10000 ? 0x10001 - address : 1;
    case 3: case 4: return 2 + below(2);
    default: return 1 + below(run == 0 ? 3 : run);
    }
}

size_t make_post(const struct made *made, uint32_t *address, uint8_t *words)
{
    *address = post_address(made);
    uint32_t count = post_count(made, *address);
    size_t n = 2 * (size_t)(count < 500 ? count : 1 + below(500));
    if (chance(5))
        n = 0;
    else if (chance(made_has_access(made, *address, 2) ? 30 : 12))
        n = n == 0 ? 1 : n - 1;
    noise_fill(words, n);
    return n;
}
