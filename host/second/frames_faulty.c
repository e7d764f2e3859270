/* Frames that are good but for chosen faults. Each fault is put in by itself,
 * the later ones of rule Y1 first, so that several are in one frame. */
#include "frames_faulty.h"
#include "noise.h"

enum { MOST_TRIES = 20, MOST_READ = 47, MOST_WRITTEN = 45 };

/* A frame under way. */
struct making {
    const struct made *made;
    const uint8_t *bank;
    uint32_t stored;        /* records in the ring */
    struct faulty *faulty;
    uint32_t wanted;        /* bits like those of the faults */
    uint32_t closed;        /* the first address that is not open */
    uint32_t bad_item;      /* the first address of the first bad item */
    enum second_side side;  /* at which that item misses its range */
};

/* ---- Faults ---- */

static bool wants(const struct making *making, enum second_reason reason)
{
    return (making->wanted >> reason & 1) == 1;
}

static void put_in(struct making *making, enum second_reason reason)
{
    making->faulty->faults |= 1u << reason;
}

/* Leaves the faults from one reason on out: the frame has lost the bytes or the
 * function by which they would hold. */
static void leave_out_from(struct making *making, enum second_reason reason)
{
    making->faulty->faults &= (1u << reason) - 1;
}

/* ---- Runs of addresses ---- */

/* Whether there is something to write, or to read; there may be nothing to read. */
static bool has_open_area(const struct made *made, bool write)
{
    for (uint32_t i = 0; i < made->areas_n; i++)
        if (made->areas[i].access != (write ? 1u : 2u))
            return true;
    return false;
}

/* An area that can be read or written, if there is one; the last one more often than
 * others, because it alone can end at FFFF. */
static const struct made_area *open_area(const struct making *making, bool write)
{
    const struct made *made = making->made;
    const struct made_area *area = &made->areas[made->areas_n - 1];
    uint32_t shut = write ? 1 : 2;
    if (has_open_area(made, write) && (chance(50) || area->access == shut))
        do
            area = &made->areas[below(made->areas_n)];
        while (area->access == shut);
    return area;
}

/* The lower half of a pair; false if the search finds no pair. */
static bool lower_half(const struct making *making, uint32_t *start)
{
    for (int tries = 0; tries < MOST_TRIES; tries++) {
        const struct made_item *item = &making->made->items[below(making->made->items_n)];
        *start = address_of_place(making->made, item->place) + 1;
        if (item->kind == 2)
            return true;
    }
    return false;
}

/* An address that can be read or written, often one of the last of an area, and
 * for a bad item often where half a pair is in front of the write. */
static uint32_t open_start(const struct making *making, bool write)
{
    const struct made_area *area = open_area(making, write);
    uint32_t length = area->last - area->first + 1;
    uint32_t start;
    if (write && wants(making, REASON_ITEM) && chance(85) && lower_half(making, &start))
        return start;
    return chance(50) ? area->last - below(length < 3 ? length : 3) : area->first + below(length);
}

/* An address that cannot be; false if the search finds none. A read that starts
 * at a record's is another matter. */
static bool closed_start(const struct making *making, bool write, uint32_t *start)
{
    if (write && making->made->records.is && chance(75)) {
        *start = some_record(making->made, making->stored);
        return true;
    }
    for (int tries = 0; tries < MOST_TRIES; tries++) {
        *start = some_address(making->made);
        if (run_length(making->made, *start, write) == 0
            && (write || !made_is_record(making->made, *start)))
            return true;
    }
    return false;
}

/* A run up to the first record and further, of which all in front is open; false
 * if nothing is open right there. */
static bool run_to_records(struct making *making, bool write, uint32_t *start, uint32_t *count)
{
    uint32_t first = making->made->records.first;
    uint32_t back = 1 + below(3);
    if (!making->made->records.is || first < back)
        return false;
    if (run_length(making->made, first - back, write) != back)
        back = 1;
    if (run_length(making->made, first - back, write) != back)
        return false;
    *start = first - back;
    *count = back + 1 + below(2);
    making->closed = first;
    return true;
}

/* A read of registers that are only written and of one beside them: up to the first,
 * from the last on, or from in front of them to behind; false if the area that is
 * looked at is no such one. */
static bool run_over_write_only(struct making *making, uint32_t most, uint32_t *start,
                                uint32_t *count)
{
    const struct made *made = making->made;
    const struct made_area *area = &made->areas[below(made->areas_n)];
    uint32_t length = area->last - area->first + 1;
    if (area->access != 2 || length + 2 > most || !made_is_open(made, area->first - 1, false)
        || !made_is_open(made, area->last + 1, false))
        return false;
    uint32_t sort = below(3);
    *start = sort == 0 ? area->last : area->first - 1;
    *count = sort < 2 ? 2 : length + 2;
    making->closed = sort == 0 ? area->last : area->first;
    return true;
}

/* A read where nothing can be read; from its first address on. */
static uint32_t shut_run(struct making *making, uint32_t start, uint32_t *count)
{
    *count = 1 + below(3);
    making->closed = start;
    put_in(making, REASON_ADDRESS);
    return start;
}

/* The start of a run of at most so many addresses, and how many it has. */
static uint32_t make_run(struct making *making, bool write, uint32_t most, uint32_t *count)
{
    uint32_t start = open_start(making, write);
    uint32_t run = run_length(making->made, start, write);
    if (run == 0)
        return shut_run(making, start, count);
    *count = 1 + below(run < most ? run : most);
    if (!wants(making, REASON_ADDRESS))
        return start;
    if (!write && chance(40) && run_over_write_only(making, most, &start, count)) {
        put_in(making, REASON_ADDRESS);
    } else if (most > 1 && chance(write ? 75 : 90)
               && run_to_records(making, write, &start, count)) {
        put_in(making, REASON_ADDRESS);
    } else if (run < most && chance(making->made->records.is ? 55 : 70)) {
        *count = run + 1 + below(most - run < 3 ? most - run : 3);
        making->closed = start + run;
        put_in(making, REASON_ADDRESS);
    } else if (closed_start(making, write, &making->closed)) {
        start = making->closed;
        put_in(making, REASON_ADDRESS);
    }
    return start;
}

/* ---- The words of a write ---- */

static enum second_side side_of(const struct made_item *item, int64_t value)
{
    return value < item->low ? SIDE_TOO_LOW : item->high < value ? SIDE_TOO_HIGH : SIDE_NONE;
}

/* The side at which a word would be bad as one half of a pair whose other half is
 * in the bank. */
static enum second_side side_of_half(const struct making *making, const struct made_item *item,
                                     bool upper, uint32_t word)
{
    int64_t other = get16(making->bank, item->place + (upper ? 1 : 0));
    return side_of(item, upper ? (int64_t)word * 0x10000 + other : other * 0x10000 + word);
}

/* One half of a pair: the bank's own word is good. No side if a bad one was asked
 * for and not found. */
static enum second_side put_half(const struct making *making, const struct made_item *item,
                                 bool upper, bool bad, uint8_t *words)
{
    enum second_side side = SIDE_NONE;
    put16(words, 0, get16(making->bank, item->place + (upper ? 0 : 1)));
    for (int tries = 0; bad && side == SIDE_NONE && tries < MOST_TRIES; tries++) {
        uint32_t word = ONE_OF(0, 0xFFFF, below(0x10000), below(0x10000));
        side = side_of_half(making, item, upper, word);
        if (side != SIDE_NONE)
            put16(words, 0, word);
    }
    return side;
}

/* A whole item; likewise. */
static enum second_side put_whole(const struct made_item *item, bool bad, uint8_t *words)
{
    int64_t value = value_within(item);
    bool found = !bad;
    for (int tries = 0; !found && tries < MOST_TRIES; tries++)
        found = value_outside(item, &value);
    if (!found)
        value = item->low;
    if (item->kind == 2)
        put16(words, 0, (uint32_t)(value >> 16 & 0xFFFF));
    put16(words, item->kind == 2 ? 1 : 0, (uint32_t)(value & 0xFFFF));
    return side_of(item, value);
}

/* The item at one address of a write, of which so many words are left; hands
 * back how many it takes. A place without an item gets noise. */
static uint32_t put_item(struct making *making, uint32_t address, uint32_t left, bool bad,
                         uint8_t *words)
{
    noise_fill(words, 2);
    if (run_length(making->made, address, true) == 0)
        return 1;
    const struct made_area *area = &making->made->areas[made_area_of(making->made, address)];
    uint32_t place = area->place + (address - area->first);
    const struct made_item *item = &making->made->items[made_item_of(making->made, place)];
    bool upper = item->place == place;
    bool half = item->kind == 2 && (!upper || left == 1);
    enum second_side side = half ? put_half(making, item, upper, bad, words)
                                 : put_whole(item, bad, words);
    if (side != SIDE_NONE && (making->faulty->faults >> REASON_ITEM & 1) == 0) {
        making->bad_item = address_of_place(making->made, item->place);
        making->side = side;
        put_in(making, REASON_ITEM);
    }
    return item->kind == 2 && !half ? 2 : 1;
}

/* Good words; if a bad item is wanted, one from some word on, and perhaps more
 * behind it. */
static void put_values(struct making *making, uint32_t start, uint32_t count, uint8_t *words)
{
    uint32_t from = !wants(making, REASON_ITEM) ? count : chance(65) ? 0 : below(count);
    bool more = chance(30);
    for (uint32_t i = 0; i < count;) {
        bool first = (making->faulty->faults >> REASON_ITEM & 1) == 0;
        i += put_item(making, start + i, count - i, i >= from && (first || more), words + 2 * i);
    }
}

/* ---- Bodies ---- */

/* Another count is in: whether an address is not open goes by it now, and the
 * items are others. */
static void put_bad_count(struct making *making, bool write, uint32_t start, uint32_t count)
{
    leave_out_from(making, REASON_ADDRESS);
    if (run_length(making->made, start, write) < count)
        put_in(making, REASON_ADDRESS);
    put_in(making, REASON_BAD_COUNT);
}

static bool is_stored(const struct making *making, uint32_t address)
{
    return address - making->made->records.first < making->stored;
}

/* A record that is stored, or one that is not; any if the search finds none. */
static uint32_t record_start(const struct making *making, bool stored)
{
    uint32_t start;
    int tries = 0;
    do
        start = some_record(making->made, making->stored);
    while (is_stored(making, start) != stored && ++tries < MOST_TRIES);
    return start;
}

/* A read of a record; another count than one is told ahead of a record that is
 * not stored. */
static size_t faulty_record(struct making *making, uint8_t *frame)
{
    uint32_t start = record_start(making, !wants(making, REASON_ADDRESS));
    uint32_t count = 1;
    if (!is_stored(making, start)) {
        making->closed = start;
        put_in(making, REASON_ADDRESS);
    }
    if (wants(making, REASON_BAD_COUNT)) {
        count = ONE_OF(0, 0, 2, 2, 47, 48, 0x0101, 0xFFFF);
        put_in(making, REASON_BAD_COUNT);
    }
    return put_start(frame, 0x03, start, count);
}

static size_t faulty_read(struct making *making, uint8_t *frame)
{
    if (making->made->records.is && chance(28))
        return faulty_record(making, frame);
    uint32_t count;
    uint32_t start = make_run(making, false, MOST_READ, &count);
    if (wants(making, REASON_BAD_COUNT)) {
        count = ONE_OF(0, 0, 48, 48, 49, 0x8000, 0xFFFF);
        put_bad_count(making, false, start, count);
    }
    return put_start(frame, 0x03, start, count);
}

static size_t faulty_clear(struct making *making, uint8_t *frame)
{
    uint32_t start = making->made->clear;
    uint32_t value = 0;
    if (wants(making, REASON_ADDRESS)) {
        start = making->made->records.is && chance(40)
            ? some_record(making->made, making->stored)
            : (start + ONE_OF(1, 0xFFFF, 1 + below(0xFFFF))) & 0xFFFF;
        making->closed = start;
        put_in(making, REASON_ADDRESS);
    }
    if (wants(making, REASON_CLEAR_VALUE)) {
        value = ONE_OF(1, 2, 0x0100, 0xFF00, 0xFFFF);
        put_in(making, REASON_CLEAR_VALUE);
    }
    return put_start(frame, 0x05, start, value);
}

static size_t faulty_write_one(struct making *making, uint8_t *frame)
{
    uint32_t count;
    uint32_t start = make_run(making, true, 1, &count);
    uint8_t word[4];
    put_values(making, start, 1, word);
    return put_start(frame, 0x06, start, get16(word, 0));
}

/* Another count, or another byte count with as many bytes. */
static size_t spoil_counts(struct making *making, uint8_t *frame, size_t n)
{
    uint32_t count = get16(frame + 4, 0);
    switch (below(4)) {
    case 0: count = 0; break;
    case 1: count += ONE_OF(1, 0x80, 0x0100, 0x8000, 0xFFFF); break;
    case 2: frame[6] = 0; n = 7; break;
    default: frame[6]++; frame[n++] = 0; break;
    }
    put16(frame + 4, 0, count);
    put_bad_count(making, true, get16(frame + 2, 0), get16(frame + 4, 0));
    return n;
}

static size_t faulty_write_many(struct making *making, uint8_t *frame)
{
    uint32_t count;
    uint32_t start = make_run(making, true, MOST_WRITTEN, &count);
    size_t n = put_start(frame, 0x10, start, count) + 1;
    frame[6] = (uint8_t)(2 * count);
    put_values(making, start, count, frame + n);
    n += 2 * (size_t)count;
    return wants(making, REASON_BAD_COUNT) ? spoil_counts(making, frame, n) : n;
}

typedef size_t make_body(struct making *making, uint8_t *frame);

/* In the order of their bits in the sheet. One that the sheet allows is looked
 * for, unless that is to be the fault. A bad item needs one of the writes. */
static size_t some_body(struct making *making, uint8_t *frame)
{
    static make_body *const bodies[4] = {
        faulty_read, faulty_clear, faulty_write_one, faulty_write_many
    };
    uint32_t functions = making->made->functions;
    uint32_t wanted = wants(making, REASON_FUNCTION) ? 0 : 1;
    uint32_t bit = wants(making, REASON_CLEAR_VALUE) ? 1
        : wants(making, REASON_ITEM) && chance(40) ? 2 + below(2) : below(4);
    for (int tries = 0; tries < 6 && (functions >> bit & 1) != wanted; tries++)
        bit = below(4);
    if ((functions >> bit & 1) == 0)
        put_in(making, REASON_FUNCTION);
    return bodies[bit](making, frame);
}

/* ---- Faults of the frame as a whole ---- */

/* Bytes too many, or too few: then the faults of what was cut are lost. The
 * byte count stays. */
static size_t spoil_body_length(struct making *making, uint8_t *frame, size_t n)
{
    put_in(making, REASON_BODY_LENGTH);
    if (n < 98 && chance(60)) {
        noise_fill(frame + n, 4);
        return n + 1 + below(98 - n < 4 ? (uint32_t)(98 - n) : 4);
    }
    leave_out_from(making, REASON_BAD_COUNT);
    return 2 + below((uint32_t)n - 2);
}

/* A function that no sheet can allow; what is behind it has no meaning then. */
static void spoil_function(struct making *making, uint8_t *frame)
{
    frame[1] = (uint8_t)ONE_OF(0, 1, 2, 4, 7, 0x0F, 0x11, 0x13, 0x30, 0x83, 0x90, 0xFF);
    leave_out_from(making, REASON_FUNCTION);
    put_in(making, REASON_FUNCTION);
}

/* Noise behind a body, which has at most 98 bytes. */
static size_t add_length(struct making *making, uint8_t *frame, size_t n)
{
    size_t longer = chance(50) ? 99 : 99 + below(200);
    noise_fill(frame + n, longer - n);
    put_in(making, REASON_TOO_LONG);
    return longer;
}

/* What is left of a frame of under 4 bytes may still be for another station,
 * and have another function. */
static size_t cut_short(struct making *making)
{
    size_t n = chance(15) ? 0 : 1 + below(3);
    leave_out_from(making, n == 0 ? REASON_STATION : n == 1 ? REASON_FUNCTION : REASON_BODY_LENGTH);
    making->faulty->faults &= ~(1u << REASON_TOO_LONG | 1u << REASON_CHECK);
    put_in(making, REASON_TOO_SHORT);
    return n;
}

/* Any station but the bank's own, often one that no meter has. */
static uint8_t other_station(uint8_t own)
{
    return (uint8_t)(chance(30) ? ONE_OF(0, 0xF8, 0xFF) : own + 1 + below(255));
}

static size_t make_whole(struct making *making, uint8_t *frame)
{
    size_t n = some_body(making, frame);
    if (wants(making, REASON_BODY_LENGTH))
        n = spoil_body_length(making, frame, n);
    if (wants(making, REASON_FUNCTION) && chance(25))
        spoil_function(making, frame);
    frame[0] = own_station(making->made, making->bank);
    if (wants(making, REASON_STATION)) {
        frame[0] = other_station(frame[0]);
        put_in(making, REASON_STATION);
    }
    if (wants(making, REASON_TOO_LONG))
        n = add_length(making, frame, n);
    n = add_check(frame, n);
    if (wants(making, REASON_CHECK)) {
        frame[n - 1 - below(2)] ^= (uint8_t)(1 + below(255));
        put_in(making, REASON_CHECK);
    }
    return wants(making, REASON_TOO_SHORT) ? cut_short(making) : n;
}

/* None, or up to five: of all, or of those from some reason on, so that the
 * last are first often enough. */
static uint32_t some_faults(void)
{
    uint32_t faults = chance(4) ? 1u << REASON_TOO_SHORT | 1u << REASON_STATION : 0;
    uint32_t first = ONE_OF(REASON_TOO_SHORT, REASON_TOO_SHORT, REASON_CHECK, REASON_STATION,
                            REASON_FUNCTION, REASON_FUNCTION, REASON_FUNCTION, REASON_BAD_COUNT,
                            REASON_BAD_COUNT);
    for (uint32_t many = below(6); many > 0; many--)
        faults |= 1u << (first + below(REASON_COUNT - first));
    return faults;
}

void make_faulty(const struct made *made, const uint8_t *bank, uint32_t stored,
                 struct faulty *faulty)
{
    struct making making = { made, bank, stored, faulty, some_faults(), 0, 0, SIDE_NONE };
    faulty->faults = 0;
    faulty->n = make_whole(&making, faulty->frame);
    int reason = REASON_NONE + 1;
    while (reason < REASON_COUNT && (faulty->faults >> reason & 1) == 0)
        reason++;
    faulty->reason = reason < REASON_COUNT ? (enum second_reason)reason : REASON_NONE;
    faulty->address = faulty->reason == REASON_ADDRESS ? making.closed
        : faulty->reason == REASON_ITEM ? making.bad_item : 0;
    faulty->side = faulty->reason == REASON_ITEM ? making.side : SIDE_NONE;
}
