#include "fast.h"
#include "cedarskein.h"
#include "fast_table.h"

enum { SHEET_HEADER = 24, AREA_ROW = 8, ITEM_ROW = 12, LONGEST_FRAME = 100, MOST_READ = 47, MOST_WORDS = 256,
       MOST_RECORDS = 6600 };

static inline uint32_t word(const uint8_t *at)
{
    return (uint32_t)at[0] << 8 | at[1];
}

static inline uint32_t pair(const uint8_t *at)
{
    return (uint32_t)at[0] << 24 | (uint32_t)at[1] << 16 | (uint32_t)at[2] << 8 | at[3];
}

static inline void put_word(uint8_t *at, uint32_t value)
{
    at[0] = (uint8_t)(value >> 8);
    at[1] = (uint8_t)value;
}

static inline void put_pair(uint8_t *at, uint32_t value)
{
    put_word(at, value >> 16);
    put_word(at + 2, value);
}

/* ---- The check value ---- */

static inline uint32_t taken(uint32_t state, uint8_t byte)
{
    return state >> 8 ^ fast_table[(state ^ byte) & 0xFF];
}

uint16_t fast_check_start(void)
{
    return 0xFFFF;
}

uint16_t fast_check_take(uint16_t state, uint8_t byte)
{
    return (uint16_t)taken(state, byte);
}

static inline uint32_t check_of(const uint8_t *bytes, size_t n)
{
    uint32_t state = 0xFFFF;
    for (size_t k = 0; k < n; k++)
        state = taken(state, bytes[k]);
    return state;
}

uint16_t fast_check_value(const uint8_t *bytes, size_t bytes_n)
{
    return (uint16_t)check_of(bytes, bytes_n);
}

/* ---- The sheet and the bank ---- */

static inline int header_sound(const uint8_t *sheet, size_t n)
{
    if (n < SHEET_HEADER)
        return 0;
    uint32_t areas = word(sheet + 2), items = word(sheet + 6), length = word(sheet + 14), record_areas = word(sheet + 22);
    return word(sheet) - 1 < 2 && areas - 1 < 8 && word(sheet + 4) == 12 && items - 2 < 63
        && word(sheet + 8) == 12 + 4 * areas && word(sheet + 10) - 2 < 255 && word(sheet + 12) < 16
        && record_areas < 2 && length == 12 + 4 * areas + 6 * items + 3 * record_areas && n == 2 * (size_t)length;
}

static inline const uint8_t *area_rows_end(const uint8_t *sheet)
{
    return sheet + SHEET_HEADER + AREA_ROW * word(sheet + 2);
}

/* The record area. A sheet without one has 0 records behind the last address, so that no address is a record's and no
 * area reaches them. */
struct records {
    uint32_t first, count, words;
};

static inline struct records records_of(const uint8_t *sheet)
{
    struct records records = { 0x10000, 0, 0 };
    const uint8_t *row = area_rows_end(sheet) + ITEM_ROW * word(sheet + 6);
    if (sheet[23] == 1) {
        records.first = word(row);
        records.count = word(row + 2);
        records.words = word(row + 4);
    }
    return records;
}

/* Below the first record the difference wraps and is large. */
static inline int is_record(const struct records *records, uint32_t address)
{
    return address - records->first < records->count;
}

static inline int records_sound(const struct records *records)
{
    return records->first == 0x10000
        || (records->count - 1 < MOST_RECORDS && records->words - 1 < MOST_READ && records->first + records->count <= 0x10000);
}

/* The access of an area as two bits: 1 where it can be read, 2 where it can be written. */
enum { READABLE = 1, WRITABLE = 2 };

/* Access 1 and 3 take one comparison. Access 2 is for version 2 alone, so it is right where it is the version itself; in
 * version 1 that adds nothing. */
static inline int access_sound(uint32_t access, uint32_t version)
{
    return (access | WRITABLE) == (READABLE | WRITABLE) || access == version;
}

static inline int areas_sound(const uint8_t *sheet)
{
    const uint8_t *end = area_rows_end(sheet);
    struct records records = records_of(sheet);
    uint32_t clear = word(sheet + 20), clears = sheet[13] & 2, lowest = 0, places = 0;
    if ((clears ? is_record(&records, clear) : clear != 0) || !records_sound(&records))
        return 0;
    for (const uint8_t *row = sheet + SHEET_HEADER; row < end; row += AREA_ROW) {
        uint32_t first = word(row), last = word(row + 2);
        if (first < lowest || last < first || word(row + 4) != places || !access_sound(word(row + 6), sheet[1]))
            return 0;
        if (clears && clear - first <= last - first)
            return 0;
        if (last >= records.first && first < records.first + records.count)
            return 0;
        lowest = last + 1;
        places += lowest - first;
    }
    return places == word(sheet + 10);
}

/* An item's bounds, moved so that one unsigned comparison judges each kind. */
struct range {
    uint32_t flip, low, high;
};

static inline struct range range_of(const uint8_t *row)
{
    uint32_t flip = (uint32_t)(row[1] == 1) << 15;
    struct range range = { flip, pair(row + 4) ^ flip, pair(row + 8) ^ flip };
    return range;
}

/* A pair's bounds stand as they are. */
static inline struct range pair_range(const uint8_t *row)
{
    struct range range = { 0, pair(row + 4), pair(row + 8) };
    return range;
}

/* The end of its range that a value misses. One comparison tells that it misses none, and all that ask no more pay for
 * that one alone. */
static inline uint32_t side_missed(struct range range, uint32_t value)
{
    uint32_t moved = value ^ range.flip;
    if (moved - range.low <= range.high - range.low)
        return CEDARSKEIN_NO_SIDE;
    return moved < range.low ? CEDARSKEIN_TOO_LOW : CEDARSKEIN_TOO_HIGH;
}

/* The places that can be written, as the items cover them: those from next to end are still to be covered in the area in
 * front of row. */
struct cover {
    const uint8_t *row, *rows_end;
    uint32_t next, end;
};

/* Goes on to the next area that can be written; an area is never empty. */
static inline int opened(struct cover *cover)
{
    for (; cover->row < cover->rows_end; cover->row += AREA_ROW) {
        if (!(cover->row[7] & WRITABLE))
            continue;
        cover->next = word(cover->row + 4);
        cover->end = cover->next + word(cover->row + 2) - word(cover->row) + 1;
        cover->row += AREA_ROW;
        return 1;
    }
    return 0;
}

static inline int row_covers(const uint8_t *row, struct range range, struct cover *cover)
{
    uint32_t kind = word(row), size = kind == 2 ? 2 : 1;
    if (cover->next == cover->end && !opened(cover))
        return 0;
    if (kind > 2 || word(row + 2) != cover->next || cover->next + size > cover->end)
        return 0;
    cover->next += size;
    return range.low <= range.high && (kind == 2 || (range.low | range.high) < 0x10000);
}

static inline uint32_t value_in(const uint8_t *bank, const uint8_t *row)
{
    const uint8_t *at = bank + 2 * word(row + 2);
    return row[1] == 2 ? pair(at) : word(at);
}

static inline int settings_sound(const uint8_t *address, const uint8_t *rate)
{
    if (address == NULL || rate == NULL || address == rate || word(address) != 0 || word(rate) != 0)
        return 0;
    return word(address + 6) == 1 && word(address + 10) <= 0xF7 && word(rate + 6) == 0 && word(rate + 10) == 1;
}

/* One pass over the items judges the rows and, where a bank is given, its words too. A sheet that breaks a rule is told
 * before a bank that is not sound, so the pass goes on behind the first item out of its range. */
static inline uint32_t items_judged(const uint8_t *sheet, const uint8_t *bank)
{
    const uint8_t *rows = area_rows_end(sheet), *end = rows + ITEM_ROW * word(sheet + 6);
    const uint8_t *address = NULL, *rate = NULL;
    uint32_t address_place = word(sheet + 16), rate_place = word(sheet + 18);
    struct cover cover = { sheet + SHEET_HEADER, rows, 0, 0 };
    int sound = 1;
    for (const uint8_t *row = rows; row < end; row += ITEM_ROW) {
        struct range range = range_of(row);
        if (!row_covers(row, range, &cover))
            return CEDARSKEIN_SHEET_BREAKS_RULE;
        if (word(row + 2) == address_place)
            address = row;
        if (word(row + 2) == rate_place)
            rate = row;
        if (bank != NULL)
            sound &= side_missed(range, value_in(bank, row)) == CEDARSKEIN_NO_SIDE;
    }
    if (cover.next < cover.end || opened(&cover) || !settings_sound(address, rate))
        return CEDARSKEIN_SHEET_BREAKS_RULE;
    return sound ? CEDARSKEIN_DONE : CEDARSKEIN_BANK_NOT_SOUND;
}

uint32_t fast_sheet_check(const uint8_t *sheet, size_t sheet_n)
{
    if (!header_sound(sheet, sheet_n) || !areas_sound(sheet))
        return CEDARSKEIN_SHEET_BREAKS_RULE;
    return items_judged(sheet, NULL);
}

static inline uint8_t *mark_in(const uint8_t *sheet, uint8_t *bank)
{
    return bank + 2 * word(sheet + 10);
}

uint32_t fast_bank_check(const uint8_t *sheet, size_t sheet_n, const uint8_t *bank, size_t bank_n)
{
    if (!header_sound(sheet, sheet_n) || !areas_sound(sheet))
        return CEDARSKEIN_SHEET_BREAKS_RULE;
    size_t mark = 2 * (size_t)word(sheet + 10);
    if (bank_n != mark + 2) {
        uint32_t number = items_judged(sheet, NULL);
        return number != CEDARSKEIN_DONE ? number : CEDARSKEIN_BANK_MISFITS;
    }
    uint32_t number = items_judged(sheet, bank);
    if (number == CEDARSKEIN_DONE && word(bank + mark) > 1)
        return CEDARSKEIN_BANK_NOT_SOUND;
    return number;
}

/* ---- The ring ---- */

/* The two words in front of the records: the place of the newest one, and how many are stored. */
enum { NEWEST = 0, STORED = 2, RECORDS = 4 };

static inline int ring_fits(const struct records *records, const uint8_t *ring, size_t ring_n)
{
    if (records->count == 0)
        return ring_n == 0;
    if (ring_n != RECORDS + 2 * (size_t)records->count * records->words)
        return 0;
    uint32_t newest = word(ring + NEWEST), stored = word(ring + STORED);
    return newest < records->count && stored <= records->count && (stored != 0 || newest == 0);
}

uint32_t fast_ring_check(const uint8_t *sheet, size_t sheet_n, const uint8_t *ring, size_t ring_n)
{
    uint32_t number = fast_sheet_check(sheet, sheet_n);
    if (number != CEDARSKEIN_DONE)
        return number;
    struct records records = records_of(sheet);
    return ring_fits(&records, ring, ring_n) ? CEDARSKEIN_DONE : CEDARSKEIN_BAD_RING;
}

static inline size_t record_at(const struct records *records, uint32_t place)
{
    return RECORDS + 2 * (size_t)place * records->words;
}

/* Behind the newest record, round from the last place to 0; the first one at place 0. */
static inline void store_record(const struct records *records, uint8_t *ring, const uint8_t *record)
{
    uint32_t stored = word(ring + STORED), place = stored == 0 ? 0 : word(ring + NEWEST) + 1;
    place = place == records->count ? 0 : place;
    uint8_t *at = ring + record_at(records, place);
    for (uint32_t k = 0; k < 2 * records->words; k++)
        at[k] = record[k];
    put_word(ring + NEWEST, place);
    put_word(ring + STORED, stored + (stored < records->count));
}

uint32_t fast_add_record(const uint8_t *sheet, size_t sheet_n, uint8_t *ring, size_t ring_n, const uint8_t *record,
                         size_t record_n)
{
    uint32_t number = fast_sheet_check(sheet, sheet_n);
    if (number != CEDARSKEIN_DONE)
        return number;
    struct records records = records_of(sheet);
    if (records.count == 0)
        return CEDARSKEIN_SHEET_BREAKS_RULE;
    if (!ring_fits(&records, ring, ring_n))
        return CEDARSKEIN_BAD_RING;
    if (record_n != 2 * (size_t)records.words)
        return CEDARSKEIN_BAD_INPUT;
    store_record(&records, ring, record);
    return CEDARSKEIN_DONE;
}

/* ---- The calls that change a bank ---- */

static inline void store_lows(const uint8_t *sheet, uint8_t *bank)
{
    const uint8_t *row = area_rows_end(sheet), *end = row + ITEM_ROW * word(sheet + 6);
    for (; row < end; row += ITEM_ROW) {
        uint8_t *at = bank + 2 * word(row + 2);
        if (row[1] == 2)
            put_pair(at, pair(row + 4));
        else
            put_word(at, word(row + 6));
    }
}

uint32_t fast_bank_fresh(const uint8_t *sheet, size_t sheet_n, uint8_t *bank, size_t bank_n)
{
    uint32_t number = fast_sheet_check(sheet, sheet_n);
    if (number != CEDARSKEIN_DONE)
        return number;
    if (bank_n != 2 * (size_t)word(sheet + 10) + 2)
        return CEDARSKEIN_BANK_MISFITS;
    for (size_t k = 0; k < bank_n; k++)
        bank[k] = 0;
    store_lows(sheet, bank);
    put_word(bank + 2 * word(sheet + 16), 1);
    put_word(bank + 2 * word(sheet + 18), 1);
    return CEDARSKEIN_DONE;
}

enum { NOWHERE = 0xFFFF };

/* Which areas a run may lie in: those with one bit of the access, whatever the other is; for posting, those that are not
 * written over the line. */
enum open_to { READS, WRITES, POSTS };

static inline int is_open(uint32_t access, enum open_to run)
{
    return run == READS ? access & READABLE : run == WRITES ? access & WRITABLE : !(access & WRITABLE);
}

/* The place of a run's first address, or NOWHERE where one of its addresses lies in no area that is open to it. Areas
 * ascend, so one pass over them takes the run from each to the next; the places of neighbours follow each other. */
static inline uint32_t place_of_run(const uint8_t *sheet, uint32_t first, size_t count, enum open_to run)
{
    const uint8_t *end = area_rows_end(sheet);
    if (count > MOST_WORDS || first > 0xFFFF)
        return NOWHERE;
    uint32_t last = first + (uint32_t)count - 1, from = first, place = NOWHERE;
    for (const uint8_t *row = sheet + SHEET_HEADER; row < end; row += AREA_ROW) {
        uint32_t area_first = word(row), area_last = word(row + 2);
        if (from > area_last)
            continue;
        if (from < area_first || !is_open(row[7], run))
            return NOWHERE;
        if (from == first)
            place = word(row + 4) + first - area_first;
        if (last <= area_last)
            return place;
        from = area_last + 1;
    }
    return NOWHERE;
}

uint32_t fast_post(const uint8_t *sheet, size_t sheet_n, uint8_t *bank, size_t bank_n, uint32_t address,
                   const uint8_t *words, size_t words_n)
{
    uint32_t number = fast_bank_check(sheet, sheet_n, bank, bank_n);
    if (number != CEDARSKEIN_DONE)
        return number;
    if (words_n == 0 || words_n % 2 != 0)
        return CEDARSKEIN_BAD_INPUT;
    uint32_t place = place_of_run(sheet, address, words_n / 2, POSTS);
    if (place == NOWHERE)
        return CEDARSKEIN_NOT_READ_ONLY;
    for (size_t k = 0; k < words_n; k++)
        bank[2 * place + k] = words[k];
    return CEDARSKEIN_DONE;
}

uint32_t fast_set_mark(const uint8_t *sheet, size_t sheet_n, uint8_t *bank, size_t bank_n, uint32_t mark)
{
    uint32_t number = fast_bank_check(sheet, sheet_n, bank, bank_n);
    if (number != CEDARSKEIN_DONE)
        return number;
    if (mark > 1)
        return CEDARSKEIN_BAD_INPUT;
    put_word(mark_in(sheet, bank), mark);
    return CEDARSKEIN_DONE;
}

/* ---- The answer to a frame ---- */

/* What a frame is answered with: all that the call is lent, once it is known to be sound. */
struct call {
    const uint8_t *sheet, *ring, *frame;
    uint8_t *bank, *out;
    uint32_t frame_n;
    struct records records;
};

static inline uint32_t sealed(uint8_t *out, uint32_t n, uint32_t state)
{
    out[n] = (uint8_t)state;
    out[n + 1] = (uint8_t)(state >> 8);
    return n + 2;
}

static inline uint32_t error_reply(const struct call *call, uint8_t code)
{
    uint8_t *out = call->out;
    out[0] = call->frame[0];
    out[1] = call->frame[1] | 0x80;
    out[2] = code;
    return sealed(out, 3, taken(taken(taken(0xFFFF, out[0]), out[1]), code));
}

/* Copies bytes and takes them into the check in the same pass. */
static inline uint32_t copied(uint8_t *to, const uint8_t *from, uint32_t n, uint32_t state)
{
    for (uint32_t k = 0; k < n; k++) {
        to[k] = from[k];
        state = taken(state, from[k]);
    }
    return state;
}

static inline uint32_t echo(const struct call *call)
{
    return sealed(call->out, 6, copied(call->out, call->frame, 6, 0xFFFF));
}

static inline uint32_t read_reply(const struct call *call, const uint8_t *words, uint32_t count)
{
    uint8_t *out = call->out;
    uint32_t bytes = 2 * count;
    out[0] = call->frame[0];
    out[1] = 3;
    out[2] = (uint8_t)bytes;
    uint32_t state = taken(taken(taken(0xFFFF, out[0]), 3), out[2]);
    return sealed(out, 3 + bytes, copied(out + 3, words, bytes, state));
}

/* A record so many behind the newest one. */
static inline uint32_t answer_record(const struct call *call, uint32_t behind, uint32_t count)
{
    const struct records *records = &call->records;
    if (count != 1)
        return error_reply(call, 3);
    if (behind >= word(call->ring + STORED))
        return error_reply(call, 2);
    uint32_t newest = word(call->ring + NEWEST);
    uint32_t place = newest - behind + (newest < behind ? records->count : 0);
    return read_reply(call, call->ring + record_at(records, place), records->words);
}

static inline uint32_t answer_read(const struct call *call)
{
    if (call->frame_n != 8)
        return 0;
    uint32_t first = word(call->frame + 2), count = word(call->frame + 4);
    if (is_record(&call->records, first))
        return answer_record(call, first - call->records.first, count);
    if (count == 0)
        return error_reply(call, 3);
    if (count > MOST_READ)
        return error_reply(call, 2);
    uint32_t place = place_of_run(call->sheet, first, count, READS);
    return place == NOWHERE ? error_reply(call, 2) : read_reply(call, call->bank + 2 * place, count);
}

static inline uint32_t answer_clear(const struct call *call)
{
    if (call->frame_n != 8)
        return 0;
    if (word(call->frame + 2) != word(call->sheet + 20))
        return error_reply(call, 2);
    if (word(call->frame + 4) != 0)
        return error_reply(call, 3);
    put_word(mark_in(call->sheet, call->bank), 0);
    return echo(call);
}

/* The row of the item that a place belongs to: the last that does not begin behind it. */
static inline const uint8_t *item_of(const uint8_t *sheet, uint32_t place)
{
    const uint8_t *row = area_rows_end(sheet);
    uint32_t many = word(sheet + 6);
    while (many > 1) {
        uint32_t half = many / 2;
        if (word(row + ITEM_ROW * half + 2) <= place)
            row += ITEM_ROW * half;
        many -= half;
    }
    return row;
}

/* What a pair would be by a write, and how many words of the write that takes. A half that is not sent is the bank's. */
static inline uint32_t pair_to_be(const uint8_t *row, const uint8_t *bank, const uint8_t *values, uint32_t place,
                                  uint32_t end, uint32_t *size)
{
    uint32_t first = word(row + 2);
    const uint8_t *at = bank + 2 * first;
    *size = 1;
    if (place != first)
        return word(at) << 16 | word(values);
    if (place + 1 == end)
        return word(values) << 16 | word(at + 2);
    *size = 2;
    return pair(values);
}

/* Stores what a write sends for a pair, and tells how many words that took; 0 where the pair would be bad. */
static inline uint32_t stored_pair(const uint8_t *row, uint8_t *bank, const uint8_t *values, uint32_t place, uint32_t end)
{
    uint32_t size, value = pair_to_be(row, bank, values, place, end, &size);
    if (side_missed(pair_range(row), value) != CEDARSKEIN_NO_SIDE)
        return 0;
    put_pair(bank + 2 * word(row + 2), value);
    return size;
}

static inline uint32_t stored_word(const uint8_t *row, uint8_t *bank, const uint8_t *values, uint32_t place)
{
    if (side_missed(range_of(row), word(values)) != CEDARSKEIN_NO_SIDE)
        return 0;
    put_word(bank + 2 * place, word(values));
    return 1;
}

/* Judges and stores item by item, as rule K5 has it. */
static inline uint32_t answer_write(const struct call *call, const uint8_t *values, uint32_t count)
{
    uint32_t place = place_of_run(call->sheet, word(call->frame + 2), count, WRITES), end = place + count, size;
    if (place == NOWHERE)
        return error_reply(call, 2);
    const uint8_t *row = item_of(call->sheet, place);
    for (; place < end; place += size) {
        if (row[1] == 2)
            size = stored_pair(row, call->bank, values, place, end);
        else
            size = stored_word(row, call->bank, values, place);
        if (size == 0)
            return error_reply(call, 3);
        values += 2 * size;
        row += ITEM_ROW;
    }
    return echo(call);
}

static inline uint32_t answer_write_many(const struct call *call)
{
    if (call->frame_n < 9 || call->frame_n != 9u + call->frame[6])
        return 0;
    uint32_t count = word(call->frame + 4);
    if (count == 0 || call->frame[6] != 2 * count)
        return error_reply(call, 3);
    return answer_write(call, call->frame + 7, count);
}

/* The length of the reply to a frame that passed and is for this station; 0 for silence. */
static inline uint32_t reply_length(const struct call *call)
{
    uint32_t functions = call->sheet[13];
    switch (call->frame[1]) {
    case 0x03: return functions & 1 ? answer_read(call) : error_reply(call, 1);
    case 0x05: return functions & 2 ? answer_clear(call) : error_reply(call, 1);
    case 0x06:
        if (!(functions & 4))
            return error_reply(call, 1);
        return call->frame_n == 8 ? answer_write(call, call->frame + 4, 1) : 0;
    case 0x10: return functions & 8 ? answer_write_many(call) : error_reply(call, 1);
    default: return error_reply(call, 1);
    }
}

static inline int passes(const uint8_t *frame, size_t n)
{
    if (n < 4 || n > LONGEST_FRAME)
        return 0;
    return check_of(frame, n - 2) == ((uint32_t)frame[n - 1] << 8 | frame[n - 2]);
}

/* The refusals that the two calls on a frame share: the sheet's, the bank's and the ring's. */
static inline uint32_t lent_judged(const uint8_t *sheet, size_t sheet_n, const uint8_t *bank, size_t bank_n,
                                   const uint8_t *ring, size_t ring_n, struct records *records)
{
    uint32_t number = fast_bank_check(sheet, sheet_n, bank, bank_n);
    if (number != CEDARSKEIN_DONE)
        return number;
    *records = records_of(sheet);
    return ring_fits(records, ring, ring_n) ? CEDARSKEIN_DONE : CEDARSKEIN_BAD_RING;
}

uint32_t fast_answer(const uint8_t *sheet, size_t sheet_n, uint8_t *bank, size_t bank_n, const uint8_t *ring,
                     size_t ring_n, const uint8_t *frame, size_t frame_n, uint8_t *out, size_t out_n, uint32_t *length,
                     uint32_t *rate)
{
    struct call call = { sheet, ring, frame, bank, out, (uint32_t)frame_n, { 0, 0, 0 } };
    *length = 0;
    *rate = 0;
    uint32_t number = lent_judged(sheet, sheet_n, bank, bank_n, ring, ring_n, &call.records);
    if (number != CEDARSKEIN_DONE)
        return number;
    if (out_n < LONGEST_FRAME)
        return CEDARSKEIN_SMALL_OUT;
    if (!passes(frame, frame_n) || frame[0] != word(bank + 2 * word(sheet + 16)))
        return CEDARSKEIN_SILENCE;
    uint32_t rate_before = word(bank + 2 * word(sheet + 18));
    *length = reply_length(&call);
    if (*length == 0)
        return CEDARSKEIN_SILENCE;
    *rate = rate_before;
    return CEDARSKEIN_DONE;
}

/* ---- Why a frame gets silence or an error ---- */

/* What a frame is judged with, and where the address and the side go that are told with the reason. */
struct asked {
    const uint8_t *sheet, *bank, *ring, *frame;
    uint32_t frame_n, *address, *side;
    struct records records;
};

/* The first address of a run that lies in no area which is open to it, or the one behind the run. Where all lie in such
 * areas, the place of the first is put down. One pass over the areas, as in place_of_run. */
static inline uint32_t first_closed(const uint8_t *sheet, uint32_t first, uint32_t count, enum open_to run, uint32_t *place)
{
    const uint8_t *end = area_rows_end(sheet);
    uint32_t last = first + count - 1, from = first;
    for (const uint8_t *row = sheet + SHEET_HEADER; row < end; row += AREA_ROW) {
        uint32_t area_first = word(row), area_last = word(row + 2);
        if (from > area_last)
            continue;
        if (from < area_first || !is_open(row[7], run))
            return from;
        if (from == first)
            *place = word(row + 4) + first - area_first;
        if (last <= area_last)
            return last + 1;
        from = area_last + 1;
    }
    return from;
}

static inline uint32_t why_record(const struct asked *asked, uint32_t first, uint32_t count)
{
    if (count != 1)
        return CEDARSKEIN_COUNT;
    if (first - asked->records.first < word(asked->ring + STORED))
        return CEDARSKEIN_NO_REASON;
    *asked->address = first;
    return CEDARSKEIN_ADDRESS;
}

static inline uint32_t why_read(const struct asked *asked)
{
    if (asked->frame_n != 8)
        return CEDARSKEIN_BODY_LENGTH;
    uint32_t first = word(asked->frame + 2), count = word(asked->frame + 4), place;
    if (is_record(&asked->records, first))
        return why_record(asked, first, count);
    if (count - 1 >= MOST_READ)
        return CEDARSKEIN_COUNT;
    uint32_t closed = first_closed(asked->sheet, first, count, READS, &place);
    if (closed == first + count)
        return CEDARSKEIN_NO_REASON;
    *asked->address = closed;
    return CEDARSKEIN_ADDRESS;
}

static inline uint32_t why_clear(const struct asked *asked)
{
    if (asked->frame_n != 8)
        return CEDARSKEIN_BODY_LENGTH;
    if (word(asked->frame + 2) != word(asked->sheet + 20)) {
        *asked->address = word(asked->frame + 2);
        return CEDARSKEIN_ADDRESS;
    }
    return word(asked->frame + 4) != 0 ? CEDARSKEIN_CLEAR_VALUE : CEDARSKEIN_NO_REASON;
}

/* The end that an item of a write would miss, and how many words of the write it takes. */
static inline uint32_t item_misses(const uint8_t *row, const uint8_t *bank, const uint8_t *values, uint32_t place,
                                   uint32_t end, uint32_t *size)
{
    *size = 1;
    if (row[1] == 2)
        return side_missed(pair_range(row), pair_to_be(row, bank, values, place, end, size));
    return side_missed(range_of(row), word(values));
}

/* Places follow each other as the run's addresses do, so a bad item's first address is as far from the run's as its first
 * place is from the run's first; in front of it, where the run begins with a lower half. */
static inline uint32_t why_write(const struct asked *asked, const uint8_t *values, uint32_t count)
{
    uint32_t first = word(asked->frame + 2), start = 0, size, side;
    uint32_t closed = first_closed(asked->sheet, first, count, WRITES, &start), end = start + count;
    if (closed != first + count) {
        *asked->address = closed;
        return CEDARSKEIN_ADDRESS;
    }
    const uint8_t *row = item_of(asked->sheet, start);
    for (uint32_t place = start; place < end; place += size) {
        side = item_misses(row, asked->bank, values, place, end, &size);
        if (side != CEDARSKEIN_NO_SIDE) {
            *asked->address = first + word(row + 2) - start;
            *asked->side = side;
            return CEDARSKEIN_ITEM;
        }
        values += 2 * size;
        row += ITEM_ROW;
    }
    return CEDARSKEIN_NO_REASON;
}

static inline uint32_t why_write_many(const struct asked *asked)
{
    if (asked->frame_n < 9 || asked->frame_n != 9u + asked->frame[6])
        return CEDARSKEIN_BODY_LENGTH;
    uint32_t count = word(asked->frame + 4);
    if (count == 0 || asked->frame[6] != 2 * count)
        return CEDARSKEIN_COUNT;
    return why_write(asked, asked->frame + 7, count);
}

/* Of a frame that passed and is for this station. */
static inline uint32_t why_function(const struct asked *asked)
{
    uint32_t functions = asked->sheet[13];
    switch (asked->frame[1]) {
    case 0x03: return functions & 1 ? why_read(asked) : CEDARSKEIN_FUNCTION;
    case 0x05: return functions & 2 ? why_clear(asked) : CEDARSKEIN_FUNCTION;
    case 0x06:
        if (!(functions & 4))
            return CEDARSKEIN_FUNCTION;
        return asked->frame_n == 8 ? why_write(asked, asked->frame + 4, 1) : CEDARSKEIN_BODY_LENGTH;
    case 0x10: return functions & 8 ? why_write_many(asked) : CEDARSKEIN_FUNCTION;
    default: return CEDARSKEIN_FUNCTION;
    }
}

uint32_t fast_why(const uint8_t *sheet, size_t sheet_n, const uint8_t *bank, size_t bank_n, const uint8_t *ring,
                  size_t ring_n, const uint8_t *frame, size_t frame_n, uint32_t *reason, uint32_t *address,
                  uint32_t *side)
{
    struct asked asked = { sheet, bank, ring, frame, (uint32_t)frame_n, address, side, { 0, 0, 0 } };
    *reason = CEDARSKEIN_NO_REASON;
    *address = 0;
    *side = CEDARSKEIN_NO_SIDE;
    uint32_t number = lent_judged(sheet, sheet_n, bank, bank_n, ring, ring_n, &asked.records);
    if (number != CEDARSKEIN_DONE)
        return number;
    if (frame_n < 4)
        *reason = CEDARSKEIN_TOO_SHORT;
    else if (frame_n > LONGEST_FRAME)
        *reason = CEDARSKEIN_TOO_LONG;
    else if (!passes(frame, frame_n))
        *reason = CEDARSKEIN_CHECK;
    else if (frame[0] != word(bank + 2 * word(sheet + 16)))
        *reason = CEDARSKEIN_STATION;
    else
        *reason = why_function(&asked);
    return CEDARSKEIN_DONE;
}

/* ---- The box that asks ---- */

enum { MOST_WRITTEN = 45, HIGHEST_STATION = 247, NO_FUNCTION = 0 };

/* The function of an order's query, and the word behind its address; NO_FUNCTION where the order has no frame. A run is
 * short where its end is reckoned, so nothing wraps. */
static inline uint32_t order_function(uint32_t order, uint32_t station, uint32_t address, uint32_t number, size_t values_n,
                                      uint32_t *second)
{
    if (station - 1 >= HIGHEST_STATION || address > 0xFFFF)
        return NO_FUNCTION;
    switch (order) {
    case CEDARSKEIN_READ:
        *second = number;
        return number - 1 < MOST_READ && address + number <= 0x10000 ? 0x03 : NO_FUNCTION;
    case CEDARSKEIN_RECORD:
        *second = 1;
        return number - 1 < MOST_READ ? 0x03 : NO_FUNCTION;
    case CEDARSKEIN_WRITE:
        *second = number;
        return number <= 0xFFFF ? 0x06 : NO_FUNCTION;
    case CEDARSKEIN_WRITES:
        *second = (uint32_t)(values_n / 2);
        return values_n % 2 == 0 && values_n - 2 <= 2 * MOST_WRITTEN - 2 && address + values_n / 2 <= 0x10000 ? 0x10 : NO_FUNCTION;
    case CEDARSKEIN_CLEAR:
        *second = 0;
        return 0x05;
    default: return NO_FUNCTION;
    }
}

uint32_t fast_query(uint32_t order, uint32_t station, uint32_t address, uint32_t number, const uint8_t *values,
                    size_t values_n, uint8_t *out, size_t out_n, uint32_t *length)
{
    uint32_t second, function = order_function(order, station, address, number, values_n, &second), n = 6;
    *length = 0;
    if (function == NO_FUNCTION)
        return CEDARSKEIN_NO_FRAME;
    if (out_n < LONGEST_FRAME)
        return CEDARSKEIN_SMALL_OUT;
    out[0] = (uint8_t)station;
    out[1] = (uint8_t)function;
    put_word(out + 2, address);
    put_word(out + 4, second);
    uint32_t state = check_of(out, 6);
    if (function == 0x10) {
        out[6] = (uint8_t)values_n;
        state = copied(out + 7, values, (uint32_t)values_n, taken(state, out[6]));
        n = 7 + (uint32_t)values_n;
    }
    *length = sealed(out, n, state);
    return CEDARSKEIN_DONE;
}

/* A reply to a read: its values go to out. */
static inline uint32_t values_read(const uint8_t *reply, size_t reply_n, uint32_t bytes, uint8_t *out, uint32_t *length)
{
    if (reply_n != 5 + (size_t)bytes || reply[2] != bytes)
        return CEDARSKEIN_REPLY_BODY;
    for (uint32_t k = 0; k < bytes; k++)
        out[k] = reply[3 + k];
    *length = bytes;
    return CEDARSKEIN_DONE;
}

uint32_t fast_reply(uint32_t order, uint32_t station, uint32_t address, uint32_t number, const uint8_t *values,
                    size_t values_n, const uint8_t *reply, size_t reply_n, uint8_t *out, size_t out_n, uint32_t *length,
                    uint32_t *error)
{
    uint32_t second, function = order_function(order, station, address, number, values_n, &second);
    (void)values;
    *length = 0;
    *error = 0;
    if (function == NO_FUNCTION)
        return CEDARSKEIN_NO_FRAME;
    if (out_n < LONGEST_FRAME)
        return CEDARSKEIN_SMALL_OUT;
    if (!passes(reply, reply_n))
        return CEDARSKEIN_REPLY_DAMAGED;
    if (reply[0] != station)
        return CEDARSKEIN_REPLY_STATION;
    if ((reply[1] & 0x7Fu) != function)
        return CEDARSKEIN_REPLY_FUNCTION;
    if (reply[1] & 0x80) {
        if (reply_n != 5 || reply[2] - 1u >= 3)
            return CEDARSKEIN_REPLY_BODY;
        *error = reply[2];
        return CEDARSKEIN_DONE;
    }
    if (function == 0x03)
        return values_read(reply, reply_n, 2 * number, out, length);
    return reply_n == 8 && pair(reply + 2) == (address << 16 | second) ? CEDARSKEIN_DONE : CEDARSKEIN_REPLY_BODY;
}
