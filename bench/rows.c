#include "rows.h"
#include "cedarskein.h"
#include "cedarskein_sheets.h"
#include "fast.h"

#include <stdio.h>
#include <string.h>

/* ---- Who is called ---- */

static uint16_t empty_take(uint16_t state, uint8_t byte)
{
    (void)state, (void)byte;
    return 0;
}

static uint16_t empty_value(const uint8_t *bytes, size_t n)
{
    (void)bytes, (void)n;
    return 0;
}

static uint32_t empty_check(const uint8_t *sheet, size_t n)
{
    (void)sheet;
    (void)n;
    return 0;
}

static uint32_t empty_fresh(const uint8_t *sheet, size_t sheet_n, uint8_t *bank, size_t bank_n)
{
    (void)sheet, (void)sheet_n, (void)bank, (void)bank_n;
    return 0;
}

static uint32_t empty_answer(const uint8_t *sheet, size_t sheet_n, uint8_t *bank, size_t bank_n, const uint8_t *ring,
                             size_t ring_n, const uint8_t *frame, size_t frame_n, uint8_t *out, size_t out_n,
                             uint32_t *length, uint32_t *rate)
{
    (void)sheet, (void)sheet_n, (void)bank, (void)bank_n, (void)ring, (void)ring_n, (void)frame, (void)frame_n;
    (void)out, (void)out_n, (void)length, (void)rate;
    return 0;
}

static uint32_t empty_why(const uint8_t *sheet, size_t sheet_n, const uint8_t *bank, size_t bank_n, const uint8_t *ring,
                          size_t ring_n, const uint8_t *frame, size_t frame_n, uint32_t *reason, uint32_t *address,
                          uint32_t *side)
{
    (void)sheet, (void)sheet_n, (void)bank, (void)bank_n, (void)ring, (void)ring_n, (void)frame, (void)frame_n;
    (void)reason, (void)address, (void)side;
    return 0;
}

static uint32_t empty_ring_check(const uint8_t *sheet, size_t sheet_n, const uint8_t *ring, size_t ring_n)
{
    (void)sheet, (void)sheet_n, (void)ring, (void)ring_n;
    return 0;
}

static uint32_t empty_add(const uint8_t *sheet, size_t sheet_n, uint8_t *ring, size_t ring_n, const uint8_t *record,
                          size_t record_n)
{
    (void)sheet, (void)sheet_n, (void)ring, (void)ring_n, (void)record, (void)record_n;
    return 0;
}

static uint32_t empty_query(uint32_t order, uint32_t station, uint32_t address, uint32_t number, const uint8_t *values,
                            size_t values_n, uint8_t *out, size_t out_n, uint32_t *length)
{
    (void)order, (void)station, (void)address, (void)number, (void)values, (void)values_n, (void)out, (void)out_n, (void)length;
    return 0;
}

static uint32_t empty_reply(uint32_t order, uint32_t station, uint32_t address, uint32_t number, const uint8_t *values,
                            size_t values_n, const uint8_t *reply, size_t reply_n, uint8_t *out, size_t out_n,
                            uint32_t *length, uint32_t *error)
{
    (void)order, (void)station, (void)address, (void)number, (void)values, (void)values_n, (void)reply, (void)reply_n;
    (void)out, (void)out_n, (void)length, (void)error;
    return 0;
}

static const struct side sides[] = {
    { "archive", cedarskein_check_take, cedarskein_check_value, cedarskein_sheet_check, cedarskein_bank_fresh, cedarskein_answer,
      cedarskein_why, cedarskein_ring_check, cedarskein_add_record, cedarskein_query, cedarskein_reply },
    { "fast", fast_check_take, fast_check_value, fast_sheet_check, fast_bank_fresh, fast_answer, fast_why, fast_ring_check,
      fast_add_record, fast_query, fast_reply },
    { "empty", empty_take, empty_value, empty_check, empty_fresh, empty_answer, empty_why, empty_ring_check, empty_add, empty_query,
      empty_reply },
};

const struct side *side_named(const char *name)
{
    for (size_t k = 0; k < sizeof sides / sizeof sides[0]; k++)
        if (strcmp(sides[k].name, name) == 0)
            return &sides[k];
    return NULL;
}

static uint32_t called(const struct side *side, struct row *row)
{
    switch (row->called) {
    case ANSWER:
        return side->answer(row->sheet, row->sheet_n, row->bank, row->bank_n, row->ring, row->ring_n, row->frame, row->frame_n,
                            row->out, OUT_ROOM, &row->length, &row->rate);
    case WHY:
        return side->why(row->sheet, row->sheet_n, row->bank, row->bank_n, row->ring, row->ring_n, row->frame, row->frame_n,
                         &row->reason, &row->address, &row->missed_side);
    case BANK_FRESH: return side->bank_fresh(row->sheet, row->sheet_n, row->bank, row->bank_n);
    case RING_CHECK: return side->ring_check(row->sheet, row->sheet_n, row->ring, row->ring_n);
    case ADD_RECORD: return side->add_record(row->sheet, row->sheet_n, row->ring, row->ring_n, row->record, row->record_n);
    case QUERY:
        return side->query(row->order.order, 1, row->order.address, row->order.number, row->values, row->values_n, row->out, OUT_ROOM,
                           &row->length);
    case REPLY:
        return side->reply(row->order.order, 1, row->order.address, row->order.number, row->values, row->values_n, row->frame, row->frame_n,
                           row->out, OUT_ROOM, &row->length, &row->error);
    case CHECK_TAKE: return side->check_take(0xFFFF, row->frame[0]);
    case CHECK_VALUE: return side->check_value(row->frame, row->frame_n);
    default: return side->sheet_check(row->sheet, row->sheet_n);
    }
}

void row_call(const struct side *side, struct row *row)
{
    row->number = called(side, row);
}

/* ---- Sheets ---- */

static void put(uint8_t *bytes, size_t at, uint32_t word)
{
    bytes[2 * at] = (uint8_t)(word >> 8);
    bytes[2 * at + 1] = (uint8_t)word;
}

/* A sheet under way: its rows are added one after another, the header last. */
struct made {
    uint8_t *sheet;
    uint32_t areas, items, places, next_item;
};

static void add_area(struct made *made, uint32_t first, uint32_t length, uint32_t access)
{
    size_t at = 12 + 4 * (size_t)made->areas++;
    put(made->sheet, at, first);
    put(made->sheet, at + 1, first + length - 1);
    put(made->sheet, at + 2, made->places);
    put(made->sheet, at + 3, access);
    made->places += length;
}

static void add_item(struct made *made, uint32_t kind, uint32_t low, uint32_t high)
{
    size_t at = 12 + 4 * (size_t)made->areas + 6 * (size_t)made->items++;
    put(made->sheet, at, kind);
    put(made->sheet, at + 1, made->next_item);
    put(made->sheet, at + 2, 0);
    put(made->sheet, at + 3, low);
    put(made->sheet, at + 4, kind == 2 ? 1 : 0);
    put(made->sheet, at + 5, high);
    made->next_item += kind == 2 ? 2 : 1;
}

/* Functions 03, 06 and 10; address and rate at the first two items. */
static void add_header(struct made *made, uint32_t address)
{
    uint32_t words[12] = { 1, made->areas, 12, made->items, 12 + 4 * made->areas, made->places, 13,
                           12 + 4 * made->areas + 6 * made->items, address, address + 1, 0, 0 };
    for (size_t k = 0; k < 12; k++)
        put(made->sheet, k, words[k]);
}

static void add_settings(struct made *made)
{
    add_item(made, 0, 1, 0xF7);
    add_item(made, 0, 0, 1);
}

/* Words, every other one signed. */
static void add_words(struct made *made, uint32_t many)
{
    for (uint32_t k = 0; k < many; k++)
        add_item(made, k % 2, k % 2 ? 0xFFF6 : 0, 0x3C);
}

static void add_pairs(struct made *made, uint32_t many)
{
    for (uint32_t k = 0; k < many; k++)
        add_item(made, 2, 0, 0x869F);
}

/* The largest sheet: 8 areas, 64 items, 256 words. Items cover areas 2, 4, 6 and 8; the last 45 are the words of area 8,
 * whose front neighbour is area 7. */
enum { LARGEST_WRITE = 0x0800, LARGEST_READ = 0x07FE };

static void make_largest(struct made *made)
{
    static const uint32_t lengths[8] = { 40, 2, 40, 16, 40, 18, 55, 45 };
    for (uint32_t k = 0; k < 8; k++)
        add_area(made, k == 6 ? 0x0800 - 55 : 0x0100 * (k + 1), lengths[k], k % 2 ? 3 : 1);
    made->next_item = 40;
    add_settings(made);
    made->next_item = 82;
    add_pairs(made, 8);
    made->next_item = 138;
    add_pairs(made, 9);
    made->next_item = 211;
    add_words(made, 45);
    add_header(made, 40);
}

/* One area, so many items. */
static void make_items(struct made *made, uint32_t items)
{
    add_area(made, 0x0100, items, 3);
    add_settings(made);
    add_words(made, items - 2);
    add_header(made, 0);
}

/* So many neighbouring areas, 8 items in all. */
static void make_areas(struct made *made, uint32_t areas)
{
    for (uint32_t k = 0; k < areas; k++)
        add_area(made, 0x0100 + 8 / areas * k, 8 / areas, 3);
    add_settings(made);
    add_words(made, 6);
    add_header(made, 0);
}

static void use_sheet(struct row *row, void (*make)(struct made *, uint32_t), uint32_t size)
{
    struct made made = { row->sheet, 0, 0, 0, 0 };
    if (make != NULL)
        make(&made, size);
    else
        make_largest(&made);
    row->sheet_n = 2 * (12 + 4 * (size_t)made.areas + 6 * (size_t)made.items);
    row->bank_n = 2 * (size_t)made.places + 2;
}

static void use_makers(struct row *row, const uint8_t *sheet, size_t sheet_n, size_t bank_n)
{
    memcpy(row->sheet, sheet, sheet_n);
    row->sheet_n = sheet_n;
    row->bank_n = bank_n;
}

static void use_ux(struct row *row)
{
    use_makers(row, cedarskein_ux_sheet, sizeof cedarskein_ux_sheet, CEDARSKEIN_UX_BANK_SIZE);
}

/* The sheet of version 2, whose presets from 0118 on are only written. */
static void use_presets(struct row *row)
{
    use_makers(row, cedarskein_aswe_40_sheet, sizeof cedarskein_aswe_40_sheet, CEDARSKEIN_ASWE_40_BANK_SIZE);
}

/* The UX sheet with records at 0400, and its ring, full: the newest record lies in the middle. */
enum { HISTORY = 0x0400 };

static void use_records(struct row *row, uint32_t count, uint32_t words)
{
    use_ux(row);
    put(row->sheet, row->sheet_n / 2, HISTORY);
    put(row->sheet, row->sheet_n / 2 + 1, count);
    put(row->sheet, row->sheet_n / 2 + 2, words);
    row->sheet_n += 6;
    put(row->sheet, 7, (uint32_t)row->sheet_n / 2);
    put(row->sheet, 11, 1);
    row->ring_n = 4 + 2 * (size_t)count * words;
    for (size_t k = 4; k < row->ring_n; k++)
        row->ring[k] = (uint8_t)(k ^ k >> 8);
    put(row->ring, 0, count / 2);
    put(row->ring, 1, count);
    row->record_n = 2 * (size_t)words;
    for (size_t k = 0; k < row->record_n; k++)
        row->record[k] = (uint8_t)~k;
}

/* ---- Frames ---- */

static void seal(struct row *row, size_t n)
{
    uint16_t check = fast_check_value(row->frame, n);
    row->frame[n] = (uint8_t)check;
    row->frame[n + 1] = (uint8_t)(check >> 8);
    row->frame_n = n + 2;
    row->called = ANSWER;
}

static void short_frame(struct row *row, uint8_t station, uint8_t function, uint32_t start, uint32_t second)
{
    row->frame[0] = station;
    row->frame[1] = function;
    row->frame[2] = (uint8_t)(start >> 8);
    row->frame[3] = (uint8_t)start;
    row->frame[4] = (uint8_t)(second >> 8);
    row->frame[5] = (uint8_t)second;
    seal(row, 6);
}

/* A 10 of so many words, each 1, but the last as given. */
static void write_frame(struct row *row, uint32_t start, uint32_t count, uint32_t last)
{
    short_frame(row, 1, 0x10, start, count);
    row->frame[6] = (uint8_t)(2 * count);
    for (uint32_t k = 0; k < count; k++) {
        row->frame[7 + 2 * k] = 0;
        row->frame[8 + 2 * k] = (uint8_t)(k + 1 == count ? last : 1);
    }
    seal(row, 7 + 2 * (size_t)count);
}

static void count_up(struct row *row, size_t n)
{
    for (size_t k = 0; k < n; k++)
        row->frame[k] = (uint8_t)(k + 1);
    row->frame_n = n;
}

static void bad_check(struct row *row, size_t n)
{
    count_up(row, n);
    seal(row, n - 2);
    row->frame[n - 1] ^= 1;
}

/* ---- The rows ---- */

const char *const row_names[] = {
    "ux_read_2", "ux_read_23", "ux_write", "ux_write_2", "ux_other_station", "ux_bad_check_8", "ux_sheet_check",
    "largest_read_47", "largest_write_45", "largest_last_bad", "largest_sheet_check",
    "items_2_check", "items_8_check", "items_32_check", "items_64_check",
    "items_2_read", "items_8_read", "items_32_read", "items_64_read",
    "areas_1_check", "areas_2_check", "areas_4_check", "areas_8_check",
    "areas_1_read", "areas_2_read", "areas_4_read", "areas_8_read",
    "ux_bad_check_50", "ux_bad_check_100", "check_take_1", "check_value_8", "check_value_50", "check_value_100",
    "why_ux_bad_check_8", "why_ux_other_station", "why_ux_read_2", "why_ux_read_24", "why_ux_write_2",
    "why_ux_too_low", "why_ux_too_high",
    "why_largest_read_47", "why_largest_write_45", "why_largest_last_bad",
    "presets_write_7", "presets_write_half", "presets_read", "presets_sheet_check", "presets_fresh", "why_presets_read",
    "records_1_check", "records_6600_check", "records_1_read", "records_6600_read", "records_1_add", "records_6600_add",
    "why_records_1_read", "why_records_6600_read", "record_words_1_read", "record_words_22_read", "record_words_47_read",
    "record_words_1_add", "record_words_22_add", "record_words_47_add",
    "query_read", "query_values_1", "query_values_22", "query_values_45",
    "reply_words_1", "reply_words_22", "reply_words_47", "reply_echo", "reply_error", NULL
};

static void make_ux_frame(struct row *row, const char *what)
{
    unsigned n;
    if (strcmp(what, "read_2") == 0)
        short_frame(row, 1, 3, 0x0101, 2);
    else if (strcmp(what, "read_23") == 0)
        short_frame(row, 1, 3, 0x0100, 23);
    else if (strcmp(what, "read_24") == 0)
        short_frame(row, 1, 3, 0x0100, 24);
    else if (strcmp(what, "write") == 0)
        short_frame(row, 1, 6, 0x010F, 1);
    else if (strcmp(what, "write_2") == 0)
        write_frame(row, 0x010F, 2, 0x88);
    else if (strcmp(what, "too_low") == 0)
        short_frame(row, 1, 6, 0x0100, 0xFFF5);
    else if (strcmp(what, "too_high") == 0)
        short_frame(row, 1, 6, 0x0100, 0x003D);
    else if (strcmp(what, "other_station") == 0)
        short_frame(row, 2, 3, 0x0101, 2);
    else if (sscanf(what, "bad_check_%u", &n) == 1)
        bad_check(row, n);
}

static void make_largest_frame(struct row *row, const char *what)
{
    if (strcmp(what, "read_47") == 0)
        short_frame(row, 1, 3, LARGEST_READ, 47);
    else if (strcmp(what, "write_45") == 0)
        write_frame(row, LARGEST_WRITE, 45, 1);
    else if (strcmp(what, "last_bad") == 0)
        write_frame(row, LARGEST_WRITE, 45, 0x3D);
}

/* All five presets, the upper half of the first pair, and a read, which is refused. */
static void make_presets_frame(struct row *row, const char *what)
{
    if (strcmp(what, "write_7") == 0)
        write_frame(row, 0x0118, 7, 1);
    else if (strcmp(what, "write_half") == 0)
        short_frame(row, 1, 6, 0x011B, 1);
    else if (strcmp(what, "read") == 0)
        short_frame(row, 1, 3, 0x0118, 7);
    else if (strcmp(what, "fresh") == 0)
        row->called = BANK_FRESH;
}

/* A growth row: a sheet of a size, with its check alone or a read of all 8 words of the areas, or of 2. */
static int make_growth(struct row *row, const char *name)
{
    unsigned size;
    char what[8];
    if (sscanf(name, "items_%u_%7s", &size, what) == 2)
        use_sheet(row, make_items, size);
    else if (sscanf(name, "areas_%u_%7s", &size, what) == 2)
        use_sheet(row, make_areas, size);
    else
        return 0;
    if (strcmp(what, "read") == 0)
        short_frame(row, 1, 3, 0x0100, name[0] == 'a' ? 8 : 2);
    return 1;
}

/* A ring of so many records of 22 words, or of 100 records of so many words: its check, a read of its oldest record, or
 * an addition. */
static int make_records(struct row *row, const char *name)
{
    unsigned size, count = 100, words = 22;
    char what[8];
    if (sscanf(name, "records_%u_%7s", &size, what) == 2)
        count = size;
    else if (sscanf(name, "record_words_%u_%7s", &size, what) == 2)
        words = size;
    else
        return 0;
    use_records(row, count, words);
    if (strcmp(what, "read") == 0)
        short_frame(row, 1, 3, HISTORY + count - 1, 1);
    else
        row->called = strcmp(what, "add") == 0 ? ADD_RECORD : RING_CHECK;
    return 1;
}

/* The check value of so many bytes, or one byte more into its running state. No sheet is in the call; the UX sheet is there for the
 * fresh bank that every row has. */
static int make_check(struct row *row, const char *name)
{
    unsigned n;
    if (sscanf(name, "check_take_%u", &n) == 1)
        row->called = CHECK_TAKE;
    else if (sscanf(name, "check_value_%u", &n) == 1)
        row->called = CHECK_VALUE;
    else
        return 0;
    use_ux(row);
    count_up(row, n);
    return 1;
}

/* The query of a read, or of so many values. */
static int make_query(struct row *row, const char *what)
{
    unsigned n;
    row->called = QUERY;
    if (strcmp(what, "read") == 0) {
        row->order = (struct order){ CEDARSKEIN_READ, 0x0101, 2 };
        return 1;
    }
    if (sscanf(what, "values_%u", &n) != 1)
        return 0;
    row->order = (struct order){ CEDARSKEIN_WRITES, LARGEST_WRITE, 0 };
    row->values_n = 2 * (size_t)n;
    for (size_t k = 0; k < row->values_n; k++)
        row->values[k] = (uint8_t)(k + 1);
    return 1;
}

/* A reply with so many words, the echo of a write, or an error. */
static int make_reply(struct row *row, const char *what)
{
    unsigned n;
    if (strcmp(what, "echo") == 0) {
        row->order = (struct order){ CEDARSKEIN_WRITE, 0x010F, 1 };
        short_frame(row, 1, 6, 0x010F, 1);
    } else if (strcmp(what, "error") == 0) {
        row->order = (struct order){ CEDARSKEIN_READ, 0x0101, 2 };
        short_frame(row, 1, 0x83, 0x0200, 0);
        seal(row, 3);
    } else if (sscanf(what, "words_%u", &n) == 1) {
        row->order = (struct order){ CEDARSKEIN_READ, LARGEST_READ, n };
        count_up(row, 3 + 2 * (size_t)n);
        row->frame[0] = 1;
        row->frame[1] = 3;
        row->frame[2] = (uint8_t)(2 * n);
        seal(row, row->frame_n);
    } else {
        return 0;
    }
    row->called = REPLY;
    row->error = UNTOLD_ERROR;
    return 1;
}

/* The two calls that know no sheet; the UX sheet is there for the fresh bank that every row has. */
static int make_asking(struct row *row, const char *name)
{
    use_ux(row);
    if (strncmp(name, "query_", 6) == 0)
        return make_query(row, name + 6);
    return strncmp(name, "reply_", 6) == 0 && make_reply(row, name + 6);
}

static int make_named(struct row *row, const char *name)
{
    if (strncmp(name, "ux_", 3) == 0) {
        use_ux(row);
        make_ux_frame(row, name + 3);
    } else if (strncmp(name, "largest_", 8) == 0) {
        use_sheet(row, NULL, 0);
        make_largest_frame(row, name + 8);
    } else if (strncmp(name, "presets_", 8) == 0) {
        use_presets(row);
        make_presets_frame(row, name + 8);
    } else {
        return make_check(row, name) || make_records(row, name) || make_growth(row, name) || make_asking(row, name);
    }
    return 1;
}

int row_make(struct row *row, const char *name)
{
    int asks = strncmp(name, "why_", 4) == 0;
    memset(row, 0, sizeof *row);
    if (!make_named(row, name + (asks ? 4 : 0)))
        return 0;
    if (asks) {
        row->called = WHY;
        row->missed_side = UNTOLD_SIDE;
    }
    if (fast_bank_fresh(row->sheet, row->sheet_n, row->bank, row->bank_n) != CEDARSKEIN_DONE)
        return 0;
    if (row->called == BANK_FRESH)  /* what is to be made fresh is not so before */
        memset(row->bank, 0xA5, row->bank_n);
    return 1;
}
