/* Holds the C of fast.c to the archive on made calls with record areas and rings: `rings SEED CALLS`.
 *
 * Sheets are the makers' with a record area behind them, often with a word changed; rings are of the right size or nearly so, with any
 * two words; frames are about the record area's ends. Both sides make each call on memory of their own, and all that they
 * hand back or leave there must agree. Exit 0 if it does, and each number, reason and reply was met. */
#include "cedarskein.h"
#include "cedarskein_sheets.h"
#include "fast.h"

#include <inttypes.h>
#include <stdio.h>
#include <stdlib.h>
#include <string.h>

enum { MOST_RECORDS = 6600, MOST_WORDS = 47, NUMBERS = 9, REASONS = 11 };

/* No side: one that a call does not write is seen by it. */
enum { UNTOLD_SIDE = 99 };

/* Room for the ring of a sheet with a record and two words too many, and some bytes behind it. */
enum { BEHIND = 8, RING_ROOM = 2 * (2 + (MOST_RECORDS + 1) * (MOST_WORDS + 2)) + 4 + BEHIND };

/* What a call is lent, on one side, and what it hands back. */
struct lent {
    uint8_t sheet[CEDARSKEIN_LONGEST_SHEET + 8], bank[CEDARSKEIN_LONGEST_BANK + 8], frame[16], out[128], record[128];
    size_t sheet_n, bank_n, ring_n, frame_n, out_n, record_n;
    uint32_t number, length, rate, reason, address, missed_side;
};

/* The rings stand apart: only what is lent of them is copied and compared. */
static uint8_t rings[2][RING_ROOM];
static struct lent sides[2];
static uint32_t state;
static unsigned long met_number[NUMBERS], met_reason[REASONS], met_read, met_error[4];

static uint32_t below(uint32_t limit)
{
    state ^= state << 13;
    state ^= state >> 17;
    state ^= state << 5;
    return (state >> 3) % limit;
}

static int chance(uint32_t percent)
{
    return below(100) < percent;
}

static void put(uint8_t *bytes, size_t at, uint32_t word)
{
    bytes[2 * at] = (uint8_t)(word >> 8);
    bytes[2 * at + 1] = (uint8_t)word;
}

static uint32_t word(const uint8_t *bytes, size_t at)
{
    return 256u * bytes[2 * at] + bytes[2 * at + 1];
}

static void noise(uint8_t *bytes, size_t n)
{
    for (size_t k = 0; k < n; k++)
        bytes[k] = (uint8_t)below(256);
}

/* ---- What is made ---- */

struct records {
    uint32_t first, count, words;
};

/* Ends of the makers' areas and of all addresses, the clear address, and where AS-W meters have their history. */
static uint32_t any_address(void)
{
    static const uint32_t ends[10] = { 0, 0x00FF, 0x0117, 0x0200, 0x020B, 0x020F, 0x0300, 0x0301, 0x0400, 0xFFFF };
    return (ends[below(10)] + below(5) - 2) & 0xFFFF;
}

static struct records made_records(void)
{
    struct records records = { any_address(), 1 + below(6), 1 + below(4) };
    if (chance(70))
        records.first = 0x0400;
    if (chance(10))
        records.words = chance(50) ? MOST_WORDS : below(MOST_WORDS + 3);
    if (chance(2))
        records.count = MOST_RECORDS + below(3) - 1;
    if (chance(2))
        records.count = 0;
    return records;
}

/* Two record areas, counted in word 7 as one is. */
static void two_areas(struct lent *lent, size_t n)
{
    memcpy(lent->sheet + n + 6, lent->sheet + n, 6);
    put(lent->sheet, 7, (uint32_t)n / 2 + 6);
    put(lent->sheet, 11, 2);
    lent->sheet_n = n + 12;
}

/* One with 05, one of version 2, and one without either. */
static void use_makers_sheet(struct lent *lent, uint32_t which)
{
    static const struct { const uint8_t *bytes; size_t n, bank_n; } makers[3] = {
        { cedarskein_ux_sheet, sizeof cedarskein_ux_sheet, CEDARSKEIN_UX_BANK_SIZE },
        { cedarskein_aswe_40_sheet, sizeof cedarskein_aswe_40_sheet, CEDARSKEIN_ASWE_40_BANK_SIZE },
        { cedarskein_aswe_80_sheet, sizeof cedarskein_aswe_80_sheet, CEDARSKEIN_ASWE_80_BANK_SIZE },
    };
    lent->sheet_n = makers[which].n;
    lent->bank_n = makers[which].bank_n;
    memcpy(lent->sheet, makers[which].bytes, lent->sheet_n);
    fast_bank_fresh(lent->sheet, lent->sheet_n, lent->bank, lent->bank_n);
}

static void make_sheet(struct lent *lent, const struct records *records)
{
    size_t n;
    use_makers_sheet(lent, chance(70) ? 0 : 1 + below(2));
    n = lent->sheet_n;
    if (chance(8))
        return;
    put(lent->sheet, n / 2, records->first);
    put(lent->sheet, n / 2 + 1, records->count);
    put(lent->sheet, n / 2 + 2, records->words);
    lent->sheet_n = n + 6;
    put(lent->sheet, 7, (uint32_t)n / 2 + 3);
    put(lent->sheet, 11, 1);
    if (chance(4))
        put(lent->sheet, chance(50) ? 11 : below(12), below(4));
    if (chance(2))
        two_areas(lent, n);
    if (chance(4))
        lent->sheet_n = lent->sheet_n + below(8) - 4;
}

static void make_ring(struct lent *lent, uint8_t *ring, const struct records *records)
{
    size_t n = 4 + 2 * (size_t)records->count * records->words;
    int has_records = lent->sheet_n > 22 && lent->sheet[23] == 1;
    lent->ring_n = has_records ? n : 0;
    if (chance(5))
        lent->ring_n += below(4);
    if (chance(2))
        lent->ring_n = below(8);
    noise(ring, lent->ring_n < 4000 ? lent->ring_n : 4000);
    if (lent->ring_n < 4 || records->count == 0)
        return;
    put(ring, 0, chance(95) ? below(records->count) : records->count + below(2));
    put(ring, 1, chance(60) ? records->count : below(records->count + 2));
    if (word(ring, 1) == 0 && chance(80))
        put(ring, 0, 0);
}

static void make_frame(struct lent *lent, const struct records *records)
{
    static const uint8_t functions[8] = { 3, 3, 3, 3, 3, 6, 5, 0x83 };
    uint32_t address = records->first + (chance(80) ? below(records->count + 2) : any_address());
    uint16_t check;
    lent->frame[0] = (uint8_t)(chance(97) ? 1 : 2);
    lent->frame[1] = functions[below(8)];
    put(lent->frame, 1, chance(10) ? records->first - 1 : address);
    put(lent->frame, 2, chance(60) ? 1 : chance(80) ? below(4) : below(60));
    lent->frame_n = chance(97) ? 8 : below(12);
    if (lent->frame_n < 2)
        return;
    check = fast_check_value(lent->frame, lent->frame_n - 2);
    lent->frame[lent->frame_n - 2] = (uint8_t)check;
    lent->frame[lent->frame_n - 1] = (uint8_t)(check >> 8);
}

static void make_lent(struct lent *lent, uint8_t *ring)
{
    struct records records = made_records();
    memset(lent, 0, sizeof *lent);
    lent->missed_side = UNTOLD_SIDE;
    make_sheet(lent, &records);
    make_ring(lent, ring, &records);
    make_frame(lent, &records);
    if (chance(3))
        lent->bank_n += 2;
    if (chance(3))
        lent->bank[lent->bank_n - 1] = 2;
    lent->out_n = chance(95) ? 100 + below(3) : 99;
    noise(lent->record, sizeof lent->record);
    lent->record_n = 2 * (size_t)records.words + (chance(8) ? below(3) : 0);
}

/* ---- Both sides ---- */

static uint32_t called(int side, uint32_t sort)
{
    struct lent *l = &sides[side];
    uint8_t *ring = l->ring_n == 0 && sort % 2 == 0 ? NULL : rings[side];
    switch (sort % 4) {
    case 0:
        return (side ? fast_answer : cedarskein_answer)(l->sheet, l->sheet_n, l->bank, l->bank_n, ring, l->ring_n, l->frame, l->frame_n,
                                                        l->out, l->out_n, &l->length, &l->rate);
    case 1:
        return (side ? fast_why : cedarskein_why)(l->sheet, l->sheet_n, l->bank, l->bank_n, ring, l->ring_n, l->frame, l->frame_n,
                                                  &l->reason, &l->address, &l->missed_side);
    case 2: return (side ? fast_ring_check : cedarskein_ring_check)(l->sheet, l->sheet_n, ring, l->ring_n);
    default:
        return (side ? fast_add_record : cedarskein_add_record)(l->sheet, l->sheet_n, ring, l->ring_n, l->record, l->record_n);
    }
}

/* The ring, and what lies behind it. */
static int same(void)
{
    return memcmp(&sides[0], &sides[1], sizeof sides[0]) == 0 && memcmp(rings[0], rings[1], sides[0].ring_n + BEHIND) == 0;
}

static void count_met(uint32_t sort)
{
    const struct lent *lent = &sides[0];
    met_number[lent->number < NUMBERS ? lent->number : 0]++;
    if (sort % 4 == 1 && lent->number == CEDARSKEIN_DONE)
        met_reason[lent->reason < REASONS ? lent->reason : 0]++;
    if (sort % 4 != 0 || lent->number != CEDARSKEIN_DONE)
        return;
    if ((lent->out[1] & 0x80) != 0)
        met_error[lent->out[2] & 3]++;
    else if (lent->out[1] == 3)
        met_read++;
}

static void print_call(uint32_t sort)
{
    for (int side = 0; side < 2; side++)
        printf("%s: sort %" PRIu32 ", number %" PRIu32 ", length %" PRIu32 ", rate %" PRIu32 ", reason %" PRIu32 ", address %" PRIX32
               ", side %" PRIu32 "\n", side ? "fast" : "archive", sort % 4, sides[side].number, sides[side].length, sides[side].rate,
               sides[side].reason, sides[side].address, sides[side].missed_side);
    printf("sheet, %zu bytes:", sides[0].sheet_n);
    for (size_t k = 0; k < sides[0].sheet_n; k++)
        printf(" %02X", sides[0].sheet[k]);
    printf("\nring, %zu bytes, begins %02X%02X %02X%02X; frame, %zu bytes:", sides[0].ring_n, rings[0][0], rings[0][1], rings[0][2],
           rings[0][3], sides[0].frame_n);
    for (size_t k = 0; k < sides[0].frame_n; k++)
        printf(" %02X", sides[0].frame[k]);
    printf("\n");
}

static int agree(uint32_t sort)
{
    make_lent(&sides[0], rings[0]);
    sides[1] = sides[0];
    memcpy(rings[1], rings[0], sides[0].ring_n + BEHIND);
    for (int side = 0; side < 2; side++)
        sides[side].number = called(side, sort);
    count_met(sort);
    if (same())
        return 1;
    print_call(sort);
    return 0;
}

/* Numbers but 6, which is of posting; reasons but those of a long frame, of a wrong check and of an item; a read, and each error. */
static int all_met(void)
{
    int met = met_read != 0 && met_error[1] && met_error[2] && met_error[3];
    for (int k = 0; k < NUMBERS; k++)
        met &= k == 6 || met_number[k] != 0;
    for (int k = 0; k < REASONS; k++)
        met &= k == CEDARSKEIN_TOO_LONG || k == CEDARSKEIN_CHECK || k == CEDARSKEIN_ITEM || met_reason[k] != 0;
    return met;
}

int main(int count, char **words)
{
    unsigned long calls = count > 2 ? strtoul(words[2], NULL, 10) : 400000, k;
    state = count > 1 ? (uint32_t)strtoul(words[1], NULL, 10) | 1 : 1;
    for (k = 0; k < calls; k++)
        if (!agree((uint32_t)k))
            return 1;
    if (!all_met()) {
        printf("FAILED: a number, a reason or a reply was never met\n");
        return 1;
    }
    printf("%lu calls with rings, seed %s: no difference; %lu reads answered, 8 told %lu times\n", calls, count > 1 ? words[1] : "1",
           met_read, met_number[8]);
    return 0;
}
