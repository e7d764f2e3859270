#include "sides_met.h"

/* ---- The words that a write sends ---- */

/* How many words the frame sends, by its length; 0 if it is no write. */
static size_t words_sent(const struct call *call)
{
    const uint8_t *frame = call->part[PART_BYTES];
    size_t n = call->part_n[PART_BYTES];
    if (n == 8 && frame[1] == 0x06)
        return 1;
    return n > 9 && frame[1] == 0x10 ? (n - 9) / 2 : 0;
}

static uint32_t start_of(const struct call *call)
{
    return get16(call->part[PART_BYTES] + 2, 0);
}

static bool is_sent(const struct call *call, uint32_t address)
{
    uint32_t start = start_of(call);
    return start <= address && address - start < words_sent(call);
}

/* The word that a place would hold: the frame's, or the bank's where the frame
 * sends none. */
static uint32_t word_to_be(const struct call *call, uint32_t address, uint32_t place)
{
    const uint8_t *words = call->part[PART_BYTES] + (call->part[PART_BYTES][1] == 0x06 ? 4 : 7);
    if (is_sent(call, address))
        return get16(words, address - start_of(call));
    if (2 * (size_t)place + 2 > call->part_n[PART_BANK])
        return 0;
    return get16(call->part[PART_BANK], place);
}

/* ---- Items in the bytes of a call ---- */

/* An item as a write would leave it, were it good. A word counts as a lower one. */
struct written {
    uint32_t kind;
    int64_t low, high, value;
    bool upper_sent, lower_sent;
};

/* The number that two words are: of a pair both, else the lower, which has a sign
 * in kind 1. */
static int64_t number_of(uint32_t kind, uint32_t upper, uint32_t lower)
{
    if (kind == 1)
        return (int64_t)(lower ^ 0x8000) - 0x8000;
    return kind == 2 ? (int64_t)upper << 16 | lower : lower;
}

/* The word that the row of an address's area begins at; 0 if no area has it. */
static size_t area_row(const struct call *call, uint32_t address)
{
    const uint8_t *sheet = call->part[PART_SHEET];
    size_t end = call->part_n[PART_SHEET] / 2;
    size_t row = 12;
    while (row + 4 <= end && (address < get16(sheet, row) || get16(sheet, row + 1) < address))
        row += 4;
    return row < get16(sheet, 4) ? row : 0;
}

/* The word that the row of the item begins at whose first place it is; 0 if there is
 * none. */
static size_t item_row(const struct call *call, uint32_t place)
{
    const uint8_t *sheet = call->part[PART_SHEET];
    size_t end = call->part_n[PART_SHEET] / 2;
    size_t row = get16(sheet, 4);
    while (row + 6 <= end && get16(sheet, row + 1) != place)
        row += 6;
    return row + 6 <= end && row < get16(sheet, 4) + 6 * (size_t)get16(sheet, 3) ? row : 0;
}

/* The item that begins at an address, with what the call's write sends for it; false
 * if none begins there, or the write sends no word of it. */
static bool find_written(const struct call *call, uint32_t address, struct written *item)
{
    const uint8_t *sheet = call->part[PART_SHEET];
    size_t area = area_row(call, address);
    if (area == 0)
        return false;
    uint32_t place = get16(sheet, area + 2) + (address - get16(sheet, area));
    size_t row = item_row(call, place);
    if (row == 0 || get16(sheet, row) > 2)
        return false;
    uint32_t kind = get16(sheet, row);
    uint32_t last = kind == 2 ? 1 : 0;
    item->kind = kind;
    item->low = number_of(kind, get16(sheet, row + 2), get16(sheet, row + 3));
    item->high = number_of(kind, get16(sheet, row + 4), get16(sheet, row + 5));
    item->value = number_of(kind, word_to_be(call, address, place),
                            word_to_be(call, address + last, place + last));
    item->upper_sent = kind == 2 && is_sent(call, address);
    item->lower_sent = is_sent(call, address + last);
    return item->upper_sent || item->lower_sent;
}

/* ---- What holds of every call ---- */

static enum second_side side_of(int64_t low, int64_t high, int64_t value)
{
    return value < low ? SIDE_TOO_LOW : value > high ? SIDE_TOO_HIGH : SIDE_NONE;
}

const char *side_breach(const struct call *call, const struct outcome *outcome)
{
    struct written item;
    if (call->sort != CALL_WHY)
        return NULL;
    if (outcome->number != NUMBER_DONE || outcome->reason != REASON_ITEM)
        return outcome->side == SIDE_NONE ? NULL : "a side is told where no item is the reason";
    if (!find_written(call, outcome->address, &item))
        return "the reason is an item, and the frame writes none that begins at the address";
    enum second_side side = side_of(item.low, item.high, item.value);
    if (side == SIDE_NONE)
        return "the reason is an item that would be in its range";
    return outcome->side == side ? NULL : "the side told is not the one that the item misses";
}

/* ---- Counting ---- */

/* A value at or next to an end of its item's range, sent as a whole. */
static void count_near_end(struct counts *counts, const struct written *item)
{
    uint64_t *near = &counts->special[SPECIAL_WHY_WORD_UNDER_LOW + 4 * item->kind];
    if (item->value == item->low - 1)
        near[0]++;
    if (item->value == item->low)
        near[1]++;
    if (item->value == item->high)
        near[2]++;
    if (item->value == item->high + 1)
        near[3]++;
}

/* A word with a sign that would be told otherwise if it had none. */
static void count_sign(struct counts *counts, const struct written *item, enum second_side side)
{
    if (side_of(item->low & 0xFFFF, item->high & 0xFFFF, item->value & 0xFFFF) == side)
        return;
    counts->special[side == SIDE_TOO_LOW ? SPECIAL_WHY_SIGN_TOO_LOW : SPECIAL_WHY_SIGN_TOO_HIGH]++;
}

/* Whether the half that is sent would do if the other one were another. */
static bool would_do(const struct written *item)
{
    int64_t half = item->upper_sent ? item->value >> 16 : item->value & 0xFFFF;
    int64_t least = item->low >> 16;
    if (item->upper_sent)
        return least <= half && half <= item->high >> 16;
    if (half < (item->low & 0xFFFF))
        least++;
    return least * 0x10000 + half <= item->high;
}

static void count_half(struct counts *counts, const struct written *item, enum second_side side)
{
    unsigned which = (item->upper_sent ? 0 : 2) + (side == SIDE_TOO_LOW ? 0 : 1);
    counts->special[SPECIAL_WHY_UPPER_TOO_LOW + which]++;
    if (would_do(item))
        counts->special[SPECIAL_WHY_UPPER_LOW_BY_OTHER + which]++;
}

/* Of a bad item, and of the first one of a write that is good. */
void count_sides(struct counts *counts, const struct call *call, const struct outcome *outcome)
{
    struct written item;
    if (call->sort != CALL_WHY || outcome->number != NUMBER_DONE)
        return;
    bool bad = outcome->reason == REASON_ITEM;
    if ((!bad && outcome->reason != REASON_NONE) || words_sent(call) == 0
        || !find_written(call, bad ? outcome->address : start_of(call), &item))
        return;
    enum second_side side = side_of(item.low, item.high, item.value);
    if (item.kind != 2 || (item.upper_sent && item.lower_sent))
        count_near_end(counts, &item);
    else if (bad)
        count_half(counts, &item, side);
    if (bad && item.kind == 1)
        count_sign(counts, &item, side);
}
