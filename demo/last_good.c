/* The last good copy of cedarskein.h, "A power cut", as C that firmware can take over. host/power_cut.c tries it with a cut at every byte. */
#include "last_good.h"

#include <string.h>

/* The sheet's area rows: where they begin, their bytes, and their words by document 01. */
enum { AREA_COUNT = 1, AREA_ROWS = 24, AREA_ROW = 8, FIRST = 0, LAST = 1, PLACE = 2, ACCESS = 3, READ_ONLY = 1, MARK_SIZE = 2 };

enum copy_number { FIRST_COPY, SECOND_COPY };

struct copy {
    uint8_t bytes[CEDARSKEIN_LONGEST_BANK + CHECK_SIZE];
};

static size_t word_of(const uint8_t *bytes, size_t number)
{
    return (size_t)bytes[2 * number] << 8 | bytes[2 * number + 1];
}

size_t kept_size(size_t bank_n)
{
    return 2 * (bank_n + CHECK_SIZE);
}

static size_t start_of(const struct kept_bank *kept, enum copy_number number)
{
    return number == FIRST_COPY ? 0 : kept->bank_n + CHECK_SIZE;
}

static int load_copy(const struct kept_bank *kept, enum copy_number number, struct copy *copy)
{
    return kept->lasting.load(kept->lasting.memory, start_of(kept, number), copy->bytes, kept->bank_n + CHECK_SIZE);
}

/* The bank as a copy, its check value behind it, low byte first as on the line. */
static void make_copy(const struct kept_bank *kept, struct copy *copy)
{
    uint16_t value = cedarskein_check_value(kept->bank, kept->bank_n);
    memcpy(copy->bytes, kept->bank, kept->bank_n);
    copy->bytes[kept->bank_n] = (uint8_t)(value & 0xFF);
    copy->bytes[kept->bank_n + 1] = (uint8_t)(value >> 8);
}

static int store_copy(const struct kept_bank *kept, enum copy_number number)
{
    struct copy copy;
    make_copy(kept, &copy);
    return kept->lasting.store(kept->lasting.memory, start_of(kept, number), copy.bytes, kept->bank_n + CHECK_SIZE);
}

/* The second is begun only when the first is whole: a cut spoils one at most. */
static int store_both(const struct kept_bank *kept)
{
    if (store_copy(kept, FIRST_COPY) != 0)
        return -1;
    return store_copy(kept, SECOND_COPY);
}

/* Readings come again by themselves, and change each second: only what lies in other areas is looked at, and the mark. */
static int settings_differ(const struct kept_bank *kept, const uint8_t *copy)
{
    size_t mark = kept->bank_n - MARK_SIZE;
    size_t k;
    for (k = 0; k < word_of(kept->sheet, AREA_COUNT); k++) {
        const uint8_t *row = kept->sheet + AREA_ROWS + AREA_ROW * k;
        size_t start = 2 * word_of(row, PLACE);
        size_t n = 2 * (word_of(row, LAST) + 1 - word_of(row, FIRST));
        if (word_of(row, ACCESS) != READ_ONLY && memcmp(kept->bank + start, copy + start, n) != 0)
            return 1;
    }
    return memcmp(kept->bank + mark, copy + mark, MARK_SIZE) != 0;
}

/* A store that failed without a cut may have left the second copy spoiled: both are the same bytes, or they are written again. */
static int copies_are_alike(const struct kept_bank *kept)
{
    uint8_t one[16], other[sizeof one];
    size_t second = start_of(kept, SECOND_COPY);
    size_t at, n;
    for (at = 0; at < second; at += n) {
        n = second - at < sizeof one ? second - at : sizeof one;
        if (kept->lasting.load(kept->lasting.memory, at, one, n) != 0
            || kept->lasting.load(kept->lasting.memory, second + at, other, n) != 0 || memcmp(one, other, n) != 0)
            return 0;
    }
    return 1;
}

static int is_kept(const struct kept_bank *kept)
{
    struct copy first;
    return load_copy(kept, FIRST_COPY, &first) == 0 && !settings_differ(kept, first.bytes) && copies_are_alike(kept);
}

int keep_settings(const struct kept_bank *kept)
{
    return is_kept(kept) ? 0 : store_both(kept);
}

int keep_readings(const struct kept_bank *kept)
{
    return store_both(kept);
}

/* Puts a copy into the bank where it is good: its check value agrees, and the bank is sound. */
static int restored_from(const struct kept_bank *kept, enum copy_number number)
{
    struct copy copy;
    uint16_t value;
    if (load_copy(kept, number, &copy) != 0)
        return 0;
    value = cedarskein_check_value(copy.bytes, kept->bank_n);
    if (copy.bytes[kept->bank_n] != (value & 0xFF) || copy.bytes[kept->bank_n + 1] != value >> 8
        || cedarskein_bank_check(kept->sheet, kept->sheet_n, copy.bytes, kept->bank_n) != CEDARSKEIN_DONE)
        return 0;
    memcpy(kept->bank, copy.bytes, kept->bank_n);
    return 1;
}

enum restored restore_bank(const struct kept_bank *kept)
{
    if (restored_from(kept, FIRST_COPY)) {
        if (!copies_are_alike(kept))
            store_copy(kept, SECOND_COPY);
        return FROM_FIRST_COPY;
    }
    if (restored_from(kept, SECOND_COPY)) {
        store_copy(kept, FIRST_COPY);
        return FROM_SECOND_COPY;
    }
    return NO_GOOD_COPY;
}
