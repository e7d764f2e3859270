/* The makers' registers by name, and their values in their units. */
#include "registers.h"

#include <inttypes.h>
#include <stdio.h>
#include <string.h>

#include "cedarskein_sheets.h"

#define WORD_BITS 16

struct known_sheet {
    const uint8_t *bytes;
    size_t n;
    enum map map;
};

static const struct known_sheet SHEETS[] = {
    { cedarskein_ux_sheet, sizeof cedarskein_ux_sheet, UX_MAP },
    { cedarskein_aswe_40_sheet, sizeof cedarskein_aswe_40_sheet, ASWE_MAP },
    { cedarskein_aswe_50_sheet, sizeof cedarskein_aswe_50_sheet, ASWE_MAP },
    { cedarskein_aswe_80_sheet, sizeof cedarskein_aswe_80_sheet, ASWE_MAP },
};

static const struct register_row *const ROWS[] = { [UX_MAP] = ux_rows, [ASWE_MAP] = aswe_rows, [OTHER_MAP] = NULL };

/* The sheet that the AS-WE 40 had before version 3.2 of the library, and that a board may have still: that of bore 50, but for the word that has the
   highest low flow cutoff. */
enum { CUTOFF_WORD = 97, CUTOFF_OF_BORE_40 = 16 };

static int is_old_aswe_40(const struct meter *meter)
{
    struct meter other = *meter;
    store_word(other.sheet, CUTOFF_WORD, word_at(cedarskein_aswe_50_sheet, CUTOFF_WORD));
    return meter->sheet_n == sizeof cedarskein_aswe_50_sheet && word_at(meter->sheet, CUTOFF_WORD) == CUTOFF_OF_BORE_40
        && memcmp(other.sheet, cedarskein_aswe_50_sheet, other.sheet_n) == 0;
}

enum map map_of(const struct meter *meter)
{
    for (size_t k = 0; k < sizeof SHEETS / sizeof *SHEETS; k++)
        if (meter->sheet_n == SHEETS[k].n && memcmp(meter->sheet, SHEETS[k].bytes, meter->sheet_n) == 0)
            return SHEETS[k].map;
    return is_old_aswe_40(meter) ? ASWE_MAP : OTHER_MAP;
}

struct register_row register_at(const struct meter *meter, unsigned address)
{
    const struct register_row *row = ROWS[map_of(meter)];
    struct register_row nameless = { address, 1, 0, 0, 0, NULL, "", NULL };
    for (; row && row->name; row++)
        if (row->address <= address && address < row->address + row->words)
            return *row;
    return nameless;
}

uint64_t value_in(const uint8_t *words, const struct register_row *row)
{
    uint64_t value = 0;
    for (unsigned k = 0; k < row->words; k++)
        value = value << WORD_BITS | word_at(words, k);
    return value;
}

uint64_t value_of(const struct meter *meter, const struct register_row *row)
{
    uint64_t value = 0;
    for (unsigned k = 0; k < row->words; k++)
        value = value << WORD_BITS | word_at(meter->bank, place_of(meter, row->address + k));
    return value;
}

uint64_t value_at(const struct meter *meter, unsigned address)
{
    struct register_row row = register_at(meter, address);
    return value_of(meter, &row);
}

/* The word for a value, as a start and a length; a length of 0 where there is none. */
static int find_word(const struct register_row *row, uint64_t raw, const char **word)
{
    *word = row->values;
    for (; raw > 0 && *word; raw--) {
        *word = strchr(*word, ';');
        *word += *word != NULL;
    }
    return *word ? (int)strcspn(*word, ";") : 0;
}

static void print_number(const struct register_row *row, uint64_t raw)
{
    uint64_t range = (uint64_t)1 << (WORD_BITS * row->words);
    int is_negative = row->is_signed && raw >= range / 2;
    uint64_t size = (is_negative ? range - raw : raw) * row->step;
    uint64_t whole = 1;
    for (unsigned k = 0; k < row->decimals; k++)
        whole *= 10;
    printf("%s%" PRIu64, is_negative ? "-" : "", size / whole);
    if (row->decimals > 0)
        printf(".%0*" PRIu64, (int)row->decimals, size % whole);
}

static void print_bare(const struct register_row *row, uint64_t raw)
{
    const char *word;
    int n = find_word(row, raw, &word);
    if (n > 0)
        printf("%.*s", n, word);
    else if (row->step == 0)
        printf("%04" PRIX64, raw);
    else
        print_number(row, raw);
}

static void print_unit(const struct register_row *row)
{
    if (*row->unit)
        printf(" %s", row->unit);
}

/* Where values are words, a number that no word stands for is in no unit either. */
void print_value(const struct register_row *row, uint64_t raw)
{
    const char *word;
    print_bare(row, raw);
    if (!row->values || find_word(row, raw, &word) > 0)
        print_unit(row);
}

/* A number as the words hold it, a negative one too. */
static uint64_t raw_of(const struct register_row *row, long number)
{
    return (uint64_t)number & (((uint64_t)1 << WORD_BITS * row->words) - 1);
}

void print_range(const struct register_row *row, long low, long high)
{
    print_bare(row, raw_of(row, low));
    for (long number = low + 1; row->values && number <= high; number++) {
        printf(", ");
        print_bare(row, raw_of(row, number));
    }
    if (!row->values) {
        printf(" to ");
        print_bare(row, raw_of(row, high));
    }
    print_unit(row);
}

void print_name(const struct register_row *row)
{
    printf(row->name ? "%04X %s" : "%04X", row->address, row->name);
}
