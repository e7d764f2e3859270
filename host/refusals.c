/* Every refusal of every call on a sheet, alone and with the others, on noise; asking.c has those of the two calls without one. What a
 * refused call must leave alone is looked at in calls.c. */
#include "calls.h"

#include "cedarskein.h"
#include "cedarskein_sheets.h"
#include "expect.h"

/* What is wrong with a call, as bits. The order of the bits is rule N50's: 2, 3, 4, 8, 5, 7, 6. */
enum { BAD_SHEET = 1, BAD_SIZE = 2, UNSOUND = 4, BAD_RING = 8, SMALL_OUT = 16, BAD_INPUT = 32, BAD_ADDRESS = 64, ALL = 128 };

static const uint8_t *const UX = cedarskein_ux_sheet;
#define UX_N CEDARSKEIN_UX_SHEET_SIZE
#define MARK (CEDARSKEIN_UX_BANK_SIZE / 2 - 1)

/* The same meter with records at 0400. */
static const struct records RECORDS = { 0x0400, 3, 2 };
static uint8_t ux_with_records[UX_N + RECORD_ROW];

/* What is wrong with a ring; of a sheet without a record area, that there is one. */
enum ring_fault { LONG_RING, SHORT_RING, NO_RING, BAD_PLACE, BAD_COUNT, EMPTY_ELSEWHERE, RING_FAULTS };

static struct meter meter;

/* The number that is told of what is wrong, where the call looks at some of it. */
static uint32_t first_of(unsigned breaks)
{
    static const uint32_t numbers[7] = { 2, 3, 4, 8, 5, 7, 6 };
    unsigned i;
    for (i = 0; i < 7; i++)
        if (breaks & (1u << i))
            return numbers[i];
    return 0;
}

static void break_ring(enum ring_fault fault)
{
    uint8_t *ring = meter.ring.bytes;
    switch (fault) {
    case LONG_RING: lent_resize(&meter.ring, meter.ring.n + 2); break;
    case SHORT_RING: lent_resize(&meter.ring, meter.ring.n - 2); break;
    case NO_RING: lend_null(&meter.ring); break;
    case BAD_PLACE: set_word(ring, 0, RECORDS.count); set_word(ring, 1, 1); break;
    case BAD_COUNT: set_word(ring, 1, (uint16_t)(RECORDS.count + 1)); break;
    default: set_word(ring, 0, 1); break;
    }
}

/* A meter with that wrong; a wrong size leaves the bank's words as they are. */
static void break_meter(unsigned breaks, const enum ring_fault *fault, size_t shift)
{
    if (fault != NULL)
        meter_fresh(&meter, ux_with_records, sizeof ux_with_records, shift);
    else
        meter_fresh(&meter, UX, UX_N, shift);
    if (breaks & BAD_RING && fault != NULL)
        break_ring(*fault);
    else if (breaks & BAD_RING)
        lend(&meter.ring, 2, shift);
    if (breaks & BAD_SHEET)
        meter.sheet.bytes[23] ^= 1;
    if (breaks & UNSOUND)
        set_word(meter.bank.bytes, 1, 5);
    if (breaks & BAD_SIZE)
        lent_resize(&meter.bank, meter.bank.n + 2);
    lend(&meter.out, breaks & SMALL_OUT ? 99 : 100, shift);
    lend(&meter.words, breaks & BAD_INPUT ? 3 : 4, shift);
    if (breaks & BAD_INPUT)
        lent_resize(&meter.record, meter.record.n + 1);
}

/* The two calls on a ring know of the sheet, the ring and the record alone. Adding asks for a record area. */
static void ring_calls(unsigned breaks, int has_records)
{
    unsigned ring = breaks & (BAD_SHEET | BAD_RING);
    expect_number(first_of(ring), call_ring_check(&meter), "ring_check");
    expect_number(has_records ? first_of(ring | (breaks & BAD_INPUT)) : 2, call_add_record(&meter), "add_record");
}

static void all_calls(unsigned breaks, const enum ring_fault *fault)
{
    uint32_t address = breaks & BAD_ADDRESS ? 0x020A : 0x0209;
    unsigned bank = breaks & (BAD_SHEET | BAD_SIZE | UNSOUND), lent = breaks & (BAD_SHEET | BAD_SIZE | UNSOUND | BAD_RING);
    uint32_t refused = first_of(lent | (breaks & SMALL_OUT));
    at_case("breaks %02X, ring fault %d", breaks, fault == NULL ? -1 : (int)*fault);
    break_meter(breaks, fault, breaks % LENT_SHIFTS);
    expect_number(first_of(breaks & BAD_SHEET), call_sheet_check(&meter), "sheet_check");
    expect_number(first_of(bank), call_bank_check(&meter), "bank_check");
    expect_number(first_of(breaks & ~(unsigned)(SMALL_OUT | BAD_RING)), call_post(&meter, address), "post");
    expect_number(first_of(bank | (breaks & BAD_INPUT)), call_set_mark(&meter, breaks & BAD_INPUT ? 2 : 1), "set_mark");
    expect_number(first_of(lent), call_why(&meter), "why");
    expect_number(refused, call_answer(&meter), "answer");
    meter.frame.bytes[0] = 2;
    seal(meter.frame.bytes, meter.frame.n);
    expect_number(first_of(lent), call_why(&meter), "why, of a frame for another station");
    expect_number(lent ? CEDARSKEIN_NO_REASON : CEDARSKEIN_STATION, meter.reason, "the reason, of a frame for another station");
    expect_number(refused ? refused : 1, call_answer(&meter), "answer to a frame for another station");
    expect_number(first_of(breaks & (BAD_SHEET | BAD_SIZE)), call_bank_fresh(&meter), "bank_fresh");
    ring_calls(breaks, fault != NULL);
}

/* The five calls that begin with a sheet and a bank. */
static void same_number(uint32_t number)
{
    expect_number(number, call_bank_check(&meter), "bank_check");
    expect_number(number, call_post(&meter, 0x0200), "post");
    expect_number(number, call_set_mark(&meter, 1), "set_mark");
    expect_number(number, call_why(&meter), "why");
    expect_number(number, call_answer(&meter), "answer");
}

/* A sheet cut to any length, with bytes too many, or noise. */
static void sheet_of(size_t n)
{
    at_case("the front of the UX sheet and noise, %lu bytes", (unsigned long)n);
    meter_fresh(&meter, UX, UX_N, n % LENT_SHIFTS);
    lent_resize(&meter.sheet, n);
    expect_number(n == UX_N ? 0 : 2, call_sheet_check(&meter), "sheet_check");
    expect_number(n == UX_N ? 0 : 2, call_bank_fresh(&meter), "bank_fresh");
    same_number(n == UX_N ? 0 : 2);
    at_case("a sheet of noise, %lu bytes", (unsigned long)n);
    lend(&meter.sheet, n, n % LENT_SHIFTS);
    expect_number(2, call_sheet_check(&meter), "sheet_check");
    expect_number(2, call_bank_fresh(&meter), "bank_fresh");
    same_number(2);
    expect_number(2, call_ring_check(&meter), "ring_check");
    expect_number(2, call_add_record(&meter), "add_record");
}

/* The sheet with a record area, cut to any length or with bytes too many: it is none without its last three words. */
static void records_sheet_of(size_t n)
{
    uint32_t number = n == sizeof ux_with_records ? 0 : 2;
    at_case("the front of the UX sheet with records and noise, %lu bytes", (unsigned long)n);
    meter_fresh(&meter, ux_with_records, sizeof ux_with_records, n % LENT_SHIFTS);
    lent_resize(&meter.sheet, n);
    expect_number(number, call_sheet_check(&meter), "sheet_check");
    expect_number(number, call_ring_check(&meter), "ring_check");
    expect_number(number, call_add_record(&meter), "add_record");
    same_number(number);
}

static void bank_of(size_t n)
{
    at_case("a bank of %lu bytes", (unsigned long)n);
    meter_fresh(&meter, UX, UX_N, n % LENT_SHIFTS);
    lent_resize(&meter.bank, n);
    same_number(n == CEDARSKEIN_UX_BANK_SIZE ? 0 : 3);
    expect_number(n == CEDARSKEIN_UX_BANK_SIZE ? 0 : 3, call_bank_fresh(&meter), "bank_fresh");
}

/* A word out of its range; a fresh bank mends it. */
static void unsound(size_t place, uint16_t word)
{
    at_case("place %lu holds %04X", (unsigned long)place, word);
    meter_fresh(&meter, UX, UX_N, place % LENT_SHIFTS);
    set_word(meter.bank.bytes, place, word);
    same_number(4);
    expect_number(0, call_bank_fresh(&meter), "bank_fresh");
    same_number(0);
}

static void posted(uint32_t address, size_t n, uint32_t number)
{
    at_case("%lu bytes posted at %lX", (unsigned long)n, (unsigned long)address);
    meter_fresh(&meter, UX, UX_N, n % LENT_SHIFTS);
    lend(&meter.words, n, n % LENT_SHIFTS);
    expect_number(number, call_post(&meter, address), "post");
}

static void marked(uint32_t mark, uint32_t number)
{
    at_case("the mark %lX", (unsigned long)mark);
    meter_fresh(&meter, UX, UX_N, 0);
    set_word(meter.bank.bytes, MARK, 1);
    expect_number(number, call_set_mark(&meter, mark), "set_mark");
    expect_number(number ? 1 : mark, word_at(meter.bank.bytes, MARK), "the mark is then");
}

static void posts(void)
{
    posted(0x0200, 0, 7);
    posted(0x0200, 1, 7);
    posted(0x0200, 21, 7);
    posted(0x0000, 1, 7);
    posted(0x0200, 22, 0);
    posted(0x0200, 24, 6);
    posted(0x020A, 2, 0);
    posted(0x020A, 4, 6);
    posted(0x01FF, 2, 6);
    posted(0x01FF, 4, 6);
    posted(0x0116, 2, 6);
    posted(0x0300, 2, 6);
    posted(0xFFFF, 2, 6);
    posted(0xFFFF, 4, 6);
    posted(0x10200, 2, 6);
    posted(0xFFFFFFFF, 2, 6);
    posted(0xFFFFFFFF, 5000, 6);
}

static void marks(void)
{
    marked(0, 0);
    marked(1, 0);
    marked(2, 7);
    marked(0x100, 7);
    marked(0x10000, 7);
    marked(0x10001, 7);
    marked(0xFFFFFFFF, 7);
}

static void unsounds(void)
{
    unsound(0, 0xFFF5);
    unsound(0, 0x003D);
    unsound(1, 5);
    unsound(3, 2);
    unsound(9, 0);
    unsound(9, 0x11);
    unsound(13, 2);
    unsound(14, 0);
    unsound(14, 0xF8);
    unsound(14, 0x0101);
    unsound(22, 5);
    unsound(MARK, 2);
    unsound(MARK, 0x0100);
}

static void all_breaks(void)
{
    unsigned breaks;
    int fault;
    for (breaks = 0; breaks < ALL; breaks++) {
        all_calls(breaks, NULL);
        for (fault = LONG_RING; fault < RING_FAULTS; fault++) {
            enum ring_fault one = (enum ring_fault)fault;
            all_calls(breaks, &one);
        }
    }
}

static void all_sheets(void)
{
    size_t n;
    for (n = 0; n <= 900; n++) {
        sheet_of(n);
        records_sheet_of(n);
    }
}

static void all_banks(void)
{
    size_t n;
    for (n = 0; n <= 600; n++)
        bank_of(n);
}

int main(void)
{
    put_records(ux_with_records, UX, UX_N, RECORDS);
    all_breaks();
    all_sheets();
    all_banks();
    unsounds();
    posts();
    marks();
    return told("every refusal, alone and in every company, on noise");
}
