/* Registers that are only written, access 2. The presets of the AS-WE 40 at both sides of each limit, by words, by halves and by runs, and
 * every read, which brings none of them. Sheets made here: versions and accesses, neighbouring areas, what the items cover, and station and
 * rate where they cannot be read. What a call must leave alone is looked at in calls.c. */
#include "calls.h"

#include "cedarskein.h"
#include "cedarskein_sheets.h"
#include "expect.h"

#include <string.h>

#define ASWE cedarskein_aswe_40_sheet
#define ASWE_N CEDARSKEIN_ASWE_40_SHEET_SIZE
#define ASWE_BANK CEDARSKEIN_ASWE_40_BANK_SIZE

enum { WORD = 0, SIGNED = 1, PAIR = 2, MOST_READ = 47, NOWHERE = 0xFFFF };
enum { FIRST = 0x0118, LAST = 0x011E, PRESETS = 7, FIRST_PLACE = 20 };

static struct meter meter;

/* Noise for readings, so that each value that is read tells its register. */
static void start(void)
{
    meter_fresh(&meter, ASWE, ASWE_N, 0);
    lend(&meter.words, 32, 0);
    expect_number(CEDARSKEIN_DONE, call_post(&meter, 0x01FF), "readings");
}

static void expect_why(uint32_t reason, uint32_t address, uint32_t side)
{
    expect_number(CEDARSKEIN_DONE, call_why(&meter), "why");
    expect_number(reason, meter.reason, "the reason");
    expect_number(address, meter.address, "the address");
    expect_number(side, meter.side, "the side");
}

static void expect_error(uint8_t code)
{
    expect_number(CEDARSKEIN_DONE, call_answer(&meter), "answer");
    expect(meter.length == 5 && meter.out.bytes[1] == (meter.frame.bytes[1] | 0x80), "an error");
    expect_number(code, meter.out.bytes[2], "its code");
}

/* The write at hand is answered for this reason, or done, and the bank holds this then. */
static void expect_write(uint32_t reason, uint32_t address, uint32_t side, const uint8_t *after)
{
    expect_why(reason, address, side);
    if (reason != CEDARSKEIN_NO_REASON) {
        expect_error(reason == CEDARSKEIN_ADDRESS ? 2 : 3);
    } else {
        expect_number(CEDARSKEIN_DONE, call_answer(&meter), "answer");
        expect(meter.length == 8 && memcmp(meter.out.bytes, meter.frame.bytes, 6) == 0, "it is done");
    }
    expect(memcmp(after, meter.bank.bytes, meter.bank.n) == 0, "the bank is then as it should be");
}

/* The read at hand, of a run that is closed from this address on, or behind its end; its first register is at this place of the bank. */
static void expect_read(uint32_t closed, size_t place)
{
    uint32_t first = word_at(meter.frame.bytes, 1), bytes = 2u * word_at(meter.frame.bytes, 2);
    if (closed < first + bytes / 2) {
        expect_why(CEDARSKEIN_ADDRESS, closed, CEDARSKEIN_NO_SIDE);
        expect_error(2);
        return;
    }
    expect_why(CEDARSKEIN_NO_REASON, 0, CEDARSKEIN_NO_SIDE);
    expect_number(CEDARSKEIN_DONE, call_answer(&meter), "answer");
    expect(meter.length == 5 + bytes && memcmp(meter.out.bytes + 3, meter.bank.bytes + 2 * place, bytes) == 0, "the bank's words");
}

/* The calls that begin with a sheet and a bank; a reading is posted at an address. */
static void expect_all(uint32_t number, uint32_t posted)
{
    expect_number(number, call_bank_check(&meter), "bank_check");
    expect_number(number, call_post(&meter, posted), "post");
    expect_number(number, call_set_mark(&meter, 1), "set_mark");
    expect_number(number, call_why(&meter), "why");
    expect_number(number, call_answer(&meter), "answer");
}

/* ---- The presets of the AS-WE 40, written ---- */

/* A word by 06, and by 10: stored at its place, or too high. */
static void word_is(uint16_t address, uint16_t word, uint16_t highest)
{
    uint8_t after[ASWE_BANK];
    uint32_t reason = word <= highest ? CEDARSKEIN_NO_REASON : CEDARSKEIN_ITEM;
    int by_10;
    for (by_10 = 0; by_10 < 2; by_10++) {
        at_case("%04X at %04X by %s", word, address, by_10 ? "10" : "06");
        set_word(meter.bank.bytes, FIRST_PLACE + (size_t)(address - FIRST), (uint16_t)(highest - word % 2));
        memcpy(after, meter.bank.bytes, sizeof after);
        if (by_10)
            meter_write_many(&meter, address, &word, 1);
        else
            meter_short_frame(&meter, 0x06, address, word);
        if (reason == CEDARSKEIN_NO_REASON)
            set_word(after, FIRST_PLACE + (size_t)(address - FIRST), word);
        expect_write(reason, reason ? address : 0, reason ? CEDARSKEIN_TOO_HIGH : CEDARSKEIN_NO_SIDE, after);
    }
}

/* Every word up to both limits and past them, and as many beyond. */
static void words(void)
{
    uint32_t word;
    at_case("the AS-WE 40, fresh");
    start();
    for (word = 0; word <= 0xFFFF; word += word < 0x2720 ? 1 : 0x0101) {
        word_is(0x0118, (uint16_t)word, 9);
        word_is(0x0119, (uint16_t)word, 0x270F);
        word_is(0x011A, (uint16_t)word, 0x270F);
    }
    word_is(0x0118, 0xFFFF, 9);
    word_is(0x0119, 0xFFFF, 0x270F);
}

/* A pair that is held: one half alone by 06, the other one, and both by 10. Each is stored, whatever the pair is then. */
static void pair_is(uint16_t address, uint32_t held, uint16_t sent)
{
    size_t place = FIRST_PLACE + (size_t)(address - FIRST), half;
    uint8_t before[ASWE_BANK], after[ASWE_BANK];
    uint16_t both[2];
    at_case("%04X at %04X, which holds %08lX", sent, address, (unsigned long)held);
    set_word(meter.bank.bytes, place, (uint16_t)(held >> 16));
    set_word(meter.bank.bytes, place + 1, (uint16_t)held);
    memcpy(before, meter.bank.bytes, sizeof before);
    for (half = 0; half < 2; half++) {
        memcpy(meter.bank.bytes, before, sizeof before);
        memcpy(after, before, sizeof after);
        set_word(after, place + half, sent);
        meter_short_frame(&meter, 0x06, (uint16_t)(address + half), sent);
        expect_write(CEDARSKEIN_NO_REASON, 0, CEDARSKEIN_NO_SIDE, after);
    }
    both[0] = sent;
    both[1] = (uint16_t)~sent;
    set_word(after, place, both[0]);
    set_word(after, place + 1, both[1]);
    meter_write_many(&meter, address, both, 2);
    expect_write(CEDARSKEIN_NO_REASON, 0, CEDARSKEIN_NO_SIDE, after);
}

static void pairs(void)
{
    static const uint32_t held[6] = { 0, 0x0000FFFF, 0x7FFFFFFF, 0x80000000, 0x0001869F, 0xFFFFFFFF };
    uint32_t sent;
    size_t k;
    start();
    for (k = 0; k < 6; k++)
        for (sent = 0; sent <= 0xFFFF; sent += 0x0101) {
            pair_is(0x011B, held[k], (uint16_t)sent);
            pair_is(0x011D, held[k], (uint16_t)sent);
        }
}

/* A 10 from one preset on, of which one word may be bad: what stands in front of that is stored, and all where none is. */
static void run_is(uint16_t start_at, uint16_t count, size_t bad)
{
    static const uint16_t good[PRESETS] = { 9, 0x270F, 0x270E, 0xFFFF, 0x8001, 0x7FFF, 0xFFFE };
    uint16_t sent[PRESETS];
    uint8_t after[ASWE_BANK];
    size_t first = start_at - (size_t)FIRST, k;
    at_case("a run of %u from %04X on, number %lu bad", count, start_at, (unsigned long)bad);
    start();
    memcpy(after, meter.bank.bytes, sizeof after);
    memcpy(sent, good + first, 2 * (size_t)count);
    for (k = 0; k < count && k != bad; k++)
        set_word(after, FIRST_PLACE + first + k, sent[k]);
    if (bad < count)
        sent[bad] = (uint16_t)(first + bad == 0 ? 10 : 0x2710);
    meter_write_many(&meter, start_at, sent, count);
    if (bad < count)
        expect_write(CEDARSKEIN_ITEM, start_at + (uint32_t)bad, CEDARSKEIN_TOO_HIGH, after);
    else
        expect_write(CEDARSKEIN_NO_REASON, 0, CEDARSKEIN_NO_SIDE, after);
}

/* The pairs, from the fourth word on, have no bad value. */
static void runs(void)
{
    uint16_t start_at, count;
    size_t bad;
    for (start_at = FIRST; start_at <= LAST; start_at++)
        for (count = 1; count <= LAST - start_at + 1; count++) {
            run_is(start_at, count, PRESETS);
            for (bad = 0; bad < count && start_at + bad < 0x011B; bad++)
                run_is(start_at, count, bad);
        }
}

/* 0117 and 011F are in no area: a run that gets there stores nothing, and nothing is posted to a preset or around them. */
static void beside(void)
{
    static const uint16_t zeros[9] = { 0 };
    uint8_t after[ASWE_BANK];
    uint16_t first, count;
    start();
    memcpy(after, meter.bank.bytes, sizeof after);
    for (first = 0x0117; first <= 0x011F; first++)
        for (count = 1; count <= 9; count++) {
            int leaves = first == 0x0117 || first + count - 1 >= 0x011F;
            at_case("%u words at %04X", count, first);
            lend(&meter.words, 2 * (size_t)count, count % LENT_SHIFTS);
            expect_number(CEDARSKEIN_NOT_READ_ONLY, call_post(&meter, first), "post");
            meter_write_many(&meter, first, zeros, count);
            if (leaves)
                expect_write(CEDARSKEIN_ADDRESS, first == 0x0117 ? 0x0117 : 0x011F, CEDARSKEIN_NO_SIDE, after);
            else
                expect_write(CEDARSKEIN_NO_REASON, 0, CEDARSKEIN_NO_SIDE, after);
        }
    lend(&meter.words, 4, 0);
    at_case("a posting to the last reading and behind it");
    expect_number(CEDARSKEIN_NOT_READ_ONLY, call_post(&meter, 0x020E), "post");
}

/* A preset out of its range, which only a stray write can bring about; any pair is in its range. */
static void bank_holds(size_t k, uint16_t word, uint32_t number)
{
    at_case("the bank holds %04X at %04X", word, (unsigned)(FIRST + k));
    start();
    set_word(meter.bank.bytes, FIRST_PLACE + k, word);
    expect_all(number, 0x01FF);
    expect_number(CEDARSKEIN_DONE, call_bank_fresh(&meter), "bank_fresh");
    expect_number(0, word_at(meter.bank.bytes, FIRST_PLACE + k), "the preset of a fresh bank");
    expect_all(CEDARSKEIN_DONE, 0x01FF);
}

static void banks(void)
{
    size_t k;
    bank_holds(0, 9, CEDARSKEIN_DONE);
    bank_holds(0, 10, CEDARSKEIN_BANK_NOT_SOUND);
    bank_holds(0, 0x0100, CEDARSKEIN_BANK_NOT_SOUND);
    for (k = 1; k < 3; k++) {
        bank_holds(k, 0x270F, CEDARSKEIN_DONE);
        bank_holds(k, 0x2710, CEDARSKEIN_BANK_NOT_SOUND);
    }
    for (k = 3; k < PRESETS; k++) {
        bank_holds(k, 0x8000, CEDARSKEIN_DONE);
        bank_holds(k, 0xFFFF, CEDARSKEIN_DONE);
    }
}

/* ---- The presets of the AS-WE 40, which no read brings ---- */

/* The place of a register that can be read. */
static uint16_t readable_at(uint32_t address)
{
    static const struct { uint16_t first, last, place; } areas[5] = {
        { 0x00FF, 0x0109, 0 }, { 0x010D, 0x0113, 11 }, { 0x0115, 0x0116, 18 }, { 0x0123, 0x0124, 27 }, { 0x01FF, 0x020E, 29 }
    };
    size_t k;
    for (k = 0; k < 5; k++)
        if (areas[k].first <= address && address <= areas[k].last)
            return (uint16_t)(areas[k].place + address - areas[k].first);
    return NOWHERE;
}

/* A read, which brings the bank's words, or tells its count or the first address that cannot be read. */
static void read_is(uint16_t first, uint16_t count)
{
    uint32_t closed = first;
    meter_short_frame(&meter, 0x03, first, count);
    if (count == 0 || count > MOST_READ) {
        expect_why(CEDARSKEIN_COUNT, 0, CEDARSKEIN_NO_SIDE);
        expect_error(count == 0 ? 3 : 2);
        return;
    }
    while (closed < (uint32_t)first + count && readable_at(closed) != NOWHERE)
        closed++;
    expect_read(closed, readable_at(first));
}

static void put_presets(const uint16_t *values)
{
    size_t k;
    for (k = 0; k < PRESETS; k++)
        set_word(meter.bank.bytes, FIRST_PLACE + k, values[k]);
}

/* The same read at two banks that differ in their presets alone: both replies are the same, and so is what is told of them. */
static void both_read(uint16_t first, uint16_t count)
{
    static const uint16_t one[PRESETS] = { 9, 0x270F, 0, 0x1234, 0x5678, 0xFFFF, 0xFFFF };
    static const uint16_t other[PRESETS] = { 0, 1, 0x270F, 0, 0, 0x8000, 1 };
    uint8_t out[CEDARSKEIN_LONGEST_FRAME];
    uint32_t length, reason, address;
    at_case("a read of %u from %04X on", count, first);
    put_presets(one);
    read_is(first, count);
    length = meter.length;
    reason = meter.reason;
    address = meter.address;
    memcpy(out, meter.out.bytes, sizeof out);
    put_presets(other);
    read_is(first, count);
    expect(length == meter.length && length <= sizeof out && memcmp(out, meter.out.bytes, length) == 0, "the reply is the same at both");
    expect(reason == meter.reason && address == meter.address, "the reason is the same at both");
}

/* Each start from which a run gets to a register, with each count; then all other starts, and counts that no read has. */
static void reads(void)
{
    uint32_t first, count;
    start();
    for (first = 0x00FF - MOST_READ; first <= 0x020F; first++)
        for (count = 0; count <= MOST_READ + 1; count++)
            both_read((uint16_t)first, (uint16_t)count);
    for (first = 0; first <= 0xFFFF; first += 0x11) {
        both_read((uint16_t)first, 1);
        both_read((uint16_t)first, MOST_READ);
    }
    for (count = MOST_READ; count <= 0xFFFF; count += 0x10)
        both_read(FIRST, (uint16_t)count);
}

/* A history beside the presets: a run gets from the presets to no record, and from a record to no preset. */
static void history(void)
{
    static const struct records in_front = { 0x0117, 1, 3 }, behind = { 0x011F, 4, 2 };
    static const uint16_t zeros[2] = { 0, 0 };
    uint8_t bytes[ASWE_N + RECORD_ROW], after[ASWE_BANK];
    at_case("a record in front of the presets");
    meter_fresh(&meter, bytes, put_records(bytes, ASWE, ASWE_N, in_front), 0);
    expect_number(CEDARSKEIN_DONE, call_sheet_check(&meter), "sheet_check");
    memcpy(after, meter.bank.bytes, sizeof after);
    expect_number(CEDARSKEIN_DONE, call_add_record(&meter), "add_record");
    meter_short_frame(&meter, 0x03, 0x0117, 2);
    expect_why(CEDARSKEIN_COUNT, 0, CEDARSKEIN_NO_SIDE);
    expect_error(3);
    meter_write_many(&meter, 0x0117, zeros, 2);
    expect_write(CEDARSKEIN_ADDRESS, 0x0117, CEDARSKEIN_NO_SIDE, after);
    meter_short_frame(&meter, 0x03, 0x0117, 1);
    expect_why(CEDARSKEIN_NO_REASON, 0, CEDARSKEIN_NO_SIDE);
    at_case("records behind the presets");
    meter_fresh(&meter, bytes, put_records(bytes, ASWE, ASWE_N, behind), 0);
    meter_write_many(&meter, LAST, zeros, 2);
    expect_write(CEDARSKEIN_ADDRESS, 0x011F, CEDARSKEIN_NO_SIDE, after);
    meter_short_frame(&meter, 0x03, LAST, 2);
    expect_why(CEDARSKEIN_ADDRESS, LAST, CEDARSKEIN_NO_SIDE);
    expect_error(2);
}

/* ---- Sheets made here ---- */

struct area {
    uint16_t first, last, access;
};

struct item {
    uint16_t kind, place;
    uint32_t low, high;
};

/* Functions 03, 06 and 10. Station and rate are the items of two places. */
struct made {
    const struct area *areas;
    size_t areas_n;
    const struct item *items;
    size_t items_n;
    uint16_t station, rate;
};

static void put_area(uint8_t *row, const struct area *area, uint16_t place)
{
    set_word(row, 0, area->first);
    set_word(row, 1, area->last);
    set_word(row, 2, place);
    set_word(row, 3, area->access);
}

static void put_item(uint8_t *row, const struct item *item)
{
    set_word(row, 0, item->kind);
    set_word(row, 1, item->place);
    set_word(row, 2, (uint16_t)(item->low >> 16));
    set_word(row, 3, (uint16_t)item->low);
    set_word(row, 4, (uint16_t)(item->high >> 16));
    set_word(row, 5, (uint16_t)item->high);
}

/* A meter of such a sheet; its bank is fresh where the sheet is taken. */
static void start_made(const struct made *made, uint16_t version)
{
    uint8_t bytes[CEDARSKEIN_LONGEST_SHEET] = { 0 };
    size_t items_at = 12 + 4 * made->areas_n, words = items_at + 6 * made->items_n, places = 0, k;
    for (k = 0; k < made->areas_n; k++) {
        put_area(bytes + 2 * (12 + 4 * k), &made->areas[k], (uint16_t)places);
        places += made->areas[k].last - made->areas[k].first + 1u;
    }
    for (k = 0; k < made->items_n; k++)
        put_item(bytes + 2 * (items_at + 6 * k), &made->items[k]);
    set_word(bytes, 0, version);
    set_word(bytes, 1, (uint16_t)made->areas_n);
    set_word(bytes, 2, 12);
    set_word(bytes, 3, (uint16_t)made->items_n);
    set_word(bytes, 4, (uint16_t)items_at);
    set_word(bytes, 5, (uint16_t)places);
    set_word(bytes, 6, 13);
    set_word(bytes, 7, (uint16_t)words);
    set_word(bytes, 8, made->station);
    set_word(bytes, 9, made->rate);
    meter_fresh(&meter, bytes, 2 * words, words % LENT_SHIFTS);
}

static void expect_sheet(uint32_t number)
{
    expect_number(number, call_sheet_check(&meter), "sheet_check");
    expect_number(number, call_bank_fresh(&meter), "bank_fresh");
    expect_number(number, call_bank_check(&meter), "bank_check");
    expect_number(number, call_ring_check(&meter), "ring_check");
    expect_number(number, call_why(&meter), "why");
    expect_number(number, call_answer(&meter), "answer");
}

/* ---- Versions and accesses: rules S0, S21 and S30 ---- */

/* Station and rate in an area that is read and written, and behind it two registers of an access, covered by items or not. */
static void version_and_access(uint16_t version, uint16_t access, int covered)
{
    static const struct item items[4] = { { WORD, 0, 1, 0xF7 }, { WORD, 1, 0, 1 }, { WORD, 2, 0, 5 }, { WORD, 3, 0, 5 } };
    struct area areas[2] = { { 0x0010, 0x0011, 3 }, { 0x0012, 0x0013, 0 } };
    struct made made = { areas, 2, items, covered ? 4 : 2, 0, 1 };
    int taken = (version == 1 && (access == 1 || access == 3)) || (version == 2 && 1 <= access && access <= 3);
    areas[1].access = access;
    at_case("version %04X and access %04X, %scovered by items", version, access, covered ? "" : "not ");
    start_made(&made, version);
    expect_sheet(taken && covered == (access != 1) ? CEDARSKEIN_DONE : CEDARSKEIN_SHEET_BREAKS_RULE);
}

static void versions_and_accesses(void)
{
    static const uint16_t versions[11] = { 0, 1, 2, 3, 4, 0x0100, 0x0101, 0x0102, 0x0200, 0x0201, 0xFFFF };
    static const uint16_t accesses[13] = { 0, 1, 2, 3, 4, 5, 6, 7, 0x0101, 0x0102, 0x0103, 0x0200, 0xFFFF };
    size_t v, a;
    for (v = 0; v < 11; v++)
        for (a = 0; a < 13; a++) {
            version_and_access(versions[v], accesses[a], 0);
            version_and_access(versions[v], accesses[a], 1);
        }
}

/* A maker's sheet of another version: one without access 2 is taken in both versions, and means the same. */
static void maker_in_version(const char *name, const uint8_t *sheet, size_t n, uint16_t version, uint32_t number)
{
    uint8_t bytes[CEDARSKEIN_LONGEST_SHEET];
    at_case("%s in version %04X", name, version);
    memcpy(bytes, sheet, n);
    set_word(bytes, 0, version);
    meter_fresh(&meter, bytes, n, 0);
    expect_sheet(number);
}

static void makers_in_version(uint16_t version, uint32_t others, uint32_t with_presets)
{
    maker_in_version("UX15/25", cedarskein_ux_sheet, CEDARSKEIN_UX_SHEET_SIZE, version, others);
    maker_in_version("AS-WE 50", cedarskein_aswe_50_sheet, CEDARSKEIN_ASWE_50_SHEET_SIZE, version, others);
    maker_in_version("AS-WE 80", cedarskein_aswe_80_sheet, CEDARSKEIN_ASWE_80_SHEET_SIZE, version, others);
    maker_in_version("AS-WE 40", ASWE, ASWE_N, version, with_presets);
}

static void makers_in_versions(void)
{
    makers_in_version(0, 2, 2);
    makers_in_version(1, 0, 2);
    makers_in_version(2, 0, 0);
    makers_in_version(3, 2, 2);
    makers_in_version(0x0201, 2, 2);
}

/* ---- What the items cover: rule S47 ---- */

/* An area that is only written, in front of one that is read and written, and the items with one left out, or with one too many. */
static void covers(void)
{
    static const struct area areas[3] = { { 0x0010, 0x0013, 2 }, { 0x0014, 0x0015, 3 }, { 0x0016, 0x0016, 1 } };
    static const struct item all[6] = { { WORD, 0, 0, 5 }, { PAIR, 1, 0, 0xFFFFFFFF }, { WORD, 3, 0, 5 },
                                        { WORD, 4, 1, 0xF7 }, { WORD, 5, 0, 1 }, { WORD, 6, 0, 5 } };
    struct made made = { areas, 3, all, 5, 4, 5 };
    struct item items[6];
    size_t out;
    at_case("every place that is written is covered");
    start_made(&made, 2);
    expect_sheet(CEDARSKEIN_DONE);
    made.items_n = 6;
    at_case("a place that is only read is covered too");
    start_made(&made, 2);
    expect_sheet(CEDARSKEIN_SHEET_BREAKS_RULE);
    made.items = items;
    made.items_n = 4;
    for (out = 0; out < 3; out++) {
        at_case("item %lu of what is only written is left out", (unsigned long)out);
        memcpy(items, all, out * sizeof items[0]);
        memcpy(items + out, all + out + 1, (4 - out) * sizeof items[0]);
        start_made(&made, 2);
        expect_sheet(CEDARSKEIN_SHEET_BREAKS_RULE);
    }
}

/* A pair over two areas, neighbours or not; and the same pair in one. */
static void pair_over(uint16_t access, uint16_t second_access, uint16_t second_address)
{
    static const struct item items[3] = { { WORD, 0, 1, 0xF7 }, { WORD, 1, 0, 1 }, { PAIR, 2, 0, 0xFFFFFFFF } };
    struct area areas[3] = { { 0x0010, 0x0011, 3 }, { 0x0012, 0x0012, 0 }, { 0, 0, 0 } };
    struct made made = { areas, 3, items, 3, 0, 1 };
    areas[1].access = access;
    areas[2].first = areas[2].last = second_address;
    areas[2].access = second_access;
    at_case("a pair over areas of access %u and %u, the second at %04X", access, second_access, second_address);
    start_made(&made, 2);
    expect_sheet(CEDARSKEIN_SHEET_BREAKS_RULE);
    areas[1].last = 0x0013;
    made.areas_n = 2;
    at_case("a pair in one area of access %u", access);
    start_made(&made, 2);
    expect_sheet(CEDARSKEIN_DONE);
}

static void pairs_over(void)
{
    uint16_t first, second;
    for (first = 2; first <= 3; first++)
        for (second = 2; second <= 3; second++) {
            pair_over(first, second, 0x0013);
            pair_over(first, second, 0x0020);
        }
}

/* ---- Neighbouring areas: rules J60, J61 and B31 ---- */

/* Each two kinds of area beside each other, from 0010 on, so that an address is 0010 and its place. */
#define AT 0x0010
enum { PLACES = 15 };
static const struct area areas[6] = {
    { 0x0010, 0x0011, 1 }, { 0x0012, 0x0015, 2 }, { 0x0016, 0x0019, 3 }, { 0x001A, 0x001B, 2 }, { 0x001C, 0x001D, 1 }, { 0x001E, 0x001E, 2 }
};
static const uint8_t access_at[PLACES] = { 1, 1, 2, 2, 2, 2, 3, 3, 3, 3, 2, 2, 1, 1, 2 };
static const struct item items[10] = {
    { WORD, 2, 5, 9 }, { PAIR, 3, 0x00010002, 0x00030004 }, { SIGNED, 5, 0xFFF6, 0xFFFB }, { WORD, 6, 1, 0xF7 }, { WORD, 7, 0, 1 },
    { WORD, 8, 0, 100 }, { WORD, 9, 0, 1 }, { WORD, 10, 3, 0xFFFF }, { WORD, 11, 0, 1 }, { WORD, 14, 7, 8 }
};
static const struct made neighbours = { areas, 6, items, 10, 6, 7 };

/* By place: the fresh word, a good one, and a bad one with the end that it misses. A pair's lower half is good beside both upper ones. */
static const uint16_t fresh[PLACES] = { 0, 0, 5, 0x0001, 0x0002, 0xFFF6, 1, 1, 0, 0, 3, 0, 0, 0, 7 };
static const uint16_t good[PLACES] = { 0, 0, 9, 0x0002, 0x0005, 0xFFFB, 0xF7, 0, 100, 1, 0xFFFF, 1, 0, 0, 8 };
static const uint16_t bad[PLACES] = { 0, 0, 4, 0x0004, 0, 0xFFFC, 0, 2, 101, 2, 2, 2, 0, 0, 6 };
static const uint8_t misses[PLACES] = { 0, 0, 1, 2, 0, 2, 1, 2, 2, 2, 1, 2, 0, 0, 1 };

/* The first address of a run that lacks a bit of its access: 1 for a read, 2 for a write. Behind the last area lacks all. */
static uint32_t first_without(uint32_t first, uint32_t count, uint8_t bit)
{
    uint32_t address = first;
    while (address < first + count && AT <= address && address < AT + PLACES && access_at[address - AT] & bit)
        address++;
    return address;
}

static void neighbour_fresh(void)
{
    size_t k;
    start_made(&neighbours, 2);
    for (k = 0; k < PLACES; k++)
        expect_number(fresh[k], word_at(meter.bank.bytes, k), "a word of the fresh bank");
    expect_number(0, word_at(meter.bank.bytes, PLACES), "the mark of the fresh bank");
}

static void neighbour_read(uint16_t first, uint16_t count)
{
    at_case("a read of %u from %04X on, over neighbours", count, first);
    neighbour_fresh();
    meter_short_frame(&meter, 0x03, first, count);
    expect_read(first_without(first, count, 1), (size_t)first - AT);
}

/* A write of good words, but for one place, where that is not PLACES. */
static void neighbour_write(uint16_t first, uint16_t count, size_t bad_place)
{
    uint32_t closed = first_without(first, count, 2), address;
    uint16_t words[PLACES + 2] = { 0 };
    uint8_t after[2 * PLACES + 2];
    at_case("a write of %u from %04X on, over neighbours, place %lu bad", count, first, (unsigned long)bad_place);
    neighbour_fresh();
    memcpy(after, meter.bank.bytes, sizeof after);
    for (address = first; address < (uint32_t)first + count; address++)
        if (AT <= address && address < AT + PLACES)
            words[address - first] = address - AT == bad_place ? bad[address - AT] : good[address - AT];
    meter_write_many(&meter, first, words, count);
    if (closed != (uint32_t)first + count) {
        expect_write(CEDARSKEIN_ADDRESS, closed, CEDARSKEIN_NO_SIDE, after);
        return;
    }
    for (address = first; address < (uint32_t)first + count && address - AT != bad_place; address++)
        set_word(after, address - AT, good[address - AT]);
    if (bad_place < PLACES)
        expect_write(CEDARSKEIN_ITEM, AT + (uint32_t)bad_place, misses[bad_place], after);
    else
        expect_write(CEDARSKEIN_NO_REASON, 0, CEDARSKEIN_NO_SIDE, after);
}

static void neighbour_post(uint16_t first, uint16_t count)
{
    uint32_t address;
    int all_read_only = 1;
    at_case("%u words posted from %04X on, over neighbours", count, first);
    neighbour_fresh();
    for (address = first; address < (uint32_t)first + count; address++)
        all_read_only &= AT <= address && address < AT + PLACES && access_at[address - AT] == 1;
    lend(&meter.words, 2 * (size_t)count, count % LENT_SHIFTS);
    expect_number(all_read_only ? CEDARSKEIN_DONE : CEDARSKEIN_NOT_READ_ONLY, call_post(&meter, first), "post");
    if (all_read_only)
        expect(memcmp(meter.bank.bytes + 2 * (size_t)(first - AT), meter.words.bytes, meter.words.n) == 0, "the posted words");
}

/* Every run, from one address in front to one behind; of those that are written, each with each bad item in it. */
static void every_run(void)
{
    uint16_t first, count;
    size_t place;
    for (first = AT - 1; first <= AT + PLACES; first++)
        for (count = 1; first + count <= AT + PLACES + 1; count++) {
            neighbour_read(first, count);
            neighbour_post(first, count);
            neighbour_write(first, count, PLACES);
            for (place = 0; place < PLACES; place++)
                if (misses[place] != 0 && first <= AT + place && AT + place < (size_t)first + count)
                    neighbour_write(first, count, place);
        }
}

/* Each item of what is only written, out of its range at either end. */
static void neighbour_holds(size_t place, uint16_t word, uint32_t number)
{
    at_case("place %lu of the neighbours holds %04X", (unsigned long)place, word);
    start_made(&neighbours, 2);
    set_word(meter.bank.bytes, place, word);
    meter_short_frame(&meter, 0x03, 0x0018, 1);
    expect_all(number, 0x0010);
    expect_number(CEDARSKEIN_DONE, call_bank_fresh(&meter), "bank_fresh");
}

static void neighbours_hold(void)
{
    static const struct { uint8_t place; uint16_t word; } out[11] = {
        { 2, 4 }, { 2, 10 }, { 3, 0 }, { 3, 4 }, { 4, 1 }, { 5, 0xFFF5 }, { 5, 0xFFFC }, { 10, 2 }, { 11, 2 }, { 14, 6 }, { 14, 9 }
    };
    size_t k;
    for (k = 0; k < 11; k++)
        neighbour_holds(out[k].place, out[k].word, CEDARSKEIN_BANK_NOT_SOUND);
    for (k = 0; k < PLACES; k++)
        neighbour_holds(k, good[k], CEDARSKEIN_DONE);
}

/* ---- Station and rate where they cannot be read ---- */

static void frame_for(uint8_t station, uint8_t function, uint16_t address, uint16_t second)
{
    meter_short_frame(&meter, function, address, second);
    meter.frame.bytes[0] = station;
    seal(meter.frame.bytes, meter.frame.n);
}

/* The meter is at this station, and goes out at this rate; at another one it is silent. A read there brings what can be read. */
static void meter_is_at(uint8_t station, uint32_t rate, uint8_t elsewhere)
{
    frame_for(station, 0x03, 0x0023, 2);
    expect_why(CEDARSKEIN_NO_REASON, 0, CEDARSKEIN_NO_SIDE);
    expect_number(CEDARSKEIN_DONE, call_answer(&meter), "answer");
    expect(meter.length == 9 && meter.out.bytes[0] == station, "a reply from the station");
    expect_number(rate, meter.rate, "its rate");
    frame_for(elsewhere, 0x03, 0x0023, 2);
    expect_why(CEDARSKEIN_STATION, 0, CEDARSKEIN_NO_SIDE);
    expect_number(CEDARSKEIN_SILENCE, call_answer(&meter), "answer at another station");
}

/* Neither is read, alone or in a run. */
static void cannot_be_read(uint8_t station)
{
    uint16_t first, count;
    for (first = 0x0020; first <= 0x0022; first++)
        for (count = 1; count <= 0x0025 - first; count++) {
            at_case("a read of %u from %04X on, at station %u", count, first, station);
            frame_for(station, 0x03, first, count);
            expect_why(CEDARSKEIN_ADDRESS, first, CEDARSKEIN_NO_SIDE);
            expect_error(2);
        }
}

/* A write of the station, of the rate, and of both with a bad item behind them: each reply is from the station and at the rate before. */
static void station_and_rate(uint16_t second_access)
{
    static const struct item made_items[5] = { { WORD, 0, 1, 0xF7 }, { WORD, 1, 0, 1 }, { WORD, 2, 0, 5 },
                                               { WORD, 3, 0, 5 }, { WORD, 4, 0, 5 } };
    static const uint16_t sent[3] = { 9, 1, 6 };
    struct area made_areas[2] = { { 0x0020, 0x0022, 2 }, { 0x0023, 0x0024, 3 } };
    struct made made = { made_areas, 2, made_items, 5, 0, 1 };
    made_areas[1].access = second_access;
    made.items_n = second_access == 1 ? 3 : 5;
    at_case("station and rate are only written, beside access %u", second_access);
    start_made(&made, 2);
    expect_sheet(CEDARSKEIN_DONE);
    meter_is_at(1, 1, 7);
    frame_for(1, 0x06, 0x0020, 7);
    expect_number(CEDARSKEIN_DONE, call_answer(&meter), "the station is written");
    meter_is_at(7, 1, 1);
    frame_for(7, 0x06, 0x0021, 0);
    expect_number(CEDARSKEIN_DONE, call_answer(&meter), "the rate is written");
    expect_number(1, meter.rate, "the rate of the echo");
    meter_is_at(7, 0, 1);
    cannot_be_read(7);
    meter_write_many(&meter, 0x0020, sent, 3);
    expect_why(CEDARSKEIN_ITEM, 0x0022, CEDARSKEIN_TOO_HIGH);
    expect_error(3);
    expect(meter.rate == 0 && meter.out.bytes[0] == 7, "the error is from the station and at the rate before");
    meter_is_at(9, 1, 7);
    frame_for(9, 0x06, 0x0020, 0xF8);
    expect_why(CEDARSKEIN_ITEM, 0x0020, CEDARSKEIN_TOO_HIGH);
    expect_error(3);
    meter_is_at(9, 1, 0);
}

int main(void)
{
    words();
    pairs();
    runs();
    beside();
    banks();
    reads();
    history();
    versions_and_accesses();
    makers_in_versions();
    covers();
    pairs_over();
    every_run();
    neighbours_hold();
    station_and_rate(1);
    station_and_rate(3);
    return told("registers that are only written: the presets of the AS-WE 40, every read of it, and sheets made here");
}
