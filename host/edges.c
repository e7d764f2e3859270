/* Every lent buffer against memory that may not be touched, behind it and then in front of it: a read beyond a buffer is seen too. */
#define _DEFAULT_SOURCE
#include "calls.h"

#include "cedarskein.h"
#include "cedarskein_sheets.h"
#include "expect.h"

#include <signal.h>
#include <stdlib.h>
#include <string.h>
#include <sys/mman.h>
#include <unistd.h>

#define PAGE 65536
#define LONGEST_TRIED 300

/* A buffer that ends, or begins, where the memory does. */
struct edge {
    uint8_t *room;
    uint8_t *bytes;
    size_t n;
};

static struct edge sheet, bank, ring, frame, out, words;
static int at_end;

static const char *edge_name(void)
{
    return at_end ? "end" : "front";
}

static void touched(int signal_number)
{
    (void)signal_number;
    expect(0, "memory beyond a lent buffer was touched");
    _exit(told("buffers at the edges of memory"));
}

static void edge_make(struct edge *edge)
{
    uint8_t *pages = (uint8_t *)mmap(NULL, 3 * PAGE, PROT_NONE, MAP_PRIVATE | MAP_ANONYMOUS, -1, 0);
    if (pages == MAP_FAILED || mprotect(pages + PAGE, PAGE, PROT_READ | PROT_WRITE) != 0)
        exit(2);
    edge->room = pages + PAGE;
}

static void edge_lend(struct edge *edge, size_t n)
{
    edge->bytes = at_end ? edge->room + PAGE - n : edge->room;
    edge->n = n;
}

static void edge_copy(struct edge *edge, const uint8_t *from, size_t n)
{
    edge_lend(edge, n);
    memcpy(edge->bytes, from, n);
}

static void edge_noise(struct edge *edge, size_t n)
{
    size_t i;
    edge_lend(edge, n);
    for (i = 0; i < n; i++)
        edge->bytes[i] = noise();
}

static uint32_t answer(void)
{
    uint32_t length, rate;
    return cedarskein_answer(sheet.bytes, sheet.n, bank.bytes, bank.n, ring.bytes, ring.n, frame.bytes, frame.n, out.bytes, out.n,
                             &length, &rate);
}

/* Why, of the same frame: silence where it says so, and else a reply. */
static void told_why(uint32_t *reason, uint32_t *address)
{
    uint32_t side[2] = { 99, 99 };
    expect_number(CEDARSKEIN_DONE, cedarskein_why(sheet.bytes, sheet.n, bank.bytes, bank.n, ring.bytes, ring.n, frame.bytes, frame.n,
                                                  reason, address, side), "why");
    expect_side_of(*reason, side[0]);
    expect_number(99, side[1], "the number behind the side");
    expect_number((CEDARSKEIN_TOO_SHORT <= *reason && *reason <= CEDARSKEIN_STATION) || *reason == CEDARSKEIN_BODY_LENGTH
                      ? CEDARSKEIN_SILENCE : CEDARSKEIN_DONE, answer(), "the answer that the reason says");
}

/* Noise behind each function in turn, with a right check: whatever it is answered, nothing beyond is touched. */
static void frame_of(size_t n, uint8_t function)
{
    uint32_t reason, address;
    at_case("a frame of %lu bytes, function %02X, at the %s", (unsigned long)n, function, edge_name());
    edge_noise(&frame, n);
    if (n > 1) {
        frame.bytes[0] = station_of(sheet.bytes, bank.bytes);
        frame.bytes[1] = function;
    }
    seal(frame.bytes, n);
    told_why(&reason, &address);
}

static void read_of(uint16_t first, uint16_t count)
{
    uint8_t bytes[8] = { 0, 3 };
    bytes[0] = station_of(sheet.bytes, bank.bytes);
    set_word(bytes, 1, first);
    set_word(bytes, 2, count);
    seal(bytes, sizeof bytes);
    edge_copy(&frame, bytes, sizeof bytes);
}

/* An area read whole, so that a step too far leaves the bank; and posted to, which gives a number by its access. One more is in no area. */
static void whole_area(uint16_t first, uint16_t count, uint32_t posted)
{
    uint32_t reason, address;
    at_case("count %u from %04X on, at the %s", count, first, edge_name());
    read_of(first, (uint16_t)(count + 1));
    told_why(&reason, &address);
    expect_number(CEDARSKEIN_ADDRESS, reason, "the reason for a read of one more");
    expect_number((uint32_t)first + count, address, "the address of a read of one more");
    read_of(first, count);
    told_why(&reason, &address);
    expect_number(CEDARSKEIN_NO_REASON, reason, "the reason for a read");
    edge_noise(&words, 2 * (size_t)count);
    expect_number(posted, cedarskein_post(sheet.bytes, sheet.n, bank.bytes, bank.n, first, words.bytes, words.n), "a post");
    expect_number(CEDARSKEIN_DONE, cedarskein_set_mark(sheet.bytes, sheet.n, bank.bytes, bank.n, 1), "the mark");
}

/* An area that is only written: a read of it tells its first address, and zeros are written to all of it. */
static void written_area(uint16_t first, uint16_t count)
{
    uint8_t bytes[CEDARSKEIN_LONGEST_FRAME] = { 0, 0x10 };
    uint32_t reason, address;
    at_case("%u words from %04X on, which are only written, at the %s", count, first, edge_name());
    read_of(first, count);
    told_why(&reason, &address);
    expect_number(CEDARSKEIN_ADDRESS, reason, "the reason for a read");
    expect_number(first, address, "the address of a read");
    bytes[0] = station_of(sheet.bytes, bank.bytes);
    set_word(bytes, 1, first);
    set_word(bytes, 2, count);
    bytes[6] = (uint8_t)(2 * count);
    seal(bytes, 9 + 2 * (size_t)count);
    edge_copy(&frame, bytes, 9 + 2 * (size_t)count);
    told_why(&reason, &address);
    expect_number(CEDARSKEIN_NO_REASON, reason, "the reason for a write of zeros");
}

static void start(const char *meter, const uint8_t *bytes, size_t n)
{
    at_case("a fresh bank of %s, at the %s", meter, edge_name());
    edge_copy(&sheet, bytes, n);
    edge_noise(&bank, 2 * (size_t)word_at(bytes, 5) + 2);
    edge_noise(&ring, ring_size(records_of(bytes, n)));
    edge_noise(&out, CEDARSKEIN_LEAST_OUT);
    expect_number(CEDARSKEIN_DONE, cedarskein_bank_fresh(sheet.bytes, sheet.n, bank.bytes, bank.n), "a fresh bank");
}

static void frames(void)
{
    static const uint8_t functions[] = { 0x03, 0x05, 0x06, 0x10, 0x83 };
    size_t i;
    for (i = 0; i < sizeof functions * (LONGEST_TRIED + 1); i++)
        frame_of(i / sizeof functions, functions[i % sizeof functions]);
}

static void read_record(const struct records *records, uint16_t number)
{
    uint32_t reason, address;
    at_case("record %u of %u, %u words each, at the %s", number, records->count, records->words, edge_name());
    read_of((uint16_t)(records->first + number - 1), 1);
    told_why(&reason, &address);
    expect_number(number <= word_at(ring.bytes, 1) ? CEDARSKEIN_NO_REASON : CEDARSKEIN_ADDRESS, reason, "the reason for a record");
}

/* A record is added at the ring's first place and at its last, and read there. */
static void add_and_read(const struct records *records, uint16_t newest, uint16_t stored)
{
    uint16_t number;
    at_case("a record behind place %u of %u, at the %s", newest, records->count, edge_name());
    set_word(ring.bytes, 0, newest);
    set_word(ring.bytes, 1, stored);
    edge_noise(&words, 2 * (size_t)records->words);
    expect_number(CEDARSKEIN_DONE, cedarskein_add_record(sheet.bytes, sheet.n, ring.bytes, ring.n, words.bytes, words.n), "add_record");
    expect_number(CEDARSKEIN_DONE, cedarskein_ring_check(sheet.bytes, sheet.n, ring.bytes, ring.n), "ring_check");
    for (number = 1; number <= records->count; number++)
        read_record(records, number);
}

/* A ring too short for its two words, for its records, or one of another sheet: no more of it is read than there is. */
static void ring_of(size_t n, size_t right)
{
    uint8_t zeros[8] = { 0 };
    at_case("a ring of %lu bytes, at the %s", (unsigned long)n, edge_name());
    edge_noise(&ring, n);
    memcpy(ring.bytes, zeros, n < sizeof zeros ? n : sizeof zeros);
    expect_number(n == right ? CEDARSKEIN_DONE : CEDARSKEIN_BAD_RING, cedarskein_ring_check(sheet.bytes, sheet.n, ring.bytes, ring.n),
                  "ring_check");
    read_of(0x0400, 0);
    expect_number(n == right ? CEDARSKEIN_DONE : CEDARSKEIN_BAD_RING, answer(), "answer");
}

/* A record of another length: no more of it is read than there is. */
static void record_of(size_t n, size_t right)
{
    at_case("a record of %lu bytes for one of %lu, at the %s", (unsigned long)n, (unsigned long)right, edge_name());
    edge_noise(&words, n);
    expect_number(n == right ? CEDARSKEIN_DONE : CEDARSKEIN_BAD_INPUT,
                  cedarskein_add_record(sheet.bytes, sheet.n, ring.bytes, ring.n, words.bytes, words.n), "add_record");
}

/* The UX15/25's sheet with records at 0400, its ring full and at its ends. */
static void records_of_ux(uint16_t count, uint16_t words_each)
{
    struct records records = { 0x0400, 0, 0 };
    uint8_t bytes[CEDARSKEIN_UX_SHEET_SIZE + RECORD_ROW];
    size_t n;
    records.count = count;
    records.words = words_each;
    put_records(bytes, cedarskein_ux_sheet, CEDARSKEIN_UX_SHEET_SIZE, records);
    start("UX15/25 with records", bytes, sizeof bytes);
    add_and_read(&records, 0, 0);
    add_and_read(&records, (uint16_t)(count - 1), count);
    add_and_read(&records, (uint16_t)(count < 2 ? 0 : count - 2), count);
    set_word(ring.bytes, 1, (uint16_t)(count / 2 + 1));
    for (n = 0; n <= 2u * words_each + 4; n++)
        record_of(n, 2 * (size_t)words_each);
    frames();
    for (n = 0; n < 20; n++)
        ring_of(n, ring_size(records));
    for (n = ring_size(records) - 2; n < ring_size(records) + 3; n++)
        ring_of(n, ring_size(records));
}

/* ---- The box that asks ---- */

/* A query of each order and the reply to it. Values that are of no use lie where nothing may be touched at all, and so do those of
 * order 3 when a reply is read, which goes by their number alone. */
static void asked(uint32_t order, uint32_t number, size_t values_n)
{
    const uint8_t *untouchable = words.room + PAGE;
    uint32_t length = 0, error, refused = values_n % 2 == 0 && 0 < values_n && values_n <= 90 ? CEDARSKEIN_DONE : CEDARSKEIN_NO_FRAME;
    int writes = order == CEDARSKEIN_WRITES;
    at_case("order %lu, number %lu, %lu bytes of values, at the %s", (unsigned long)order, (unsigned long)number, (unsigned long)values_n,
            edge_name());
    edge_noise(&words, values_n);
    edge_noise(&out, CEDARSKEIN_LEAST_OUT);
    expect_number(writes ? refused : CEDARSKEIN_DONE, cedarskein_query(order, 1, 0x0100, number, writes ? words.bytes : untouchable,
                                                                       values_n, out.bytes, out.n, &length), "query");
    edge_noise(&frame, order < CEDARSKEIN_WRITE ? 5 + 2 * (size_t)number : 8);
    memcpy(frame.bytes, out.bytes, frame.n < 6 ? frame.n : 6);
    if (order < CEDARSKEIN_WRITE)
        frame.bytes[2] = (uint8_t)(2 * number);
    seal(frame.bytes, frame.n);
    expect_number(writes ? refused : CEDARSKEIN_DONE, cedarskein_reply(order, 1, 0x0100, number, untouchable, values_n, frame.bytes,
                                                                       frame.n, out.bytes, out.n, &length, &error), "reply");
}

/* What comes back is noise behind the order's station and function, or an error, of any length: no more of it is read than there is. */
static void came_back(uint32_t order, uint8_t function, size_t n)
{
    uint32_t length, error, number;
    at_case("%lu bytes come back to order %lu, function %02X, at the %s", (unsigned long)n, (unsigned long)order, function, edge_name());
    edge_noise(&frame, n);
    if (n > 1) {
        frame.bytes[0] = 1;
        frame.bytes[1] = function;
    }
    if (n > 2)
        frame.bytes[2] = (uint8_t)(n - 5);
    seal(frame.bytes, n);
    number = cedarskein_reply(order, 1, 0x0100, 47, words.bytes, words.n, frame.bytes, frame.n, out.bytes, out.n, &length, &error);
    if (n < 4 || CEDARSKEIN_LONGEST_FRAME < n)
        expect_number(CEDARSKEIN_REPLY_DAMAGED, number, "reply");
    else
        expect(number == CEDARSKEIN_DONE || number == CEDARSKEIN_REPLY_BODY, "reply: done, or another body");
}

static void box_that_asks(void)
{
    static const uint8_t functions[5] = { 0x03, 0x03, 0x06, 0x10, 0x05 };
    uint32_t order, number;
    size_t n;
    for (number = 1; number <= 47; number++)
        for (order = 0; order < 5; order++)
            asked(order, number, 2 * (size_t)number);
    for (n = 0; n <= 100; n++)
        asked(CEDARSKEIN_WRITES, 1, n);
    edge_noise(&words, 90);
    for (n = 0; n <= LONGEST_TRIED; n++)
        for (order = 0; order < 5; order++) {
            came_back(order, functions[order], n);
            came_back(order, functions[order] | 0x80, n);
        }
}

/* The front of a sheet; where it is longer, the whole sheet and noise behind it. */
static void sheet_of(size_t n)
{
    size_t front = n < CEDARSKEIN_UX_SHEET_SIZE ? n : CEDARSKEIN_UX_SHEET_SIZE;
    at_case("the front of the UX sheet and noise, %lu bytes, at the %s", (unsigned long)n, edge_name());
    edge_noise(&sheet, n);
    memcpy(sheet.bytes, cedarskein_ux_sheet, front);
    expect_number(n == CEDARSKEIN_UX_SHEET_SIZE ? CEDARSKEIN_DONE : CEDARSKEIN_SHEET_BREAKS_RULE,
                  cedarskein_sheet_check(sheet.bytes, sheet.n), "sheet_check");
}

/* Noise behind a header that allows the most areas and items and says this length: as many rows are read as the bytes hold, and more. */
static void noise_of(size_t n, uint16_t record_areas)
{
    static const uint8_t most[16] = { 0, 1, 0, 8, 0, 12, 0, 64, 0, 44, 1, 0, 0, 15 };
    at_case("noise behind the front of a sheet's header, %lu bytes, word 11 %u, at the %s", (unsigned long)n, record_areas, edge_name());
    edge_noise(&sheet, n);
    memcpy(sheet.bytes, most, n < sizeof most ? n : sizeof most);
    if (n >= sizeof most)
        set_word(sheet.bytes, 7, (uint16_t)(n / 2));
    if (n >= 24)
        set_word(sheet.bytes, 11, record_areas);
    expect_number(CEDARSKEIN_SHEET_BREAKS_RULE, cedarskein_sheet_check(sheet.bytes, sheet.n), "sheet_check");
}

static void sheets(void)
{
    size_t n;
    for (n = 0; n <= CEDARSKEIN_LONGEST_SHEET; n++) {
        sheet_of(n);
        noise_of(n, 0);
        noise_of(n, 1);
    }
}

static void run(int end)
{
    at_end = end;
    start("UX15/25", cedarskein_ux_sheet, CEDARSKEIN_UX_SHEET_SIZE);
    whole_area(0x0100, 23, 6);
    whole_area(0x0200, 11, 0);
    frames();
    start("AS-WE 40", cedarskein_aswe_40_sheet, CEDARSKEIN_ASWE_40_SHEET_SIZE);
    written_area(0x0118, 7);
    whole_area(0x01FF, 16, 0);
    frames();
    start("AS-WE 80", cedarskein_aswe_80_sheet, CEDARSKEIN_ASWE_80_SHEET_SIZE);
    whole_area(0x00FF, 11, 6);
    whole_area(0x01FF, 16, 0);
    frames();
    records_of_ux(1, 1);
    records_of_ux(3, 47);
    records_of_ux(600, 47);
    box_that_asks();
    sheets();
}

int main(void)
{
    signal(SIGSEGV, touched);
    edge_make(&sheet);
    edge_make(&bank);
    edge_make(&ring);
    edge_make(&frame);
    edge_make(&out);
    edge_make(&words);
    run(1);
    run(0);
    return told("buffers at the edges of memory");
}
