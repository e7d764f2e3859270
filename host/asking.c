/* The box that asks: each order's query byte for byte, every refusal on both sides of its limits and in its order, and what a reply comes
 * to. What a call must leave alone is looked at in calls.c; exchanges.c has the box and a meter together. */
#include "calls.h"

#include "cedarskein.h"
#include "expect.h"

#include <string.h>

enum { READ = CEDARSKEIN_READ, RECORD = CEDARSKEIN_RECORD, WRITE = CEDARSKEIN_WRITE, WRITES = CEDARSKEIN_WRITES,
       CLEAR = CEDARSKEIN_CLEAR, ORDERS = 5 };
enum { MOST_READ = 47, MOST_WRITTEN = 45, LONGEST_TRIED = 300 };

/* What the two calls are told of an order; its values are noise, or null where it has none. */
struct order {
    uint32_t order, station, address, number;
    size_t values_n;
};

static struct box box;

static struct order order_of(uint32_t kind, uint32_t station, uint32_t address, uint32_t number, size_t values_n)
{
    struct order order;
    order.order = kind;
    order.station = station;
    order.address = address;
    order.number = number;
    order.values_n = values_n;
    return order;
}

/* A good order of each kind. What it has no use for would be refused if it were looked at. */
static struct order good_order(uint32_t kind)
{
    static const uint32_t numbers[ORDERS] = { 3, 22, 0xABCD, 0xFFFFFFFF, 0xFFFFFFFF };
    return order_of(kind, 17, 0x0103, numbers[kind], kind == WRITES ? 6 : 7);
}

static void give(const struct order *order)
{
    size_t shift = (order->address + order->number) % LENT_SHIFTS;
    box_order(&box, order->order, order->station, order->address, order->number, shift);
    if (order->values_n > 0)
        lend(&box.values, order->values_n, (shift + 3) % LENT_SHIFTS);
}

/* ---- The query and the reply of an order, written here a second time ---- */

static int reads(const struct order *order)
{
    return order->order == READ || order->order == RECORD;
}

static uint8_t function_of(uint32_t kind)
{
    static const uint8_t functions[ORDERS] = { 0x03, 0x03, 0x06, 0x10, 0x05 };
    return functions[kind % ORDERS];
}

/* How many registers, the value that is written, or that of a clear. */
static uint16_t second_word(const struct order *order)
{
    switch (order->order) {
    case RECORD: return 1;
    case WRITES: return (uint16_t)(order->values_n / 2);
    case CLEAR: return 0;
    default: return (uint16_t)order->number;
    }
}

/* What a query and an echo begin with. */
static void put_front(uint8_t *frame, const struct order *order)
{
    frame[0] = (uint8_t)order->station;
    frame[1] = function_of(order->order);
    set_word(frame, 1, (uint16_t)order->address);
    set_word(frame, 2, second_word(order));
}

static size_t put_query(uint8_t *frame, const struct order *order)
{
    size_t n = 6;
    put_front(frame, order);
    if (order->order == WRITES) {
        frame[6] = (uint8_t)order->values_n;
        memcpy(frame + 7, box.values.bytes, order->values_n);
        n = 7 + order->values_n;
    }
    seal(frame, n + 2);
    return n + 2;
}

/* A reply to a read, of so many bytes and with any byte count. */
static void put_values(uint8_t *frame, const struct order *order, uint8_t byte_count, size_t n)
{
    size_t k;
    for (k = 0; k < n; k++)
        frame[k] = noise();
    frame[0] = (uint8_t)order->station;
    frame[1] = function_of(order->order);
    if (n > 4)
        frame[2] = byte_count;
    seal(frame, n);
}

/* The reply of a meter that does what it is asked. An order that is none is taken as the one that it would be if it were cut. */
static size_t put_reply(uint8_t *frame, const struct order *order)
{
    size_t n = 5 + 2 * (size_t)(order->number % 64);
    if (order->order % 256 > RECORD) {
        put_front(frame, order);
        n = 8;
    } else {
        put_values(frame, order, (uint8_t)(n - 5), n);
    }
    seal(frame, n);
    return n;
}

static void lend_reply(const struct order *order)
{
    uint8_t frame[LONGEST_TRIED];
    size_t n = put_reply(frame, order);
    box_reply(&box, frame, n, n % LENT_SHIFTS);
}

/* A reply that is read as done, or with its values. */
static void expect_done(const char *what)
{
    expect_number(CEDARSKEIN_DONE, call_reply(&box), what);
    expect_number(0, box.error, "the error of an order that is done");
}

static void expect_refused(uint32_t number, const char *what)
{
    expect_number(number, call_reply(&box), what);
}

/* ---- Orders that have a frame, and orders that have none ---- */

static void order_is(uint32_t number, uint32_t kind, uint32_t station, uint32_t address, uint32_t of, size_t values_n)
{
    struct order order = order_of(kind, station, address, of, values_n);
    at_case("order %lX, station %lX, address %lX, number %lX, %lu bytes of values", (unsigned long)kind, (unsigned long)station,
            (unsigned long)address, (unsigned long)of, (unsigned long)values_n);
    give(&order);
    expect_number(number, call_query(&box), "query");
    lend_reply(&order);
    expect_number(number, call_reply(&box), "reply");
}

static void kinds(void)
{
    static const uint32_t none[10] = { 5, 6, 0x7F, 0x80, 0xFF, 0x100, 0x104, 0x10000, 0x80000000, 0xFFFFFFFF };
    size_t k;
    for (k = 0; k < ORDERS; k++)
        order_is(0, (uint32_t)k, 1, 0x0100, 1, 2);
    for (k = 0; k < sizeof none / sizeof none[0]; k++)
        order_is(CEDARSKEIN_NO_FRAME, none[k], 1, 0x0100, 1, 2);
}

/* Station and address are the same for every order. A number of 32 bits is not cut to the width that a frame has for it. */
static void stations_and_addresses(uint32_t kind)
{
    static const uint32_t no_stations[11] = { 0, 248, 249, 255, 256, 257, 0x1F7, 0x10001, 0x1000001, 0x80000001, 0xFFFFFFFF };
    static const uint32_t no_addresses[6] = { 0x10000, 0x10100, 0x1000000, 0x80000100, 0xFFFFFFFE, 0xFFFFFFFF };
    uint32_t station;
    size_t k;
    for (station = 1; station <= 247; station++)
        order_is(0, kind, station, 0x0100, 1, 2);
    for (k = 0; k < sizeof no_stations / sizeof no_stations[0]; k++)
        order_is(CEDARSKEIN_NO_FRAME, kind, no_stations[k], 0x0100, 1, 2);
    order_is(0, kind, 1, 0, 1, 2);
    order_is(0, kind, 247, 0xFFFF, 1, 2);
    for (k = 0; k < sizeof no_addresses / sizeof no_addresses[0]; k++)
        order_is(CEDARSKEIN_NO_FRAME, kind, 1, no_addresses[k], 1, 2);
}

/* A read and a record have 1 to 47 words, of which those of a record have one address. */
static void numbers_read(void)
{
    static const uint32_t none[9] = { 0, 48, 49, 0x101, 0x12F, 0x10001, 0x80000001, 0xFFFFFFFE, 0xFFFFFFFF };
    uint32_t number;
    size_t k;
    for (number = 1; number <= MOST_READ; number++) {
        order_is(0, READ, 1, 0x0100, number, 0);
        order_is(0, READ, 1, 0x10000 - number, number, 0);
        order_is(CEDARSKEIN_NO_FRAME, READ, 1, 0x10001 - number, number, 0);
        order_is(0, RECORD, 1, 0x0400, number, 0);
        order_is(0, RECORD, 1, 0xFFFF, number, 0);
        order_is(CEDARSKEIN_NO_FRAME, RECORD, 1, 0x10000, number, 0);
    }
    for (k = 0; k < sizeof none / sizeof none[0]; k++) {
        order_is(CEDARSKEIN_NO_FRAME, READ, 1, 0, none[k], 0);
        order_is(CEDARSKEIN_NO_FRAME, RECORD, 1, 0, none[k], 0);
    }
    order_is(CEDARSKEIN_NO_FRAME, READ, 1, 0xFFFF, 0xFFFFFFFF, 0);
    order_is(CEDARSKEIN_NO_FRAME, READ, 1, 0xFFFFFFFF, 2, 0);
}

/* A value of one register; and of several, 1 to 45 in an even number of bytes. */
static void numbers_written(void)
{
    static const uint32_t values[5] = { 0, 1, 0x7FFF, 0x8000, 0xFFFF }, none[4] = { 0x10000, 0x10001, 0x80000000, 0xFFFFFFFF };
    static const size_t long_values[8] = { 256, 257, 258, 346, 5000, 65536, 65538, 65626 };
    size_t k, n;
    for (k = 0; k < sizeof values / sizeof values[0]; k++)
        order_is(0, WRITE, 1, 0x0100, values[k], 0);
    for (k = 0; k < sizeof none / sizeof none[0]; k++)
        order_is(CEDARSKEIN_NO_FRAME, WRITE, 1, 0x0100, none[k], 0);
    for (n = 0; n <= 100; n++)
        order_is(n % 2 == 0 && n >= 2 && n <= 2 * MOST_WRITTEN ? 0 : CEDARSKEIN_NO_FRAME, WRITES, 1, 0x0100, 1, n);
    for (k = 0; k < sizeof long_values / sizeof long_values[0]; k++)
        order_is(CEDARSKEIN_NO_FRAME, WRITES, 1, 0x0100, 1, long_values[k]);
    for (n = 1; n <= MOST_WRITTEN; n++) {
        order_is(0, WRITES, 1, (uint32_t)(0x10000 - n), 1, 2 * n);
        order_is(CEDARSKEIN_NO_FRAME, WRITES, 1, (uint32_t)(0x10001 - n), 1, 2 * n);
    }
}

static void limits(void)
{
    uint32_t kind;
    kinds();
    for (kind = 0; kind < ORDERS; kind++)
        stations_and_addresses(kind);
    numbers_read();
    numbers_written();
}

/* ---- The order of the refusals ---- */

/* What is wrong with a call, as bits, in the order in which it is told. */
enum { NO_FRAME = 1, SMALL_OUT = 2, DAMAGED = 4, OTHER_STATION = 8, OTHER_FUNCTION = 16, OTHER_BODY = 32, ALL = 64, WAYS = 5 };

static uint32_t first_of(unsigned faults)
{
    static const uint32_t numbers[6] = { 9, 5, 10, 11, 12, 13 };
    unsigned k;
    for (k = 0; k < 6; k++)
        if (faults & (1u << k))
            return numbers[k];
    return 0;
}

/* An order of the same kind, or of none, that has no frame. */
static struct order broken_order(struct order order, unsigned way)
{
    switch (way) {
    case 0: order.station = 0; break;
    case 1: order.station = 248; break;
    case 2: order.address = 0x10000; break;
    case 3: order.order += 0x100; break;
    default: order.order = 5; break;
    }
    return order;
}

/* Another body in a frame whose check is put behind it later: hands back its bytes. */
static size_t break_body(uint8_t *frame, size_t n, unsigned way)
{
    switch (way) {
    case 0: return n + 1;
    case 1: return n - 1;
    case 2: return 4;
    case 3: frame[2] ^= 1; return n;
    default: frame[1] |= 0x80; frame[2] = 4; return 5;
    }
}

/* A length that no frame has, or a check that is wrong. */
static void damage(unsigned way)
{
    size_t n = box.reply.n;
    switch (way) {
    case 0: box.reply.bytes[n - 1] ^= 0x80; break;
    case 1: box.reply.bytes[n - 2] ^= 0x01; break;
    case 2: lent_resize(&box.reply, 3); break;
    case 3: lend_null(&box.reply); break;
    default: lent_resize(&box.reply, 101); seal(box.reply.bytes, 101); break;
    }
}

static void faulty(uint32_t kind, unsigned faults, unsigned way)
{
    static const uint8_t function_bits[WAYS] = { 0x04, 0x01, 0x83, 0x40, 0x20 }, other_stations[WAYS] = { 0, 255, 16, 18, 248 };
    uint8_t frame[LONGEST_TRIED];
    struct order order = good_order(kind);
    size_t n = put_reply(frame, &order);
    at_case("order %lu, faults %02X, way %u", (unsigned long)kind, faults, way);
    if (faults & OTHER_BODY)
        n = break_body(frame, n, way);
    if (faults & OTHER_FUNCTION)
        frame[1] ^= function_bits[way];
    if (faults & OTHER_STATION)
        frame[0] = other_stations[way];
    if (faults & NO_FRAME)
        order = broken_order(order, way);
    give(&order);
    box_reply(&box, frame, n, way);
    if (faults & DAMAGED)
        damage(way);
    if (faults & SMALL_OUT)
        lend(&box.out, 99, way);
    expect_number(first_of(faults & (NO_FRAME | SMALL_OUT)), call_query(&box), "query");
    expect_number(first_of(faults), call_reply(&box), "reply");
}

static void faults_in_company(void)
{
    uint32_t kind;
    unsigned faults, way;
    for (kind = 0; kind < ORDERS; kind++)
        for (faults = 0; faults < ALL; faults++)
            for (way = 0; way < WAYS; way++)
                faulty(kind, faults, way);
}

/* The answer buffer's size, also where a reply brings no values. */
static void out_sizes(void)
{
    static const size_t sizes[7] = { 0, 1, 94, 99, 100, 101, 5000 };
    uint32_t kind;
    size_t k;
    for (kind = 0; kind < ORDERS; kind++)
        for (k = 0; k < sizeof sizes / sizeof sizes[0]; k++) {
            struct order order = good_order(kind);
            uint32_t number = sizes[k] < CEDARSKEIN_LEAST_OUT ? CEDARSKEIN_SMALL_OUT : CEDARSKEIN_DONE;
            uint8_t error[5] = { 17, 0x80, 2 };
            at_case("order %lu, out of %lu bytes", (unsigned long)kind, (unsigned long)sizes[k]);
            give(&order);
            lend(&box.out, sizes[k], k);
            expect_number(number, call_query(&box), "query");
            lend_reply(&order);
            expect_number(number, call_reply(&box), "reply");
            error[1] |= function_of(kind);
            box_reply(&box, error, sizeof error, k);
            expect_number(number, call_reply(&box), "reply with an error");
            lend_null(&box.out);
            expect_number(CEDARSKEIN_SMALL_OUT, call_query(&box), "query without out");
            expect_number(CEDARSKEIN_SMALL_OUT, call_reply(&box), "reply without out");
        }
}

/* ---- Queries, byte for byte ---- */

static void expect_bytes(const uint8_t *frame, size_t n)
{
    expect_number(n, box.length, "the length of the query");
    expect(box.length == n && memcmp(box.out.bytes, frame, n) == 0, "the bytes of the query");
}

static void query_of(uint32_t kind, uint32_t station, uint32_t address, uint32_t number, size_t values_n)
{
    uint8_t frame[CEDARSKEIN_LONGEST_FRAME];
    struct order order = order_of(kind, station, address, number, values_n);
    at_case("the query of order %lu for %lX at %lX, number %lX, %lu bytes of values", (unsigned long)kind, (unsigned long)station,
            (unsigned long)address, (unsigned long)number, (unsigned long)values_n);
    give(&order);
    expect_number(CEDARSKEIN_DONE, call_query(&box), "query");
    expect_bytes(frame, put_query(frame, &order));
}

static void queries(void)
{
    uint32_t k;
    for (k = 1; k <= MOST_READ; k++) {
        query_of(READ, k, 0x0101 * k, k, 0);
        query_of(RECORD, 248 - k, 0x0400 + 255 * k, k, 0);
    }
    for (k = 1; k <= MOST_WRITTEN; k++)
        query_of(WRITES, 5 * k, 0x0100 + 511 * k, 0, 2 * (size_t)k);
    for (k = 0; k < 16; k++) {
        query_of(WRITE, 1 + 15 * k, 1u << k, 0x8000u >> k, 0);
        query_of(CLEAR, 1 + 15 * k, 0x8000u >> k, 0, 0);
    }
}

/* Frames in figures, with their checks: the makers' read of two registers, and one for each other order. */
static void chosen_query(const char *what, uint32_t kind, uint32_t station, uint32_t address, uint32_t number, const uint8_t *values,
                         size_t values_n, const uint8_t *frame, size_t n)
{
    at_case("%s", what);
    box_order(&box, kind, station, address, number, 0);
    if (values != NULL)
        lend_copy(&box.values, values, values_n, 1);
    expect_number(CEDARSKEIN_DONE, call_query(&box), "query");
    expect_bytes(frame, n);
}

static void chosen_queries(void)
{
    static const uint8_t read_two[8] = { 0x01, 0x03, 0x01, 0x01, 0x00, 0x02, 0x94, 0x37 };
    static const uint8_t record[8] = { 0xF7, 0x03, 0x1D, 0xC7, 0x00, 0x01, 0x27, 0x0D };
    static const uint8_t write[8] = { 0x11, 0x06, 0x01, 0x10, 0x13, 0x88, 0x86, 0x35 };
    static const uint8_t values[4] = { 0x00, 0x01, 0x13, 0x88 };
    static const uint8_t writes[13] = { 0x01, 0x10, 0x01, 0x0F, 0x00, 0x02, 0x04, 0x00, 0x01, 0x13, 0x88, 0xE2, 0xE9 };
    static const uint8_t one[11] = { 0x01, 0x10, 0x01, 0x0F, 0x00, 0x01, 0x02, 0x00, 0x01, 0x77, 0xAF };
    static const uint8_t clear[8] = { 0x01, 0x05, 0x03, 0x00, 0x00, 0x00, 0xCD, 0x8E };
    chosen_query("a read of two registers", READ, 1, 0x0101, 2, NULL, 0, read_two, sizeof read_two);
    chosen_query("the last record of the makers' 6600", RECORD, 247, 0x1DC7, 22, NULL, 0, record, sizeof record);
    chosen_query("a write", WRITE, 17, 0x0110, 0x1388, NULL, 0, write, sizeof write);
    chosen_query("a write of two registers", WRITES, 1, 0x010F, 0, values, 4, writes, sizeof writes);
    chosen_query("a write of one register by 10", WRITES, 1, 0x010F, 0, values, 2, one, sizeof one);
    chosen_query("a clear", CLEAR, 1, 0x0300, 0xFF00, NULL, 0, clear, sizeof clear);
}

/* The longest query and the longest reply there are, both of 99 bytes. */
static void longest(void)
{
    uint8_t frame[CEDARSKEIN_LONGEST_FRAME];
    struct order writes = order_of(WRITES, 247, 0xFFD3, 0, 90), read = order_of(READ, 247, 0xFFD1, 47, 0);
    at_case("the longest query");
    give(&writes);
    expect_number(CEDARSKEIN_DONE, call_query(&box), "query");
    expect_number(99, box.length, "its length");
    expect_bytes(frame, put_query(frame, &writes));
    at_case("the longest reply");
    give(&read);
    lend_reply(&read);
    expect_number(99, box.reply.n, "its bytes");
    expect_done("reply");
    expect_number(94, box.length, "the bytes of values");
}

/* ---- What an order has no use for ---- */

/* Any number, and any values: the query is as it is without, and so is what a reply comes to. */
static void of_no_use(uint32_t kind, uint32_t number, size_t values_n)
{
    uint8_t frame[CEDARSKEIN_LONGEST_FRAME];
    struct order order = good_order(kind);
    at_case("order %lu, number %lX and %lu bytes of values that it has no use for", (unsigned long)kind, (unsigned long)number,
            (unsigned long)values_n);
    if (kind == WRITES || kind == CLEAR)
        order.number = number;
    if (kind != WRITES)
        order.values_n = values_n;
    give(&order);
    expect_number(CEDARSKEIN_DONE, call_query(&box), "query");
    expect_bytes(frame, put_query(frame, &order));
    lend_reply(&order);
    expect_done("reply");
    if (kind != WRITES)
        return;
    lend(&box.values, order.values_n, 0);
    expect_done("reply, with other values in as many bytes");
}

static void all_of_no_use(void)
{
    static const uint32_t numbers[7] = { 0, 1, 47, 48, 0xFFFF, 0x10000, 0xFFFFFFFF };
    static const size_t values[8] = { 0, 1, 2, 90, 91, 92, 258, 5000 };
    uint32_t kind;
    size_t k;
    for (kind = 0; kind < ORDERS; kind++)
        for (k = 0; k < 56; k++)
            of_no_use(kind, numbers[k % 7], values[k / 7]);
}

/* ---- What comes back ---- */

/* A reply of n bytes, changed or not, its check made right. */
static void came(const uint8_t *frame, size_t n)
{
    box_reply(&box, frame, n, n % LENT_SHIFTS);
}

/* Too short, too long: a right check does not help. The front of a right reply is what is there. */
static void lengths_of_no_frame(const struct order *order)
{
    uint8_t frame[LONGEST_TRIED];
    size_t n, right = put_reply(frame, order);
    for (n = right; n < LONGEST_TRIED; n++)
        frame[n] = noise();
    for (n = 0; n < LONGEST_TRIED; n = n == 3 ? 101 : n + 1) {
        at_case("%lu bytes come back to order %lu", (unsigned long)n, (unsigned long)order->order);
        came(frame, n);
        expect_refused(CEDARSKEIN_REPLY_DAMAGED, "reply");
    }
    lend_null(&box.reply);
    expect_refused(CEDARSKEIN_REPLY_DAMAGED, "nothing");
}

/* Each byte as the station, and each as the function, in front of the right body. */
static void stations_and_functions(const struct order *order)
{
    uint8_t frame[LONGEST_TRIED];
    size_t n = put_reply(frame, order);
    unsigned byte;
    for (byte = 0; byte < 256; byte++) {
        int same = byte == frame[1], error = byte == (frame[1] | 0x80u);
        at_case("order %lu, byte %02X", (unsigned long)order->order, byte);
        came(frame, n);
        box.reply.bytes[0] = (uint8_t)byte;
        seal(box.reply.bytes, n);
        expect_refused(byte == order->station ? CEDARSKEIN_DONE : CEDARSKEIN_REPLY_STATION, "as the station");
        box.reply.bytes[1] ^= 0x08;
        seal(box.reply.bytes, n);
        expect_refused(byte == order->station ? CEDARSKEIN_REPLY_FUNCTION : CEDARSKEIN_REPLY_STATION,
                       "as the station, with another function");
        came(frame, n);
        box.reply.bytes[1] = (uint8_t)byte;
        seal(box.reply.bytes, n);
        expect_refused(same ? CEDARSKEIN_DONE : error ? CEDARSKEIN_REPLY_BODY : CEDARSKEIN_REPLY_FUNCTION, "as the function");
    }
}

/* An error: one code of three, alone in the body. */
static void errors(const struct order *order)
{
    uint8_t frame[CEDARSKEIN_LONGEST_FRAME] = { 0 };
    size_t n;
    unsigned code;
    frame[0] = (uint8_t)order->station;
    frame[1] = function_of(order->order) | 0x80;
    for (code = 0; code < 256; code++) {
        int good = 1 <= code && code <= 3;
        at_case("order %lu gets error %02X", (unsigned long)order->order, code);
        frame[2] = (uint8_t)code;
        came(frame, 5);
        expect_number(good ? CEDARSKEIN_DONE : CEDARSKEIN_REPLY_BODY, call_reply(&box), "reply");
        expect_number(good ? code : 0, box.error, "the code");
    }
    for (n = 4; n <= CEDARSKEIN_LONGEST_FRAME; n++) {
        at_case("order %lu gets error 02 in %lu bytes", (unsigned long)order->order, (unsigned long)n);
        frame[2] = frame[3] = 2;
        came(frame, n);
        expect_refused(n == 5 ? CEDARSKEIN_DONE : CEDARSKEIN_REPLY_BODY, "reply");
    }
}

/* A byte count and a length, both of which must be the order's. */
static void values_in(const struct order *order, uint8_t byte_count, size_t n)
{
    uint8_t frame[CEDARSKEIN_LONGEST_FRAME];
    int right = n == 5 + 2 * (size_t)order->number && byte_count == 2 * order->number;
    at_case("order %lu of %lu words gets byte count %u in %lu bytes", (unsigned long)order->order, (unsigned long)order->number, byte_count,
            (unsigned long)n);
    put_values(frame, order, byte_count, n);
    came(frame, n);
    if (right)
        expect_done("reply");
    else
        expect_refused(CEDARSKEIN_REPLY_BODY, "reply");
}

static void values(const struct order *order)
{
    unsigned byte_count;
    size_t n, right = 5 + 2 * (size_t)order->number;
    for (byte_count = 0; byte_count < 256; byte_count++)
        values_in(order, (uint8_t)byte_count, right);
    for (n = 4; n <= CEDARSKEIN_LONGEST_FRAME; n++) {
        values_in(order, (uint8_t)(right - 5), n);
        values_in(order, (uint8_t)(n - 5), n);
    }
}

/* An echo: address and value, or address and how many. Every bit counts, and so does the length. */
static void echoes(const struct order *order)
{
    uint8_t frame[CEDARSKEIN_LONGEST_FRAME];
    size_t n, bit;
    for (n = 8; n < sizeof frame; n++)
        frame[n] = noise();
    put_front(frame, order);
    for (n = 4; n <= sizeof frame; n++) {
        at_case("order %lu gets an echo of %lu bytes", (unsigned long)order->order, (unsigned long)n);
        came(frame, n);
        expect_refused(n == 8 ? CEDARSKEIN_DONE : CEDARSKEIN_REPLY_BODY, "reply");
    }
    for (bit = 16; bit < 48; bit++) {
        at_case("order %lu gets an echo with another bit %lu of byte %lu", (unsigned long)order->order, (unsigned long)(bit % 8),
                (unsigned long)(bit / 8));
        came(frame, 8);
        box.reply.bytes[bit / 8] ^= (uint8_t)(1u << bit % 8);
        seal(box.reply.bytes, 8);
        expect_refused(CEDARSKEIN_REPLY_BODY, "reply");
    }
}

/* A box may hear its own query, where the line hands it back: for a write and a clear that looks like the reply, for the others not. */
static void own_query(const struct order *order)
{
    int echo = order->order == WRITE || order->order == CLEAR;
    at_case("order %lu gets its own query", (unsigned long)order->order);
    give(order);
    expect_number(CEDARSKEIN_DONE, call_query(&box), "query");
    lend_copy(&box.reply, box.out.bytes, box.length, 0);
    expect_refused(echo ? CEDARSKEIN_DONE : CEDARSKEIN_REPLY_BODY, "reply");
}

static void replies_to(struct order order)
{
    give(&order);
    lengths_of_no_frame(&order);
    stations_and_functions(&order);
    errors(&order);
    if (reads(&order))
        values(&order);
    else
        echoes(&order);
    own_query(&order);
}

static void replies(void)
{
    uint32_t kind, number;
    for (kind = 0; kind < ORDERS; kind++)
        replies_to(good_order(kind));
    replies_to(order_of(READ, 1, 0xFFFF, 1, 0));
    replies_to(order_of(READ, 247, 0xFFD1, 47, 0));
    replies_to(order_of(RECORD, 247, 0xFFFF, 47, 0));
    replies_to(order_of(WRITE, 1, 0xFFFF, 0, 0));
    replies_to(order_of(WRITES, 247, 0xFFD3, 0, 90));
    replies_to(order_of(CLEAR, 247, 0, 0, 0));
    for (number = 1; number <= MOST_READ; number++) {
        struct order order = order_of(number % 2 ? READ : RECORD, number, 0x0100, number, 0);
        give(&order);
        values(&order);
    }
}

int main(void)
{
    limits();
    faults_in_company();
    out_sizes();
    queries();
    chosen_queries();
    longest();
    all_of_no_use();
    replies();
    return told("the box that asks: each order's query byte for byte, every refusal in its order, and what a reply comes to");
}
