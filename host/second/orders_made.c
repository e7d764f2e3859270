/* Orders near every limit, and replies that fit them or miss by little. */
#include "orders_made.h"
#include "noise.h"

#include <string.h>

/* ---- Orders that have a frame ---- */

/* The most words that a read and a write have room for. */
enum { READ_MOST = 47, WRITE_MOST = 45 };

static uint32_t good_station(void)
{
    return chance(30) ? ONE_OF(FIRST_STATION, LAST_STATION) : 1 + below(LAST_STATION);
}

static uint32_t good_words(uint32_t most)
{
    return chance(40) ? ONE_OF(1, 2, most - 1, most, most) : 1 + below(most);
}

/* A run of so many addresses from it on ends by FFFF, often right there. */
static uint32_t good_address(uint32_t run)
{
    uint32_t most = 0x10000 - run;
    return chance(25) ? most : chance(10) ? ONE_OF(0, 1, most - 1) : below(most + 1);
}

/* For an order that has no use for it. */
static uint32_t any_number(void)
{
    return ONE_OF(0, 1, 48, 0x10000, 0xFFFFFFFF, (uint32_t)noise());
}

static size_t any_values(void)
{
    return ONE_OF(0, 0, 1, 2, 89, 90, 91, 92, 258, below(VALUES_ROOM));
}

static void put_any_rest(struct made_order *order)
{
    order->asked.number = any_number();
    order->values_n = any_values();
    noise_fill(order->values, VALUES_ROOM);
}

void make_order(struct made_order *order)
{
    struct asked *asked = &order->asked;
    uint32_t run = 1;
    put_any_rest(order);
    asked->order = below(ORDER_COUNT);
    asked->station = good_station();
    if (asked->order == ORDER_READ || asked->order == ORDER_RECORD)
        asked->number = good_words(READ_MOST);
    if (asked->order == ORDER_READ)
        run = asked->number;
    if (asked->order == ORDER_WRITE)
        asked->number = chance(20) ? ONE_OF(0, 0xFFFF) : below(0x10000);
    if (asked->order == ORDER_WRITES) {
        run = good_words(WRITE_MOST);
        order->values_n = 2 * (size_t)run;
    }
    asked->address = good_address(run);
}

/* ---- Orders that have none ---- */

/* Those of the numbers behind the first few have lower bits that would do. */
static void spoil_kind(struct made_order *order)
{
    uint32_t kind = order->asked.order;
    order->asked.order = ONE_OF(5, 5, 5, 6, 0xFF, 0x100 + kind, 0x10000 + kind, 0xFFFFFFFF);
}

static void spoil_station(struct made_order *order)
{
    uint32_t station = order->asked.station;
    order->asked.station = ONE_OF(0, 0, 0xF8, 0xF8, 0xFF, 0x100, 0x100 + station,
                                  0x10000 + station, 0x80000000 + station, 0xFFFFFFFF);
}

/* A clear has no words, and gets another station. */
static void spoil_words(struct made_order *order)
{
    uint32_t number = order->asked.number;
    uint32_t bytes = (uint32_t)order->values_n;
    switch (order->asked.order) {
    case ORDER_READ: case ORDER_RECORD:
        order->asked.number = ONE_OF(0, 0, 0, 48, 48, 48, 49, 0x80, 0x100 + number,
                                     0x10000 + number, 0xFFFFFFFF);
        break;
    case ORDER_WRITE:
        order->asked.number = ONE_OF(0x10000, 0x10000, 0x10000 + number, 0xFFFFFFFF);
        break;
    case ORDER_WRITES:
        order->values_n = ONE_OF(0, 0, 0, 92, 92, 92, 94, 91, (bytes - 1) & 0x7F, bytes | 1,
                                 0x100 + (bytes & 0x7F));
        break;
    default: spoil_station(order); break;
    }
}

static uint32_t run_of(const struct made_order *order)
{
    switch (order->asked.order) {
    case ORDER_READ: return order->asked.number;
    case ORDER_WRITES: return (uint32_t)(order->values_n / 2);
    default: return 1;
    }
}

/* One past FFFF, wholly above it, or such that 32 bits do not hold the sum of the
 * address and the run. */
static void spoil_address(struct made_order *order)
{
    uint32_t run = run_of(order);
    uint32_t address = order->asked.address;
    uint32_t past = 0x10001 - run;
    order->asked.address = ONE_OF(past, past, past, past, past, 0x10000, 0x10000 + address,
                                  0x80000000 + address, 0 - run, 1 - run);
}

void spoil_order(struct made_order *order)
{
    typedef void spoil(struct made_order *);
    static spoil *const spoils[10] = {
        spoil_words, spoil_words, spoil_words, spoil_words, spoil_words, spoil_address,
        spoil_address, spoil_address, spoil_station, spoil_kind
    };
    do
        spoils[below(10)](order);
    while (chance(12));
}

/* ---- Another order ---- */

/* All values were made, so that there can be more of them. */
void change_order(struct made_order *order)
{
    struct asked *asked = &order->asked;
    switch (below(6)) {
    case 0: asked->order = below(ORDER_COUNT); break;
    case 1: asked->station = 1 + asked->station % LAST_STATION; break;
    case 2: asked->address ^= 1u << below(16); break;
    case 3: asked->number ^= 1u << below(5); break;
    case 4: order->values_n += order->values_n < 90 ? 2 : 0; break;
    default: make_order(order); break;
    }
}

/* ---- Orders for a meter ---- */

static bool frame_reads_well(const uint8_t *frame, size_t n)
{
    uint32_t count = get16(frame + 4, 0);
    return n == 8 && 1 <= count && count <= READ_MOST && get16(frame + 2, 0) + count <= 0x10000;
}

static bool frame_writes_well(const uint8_t *frame, size_t n)
{
    uint32_t count = get16(frame + 4, 0);
    return n > 9 && n == 9 + (size_t)frame[6] && frame[6] == 2 * count
        && get16(frame + 2, 0) + count <= 0x10000;
}

/* The order that a frame is the query of; false if it is that of none. */
static bool take_frame(const uint8_t *frame, size_t n, struct made_order *order)
{
    struct asked *asked = &order->asked;
    if (n < 8)
        return false;
    put_any_rest(order);
    asked->address = get16(frame + 2, 0);
    switch (frame[1]) {
    case 0x03:
        asked->order = ORDER_READ;
        asked->number = get16(frame + 4, 0);
        return frame_reads_well(frame, n);
    case 0x05:
        asked->order = ORDER_CLEAR;
        return n == 8 && get16(frame + 4, 0) == 0;
    case 0x06:
        asked->order = ORDER_WRITE;
        asked->number = get16(frame + 4, 0);
        return n == 8;
    case 0x10:
        asked->order = ORDER_WRITES;
        if (!frame_writes_well(frame, n))
            return false;
        order->values_n = frame[6];
        memcpy(order->values, frame + 7, frame[6]);
        return true;
    default: return false;
    }
}

/* A read of one becomes a record order where it starts at a record, with the words
 * that records have; now and then it does not, or elsewhere, or with other words. */
static void choose_record(const struct made *made, struct asked *asked)
{
    bool at_record = made_is_record(made, asked->address);
    if (asked->order != ORDER_READ || asked->number != 1 || chance(at_record ? 35 : 50))
        return;
    asked->order = ORDER_RECORD;
    asked->number = at_record ? made->records.words : ONE_OF(1, 1, 2, READ_MOST);
    if (at_record && chance(20))
        asked->number = 1 + below(READ_MOST);
}

/* A frame for the meter; more clears, and more of one register or record, than there
 * are among the frames that are made for a meter alone. */
static size_t some_frame(const struct made *made, const uint8_t *bank, uint32_t stored,
                         uint8_t *frame)
{
    uint32_t sort = below(100);
    frame[0] = own_station(made, bank);
    if (sort < 12)
        return add_check(frame, put_start(frame, 0x05, chance(75) ? made->clear
                                                                  : some_address(made), 0));
    if (sort < 40 && made->records.is)
        return add_check(frame, put_start(frame, 0x03, some_record(made, stored), 1));
    if (sort < 40)
        return add_check(frame, put_start(frame, 0x03, some_address(made), 1));
    if (sort < 48)
        return add_check(frame, put_start(frame, 0x06, some_address(made), below(0x10000)));
    return make_passing_frame(made, bank, stored, frame);
}

size_t make_order_of_meter(const struct made *made, const uint8_t *bank, uint32_t stored,
                           struct made_order *order, uint8_t *frame)
{
    size_t n;
    do
        n = some_frame(made, bank, stored, frame);
    while (!take_frame(frame, n, order));
    choose_record(made, &order->asked);
    order->asked.station = chance(92) ? frame[0] : good_station();
    frame[0] = (uint8_t)order->asked.station;
    return add_check(frame, n - 2);
}

/* ---- What a meter could send back ---- */

static uint8_t function_of(const struct made_order *order)
{
    static const uint8_t functions[8] = { 0x03, 0x03, 0x06, 0x10, 0x05, 0x03, 0x06, 0x10 };
    return functions[order->asked.order & 7];
}

static size_t put_values(const struct made_order *order, uint8_t *reply)
{
    uint32_t words = order->asked.number & 0x3F;
    reply[2] = (uint8_t)(2 * words);
    noise_fill(reply + 3, 2 * (size_t)words);
    return 3 + 2 * (size_t)words;
}

static uint32_t echoed_word(const struct made_order *order)
{
    switch (function_of(order)) {
    case 0x05: return 0;
    case 0x06: return order->asked.number & 0xFFFF;
    default: return (uint32_t)(order->values_n / 2);
    }
}

size_t make_reply(const struct made_order *order, uint8_t *reply)
{
    uint8_t function = function_of(order);
    reply[0] = (uint8_t)order->asked.station;
    reply[1] = function;
    if (chance(30)) {
        reply[1] |= 0x80;
        reply[2] = (uint8_t)(1 + below(3));
        return add_check(reply, 3);
    }
    if (function == 0x03)
        return add_check(reply, put_values(order, reply));
    return add_check(reply, put_start(reply, function, order->asked.address & 0xFFFF,
                                      echoed_word(order)));
}

/* ---- Faults of a reply ----
 * The end is where the check begins. */

/* Another code, none, one byte more, or the bit that marks an error left out. */
static size_t spoil_error(uint8_t *reply, size_t end)
{
    switch (below(6)) {
    case 0: reply[2] = 0; return end;
    case 1: case 2: reply[2] = (uint8_t)ONE_OF(4, 4, 4, 5, 0x81, 0xFF); return end;
    case 3: return end - 1;
    case 4: reply[end] = (uint8_t)ONE_OF(0, 1, below(256)); return end + 1;
    default: reply[1] &= 0x7F; return end;
    }
}

/* The byte count, the length, or both, so that they fit each other; nothing; an echo;
 * or all as it should be with the bit that marks an error. */
static size_t spoil_values(uint8_t *reply, size_t end)
{
    uint32_t more = ONE_OF(1, 2, 2);
    noise_fill(reply + end, 2);
    switch (below(9)) {
    case 0: reply[2] = (uint8_t)(reply[2] + more); return end;
    case 1: reply[2] = (uint8_t)(reply[2] - more); return end;
    case 2: return end + more;
    case 3: return end - more;
    case 4: reply[2] = (uint8_t)(reply[2] + more); return end + more;
    case 5: reply[2] = (uint8_t)(reply[2] - more); return end - more;
    case 6: return 2;
    case 7: return put_start(reply, 0x03, below(0x10000), reply[2] / 2);
    default: reply[1] |= 0x80; return end;
    }
}

static size_t spoil_echo(uint8_t *reply, size_t end)
{
    noise_fill(reply + end, 4);
    switch (below(7)) {
    case 0: case 1: reply[2 + below(2)] ^= (uint8_t)(1 << below(8)); return end;
    case 2: case 3: reply[4 + below(2)] ^= (uint8_t)(1 << below(8)); return end;
    case 4: return end - 1 - below(4);
    case 5: return end + 1 + below(4);
    default: reply[1] |= 0x80; return end;
    }
}

/* Those of other orders, with and without the bit that marks an error, or any. */
static uint8_t other_function(uint8_t function)
{
    uint32_t other;
    do
        other = ONE_OF(0x03, 0x05, 0x06, 0x10, 0x83, 0x85, 0x86, 0x90, below(256));
    while ((other & 0x7F) == (function & 0x7Fu));
    return (uint8_t)other;
}

static uint8_t other_station(uint8_t station)
{
    return (uint8_t)(station + ONE_OF(1, 0x80, 0xFF, 1 + below(255)));
}

/* A body that ends between the longest frame and a little beyond. */
static size_t lengthen(uint8_t *reply, size_t n)
{
    size_t end = 98 + ONE_OF(0, 0, 1, 1, 2);
    if (n - 2 < end)
        noise_fill(reply + n - 2, end - (n - 2));
    return add_check(reply, end);
}

/* Where there is room for a check, it is often right. */
static size_t shorten(uint8_t *reply)
{
    size_t n = ONE_OF(0, 0, 1, 2, 3, 3, 3);
    return n >= 2 && chance(75) ? add_check(reply, n - 2) : n;
}

/* Too short, too long, or a check that is wrong. */
static size_t spoil_frame(uint8_t *reply, size_t n)
{
    uint8_t last = reply[n - 1];
    switch (below(8)) {
    case 0: case 1: return shorten(reply);
    case 2: case 3: return lengthen(reply, n);
    case 4:
        reply[n - 1] = reply[n - 2];
        reply[n - 2] = last;
        return n;
    case 5: return n - 1;
    default: damage_frame(reply, n); return n;
    }
}

/* Any byte, with the check mended. */
static size_t change_byte(uint8_t *reply, size_t end)
{
    reply[below((uint32_t)end)] = (uint8_t)below(256);
    return add_check(reply, end);
}

size_t spoil_reply(uint8_t *reply, size_t n)
{
    uint32_t faults = chance(75) ? 1u << ONE_OF(0, 0, 0, 0, 0, 1, 2, 3, 3) : 1 + below(15);
    size_t end = n - 2;
    bool is_error = (reply[1] & 0x80) != 0;
    if (chance(8))
        return change_byte(reply, end);
    if ((faults & 1) != 0 && is_error)
        end = spoil_error(reply, end);
    else if ((faults & 1) != 0)
        end = reply[1] == 0x03 ? spoil_values(reply, end) : spoil_echo(reply, end);
    if ((faults & 2) != 0)
        reply[1] = other_function(reply[1]);
    if ((faults & 4) != 0)
        reply[0] = other_station(reply[0]);
    n = add_check(reply, end);
    return (faults & 8) != 0 ? spoil_frame(reply, n) : n;
}
