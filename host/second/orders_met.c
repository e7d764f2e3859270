#include "orders_met.h"
#include "frames_made.h"
#include "records_met.h"

#include <string.h>

/* ---- An order in the numbers and bytes of a call ---- */

enum { LONGEST = 100, ERROR_BIT = 0x80 };

static const uint8_t functions[ORDER_COUNT] = { 0x03, 0x03, 0x06, 0x10, 0x05 };

/* An order that reads gets values back. */
static bool reads(const struct call *call)
{
    return call->asked.order == ORDER_READ || call->asked.order == ORDER_RECORD;
}

/* What the order lacks for a frame, one bit each. */
enum { LACKS_KIND = 1, LACKS_STATION = 2, LACKS_WORDS = 4, LACKS_ADDRESS = 8 };

/* By the bytes of the longer one of query and reply: those that are there whatever
 * the words, and two for each. */
static bool lacks_words(const struct call *call)
{
    uint64_t number = call->asked.number;
    size_t bytes = call->part_n[PART_VALUES];
    switch (call->asked.order) {
    case ORDER_READ: case ORDER_RECORD: return number == 0 || 5 + 2 * number > LONGEST;
    case ORDER_WRITE: return number >> 16 != 0;
    case ORDER_WRITES: return bytes == 0 || (bytes & 1) == 1 || 9 + bytes > LONGEST;
    default: return false;
    }
}

/* The last address that the order is about. */
static uint64_t last_address(const struct call *call)
{
    uint64_t behind = 0;
    if (call->asked.order == ORDER_READ && call->asked.number > 0)
        behind = (uint64_t)call->asked.number - 1;
    if (call->asked.order == ORDER_WRITES && call->part_n[PART_VALUES] > 2)
        behind = call->part_n[PART_VALUES] / 2 - 1;
    return call->asked.address + behind;
}

static unsigned what_lacks(const struct call *call)
{
    uint32_t station = call->asked.station;
    unsigned lacks = 0;
    if (call->asked.order >= ORDER_COUNT)
        lacks |= LACKS_KIND;
    if (station < FIRST_STATION || LAST_STATION < station)
        lacks |= LACKS_STATION;
    if (lacks_words(call))
        lacks |= LACKS_WORDS;
    if (last_address(call) > 0xFFFF)
        lacks |= LACKS_ADDRESS;
    return lacks;
}

/* ---- Frames in bytes ---- */

/* The check as a division of the bits in the order that they are sent in: with the
 * check behind it nothing is left of a frame that passes. Neither side has it so. */
static bool check_is_right(const uint8_t *frame, size_t n)
{
    uint32_t left = 0xFFFF;
    for (size_t bit = 0; bit < 8 * n; bit++) {
        uint32_t out = left >> 15 ^ (frame[bit / 8] >> bit % 8 & 1u);
        left = (left << 1 & 0xFFFF) ^ (out == 1 ? 0x8005 : 0);
    }
    return left == 0;
}

static bool passes(const uint8_t *frame, size_t n)
{
    return 4 <= n && n <= LONGEST && check_is_right(frame, n);
}

/* The second word that a query has, and an echo. */
static uint32_t word_of(const struct call *call)
{
    switch (call->asked.order) {
    case ORDER_RECORD: return 1;
    case ORDER_WRITES: return (uint32_t)(call->part_n[PART_VALUES] / 2);
    case ORDER_CLEAR: return 0;
    default: return call->asked.number;
    }
}

/* Six bytes: station, function, address and the word. */
static bool begins_as_asked(const struct call *call, const uint8_t *frame)
{
    return frame[0] == call->asked.station && frame[1] == functions[call->asked.order]
        && get16(frame + 2, 0) == call->asked.address && get16(frame + 2, 1) == word_of(call);
}

/* Whether out is as it was from a byte on. */
static bool out_kept_from(const struct call *call, size_t from)
{
    return memcmp(call->part[PART_OUT] + from, part_after(PART_OUT) + from,
                  call->part_n[PART_OUT] - from) == 0;
}

/* ---- What holds of every query ---- */

static const char *query_breach(const struct call *call, const struct outcome *outcome)
{
    const uint8_t *out = part_after(PART_OUT);
    bool several = call->asked.order == ORDER_WRITES;
    size_t values_n = call->part_n[PART_VALUES];
    size_t length = outcome->length;
    if (outcome->number != NUMBER_DONE)
        return "a query that can be built was not";
    if (length != (several ? 9 + values_n : 8))
        return "a query has another length than its order asks for";
    if (!passes(out, length))
        return "a built query does not pass";
    if (!begins_as_asked(call, out))
        return "a query does not begin with what was asked";
    if (several && (out[6] != values_n || memcmp(out + 7, call->part[PART_VALUES], values_n) != 0))
        return "a query does not bring the values that were given";
    return out_kept_from(call, length) ? NULL : "something was written behind a query";
}

/* ---- What holds of every reply ---- */

static bool body_fits(const struct call *call, const uint8_t *reply, size_t n)
{
    if ((reply[1] & ERROR_BIT) != 0)
        return n == 5 && reply[2] - 1u < 3;
    if (reads(call))
        return n == 5 + 2 * (size_t)call->asked.number && reply[2] == n - 5;
    return n == 8 && begins_as_asked(call, reply);
}

/* The number that some bytes get as the reply to the call's order. */
static uint32_t number_of(const struct call *call, const uint8_t *reply, size_t n)
{
    if (!passes(reply, n))
        return NUMBER_REPLY_DAMAGED;
    if (reply[0] != call->asked.station)
        return NUMBER_REPLY_STATION;
    if ((reply[1] & ~ERROR_BIT) != functions[call->asked.order])
        return NUMBER_REPLY_FUNCTION;
    return body_fits(call, reply, n) ? NUMBER_DONE : NUMBER_REPLY_BODY;
}

static const char *reply_breach(const struct call *call, const struct outcome *outcome)
{
    const uint8_t *reply = call->part[PART_BYTES];
    size_t n = call->part_n[PART_BYTES];
    if (outcome->number != number_of(call, reply, n))
        return "a reply was not read as its bytes say";
    if (outcome->number != NUMBER_DONE)
        return NULL;
    bool is_error = (reply[1] & ERROR_BIT) != 0;
    size_t values_n = is_error || !reads(call) ? 0 : n - 5;
    if (outcome->error != (is_error ? reply[2] : 0u))
        return "the error told is not the reply's code";
    if (outcome->length != values_n || memcmp(part_after(PART_OUT), reply + 3, values_n) != 0)
        return "the values told are not those of the reply";
    return out_kept_from(call, values_n) ? NULL : "something was written behind the values";
}

const char *order_breach(const struct call *call, const struct outcome *outcome)
{
    if (call->sort != CALL_QUERY && call->sort != CALL_REPLY)
        return NULL;
    uint32_t refused = NUMBER_DONE;
    if (what_lacks(call) != 0)
        refused = NUMBER_NO_FRAME;
    else if (call->part_n[PART_OUT] < LONGEST)
        refused = NUMBER_BUFFER;
    if (outcome->number != NUMBER_DONE
        && (outcome->length != 0 || outcome->error != 0 || part_changed(call, PART_OUT)))
        return "a refusal has told or written something";
    if (refused != NUMBER_DONE)
        return outcome->number == refused ? NULL : "an order was not refused, or otherwise";
    return call->sort == CALL_QUERY ? query_breach(call, outcome) : reply_breach(call, outcome);
}

/* ---- A meter that gets the query ---- */

/* A read or record order whose reply could be another's than it is for: one that does
 * not go with the record area. The words of a record are the sheet's last. */
static bool strays(const struct call *asked, const struct call *answer)
{
    bool at_record = starts_at_record(answer);
    if (asked->asked.order == ORDER_READ)
        return at_record;
    if (asked->asked.order != ORDER_RECORD)
        return false;
    return !at_record || asked->asked.number != get16(answer->part[PART_SHEET],
                                                      answer->part_n[PART_SHEET] / 2 - 1);
}

/* The bytes of the word at an address in a bank; NULL if no area has the address. */
static const uint8_t *word_in(const struct call *answer, const uint8_t *bank, uint32_t address)
{
    const uint8_t *sheet = answer->part[PART_SHEET];
    for (size_t row = 12; row < get16(sheet, 4); row += 4)
        if (get16(sheet, row) <= address && address <= get16(sheet, row + 1))
            return bank + 2 * (size_t)(get16(sheet, row + 2) + (address - get16(sheet, row)));
    return NULL;
}

/* Whether words are those of the bank from an address on. */
static bool bank_has(const struct call *answer, const uint8_t *bank, uint32_t address,
                     const uint8_t *words, size_t words_n)
{
    for (size_t i = 0; i < words_n; i++) {
        const uint8_t *word = word_in(answer, bank, address + (uint32_t)i);
        if (word == NULL || memcmp(word, words + 2 * i, 2) != 0)
            return false;
    }
    return true;
}

/* Whether words are the record at an address, which is looked for from the newest on,
 * one place back for each. */
static bool ring_has(const struct call *answer, uint32_t address, const uint8_t *words)
{
    const uint8_t *row = answer->part[PART_SHEET] + answer->part_n[PART_SHEET] - 6;
    const uint8_t *ring = answer->part[PART_RING];
    size_t bytes = 2 * (size_t)get16(row, 2);
    uint32_t place = get16(ring, 0);
    for (uint32_t back = address - get16(row, 0); back > 0; back--)
        place = place == 0 ? get16(row, 1) - 1 : place - 1;
    return memcmp(ring + 4 + place * bytes, words, bytes) == 0;
}

/* What a meter has stored that did what it was asked. */
static const char *stored_breach(const struct call *query, const struct call *answer)
{
    const uint8_t *bank = part_after(PART_BANK);
    uint8_t value[2];
    put16(value, 0, query->asked.number & 0xFFFF);
    switch (query->asked.order) {
    case ORDER_WRITE:
        return bank_has(answer, bank, query->asked.address, value, 1)
            ? NULL : "a write is done, and the bank has another value";
    case ORDER_WRITES:
        return bank_has(answer, bank, query->asked.address, query->part[PART_VALUES],
                        query->part_n[PART_VALUES] / 2)
            ? NULL : "writes are done, and the bank has other values";
    case ORDER_CLEAR:
        return get16(bank, answer->part_n[PART_BANK] / 2 - 1) == 0
            ? NULL : "a clear is done, and the mark is set";
    default: return bank_changed(answer) ? "a read has changed the bank" : NULL;
    }
}

const char *answered_breach(const struct call *query, const struct call *answer,
                            const struct outcome *outcome)
{
    const uint8_t *out = part_after(PART_OUT);
    uint32_t station = get16(answer->part[PART_BANK], get16(answer->part[PART_SHEET], 8));
    bool to_other = query->asked.station != station;
    if (outcome->number != (to_other ? NUMBER_SILENCE : NUMBER_DONE))
        return to_other ? "a query for another station got an answer" : "a query got no answer";
    if (to_other)
        return is_untouched(answer, outcome) ? NULL : "a query for another station was acted on";
    if (out[0] != station || (out[1] & ~ERROR_BIT) != functions[query->asked.order])
        return "the answer to a query is not from its station, or has another function";
    if ((out[1] & ERROR_BIT) == 0)
        return stored_breach(query, answer);
    bool writes = query->asked.order == ORDER_WRITE || query->asked.order == ORDER_WRITES;
    return out[2] == 3 && !writes && !strays(query, answer)
        ? "an order that can have no bad value got error 03" : NULL;
}

static bool is_done(const struct outcome *outcome, uint32_t length, uint32_t error)
{
    return outcome->number == NUMBER_DONE && outcome->length == length && outcome->error == error;
}

/* Values that are the meter's own, or those of a read that strays: as many as were
 * asked for, or refused. */
static const char *values_breach(const struct call *reply, const struct call *answer,
                                 const struct outcome *outcome)
{
    const uint8_t *out = part_after(PART_OUT);
    uint32_t bytes = 2 * reply->asked.number;
    bool fits = reply->part[PART_BYTES][2] == bytes;
    if (!fits && strays(reply, answer))
        return outcome->number == NUMBER_REPLY_BODY ? NULL : "other words than asked were taken";
    if (!is_done(outcome, bytes, 0))
        return "a meter's values were not read";
    bool same = starts_at_record(answer)
        ? ring_has(answer, reply->asked.address, out)
        : bank_has(answer, answer->part[PART_BANK], reply->asked.address, out, bytes / 2);
    return same ? NULL : "the values read are not those that the meter has";
}

const char *read_breach(const struct call *reply, const struct call *answer,
                        const struct outcome *outcome)
{
    const uint8_t *bytes = reply->part[PART_BYTES];
    if ((bytes[1] & ERROR_BIT) != 0)
        return is_done(outcome, 0, bytes[2]) ? NULL : "a meter's error was not read as its code";
    if (reads(reply))
        return values_breach(reply, answer, outcome);
    return is_done(outcome, 0, 0) ? NULL : "a meter's echo was not read as done";
}

/* A built query never fails in its frame, and in its count only where it strays. */
const char *query_reason_breach(const struct call *query, const struct call *why,
                                const struct outcome *outcome)
{
    if (outcome->number != NUMBER_DONE)
        return "a query is refused that was asked about";
    switch (outcome->reason) {
    case REASON_NONE: case REASON_STATION: case REASON_FUNCTION: case REASON_ADDRESS:
    case REASON_ITEM:
        return NULL;
    case REASON_BAD_COUNT: return strays(query, why) ? NULL : "a query has a bad count";
    default: return "a built query is no good frame";
    }
}

/* ---- Counting orders ---- */

static void met(uint64_t *count, bool holds)
{
    if (holds)
        (*count)++;
}

/* Both ends of what there is for an order. */
static void count_taken(uint64_t *order, const struct call *call)
{
    const struct asked *asked = &call->asked;
    size_t bytes = call->part_n[PART_VALUES];
    bool several = asked->order == ORDER_WRITES;
    order[ORDER_TAKEN_READ + asked->order]++;
    met(&order[ORDER_READ_TO_FFFF + asked->order], last_address(call) == 0xFFFF);
    met(&order[ORDER_READ_OF_1], asked->order == ORDER_READ && asked->number == 1);
    met(&order[ORDER_READ_OF_47], asked->order == ORDER_READ && asked->number == 47);
    met(&order[ORDER_RECORD_OF_1], asked->order == ORDER_RECORD && asked->number == 1);
    met(&order[ORDER_RECORD_OF_47], asked->order == ORDER_RECORD && asked->number == 47);
    met(&order[ORDER_WRITES_OF_1], several && bytes == 2);
    met(&order[ORDER_WRITES_OF_45], several && bytes == 90);
    met(&order[ORDER_VALUE_FFFF], asked->order == ORDER_WRITE && asked->number == 0xFFFF);
    met(&order[ORDER_STATION_1], asked->station == 1);
    met(&order[ORDER_STATION_F7], asked->station == 0xF7);
    met(&order[ORDER_NUMBER_OF_NO_USE], asked->order >= ORDER_WRITES && asked->number > 0xFFFF);
    met(&order[ORDER_VALUES_OF_NO_USE], !several && (bytes % 2 == 1 || bytes > 90));
}

static void count_bad_station(uint64_t *order, uint32_t station)
{
    met(&order[ORDER_9_STATION_0], station == 0);
    met(&order[ORDER_9_STATION_F8], station == 0xF8);
    met(&order[ORDER_9_STATION_LARGE], station > 0xFF && 1 <= (station & 0xFF)
                                           && (station & 0xFF) <= 0xF7);
}

/* Where the number is large, its last byte or its last two would do. */
static void count_bad_words(uint64_t *order, const struct call *call)
{
    uint32_t number = call->asked.number;
    size_t bytes = call->part_n[PART_VALUES];
    bool few = 1 <= (number & 0xFF) && (number & 0xFF) <= 47;
    switch (call->asked.order) {
    case ORDER_READ:
        met(&order[ORDER_9_READ_OF_0], number == 0);
        met(&order[ORDER_9_READ_OF_48], number == 48);
        met(&order[ORDER_9_WORDS_LARGE], number > 0xFF && few);
        break;
    case ORDER_RECORD:
        met(&order[ORDER_9_RECORD_OF_0], number == 0);
        met(&order[ORDER_9_RECORD_OF_48], number == 48);
        met(&order[ORDER_9_WORDS_LARGE], number > 0xFF && few);
        break;
    case ORDER_WRITE: met(&order[ORDER_9_VALUE_10000], number == 0x10000); break;
    default:
        met(&order[ORDER_9_NO_VALUES], bytes == 0);
        met(&order[ORDER_9_ODD_VALUES], bytes % 2 == 1 && bytes <= 91);
        met(&order[ORDER_9_WRITES_OF_46], bytes == 92);
        met(&order[ORDER_9_WORDS_LARGE], bytes > 0xFF && 2 <= (bytes & 0xFF)
                                             && (bytes & 0xFF) <= 90);
        break;
    }
}

static void count_bad_address(uint64_t *order, const struct call *call)
{
    uint32_t address = call->asked.address;
    met(&order[ORDER_9_READ_TO_10000 + call->asked.order], last_address(call) == 0x10000);
    met(&order[ORDER_9_ADDRESS_LARGE], address > 0x10000 && address < 0xFFFFFF00);
    met(&order[ORDER_9_SUM_OVER_32_BITS], last_address(call) >= 0xFFFFFFFF);
}

static void count_refused(uint64_t *order, const struct call *call)
{
    met(&order[ORDER_9_BEFORE_5], call->part_n[PART_OUT] < LONGEST);
    switch (what_lacks(call)) {
    case LACKS_KIND:
        met(&order[ORDER_9_KIND_5], call->asked.order == 5);
        met(&order[ORDER_9_KIND_LARGE], call->asked.order > 0xFF);
        break;
    case LACKS_STATION: count_bad_station(order, call->asked.station); break;
    case LACKS_WORDS: count_bad_words(order, call); break;
    case LACKS_ADDRESS: count_bad_address(order, call); break;
    default: order[ORDER_9_SEVERAL]++; break;
    }
}

/* ---- Counting replies ---- */

/* The number that the reply would get with one byte another, and the check mended. */
static uint32_t number_with(const struct call *call, size_t at, uint8_t byte)
{
    uint8_t reply[LONGEST];
    size_t n = call->part_n[PART_BYTES];
    memcpy(reply, call->part[PART_BYTES], n);
    reply[at] = byte;
    add_check(reply, n - 2);
    return number_of(call, reply, n);
}

static void count_read(uint64_t *reply, const struct call *call, const struct outcome *outcome)
{
    if (outcome->error == 0)
        reply[REPLY_READ + call->asked.order]++;
    else if (outcome->error <= 3)
        reply[REPLY_CODE_1 + outcome->error - 1]++;
    met(&reply[REPLY_OF_1], outcome->length == 2);
    met(&reply[REPLY_OF_47], outcome->length == 94);
}

static void count_damaged(uint64_t *reply, const struct call *call)
{
    const uint8_t *bytes = call->part[PART_BYTES];
    size_t n = call->part_n[PART_BYTES];
    met(&reply[REPLY_10_NOTHING], n == 0);
    met(&reply[REPLY_10_SHORT], 1 <= n && n <= 3);
    met(&reply[REPLY_10_OF_3], n == 3 && check_is_right(bytes, n));
    if (n < 4)
        return;
    met(&reply[REPLY_10_LONG], n == LONGEST + 1 && check_is_right(bytes, n)
                                   && bytes[0] == call->asked.station
                                   && (bytes[1] & ~ERROR_BIT) == functions[call->asked.order]);
    if (n > LONGEST)
        return;
    bool good = number_with(call, 0, bytes[0]) == NUMBER_DONE;
    reply[good ? REPLY_10_CHECK : REPLY_10_OF_SEVERAL]++;
}

static void count_other_station(uint64_t *reply, const struct call *call)
{
    bool good = number_with(call, 0, (uint8_t)call->asked.station) == NUMBER_DONE;
    reply[good ? REPLY_11 : REPLY_11_OF_SEVERAL]++;
}

static void count_other_function(uint64_t *reply, const struct call *call)
{
    uint8_t got = call->part[PART_BYTES][1];
    uint8_t mark = got & ERROR_BIT;
    bool good = number_with(call, 1, functions[call->asked.order] | mark) == NUMBER_DONE;
    bool known = false;
    for (int order = 0; order < ORDER_COUNT; order++)
        known = known || (got & ~ERROR_BIT) == functions[order];
    reply[good ? REPLY_12 : REPLY_12_OF_SEVERAL]++;
    met(&reply[REPLY_12_OTHER_ORDER], known && mark == 0);
    met(&reply[REPLY_12_OTHER_ERROR], known && mark != 0);
}

static void count_bad_error(uint64_t *reply, const struct call *call)
{
    const uint8_t *bytes = call->part[PART_BYTES];
    size_t n = call->part_n[PART_BYTES];
    met(&reply[REPLY_13_CODE_0], n == 5 && bytes[2] == 0);
    met(&reply[REPLY_13_CODE_4], n == 5 && bytes[2] == 4);
    met(&reply[REPLY_13_NO_CODE], n == 4);
    met(&reply[REPLY_13_TWO_CODES], n == 6 && bytes[2] - 1u < 3);
    met(&reply[REPLY_13_BODY_MARKED],
        number_with(call, 1, functions[call->asked.order]) == NUMBER_DONE);
}

static void count_bad_values(uint64_t *reply, const struct call *call)
{
    uint8_t bytes = call->part[PART_BYTES][2];
    size_t n = call->part_n[PART_BYTES];
    size_t right = 2 * (size_t)call->asked.number;
    met(&reply[REPLY_13_BYTE_COUNT], n == 5 + right);
    met(&reply[REPLY_13_LENGTH], n > 4 && n != 5 + right && bytes == right);
    met(&reply[REPLY_13_WORD_LESS], n + 2 == 5 + right && bytes + 2u == right);
    met(&reply[REPLY_13_WORD_MORE], n == 7 + right && bytes == right + 2);
}

static void count_bad_echo(uint64_t *reply, const struct call *call)
{
    static const enum reply_met other_word[ORDER_COUNT] = {
        [ORDER_WRITE] = REPLY_13_VALUE, [ORDER_WRITES] = REPLY_13_COUNT,
        [ORDER_CLEAR] = REPLY_13_CLEAR_VALUE
    };
    const uint8_t *bytes = call->part[PART_BYTES];
    size_t n = call->part_n[PART_BYTES];
    met(&reply[REPLY_13_ECHO_SHORT], n < 8);
    met(&reply[REPLY_13_ECHO_LONG], n > 8 && begins_as_asked(call, bytes));
    if (n != 8)
        return;
    bool same_address = get16(bytes + 2, 0) == call->asked.address;
    bool same_word = get16(bytes + 2, 1) == word_of(call);
    met(&reply[REPLY_13_ADDRESS], !same_address && same_word);
    met(&reply[other_word[call->asked.order]], same_address && !same_word);
}

static void count_bad_body(uint64_t *reply, const struct call *call)
{
    uint8_t function = call->part[PART_BYTES][1];
    met(&reply[REPLY_13_OF_100], call->part_n[PART_BYTES] == LONGEST);
    if ((function & ERROR_BIT) != 0) {
        count_bad_error(reply, call);
        return;
    }
    met(&reply[REPLY_13_CODE_UNMARKED],
        number_with(call, 1, function | ERROR_BIT) == NUMBER_DONE);
    if (reads(call))
        count_bad_values(reply, call);
    else
        count_bad_echo(reply, call);
}

static void count_reply(uint64_t *reply, const struct call *call, const struct outcome *outcome)
{
    switch (outcome->number) {
    case NUMBER_DONE: count_read(reply, call, outcome); break;
    case NUMBER_BUFFER:
        met(&reply[REPLY_5_BEFORE_10],
            number_of(call, call->part[PART_BYTES], call->part_n[PART_BYTES]) != NUMBER_DONE);
        break;
    case NUMBER_REPLY_DAMAGED: count_damaged(reply, call); break;
    case NUMBER_REPLY_STATION: count_other_station(reply, call); break;
    case NUMBER_REPLY_FUNCTION: count_other_function(reply, call); break;
    case NUMBER_REPLY_BODY: count_bad_body(reply, call); break;
    default: break;
    }
}

void count_orders(struct counts *counts, const struct call *call, const struct outcome *outcome)
{
    if (call->sort != CALL_QUERY && call->sort != CALL_REPLY)
        return;
    uint64_t *order = counts->order[call->sort == CALL_QUERY ? 0 : 1];
    if (outcome->number == NUMBER_NO_FRAME)
        count_refused(order, call);
    if (what_lacks(call) != 0)
        return;
    if (outcome->number != NUMBER_BUFFER)
        count_taken(order, call);
    if (call->sort == CALL_REPLY)
        count_reply(counts->reply, call, outcome);
}

/* ---- Counting what orders come to ---- */

/* Of a read or record order that does not go with the record area. */
static void count_stray(uint64_t *asked, const struct call *reply, const struct call *answer,
                        const struct outcome *outcome)
{
    bool at_record = starts_at_record(answer);
    bool taken = outcome->number == NUMBER_DONE && outcome->error == 0;
    bool refused = outcome->number == NUMBER_REPLY_BODY;
    if (reply->asked.order == ORDER_READ) {
        met(&asked[ASKED_READ_OF_RECORDS], outcome->error == 3);
        met(&asked[ASKED_READ_OF_ONE_RECORD], refused);
        met(&asked[ASKED_READ_OF_ONE_WORD], taken);
    } else {
        met(&asked[ASKED_RECORD_OTHER_WORDS], at_record && refused);
        met(&asked[ASKED_RECORD_ELSEWHERE], !at_record && refused);
        met(&asked[ASKED_RECORD_ONE_WORD], !at_record && taken);
    }
}

void count_asked(struct counts *counts, const struct call *reply, const struct call *answer,
                 const struct outcome *outcome)
{
    if (strays(reply, answer))
        count_stray(counts->asked_met, reply, answer, outcome);
    else if (outcome->number == NUMBER_DONE && outcome->error < ASKED_END_COUNT)
        counts->asked[reply->asked.order][ASKED_DONE + outcome->error]++;
}
