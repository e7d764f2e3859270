/* What an order came to, in words. */
#include "asked.h"

#include <stdio.h>
#include <string.h>

#include "frame.h"
#include "reasons.h"
#include "registers.h"
#include "telling.h"

/* How often any order but a preset is sent before it is given up. */
enum { TRIES = 3 };

enum { BAD_FUNCTION = 1, BAD_ADDRESS = 2, BAD_VALUE = 3 };

/* The bytes of an error reply; those of a read's reply besides its words; of any other. */
enum { ERROR_REPLY = 5, BARE_READ_REPLY = 5, ECHO_REPLY = 8 };

static void print_bytes(const uint8_t *bytes, size_t n)
{
    for (size_t k = 0; k < n; k++)
        printf(" %02X", bytes[k]);
    printf("\n");
}

void tell_sent(const struct asked *asked, int number)
{
    printf("try %d  sent", number);
    print_bytes(asked->query, asked->query_n);
}

static void tell_damage(const struct asked *asked)
{
    size_t n = asked->reply_n;
    const uint8_t *end = asked->reply + n - CHECK_BYTES;
    if (n < LEAST_FRAME) {
        printf("it has %zu byte%s; the shortest frame has %d", n, n == 1 ? "" : "s", LEAST_FRAME);
    } else if (n > CEDARSKEIN_LONGEST_FRAME) {
        printf("it has over %d bytes; the longest frame has %d", CEDARSKEIN_LONGEST_FRAME, CEDARSKEIN_LONGEST_FRAME);
    } else {
        uint16_t value = cedarskein_check_value(asked->reply, n - CHECK_BYTES);
        printf("the check does not agree: it ends in %02X %02X, its other bytes give %02X %02X", end[0], end[1], value & 0xFF, value >> 8);
    }
}

/* A read's reply has other words than were asked for, or none at all. */
static void tell_read_body(const struct asked *asked)
{
    size_t words = asked->order->number;
    printf("a reply to this order has %zu bytes, with a byte count of %zu; this one has %zu", BARE_READ_REPLY + 2 * words, 2 * words, asked->reply_n);
    if (asked->reply_n > ERROR_REPLY)
        printf(", with %u", asked->reply[2]);
}

static void tell_body(const struct asked *asked)
{
    uint8_t function = asked->reply[FUNCTION_BYTE];
    printf("its body does not fit: ");
    if (function & ERROR_BIT)
        printf("an error of these meters has one code, 01 to 03");
    else if (function == READ)
        tell_read_body(asked);
    else if (asked->reply_n != ECHO_REPLY)
        printf("a reply to this order has %d bytes; this one has %zu", ECHO_REPLY, asked->reply_n);
    else
        printf("it is for %04X and %04X; the query is for %04X and %04X", word_at(asked->reply, 1), word_at(asked->reply, 2),
               word_at(asked->query, 1), word_at(asked->query, 2));
}

static void tell_refusal(const struct asked *asked)
{
    printf("       refused, number %u: ", (unsigned)asked->number);
    switch (asked->number) {
    case CEDARSKEIN_REPLY_DAMAGED: tell_damage(asked); break;
    case CEDARSKEIN_REPLY_STATION: printf("it comes from station %u", asked->reply[STATION_BYTE]); break;
    case CEDARSKEIN_REPLY_FUNCTION:
        printf("it has function %02X; the query has %02X", asked->reply[FUNCTION_BYTE], asked->query[FUNCTION_BYTE]);
        break;
    default: tell_body(asked); break;
    }
    printf("\n");
}

void tell_came(const struct asked *asked)
{
    printf("       came");
    if (asked->reply_n == 0)
        printf(" nothing within a second\n");
    else
        print_bytes(asked->reply, asked->reply_n);
    if (asked->number != CEDARSKEIN_DONE && asked->number != CEDARSKEIN_SILENCE)
        tell_refusal(asked);
}

static int is_write(const struct order *order)
{
    return order->kind != CEDARSKEIN_READ && order->kind != CEDARSKEIN_RECORD;
}

/* Which record it is, where the sheet has a history there. */
static void tell_record(const struct asked *asked)
{
    unsigned address = asked->order->address;
    if (lies_in_history(asked->meter, address)) {
        unsigned number = address - history_of(asked->meter).first + 1;
        printf("            record %u%s:", number, number == 1 ? ", the newest" : "");
    } else {
        printf("            record at %04X:", address);
    }
    tell_record_words(asked->values, asked->values_n / 2);
}

enum { NOT_WRITTEN_ONLY = 0x10000 };

/* The first address of an order's registers that by its sheet can be written but not read. A read must have registers in front of it: else the meter's
   error has another reason. */
static unsigned written_only(const struct asked *asked)
{
    const struct order *order = asked->order;
    unsigned last = order->address + addresses_behind(order);
    for (unsigned address = order->address; order->kind != CEDARSKEIN_CLEAR && address <= last; address++) {
        unsigned access = access_at(asked->meter, address);
        if (access == WRITE_ONLY_AREA)
            return address;
        if (access == NO_AREA && order->kind == CEDARSKEIN_READ)
            break;
    }
    return NOT_WRITTEN_ONLY;
}

/* Whether an order writes a preset: done twice it may set a total twice. */
static int writes_preset(const struct asked *asked)
{
    return is_write(asked->order) && written_only(asked) != NOT_WRITTEN_ONLY;
}

static void tell_written_only(const struct asked *asked)
{
    printf("by %s ", asked->sheet);
    print_written_only(asked->meter, written_only(asked));
}

/* A record has no names, and a clear no registers. */
static int has_names(const struct asked *asked)
{
    return map_of(asked->meter) != OTHER_MAP && asked->order->kind != CEDARSKEIN_RECORD && asked->order->kind != CEDARSKEIN_CLEAR;
}

/* What was read, or what the meter has said that it wrote. */
static void tell_done(const struct asked *asked)
{
    const struct order *order = asked->order;
    uint8_t value[2];
    store_word(value, 0, order->number);
    printf("Done");
    if (has_names(asked))
        printf(", with the names of %s", asked->sheet);
    printf(order->kind == CEDARSKEIN_CLEAR ? ": the alarm mark is cleared\n" : ":\n");
    switch (order->kind) {
    case CEDARSKEIN_READ: tell_words(asked->meter, order->address, asked->values, asked->values_n / 2); break;
    case CEDARSKEIN_RECORD: tell_record(asked); break;
    case CEDARSKEIN_WRITE: tell_words(asked->meter, order->address, value, 1); break;
    case CEDARSKEIN_WRITES: tell_words(asked->meter, order->address, order->values, (unsigned)order->values_n / 2); break;
    default: break;
    }
    if (writes_preset(asked)) {
        printf("            it cannot be read back: ");
        tell_written_only(asked);
        printf("\n");
    }
}

/* The code is all that the meter tells. For more its bank is needed, which is not here, and for a record its ring: what to type is told. Without a bank
   `make why` judges a fresh one, at whose station another meter's frames meet silence; and it takes no ring with a sheet that has no history. */
static void tell_way_to_reason(const struct asked *asked)
{
    unsigned fresh = station_of(asked->meter);
    printf("            for the reason: make why SHEET=\"%s\" FRAME=\"", asked->sheet);
    for (size_t k = 0; k < asked->query_n; k++)
        printf(k == 0 ? "%02X" : " %02X", asked->query[k]);
    if (asked->order->station == fresh)
        printf("\", with BANK= where the meter's bank is at hand");
    else
        printf("\", with BANK=, the meter's bank: it is needed, since a fresh one is at station %u", fresh);
    if (has_history(asked->meter))
        printf("; with RING= for its history");
    else if (asked->order->kind == CEDARSKEIN_RECORD)
        printf("; with RING= for its history, and its own SHEET=: this one has no history");
    printf("\n");
}

/* A clear elsewhere than at the meter's clear address. A sheet that has none, or this very one, is not this meter's. */
static void tell_clear_address(const struct asked *asked)
{
    unsigned address = asked->order->address;
    printf("%04X is not the meter's clear address; ", address);
    if (allows_function(asked->meter, CLEAR) && clear_address(asked->meter) != address)
        printf("by %s it is %04X", asked->sheet, clear_address(asked->meter));
    else
        printf("that is word 10 of its own sheet, and %s is another's", asked->sheet);
}

int most_tries(const struct asked *asked)
{
    return writes_preset(asked) ? 1 : TRIES;
}

static void print_tries(const struct asked *asked)
{
    int tries = most_tries(asked);
    printf(tries == 1 ? "%d try" : "%d tries", tries);
}

/* The end of a preset's only try, where no good reply came. */
static void tell_preset_unknown(void)
{
    printf(". It may be done all the same. It cannot be read back: look at the meter's total before it is sent again");
}

static void tell_error(const struct asked *asked)
{
    const struct order *order = asked->order;
    printf("Error %02X: ", (unsigned)asked->error);
    if (asked->error == BAD_FUNCTION)
        printf("the meter does not take function %02X", asked->query[FUNCTION_BYTE]);
    else if (asked->error == BAD_VALUE && is_write(order))
        printf("the meter does not take a value of this order");
    else if (asked->error == BAD_VALUE)
        printf("the meter does not take the count of this order");
    else if (order->kind == CEDARSKEIN_RECORD)
        printf("the meter has no record at %04X, or none is stored there yet", (unsigned)order->address);
    else if (order->kind == CEDARSKEIN_CLEAR)
        tell_clear_address(asked);
    else if (order->kind == CEDARSKEIN_READ && written_only(asked) != NOT_WRITTEN_ONLY)
        tell_written_only(asked);
    else
        printf("the meter has no register at an address of this order, or it is not open to function %02X", asked->query[FUNCTION_BYTE]);
    if (asked->error == BAD_VALUE && order->kind == CEDARSKEIN_WRITES)
        printf(writes_preset(asked) ? "; those ahead of it may be stored, and cannot be read back: send them again"
                              : "; those ahead of it may be stored: read them back");
    printf("\n");
    tell_way_to_reason(asked);
}

/* Some adapters for two wires hear what they send themselves. */
static int begins_with_query(const struct asked *asked)
{
    return asked->reply_n >= asked->query_n && memcmp(asked->reply, asked->query, asked->query_n) == 0;
}

/* The words in the body of values that came, where it is one; else 0. */
static unsigned words_that_came(const struct asked *asked)
{
    size_t n = asked->reply_n;
    return n > BARE_READ_REPLY && n % 2 == 1 && asked->reply[2] == n - BARE_READ_REPLY ? asked->reply[2] / 2U : 0;
}

/* A reply of another length than the order's. Where the sheet has records at the address, or what came may be one, it says which order fits. */
static void tell_other_length(const struct asked *asked)
{
    const struct order *order = asked->order;
    if (is_write(order) || asked->reply[FUNCTION_BYTE] & ERROR_BIT)
        return;
    if (lies_in_history(asked->meter, order->address))
        printf("; this sheet's records have %u words: ORDER=\"record %04X %u\"", history_of(asked->meter).words, (unsigned)order->address,
               history_of(asked->meter).words);
    else if (order->kind == CEDARSKEIN_RECORD)
        printf("; the meter's records have another number of words, or it has none there");
    else if (order->number == 1 && words_that_came(asked) > 1)
        printf("; a record? then ORDER=\"record %04X %u\"", (unsigned)order->address, words_that_came(asked));
}

static void tell_refused(const struct asked *asked)
{
    printf("Refused: what came in ");
    print_tries(asked);
    printf(" is no reply to this order");
    if (begins_with_query(asked))
        printf("; it begins with the query: the adapter hears itself. Switch its echo off");
    else if (asked->number == CEDARSKEIN_REPLY_DAMAGED)
        printf("; look at the rate (RATE=%s?), the parity (none) and the wires", bit_rate(!asked->rate));
    else if (asked->number == CEDARSKEIN_REPLY_STATION)
        printf("; another meter or another master is at work on the line");
    else if (asked->number == CEDARSKEIN_REPLY_BODY)
        tell_other_length(asked);
    if (writes_preset(asked))
        tell_preset_unknown();
    printf("\n");
}

static void tell_no_answer(const struct asked *asked)
{
    printf("No answer from station %u at %s in ", (unsigned)asked->order->station, bit_rate(asked->rate));
    print_tries(asked);
    printf("; look at the station (STATION=), the rate (RATE=%s?), the wires (A to A, B to B) and the meter's power", bit_rate(!asked->rate));
    if (writes_preset(asked))
        tell_preset_unknown();
    else if (is_write(asked->order))
        printf(". It may be done all the same, and its replies lost%s",
               asked->order->kind == CEDARSKEIN_CLEAR ? ". It cannot be read back: send it again" : ": read it back");
    printf("\n");
}

void tell_end(const struct asked *asked)
{
    if (asked->number == CEDARSKEIN_SILENCE)
        tell_no_answer(asked);
    else if (asked->number != CEDARSKEIN_DONE)
        tell_refused(asked);
    else if (asked->error != 0)
        tell_error(asked);
    else
        tell_done(asked);
}
