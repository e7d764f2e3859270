/* Why a frame gets silence or an error, in words. */
#include "reasons.h"

#include <stdio.h>

#include "frame.h"
#include "registers.h"

enum { LAST_ADDRESS = 0xFFFF };
enum { BAD_FUNCTION = 1, BAD_ADDRESS = 2, BAD_VALUE = 3 };

/* The bits that the halves of a pair have in its value. */
#define UPPER_HALF UINT32_C(0xFFFF0000)
#define LOWER_HALF UINT32_C(0x0000FFFF)

uint32_t ask_reason(struct reason *reason, const struct meter *before, const uint8_t *frame, size_t n)
{
    reason->meter = before;
    reason->frame = frame;
    reason->n = n;
    return cedarskein_why(before->sheet, before->sheet_n, before->bank, before->bank_n, before->ring, before->ring_n, frame, n,
                          &reason->number, &reason->address, &reason->side);
}

static void print_address(const struct meter *meter, unsigned address)
{
    struct register_row row = register_at(meter, address);
    printf("%04X", address);
    if (row.name)
        printf(", %s", row.name);
}

/* The same at the front of a sentence: a name is set off on both sides. */
static void begin_with_address(const struct meter *meter, unsigned address)
{
    print_address(meter, address);
    printf(register_at(meter, address).name ? ", " : " ");
}

void print_written_only(const struct meter *meter, unsigned address)
{
    begin_with_address(meter, address);
    printf("can be written but not read");
}

static void print_bytes(size_t n)
{
    printf("the frame has %zu byte%s", n, n == 1 ? "" : "s");
}

static void tell_too_short(const struct reason *reason)
{
    print_bytes(reason->n);
    printf("; the shortest has %d", LEAST_FRAME);
}

/* How many there are is not said: a line need not keep more than it takes to see that they are too many. */
static void tell_too_long(const struct reason *reason)
{
    (void)reason;
    printf("the frame has over %d bytes; the longest has %d", CEDARSKEIN_LONGEST_FRAME, CEDARSKEIN_LONGEST_FRAME);
}

static void tell_check(const struct reason *reason)
{
    const uint8_t *end = reason->frame + reason->n - CHECK_BYTES;
    uint16_t value = cedarskein_check_value(reason->frame, reason->n - CHECK_BYTES);
    printf("the check does not agree: the frame ends in %02X %02X, its other bytes give %02X %02X", end[0], end[1], value & 0xFF, value >> 8);
}

/* A station that no meter has is told apart: whoever sends there need not look for the meter that it is meant for. */
static void tell_station(const struct reason *reason)
{
    unsigned station = reason->frame[STATION_BYTE];
    printf("the frame is for station %u", station);
    if (station == BROADCAST)
        printf(", the broadcast, which is neither answered nor acted on");
    else if (station > LAST_STATION)
        printf(", which no meter has: stations are %d to %d", FIRST_STATION, LAST_STATION);
    printf("; this meter is station %u", station_of(reason->meter));
}

static void tell_function(const struct reason *reason)
{
    static const uint8_t functions[] = { READ, CLEAR, WRITE, WRITE_SEVERAL };
    const char *between = " ";
    printf("the frame has function %02X; this meter takes", reason->frame[FUNCTION_BYTE]);
    for (size_t k = 0; k < sizeof functions; k++)
        if (allows_function(reason->meter, functions[k])) {
            printf("%s%02X", between, functions[k]);
            between = ", ";
        }
    if (*between == ' ')
        printf(" none");
}

static void tell_body_length(const struct reason *reason)
{
    unsigned function = reason->frame[FUNCTION_BYTE];
    print_bytes(reason->n);
    if (function != WRITE_SEVERAL)
        printf("; with function %02X it has %d", function, PLAIN_FRAME);
    else if (reason->n < BARE_WRITE_SEVERAL)
        printf("; with function %02X it has %d or more", function, BARE_WRITE_SEVERAL);
    else
        printf("; with function %02X and a byte count of %u it has %u", function, reason->frame[BYTE_COUNT_BYTE],
               BARE_WRITE_SEVERAL + reason->frame[BYTE_COUNT_BYTE]);
}

/* A read that starts in the history has rules of its own. It has its length by then. */
static int reads_record(const struct reason *reason)
{
    return reason->frame[FUNCTION_BYTE] == READ && lies_in_history(reason->meter, run_of(reason->frame).start);
}

static void tell_count(const struct reason *reason)
{
    unsigned count = word_at(reason->frame, COUNT_WORD);
    if (reads_record(reason))
        printf("a history record is read one at a time, with a count of 1; the frame has a count of %u", count);
    else if (reason->frame[FUNCTION_BYTE] == READ)
        printf("the frame reads %u registers; a read is of 1 to %d", count, MOST_READ);
    else if (count == 0)
        printf("the frame writes 0 registers; a write is of 1 to %d", (CEDARSKEIN_LONGEST_FRAME - BARE_WRITE_SEVERAL) / 2);
    else
        printf("the frame has a byte count of %u; %u register%s %u bytes", reason->frame[BYTE_COUNT_BYTE], count, count == 1 ? " has" : "s have",
               2 * count);
}

static void tell_clear_elsewhere(const struct reason *reason)
{
    printf("a clear goes to ");
    print_address(reason->meter, clear_address(reason->meter));
    printf("; this one is for %04X", (unsigned)reason->address);
}

/* The number of the record that a read asks for. The newest one is 1. */
static unsigned record_asked(const struct reason *reason)
{
    return run_of(reason->frame).start - history_of(reason->meter).first + 1;
}

static void tell_no_record(const struct reason *reason)
{
    unsigned stored = records_stored(reason->meter);
    printf("record %u is asked for, at %04X; ", record_asked(reason), (unsigned)reason->address);
    if (stored == 0)
        printf("none is stored yet");
    else
        printf("%u %s stored", stored, stored == 1 ? "is" : "are");
}

static void tell_closed_history(const struct reason *reason)
{
    if (reason->frame[FUNCTION_BYTE] == READ)
        printf("the run comes from outside and reaches the history at %04X, whose records are read one at a time", (unsigned)reason->address);
    else
        printf("%04X is a history record, which can only be read", (unsigned)reason->address);
}

/* The first address of a run that is not open to it. */
static void tell_closed(const struct reason *reason)
{
    const struct meter *meter = reason->meter;
    unsigned address = reason->address;
    if (lies_in_history(meter, address)) {
        tell_closed_history(reason);
    } else if (access_at(meter, address) == WRITE_ONLY_AREA) {
        print_written_only(meter, address);
    } else if (access_at(meter, address) == READ_ONLY_AREA) {
        begin_with_address(meter, address);
        printf("can only be read");
    } else if (allows_function(meter, CLEAR) && address == clear_address(meter)) {
        begin_with_address(meter, address);
        printf("takes a clear, function %02X, and nothing else", CLEAR);
    } else if (address > LAST_ADDRESS) {
        printf("there is no address above %04X", LAST_ADDRESS);
    } else {
        printf("this meter has no register at %04X", address);
    }
}

static void tell_address(const struct reason *reason)
{
    struct run run = run_of(reason->frame);
    if (reason->frame[FUNCTION_BYTE] == CLEAR) {
        tell_clear_elsewhere(reason);
        return;
    }
    if (reads_record(reason)) {
        tell_no_record(reason);
        return;
    }
    tell_closed(reason);
    if (run.count > 1)
        printf("; the frame is for %u registers from %04X on", run.count, run.start);
}

static void tell_clear_value(const struct reason *reason)
{
    printf("the clear has the value %04X; it takes 0000 alone", word_at(reason->frame, VALUE_WORD));
}

/* A value as the words hold it, as people read it. */
static long number_of(const struct item *item, uint32_t value)
{
    return item->kind == SIGNED_ITEM && value >= 0x8000 ? (long)value - 0x10000 : (long)value;
}

/* The other way round. */
static uint32_t value_of_number(const struct item *item, int64_t number)
{
    return item->kind == PAIR_ITEM ? (uint32_t)number : (uint16_t)number;
}

/* Whether a step of the register is not one of its unit, so that the number alone does not tell the value. */
static int counts_otherwise(const struct register_row *row)
{
    return row->name && (row->decimals > 0 || row->step != 1);
}

static void print_unit_of(const struct register_row *row)
{
    if (*row->unit && !row->values)
        printf(" %s", row->unit);
}

/* A bad value has no word of its own: where the values are words, the number is all that there is of it. */
static void print_item_value(const struct register_row *row, const struct item *item, uint32_t value, int has_word)
{
    printf("%ld", number_of(item, value));
    if (counts_otherwise(row) || has_word) {
        printf(" (");
        print_value(row, value);
        printf(")");
    } else {
        print_unit_of(row);
    }
}

static void print_item_range(const struct register_row *row, const struct item *item)
{
    long low = number_of(item, item->low), high = number_of(item, item->high);
    printf("%ld to %ld", low, high);
    if (counts_otherwise(row) || row->values) {
        printf(" (");
        print_range(row, low, high);
        printf(")");
    } else {
        print_unit_of(row);
    }
}

/* The bits of an item's value that the frame does not send: those of one half of a pair, or none. */
static uint32_t bits_not_sent(const struct reason *reason, const struct item *item)
{
    struct run run = run_of(reason->frame);
    unsigned second = reason->address + 1;
    if (item->kind != PAIR_ITEM)
        return 0;
    if (run.start == second)
        return UPPER_HALF;
    return run.start + run.count == second ? LOWER_HALF : 0;
}

/* Half of a pair is judged with the half that is in the meter. */
static void tell_other_half(const struct reason *reason, const struct item *item)
{
    uint32_t not_sent = bits_not_sent(reason, item);
    unsigned other = reason->address + (not_sent == LOWER_HALF ? 1 : 0);
    if (not_sent != 0)
        printf(", with %04X still at %04X", word_at(reason->meter->bank, place_of(reason->meter, other)), other);
}

/* Whether the item takes a number, and the same frame with other words in it could bring it there. Half of a pair cannot where the number needs another
   word in the half that is not sent: a tenth of the word that is sent then makes no tenth of the value, and to speak of one would lead astray. */
static int could_be_sent(const struct reason *reason, const struct item *item, int64_t number)
{
    uint32_t other_bits = value_of_number(item, number) ^ item_value(reason->meter, item);
    return number_of(item, item->low) <= number && number <= number_of(item, item->high) && (other_bits & bits_not_sent(reason, item)) == 0;
}

/* Values are often off by a factor of ten. Above zero one that is too high can have its tenth in the range, and one that is too low ten times it; below
   zero it is the other way round. It is never both. Of a preset, which holds some digits of a total, it is not told: a tenth of them is another total's. */
static void tell_factor_of_ten(const struct reason *reason, const struct register_row *row, const struct item *item, int64_t number)
{
    int is_tenth = number % 10 == 0 && could_be_sent(reason, item, number / 10);
    int64_t meant = is_tenth ? number / 10 : 10 * number;
    if (access_at(reason->meter, reason->address) == WRITE_ONLY_AREA || !could_be_sent(reason, item, meant))
        return;
    printf(is_tenth ? "; a tenth of it, " : "; ten times it, ");
    print_item_value(row, item, value_of_number(item, meant), row->values != NULL);
    printf(", would be taken");
}

static void tell_item(const struct reason *reason)
{
    const struct meter *meter = reason->meter;
    struct item item = item_from(meter, place_of(meter, reason->address));
    struct register_row row = register_at(meter, reason->address);
    struct meter sent = with_all_stored(meter, reason->frame);
    uint32_t value = item_value(&sent, &item);
    printf("the item at ");
    begin_with_address(meter, reason->address);
    printf("would be too %s: it takes ", reason->side == CEDARSKEIN_TOO_LOW ? "low" : "high");
    print_item_range(&row, &item);
    printf(", this would be ");
    print_item_value(&row, &item, value, 0);
    tell_other_half(reason, &item);
    tell_factor_of_ten(reason, &row, &item, number_of(&item, value));
}

/* The registers of a run: the first, and the last where that is another one. */
static void print_run(const struct meter *meter, struct run run)
{
    unsigned last = run.start + run.count - 1;
    struct register_row row = register_at(meter, run.start);
    if (run.count > 1 && row.name && last < row.address + row.words) {
        printf("%04X to %04X, %s", run.start, last, row.name);
        return;
    }
    if (run.count > 1) {
        begin_with_address(meter, run.start);
        printf("to ");
    }
    print_address(meter, last);
}

/* No reason: what the frame does. */
static void tell_deed(const struct reason *reason)
{
    if (reason->frame[FUNCTION_BYTE] == CLEAR) {
        printf("the frame clears the alarm mark");
        return;
    }
    if (reads_record(reason)) {
        printf("the frame reads record %u of the %u stored", record_asked(reason), records_stored(reason->meter));
        return;
    }
    printf(reason->frame[FUNCTION_BYTE] == READ ? "the frame reads " : "the frame writes ");
    print_run(reason->meter, run_of(reason->frame));
}

void print_reason(const struct reason *reason)
{
    static void (*const tellers[])(const struct reason *) = {
        [CEDARSKEIN_NO_REASON] = tell_deed,          [CEDARSKEIN_TOO_SHORT] = tell_too_short, [CEDARSKEIN_TOO_LONG] = tell_too_long,
        [CEDARSKEIN_CHECK] = tell_check,             [CEDARSKEIN_STATION] = tell_station,     [CEDARSKEIN_FUNCTION] = tell_function,
        [CEDARSKEIN_BODY_LENGTH] = tell_body_length, [CEDARSKEIN_COUNT] = tell_count,         [CEDARSKEIN_ADDRESS] = tell_address,
        [CEDARSKEIN_CLEAR_VALUE] = tell_clear_value, [CEDARSKEIN_ITEM] = tell_item,
    };
    tellers[reason->number](reason);
}

/* A count that is too high is an address too far, but in the history, where any other than 1 is a bad one. */
static int reads_too_many(const struct reason *reason)
{
    return word_at(reason->frame, COUNT_WORD) > MOST_READ && reason->frame[FUNCTION_BYTE] == READ && !reads_record(reason);
}

/* The code of the error that a reason goes with, by document 01; 0 where it goes with silence. */
static unsigned error_of(const struct reason *reason)
{
    switch (reason->number) {
    case CEDARSKEIN_FUNCTION: return BAD_FUNCTION;
    case CEDARSKEIN_COUNT: return reads_too_many(reason) ? BAD_ADDRESS : BAD_VALUE;
    case CEDARSKEIN_ADDRESS: return BAD_ADDRESS;
    case CEDARSKEIN_CLEAR_VALUE:
    case CEDARSKEIN_ITEM: return BAD_VALUE;
    default: return 0;
    }
}

void print_sentence(const struct reason *reason)
{
    unsigned error = error_of(reason);
    if (reason->number == CEDARSKEIN_NO_REASON)
        printf("A reply goes out: ");
    else if (error == 0)
        printf("Silence: ");
    else
        printf("Error %02X: ", error);
    print_reason(reason);
    printf("\n");
}
