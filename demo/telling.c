/* What the simulated meter says on the screen of each frame: what it was, what became of it, and the registers it was about. And how words that go over
   the line are told at either end. */
#include "telling.h"

#include <stdio.h>
#include <string.h>

#include "frame.h"
#include "reasons.h"
#include "registers.h"

const char *bit_rate(unsigned rate)
{
    return rate ? "9600" : "4800";
}

static const char *form_of(uint8_t function)
{
    switch (function) {
    case READ: return "read %04X count %u";
    case CLEAR: return "clear %04X value %04X";
    case WRITE: return "write %04X value %04X";
    case WRITE_SEVERAL: return "write %04X count %u";
    default: return NULL;
    }
}

void tell_frame(const uint8_t *frame, size_t n)
{
    char text[64];
    const char *form = n < PLAIN_FRAME ? NULL : form_of(frame[FUNCTION_BYTE]);
    if (form)
        snprintf(text, sizeof text, form, word_at(frame, START_WORD), word_at(frame, COUNT_WORD));
    else
        snprintf(text, sizeof text, n > CEDARSKEIN_LONGEST_FRAME ? "too many bytes" : "%zu bytes", n);
    if (n < 2)
        printf("%-38s", text);
    else
        printf("station %-3u %02X %-23s", frame[0], frame[1], text);
}

/* The reason for what the frame got, asked with the bank as it was before the frame. */
static struct reason reason_of(const struct meter *before, const uint8_t *frame, size_t n)
{
    struct reason reason;
    ask_reason(&reason, before, frame, n);
    return reason;
}

void tell_silence(const struct meter *before, const uint8_t *frame, size_t n)
{
    struct reason reason = reason_of(before, frame, n);
    printf("silence: ");
    print_reason(&reason);
    printf("\n");
}

static int is_error(const uint8_t *reply)
{
    return reply[1] & ERROR_BIT;
}

static void tell_reply(const struct exchange *exchange, const struct reason *reason)
{
    if (!is_error(exchange->reply)) {
        printf("reply of %zu bytes at %s", exchange->reply_n, bit_rate(exchange->rate));
        return;
    }
    printf("error %02X at %s: ", exchange->reply[2], bit_rate(exchange->rate));
    print_reason(reason);
}

static void tell_changes(const struct meter *before, const struct meter *now)
{
    if (mark_of(before) != mark_of(now))
        printf("; the alarm mark was %u, is %u", mark_of(before), mark_of(now));
    if (station_of(before) != station_of(now))
        printf("; from now on station %u", station_of(now));
    if (rate_of(before) != rate_of(now))
        printf("; from now on at %s", bit_rate(rate_of(now)));
}

/* A line of its own for a register, under the frame that it belongs to. */
static void begin_register(const struct register_row *row)
{
    printf("            ");
    print_name(row);
    printf(": ");
}

static void tell_read(const struct meter *now, const struct register_row *row)
{
    begin_register(row);
    print_value(row, value_of(now, row));
    printf("\n");
}

static void tell_written(const struct meter *before, const struct meter *sent, const struct meter *now, const struct register_row *row)
{
    uint64_t old = value_of(before, row), wanted = value_of(sent, row), new = value_of(now, row);
    begin_register(row);
    print_value(row, wanted);
    if (wanted == old) {
        printf(", as it was");
    } else {
        printf(wanted == new ? ", it was " : " was not stored, it is still ");
        print_value(row, old);
    }
    printf(access_at(now, row->address) == WRITE_ONLY_AREA ? "; it cannot be read back\n" : "\n");
}

/* Each register of the run once, also where only some of its words are in it. */
static void tell_registers(const struct meter *before, const struct meter *now, const uint8_t *frame)
{
    struct run run = run_of(frame);
    int is_read = frame[FUNCTION_BYTE] == READ;
    struct meter sent = is_read ? *now : with_all_stored(before, frame);
    unsigned address = run.start;
    while (address < run.start + run.count) {
        struct register_row row = register_at(now, address);
        if (is_read)
            tell_read(now, &row);
        else
            tell_written(before, &sent, now, &row);
        address = row.address + row.words;
    }
}

void tell_record_words(const uint8_t *words, unsigned count)
{
    for (unsigned k = 0; k < count; k++)
        printf(" %04X", word_at(words, k));
    printf("\n");
}

/* The record as it goes out. */
static void tell_record(const struct meter *now, const struct exchange *exchange)
{
    unsigned number = run_of(exchange->frame).start - history_of(now).first + 1;
    printf("            record %u of %u%s:", number, records_stored(now), number == 1 ? ", the newest" : "");
    tell_record_words(exchange->reply + 3, history_of(now).words);
}

/* A frame that was stopped in front of its registers tells of none. A bad item is met among them. */
static int reaches_registers(const uint8_t *frame, const struct reason *reason)
{
    return reason->number == CEDARSKEIN_ITEM || (reason->number == CEDARSKEIN_NO_REASON && frame[FUNCTION_BYTE] != CLEAR);
}

void tell_answer(const struct meter *before, const struct meter *now, const struct exchange *exchange)
{
    struct reason reason = reason_of(before, exchange->frame, exchange->frame_n);
    tell_reply(exchange, &reason);
    tell_changes(before, now);
    if (is_error(exchange->reply) && memcmp(before->bank, now->bank, now->bank_n) == 0)
        printf("; nothing changed");
    printf("\n");
    if (!reaches_registers(exchange->frame, &reason))
        return;
    if (lies_in_history(now, run_of(exchange->frame).start))
        tell_record(now, exchange);
    else
        tell_registers(before, now, exchange->frame);
}

/* Half a pair is no value, and the other half is not here. */
static void tell_part(const struct register_row *row, unsigned address, unsigned word)
{
    printf("            %04X: %04X, a word of ", address, word);
    print_name(row);
    printf("\n");
}

void tell_words(const struct meter *meter, unsigned start, const uint8_t *words, unsigned count)
{
    unsigned at = 0;
    while (at < count) {
        struct register_row row = register_at(meter, start + at);
        if (row.address != start + at || at + row.words > count) {
            tell_part(&row, start + at, word_at(words, at));
            at++;
            continue;
        }
        begin_register(&row);
        print_value(&row, value_in(words + 2 * at, &row));
        printf("\n");
        at += row.words;
    }
}
