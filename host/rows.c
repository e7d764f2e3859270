/* Rows of cases through the archive. The rows are lines of standard input, as crates/cases/src/main.rt says; four signs are
 * added, for the check value, for why and for records:
 *   C bytes value name            the check value of the bytes
 *   Y frame reason address name   the reason for a frame without its check, which is put behind it, and the address told; both hexadecimal.
 *                                 With reason 0A the side stands behind the address; with any other it is 0
 *   Z frame reason address name   the same for a frame as it is
 *   + bytes                       adds a record to the ring, which is empty at first
 * The file that is named first gets a line for each row, the same that the program cases writes. The second word says what the rows are. */
#include "calls.h"

#include "cedarskein.h"
#include "cedarskein_sheets.h"
#include "expect.h"

#include <stdio.h>
#include <string.h>

#define LONGEST_LINE 4096

static struct meter meter;
static FILE *lines;
static unsigned rows;

static int digit_value(char c)
{
    if ('0' <= c && c <= '9')
        return c - '0';
    if ('A' <= c && c <= 'F')
        return c - 'A' + 10;
    return -1;
}

/* Takes the field at *line apart into bytes, and leaves *line behind the space that ends it. */
static size_t field(const char **line, uint8_t *into, size_t room)
{
    size_t n = 0;
    const char *at = *line;
    while (n < room && digit_value(at[0]) >= 0 && digit_value(at[1]) >= 0) {
        into[n++] = (uint8_t)(16 * digit_value(at[0]) + digit_value(at[1]));
        at += 2;
    }
    *line = *at == ' ' ? at + 1 : at;
    return n;
}

static uint16_t word_field(const char **line)
{
    uint8_t bytes[2] = { 0, 0 };
    field(line, bytes, sizeof bytes);
    return word_at(bytes, 0);
}

static void say_verdict(int good)
{
    rows++;
    expect(good, "the row");
    fprintf(lines, ", %s\n", good ? "ok" : "WRONG");
}

static void say_bytes(const uint8_t *bytes, size_t n)
{
    size_t i;
    if (n == 0)
        fprintf(lines, " silence");
    for (i = 0; i < n; i++)
        fprintf(lines, " %02X", bytes[i]);
}

static void compare(const char *name, uint16_t expected, uint16_t got)
{
    fprintf(lines, "%s: expected %04X, got %04X", name, expected, got);
    say_verdict(expected == got);
}

static void start(const uint8_t *sheet, size_t n)
{
    meter_fresh(&meter, sheet, n, rows % LENT_SHIFTS);
}

static void start_made_up(const char *line)
{
    uint8_t sheet[CEDARSKEIN_LONGEST_SHEET];
    start(sheet, field(&line, sheet, sizeof sheet));
}

/* A bank of another size: the front of it, or noise behind it. */
static void resize(const char *line)
{
    lent_resize(&meter.bank, word_field(&line));
}

static void put(const char *line)
{
    uint16_t place = word_field(&line);
    set_word(meter.bank.bytes, place, word_field(&line));
}

static void post(const char *line)
{
    uint16_t address = word_field(&line);
    uint8_t words[64];
    size_t n = field(&line, words, sizeof words);
    lend_copy(&meter.words, words, n, rows % LENT_SHIFTS);
    call_post(&meter, address);
}

static void add(const char *line)
{
    uint8_t record[94];
    size_t n = field(&line, record, sizeof record);
    lend_copy(&meter.record, record, n, rows % LENT_SHIFTS);
    expect_number(CEDARSKEIN_DONE, call_add_record(&meter), "add_record");
}

static int as_expected(uint32_t number, const uint8_t *expected, size_t n)
{
    if (n == 0)
        return number == CEDARSKEIN_SILENCE;
    return number == CEDARSKEIN_DONE && meter.length == n + 2 && memcmp(meter.out.bytes, expected, n) == 0;
}

/* A frame and its reply, without their checks unless the frame is whole. */
static void ask(const char *line, int whole)
{
    uint8_t frame[130], expected[128];
    size_t n = field(&line, frame, 128);
    size_t expected_n = field(&line, expected, sizeof expected);
    uint32_t number;
    if (whole)
        lend_copy(&meter.frame, frame, n, rows % LENT_SHIFTS);
    else
        meter_frame(&meter, frame, n + 2, rows % LENT_SHIFTS);
    lend(&meter.out, CEDARSKEIN_LEAST_OUT, rows % LENT_SHIFTS);
    number = call_answer(&meter);
    fprintf(lines, "%s: expected", line);
    say_bytes(expected, expected_n);
    fprintf(lines, ", got");
    say_bytes(meter.out.bytes, meter.length < 2 ? 0 : meter.length - 2);
    say_verdict(as_expected(number, expected, expected_n));
}

/* A field as one number, upper byte first. */
static uint32_t number_field(const char **line)
{
    uint8_t bytes[4];
    size_t n = field(line, bytes, sizeof bytes), i;
    uint32_t value = 0;
    for (i = 0; i < n; i++)
        value = 256 * value + bytes[i];
    return value;
}

static void ask_why(const char *line, int whole)
{
    uint8_t frame[130];
    size_t n = field(&line, frame, 128);
    uint32_t reason = number_field(&line), address = number_field(&line);
    uint32_t side = reason == CEDARSKEIN_ITEM ? number_field(&line) : CEDARSKEIN_NO_SIDE;
    uint32_t number;
    if (whole)
        lend_copy(&meter.frame, frame, n, rows % LENT_SHIFTS);
    else
        meter_frame(&meter, frame, n + 2, rows % LENT_SHIFTS);
    number = call_why(&meter);
    fprintf(lines, "%s: expected reason %lu at %04lX, side %lu, got %lu at %04lX, side %lu", line, (unsigned long)reason,
            (unsigned long)address, (unsigned long)side, (unsigned long)meter.reason, (unsigned long)meter.address,
            (unsigned long)meter.side);
    say_verdict(number == CEDARSKEIN_DONE && meter.reason == reason && meter.address == address && meter.side == side);
}

static void held(const char *line)
{
    uint16_t place = word_field(&line);
    uint16_t word = word_field(&line);
    compare(line, word, word_at(meter.bank.bytes, place));
}

static void number(const char *line)
{
    uint8_t frame[130];
    uint16_t expected = word_field(&line);
    uint16_t size = word_field(&line);
    size_t n = field(&line, frame, 128);
    meter_frame(&meter, frame, n + 2, rows % LENT_SHIFTS);
    lend(&meter.out, size, rows % LENT_SHIFTS);
    compare(line, expected, (uint16_t)call_answer(&meter));
}

static void check_value(const char *line)
{
    uint8_t bytes[128];
    size_t n = field(&line, bytes, sizeof bytes);
    uint16_t value = word_field(&line);
    compare(line, value, cedarskein_check_value(bytes, n));
}

static void run(char letter, const char *line)
{
    switch (letter) {
    case 'U': start(cedarskein_ux_sheet, sizeof cedarskein_ux_sheet); break;
    case 'A': start(cedarskein_aswe_40_sheet, sizeof cedarskein_aswe_40_sheet); break;
    case 'S': start_made_up(line); break;
    case 'F': call_bank_fresh(&meter); break;
    case 'B': resize(line); break;
    case 'P': put(line); break;
    case 'T': post(line); break;
    case '+': add(line); break;
    case 'Q': ask(line, 0); break;
    case 'W': ask(line, 1); break;
    case 'H': held(line); break;
    case 'N': number(line); break;
    case 'C': check_value(line); break;
    case 'Y': ask_why(line, 0); break;
    case 'Z': ask_why(line, 1); break;
    case '#': break;
    default: fprintf(lines, "no such letter: %c", letter); say_verdict(0);
    }
}

static void run_all(void)
{
    char line[LONGEST_LINE];
    while (fgets(line, sizeof line, stdin) != NULL) {
        line[strcspn(line, "\n")] = '\0';
        at_case("%s", line);
        run(line[0], line[0] != '\0' && line[1] == ' ' ? line + 2 : line + 1);
    }
}

int main(int count, char **words)
{
    char what[200];
    if (count != 3 || (lines = fopen(words[1], "w")) == NULL)
        return 2;
    run_all();
    fclose(lines);
    expect(rows != 0, "there are rows");
    snprintf(what, sizeof what, "%s, %u rows", words[2], rows);
    return told(what);
}
