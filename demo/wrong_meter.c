/* Six meters that are wrong, so that each step of interop.py is seen to fail: three break document 01, one request W3 of document 02, and two W7. The
   linker puts these functions in place of the library's and the line's (--wrap): one meter is silent always, one answers whatever it hears, and both
   leave their link behind. The third is good, but that it does what is sent to the stations that no meter has, 0 and 248 to 255, and is silent about
   it. The fourth is good but for its history: it counts the records from the wrong end, and answers whatever touches them as if it were a read of
   one. The others are good but for the registers that are only written: the fifth reads them out, and the sixth takes no write of them. */
#include <string.h>

#include "cedarskein.h"
#include "frame.h"
#include "line.h"

enum { SILENT, HASTY, OBEDIENT, MUDDLED, TALKATIVE, CLOSED };

/* What the library is lent, in one piece. */
struct call {
    const uint8_t *sheet;
    size_t sheet_n;
    uint8_t *bank;
    size_t bank_n;
    const uint8_t *ring;
    size_t ring_n;
    uint8_t *out;
    size_t out_n;
    uint32_t *length, *rate;
};

uint32_t __real_cedarskein_answer(const uint8_t *sheet, size_t sheet_n, uint8_t *bank, size_t bank_n, const uint8_t *ring, size_t ring_n,
                                  const uint8_t *frame, size_t frame_n, uint8_t *out, size_t out_n, uint32_t *length, uint32_t *rate);
uint32_t __wrap_cedarskein_answer(const uint8_t *sheet, size_t sheet_n, uint8_t *bank, size_t bank_n, const uint8_t *ring, size_t ring_n,
                                  const uint8_t *frame, size_t frame_n, uint8_t *out, size_t out_n, uint32_t *length, uint32_t *rate);
int __wrap_master_sends_at(const struct line *line, unsigned rate);
int __wrap_unlink(const char *path);

int __wrap_unlink(const char *path)
{
    (void)path;
    return 0;
}

int __wrap_master_sends_at(const struct line *line, unsigned rate)
{
    (void)line;
    (void)rate;
    return 1;
}

static uint32_t really(const struct call *call, const uint8_t *frame, size_t n)
{
    return __real_cedarskein_answer(call->sheet, call->sheet_n, call->bank, call->bank_n, call->ring, call->ring_n, frame, n, call->out, call->out_n,
                                    call->length, call->rate);
}

/* A station and a check are the least that can be sent back. */
enum { LEAST_SIGNED = 3 };

static void sign(uint8_t *frame, size_t n, uint8_t station)
{
    frame[0] = station;
    uint16_t check = cedarskein_check_value(frame, n - 2);
    frame[n - 2] = (uint8_t)check;
    frame[n - 1] = (uint8_t)(check >> 8);
}

static int is_for_no_meter(const uint8_t *frame)
{
    return frame[STATION_BYTE] == BROADCAST || frame[STATION_BYTE] > LAST_STATION;
}

/* The frame as if it were sent to the meter's own station. */
static size_t heard_as_own(const struct call *call, uint8_t *heard, const uint8_t *frame, size_t n)
{
    size_t station = 2 * ((size_t)call->sheet[16] << 8 | call->sheet[17]) + 1; /* the lower byte at the place that word 8 of the sheet names */
    size_t kept = n < CEDARSKEIN_LONGEST_FRAME ? n : CEDARSKEIN_LONGEST_FRAME;
    memcpy(heard, frame, kept);
    if (kept >= LEAST_SIGNED)
        sign(heard, kept, call->bank[station]);
    return kept;
}

static uint32_t obedient(const struct call *call, const uint8_t *frame, size_t n)
{
    uint8_t heard[CEDARSKEIN_LONGEST_FRAME];
    if (n < LEAST_SIGNED || !is_for_no_meter(frame))
        return really(call, frame, n);
    size_t kept = heard_as_own(call, heard, frame, n);
    really(call, heard, kept);
    return CEDARSKEIN_SILENCE;
}

static uint32_t hasty(const struct call *call, const uint8_t *frame, size_t n)
{
    uint8_t heard[CEDARSKEIN_LONGEST_FRAME];
    size_t kept = heard_as_own(call, heard, frame, n);
    if (kept < LEAST_SIGNED)
        return CEDARSKEIN_SILENCE;
    if (really(call, heard, kept) != CEDARSKEIN_DONE) {
        memcpy(call->out, heard, kept);
        *call->length = (uint32_t)kept;
    }
    sign(call->out, *call->length, frame[0]);
    return CEDARSKEIN_DONE;
}

/* The reply to a read of the record at a place, whichever that is. */
static void reply_with_record(const struct call *call, const struct record_area *area, unsigned place, uint8_t station)
{
    size_t n = 2 * (size_t)area->words;
    call->out[1] = READ;
    call->out[2] = (uint8_t)n;
    memcpy(call->out + 3, call->ring + 2 * (2 + (size_t)place * area->words), n);
    *call->length = (uint32_t)n + 5;
    sign(call->out, *call->length, station);
}

/* A frame that the real one answers, and that touches the history with its first address or its last. */
static uint32_t muddled(const struct call *call, const uint8_t *frame, size_t n)
{
    static struct meter meter;
    uint32_t number = really(call, frame, n);
    memcpy(meter.sheet, call->sheet, call->sheet_n);
    if (number != CEDARSKEIN_DONE || n < PLAIN_FRAME || !has_history(&meter))
        return number;
    struct record_area area = history_of(&meter);
    struct run run = run_of(frame);
    if (lies_in_history(&meter, run.start) || (frame[FUNCTION_BYTE] == READ && lies_in_history(&meter, run.start + run.count - 1)))
        reply_with_record(call, &area, (run.start + area.records - area.first) % area.records, frame[STATION_BYTE]);
    return number;
}

/* What touches registers that are only written, and nothing that is no register. The meter has the sheet and the bank of the call. */
static int touches_written_only(const struct meter *meter, const uint8_t *frame, size_t n)
{
    int touched = 0;
    if (n < PLAIN_FRAME || frame[FUNCTION_BYTE] == CLEAR)
        return 0;
    struct run run = run_of(frame);
    for (unsigned k = 0; k < run.count; k++) {
        if (access_at(meter, run.start + k) == NO_AREA)
            return 0;
        touched |= access_at(meter, run.start + k) == WRITE_ONLY_AREA;
    }
    return touched;
}

/* The reply to a read, whatever may be read. */
static void read_out(const struct call *call, const struct meter *meter, const uint8_t *frame)
{
    struct run run = run_of(frame);
    call->out[1] = READ;
    call->out[2] = (uint8_t)(2 * run.count);
    for (unsigned k = 0; k < run.count; k++)
        memcpy(call->out + 3 + 2 * (size_t)k, meter->bank + 2 * (size_t)place_of(meter, run.start + k), 2);
    *call->length = 2 * run.count + 5;
    sign(call->out, *call->length, frame[STATION_BYTE]);
}

static void refuse_address(const struct call *call, const uint8_t *frame)
{
    call->out[1] = (uint8_t)(frame[FUNCTION_BYTE] | ERROR_BIT);
    call->out[2] = 2;
    *call->length = 5;
    sign(call->out, *call->length, frame[STATION_BYTE]);
}

/* The fifth and the sixth are the real one, but that the one reads out what it does not, and the other takes a write back that it has done. */
static uint32_t wrong_about_written_only(const struct call *call, const uint8_t *frame, size_t n, int reads_out)
{
    static struct meter before;
    memcpy(before.sheet, call->sheet, call->sheet_n);
    memcpy(before.bank, call->bank, call->bank_n);
    uint32_t number = really(call, frame, n);
    if (number != CEDARSKEIN_DONE || !touches_written_only(&before, frame, n))
        return number;
    if (frame[FUNCTION_BYTE] == READ && reads_out) {
        read_out(call, &before, frame);
    } else if (frame[FUNCTION_BYTE] != READ && !reads_out) {
        memcpy(call->bank, before.bank, call->bank_n);
        refuse_address(call, frame);
    }
    return number;
}

uint32_t __wrap_cedarskein_answer(const uint8_t *sheet, size_t sheet_n, uint8_t *bank, size_t bank_n, const uint8_t *ring, size_t ring_n,
                                  const uint8_t *frame, size_t frame_n, uint8_t *out, size_t out_n, uint32_t *length, uint32_t *rate)
{
    struct call call = { sheet, sheet_n, bank, bank_n, ring, ring_n, out, out_n, length, rate };
    *length = *rate = 0;
    switch (WRONG) {
    case HASTY: return hasty(&call, frame, frame_n);
    case OBEDIENT: return obedient(&call, frame, frame_n);
    case MUDDLED: return muddled(&call, frame, frame_n);
    case TALKATIVE:
    case CLOSED: return wrong_about_written_only(&call, frame, frame_n, WRONG == TALKATIVE);
    default: return CEDARSKEIN_SILENCE;
    }
}
