#include "stations_met.h"
#include "frames_made.h"

#include <string.h>

/* ---- Stations in the bytes of a call ---- */

static bool is_station(uint32_t number)
{
    return FIRST_STATION <= number && number <= LAST_STATION;
}

/* The word that the row of the address's item begins at; 0 if there is none. */
static size_t address_row(const uint8_t *sheet, size_t sheet_n)
{
    if (sheet_n < 24)
        return 0;
    size_t row = 12 + 4 * (size_t)get16(sheet, 1);
    while (2 * (row + 6) <= sheet_n && get16(sheet, row + 1) != get16(sheet, 8))
        row += 6;
    return 2 * (row + 6) <= sheet_n ? row : 0;
}

struct range {
    uint32_t low, high;
};

static struct range range_of(const uint8_t *sheet, size_t row)
{
    struct range range = {
        get16(sheet, row + 2) << 16 | get16(sheet, row + 3),
        get16(sheet, row + 4) << 16 | get16(sheet, row + 5)
    };
    return range;
}

/* The place of the address is the sheet's word 8. */
static uint32_t station_of(const struct call *call, const uint8_t *bank)
{
    return get16(bank, get16(call->part[PART_SHEET], 8));
}

static bool frame_is_for_no_meter(const struct call *call)
{
    return call->part_n[PART_BYTES] == 0 || !is_station(call->part[PART_BYTES][0]);
}

static bool has_bank(const struct call *call)
{
    return CALL_BANK_CHECK <= call->sort && call->sort <= CALL_WHY;
}

/* ---- What holds of every call ---- */

static bool range_is_of_stations(const struct call *call)
{
    size_t row = address_row(call->part[PART_SHEET], call->part_n[PART_SHEET]);
    if (row == 0)
        return false;
    struct range range = range_of(call->part[PART_SHEET], row);
    return range.low == FIRST_STATION && is_station(range.high);
}

static const char *answer_breach(const struct call *call, const struct outcome *outcome)
{
    if (outcome->number == NUMBER_BUFFER || outcome->number == NUMBER_RING)
        return NULL;
    if (frame_is_for_no_meter(call) && !is_untouched(call, outcome))
        return "a frame for no meter's station was not met with silence";
    if (outcome->number == NUMBER_DONE && !is_station(part_after(PART_OUT)[0]))
        return "a reply is from a station that no meter has";
    return NULL;
}

static const char *why_breach(const struct call *call, const struct outcome *outcome)
{
    bool silent = REASON_TOO_SHORT <= outcome->reason && outcome->reason <= REASON_STATION;
    if (outcome->number == NUMBER_RING)
        return NULL;
    if (frame_is_for_no_meter(call) && !silent)
        return "the reason of a frame for no meter's station is behind the station";
    return NULL;
}

const char *station_breach(const struct call *call, const struct outcome *outcome)
{
    if (call->sort < CALL_SHEET_CHECK || outcome->number == NUMBER_SHEET)
        return NULL;
    if (!range_is_of_stations(call))
        return "a sheet was taken whose address can be what no meter has";
    if (!has_bank(call) || outcome->number == NUMBER_BANK_SIZE
        || outcome->number == NUMBER_BANK_SOUND)
        return NULL;
    if (!is_station(station_of(call, part_after(PART_BANK))))
        return "a bank was taken or left at a station that no meter has";
    if (call->sort == CALL_ANSWER)
        return answer_breach(call, outcome);
    return call->sort == CALL_WHY ? why_breach(call, outcome) : NULL;
}

/* ---- Counting ---- */

/* A sheet that is refused for the address's range and for nothing else: with
 * the widest range of all it is sound. */
static void count_refused_range(struct counts *counts, const struct call *call)
{
    uint8_t sheet[SHEET_ROOM];
    size_t n = call->part_n[PART_SHEET];
    size_t row = address_row(call->part[PART_SHEET], n);
    if (row == 0)
        return;
    struct range range = range_of(call->part[PART_SHEET], row);
    memcpy(sheet, call->part[PART_SHEET], n);
    put16(sheet, row + 3, FIRST_STATION);
    put16(sheet, row + 5, LAST_STATION);
    if (second_sheet_check(sheet, n) != NUMBER_DONE || range.low > 1 || range.high < 1)
        return;
    if (range.low == 0 && range.high <= LAST_STATION)
        counts->special[SPECIAL_RANGE_FROM_0]++;
    if (range.low == 1 && range.high > LAST_STATION)
        counts->special[SPECIAL_RANGE_ABOVE_F7]++;
    if (range.low == 0 && range.high > LAST_STATION)
        counts->special[SPECIAL_RANGE_BOTH_SIDES]++;
}

/* A bank that is refused for its station and for nothing else: at station 1 it
 * is sound. */
static void count_refused_bank(struct counts *counts, const struct call *call)
{
    uint8_t bank[BANK_ROOM];
    uint32_t station = station_of(call, call->part[PART_BANK]);
    memcpy(bank, call->part[PART_BANK], call->part_n[PART_BANK]);
    put16(bank, get16(call->part[PART_SHEET], 8), FIRST_STATION);
    if (is_station(station)
        || second_bank_check(call->part[PART_SHEET], call->part_n[PART_SHEET], bank,
                             call->part_n[PART_BANK]) != NUMBER_DONE)
        return;
    counts->special[station == 0 ? SPECIAL_BANK_AT_0 : SPECIAL_BANK_ABOVE_F7]++;
    if (call->sort == CALL_ANSWER && call->part_n[PART_BYTES] > 0
        && call->part[PART_BYTES][0] == station)
        counts->special[SPECIAL_FRAME_FOR_REFUSED]++;
}

static enum second_step step_of(const struct call *call, const uint8_t *frame)
{
    return second_step(call->part[PART_SHEET], call->part_n[PART_SHEET], call->part[PART_BANK],
                       call->part_n[PART_BANK], call->part[PART_RING], call->part_n[PART_RING],
                       frame, call->part_n[PART_BYTES]);
}

/* A frame that got silence for nothing but its station: with the bank's own it
 * would get a reply, which only its body's length could keep back. */
static void count_silence(struct counts *counts, const struct call *call)
{
    uint8_t frame[FRAME_ROOM];
    size_t n = call->part_n[PART_BYTES];
    if (!frame_is_for_no_meter(call) || step_of(call, call->part[PART_BYTES]) != STEP_2_STATION)
        return;
    memcpy(frame, call->part[PART_BYTES], n);
    bool to_all = frame[0] == 0;
    frame[0] = (uint8_t)station_of(call, call->part[PART_BANK]);
    add_check(frame, n - 2);
    enum second_step step = step_of(call, frame);
    if (STEP_4_NOT_8 <= step && step <= STEP_4_NOT_9_PLUS)
        return;
    counts->special[to_all ? SPECIAL_SILENT_AT_0 : SPECIAL_SILENT_ABOVE_F7]++;
    if (to_all && (step == STEP_GOOD_WRITE_ONE || step == STEP_GOOD_WRITE_MANY))
        counts->special[SPECIAL_WRITE_TO_0]++;
}

/* The word that a write has for the station, where that is its first bad item;
 * a station that a meter can have if it is not. */
static uint32_t bad_station(const struct call *call)
{
    const uint8_t *sheet = call->part[PART_SHEET];
    const uint8_t *frame = call->part[PART_BYTES];
    uint32_t reason, address, side;
    second_why(sheet, call->part_n[PART_SHEET], call->part[PART_BANK], call->part_n[PART_BANK],
               call->part[PART_RING], call->part_n[PART_RING], frame, call->part_n[PART_BYTES],
               &reason, &address, &side);
    if (reason != REASON_ITEM)
        return FIRST_STATION;
    for (size_t row = 12; row < get16(sheet, 4); row += 4) {
        uint32_t place = get16(sheet, row + 2) + (address - get16(sheet, row));
        if (get16(sheet, row) <= address && address <= get16(sheet, row + 1)
            && place == get16(sheet, 8))
            return frame[1] == 0x06 ? get16(frame + 4, 0)
                                    : get16(frame + 7, address - get16(frame + 2, 0));
    }
    return FIRST_STATION;
}

static void count_reply(struct counts *counts, const struct call *call)
{
    const uint8_t *out = part_after(PART_OUT);
    if (out[0] == FIRST_STATION)
        counts->special[SPECIAL_REPLY_FROM_1]++;
    if (out[0] == LAST_STATION)
        counts->special[SPECIAL_REPLY_FROM_F7]++;
    if (station_of(call, call->part[PART_BANK]) != LAST_STATION
        && station_of(call, part_after(PART_BANK)) == LAST_STATION)
        counts->special[SPECIAL_STATION_TO_F7]++;
    if ((out[1] & 0x80) == 0 || out[2] != 3)
        return;
    uint32_t station = bad_station(call);
    if (!is_station(station))
        counts->special[station == 0 ? SPECIAL_STATION_TO_0 : SPECIAL_STATION_ABOVE_F7]++;
}

void count_stations(struct counts *counts, const struct call *call,
                    const struct outcome *outcome)
{
    if (call->sort < CALL_SHEET_CHECK)
        return;
    if (outcome->number == NUMBER_SHEET)
        count_refused_range(counts, call);
    if (outcome->number == NUMBER_BANK_SOUND)
        count_refused_bank(counts, call);
    if (call->sort == CALL_ANSWER && outcome->number == NUMBER_SILENCE)
        count_silence(counts, call);
    if (call->sort == CALL_ANSWER && outcome->number == NUMBER_DONE)
        count_reply(counts, call);
}
