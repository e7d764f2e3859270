#include "records_met.h"
#include "rings_made.h"

#include <stdio.h>
#include <stdlib.h>
#include <string.h>

/* ---- The record area in the bytes of a call ---- */

/* The record area is the last three words of a sheet whose word 11 is 1. */
struct records {
    bool is;
    uint32_t first, count, words;
};

static struct records records_of(const struct call *call)
{
    const uint8_t *sheet = call->part[PART_SHEET];
    size_t words = call->part_n[PART_SHEET] / 2;
    struct records records = { words >= 15 && get16(sheet, 11) == 1, 0, 0, 0 };
    if (records.is) {
        records.first = get16(sheet, words - 3);
        records.count = get16(sheet, words - 2);
        records.words = get16(sheet, words - 1);
    }
    return records;
}

static bool has_address(const struct records *records, uint32_t address)
{
    return records->is && records->first <= address && address < records->first + records->count;
}

uint32_t stored_in(const uint8_t *ring, size_t ring_n)
{
    return ring_n < 4 ? 0 : get16(ring, 1);
}

bool starts_at_record(const struct call *call)
{
    struct records records = records_of(call);
    return call->part_n[PART_BYTES] >= 4
        && has_address(&records, get16(call->part[PART_BYTES] + 2, 0));
}

static bool has_ring(const struct call *call)
{
    return call->sort == CALL_ANSWER || call->sort == CALL_WHY || call->sort == CALL_RING_CHECK
        || call->sort == CALL_ADD_RECORD;
}

/* ---- Runs of addresses ---- */

/* How many addresses a frame is about, from its start on. */
static uint32_t run_of(const uint8_t *frame)
{
    return frame[1] == 0x03 || frame[1] == 0x10 ? get16(frame + 4, 0) : 1;
}

/* Whether the call's frame gets to the records from in front of them. */
static bool runs_into_records(const struct call *call)
{
    struct records records = records_of(call);
    const uint8_t *frame = call->part[PART_BYTES];
    if (!records.is || call->part_n[PART_BYTES] < 8)
        return false;
    uint32_t start = get16(frame + 2, 0);
    return start < records.first && records.first < start + run_of(frame);
}

/* Whether some area lets a function have an address: a read one of access 1 or 3, a
 * write one of access 2 or 3. */
static bool is_open(const uint8_t *sheet, uint8_t function, uint32_t address)
{
    for (size_t row = 12; row < get16(sheet, 4); row += 4)
        if (get16(sheet, row) <= address && address <= get16(sheet, row + 1))
            return get16(sheet, row + 3) != (function == 0x03 ? 2u : 1u);
    return false;
}

/* Of a frame at a record or on its way there, the first address that is not
 * open: the first record's at the latest. */
static uint32_t first_shut(const struct call *call, const struct records *records)
{
    const uint8_t *frame = call->part[PART_BYTES];
    uint32_t address = get16(frame + 2, 0);
    while (address < records->first && is_open(call->part[PART_SHEET], frame[1], address))
        address++;
    return address;
}

/* Whether a 10 has no count, or not two bytes for each word. */
static bool counts_differ(const uint8_t *frame)
{
    return frame[1] == 0x10 && (get16(frame + 4, 0) == 0 || frame[6] != 2 * get16(frame + 4, 0));
}

static bool is_closed_function(const struct call *call)
{
    static const uint8_t bit_of[17] = { [0x03] = 1, [0x05] = 2, [0x06] = 4, [0x10] = 8 };
    uint8_t function = call->part[PART_BYTES][1];
    return function > 0x10 || (get16(call->part[PART_SHEET], 6) & bit_of[function]) == 0;
}

/* ---- A sheet that is taken ---- */

/* Two runs of addresses share one if the first address of either is in the
 * other. */
static bool shares_address(const struct call *call, const struct records *records)
{
    const uint8_t *sheet = call->part[PART_SHEET];
    for (size_t row = 12; row < get16(sheet, 4); row += 4) {
        uint32_t first = get16(sheet, row);
        uint32_t last = get16(sheet, row + 1);
        if (has_address(records, first) || (first <= records->first && records->first <= last))
            return true;
    }
    return (get16(sheet, 6) & 2) != 0 && has_address(records, get16(sheet, 10));
}

static const char *sheet_breach(const struct call *call)
{
    const uint8_t *sheet = call->part[PART_SHEET];
    struct records records = records_of(call);
    if (call->part_n[PART_SHEET] < 24 || get16(sheet, 11) > 1)
        return "a sheet was taken whose word 11 is neither 0 nor 1";
    if (call->part_n[PART_SHEET] > (records.is ? 862 : 856)
        || call->part_n[PART_SHEET] != 2 * (size_t)get16(sheet, 7))
        return "a sheet was taken that has not the length it says, or is too long";
    if (!records.is)
        return NULL;
    if (records.count < 1 || records.count > RECORDS_MOST)
        return "a sheet was taken with no record or too many";
    if (records.words < 1 || records.words > RECORD_WORDS_MOST)
        return "a sheet was taken with records of no word or too many";
    if (records.first + records.count - 1 > 0xFFFF)
        return "a sheet was taken whose records do not end by FFFF";
    if (shares_address(call, &records))
        return "a sheet was taken with a record at an address that is in use";
    return NULL;
}

/* ---- A ring ---- */

static bool ring_is_bad(const struct call *call, const struct records *records)
{
    const uint8_t *ring = call->part[PART_RING];
    size_t n = call->part_n[PART_RING];
    if (!records->is)
        return n != 0;
    if (n != 4 + 2 * (size_t)records->count * records->words)
        return true;
    uint32_t place = get16(ring, 0);
    uint32_t stored = get16(ring, 1);
    return place + 1 > records->count || stored > records->count || (stored == 0 && place != 0);
}

/* The room of a record, from a ring's newest so many steps back, one after the
 * other. */
static size_t room_back(const struct records *records, const uint8_t *ring, uint32_t steps)
{
    uint32_t place = get16(ring, 0);
    for (; steps > 0; steps--)
        place = place == 0 ? records->count - 1 : place - 1;
    return 4 + 2 * (size_t)place * records->words;
}

/* ---- A reply ---- */

static bool is_error(uint8_t code, const struct outcome *outcome)
{
    return outcome->length == 5 && (part_after(PART_OUT)[1] & 0x80) != 0
        && part_after(PART_OUT)[2] == code;
}

static bool is_words(const uint8_t *words, uint32_t count, const struct outcome *outcome)
{
    const uint8_t *out = part_after(PART_OUT);
    return outcome->length == 5 + 2 * count && out[1] == 0x03 && out[2] == 2 * count
        && memcmp(out + 3, words, 2 * (size_t)count) == 0;
}

/* The reply to a read that starts at a record, where the sheet allows it. */
static const char *read_breach(const struct call *call, const struct records *records,
                               const struct outcome *outcome)
{
    const uint8_t *frame = call->part[PART_BYTES];
    const uint8_t *ring = call->part[PART_RING];
    uint32_t back = get16(frame + 2, 0) - records->first;
    if (get16(frame + 4, 0) != 1)
        return is_error(3, outcome) ? NULL : "not one record was read, and not met with error 03";
    if (back >= get16(ring, 1))
        return is_error(2, outcome) ? NULL : "a record not stored was not met with error 02";
    if (!is_words(ring + room_back(records, ring, back), records->words, outcome))
        return "the reply is not the whole record";
    return NULL;
}

/* The reply to a write or a clear at a record, and to a run from outside into the
 * records. */
static const char *shut_breach(const struct call *call, const struct outcome *outcome)
{
    if (counts_differ(call->part[PART_BYTES]))
        return is_error(3, outcome) ? NULL
            : "a write to records whose counts do not agree was not met with error 03";
    if (is_error(2, outcome))
        return NULL;
    return starts_at_record(call) ? "a write or clear at a record was not met with error 02"
                                  : "a run into the records was not met with error 02";
}

/* What no frame does that starts at a record or gets there, whatever its
 * function. */
static const char *rest_breach(const struct call *call, const struct outcome *outcome)
{
    size_t n = outcome->length;
    uint32_t rate_place = get16(call->part[PART_SHEET], 9);
    if (bank_changed(call))
        return "a frame at a record has changed the bank";
    if (outcome->rate != get16(call->part[PART_BANK], rate_place))
        return "the reply to a frame at a record is not at the bank's rate";
    if (n > call->part_n[PART_OUT]
        || memcmp(call->part[PART_OUT] + n, part_after(PART_OUT) + n, call->part_n[PART_OUT] - n))
        return "bytes behind the reply to a frame at a record have changed";
    return NULL;
}

static const char *reply_breach(const struct call *call, const struct records *records,
                                const struct outcome *outcome)
{
    if (!starts_at_record(call) && !runs_into_records(call))
        return NULL;
    if (rest_breach(call, outcome) != NULL)
        return rest_breach(call, outcome);
    if (is_closed_function(call))
        return is_error(1, outcome) ? NULL : "a closed function at a record got no error 01";
    if (call->part[PART_BYTES][1] == 0x03 && starts_at_record(call))
        return read_breach(call, records, outcome);
    return shut_breach(call, outcome);
}

/* The reason for what a read that starts at a record gets. */
static const char *read_reason_breach(const struct call *call, const struct records *records,
                                      const struct outcome *outcome)
{
    const uint8_t *frame = call->part[PART_BYTES];
    uint32_t reason = outcome->reason;
    uint32_t start = get16(frame + 2, 0);
    if (get16(frame + 4, 0) != 1)
        return reason == REASON_BAD_COUNT ? NULL : "the reason for not one record is not the count";
    bool stored = start - records->first < get16(call->part[PART_RING], 1);
    if (!stored && (reason != REASON_ADDRESS || outcome->address != start))
        return "the reason for a record not stored is not its address";
    return stored && reason != REASON_NONE ? "there is a reason against a stored record" : NULL;
}

/* The reason for what a write or a clear at a record gets, or a run from outside
 * into the records. A wrong count comes first, of a read one of more than 47. */
static const char *shut_reason_breach(const struct call *call, const struct records *records,
                                      const struct outcome *outcome)
{
    const uint8_t *frame = call->part[PART_BYTES];
    if (counts_differ(frame) || (frame[1] == 0x03 && get16(frame + 4, 0) > 47))
        return outcome->reason == REASON_BAD_COUNT ? NULL
            : "the reason for a wrong count, at or into records, is not the count";
    if (outcome->reason != REASON_ADDRESS)
        return "the reason for a run into records, or a write there, is not an address";
    if (outcome->address != first_shut(call, records))
        return "the address of a run into records, or a write there, is not the first shut";
    return NULL;
}

/* The reason for a frame that starts at a record or gets there, if the reason is
 * behind the frame's length. */
static const char *reason_breach(const struct call *call, const struct records *records,
                                 const struct outcome *outcome)
{
    if ((!starts_at_record(call) && !runs_into_records(call))
        || (REASON_TOO_SHORT <= outcome->reason && outcome->reason <= REASON_BODY_LENGTH))
        return NULL;
    if (is_closed_function(call))
        return "the reason for a closed function at a record is behind the function";
    if (call->part[PART_BYTES][1] == 0x03 && starts_at_record(call))
        return read_reason_breach(call, records, outcome);
    return shut_reason_breach(call, records, outcome);
}

/* ---- Posting ---- */

/* Whether one of the posted words, of which there are some, would go to a
 * record. */
static bool posts_to_record(const struct call *call, const struct records *records)
{
    size_t n = call->part_n[PART_BYTES];
    uint64_t end = (uint64_t)call->value + n / 2;
    return records->is && n > 0 && n % 2 == 0 && records->first < end
        && call->value < records->first + records->count;
}

static const char *post_breach(const struct call *call, const struct records *records,
                               const struct outcome *outcome)
{
    if (!posts_to_record(call, records))
        return NULL;
    if (outcome->number != NUMBER_POSTED_ADDRESS)
        return "words posted at a record, or into the records, were not met with 6";
    return bank_changed(call) ? "words posted at a record have changed the bank" : NULL;
}

/* ---- Adding ---- */

/* Two words and the room of one record are new, and nothing else. */
static const char *added_breach(const struct call *call, const struct records *records)
{
    const uint8_t *before = call->part[PART_RING];
    const uint8_t *after = part_after(PART_RING);
    size_t n = call->part_n[PART_RING];
    size_t record_n = 2 * (size_t)records->words;
    uint32_t stored = get16(before, 1);
    uint32_t place = stored == 0 ? 0 : get16(before, 0) + 1;
    if (place == records->count)
        place = 0;
    size_t room = 4 + place * record_n;
    if (get16(after, 0) != place)
        return "the record added is not behind the newest";
    if (get16(after, 1) != (stored == records->count ? stored : stored + 1))
        return "the number stored is not one more, or all";
    if (memcmp(after + room, call->part[PART_BYTES], record_n) != 0)
        return "the ring has not the record that was added";
    if (memcmp(before + 4, after + 4, room - 4) != 0
        || memcmp(before + room + record_n, after + room + record_n, n - room - record_n) != 0)
        return "another record has changed";
    return NULL;
}

static const char *add_breach(const struct call *call, const struct records *records,
                              const struct outcome *outcome)
{
    bool fits = call->part_n[PART_BYTES] == 2 * (size_t)records->words;
    if (!records->is)
        return "a record was taken where there is no record area";
    if (fits != (outcome->number == NUMBER_DONE))
        return "a record was added of another length, or one that fits was not";
    return fits ? added_breach(call, records) : NULL;
}

/* ---- What holds of every call ---- */

static const char *ring_breach(const struct call *call, const struct records *records,
                               const struct outcome *outcome)
{
    bool bad = ring_is_bad(call, records);
    if (bad != (outcome->number == NUMBER_RING))
        return bad ? "a bad ring was taken" : "a good ring was refused";
    if (bad)
        return NULL;
    if (call->sort == CALL_ADD_RECORD)
        return add_breach(call, records, outcome);
    if (call->sort == CALL_ANSWER && outcome->number == NUMBER_DONE)
        return reply_breach(call, records, outcome);
    return call->sort == CALL_WHY ? reason_breach(call, records, outcome) : NULL;
}

const char *record_breach(const struct call *call, const struct outcome *outcome)
{
    struct records records = records_of(call);
    bool adds = call->sort == CALL_ADD_RECORD && outcome->number == NUMBER_DONE;
    if (call->sort < CALL_SHEET_CHECK)
        return NULL;
    if (!adds && part_changed(call, PART_RING))
        return "a ring has changed to which nothing was added";
    if (outcome->number == NUMBER_SHEET)
        return NULL;
    const char *breach = sheet_breach(call);
    if (breach != NULL || outcome->number == NUMBER_BANK_SIZE
        || outcome->number == NUMBER_BANK_SOUND)
        return breach;
    if (call->sort == CALL_POST)
        return post_breach(call, &records, outcome);
    return has_ring(call) ? ring_breach(call, &records, outcome) : NULL;
}

/* ---- The list of records by their age ----
 * It knows nothing of places: record k is the k-th from its end, and there are
 * as many as fit. */

enum { LIST_MORE = 1000 };

static uint8_t list[RECORDS_MOST + LIST_MORE][2 * RECORD_WORDS_MOST];
static uint32_t list_n;
static uint32_t list_added;

static void list_put(const uint8_t *record, size_t n)
{
    if (list_n == RECORDS_MOST + LIST_MORE) {
        printf("the list of records is full\n");
        exit(1);
    }
    memcpy(list[list_n], record, n);
    list_n++;
}

void list_begin(const struct call *call)
{
    struct records records = records_of(call);
    const uint8_t *ring = call->part[PART_RING];
    size_t record_n = 2 * (size_t)records.words;
    list_n = 0;
    list_added = 0;
    if (ring_is_bad(call, &records) || stored_in(ring, call->part_n[PART_RING]) == 0)
        return;
    size_t room = room_back(&records, ring, get16(ring, 1) - 1);
    for (uint32_t i = 0; i < get16(ring, 1); i++) {
        list_put(ring + room, record_n);
        room = room + record_n == call->part_n[PART_RING] ? 4 : room + record_n;
    }
}

static uint32_t list_most(const struct records *records)
{
    return list_n < records->count ? list_n : records->count;
}

/* A read of one record gets the list's. */
static const char *reply_against_list(struct counts *counts, const struct call *call,
                                      const struct records *records,
                                      const struct outcome *outcome)
{
    if (!starts_at_record(call) || part_after(PART_OUT)[1] != 0x03)
        return NULL;
    uint32_t number = get16(call->part[PART_BYTES] + 2, 0) - records->first + 1;
    if (number > list_most(records)
        || !is_words(list[list_n - number], records->words, outcome))
        return "the reply is not the record of this age that was added";
    counts->special[SPECIAL_LIST_ADDED] += number <= list_added;
    counts->special[SPECIAL_LIST_SECOND_ADDED] += number == 2 && number <= list_added;
    counts->special[SPECIAL_LIST_OLDER] += 0 < list_added && list_added < number;
    counts->special[SPECIAL_LIST_OVERWRITTEN] += list_n > records->count;
    return NULL;
}

const char *list_follow(struct counts *counts, const struct call *call,
                        const struct outcome *outcome)
{
    struct records records = records_of(call);
    if (outcome->number != NUMBER_DONE || !records.is)
        return NULL;
    if (call->sort == CALL_ANSWER)
        return reply_against_list(counts, call, &records, outcome);
    if (call->sort != CALL_ADD_RECORD)
        return NULL;
    list_put(call->part[PART_BYTES], call->part_n[PART_BYTES]);
    list_added++;
    if (get16(part_after(PART_RING), 1) != list_most(&records))
        return "the number stored is not that of the records added";
    return NULL;
}

/* ---- Counting sheets ---- */

static void met(struct counts *counts, enum special special, bool holds)
{
    if (holds)
        counts->special[special]++;
}

/* The rule of the record area that is broken alone; RULE_NONE if there is no
 * such one. */
static enum second_rule only_rule_broken(const struct call *call)
{
    uint64_t broken = second_broken_rules(call->part[PART_SHEET], call->part_n[PART_SHEET]);
    for (int rule = RULE_RECORD_COUNT; rule <= RULE_CLEAR_IN_RECORDS; rule++)
        if (broken == (uint64_t)1 << rule)
            return (enum second_rule)rule;
    return RULE_NONE;
}

/* How many of the record area's addresses lie in areas. */
static uint32_t addresses_shared(const struct call *call, const struct records *records)
{
    const uint8_t *sheet = call->part[PART_SHEET];
    uint32_t shared = 0;
    for (uint32_t i = 0; i < records->count; i++)
        for (size_t row = 12; row < get16(sheet, 4); row += 4)
            if (get16(sheet, row) <= records->first + i
                && records->first + i <= get16(sheet, row + 1))
                shared++;
    return shared;
}

/* Sheets that are refused for their record area and for nothing else, just
 * beyond each limit. */
static void count_refused_sheet(struct counts *counts, const struct call *call)
{
    struct records records = records_of(call);
    if (!records.is || call->sort == CALL_ADD_RECORD)
        return;
    uint32_t clear = get16(call->part[PART_SHEET], 10);
    uint32_t last = records.first + records.count - 1;
    switch (only_rule_broken(call)) {
    case RULE_RECORD_COUNT:
        met(counts, SPECIAL_RECORDS_0, records.count == 0);
        met(counts, SPECIAL_RECORDS_6601, records.count == RECORDS_MOST + 1);
        break;
    case RULE_RECORD_WORDS:
        met(counts, SPECIAL_WORDS_0, records.words == 0);
        met(counts, SPECIAL_WORDS_48, records.words == RECORD_WORDS_MOST + 1);
        break;
    case RULE_RECORDS_END:
        met(counts, SPECIAL_RECORDS_TO_10000, last == 0x10000);
        break;
    case RULE_RECORDS_SHARE:
        met(counts, SPECIAL_RECORDS_SHARE_1, addresses_shared(call, &records) == 1);
        break;
    case RULE_CLEAR_IN_RECORDS:
        met(counts, SPECIAL_CLEAR_FIRST_RECORD, clear == records.first);
        met(counts, SPECIAL_CLEAR_LAST_RECORD, clear == last);
        break;
    default: break;
    }
}

/* Where a record area lies among the areas. */
static void count_position(struct counts *counts, const struct call *call,
                           const struct records *records)
{
    const uint8_t *sheet = call->part[PART_SHEET];
    uint32_t end = records->first + records->count;
    bool front = false, behind = false, next_above = false, next_below = false;
    for (size_t row = 12; row < get16(sheet, 4); row += 4) {
        front = front || end <= get16(sheet, row);
        behind = behind || get16(sheet, row + 1) < records->first;
        next_above = next_above || end == get16(sheet, row);
        next_below = next_below || get16(sheet, row + 1) + 1 == records->first;
    }
    met(counts, SPECIAL_RECORDS_IN_FRONT, front && !behind);
    met(counts, SPECIAL_RECORDS_BETWEEN, front && behind);
    met(counts, SPECIAL_RECORDS_BEHIND, behind && !front);
    met(counts, SPECIAL_RECORDS_NEXT_ABOVE, next_above);
    met(counts, SPECIAL_RECORDS_NEXT_BELOW, next_below);
}

/* Record areas that are taken, at each limit. */
static void count_taken_sheet(struct counts *counts, const struct call *call)
{
    const uint8_t *sheet = call->part[PART_SHEET];
    struct records records = records_of(call);
    if (!records.is)
        return;
    bool clear = (get16(sheet, 6) & 2) != 0;
    uint32_t end = records.first + records.count;
    count_position(counts, call, &records);
    met(counts, SPECIAL_RECORDS_AT_0, records.first == 0);
    met(counts, SPECIAL_RECORDS_AT_WORD_10, records.first == 0 && !clear);
    met(counts, SPECIAL_RECORDS_TO_FFFF, end == 0x10000);
    met(counts, SPECIAL_RECORDS_1, records.count == 1);
    met(counts, SPECIAL_RECORDS_6600, records.count == RECORDS_MOST);
    met(counts, SPECIAL_RECORDS_HISTORY, records.first == 0x0400 && end == 0x1DC8
                                             && records.words == 22);
    met(counts, SPECIAL_CLEAR_IN_FRONT, clear && get16(sheet, 10) + 1 == records.first);
    met(counts, SPECIAL_CLEAR_BEHIND, clear && get16(sheet, 10) == end);
    met(counts, SPECIAL_SHEET_862, call->part_n[PART_SHEET] == 862);
}

/* ---- Counting rings ---- */

static void count_ring_size(struct counts *counts, size_t size, size_t n)
{
    met(counts, SPECIAL_RING_BYTE_LESS, n + 1 == size);
    met(counts, SPECIAL_RING_BYTE_MORE, n == size + 1);
    met(counts, SPECIAL_RING_WORD_LESS, n + 2 == size);
    met(counts, SPECIAL_RING_WORD_MORE, n == size + 2);
    met(counts, SPECIAL_RING_0_BYTES, n == 0);
}

static void count_refused_ring(struct counts *counts, const struct call *call)
{
    struct records records = records_of(call);
    const uint8_t *ring = call->part[PART_RING];
    size_t n = call->part_n[PART_RING];
    size_t size = 4 + 2 * (size_t)records.count * records.words;
    met(counts, SPECIAL_RING_NOT_ASKED_FOR, !records.is);
    met(counts, SPECIAL_8_BEFORE_5, call->sort == CALL_ANSWER && call->part_n[PART_OUT] < 100);
    met(counts, SPECIAL_8_BEFORE_7, call->sort == CALL_ADD_RECORD
                                        && call->part_n[PART_BYTES] != 2 * (size_t)records.words);
    if (!records.is)
        return;
    if (n != size) {
        count_ring_size(counts, size, n);
        return;
    }
    uint32_t place = get16(ring, 0);
    uint32_t stored = get16(ring, 1);
    met(counts, SPECIAL_RING_PLACE, place == records.count && 0 < stored
                                        && stored <= records.count);
    met(counts, SPECIAL_RING_STORED, stored == records.count + 1 && place < records.count);
    met(counts, SPECIAL_RING_EMPTY, stored == 0 && 0 < place && place < records.count);
}

/* A ring that no additions to an empty one leave. */
static bool is_never_made(const struct records *records, const uint8_t *ring)
{
    uint32_t stored = get16(ring, 1);
    return 0 < stored && stored < records->count && get16(ring, 0) + 1 != stored;
}

/* ---- Counting additions ---- */

static void count_added(struct counts *counts, const struct call *call,
                        const struct records *records)
{
    const uint8_t *ring = call->part[PART_RING];
    uint32_t place = get16(ring, 0);
    uint32_t stored = get16(ring, 1);
    met(counts, SPECIAL_ADD_FIRST, stored == 0);
    met(counts, SPECIAL_ADD_MIDST, 0 < stored && stored < records->count
                                       && place + 1 < records->count);
    met(counts, SPECIAL_ADD_FILLS, stored + 1 == records->count);
    met(counts, SPECIAL_ADD_OVER_OLDEST, stored == records->count);
    met(counts, SPECIAL_ADD_ROUND, stored > 0 && place + 1 == records->count);
    met(counts, SPECIAL_ADD_ONLY_ROOM, records->count == 1 && stored == 1);
    met(counts, SPECIAL_ADD_NEVER_MADE, is_never_made(records, ring));
    met(counts, SPECIAL_ADD_6600, records->count == RECORDS_MOST);
}

static void count_add(struct counts *counts, const struct call *call,
                      const struct outcome *outcome)
{
    struct records records = records_of(call);
    size_t n = call->part_n[PART_BYTES];
    size_t right = 2 * (size_t)records.words;
    if (outcome->number == NUMBER_DONE)
        count_added(counts, call, &records);
    if (outcome->number == NUMBER_SHEET && !records.is)
        met(counts, SPECIAL_ADD_NO_AREA,
            second_sheet_check(call->part[PART_SHEET], call->part_n[PART_SHEET]) == NUMBER_DONE);
    if (outcome->number != NUMBER_BAD_INPUT)
        return;
    met(counts, SPECIAL_ADD_NOTHING, n == 0);
    met(counts, SPECIAL_ADD_BYTE_LESS, n + 1 == right);
    met(counts, SPECIAL_ADD_BYTE_MORE, n == right + 1);
    met(counts, SPECIAL_ADD_WORD_LESS, n + 2 == right);
    met(counts, SPECIAL_ADD_WORD_MORE, n == right + 2);
    met(counts, SPECIAL_ADD_TWO, n == 2 * right);
}

/* ---- Counting frames ---- */

/* A reply that is a record. */
static void count_record(struct counts *counts, const struct call *call,
                         const struct records *records)
{
    const uint8_t *ring = call->part[PART_RING];
    uint32_t number = get16(call->part[PART_BYTES] + 2, 0) - records->first + 1;
    uint32_t place = get16(ring, 0);
    uint32_t stored = get16(ring, 1);
    met(counts, SPECIAL_RECORD_NEWEST, number == 1 && stored > 1);
    met(counts, SPECIAL_RECORD_OLDEST, number == stored && stored > 1 && stored < records->count);
    met(counts, SPECIAL_RECORD_OLDEST_FULL, number == stored && stored > 1
                                                && stored == records->count);
    met(counts, SPECIAL_RECORD_AT_PLACE_0, number > 1 && number == place + 1);
    met(counts, SPECIAL_RECORD_ROUND, number == place + 2);
    met(counts, SPECIAL_RECORD_NEVER_MADE, is_never_made(records, ring));
    met(counts, SPECIAL_RECORD_OF_1, records->words == 1);
    met(counts, SPECIAL_RECORD_OF_22, records->words == 22);
    met(counts, SPECIAL_RECORD_OF_47, records->words == RECORD_WORDS_MOST);
    met(counts, SPECIAL_RECORD_OF_6600, records->count == RECORDS_MOST);
}

/* A read at a record that got an error. */
static void count_not_read(struct counts *counts, const struct call *call,
                           const struct records *records)
{
    const uint8_t *frame = call->part[PART_BYTES];
    uint32_t back = get16(frame + 2, 0) - records->first;
    uint32_t count = get16(frame + 4, 0);
    uint32_t stored = get16(call->part[PART_RING], 1);
    met(counts, SPECIAL_RECORD_COUNT_0, count == 0);
    met(counts, SPECIAL_RECORD_COUNT_2, count == 2 && back + 1 < stored);
    met(counts, SPECIAL_RECORD_COUNT_47, count == 47);
    met(counts, SPECIAL_RECORD_OVER_47, count > 47);
    met(counts, SPECIAL_RECORD_LAST_TWO, count == 2 && back + 1 == records->count);
    met(counts, SPECIAL_RECORD_NONE_OF_TWO, count > 1 && back >= stored);
    met(counts, SPECIAL_RECORD_BEYOND, count == 1 && stored > 0 && back == stored);
    met(counts, SPECIAL_RECORD_OF_NONE, count == 1 && stored == 0);
}

/* A frame that got error 02, at a record or on its way to the records. */
static void count_closed(struct counts *counts, const struct call *call,
                         const struct records *records)
{
    uint8_t function = call->part[PART_BYTES][1];
    bool at = starts_at_record(call);
    bool into = runs_into_records(call) && first_shut(call, records) == records->first;
    met(counts, SPECIAL_READ_INTO_RECORDS, into && function == 0x03);
    met(counts, SPECIAL_WRITE_INTO_RECORDS, into && function == 0x10);
    met(counts, SPECIAL_CLEAR_AT_RECORD, at && function == 0x05);
    met(counts, SPECIAL_WRITE_ONE_RECORD, at && function == 0x06);
    met(counts, SPECIAL_WRITE_MANY_RECORD, at && function == 0x10);
}

/* The same frames, where the address is the reason. */
static void count_shut(struct counts *counts, const struct call *call,
                       const struct outcome *outcome)
{
    struct records records = records_of(call);
    uint8_t function = call->part[PART_BYTES][1];
    bool at = starts_at_record(call);
    bool into = runs_into_records(call);
    bool reached = into && outcome->address == records.first;
    met(counts, SPECIAL_WHY_READ_INTO_RECORDS, reached && function == 0x03);
    met(counts, SPECIAL_WHY_WRITE_INTO_RECORDS, reached && function == 0x10);
    met(counts, SPECIAL_WHY_SHUT_IN_FRONT, into && !reached);
    met(counts, SPECIAL_WHY_CLEAR_AT_RECORD, at && function == 0x05);
    met(counts, SPECIAL_WHY_WRITE_ONE_RECORD, at && function == 0x06);
    met(counts, SPECIAL_WHY_WRITE_MANY_RECORD, at && function == 0x10);
}

static void count_answer(struct counts *counts, const struct call *call,
                         const struct outcome *outcome)
{
    struct records records = records_of(call);
    uint8_t function = part_after(PART_OUT)[1];
    if (!records.is || is_error(1, outcome))
        return;
    if (starts_at_record(call) && function == 0x03)
        count_record(counts, call, &records);
    if (starts_at_record(call) && function == 0x83)
        count_not_read(counts, call, &records);
    else if (is_error(2, outcome))
        count_closed(counts, call, &records);
    if (is_error(3, outcome) && counts_differ(call->part[PART_BYTES]))
        met(counts, SPECIAL_COUNTS_AT_RECORD, starts_at_record(call) || runs_into_records(call));
}

/* ---- Counting the rest ---- */

static bool is_read_only(const uint8_t *sheet, uint32_t address)
{
    for (size_t row = 12; row < get16(sheet, 4); row += 4)
        if (get16(sheet, row) <= address && address <= get16(sheet, row + 1))
            return get16(sheet, row + 3) == 1;
    return false;
}

/* Words refused because they, or the last of them, would go to records. */
static void count_post(struct counts *counts, const struct call *call)
{
    struct records records = records_of(call);
    uint32_t address = call->value;
    met(counts, SPECIAL_POST_AT_RECORD, has_address(&records, address));
    while (is_read_only(call->part[PART_SHEET], address))
        address++;
    met(counts, SPECIAL_POST_INTO_RECORDS,
        address > call->value && has_address(&records, address));
}

static void count_bank_first(struct counts *counts, const struct call *call)
{
    struct records records = records_of(call);
    met(counts, SPECIAL_4_BEFORE_8, has_ring(call) && ring_is_bad(call, &records));
}

void count_records(struct counts *counts, const struct call *call,
                   const struct outcome *outcome)
{
    if (call->sort < CALL_SHEET_CHECK)
        return;
    if (outcome->number == NUMBER_SHEET)
        count_refused_sheet(counts, call);
    else
        count_taken_sheet(counts, call);
    if (outcome->number == NUMBER_BANK_SOUND)
        count_bank_first(counts, call);
    if (outcome->number == NUMBER_RING)
        count_refused_ring(counts, call);
    if (outcome->number == NUMBER_POSTED_ADDRESS)
        count_post(counts, call);
    if (call->sort == CALL_ADD_RECORD)
        count_add(counts, call, outcome);
    if (call->sort == CALL_ANSWER && outcome->number == NUMBER_DONE)
        count_answer(counts, call, outcome);
    if (call->sort == CALL_WHY && outcome->reason == REASON_ADDRESS)
        count_shut(counts, call, outcome);
}
