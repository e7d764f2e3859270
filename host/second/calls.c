#include "calls.h"
#include "cedarskein.h"
#include "lent.h"
#include "noise.h"
#include "second.h"

#include <inttypes.h>
#include <stdio.h>
#include <string.h>

/* The fourteen functions of one side. */
struct functions {
    uint16_t (*check_start)(void);
    uint16_t (*check_take)(uint16_t, uint8_t);
    uint16_t (*check_value)(const uint8_t *, size_t);
    uint32_t (*sheet_check)(const uint8_t *, size_t);
    uint32_t (*bank_check)(const uint8_t *, size_t, const uint8_t *, size_t);
    uint32_t (*bank_fresh)(const uint8_t *, size_t, uint8_t *, size_t);
    uint32_t (*post)(const uint8_t *, size_t, uint8_t *, size_t, uint32_t, const uint8_t *, size_t);
    uint32_t (*set_mark)(const uint8_t *, size_t, uint8_t *, size_t, uint32_t);
    uint32_t (*answer)(const uint8_t *, size_t, uint8_t *, size_t, const uint8_t *, size_t,
                       const uint8_t *, size_t, uint8_t *, size_t, uint32_t *, uint32_t *);
    uint32_t (*why)(const uint8_t *, size_t, const uint8_t *, size_t, const uint8_t *, size_t,
                    const uint8_t *, size_t, uint32_t *, uint32_t *, uint32_t *);
    uint32_t (*ring_check)(const uint8_t *, size_t, const uint8_t *, size_t);
    uint32_t (*add_record)(const uint8_t *, size_t, uint8_t *, size_t, const uint8_t *, size_t);
    uint32_t (*query)(uint32_t, uint32_t, uint32_t, uint32_t, const uint8_t *, size_t,
                      uint8_t *, size_t, uint32_t *);
    uint32_t (*reply)(uint32_t, uint32_t, uint32_t, uint32_t, const uint8_t *, size_t,
                      const uint8_t *, size_t, uint8_t *, size_t, uint32_t *, uint32_t *);
};

enum { LIBRARY, SECOND, SIDES };

static const char *const side_names[SIDES] = { "library", "second" };

static const struct functions sides[SIDES] = {
    { cedarskein_check_start, cedarskein_check_take, cedarskein_check_value,
      cedarskein_sheet_check, cedarskein_bank_check, cedarskein_bank_fresh,
      cedarskein_post, cedarskein_set_mark, cedarskein_answer, cedarskein_why,
      cedarskein_ring_check, cedarskein_add_record, cedarskein_query, cedarskein_reply },
    { second_check_start, second_check_take, second_check_value,
      second_sheet_check, second_bank_check, second_bank_fresh,
      second_post, second_set_mark, second_answer, second_why,
      second_ring_check, second_add_record, second_query, second_reply }
};

static const char *const call_names[CALL_COUNT] = {
    "check_start", "check_take", "check_value", "query", "reply", "sheet_check", "bank_check",
    "bank_fresh", "post", "set_mark", "answer", "why", "ring_check", "add_record"
};

static const char *const part_names[PART_COUNT] = {
    "sheet", "bank", "ring", "bytes", "out", "values"
};

static struct lent lent[SIDES][PART_COUNT];

const char *call_name(enum call_sort sort)
{
    return call_names[sort];
}

const uint8_t *part_after(enum part part)
{
    return lent_bytes(&lent[LIBRARY][part]);
}

bool part_changed(const struct call *call, enum part part)
{
    return call->part_n[part] > 0
        && memcmp(call->part[part], part_after(part), call->part_n[part]) != 0;
}

bool bank_changed(const struct call *call)
{
    return part_changed(call, PART_BANK);
}

bool is_untouched(const struct call *call, const struct outcome *outcome)
{
    return outcome->number == NUMBER_SILENCE && outcome->length == 0 && outcome->rate == 0
        && !bank_changed(call) && !part_changed(call, PART_RING) && !part_changed(call, PART_OUT);
}

/* ---- Printing ---- */

enum { MOST_PRINTED = 6000 };

/* Of a large ring only the front is printed. */
static void print_bytes(const char *name, const uint8_t *bytes, size_t n)
{
    printf("  %s, %zu bytes:", name, n);
    for (size_t i = 0; i < n && i < MOST_PRINTED; i++)
        printf(" %02X", bytes[i]);
    printf(n > MOST_PRINTED ? " ...\n" : "\n");
}

void print_call(const struct call *call)
{
    const struct asked *asked = &call->asked;
    printf("call %s, value %" PRIX32 ", byte %02X\n", call_names[call->sort], call->value,
           call->byte);
    if (call->sort == CALL_QUERY || call->sort == CALL_REPLY)
        printf("  order %" PRIu32 ", station %" PRIu32 ", address %04" PRIX32 ", number %" PRIu32
               "\n", asked->order, asked->station, asked->address, asked->number);
    for (int part = 0; part < PART_COUNT; part++)
        if (call->part_n[part] > 0)
            print_bytes(part_names[part], call->part[part], call->part_n[part]);
}

static void print_side(int side, const struct outcome *outcome)
{
    printf(" %s: number %" PRIu32 ", length %" PRIu32 ", rate %" PRIu32 ", reason %" PRIu32
           ", address %04" PRIX32 ", side %" PRIu32 ", error %" PRIu32 "\n", side_names[side],
           outcome->number, outcome->length, outcome->rate, outcome->reason, outcome->address,
           outcome->side, outcome->error);
    print_bytes("bank after", lent_bytes(&lent[side][PART_BANK]), lent[side][PART_BANK].n);
    print_bytes("ring after", lent_bytes(&lent[side][PART_RING]), lent[side][PART_RING].n);
    print_bytes("out after", lent_bytes(&lent[side][PART_OUT]), lent[side][PART_OUT].n);
}

/* ---- One side ---- */

/* Length and rate, reason, address and side, or length and error, stand between guards
 * of their own and hold noise before, other noise on each side: what is not written
 * differs. */
struct handed_back {
    uint32_t guard_0, first, guard_1, second, guard_2, third, guard_3;
};

enum { GUARD = 0x5AA5C33C };

static uint32_t ask_answer(const struct functions *side, struct lent *part,
                           struct handed_back *back)
{
    return side->answer(part[PART_SHEET].at, part[PART_SHEET].n, part[PART_BANK].at,
                        part[PART_BANK].n, part[PART_RING].at, part[PART_RING].n,
                        part[PART_BYTES].at, part[PART_BYTES].n, part[PART_OUT].at,
                        part[PART_OUT].n, &back->first, &back->second);
}

static uint32_t ask_why(const struct functions *side, struct lent *part, struct handed_back *back)
{
    return side->why(part[PART_SHEET].at, part[PART_SHEET].n, part[PART_BANK].at,
                     part[PART_BANK].n, part[PART_RING].at, part[PART_RING].n,
                     part[PART_BYTES].at, part[PART_BYTES].n, &back->first, &back->second,
                     &back->third);
}

static uint32_t ask_query(const struct functions *side, const struct asked *asked,
                          struct lent *part, struct handed_back *back)
{
    return side->query(asked->order, asked->station, asked->address, asked->number,
                       part[PART_VALUES].at, part[PART_VALUES].n, part[PART_OUT].at,
                       part[PART_OUT].n, &back->first);
}

static uint32_t ask_reply(const struct functions *side, const struct asked *asked,
                          struct lent *part, struct handed_back *back)
{
    return side->reply(asked->order, asked->station, asked->address, asked->number,
                       part[PART_VALUES].at, part[PART_VALUES].n, part[PART_BYTES].at,
                       part[PART_BYTES].n, part[PART_OUT].at, part[PART_OUT].n, &back->first,
                       &back->second);
}

static uint32_t ask(const struct functions *side, const struct call *call, struct lent *part,
                    struct handed_back *back)
{
    const uint8_t *sheet = part[PART_SHEET].at;
    const uint8_t *bytes = part[PART_BYTES].at;
    uint8_t *bank = part[PART_BANK].at;
    uint8_t *ring = part[PART_RING].at;
    size_t sheet_n = part[PART_SHEET].n;
    size_t bank_n = part[PART_BANK].n;
    size_t ring_n = part[PART_RING].n;
    size_t bytes_n = part[PART_BYTES].n;
    switch (call->sort) {
    case CALL_CHECK_START: return side->check_start();
    case CALL_CHECK_TAKE: return side->check_take((uint16_t)call->value, call->byte);
    case CALL_CHECK_VALUE: return side->check_value(bytes, bytes_n);
    case CALL_QUERY: return ask_query(side, &call->asked, part, back);
    case CALL_REPLY: return ask_reply(side, &call->asked, part, back);
    case CALL_SHEET_CHECK: return side->sheet_check(sheet, sheet_n);
    case CALL_BANK_CHECK: return side->bank_check(sheet, sheet_n, bank, bank_n);
    case CALL_BANK_FRESH: return side->bank_fresh(sheet, sheet_n, bank, bank_n);
    case CALL_POST: return side->post(sheet, sheet_n, bank, bank_n, call->value, bytes, bytes_n);
    case CALL_SET_MARK: return side->set_mark(sheet, sheet_n, bank, bank_n, call->value);
    case CALL_ANSWER: return ask_answer(side, part, back);
    case CALL_WHY: return ask_why(side, part, back);
    case CALL_RING_CHECK: return side->ring_check(sheet, sheet_n, ring, ring_n);
    default: return side->add_record(sheet, sheet_n, ring, ring_n, bytes, bytes_n);
    }
}

static bool all_back(int side)
{
    bool kept = true;
    for (int part = 0; part < PART_COUNT; part++)
        if (!lent_back(&lent[side][part])) {
            printf("%s wrote beside its %s\n", side_names[side], part_names[part]);
            kept = false;
        }
    return kept;
}

/* The sheet and the frame, posted bytes or record are lent for reading only; to
 * two calls the bank too, and to all but one the ring. */
static bool is_only_read(enum call_sort sort, int part)
{
    return part == PART_SHEET || part == PART_BYTES || part == PART_VALUES
        || (part == PART_BANK && (sort == CALL_BANK_CHECK || sort == CALL_WHY))
        || (part == PART_RING && sort != CALL_ADD_RECORD);
}

static bool read_parts_kept(int side, const struct call *call)
{
    bool kept = true;
    for (int part = 0; part < PART_COUNT; part++)
        if (is_only_read(call->sort, part) && call->part_n[part] > 0
            && memcmp(lent_bytes(&lent[side][part]), call->part[part], call->part_n[part]) != 0) {
            printf("%s wrote into its %s\n", side_names[side], part_names[part]);
            kept = false;
        }
    return kept;
}

/* The numbers that were handed back, by what the call means with them. */
static void take_numbers(enum call_sort sort, const struct handed_back *back,
                         struct outcome *outcome)
{
    if (sort == CALL_ANSWER) {
        outcome->length = back->first;
        outcome->rate = back->second;
    }
    if (sort == CALL_WHY) {
        outcome->reason = back->first;
        outcome->address = back->second;
        outcome->side = back->third;
    }
    if (sort == CALL_QUERY || sort == CALL_REPLY)
        outcome->length = back->first;
    if (sort == CALL_REPLY)
        outcome->error = back->second;
}

static bool guards_stand(const struct handed_back *back)
{
    return back->guard_0 == GUARD && back->guard_1 == GUARD && back->guard_2 == GUARD
        && back->guard_3 == GUARD;
}

static bool run_side(int side, const struct call *call, struct outcome *outcome)
{
    struct handed_back back = { GUARD, (uint32_t)noise(), GUARD, (uint32_t)noise(), GUARD,
                                (uint32_t)noise(), GUARD };
    for (int part = 0; part < PART_COUNT; part++)
        lend(&lent[side][part], call->part[part], call->part_n[part], below(8), chance(50));
    memset(outcome, 0, sizeof *outcome);
    outcome->number = ask(&sides[side], call, lent[side], &back);
    take_numbers(call->sort, &back, outcome);
    bool kept = all_back(side) && read_parts_kept(side, call);
    if (!guards_stand(&back)) {
        printf("%s wrote beside its numbers\n", side_names[side]);
        kept = false;
    }
    return kept;
}

/* ---- Both sides ---- */

static bool same_parts(void)
{
    for (int part = 0; part < PART_COUNT; part++)
        if (lent[LIBRARY][part].n > 0
            && memcmp(lent_bytes(&lent[LIBRARY][part]), lent_bytes(&lent[SECOND][part]),
                      lent[LIBRARY][part].n) != 0)
            return false;
    return true;
}

static bool same_outcome(const struct outcome *one, const struct outcome *other)
{
    return one->number == other->number && one->length == other->length
        && one->rate == other->rate && one->reason == other->reason
        && one->address == other->address && one->side == other->side
        && one->error == other->error;
}

bool same_on_both_sides(const struct call *call, struct outcome *outcome)
{
    struct outcome of_side[SIDES];
    bool same = run_side(LIBRARY, call, &of_side[LIBRARY]);
    same = run_side(SECOND, call, &of_side[SECOND]) && same;
    same = same && same_outcome(&of_side[LIBRARY], &of_side[SECOND]) && same_parts();
    *outcome = of_side[LIBRARY];
    if (!same) {
        print_call(call);
        print_side(LIBRARY, &of_side[LIBRARY]);
        print_side(SECOND, &of_side[SECOND]);
    }
    return same;
}
