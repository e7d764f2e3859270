/* A ring against a power cut, by cedarskein.h, "A power cut", which demo/ring_kept.c has as C: a cut at every byte of an addition, into rings
 * that are empty, part full, full, and round again, and another cut at start-up; and one at every byte of what mends a store that failed. After each:
 *
 * - the ring is sound;
 * - it is the ring before the addition or the ring after it, and in the second case the new record is whole;
 * - every record that it counts reads as it did, but one: the oldest of a full ring before the addition, whose room is the new record's. */
#include "calls.h"

#include "../demo/ring_kept.h"
#include "cedarskein.h"
#include "cedarskein_sheets.h"
#include "expect.h"

#include <string.h>

#define NO_CUT 0xFFFFFFFFu
#define MOST_BYTES 620404
#define HEAD (HEAD_SIZE + CHECK_SIZE)
#define HISTORY 0x0400

enum part { THE_RECORDS = 1, THE_FIRST_COPY = 2, THE_SECOND_COPY = 4 };

/* Memory that outlasts a cut. */
static struct {
    uint8_t records[MOST_BYTES], heads[KEPT_HEADS];
    unsigned bytes_left; /* that are still written before the power goes, or a store fails */
    int records_fail;    /* no record is taken, though the power is there */
    int spoils;          /* the byte of a copy that a cut hits is neither the old nor the new one */
    unsigned unread;     /* the parts that cannot be loaded */
} chip;

static int load(void *memory, size_t at, uint8_t *bytes, size_t n)
{
    enum part part = memory == chip.records ? THE_RECORDS : at < HEAD ? THE_FIRST_COPY : THE_SECOND_COPY;
    if (chip.unread & part)
        return -1;
    memcpy(bytes, (uint8_t *)memory + at, n);
    return 0;
}

static int store(void *memory, size_t at, const uint8_t *bytes, size_t n)
{
    size_t i;
    if (chip.records_fail && memory == chip.records)
        return -1;
    for (i = 0; i < n && chip.bytes_left > 0; i++, chip.bytes_left--)
        ((uint8_t *)memory)[at + i] = bytes[i];
    if (i < n && chip.spoils && memory == chip.heads)
        chip.heads[at + i] = bytes[i] ^ 0x5A;
    return i < n;
}

static uint8_t sheet[CEDARSKEIN_UX_SHEET_SIZE + RECORD_ROW], bank[CEDARSKEIN_UX_BANK_SIZE], ring[MOST_BYTES];
static struct records records;
static struct kept_ring kept = { sheet, sizeof sheet, ring, 0, { load, store, chip.records }, { load, store, chip.heads } };

static void start(uint16_t count, uint16_t words)
{
    records.first = HISTORY;
    records.count = count;
    records.words = words;
    put_records(sheet, cedarskein_ux_sheet, CEDARSKEIN_UX_SHEET_SIZE, records);
    kept.ring_n = ring_size(records);
    cedarskein_bank_fresh(sheet, sizeof sheet, bank, sizeof bank);
}

/* A record by its serial number, the first one's 1; its bytes all differ from those of the next. */
static void write_record(uint8_t *bytes, unsigned serial)
{
    size_t k;
    for (k = 0; k < 2u * records.words; k++)
        bytes[k] = (uint8_t)(serial * 37 + k * 11);
}

static void add(unsigned serial)
{
    uint8_t record[94];
    write_record(record, serial);
    expect_number(CEDARSKEIN_DONE, cedarskein_add_record(sheet, sizeof sheet, ring, kept.ring_n, record, 2 * (size_t)records.words),
                  "add_record");
}

/* An empty ring is kept, and so many records after it, each by itself. */
static void keep_so_many(unsigned added)
{
    unsigned serial;
    chip.bytes_left = NO_CUT;
    memset(ring, 0, kept.ring_n);
    expect(keep_whole_ring(&kept) == 0, "the empty ring is kept");
    for (serial = 1; serial <= added; serial++) {
        add(serial);
        expect(keep_newest(&kept) == 0, "the record is kept");
    }
}

/* Starts up with that many bytes until the next cut; what plain memory held is gone. */
static enum restored_ring starts_up(unsigned bytes_left)
{
    chip.bytes_left = bytes_left;
    if (kept.records.load != NULL)
        memset(ring, 0xA5, kept.ring_n);
    return restore_ring(&kept);
}

/* ---- The ring as a master sees it ---- */

/* The record with this number, by a frame. Hands back its bytes, or NULL where the meter has none. */
static const uint8_t *record_read(unsigned number)
{
    static uint8_t out[CEDARSKEIN_LEAST_OUT];
    uint8_t frame[8] = { 1, 3, 0, 0, 0, 1 };
    uint32_t length, rate;
    set_word(frame, 1, (uint16_t)(HISTORY + number - 1));
    seal(frame, sizeof frame);
    expect_number(CEDARSKEIN_DONE, cedarskein_answer(sheet, sizeof sheet, bank, sizeof bank, ring, kept.ring_n, frame, sizeof frame, out,
                                                     sizeof out, &length, &rate), "the frame");
    return out[1] == 3 ? out + 3 : NULL;
}

static unsigned stored_at(unsigned serial)
{
    return serial < records.count ? serial : records.count;
}

/* Whether the record with this number is the one of that serial number, and so whole. */
static int reads_as(unsigned number, unsigned serial)
{
    uint8_t record[94];
    const uint8_t *read = record_read(number);
    write_record(record, serial);
    return read != NULL && memcmp(read, record, 2 * (size_t)records.words) == 0;
}

/* The front of one record and the rest of another. */
static int reads_torn(unsigned number, unsigned front, unsigned rest, unsigned bytes)
{
    uint8_t record[94], other[94];
    const uint8_t *read = record_read(number);
    write_record(record, rest);
    write_record(other, front);
    memcpy(record, other, bytes);
    return read != NULL && memcmp(read, record, 2 * (size_t)records.words) == 0;
}

/* Every record of a ring to which so many were added, but those from this number on. */
static void expect_records(unsigned added, unsigned but_from)
{
    unsigned number;
    for (number = 1; number <= records.count && number < but_from; number++)
        if (number <= stored_at(added))
            expect(reads_as(number, added - (number - 1)), "a record that is counted reads as before");
        else
            expect(record_read(number) == NULL, "a record that is not stored is not read");
}

static int ring_is_of(unsigned added)
{
    return word_at(ring, 0) == (added == 0 ? 0 : (added - 1) % records.count) && word_at(ring, 1) == stored_at(added);
}

/* ---- Cuts ---- */

/* The ring before the addition. Of a full one, the oldest record has as much of the new one as was written. */
static void expect_before(unsigned added, unsigned written)
{
    int full = stored_at(added) == records.count;
    unsigned size = 2u * records.words;
    expect_records(added, full ? records.count : records.count + 1u);
    if (full)
        expect(reads_torn(records.count, added + 1, added - (records.count - 1u), written < size ? written : size),
               "the oldest record is torn, where the cut was");
}

/* The ring when so many bytes of the new record and of the copies were written. */
static void expect_before_or_after(unsigned added, unsigned bytes)
{
    unsigned size = 2u * records.words;
    expect_number(CEDARSKEIN_DONE, cedarskein_ring_check(sheet, sizeof sheet, ring, kept.ring_n), "ring_check");
    expect(memcmp(chip.heads, chip.heads + HEAD, HEAD) == 0, "both copies are alike again");
    if (bytes >= size + HEAD)
        expect(ring_is_of(added + 1), "the ring is that after: its first copy was written");
    if (bytes <= size)
        expect(ring_is_of(added) || (records.count == 1 && added > 0), "the ring is that before: no copy was begun");
    if (bytes >= size && ring_is_of(added + 1))
        expect_records(added + 1, records.count + 1u);
    else if (ring_is_of(added))
        expect_before(added, bytes);
    else
        expect(0, "the ring is that before or that after");
}

/* The bytes of the copies that an addition writes. In a ring of one record the two words stay as they are from the first one on. */
static unsigned copies_size(unsigned added)
{
    return records.count == 1 && added > 0 ? 0 : KEPT_HEADS;
}

/* Start-up with so many bytes that can be written: where the copies differ, that is enough for the other one or it is not. */
static void expect_start_up(unsigned bytes)
{
    int enough = bytes >= HEAD || memcmp(chip.heads, chip.heads + HEAD, HEAD) == 0;
    expect_number(enough ? RING_RESTORED : RING_IN_ONE_COPY, starts_up(bytes), "start-up");
}

/* A cut when so many bytes of the addition are written, and one at start-up; the second start-up goes through. */
static void cut_after(unsigned added, unsigned bytes, unsigned bytes_at_start)
{
    at_case("%u places of %u words, %u added, a cut after %u bytes, and after %u at start-up", records.count, records.words, added, bytes,
            bytes_at_start);
    keep_so_many(added);
    add(added + 1);
    chip.bytes_left = bytes;
    expect((keep_newest(&kept) == 0) == (bytes >= 2u * records.words + copies_size(added)), "keeping the record fails, or it does not");
    expect_start_up(bytes_at_start);
    expect_start_up(NO_CUT);
    expect_before_or_after(added, bytes);
}

/* Rings that are empty, part full, full, and round again once and twice. */
static void cuts(uint16_t count, uint16_t words)
{
    unsigned added, bytes, bytes_at_start;
    start(count, words);
    for (added = 0; added <= 2u * count + 1; added++)
        for (bytes = 0; bytes <= 2u * words + KEPT_HEADS; bytes++)
            for (bytes_at_start = 0; bytes_at_start <= HEAD; bytes_at_start++)
                cut_after(added, bytes, bytes_at_start);
}

/* Start-up with a ring that lies in lasting memory itself: the two words are a copy's, and the records as the cut left them. */
static void expect_in_place(unsigned added, const uint8_t *left)
{
    int full = stored_at(added) == records.count;
    expect_start_up(NO_CUT);
    expect_number(CEDARSKEIN_DONE, cedarskein_ring_check(sheet, sizeof sheet, ring, kept.ring_n), "ring_check");
    expect(ring_is_of(added), "the ring is that before");
    expect_records(added, full ? records.count : records.count + 1u);
    if (full) {
        const uint8_t *read = record_read(records.count);
        expect(read != NULL && memcmp(read, left + record_at(records, added % records.count), 2 * (size_t)records.words) == 0,
               "the oldest record is as the cut left it");
    }
}

/* The cut comes while the record is added, with any of what the call writes written. What is in the ring's own two words does not matter. */
static void cut_while_adding(unsigned added, unsigned bytes, int from_the_end)
{
    static uint8_t before[MOST_BYTES], left[MOST_BYTES];
    size_t i, n = kept.ring_n;
    at_case("a ring in lasting memory, %u places, %u added, %u bytes of it written from the %s", records.count, added, bytes,
            from_the_end ? "end" : "front");
    keep_so_many(added);
    memcpy(before, ring, n);
    add(added + 1);
    for (i = 0; i < n; i++)
        if (bytes <= (from_the_end ? n - 1 - i : i))
            ring[i] = before[i];
    memcpy(left, ring, n);
    expect_in_place(added, left);
    memset(ring, 0xA5, HEAD_SIZE);
    expect_in_place(added, left);
}

/* The cut comes later, while the copies are written: the record is whole. */
static void cut_while_keeping(unsigned added, unsigned bytes)
{
    at_case("a ring in lasting memory, %u places, %u added, a cut after %u bytes of the copies", records.count, added, bytes);
    keep_so_many(added);
    add(added + 1);
    chip.bytes_left = bytes;
    expect((keep_newest(&kept) == 0) == (bytes >= copies_size(added)), "keeping the record fails, or it does not");
    expect_start_up(NO_CUT);
    expect_before_or_after(added, 2u * records.words + bytes);
}

static void cuts_in_place(uint16_t count, uint16_t words)
{
    unsigned added, bytes;
    start(count, words);
    kept.records.load = NULL;
    kept.records.store = NULL;
    for (added = 0; added <= 2u * count + 1; added++) {
        for (bytes = 0; bytes <= kept.ring_n; bytes++) {
            cut_while_adding(added, bytes, 0);
            cut_while_adding(added, bytes, 1);
        }
        for (bytes = 0; bytes <= KEPT_HEADS; bytes++)
            cut_while_keeping(added, bytes);
    }
    kept.records.load = load;
    kept.records.store = store;
}

/* ---- The two words of the largest ring ---- */

static void write_head(uint8_t *head, unsigned added)
{
    uint16_t value;
    set_word(head, 0, (uint16_t)(added == 0 ? 0 : (added - 1) % records.count));
    set_word(head, 1, (uint16_t)stored_at(added));
    value = check_of(head, HEAD_SIZE);
    head[HEAD_SIZE] = (uint8_t)(value & 0xFF);
    head[HEAD_SIZE + 1] = (uint8_t)(value >> 8);
}

/* Each step of a ring of 6,600 from empty to round again, cut at each byte of a copy: where the check value agrees, the copy is whole. */
static void every_head(void)
{
    uint8_t before[HEAD], after[HEAD], torn[HEAD];
    unsigned added, bytes;
    start(6600, 1);
    for (added = 0; added <= 2 * 6600; added++)
        for (bytes = 0; bytes <= HEAD; bytes++) {
            write_head(before, added);
            write_head(after, added + 1);
            memcpy(torn, before, HEAD);
            memcpy(torn, after, bytes);
            at_case("the two words after %u additions, %u bytes of the next", added, bytes);
            expect(check_of(torn, HEAD) != 0 || memcmp(torn, before, HEAD) == 0 || memcmp(torn, after, HEAD) == 0,
                   "a torn copy's check value does not agree");
        }
}

/* ---- Memory that was never written, copies that are spoiled, and stores that fail ---- */

static void nothing_kept(uint8_t byte)
{
    at_case("memory full of %02X", byte);
    start(3, 2);
    memset(chip.records, byte, sizeof chip.records);
    memset(chip.heads, byte, sizeof chip.heads);
    expect_number(RING_LOST, starts_up(NO_CUT), "start-up: no copy is good");
    expect_number(NO_CUT, chip.bytes_left, "bytes that may be written still: none was");
    expect(ring_is_of(0), "the ring is empty");
    expect_number(CEDARSKEIN_DONE, cedarskein_ring_check(sheet, sizeof sheet, ring, kept.ring_n), "ring_check");
}

/* One copy with any byte changed: the other is taken. Both: none is. A right check value does not make a ring sound. */
static void spoiled(unsigned byte)
{
    uint8_t far[HEAD] = { 0, 3, 0, 3 };
    at_case("byte %u of a copy is spoiled", byte);
    start(3, 2);
    keep_so_many(2);
    chip.heads[byte] ^= 0x10;
    expect(starts_up(NO_CUT) == RING_RESTORED && ring_is_of(2), "the other copy is good");
    expect(memcmp(chip.heads, chip.heads + HEAD, HEAD) == 0, "both copies are alike again");
    chip.heads[byte] ^= 0x10;
    chip.heads[(byte + HEAD) % KEPT_HEADS] ^= 0x01;
    expect(starts_up(NO_CUT) == RING_LOST && ring_is_of(0), "no copy is good, and the ring is empty");
    keep_so_many(2);
    seal(far, HEAD);
    memcpy(chip.heads, far, HEAD);
    expect(starts_up(NO_CUT) == RING_RESTORED && ring_is_of(2), "a copy of no sound ring is not taken");
}

/* Only one copy is good when a record is kept, and a cut comes: the bad one is written first. */
static void one_good_copy(unsigned cut)
{
    add(3);
    chip.bytes_left = cut;
    expect((keep_newest(&kept) == 0) == (cut >= 4 + KEPT_HEADS), "keeping the record fails, or it does not");
    chip.unread = 0;
    expect_start_up(NO_CUT);
    expect(ring_is_of(3) || (ring_is_of(2) && cut < 4 + KEPT_HEADS), "the ring is that before or that after");
}

/* The bad one has a check value that agrees, but is of no sound ring. */
static void not_sound(uint8_t *copy, unsigned cut)
{
    uint8_t far[HEAD] = { 0, 3, 0, 3 };
    at_case("the copy at byte %u is of no sound ring, and a cut after %u bytes", (unsigned)(copy - chip.heads), cut);
    start(3, 2);
    keep_so_many(2);
    seal(far, HEAD);
    memcpy(copy, far, HEAD);
    one_good_copy(cut);
}

/* The bad one cannot even be loaded. */
static void not_loaded(enum part part, unsigned cut)
{
    at_case("the copy %u is spoiled and not loaded, and a cut after %u bytes", part, cut);
    start(3, 2);
    keep_so_many(2);
    chip.heads[part == THE_FIRST_COPY ? 0 : HEAD] ^= 0x10;
    chip.unread = part;
    one_good_copy(cut);
}

/* Parts that cannot be loaded, and a byte that is spoiled besides: nothing is changed, and all is there at the next start-up. */
static void unread(unsigned parts, unsigned added, uint8_t *spoiled_byte)
{
    at_case("the parts %u are not loaded, %u added", parts, added);
    keep_so_many(added);
    *spoiled_byte ^= 0x10;
    chip.unread = parts;
    expect_number(RING_UNREAD, starts_up(NO_CUT), "start-up");
    chip.unread = 0;
    expect_number(NO_CUT, chip.bytes_left, "bytes that may be written still: none was");
    expect(word_at(ring, 0) == 0xA5A5 && word_at(ring, 1) == 0xA5A5, "the two words are as they were");
    expect_start_up(NO_CUT);
    expect(ring_is_of(added), "the ring is as it was kept");
    expect_records(added, records.count + 1u);
}

/* One copy that cannot be loaded: the other is taken. */
static void one_copy_unread(enum part copy, unsigned added)
{
    at_case("the copy %u is not loaded, %u added", copy, added);
    keep_so_many(added);
    chip.unread = copy;
    expect_number(RING_RESTORED, starts_up(NO_CUT), "start-up");
    chip.unread = 0;
    expect(ring_is_of(added), "the ring is as it was kept");
    expect_records(added, records.count + 1u);
}

static void unreads(void)
{
    uint8_t none = 0;
    unsigned added;
    start(3, 2);
    for (added = 0; added < 8; added++) {
        unread(THE_RECORDS, added, &none);
        unread(THE_RECORDS, added, chip.heads);
        unread(THE_FIRST_COPY | THE_SECOND_COPY, added, &none);
        unread(THE_FIRST_COPY, added, chip.heads + HEAD);
        unread(THE_SECOND_COPY, added, chip.heads);
        one_copy_unread(THE_FIRST_COPY, added);
        one_copy_unread(THE_SECOND_COPY, added);
    }
}

static void fail_to_keep(unsigned added, unsigned bytes)
{
    keep_so_many(added);
    add(added + 1);
    chip.bytes_left = bytes;
    expect(keep_newest(&kept) != 0, "the failure is told");
}

/* A store that fails and no start-up behind it: the whole ring is written, and nothing is lost. */
static void failed_store(unsigned added, unsigned bytes)
{
    at_case("a store that fails after %u bytes, %u added", bytes, added);
    fail_to_keep(added, bytes);
    chip.bytes_left = 0;
    expect(keep_whole_ring(&kept) != 0, "and told again");
    chip.bytes_left = NO_CUT;
    add(added + 2);
    expect(keep_whole_ring(&kept) == 0, "the ring is kept");
    expect(starts_up(NO_CUT) == RING_RESTORED && ring_is_of(added + 2), "the ring is that after");
    expect_records(added + 2, records.count + 1u);
}

/* A record that was not stored is not counted. */
static void failed_record(unsigned added)
{
    uint8_t heads[KEPT_HEADS];
    at_case("the memory takes no record, %u added", added);
    keep_so_many(added);
    memcpy(heads, chip.heads, sizeof heads);
    chip.records_fail = 1;
    add(added + 1);
    expect(keep_newest(&kept) != 0, "the failure is told");
    expect(keep_whole_ring(&kept) != 0, "and told again");
    chip.records_fail = 0;
    expect(memcmp(heads, chip.heads, sizeof heads) == 0, "neither copy was begun");
    expect(starts_up(NO_CUT) == RING_RESTORED && ring_is_of(added), "the ring is that before");
    expect_records(added, records.count + 1u);
}

/* The record is kept once more, and a cut comes. */
static void cut_while_keeping_again(unsigned added, unsigned bytes, unsigned cut)
{
    at_case("a store that fails after %u bytes, %u added, and a cut after %u bytes of the record once more", bytes, added, cut);
    fail_to_keep(added, bytes);
    chip.bytes_left = cut;
    keep_newest(&kept);
    expect_start_up(NO_CUT);
    expect_before_or_after(added, cut > bytes ? cut : bytes);
}

/* The whole ring is kept, with one record more or none, and a cut comes: what a whole first copy had counted stays counted. */
static void cut_while_keeping_whole(unsigned added, unsigned bytes, unsigned more, unsigned cut)
{
    unsigned last = added + 1 + more;
    at_case("a store that fails after %u bytes, %u added, %u more, and a cut after %u bytes of the whole ring", bytes, added, more, cut);
    fail_to_keep(added, bytes);
    if (more == 1)
        add(last);
    chip.bytes_left = cut;
    keep_whole_ring(&kept);
    expect_start_up(NO_CUT);
    expect(ring_is_of(last) || ring_is_of(added + 1) || (ring_is_of(added) && bytes < 2u * records.words + HEAD),
           "the ring is that of a whole copy");
    if (ring_is_of(last))
        expect_records(last, records.count + 1u);
}

/* A store fails at the start-up after a cut, the newest record is kept, and a cut comes: the ring is the one that was restored. */
static void cut_after_failed_start(unsigned added, unsigned bytes, unsigned bytes_at_start, unsigned cut)
{
    uint8_t restored[HEAD_SIZE];
    at_case("%u added, a cut after %u bytes, a store that fails after %u at start-up, and a cut after %u", added, bytes, bytes_at_start, cut);
    fail_to_keep(added, bytes);
    expect_start_up(bytes_at_start);
    memcpy(restored, ring, HEAD_SIZE);
    chip.bytes_left = cut;
    keep_newest(&kept);
    expect_start_up(NO_CUT);
    expect(memcmp(restored, ring, HEAD_SIZE) == 0, "the ring is the one that was restored");
    expect_before_or_after(added, bytes);
}

static void cuts_after_failed_store(unsigned added, unsigned bytes)
{
    unsigned bytes_at_start, cut;
    for (cut = 0; cut <= 2u * records.words + KEPT_HEADS; cut++)
        cut_while_keeping_again(added, bytes, cut);
    for (cut = 0; cut <= kept.ring_n - HEAD_SIZE + KEPT_HEADS; cut++) {
        cut_while_keeping_whole(added, bytes, 0, cut);
        cut_while_keeping_whole(added, bytes, 1, cut);
    }
    for (bytes_at_start = 0; bytes_at_start < HEAD; bytes_at_start++)
        for (cut = 0; cut <= 2u * records.words + KEPT_HEADS; cut++)
            cut_after_failed_start(added, bytes, bytes_at_start, cut);
}

static void failed_stores(void)
{
    unsigned added, bytes;
    start(3, 2);
    for (added = 0; added < 8; added++) {
        failed_record(added);
        for (bytes = 0; bytes < 4 + KEPT_HEADS; bytes++) {
            failed_store(added, bytes);
            cuts_after_failed_store(added, bytes);
        }
    }
}

/* A copy ends with its check value as a frame does, low byte first: over both together the check value is 0. */
static void copies_end_as_frames_do(void)
{
    at_case("a copy and its check value");
    start(3, 2);
    keep_so_many(2);
    expect_number(0, cedarskein_check_value(chip.heads, HEAD), "the check value of the first copy and its own");
    expect_number(0, cedarskein_check_value(chip.heads + HEAD, HEAD), "the check value of the second copy and its own");
}

static void every_cut(int spoils)
{
    unsigned bytes;
    chip.spoils = spoils;
    cuts(1, 1);
    cuts(3, 2);
    cuts(2, 47);
    cuts_in_place(1, 2);
    cuts_in_place(3, 2);
    failed_stores();
    for (bytes = 0; bytes <= 4 + KEPT_HEADS; bytes++) {
        not_sound(chip.heads, bytes);
        not_sound(chip.heads + HEAD, bytes);
        not_loaded(THE_FIRST_COPY, bytes);
        not_loaded(THE_SECOND_COPY, bytes);
    }
}

int main(void)
{
    unsigned byte;
    every_cut(0);
    every_cut(1);
    every_head();
    nothing_kept(0xFF);
    nothing_kept(0x00);
    for (byte = 0; byte < KEPT_HEADS; byte++)
        spoiled(byte);
    unreads();
    copies_end_as_frames_do();
    return told("a power cut at every byte of an addition to a ring, and another at start-up or behind a store that failed");
}
