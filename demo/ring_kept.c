/* A ring that outlasts a power cut, by cedarskein.h, "A power cut", as C that firmware can take over. host/ring_power_cut.c tries it with a cut
 * at every byte. */
#include "ring_kept.h"

#include <string.h>

/* The sheet's numbers of areas and items, and the words of a record behind the item rows, as cedarskein.h, "The ring", finds them. */
enum { AREAS = 3, ITEMS = 7, WORDS_OF_RECORD = 5 };

struct head {
    uint8_t bytes[HEAD_SIZE + CHECK_SIZE];
};

enum copy_number { FIRST_COPY, SECOND_COPY };
enum copy_state { GOOD, NOT_GOOD, UNREAD };

static size_t record_size(const struct kept_ring *kept)
{
    size_t row = 2 * (12 + 4 * (size_t)kept->sheet[AREAS] + 6 * (size_t)kept->sheet[ITEMS]);
    return 2 * (size_t)kept->sheet[row + WORDS_OF_RECORD];
}

/* Two words, and their check value behind them, low byte first as on the line. */
static struct head head_of(const uint8_t *words)
{
    struct head head;
    uint16_t value = cedarskein_check_value(words, HEAD_SIZE);
    memcpy(head.bytes, words, HEAD_SIZE);
    head.bytes[HEAD_SIZE] = (uint8_t)(value & 0xFF);
    head.bytes[HEAD_SIZE + 1] = (uint8_t)(value >> 8);
    return head;
}

static int are_alike(const struct head *one, const struct head *other)
{
    return memcmp(one->bytes, other->bytes, sizeof one->bytes) == 0;
}

static int load_head(const struct kept_ring *kept, enum copy_number number, struct head *head)
{
    return kept->heads.load(kept->heads.memory, (size_t)number * sizeof head->bytes, head->bytes, sizeof head->bytes);
}

/* Whether the ring is sound with these two words. Its own are put back. */
static int are_sound(const struct kept_ring *kept, const uint8_t *words)
{
    uint8_t own[HEAD_SIZE];
    uint32_t number;
    memcpy(own, kept->ring, HEAD_SIZE);
    memcpy(kept->ring, words, HEAD_SIZE);
    number = cedarskein_ring_check(kept->sheet, kept->sheet_n, kept->ring, kept->ring_n);
    memcpy(kept->ring, own, HEAD_SIZE);
    return number == CEDARSKEIN_DONE;
}

/* A copy is good where its check value agrees, and the ring is sound. */
static enum copy_state look_at(const struct kept_ring *kept, enum copy_number number, struct head *head)
{
    struct head whole;
    if (load_head(kept, number, head) != 0)
        return UNREAD;
    whole = head_of(head->bytes);
    return are_alike(head, &whole) && are_sound(kept, head->bytes) ? GOOD : NOT_GOOD;
}

/* Writes a copy where it differs from the two words. */
static int renew_head(const struct kept_ring *kept, enum copy_number number)
{
    struct head head = head_of(kept->ring), found;
    if (load_head(kept, number, &found) == 0 && are_alike(&head, &found))
        return 0;
    return kept->heads.store(kept->heads.memory, (size_t)number * sizeof head.bytes, head.bytes, sizeof head.bytes);
}

/* One is begun only when the other is whole: a cut spoils one at most. Where they differ, as after a store that failed, start-up takes the first
 * one if it is good, and so that one comes last: it may be the only good one. */
static int renew_heads(const struct kept_ring *kept)
{
    struct head first, second;
    int first_comes_last = look_at(kept, FIRST_COPY, &first) == GOOD
        && (load_head(kept, SECOND_COPY, &second) != 0 || !are_alike(&first, &second));
    if (renew_head(kept, first_comes_last ? SECOND_COPY : FIRST_COPY) != 0)
        return -1;
    return renew_head(kept, first_comes_last ? FIRST_COPY : SECOND_COPY);
}

/* Bytes of the records, which stand in lasting memory as they do behind the ring's two words. */
static int store_records(const struct kept_ring *kept, size_t at, size_t n)
{
    if (kept->records.store == NULL)
        return 0;
    return kept->records.store(kept->records.memory, at, kept->ring + HEAD_SIZE + at, n);
}

/* A record is counted only once it is whole: its bytes come first. */
int keep_newest(const struct kept_ring *kept)
{
    size_t place = (size_t)kept->ring[0] << 8 | kept->ring[1];
    if (store_records(kept, place * record_size(kept), record_size(kept)) != 0)
        return -1;
    return renew_heads(kept);
}

int keep_whole_ring(const struct kept_ring *kept)
{
    if (store_records(kept, 0, kept->ring_n - HEAD_SIZE) != 0)
        return -1;
    return renew_heads(kept);
}

static int load_records(const struct kept_ring *kept)
{
    if (kept->records.load == NULL)
        return 0;
    return kept->records.load(kept->records.memory, 0, kept->ring + HEAD_SIZE, kept->ring_n - HEAD_SIZE);
}

static enum restored_ring restore_from(const struct kept_ring *kept, const struct head *good, enum copy_number other)
{
    memcpy(kept->ring, good->bytes, HEAD_SIZE);
    return renew_head(kept, other) == 0 ? RING_RESTORED : RING_IN_ONE_COPY;
}

/* A history is lost only where both copies were read: what could not be read may be good the next time. */
enum restored_ring restore_ring(const struct kept_ring *kept)
{
    struct head head;
    enum copy_state first, second;
    if (load_records(kept) != 0)
        return RING_UNREAD;
    first = look_at(kept, FIRST_COPY, &head);
    if (first == GOOD)
        return restore_from(kept, &head, SECOND_COPY);
    second = look_at(kept, SECOND_COPY, &head);
    if (second == GOOD)
        return restore_from(kept, &head, FIRST_COPY);
    if (first == UNREAD || second == UNREAD)
        return RING_UNREAD;
    memset(kept->ring, 0, HEAD_SIZE);
    return RING_LOST;
}
