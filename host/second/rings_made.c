#include "rings_made.h"
#include "noise.h"

#include <string.h>

size_t made_ring_size(const struct made *made)
{
    const struct made_records *records = &made->records;
    return records->is ? 4 + 2 * (size_t)records->count * records->words : 0;
}

/* As noise_fill, eight bytes at a time: a ring can be large. */
static void fill_fast(uint8_t *bytes, size_t n)
{
    for (; n >= 8; bytes += 8, n -= 8) {
        uint64_t eight = noise();
        memcpy(bytes, &eight, 8);
    }
    noise_fill(bytes, n);
}

/* Some number of records, often all or all but one. */
static uint32_t some_stored(uint32_t count)
{
    return chance(40) ? count - below(count < 2 ? count : 2) : 1 + below(count);
}

void make_ring(const struct made *made, uint8_t *ring)
{
    uint32_t count = made->records.count;
    uint32_t newest = 0;
    uint32_t stored = 0;
    if (!made->records.is)
        return;
    fill_fast(ring, made_ring_size(made));
    switch (below(8)) {
    case 0:
        memset(ring, 0, made_ring_size(made));
        break;
    case 1: break;
    case 2: case 3:
        stored = some_stored(count);
        newest = stored - 1;
        break;
    case 4: case 5:
        stored = count;
        newest = ONE_OF(0, count - 1, below(count));
        break;
    default:
        stored = some_stored(count);
        newest = ONE_OF(0, count - 1, below(count), below(count));
        break;
    }
    put16(ring, 0, newest);
    put16(ring, 1, stored);
}

/* By one byte, by one word, by one record, or nothing at all. The bytes behind
 * the ring are noise. */
static size_t other_size(const struct made *made, uint8_t *ring)
{
    size_t n = made_ring_size(made);
    size_t record = 2 * (size_t)made->records.words;
    noise_fill(ring + n, 100);
    switch (below(8)) {
    case 0: return n + 1;
    case 1: return n + 2;
    case 2: return n - 1;
    case 3: return n - 2;
    case 4: return n + record;
    case 5: return n - record;
    case 6: return below((uint32_t)n);
    default: return 0;
    }
}

/* A ring where none belongs: one that would be empty, or noise. */
static size_t needless_ring(uint8_t *ring)
{
    noise_fill(ring, 100);
    if (chance(50))
        memset(ring, 0, 4);
    return ONE_OF(1, 2, 4, 4, 6, 100);
}

size_t spoil_ring(const struct made *made, uint8_t *ring)
{
    uint32_t count = made->records.count;
    if (!made->records.is)
        return needless_ring(ring);
    switch (below(5)) {
    case 0: case 1: return other_size(made, ring);
    case 2:
        put16(ring, 0, chance(60) ? count : ONE_OF(count + 1, count + 0x0100, 0x8000, 0xFFFF));
        if (chance(60))
            put16(ring, 1, some_stored(count));
        break;
    case 3:
        put16(ring, 1, chance(60) ? count + 1 : ONE_OF(count + 2, count + 0x8000, 0xFFFF));
        break;
    default:
        put16(ring, 0, count < 2 ? 1 : chance(50) ? count - 1 : 1 + below(count - 1));
        put16(ring, 1, 0);
        break;
    }
    return made_ring_size(made);
}
