#include "lent.h"

#include <string.h>

/* With the address sanitizer the canaries are closed for reading too. */
#if defined(__SANITIZE_ADDRESS__)
#include <sanitizer/asan_interface.h>
#define CLOSE(at, n) __asan_poison_memory_region(at, n)
#define OPEN(at, n) __asan_unpoison_memory_region(at, n)
#else
#define CLOSE(at, n) ((void)(at), (void)(n))
#define OPEN(at, n) ((void)(at), (void)(n))
#endif

static uint8_t canary_byte(size_t index)
{
    return (uint8_t)(0xA5 ^ (index * 29));
}

static void put_canary(uint8_t *store, size_t from, size_t to)
{
    for (size_t i = from; i < to; i++)
        store[i] = canary_byte(i);
}

static bool canary_stands(const uint8_t *store, size_t from, size_t to)
{
    for (size_t i = from; i < to; i++)
        if (store[i] != canary_byte(i))
            return false;
    return true;
}

static uint8_t *store_of(struct lent *lent)
{
    return (uint8_t *)lent->store;
}

void lend(struct lent *lent, const uint8_t *bytes, size_t n, unsigned offset, bool null)
{
    uint8_t *store = store_of(lent);
    lent->front = LENT_CANARY + offset;
    lent->n = n;
    lent->at = null && n == 0 ? NULL : store + lent->front;
    put_canary(store, 0, lent->front);
    put_canary(store, lent->front + n, lent->front + n + LENT_CANARY);
    if (n > 0)
        memcpy(store + lent->front, bytes, n);
    CLOSE(store, lent->front);
    CLOSE(store + lent->front + n, LENT_CANARY);
}

bool lent_back(struct lent *lent)
{
    uint8_t *store = store_of(lent);
    OPEN(store, lent->front + lent->n + LENT_CANARY);
    return canary_stands(store, 0, lent->front)
        && canary_stands(store, lent->front + lent->n, lent->front + lent->n + LENT_CANARY);
}

const uint8_t *lent_bytes(const struct lent *lent)
{
    return (const uint8_t *)lent->store + lent->front;
}
