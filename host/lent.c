/* Memory to lend, and what a call did to it. */
#include "lent.h"

#include <string.h>

uint8_t noise(void)
{
    static uint32_t state = 20261115;
    state ^= state << 13;
    state ^= state >> 17;
    state ^= state << 5;
    return (uint8_t)(state >> 11);
}

void lend(struct lent *lent, size_t n, size_t shift)
{
    size_t i;
    lent->used = LENT_CANARY + shift + n + LENT_CANARY;
    for (i = 0; i < lent->used; i++)
        lent->block[i] = noise();
    lent->bytes = lent->block + LENT_CANARY + shift;
    lent->n = n;
}

void lend_copy(struct lent *lent, const uint8_t *from, size_t n, size_t shift)
{
    lend(lent, n, shift);
    memcpy(lent->bytes, from, n);
}

void lent_resize(struct lent *lent, size_t n)
{
    size_t used = (size_t)(lent->bytes - lent->block) + n + LENT_CANARY;
    while (lent->used < used)
        lent->block[lent->used++] = noise();
    lent->used = used;
    lent->n = n;
}

void lend_null(struct lent *lent)
{
    lend(lent, 0, 0);
    lent->bytes = NULL;
}

void lent_keep(struct lent *lent)
{
    memcpy(lent->before, lent->block, lent->used);
}

int lent_as_before(const struct lent *lent)
{
    return memcmp(lent->block, lent->before, lent->used) == 0;
}

int lent_as_before_but(const struct lent *lent, size_t n)
{
    size_t front, end;
    if (lent->bytes == NULL)
        return lent_as_before(lent);
    front = (size_t)(lent->bytes - lent->block);
    end = front + n;
    return memcmp(lent->block, lent->before, front) == 0
        && memcmp(lent->block + end, lent->before + end, lent->used - end) == 0;
}
