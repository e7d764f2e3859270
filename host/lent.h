/* Memory to lend to a call: so many bytes at any alignment, between canaries, all of it noise at first. */
#ifndef LENT_H
#define LENT_H

#include <stddef.h>
#include <stdint.h>

#define LENT_LONGEST 620420 /* a ring of 6,600 records of 47 words, and some more */
#define LENT_CANARY 64
#define LENT_SHIFTS 8
#define LENT_ROOM (LENT_CANARY + LENT_SHIFTS + LENT_LONGEST + LENT_CANARY)

struct lent {
    uint8_t block[LENT_ROOM];
    uint8_t before[LENT_ROOM];
    size_t used; /* bytes of the block: the lent ones and the canaries */
    uint8_t *bytes;
    size_t n;
};

/* A byte of noise, never the same run of bytes twice in a test, and the same in every run of it. */
uint8_t noise(void);

/* Noise of n bytes, shift bytes behind a place that is aligned. */
void lend(struct lent *lent, size_t n, size_t shift);

/* The same, with given bytes in it. */
void lend_copy(struct lent *lent, const uint8_t *from, size_t n, size_t shift);

/* The same place with more bytes, noise behind those that are there, or with fewer. */
void lent_resize(struct lent *lent, size_t n);

/* A null pointer, and no bytes. */
void lend_null(struct lent *lent);

/* Keeps what is there before a call. */
void lent_keep(struct lent *lent);

/* Whether every byte is as it was kept, those on both sides too. */
int lent_as_before(const struct lent *lent);

/* Whether every byte but the first n lent ones is as it was kept. */
int lent_as_before_but(const struct lent *lent, size_t n);

#endif
