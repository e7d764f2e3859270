/* Where a frame has its parts, by document 01, and the registers that it is about. */
#ifndef FRAME_H
#define FRAME_H

#include "memory.h"

enum { READ = 0x03, CLEAR = 0x05, WRITE = 0x06, WRITE_SEVERAL = 0x10, ERROR_BIT = 0x80 };

/* Bytes from the front, and words of two bytes: the word with the number 1 is the third byte and the fourth. */
enum { STATION_BYTE = 0, FUNCTION_BYTE = 1, BYTE_COUNT_BYTE = 6, START_WORD = 1, COUNT_WORD = 2, VALUE_WORD = 2, CHECK_BYTES = 2 };

/* The stations that a meter can have, and the one that means all of them. */
enum { BROADCAST = 0, FIRST_STATION = 1, LAST_STATION = 247 };

/* The bytes that a frame has at least, that any but 10 has, that 10 has besides its values, and the registers of one read. */
enum { LEAST_FRAME = 4, PLAIN_FRAME = 8, BARE_WRITE_SEVERAL = 9, MOST_READ = 47 };

/* The addresses of a read or a write. */
struct run {
    unsigned start, count;
};

struct run run_of(const uint8_t *frame);

/* The meter as it would be with every word stored that a write sends. All its addresses lie in areas. */
struct meter with_all_stored(const struct meter *before, const uint8_t *frame);

#endif
