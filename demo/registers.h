/* The makers' registers by name, and their values in their units, as docs/REGISTERS.md has them. */
#ifndef REGISTERS_H
#define REGISTERS_H

#include <stdint.h>

#include "memory.h"

struct register_row {
    unsigned address, words;
    int is_signed;
    /* A raw value of 1 is so many units, at so many decimals. A step of 0: the value is shown as it is, in hex. */
    unsigned step, decimals;
    const char *name, *unit;
    /* What 0, 1, 2 .. mean, set apart by ';'. NULL where the value is a number. */
    const char *values;
};

/* The rows of each map, in the order of the addresses; the last has no name. tools/registers.py writes them. */
extern const struct register_row ux_rows[], aswe_rows[];

/* A sheet does not say what its words mean: a map is known by the bytes of its sheet. */
enum map { UX_MAP, ASWE_MAP, OTHER_MAP };
enum map map_of(const struct meter *meter);

/* The register that an address of a meter belongs to. Where the meter's sheet is no maker's, each word is a register without a name. */
struct register_row register_at(const struct meter *meter, unsigned address);

/* The raw value that a register has in words, the first of which is its first. */
uint64_t value_in(const uint8_t *words, const struct register_row *row);

/* The raw value that a register has in the meter's bank. */
uint64_t value_of(const struct meter *meter, const struct register_row *row);
uint64_t value_at(const struct meter *meter, unsigned address);

/* Writes a raw value in its unit, or the word for it. */
void print_value(const struct register_row *row, uint64_t raw);

/* Writes what the values from low to high mean, as a listing has these bounds: both in their unit, or the words for all. */
void print_range(const struct register_row *row, long low, long high);

/* Writes address and name. */
void print_name(const struct register_row *row);

#endif
