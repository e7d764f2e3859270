/* What a meter remembers: its sheet, its bank, and its history where it has one. */
#ifndef MEMORY_H
#define MEMORY_H

#include <stddef.h>
#include <stdint.h>

#include "cedarskein.h"

struct meter {
    uint8_t sheet[CEDARSKEIN_LONGEST_SHEET + 1];
    size_t sheet_n;
    uint8_t bank[CEDARSKEIN_LONGEST_BANK];
    size_t bank_n;
    /* The history; NULL and 0 where the sheet has no record area. No frame changes it, so the copies of a meter share one. */
    uint8_t *ring;
    size_t ring_n;
};

struct area {
    unsigned first, last, place, access;
};

/* The accesses of document 01, and by request W7 of document 02 that of registers which are only written. */
enum { NO_AREA = 0, READ_ONLY_AREA = 1, WRITE_ONLY_AREA = 2, READ_AND_WRITE_AREA = 3 };

/* The record area, by request W3 of document 02: its first address, and how many records of how many words it has. */
struct record_area {
    unsigned first, records, words;
};

/* The most words that a record can have. */
#define LONGEST_RECORD 47

/* An item row of the sheet. The bounds are as the words hold them, a signed one too. */
struct item {
    unsigned kind, place;
    uint32_t low, high;
};

/* The kinds of document 01. */
enum { WORD_ITEM = 0, SIGNED_ITEM = 1, PAIR_ITEM = 2 };

/* Makes a meter with the sheet of a file, a fresh bank and an empty ring. Hands back -1 where there is none to be had, and says what is wrong with
   the file. */
int load_meter(struct meter *meter, const char *path);

/* The same where the sheet's bytes are in the meter already; the name is for what is said. */
int set_up_meter(struct meter *meter, const char *name);

/* The word with a given number, upper byte first. */
unsigned word_at(const uint8_t *bytes, size_t number);
void store_word(uint8_t *bytes, size_t number, unsigned word);

unsigned area_count(const struct meter *meter);
struct area area_at(const struct meter *meter, unsigned number);

/* The access of the area that an address lies in, NO_AREA where it lies in none; and its place if it lies in one. */
unsigned access_at(const struct meter *meter, unsigned address);
unsigned place_of(const struct meter *meter, unsigned address);

/* Whether the sheet has a record area, which it is, and whether an address lies in it: no address does where there is none. */
int has_history(const struct meter *meter);
struct record_area history_of(const struct meter *meter);
int lies_in_history(const struct meter *meter, unsigned address);

/* How many records are stored, and the bytes of one that is, by its number: 1 is the newest. */
unsigned records_stored(const struct meter *meter);
const uint8_t *record_numbered(const struct meter *meter, unsigned number);

/* The item that begins at a place, and its value in the bank, as its words hold it. */
struct item item_from(const struct meter *meter, unsigned place);
uint32_t item_value(const struct meter *meter, const struct item *item);

/* Whether the sheet allows a function, and the address of a clear where it allows 05. */
int allows_function(const struct meter *meter, uint8_t function);
unsigned clear_address(const struct meter *meter);

/* The bank's words; behind the last of them is the mark. */
unsigned bank_word_count(const struct meter *meter);
unsigned station_of(const struct meter *meter);
unsigned rate_of(const struct meter *meter);
unsigned mark_of(const struct meter *meter);

/* The item that holds the station: its bounds are the stations that the sheet takes. */
struct item station_item(const struct meter *meter);

#endif
