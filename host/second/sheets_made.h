/* Sheets and banks made for the comparison. */
#ifndef SHEETS_MADE_H
#define SHEETS_MADE_H

#include "second.h"

#include <stdbool.h>

enum { SHEET_ROOM = 2048, BANK_ROOM = 1024 };

/* The most that a record area can have, stated for the comparison itself. */
enum { RECORDS_MOST = 6600, RECORD_WORDS_MOST = 47 };

/* The stations that a meter can have, stated for the comparison itself and not
 * taken from what is compared: rule S63. */
enum { FIRST_STATION = 1, LAST_STATION = 0xF7 };

struct made_area {
    uint32_t first, last, place, access;
};

struct made_item {
    uint32_t kind, place;
    int64_t low, high;
};

/* Without a record area, all is 0. */
struct made_records {
    bool is;
    uint32_t first, count, words;
};

/* A sheet before it is put into words; one area and a few items more than 01
 * allows, so that those limits can be broken. */
struct made {
    uint32_t version;
    uint32_t areas_n, items_n, bank_words, functions, address_place, rate_place, clear;
    struct made_records records;
    struct made_area areas[10];
    struct made_item items[70];
};

/* A sound sheet of some shape, often with a record area, and of version 2 often with
 * areas that are only written. */
void make_sound(struct made *made);

/* Where a record area of so many records could begin: next to an area or the
 * clear address, at one of the ends, or anywhere; it need not be free. */
uint32_t some_records_first(const struct made *made, uint32_t count);

/* The two makers' maps; the high bound of 0109 of AS-WE goes by the bore,
 * as rule M22 has it, and bore 40 alone has the presets of its totals. The last is
 * that of bore 40 as it was before it had them. */
void make_ux(struct made *made);
void make_as_we(struct made *made, uint32_t bore);
void make_plain_as_we_40(struct made *made);

/* The sheet in bytes; the number of bytes is handed back. */
size_t put_sheet(const struct made *made, uint8_t *bytes);

/* An otherwise sound sheet with this rule broken alone; the sound sheet it was
 * made from is left in made. False if none was found. */
bool make_broken(enum second_rule rule, struct made *made, uint8_t *bytes, size_t *n);

/* A sound sheet with one thing changed that can break this rule; whether it does is
 * not asked of what is compared. The sound one is left in made. */
void make_changed(enum second_rule rule, struct made *made, uint8_t *bytes, size_t *n);

/* Whether a sheet can break the rule and no other. */
bool can_break_alone(enum second_rule rule);

/* A sound bank with noise in the read-only words. */
void make_bank(const struct made *made, uint8_t *bank);

/* Puts one item, rather a pair, just outside one of its bounds; false if its range is
 * all that its words can hold on that side. */
bool spoil_item(const struct made *made, uint8_t *bank);

/* The area or item that an address or place lies in, -1 if in none. */
int made_area_of(const struct made *made, uint32_t address);
int made_item_of(const struct made *made, uint32_t place);

/* Whether an address is a record's; whether it is in an area of this access, and
 * whether in one that a write, or else a read, can have. */
bool made_is_record(const struct made *made, uint32_t address);
bool made_has_access(const struct made *made, uint32_t address, uint32_t access);
bool made_is_open(const struct made *made, uint32_t address, bool write);

/* The least and the largest value that the words of a kind can hold. */
int64_t kind_least(uint32_t kind);
int64_t kind_most(uint32_t kind);

/* A value within the bounds, often at one of them. */
int64_t value_within(const struct made_item *item);

/* A value just outside the bounds; false if there is none on the chosen side. */
bool value_outside(const struct made_item *item, int64_t *value);

void put16(uint8_t *bytes, size_t index, uint32_t word);
uint32_t get16(const uint8_t *bytes, size_t index);

#endif
