/* Frames and posted words made for the comparison. */
#ifndef FRAMES_MADE_H
#define FRAMES_MADE_H

#include "sheets_made.h"

enum { FRAME_ROOM = 512, POST_ROOM = 1024 };

/* How a passing frame was damaged on its way. */
enum damage {
    DAMAGE_NONE,
    DAMAGE_1_BIT,
    DAMAGE_2_BITS,
    DAMAGE_3_BITS,
    DAMAGE_BURST,       /* within sixteen consecutive bits as sent */
    DAMAGE_COUNT
};

/* A frame near some limit of the sheet, the bank and the number of records that
 * are stored; its length is handed back. Most have the right check. */
size_t make_frame(const struct made *made, const uint8_t *bank, uint32_t stored, uint8_t *frame);

/* A frame for the bank's station about registers that are only written, or those
 * beside them. 0 if the search finds none. */
size_t make_preset_frame(const struct made *made, const uint8_t *bank, uint8_t *frame);

/* A frame that passes: 4 to 100 bytes and the right check. */
size_t make_passing_frame(const struct made *made, const uint8_t *bank, uint32_t stored,
                          uint8_t *frame);

/* A write of one item at an end of its range or next to it, or of half a pair that
 * is bad; the pair's two words in the bank, which stays sound, are made for it. 0 if
 * the search finds none. */
size_t make_end_write(const struct made *made, uint8_t *bank, uint8_t *frame);

/* Parts of frames: an address at, inside or next to an area, or anywhere; how
 * many addresses from one on a write can have, or else a read; the address of a
 * place; the station that a bank has; function, start and a word
 * behind the station; the right check behind n bytes. The last two hand back
 * the length then. some_record is a record's address, often that of the first,
 * the last, the last that is stored or the one behind it. */
uint32_t some_address(const struct made *made);
uint32_t run_length(const struct made *made, uint32_t start, bool write);
uint32_t address_of_place(const struct made *made, uint32_t place);
uint8_t own_station(const struct made *made, const uint8_t *bank);
size_t put_start(uint8_t *frame, uint32_t function, uint32_t start, uint32_t word);
size_t add_check(uint8_t *frame, size_t n);
uint32_t some_record(const struct made *made, uint32_t stored);

/* Damages a passing frame. */
enum damage damage_frame(uint8_t *frame, size_t n);

/* Words for posting: the address and the number of bytes. */
size_t make_post(const struct made *made, uint32_t *address, uint8_t *words);

#endif
