/* Why a frame gets silence or an error, in words. The reason is what cedarskein_why says; what a sentence has besides is read from the sheet, the
   bank, the ring and the frame. */
#ifndef REASONS_H
#define REASONS_H

#include "memory.h"

/* A frame, the meter as it is before the frame, and what cedarskein_why says of them: a number of enum cedarskein_reason, an address, and a side of
   enum cedarskein_side. */
struct reason {
    const struct meter *meter;
    const uint8_t *frame;
    size_t n;
    uint32_t number, address, side;
};

/* Asks for the reason. Hands back what cedarskein_why does: only with 0 there is one. */
uint32_t ask_reason(struct reason *reason, const struct meter *before, const uint8_t *frame, size_t n);

/* Writes that a register can be written but not read, with its address and its name: "0118, Preset volume upper digit, can be written but not read". */
void print_written_only(const struct meter *meter, unsigned address);

/* Writes the reason alone, as "the frame is for station 2; this meter is station 1". */
void print_reason(const struct reason *reason);

/* Writes what becomes of the frame too: "Silence: ..", "Error 03: .." or "A reply goes out: ..". */
void print_sentence(const struct reason *reason);

#endif
