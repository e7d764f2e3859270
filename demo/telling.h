/* What the simulated meter says on the screen of each frame, and how words that go over the line are told at either end. */
#ifndef TELLING_H
#define TELLING_H

#include "memory.h"

/* A frame and its reply, which goes out at a rate. */
struct exchange {
    const uint8_t *frame;
    size_t frame_n;
    const uint8_t *reply;
    size_t reply_n;
    unsigned rate;
};

/* The bits in a second of a rate as document 01 counts it. */
const char *bit_rate(unsigned rate);

/* What a frame was: function, address, count or value. */
void tell_frame(const uint8_t *frame, size_t n);

/* A silence, and why. */
void tell_silence(const struct meter *before, const uint8_t *frame, size_t n);

/* A reply, with an error why, and the alarm mark, the station and the rate that are not as they were before the frame; then each register of the
   frame, with its value in its unit, and of what was written also where it cannot be read back; or the words of the record that was read. */
void tell_answer(const struct meter *before, const struct meter *now, const struct exchange *exchange);

/* The words of a run from an address on: each register once, with its value in its unit. Of one that is only partly among them, its words. */
void tell_words(const struct meter *meter, unsigned start, const uint8_t *words, unsigned count);

/* The end of a record's line: its words. A sheet does not say what they mean. */
void tell_record_words(const uint8_t *words, unsigned count);

#endif
