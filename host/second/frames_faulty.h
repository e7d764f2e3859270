/* Frames with faults that were put in on purpose. */
#ifndef FRAMES_FAULTY_H
#define FRAMES_FAULTY_H

#include "frames_made.h"

/* What is told of such a frame is known from the making, and not from a
 * judgement. */
struct faulty {
    uint8_t frame[FRAME_ROOM];
    size_t n;
    uint32_t faults;            /* bit r is set if the fault of reason r is in */
    enum second_reason reason;  /* the earliest of them */
    uint32_t address;           /* what is told with it */
    enum second_side side;      /* likewise */
};

/* A frame for a sound sheet, a sound bank of it and a ring with so many records
 * stored: with no fault, with one or with several. */
void make_faulty(const struct made *made, const uint8_t *bank, uint32_t stored,
                 struct faulty *faulty);

#endif
