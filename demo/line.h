/* The line of the simulated meter: a pseudo-terminal, and the frames on it. */
#ifndef LINE_H
#define LINE_H

#include <stddef.h>
#include <stdint.h>

#include "cedarskein.h"

/* One byte more than the longest frame is kept, so that a longer one shows as too long. */
#define FRAME_ROOM (CEDARSKEIN_LONGEST_FRAME + 1)

struct line {
    int meter_end;
    int master_end;
    char name[64];
    /* What has come of a frame so far. */
    uint8_t frame[FRAME_ROOM];
    size_t frame_n;
    /* Whether a reply went out since forget_old_reply was last called. */
    int replied;
};

/* Makes the line at 9600. Says why, and ends the program, if the system has none to give. */
void open_line(struct line *line);
void close_line(struct line *line);

/* Waits for a frame and its end, `patience` milliseconds at most. Hands back the number of its bytes, which are then in line->frame; 0 where
   none has ended. A frame whose bytes keep coming goes on in the next call. */
size_t take_frame(struct line *line, long patience);

/* Whether the master sends at a rate as document 01 counts it, 1 for 9600 and 0 for 4800. */
int master_sends_at(const struct line *line, unsigned rate);

void send_reply(struct line *line, const uint8_t *reply, size_t n);

/* Called once a second. On a wire a reply that nobody takes is gone; here it would lie in wait for the next master, and pass for an
   answer to its first frame. So one that is a second old is thrown away. */
void forget_old_reply(struct line *line);

#endif
