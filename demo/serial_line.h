/* A serial line to a meter, real or a pseudo-terminal, from the end that asks. */
#ifndef SERIAL_LINE_H
#define SERIAL_LINE_H

#include <stddef.h>
#include <stdint.h>
#include <termios.h>

#include "cedarskein.h"

/* One byte more than the longest reply is kept, so that a longer one shows as too long. */
#define REPLY_ROOM (CEDARSKEIN_LONGEST_FRAME + 1)

struct serial_line {
    int file;
    /* How the line was set before. */
    struct termios before;
};

/* Opens the line at a rate as document 01 counts it, with 8 data bits, no parity, 1 stop bit, and the bytes as they are. Hands back -1 where it is no
   serial line, or another program has it: it says why, and has written and changed nothing. */
int open_serial(struct serial_line *line, const char *name, unsigned rate);

/* Sets the line as it was before, and closes it. */
void close_serial(struct serial_line *line);

/* Throws away what comes in until nothing has come for so many milliseconds. Hands back -1 where the line is gone or does not get quiet, and says so. */
int wait_for_quiet(const struct serial_line *line, long quiet);

/* The milliseconds after which what has come is whole. */
long pause_behind_reply(void);

/* Sends bytes, and waits until they are out. Hands back -1, and says why, where the line does not take them. */
int send_bytes(const struct serial_line *line, const uint8_t *bytes, size_t n);

/* Takes what comes up to a pause, where its first byte comes within so many milliseconds. Hands back how many bytes came, and -1, and says so, where the
   line is gone. */
ptrdiff_t take_reply(const struct serial_line *line, uint8_t reply[REPLY_ROOM], long patience);

#endif
