/* The line of the simulated meter: a pseudo-terminal, and the frames on it. */
#define _DEFAULT_SOURCE
#include "line.h"

#include <errno.h>
#include <poll.h>
#include <pty.h>
#include <stdio.h>
#include <stdlib.h>
#include <string.h>
#include <termios.h>
#include <unistd.h>

#include "clock.h"

/* On a wire 3.5 characters without a bit end a frame. A pseudo-terminal has no bit rate: bytes written together arrive together, however
   many they are. So a frame ends with a pause as long as the longest gap of this meter, 3.5 characters of 10 bits at 4800, in milliseconds. */
#define PAUSE 8

static void give_up(const char *what)
{
    fprintf(stderr, "no pseudo-terminal: %s: %s\n", what, strerror(errno));
    exit(1);
}

/* The master's end stays open here too: with nobody at it, the meter's end would hang up each time a master leaves. */
void open_line(struct line *line)
{
    struct termios mode;
    memset(line, 0, sizeof *line);
    memset(&mode, 0, sizeof mode);
    cfmakeraw(&mode);
    mode.c_cflag |= CREAD | CLOCAL;
    cfsetspeed(&mode, B9600);
    if (openpty(&line->meter_end, &line->master_end, NULL, &mode, NULL) != 0)
        give_up("openpty");
    errno = ttyname_r(line->master_end, line->name, sizeof line->name);
    if (errno != 0)
        give_up("ttyname_r");
}

void close_line(struct line *line)
{
    close(line->master_end);
    close(line->meter_end);
}

/* Adds what has arrived to the frame. What it has no room for is lost: it is too long with or without it. */
static void take_bytes(struct line *line)
{
    uint8_t bytes[256];
    ssize_t got = read(line->meter_end, bytes, sizeof bytes);
    size_t more = got > 0 ? (size_t)got : 0;
    if (more > FRAME_ROOM - line->frame_n)
        more = FRAME_ROOM - line->frame_n;
    memcpy(line->frame + line->frame_n, bytes, more);
    line->frame_n += more;
}

static size_t whole_frame(struct line *line)
{
    size_t n = line->frame_n;
    line->frame_n = 0;
    return n;
}

size_t take_frame(struct line *line, long patience)
{
    struct pollfd arrival = { .fd = line->meter_end, .events = POLLIN };
    long end = milliseconds() + patience;
    for (long left = patience; left > 0; left = end - milliseconds()) {
        int arrived = poll(&arrival, 1, line->frame_n > 0 ? PAUSE : (int)left);
        if (arrived < 0)
            return 0;
        if (arrived == 0 && line->frame_n > 0)
            return whole_frame(line);
        if (arrived > 0)
            take_bytes(line);
    }
    return 0;
}

int master_sends_at(const struct line *line, unsigned rate)
{
    struct termios mode;
    if (tcgetattr(line->master_end, &mode) != 0)
        give_up("tcgetattr");
    return cfgetospeed(&mode) == (rate ? B9600 : B4800);
}

void send_reply(struct line *line, const uint8_t *reply, size_t n)
{
    line->replied = 1;
    if (write(line->meter_end, reply, n) != (ssize_t)n)
        fprintf(stderr, "the reply was not sent: %s\n", strerror(errno));
}

void forget_old_reply(struct line *line)
{
    if (!line->replied)
        tcflush(line->master_end, TCIFLUSH);
    line->replied = 0;
}
