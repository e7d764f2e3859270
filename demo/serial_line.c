/* A serial line to a meter, from the end that asks. */
#define _DEFAULT_SOURCE
#define _XOPEN_SOURCE 700
#include "serial_line.h"

#include <errno.h>
#include <fcntl.h>
#include <poll.h>
#include <stdio.h>
#include <string.h>
#include <sys/file.h>
#include <sys/ioctl.h>
#include <sys/stat.h>
#include <unistd.h>

#include "clock.h"

/* On a wire 3.5 characters without a bit end a reply, 7.3 ms at 4800. But what is seen here comes through a driver, which hands bytes on in batches, those
   of USB adapters every 16 ms: so a reply ends with a pause that is well above both, in milliseconds. No meter sends until it is asked again. */
#define PAUSE 50

/* The milliseconds in which a line must get quiet, and take a query. */
#define PATIENCE_WITH_LINE 1000

#define EXAMPLE "give a serial line, as LINK=/dev/ttyUSB0, or the LINK= of a simulated meter"
#define IN_USE "another program has it in use: end that one, or wait until it is done"

long pause_behind_reply(void)
{
    return PAUSE;
}

static int refuse(const char *name, const char *why)
{
    fprintf(stderr, "LINK: %s: %s\n", name, why);
    return -1;
}

static int is_held_alone(int file)
{
    int held = 0;
    return ioctl(file, TIOCGEXCL, &held) == 0 && held;
}

/* What keeps an open file from being the line; NULL where nothing does. The lock is gone when this program is. */
static const char *why_not(int file)
{
    if (!isatty(file))
        return "it is no serial line: " EXAMPLE;
    if (tcgetsid(file) == getsid(0))
        return "it is the terminal that this was typed at: " EXAMPLE;
    if (is_held_alone(file) || flock(file, LOCK_EX | LOCK_NB) != 0)
        return IN_USE;
    return NULL;
}

static const char *words_for(int error)
{
    switch (error) {
    case ENOENT: return "it is not there: " EXAMPLE;
    case ENXIO:
    case ENODEV: return "no line is behind it: " EXAMPLE;
    case EBUSY: return IN_USE;
    case EACCES: return "you may not use it; on Debian the group dialout may";
    default: return strerror(error);
    }
}

/* A file that is no device is not even opened. */
static int open_device(const char *name)
{
    struct stat status;
    if (stat(name, &status) != 0)
        return refuse(name, words_for(errno));
    if (!S_ISCHR(status.st_mode))
        return refuse(name, S_ISDIR(status.st_mode) ? "it is a folder, and no serial line: " EXAMPLE : "it is a file, and no serial line: " EXAMPLE);
    /* Without waiting for a modem's carrier, which a meter has not. */
    int file = open(name, O_RDWR | O_NOCTTY | O_NONBLOCK);
    if (file < 0)
        refuse(name, words_for(errno));
    return file;
}

static int set_line(struct serial_line *line, unsigned rate)
{
    struct termios mode;
    if (tcgetattr(line->file, &line->before) != 0)
        return -1;
    mode = line->before;
    cfmakeraw(&mode);
    mode.c_cflag &= ~(tcflag_t)(CSTOPB | CRTSCTS);
    mode.c_cflag |= CREAD | CLOCAL;
    mode.c_iflag &= ~(tcflag_t)(IXOFF | INPCK);
    cfsetspeed(&mode, rate ? B9600 : B4800);
    return tcsetattr(line->file, TCSANOW, &mode);
}

int open_serial(struct serial_line *line, const char *name, unsigned rate)
{
    line->file = open_device(name);
    if (line->file < 0)
        return -1;
    const char *why = why_not(line->file);
    if (!why && set_line(line, rate) == 0)
        return 0;
    refuse(name, why ? why : strerror(errno));
    close(line->file);
    return -1;
}

void close_serial(struct serial_line *line)
{
    tcsetattr(line->file, TCSANOW, &line->before);
    close(line->file);
}

static int tell_gone(void)
{
    printf("The line is gone: it was cut off or unplugged\n");
    return -1;
}

/* Waits for the line, and hands back whether it is ready: 0 where it is not within so many milliseconds. A stop and a continue end a wait too early. */
static int wait_for(const struct serial_line *line, short event, long patience)
{
    struct pollfd ready = { .fd = line->file, .events = event };
    long end = milliseconds() + patience;
    int found;
    do {
        long left = end - milliseconds();
        found = poll(&ready, 1, left > 0 ? (int)left : 0);
    } while (found < 0 && errno == EINTR);
    return found;
}

/* What comes within so many milliseconds: 0 for nothing, -1 where the line is gone. */
static ssize_t take_some(const struct serial_line *line, uint8_t *bytes, size_t room, long patience)
{
    if (wait_for(line, POLLIN, patience) == 0)
        return 0;
    ssize_t got = read(line->file, bytes, room);
    return got > 0 ? got : tell_gone();
}

int wait_for_quiet(const struct serial_line *line, long quiet)
{
    uint8_t bytes[256];
    long end = milliseconds() + quiet + PATIENCE_WITH_LINE;
    for (;;) {
        ssize_t got = take_some(line, bytes, sizeof bytes, quiet);
        if (got <= 0)
            return (int)got;
        if (milliseconds() >= end)
            break;
    }
    printf("The line does not get quiet: something sends on it all the time\n");
    return -1;
}

int send_bytes(const struct serial_line *line, const uint8_t *bytes, size_t n)
{
    size_t sent = 0;
    while (sent < n) {
        ssize_t more = wait_for(line, POLLOUT, PATIENCE_WITH_LINE) > 0 ? write(line->file, bytes + sent, n - sent) : 0;
        if (more <= 0) {
            printf("The line takes no bytes: %s\n", more < 0 ? strerror(errno) : "nobody fetches them");
            return -1;
        }
        sent += (size_t)more;
    }
    tcdrain(line->file);
    return 0;
}

ptrdiff_t take_reply(const struct serial_line *line, uint8_t reply[REPLY_ROOM], long patience)
{
    size_t n = 0;
    ssize_t got = take_some(line, reply, REPLY_ROOM, patience);
    while (got > 0) {
        n += (size_t)got;
        got = n < REPLY_ROOM ? take_some(line, reply + n, REPLY_ROOM - n, PAUSE) : 0;
    }
    return got < 0 ? -1 : (ptrdiff_t)n;
}
