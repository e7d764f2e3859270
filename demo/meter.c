/* A simulated meter: a pseudo-terminal that answers as the library does, with readings that change.
   usage: meter [-l LINK] [-b BANK] [-r RING] [-e EVERY] SHEET
   LINK becomes a symbolic link to the pseudo-terminal as long as the meter runs. BANK is a file that keeps the bank from one run to the next. With a
   sheet that has a history, RING is a file that keeps it, and a record is added every EVERY seconds, 5 where nothing is said. */
#define _XOPEN_SOURCE 700
#include <poll.h>
#include <signal.h>
#include <stdio.h>
#include <stdlib.h>
#include <string.h>
#include <unistd.h>

#include "bank_file.h"
#include "cedarskein.h"
#include "clock.h"
#include "line.h"
#include "link.h"
#include "memory.h"
#include "readings.h"
#include "records.h"
#include "ring_file.h"
#include "telling.h"

#define SECONDS_OF_AN_HOUR 3600
#define SECONDS_OF_A_DAY 86400
#define EVERY_FEW_SECONDS 5

struct simulation {
    struct meter meter;
    struct bank_file bank;
    struct ring_file ring;
    struct line line;
    unsigned frames;
    /* The seconds from one record to the next. */
    unsigned every;
    /* The error for which the ring's file is behind the ring; 0 where it is not. */
    int ring_error;
};

static volatile sig_atomic_t switched_off;

static void switch_off(int signal)
{
    (void)signal;
    switched_off = 1;
}

/* A signal ends the wait for a frame, and with it the loop: Ctrl-C, a plain kill, a terminal that is closed, a screen that nobody reads.
   What nohup has made deaf stays deaf. */
static void heed_signals(void)
{
    static const int signals[] = { SIGINT, SIGTERM, SIGHUP, SIGPIPE };
    struct sigaction action, before;
    memset(&action, 0, sizeof action);
    action.sa_handler = switch_off;
    for (size_t k = 0; k < sizeof signals / sizeof *signals; k++) {
        sigaction(signals[k], &action, &before);
        if (signals[k] == SIGHUP && before.sa_handler == SIG_IGN)
            sigaction(signals[k], &before, NULL);
    }
    /* A file that may not get longer is told of like a disk that is full. */
    signal(SIGXFSZ, SIG_IGN);
}

/* A terminal that is closed sends its signal to the one process that leads it, which need not pass it on: make does not. */
static int screen_is_gone(void)
{
    struct pollfd screen = { .fd = STDOUT_FILENO, .events = 0 };
    return poll(&screen, 1, 0) > 0 && screen.revents & (POLLHUP | POLLERR);
}

/* Kept and told ahead of sending it: a reply tells of what is kept, and a master that has it finds it on the screen. */
static void reply_to_frame(struct simulation *simulation, const struct meter *before, const struct exchange *exchange)
{
    tell_answer(before, &simulation->meter, exchange);
    if (keep_bank_settings(&simulation->bank) == 0)
        send_reply(&simulation->line, exchange->reply, exchange->reply_n);
}

static void answer_frame(struct simulation *simulation, const uint8_t *frame, size_t n)
{
    struct meter *meter = &simulation->meter;
    struct meter before = *meter;
    uint8_t reply[CEDARSKEIN_LEAST_OUT];
    uint32_t length, rate;
    uint32_t number = cedarskein_answer(meter->sheet, meter->sheet_n, meter->bank, meter->bank_n, meter->ring, meter->ring_n, frame, n,
                                        reply, sizeof reply, &length, &rate);
    if (number == CEDARSKEIN_DONE) {
        struct exchange exchange = { frame, n, reply, length, rate };
        reply_to_frame(simulation, &before, &exchange);
    } else if (number == CEDARSKEIN_SILENCE) {
        tell_silence(&before, frame, n);
    } else {
        printf("number %u: the meter is out of order\n", (unsigned)number);
    }
}

static void hear_frame(struct simulation *simulation, const uint8_t *frame, size_t n)
{
    unsigned rate = rate_of(&simulation->meter);
    tell_frame(frame, n);
    simulation->frames++;
    /* A master at another bit rate is noise to a meter: no byte of it comes in as it was sent. */
    if (master_sends_at(&simulation->line, rate))
        answer_frame(simulation, frame, n);
    else
        printf("noise: not sent at %s\n", bit_rate(rate));
}

/* The meter goes on without its file, and answers with records that the file does not have. So it is told on the screen, when it begins and when it
   is over. */
static void keep_records(struct simulation *simulation)
{
    int error = keep_ring(&simulation->ring);
    if (error != 0 && error != simulation->ring_error)
        printf("the ring is not kept in %s: %s. The meter goes on; if it is switched off now, its newest records are lost\n", simulation->ring.own.name,
               strerror(error));
    else if (error == 0 && simulation->ring_error != 0)
        printf("the ring is kept in %s again, with every record\n", simulation->ring.own.name);
    simulation->ring_error = error;
}

static void pass_second(struct simulation *simulation, struct readings *readings)
{
    post_next_second(readings, &simulation->meter);
    forget_old_reply(&simulation->line);
    if (readings->second % SECONDS_OF_AN_HOUR == 0)
        keep_bank_readings(&simulation->bank);
    if (has_history(&simulation->meter) && readings->second % simulation->every == 0 && add_next_record(readings, &simulation->meter) == 0)
        keep_records(simulation);
}

static void run(struct simulation *simulation)
{
    struct readings readings = begin_readings(&simulation->meter);
    long next_second = milliseconds();
    while (!switched_off) {
        if (milliseconds() >= next_second) {
            switched_off |= screen_is_gone();
            pass_second(simulation, &readings);
            next_second += 1000;
        }
        size_t n = take_frame(&simulation->line, next_second - milliseconds());
        if (n > 0)
            hear_frame(simulation, simulation->line.frame, n);
    }
}

struct names {
    const char *sheet, *link, *bank, *ring, *every;
};

/* Where the name for an option's letter goes; NULL for any other letter. */
static const char **name_of(struct names *names, int letter)
{
    switch (letter) {
    case 'l': return &names->link;
    case 'b': return &names->bank;
    case 'r': return &names->ring;
    case 'e': return &names->every;
    default: return NULL;
    }
}

/* The names of the command line. Says how it is used, and ends the program, where it is used otherwise. */
static struct names names_given(int argc, char **argv)
{
    struct names names = { NULL, NULL, NULL, NULL, NULL };
    int letter = getopt(argc, argv, "l:b:r:e:");
    for (; name_of(&names, letter); letter = getopt(argc, argv, "l:b:r:e:"))
        *name_of(&names, letter) = optarg;
    if (letter != -1 || optind + 1 != argc) {
        fprintf(stderr, "usage: meter [-l LINK] [-b BANK] [-r RING] [-e EVERY] SHEET\n");
        exit(1);
    }
    names.sheet = argv[optind];
    return names;
}

/* The seconds from one record to the next. Hands back -1, and says what is wrong, where they are no such number. */
static int take_every(struct simulation *simulation, const char *every)
{
    char *end = NULL;
    unsigned long seconds = every ? strtoul(every, &end, 10) : EVERY_FEW_SECONDS;
    simulation->every = (unsigned)seconds;
    if (every && !has_history(&simulation->meter))
        fprintf(stderr, "EVERY is for a history, and this meter's sheet has none: leave it out\n");
    else if (every && (*every < '0' || '9' < *every || *end != '\0' || seconds < 1 || SECONDS_OF_A_DAY < seconds))
        fprintf(stderr, "EVERY takes a number of seconds, 1 to %d, and not %s\n", SECONDS_OF_A_DAY, every);
    else
        return 0;
    return -1;
}

static void take_line_down(struct simulation *simulation, const struct names *names)
{
    if (names->link)
        remove_link(simulation->line.name, names->link);
    close_line(&simulation->line);
}

/* A fresh bank whose mark is set, which gives a clear something to do, and an empty ring; or those that were kept. */
static int switch_on(struct simulation *simulation, const struct names *names)
{
    struct meter *meter = &simulation->meter;
    if (load_meter(meter, names->sheet) != 0 || take_every(simulation, names->every) != 0)
        return -1;
    cedarskein_set_mark(meter->sheet, meter->sheet_n, meter->bank, meter->bank_n, 1);
    open_line(&simulation->line);
    if ((!names->link || make_link(simulation->line.name, names->link) == 0)
        && (!names->bank || open_bank(&simulation->bank, meter, names->bank) == 0)
        && (!names->ring || open_ring(&simulation->ring, meter, names->ring) == 0))
        return 0;
    take_line_down(simulation, names);
    return -1;
}

static void tell_history(const struct simulation *simulation)
{
    if (!has_history(&simulation->meter))
        return;
    struct record_area area = history_of(&simulation->meter);
    printf("history at %04X to %04X, %u words to a record, the newest at %04X; stored: %u; one more every %u second%s\n", area.first,
           area.first + area.records - 1, area.words, area.first, records_stored(&simulation->meter), simulation->every,
           simulation->every == 1 ? "" : "s");
}

int main(int argc, char **argv)
{
    static struct simulation simulation;
    struct names names = names_given(argc, argv);
    setvbuf(stdout, NULL, _IOLBF, 0);
    heed_signals();
    if (switch_on(&simulation, &names) != 0)
        return 1;
    tell_history(&simulation);
    printf("meter on %s, station %u at %s, 8 data bits, no parity, 1 stop bit; Ctrl-C ends it\n",
           names.link ? names.link : simulation.line.name, station_of(&simulation.meter), bit_rate(rate_of(&simulation.meter)));
    run(&simulation);
    take_line_down(&simulation, &names);
    close_bank(&simulation.bank);
    close_ring(&simulation.ring);
    printf("meter off after %u frames\n", simulation.frames);
    return 0;
}
