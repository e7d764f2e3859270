/* Asks a meter over a serial line: sends the query of an order, and tells what the meter answers.
   usage: ask -l LINK -o ORDER [-s STATION] [-r RATE] SHEET
   LINK is the serial line or a pseudo-terminal. ORDER is one of: read ADDRESS COUNT, record ADDRESS WORDS, write ADDRESS VALUE,
   writes ADDRESS VALUE .., clear ADDRESS; addresses and values are hexadecimal, a count and the words of a record decimal. STATION is the meter's, 1
   where nothing is said, and RATE 9600, as where nothing is said, or 4800. SHEET has the names and units of the registers, where it is a maker's.
   Exit status 0 where the order is done; 1 where the meter answers with an error, not at all, or with what is no reply, and where the line goes away, does
   not get quiet or takes no bytes; 2, and nothing on standard output, where there is nothing that can be asked: a bad order, sheet, station or rate, or a
   line that cannot be had. */
#define _XOPEN_SOURCE 700
#include <stdio.h>
#include <stdlib.h>
#include <string.h>
#include <unistd.h>

#include "asked.h"
#include "shown.h"

enum { DONE = 0, NOT_DONE = 1, REFUSED = 2 };

/* The milliseconds that a meter has for its answer. */
enum { PATIENCE = 1000 };

struct names {
    const char *sheet, *link, *order, *station, *rate;
};

/* Where the name for an option's letter goes; NULL for any other letter. */
static const char **name_of(struct names *names, int letter)
{
    switch (letter) {
    case 'l': return &names->link;
    case 'o': return &names->order;
    case 's': return &names->station;
    case 'r': return &names->rate;
    default: return NULL;
    }
}

/* Says how it is used, and ends the program, where it is used otherwise. */
static struct names names_given(int argc, char **argv)
{
    struct names names = { NULL, NULL, "", "1", "9600" };
    int letter = getopt(argc, argv, "l:o:s:r:");
    for (; name_of(&names, letter); letter = getopt(argc, argv, "l:o:s:r:"))
        *name_of(&names, letter) = optarg;
    if (letter != -1 || optind + 1 != argc) {
        fprintf(stderr, "usage: ask -l LINK -o ORDER [-s STATION] [-r RATE] SHEET\n");
        exit(REFUSED);
    }
    names.sheet = argv[optind];
    return names;
}

static int refuse_setting(const char *what, const char *text, const char *example)
{
    fputs(what, stderr);
    show_text(stderr, text, strlen(text));
    fputs(example, stderr);
    return -1;
}

static int take_station(struct order *order, const char *station)
{
    if (take_number(station, strlen(station), 10, &order->station) == 0)
        return 0;
    return refuse_setting("STATION takes a number, 1 to 247, and not ", station, "; as STATION=1\n");
}

/* A rate as document 01 counts it. */
static int take_rate(struct asked *asked, const char *rate)
{
    asked->rate = strcmp(rate, "4800") != 0;
    if (strcmp(rate, "9600") == 0 || !asked->rate)
        return 0;
    return refuse_setting("RATE takes 9600 or 4800, and not ", rate, "; as RATE=9600\n");
}

/* All that must be good before a byte goes out, the line last. */
static int take_names(struct asked *asked, struct order *order, struct meter *meter, const struct names *names)
{
    asked->order = order;
    asked->meter = meter;
    asked->sheet = names->sheet;
    if (load_meter(meter, names->sheet) != 0 || take_order(order, names->order) != 0 || take_station(order, names->station) != 0
        || take_rate(asked, names->rate) != 0)
        return -1;
    asked->query_n = build_query(order, asked->query);
    if (asked->query_n > 0 && names->link)
        return 0;
    if (!names->link)
        fprintf(stderr, "LINK: there is none; name the line, as LINK=/dev/ttyUSB0, or the LINK= of a simulated meter\n");
    return -1;
}

static void read_reply(struct asked *asked)
{
    const struct order *order = asked->order;
    asked->number = CEDARSKEIN_SILENCE;
    if (asked->reply_n > 0)
        asked->number = cedarskein_reply(order->kind, order->station, order->address, order->number, order->values, order->values_n, asked->reply,
                                         asked->reply_n, asked->values, sizeof asked->values, &asked->values_n, &asked->error);
}

/* Hands back -1 where the line fails. */
static int try_once(struct asked *asked, const struct serial_line *line, int number)
{
    if (wait_for_quiet(line, pause_behind_reply()) != 0)
        return -1;
    tell_sent(asked, number);
    ptrdiff_t n = send_bytes(line, asked->query, asked->query_n) == 0 ? take_reply(line, asked->reply, PATIENCE) : -1;
    if (n < 0)
        return -1;
    asked->reply_n = (size_t)n;
    read_reply(asked);
    tell_came(asked);
    return 0;
}

/* Where a try before the last one got no answer in time, that answer may come yet, one for each try. It would pass for the answer to the next order. */
static void let_late_replies_pass(const struct serial_line *line)
{
    wait_for_quiet(line, PATIENCE + 2 * pause_behind_reply());
}

static int ask(struct asked *asked, const struct serial_line *line)
{
    int was_silent = 0;
    for (int number = 1; number <= most_tries(asked); number++) {
        if (try_once(asked, line, number) != 0)
            return NOT_DONE;
        if (asked->number == CEDARSKEIN_DONE)
            break;
        was_silent |= asked->number == CEDARSKEIN_SILENCE;
    }
    tell_end(asked);
    if (was_silent && asked->number != CEDARSKEIN_SILENCE)
        let_late_replies_pass(line);
    return asked->number == CEDARSKEIN_DONE && asked->error == 0 ? DONE : NOT_DONE;
}

int main(int argc, char **argv)
{
    static struct meter meter;
    static struct order order;
    static struct asked asked;
    struct serial_line line;
    struct names names = names_given(argc, argv);
    setvbuf(stdout, NULL, _IOLBF, 0);
    if (take_names(&asked, &order, &meter, &names) != 0 || open_serial(&line, names.link, asked.rate) != 0)
        return REFUSED;
    int status = ask(&asked, &line);
    close_serial(&line);
    return status;
}
