/* The file that keeps the history of the simulated meter. With each record a new one is put in its place. (A board has no files to put in place of
   others, and keeps its ring otherwise.) */
#define _XOPEN_SOURCE 700
#include "ring_file.h"

#include <errno.h>
#include <fcntl.h>
#include <stdio.h>
#include <string.h>
#include <unistd.h>

enum { WHY_ROOM = 200 };

static const char NO_HISTORY[] = "this meter's sheet has no history, so there is none to keep: leave RING out";

/* Says why the meter's ring, as it was read, is none of its sheet: the rules of request W3 of document 02, in their order. */
static void say_fault(const struct meter *meter, char *why)
{
    struct record_area area = history_of(meter);
    unsigned newest = word_at(meter->ring, 0), stored = records_stored(meter);
    if (newest >= area.records)
        snprintf(why, WHY_ROOM, "it has its newest record at place %u; the places of this sheet are 0 to %u", newest, area.records - 1);
    else if (stored > area.records)
        snprintf(why, WHY_ROOM, "it has %u records stored; this sheet has room for %u", stored, area.records);
    else
        snprintf(why, WHY_ROOM, "it has no record stored, and its newest one at place %u; an empty ring has it at 0", newest);
}

/* Reads the ring. One byte more is asked for, so that a longer file shows. */
static int take_bytes(struct meter *meter, int file, char *why)
{
    uint8_t behind;
    ssize_t n = 0;
    size_t got = 0;
    while (got < meter->ring_n && (n = read(file, meter->ring + got, meter->ring_n - got)) > 0)
        got += (size_t)n;
    if (n >= 0 && got == meter->ring_n)
        n = read(file, &behind, 1);
    if (n < 0)
        snprintf(why, WHY_ROOM, "%s", strerror(errno));
    else if (got < meter->ring_n || n > 0)
        snprintf(why, WHY_ROOM, "it has %s%zu bytes; a ring of this sheet has %zu", n > 0 ? "over " : "", got, meter->ring_n);
    else if (cedarskein_ring_check(meter->sheet, meter->sheet_n, meter->ring, meter->ring_n) != CEDARSKEIN_DONE)
        say_fault(meter, why);
    else
        return 0;
    return -1;
}

int keep_ring(struct ring_file *ring)
{
    return ring->own.name ? replace_file(&ring->own, ring->meter->ring, ring->meter->ring_n) : 0;
}

static int begin_file(struct ring_file *ring)
{
    char why[WHY_ROOM];
    int error = keep_ring(ring);
    if (error != 0) {
        snprintf(why, sizeof why, "no ring can be kept in it: %s", strerror(error));
        return refuse_file(&ring->own, why);
    }
    printf("the ring is empty, and kept in %s\n", ring->own.name);
    return 0;
}

int open_ring(struct ring_file *ring, struct meter *meter, const char *name)
{
    char why[WHY_ROOM];
    off_t size = 0;
    ring->own = file_named("ring", name);
    ring->meter = meter;
    if (!has_history(meter))
        return refuse_file(&ring->own, NO_HISTORY);
    if (take_file(&ring->own, &size) != 0)
        return -1;
    if (size == 0)
        return begin_file(ring);
    if (take_bytes(meter, ring->own.file, why) != 0)
        return refuse_file(&ring->own, why);
    printf("the ring is the one that %s keeps\n", ring->own.name);
    return 0;
}

void close_ring(struct ring_file *ring)
{
    if (ring->own.name)
        close(ring->own.file);
}

int read_ring(struct meter *meter, const char *name)
{
    char why[WHY_ROOM] = "";
    int file = has_history(meter) ? open(name, O_RDONLY | O_CLOEXEC) : -1;
    if (!has_history(meter))
        snprintf(why, sizeof why, "%s", NO_HISTORY);
    else if (file < 0)
        snprintf(why, sizeof why, "%s", strerror(errno));
    else
        take_bytes(meter, file, why);
    if (file >= 0)
        close(file);
    if (!*why)
        return 0;
    fprintf(stderr, "the ring %s: %s\n", name, why);
    return -1;
}
