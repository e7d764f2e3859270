/* The file that keeps the history of the simulated meter: the bytes of its ring, and nothing else. */
#ifndef RING_FILE_H
#define RING_FILE_H

#include "memory.h"
#include "own_file.h"

/* A meter may have no such file, and then nothing is kept. */
struct ring_file {
    struct own_file own;
    const struct meter *meter;
};

/* Puts the ring that the file keeps into the meter; where there is no file, or an empty one, it gets the meter's ring as it is. Says which. Hands
   back -1 where the file is not this meter's, is in use or cannot be had: it says why, and leaves the file as it is. */
int open_ring(struct ring_file *ring, struct meter *meter, const char *name);

/* After each record that is added. Hands back 0 where the ring is kept; else the error, and the file is as it was. */
int keep_ring(struct ring_file *ring);

void close_ring(struct ring_file *ring);

/* Puts the ring of a file into the meter, also one that a meter at work keeps. The file is only read. Hands back -1 where it has no good ring of the
   meter's sheet, and says why. */
int read_ring(struct meter *meter, const char *name);

#endif
