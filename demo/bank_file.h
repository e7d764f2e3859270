/* The file that keeps the bank of the simulated meter: both copies of cedarskein.h, "A power cut", and nothing else. */
#ifndef BANK_FILE_H
#define BANK_FILE_H

#include "last_good.h"
#include "memory.h"
#include "own_file.h"

/* A meter may have no such file, and then nothing is kept. */
struct bank_file {
    struct own_file own;
    struct kept_bank kept;
};

/* Puts the bank that the file keeps into the meter; where there is no file, or an empty one, it gets the meter's bank as it is. A file of the AS-WE 40
   from before version 3.2 is carried over, and stays under another name. Says which. Hands back -1 where the file is not this meter's, is in use or
   cannot be had: it says why, and leaves the file as it is. */
int open_bank(struct bank_file *bank, struct meter *meter, const char *path);

/* After each call that answered 0, and once an hour. Hand back 0 where all is kept; else they say why it is not. */
int keep_bank_settings(const struct bank_file *bank);
int keep_bank_readings(const struct bank_file *bank);

/* Keeps the readings too, and closes the file. */
void close_bank(struct bank_file *bank);

/* Puts the bank of a file into the meter: a bank's own bytes, or a file that a meter keeps, also one at work. Either of the AS-WE 40 from before version
   3.2 is carried over, and it says so. The file is only read. Hands back -1 where it has no good bank of the meter's sheet, and says why. */
int read_bank(struct meter *meter, const char *path);

#endif
