/* A file that the simulated meter has alone while it runs, and in whose place a whole new one can be put. */
#ifndef OWN_FILE_H
#define OWN_FILE_H

#include <limits.h>
#include <stddef.h>
#include <stdint.h>
#include <sys/types.h>

/* What it keeps, as "ring", and its name, which is NULL where the meter has no such file. The path is where it really lies: a link stays what it is. */
struct own_file {
    const char *what, *name;
    char path[PATH_MAX];
    int file;
};

/* A file that is not opened yet. */
struct own_file file_named(const char *what, const char *name);

/* Opens the file alone for this meter, made where it is not there, and finds how long it is. Hands back -1 where it cannot be had, and says why. */
int take_file(struct own_file *own, off_t *size);

/* Says why the file is not taken, and that it was left as it is; the meter then has none. Hands back -1. */
int refuse_file(struct own_file *own, const char *why);

/* Puts a new file with these bytes in its place. Hands back 0; else the error, and the file is as it was. */
int replace_file(struct own_file *own, const uint8_t *bytes, size_t n);

/* The same, and the file that was there stays, under a second name. */
int replace_file_keeping(struct own_file *own, const uint8_t *bytes, size_t n, const char *second_name);

#endif
