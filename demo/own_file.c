/* A file that the simulated meter has alone. It is never written anew where it lies: a new one is, and takes its place when it is whole on the disk. So a
   cut at any time leaves the one or the other, and who only reads finds a whole one too. The new one has a name that no file had, so that nobody's file
   is lost, and what a cut leaves of it is in nobody's way. */
#define _GNU_SOURCE
#include "own_file.h"

#include <errno.h>
#include <fcntl.h>
#include <stdio.h>
#include <stdlib.h>
#include <string.h>
#include <sys/file.h>
#include <sys/stat.h>
#include <unistd.h>

struct own_file file_named(const char *what, const char *name)
{
    struct own_file own = { what, name, "", -1 };
    return own;
}

int refuse_file(struct own_file *own, const char *why)
{
    fprintf(stderr, "the %s's file %s: %s. It was left as it is\n", own->what, own->name, why);
    if (own->file >= 0)
        close(own->file);
    own->name = NULL;
    return -1;
}

/* Whether the file under a path is the one that is open. */
static int is_own(const struct own_file *own, const char *path)
{
    struct stat ours, there;
    return fstat(own->file, &ours) == 0 && stat(path, &there) == 0 && ours.st_dev == there.st_dev && ours.st_ino == there.st_ino;
}

/* Another meter may have put a new file in the place of the one that was opened here. */
int take_file(struct own_file *own, off_t *size)
{
    struct stat status;
    own->file = open(own->name, O_RDWR | O_CREAT | O_CLOEXEC, 0666);
    if (own->file < 0 || fstat(own->file, &status) != 0 || !realpath(own->name, own->path))
        return refuse_file(own, strerror(errno));
    if (!S_ISREG(status.st_mode))
        return refuse_file(own, "no plain file");
    int locked = flock(own->file, LOCK_EX | LOCK_NB);
    if (locked != 0 && errno != EWOULDBLOCK)
        return refuse_file(own, strerror(errno));
    if (locked != 0 || !is_own(own, own->path))
        return refuse_file(own, "another meter has it in use");
    *size = status.st_size;
    return 0;
}

/* All of it, or the error: a disk that fills up takes a part of the bytes, and has no error before it is asked again. */
static int write_all(int file, const uint8_t *bytes, size_t n)
{
    while (n > 0) {
        ssize_t taken = write(file, bytes, n);
        if (taken < 0 && errno == EINTR)
            continue;
        if (taken == 0)
            errno = ENOSPC;
        if (taken <= 0)
            return -1;
        bytes += taken;
        n -= (size_t)taken;
    }
    return 0;
}

/* With the old one's mode, this meter's alone, and all of it on the disk, before it takes the other's place. */
static int put_in_place(const struct own_file *own, int file, const char *next, const uint8_t *bytes, size_t n)
{
    struct stat old;
    if (fstat(own->file, &old) != 0 || fchmod(file, old.st_mode & 07777) != 0 || flock(file, LOCK_EX | LOCK_NB) != 0)
        return -1;
    return write_all(file, bytes, n) == 0 && fdatasync(file) == 0 && rename(next, own->path) == 0 ? 0 : -1;
}

int replace_file(struct own_file *own, const uint8_t *bytes, size_t n)
{
    char next[PATH_MAX + sizeof ".XXXXXX"];
    snprintf(next, sizeof next, "%s.XXXXXX", own->path);
    int file = mkostemp(next, O_CLOEXEC);
    if (file < 0)
        return errno;
    if (put_in_place(own, file, next, bytes, n) == 0) {
        close(own->file);
        own->file = file;
        return 0;
    }
    int why = errno;
    unlink(next);
    close(file);
    return why;
}

/* The second name comes first, and may be there from a run that was cut off behind it. Where all else fails it is taken back. */
int replace_file_keeping(struct own_file *own, const uint8_t *bytes, size_t n, const char *second_name)
{
    if (link(own->path, second_name) != 0 && (errno != EEXIST || !is_own(own, second_name)))
        return errno;
    int why = replace_file(own, bytes, n);
    if (why != 0)
        unlink(second_name);
    return why;
}
