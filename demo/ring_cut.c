/* The ring's file with a cut at each step of its making and of its writing: what is there afterwards is the ring before the record, or the one with
   it. The file that is being made may still be empty, as if it were not there.
   usage: ring_cut SHEET RING
   SHEET has a history, and RING is a file that is not there yet. The linker puts the functions below in place of the system's (--wrap). A cut ends a
   process ahead of a step. A kill leaves all that was written, also a part of a file; where the power fails, what was not on the disk is lost. */
#define _XOPEN_SOURCE 700
#include <dirent.h>
#include <stdio.h>
#include <stdlib.h>
#include <string.h>
#include <sys/types.h>
#include <sys/wait.h>
#include <unistd.h>

#include "ring_file.h"

enum { ALL_DONE = 0, CUT = 3, BROKEN = 4, RECORDS_ADDED = 3, NO_CUT = -1, MOST_STEPS = 100, TAKEN_AT_ONCE = 100000 };

/* How many steps are done before the cut, and whether the power fails at it. And the file whose bytes are not on the disk yet. */
static long steps_left = NO_CUT;
static int power_fails;
static int written = -1;

int __real_ftruncate(int file, off_t size);
ssize_t __real_write(int file, const void *bytes, size_t n);
int __real_fdatasync(int file);
int __real_rename(const char *from, const char *to);
int __real_close(int file);
ssize_t __wrap_write(int file, const void *bytes, size_t n);
int __wrap_fdatasync(int file);
int __wrap_rename(const char *from, const char *to);
int __wrap_close(int file);

static void cut(void)
{
    if (power_fails && written >= 0)
        __real_ftruncate(written, 0);
    _exit(CUT);
}

static void step(void)
{
    if (steps_left >= 0 && steps_left-- == 0)
        cut();
}

/* The system may take a part of the bytes. So the ring takes several steps, and a cut between them leaves a part of it. */
ssize_t __wrap_write(int file, const void *bytes, size_t n)
{
    step();
    written = file;
    return __real_write(file, bytes, n < TAKEN_AT_ONCE ? n : TAKEN_AT_ONCE);
}

int __wrap_fdatasync(int file)
{
    step();
    written = -1;
    return __real_fdatasync(file);
}

int __wrap_rename(const char *from, const char *to)
{
    step();
    return __real_rename(from, to);
}

/* A file that is closed can still lose its bytes, so its number is kept. */
int __wrap_close(int file)
{
    step();
    return file == written ? 0 : __real_close(file);
}

struct trial {
    const char *name;
    struct meter meter;
    struct ring_file ring;
};

static int add_record(struct meter *meter, unsigned word)
{
    uint8_t record[2 * LONGEST_RECORD];
    for (unsigned k = 0; k < LONGEST_RECORD; k++)
        store_word(record, k, word);
    return cedarskein_add_record(meter->sheet, meter->sheet_n, meter->ring, meter->ring_n, record, 2 * history_of(meter).words) == CEDARSKEIN_DONE
               ? 0
               : -1;
}

/* The file is opened, and a record is added and kept. Record 0 is none: the file is opened, and made where it is not there. */
static int do_steps(struct trial *trial, unsigned record)
{
    if (!freopen("/dev/null", "w", stdout) || open_ring(&trial->ring, &trial->meter, trial->name) != 0)
        return BROKEN;
    if (record > 0 && (add_record(&trial->meter, record) != 0 || keep_ring(&trial->ring) != 0))
        return BROKEN;
    return ALL_DONE;
}

/* In a process of its own, up to the cut. To open a file that is there is no step. */
static int status_of_cut(struct trial *trial, unsigned record, long steps)
{
    int status = 0;
    fflush(stdout);
    pid_t child = fork();
    if (child == 0) {
        steps_left = steps;
        _exit(do_steps(trial, record));
    }
    waitpid(child, &status, 0);
    return WIFEXITED(status) ? WEXITSTATUS(status) : BROKEN;
}

/* A cut may leave one new file beside the ring's, under a name of its own, and a writing that is done leaves none. They are removed. */
static int leaves_little(const struct trial *trial, int status)
{
    int count = 0;
    size_t n = strlen(trial->name);
    DIR *folder = opendir(".");
    for (struct dirent *entry = folder ? readdir(folder) : NULL; entry; entry = readdir(folder))
        if (strncmp(entry->d_name, trial->name, n) == 0 && strlen(entry->d_name) == n + strlen(".XXXXXX") && entry->d_name[n] == '.')
            count += unlink(entry->d_name) == 0;
    if (folder)
        closedir(folder);
    return count <= (status == CUT);
}

/* Whether the file has a good ring, with so many records or one more, and the newest of them whole. */
static int is_good(struct trial *trial, unsigned stored)
{
    struct meter *meter = &trial->meter;
    if (read_ring(meter, trial->name) != 0 || records_stored(meter) < stored || stored + 1 < records_stored(meter))
        return 0;
    const uint8_t *newest = record_numbered(meter, 1);
    for (unsigned k = 0; records_stored(meter) > 0 && k < history_of(meter).words; k++)
        if (word_at(newest, k) != records_stored(meter))
            return 0;
    return 1;
}

static long told(long steps, unsigned record)
{
    char what[40] = "the file's making";
    if (record > 0)
        snprintf(what, sizeof what, "record %u", record);
    printf("FAILED: a cut ahead of step %ld of %s, %s, leaves no good ring, or more files than one\n", steps, what,
           power_fails ? "where the power fails" : "by a kill");
    return -1;
}

/* The making of the file, with a cut one step later each time until there is none. Behind each the next meter has an empty ring. Hands back the
   number of cuts; -1 where it has none. */
static long cuts_of_making(struct trial *trial)
{
    for (long steps = 0; steps < MOST_STEPS; steps++) {
        unlink(trial->name);
        memset(trial->meter.ring, 0, trial->meter.ring_n);
        int status = status_of_cut(trial, 0, steps);
        if (status == BROKEN || !leaves_little(trial, status) || status_of_cut(trial, 0, NO_CUT) != ALL_DONE || !is_good(trial, 0))
            return told(steps, 0);
        if (status == ALL_DONE)
            return steps;
    }
    return -1;
}

/* A record, in the same way, until it is kept. */
static long cuts_of_record(struct trial *trial, unsigned stored)
{
    for (long steps = 0; steps < MOST_STEPS; steps++) {
        int status = status_of_cut(trial, stored + 1, steps);
        if (status == BROKEN || !leaves_little(trial, status) || !is_good(trial, stored)
            || (status == ALL_DONE && records_stored(&trial->meter) != stored + 1))
            return told(steps, stored + 1);
        if (records_stored(&trial->meter) == stored + 1)
            return steps + (status == CUT);
    }
    return -1;
}

static long cuts_of_all(struct trial *trial)
{
    long cuts = cuts_of_making(trial);
    for (unsigned stored = 0; cuts >= 0 && stored < RECORDS_ADDED; stored++) {
        long of_record = cuts_of_record(trial, stored);
        cuts = of_record < 0 ? -1 : cuts + of_record;
    }
    return cuts;
}

/* What is left beside the file is looked for where it lies. */
static int enter_folder(struct trial *trial, char *path)
{
    char *slash = strrchr(path, '/');
    trial->name = slash ? slash + 1 : path;
    if (!slash)
        return 0;
    *slash = '\0';
    return chdir(path);
}

int main(int argc, char **argv)
{
    static struct trial trial;
    if (argc != 3 || load_meter(&trial.meter, argv[1]) != 0 || enter_folder(&trial, argv[2]) != 0)
        return 1;
    long by_kill = cuts_of_all(&trial);
    power_fails = 1;
    long by_power = by_kill < 0 ? -1 : cuts_of_all(&trial);
    if (by_power < 0)
        return 1;
    printf("the ring's file: its making and %d records, with a cut at each step, %ld by a kill and %ld by a loss of power, and a good ring behind each\n",
           RECORDS_ADDED, by_kill, by_power);
    return 0;
}
