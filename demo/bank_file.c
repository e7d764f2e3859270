/* The file that keeps the bank of the simulated meter. */
#define _XOPEN_SOURCE 700
#include "bank_file.h"

#include <errno.h>
#include <stdio.h>
#include <string.h>
#include <unistd.h>

#include "old_bank.h"

/* The two sides of lasting memory, on a file. What was stored is on the disk before the next is begun. */
static int load(void *memory, size_t at, uint8_t *bytes, size_t n)
{
    return pread(*(const int *)memory, bytes, n, (off_t)at) == (ssize_t)n ? 0 : -1;
}

static int store(void *memory, size_t at, const uint8_t *bytes, size_t n)
{
    int file = *(const int *)memory;
    return pwrite(file, bytes, n, (off_t)at) == (ssize_t)n && fdatasync(file) == 0 ? 0 : -1;
}

/* Whether a copy that is whole is at a bad station: the check value over it and its own check value, low byte first, is then 0. */
static int copy_is_at_bad_station(const struct meter *meter, const struct kept_bank *kept, char why[STATION_ROOM])
{
    uint8_t copy[CEDARSKEIN_LONGEST_BANK + CHECK_SIZE];
    size_t n = meter->bank_n + CHECK_SIZE;
    for (size_t at = 0; at < kept_size(meter->bank_n); at += n)
        if (kept->lasting.load(kept->lasting.memory, at, copy, n) == 0 && cedarskein_check_value(copy, n) == 0
            && is_at_bad_station(meter, copy, why))
            return 1;
    return 0;
}

static const char SECOND_TAKEN[] = "; its first copy was spoiled, and the second was taken";

static int restore_from_file(struct bank_file *bank, const struct meter *meter)
{
    char why[STATION_ROOM];
    switch (restore_bank(&bank->kept)) {
    case FROM_FIRST_COPY:
        printf("the bank is the one that %s keeps\n", bank->own.name);
        return 0;
    case FROM_SECOND_COPY:
        printf("the bank is the one that %s keeps%s\n", bank->own.name, SECOND_TAKEN);
        return 0;
    default:
        if (copy_is_at_bad_station(meter, &bank->kept, why))
            return refuse_file(&bank->own, why);
        return refuse_file(&bank->own, "neither copy in it is a good bank of this sheet; without the file the meter begins with a fresh bank");
    }
}

/* A file's bytes. There is room for one more than any bank's file has, so that a longer one shows. */
struct image {
    uint8_t bytes[2 * (CEDARSKEIN_LONGEST_BANK + CHECK_SIZE) + 1];
    size_t n;
};

static int load_image(void *memory, size_t at, uint8_t *bytes, size_t n)
{
    memcpy(bytes, ((const struct image *)memory)->bytes + at, n);
    return 0;
}

static int store_image(void *memory, size_t at, const uint8_t *bytes, size_t n)
{
    memcpy(((struct image *)memory)->bytes + at, bytes, n);
    return 0;
}

/* A file for the bank that was carried over, in the place of the old one. That one stays under another name: a bank of bore 50 or 80 has as many bytes,
   and whoever named the wrong sheet needs it still. */
static int keep_carried(struct bank_file *bank, const struct meter *meter, const char *old_name)
{
    char why[WHY_ROOM];
    struct image image = { .n = kept_size(meter->bank_n) };
    struct kept_bank copies = bank->kept;
    struct lasting in_memory = { load_image, store_image, &image };
    copies.lasting = in_memory;
    keep_readings(&copies);
    int error = replace_file_keeping(&bank->own, image.bytes, image.n, old_name);
    if (error == 0)
        return 0;
    snprintf(why, sizeof why, "by its size it is of the AS-WE 40 from before version 3.2; it cannot be carried over and stay as %.*s: %s", WHY_ROOM / 2,
             old_name, error == EEXIST ? "another file has that name; move that one away first" : strerror(error));
    return refuse_file(&bank->own, why);
}

static int carry_file_over(struct bank_file *bank, struct meter *meter, size_t size)
{
    char why[WHY_ROOM], old_name[PATH_MAX + sizeof ".old"];
    struct image image = { .n = size };
    if (load(&bank->own.file, 0, image.bytes, size) != 0)
        return refuse_file(&bank->own, strerror(errno));
    enum restored from = carry_bytes_over(meter, image.bytes, size, why);
    if (from == NO_GOOD_COPY)
        return refuse_file(&bank->own, why);
    snprintf(old_name, sizeof old_name, "%s.old", bank->own.path);
    if (keep_carried(bank, meter, old_name) != 0)
        return -1;
    printf("the bank is the one that %s keeps%s; by its size it was of the AS-WE 40 from before version 3.2, and was carried over to this sheet, the "
           "presets 0118 to 011E at 0; the old file is %s\n",
           bank->own.name, from == FROM_SECOND_COPY ? SECOND_TAKEN : "", old_name);
    return 0;
}

/* A bare bank has no check value by which it could be known to be whole. */
static int refuse_size(struct bank_file *bank, const struct meter *meter, size_t size)
{
    if (is_old_bank_size(meter, size))
        return refuse_file(&bank->own, "by its size it is a bare bank of the AS-WE 40 from before version 3.2; a meter takes two copies with their check "
                                       "values. include/cedarskein.h, \"A board from before version 3.2\", says how it is carried over, and "
                                       "demo/carried.c does it");
    return refuse_file(&bank->own, "it has not the bytes of two banks of this sheet with their check values");
}

int open_bank(struct bank_file *bank, struct meter *meter, const char *path)
{
    off_t size = 0;
    bank->own = file_named("bank", path);
    if (take_file(&bank->own, &size) != 0)
        return -1;
    struct kept_bank kept = { meter->sheet, meter->sheet_n, meter->bank, meter->bank_n, { load, store, &bank->own.file } };
    bank->kept = kept;
    if (size == (off_t)kept_size(meter->bank_n))
        return restore_from_file(bank, meter);
    if (is_old_file_size(meter, (size_t)size))
        return carry_file_over(bank, meter, (size_t)size);
    if (size != 0)
        return refuse_size(bank, meter, (size_t)size);
    printf("the bank is fresh, and kept in %s\n", bank->own.name);
    return keep_bank_readings(bank);
}

static int told(const struct bank_file *bank, int failed)
{
    if (failed)
        fprintf(stderr, "the bank is not kept in %s: %s\n", bank->own.name, strerror(errno));
    return failed;
}

int keep_bank_settings(const struct bank_file *bank)
{
    return bank->own.name ? told(bank, keep_settings(&bank->kept)) : 0;
}

int keep_bank_readings(const struct bank_file *bank)
{
    return bank->own.name ? told(bank, keep_readings(&bank->kept)) : 0;
}

void close_bank(struct bank_file *bank)
{
    if (!bank->own.name)
        return;
    keep_bank_readings(bank);
    close(bank->own.file);
}

/* A spoiled copy is the meter's to write anew. */
static int leave_image(void *memory, size_t at, const uint8_t *bytes, size_t n)
{
    (void)memory, (void)at, (void)bytes, (void)n;
    return -1;
}

static int no_bank(const char *path, const char *why)
{
    fprintf(stderr, "the bank %s: %s\n", path, why);
    return -1;
}

static int read_image(struct image *image, const char *path)
{
    FILE *file = fopen(path, "rb");
    if (!file)
        return no_bank(path, strerror(errno));
    image->n = fread(image->bytes, 1, sizeof image->bytes, file);
    int why = ferror(file) ? errno : 0;
    fclose(file);
    if (why != 0)
        return no_bank(path, strerror(why));
    return image->n < sizeof image->bytes ? 0 : no_bank(path, "it is longer than any bank");
}

static int take_copies(struct meter *meter, struct image *image, const char *path)
{
    struct kept_bank kept = { meter->sheet, meter->sheet_n, meter->bank, meter->bank_n, { load_image, leave_image, image } };
    char why[STATION_ROOM];
    if (restore_bank(&kept) != NO_GOOD_COPY)
        return 0;
    return no_bank(path, copy_is_at_bad_station(meter, &kept, why) ? why : "neither copy in it is a good bank of this sheet");
}

static int take_bytes(struct meter *meter, const struct image *image, const char *path)
{
    char why[STATION_ROOM];
    if (cedarskein_bank_check(meter->sheet, meter->sheet_n, image->bytes, image->n) != CEDARSKEIN_DONE)
        return no_bank(path, is_at_bad_station(meter, image->bytes, why)
                                 ? why
                                 : "it is not sound: an item is out of its range, or the mark is neither 0 nor 1");
    memcpy(meter->bank, image->bytes, meter->bank_n);
    return 0;
}

/* It is told: the frames are then judged with another bank than the file has. */
static int take_old(struct meter *meter, const struct image *image, const char *path)
{
    char why[WHY_ROOM];
    if (carry_bytes_over(meter, image->bytes, image->n, why) == NO_GOOD_COPY)
        return no_bank(path, why);
    fprintf(stderr, "the bank %s: by its size it is of the AS-WE 40 from before version 3.2; the frames are judged with it carried over to this sheet, "
                    "the presets 0118 to 011E at 0. The file is left as it is\n", path);
    return 0;
}

int read_bank(struct meter *meter, const char *path)
{
    struct image image;
    if (read_image(&image, path) != 0)
        return -1;
    if (image.n == meter->bank_n)
        return take_bytes(meter, &image, path);
    if (image.n == kept_size(meter->bank_n))
        return take_copies(meter, &image, path);
    if (is_old_bank_size(meter, image.n) || is_old_file_size(meter, image.n))
        return take_old(meter, &image, path);
    fprintf(stderr, "the bank %s: it has %zu bytes; a bank of this sheet has %zu, and a file that make meter keeps has %zu\n", path, image.n,
            meter->bank_n, kept_size(meter->bank_n));
    return -1;
}
