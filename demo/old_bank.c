/* Banks from before an update of the library. */
#include "old_bank.h"

#include <stdio.h>
#include <string.h>

#include "carried.h"
#include "cedarskein_sheets.h"
#include "registers.h"

static const char BY_SIZE[] = "by its size it is of the AS-WE 40 from before version 3.2, whose banks demo/carried.c carries over";

/* Whether a bank that is not sound would be with a station that the sheet takes. */
static int only_station_is_bad(const struct meter *meter, const uint8_t *bank)
{
    struct meter moved = *meter;
    struct item station = station_item(meter);
    memcpy(moved.bank, bank, moved.bank_n);
    store_word(moved.bank, station.place, (unsigned)station.low);
    return cedarskein_bank_check(moved.sheet, moved.sheet_n, moved.bank, moved.bank_n) == CEDARSKEIN_DONE;
}

int is_at_bad_station(const struct meter *meter, const uint8_t *bank, char why[STATION_ROOM])
{
    struct item station = station_item(meter);
    if (!only_station_is_bad(meter, bank))
        return 0;
    snprintf(why, STATION_ROOM,
             "its station is %u, and this sheet takes %lu to %lu; all else in it is good, and include/cedarskein.h, \"Stations\", says how it gets "
             "another one",
             word_at(bank, station.place), (unsigned long)station.low, (unsigned long)station.high);
    return 1;
}

static int is_aswe_40(const struct meter *meter)
{
    return map_of(meter) == ASWE_MAP && meter->bank_n == CEDARSKEIN_ASWE_40_BANK_SIZE;
}

int is_old_bank_size(const struct meter *meter, size_t n)
{
    return is_aswe_40(meter) && n == OLD_ASWE_40_BANK_SIZE;
}

int is_old_file_size(const struct meter *meter, size_t n)
{
    return is_aswe_40(meter) && n == kept_size(OLD_ASWE_40_BANK_SIZE);
}

/* Whether an old bank makes a good one. Where it does not, and its station alone is bad, it says that. */
static int is_carried(struct meter *meter, const uint8_t *old, char why[WHY_ROOM])
{
    uint8_t bank[CEDARSKEIN_ASWE_40_BANK_SIZE];
    char station[STATION_ROOM];
    uint32_t number = carry_over(meter->sheet, meter->sheet_n, old, bank, sizeof bank);
    if (number == CEDARSKEIN_DONE)
        memcpy(meter->bank, bank, sizeof bank);
    else if (number == CEDARSKEIN_BANK_NOT_SOUND && is_at_bad_station(meter, bank, station))
        snprintf(why, WHY_ROOM, "%s; %s", BY_SIZE, station);
    return number == CEDARSKEIN_DONE;
}

/* The check value over a copy that is whole and its own check value, low byte first, is 0. */
static enum restored carry_copy_over(struct meter *meter, const uint8_t *bytes, char why[WHY_ROOM])
{
    const size_t n = OLD_ASWE_40_BANK_SIZE + CHECK_SIZE;
    snprintf(why, WHY_ROOM, "%s; neither copy in it is a good bank", BY_SIZE);
    if (cedarskein_check_value(bytes, n) == 0 && is_carried(meter, bytes, why))
        return FROM_FIRST_COPY;
    if (cedarskein_check_value(bytes + n, n) == 0 && is_carried(meter, bytes + n, why))
        return FROM_SECOND_COPY;
    return NO_GOOD_COPY;
}

enum restored carry_bytes_over(struct meter *meter, const uint8_t *bytes, size_t n, char why[WHY_ROOM])
{
    if (n != OLD_ASWE_40_BANK_SIZE)
        return carry_copy_over(meter, bytes, why);
    snprintf(why, WHY_ROOM, "%s; it is not sound: an item is out of its range, or the mark is neither 0 nor 1", BY_SIZE);
    return is_carried(meter, bytes, why) ? FROM_FIRST_COPY : NO_GOOD_COPY;
}
