/* The readings of the simulated meter: a flow that rises and falls slowly, posted into the access 1 areas. */
#include "readings.h"

#include <stdio.h>

#include "cedarskein_registers.h"
#include "records.h"
#include "registers.h"

/* The flow rises for five minutes and falls for five. */
#define HALF_WAVE 300

/* What the meter had counted before it was first switched on, in 0.01 m3. */
#define COUNTED_BEFORE 1234567

/* What AS-WE reads besides the flow, in its steps. */
enum { ASWE_PRESSURE_READING = 20130, ASWE_VELOCITY_READING = 43000 };

/* The words of an access 1 area, which are posted together. */
struct posting {
    struct meter *meter;
    struct area area;
    uint8_t words[CEDARSKEIN_LONGEST_BANK];
};

static void set_reading(struct posting *posting, unsigned address, uint64_t value)
{
    struct register_row row = register_at(posting->meter, address);
    for (unsigned k = 0; k < row.words; k++)
        store_word(posting->words, address - posting->area.first + k, (unsigned)(value >> 16 * (row.words - 1 - k)) & 0xFFFF);
}

static unsigned wave(unsigned second)
{
    unsigned phase = second % (2 * HALF_WAVE);
    return phase < HALF_WAVE ? phase : 2 * HALF_WAVE - phase;
}

unsigned flow_at(unsigned second)
{
    return 200 + 2 * wave(second);
}

unsigned temperature_at(unsigned second)
{
    return 150 + wave(second) / 10;
}

uint64_t total_volume(const struct readings *readings)
{
    return readings->before_trip + readings->flowed / 3600;
}

/* As document 001, 7.2.3, has them. The gas pressure is the one that is set; there is no error. */
static void set_ux(struct posting *posting, const struct readings *readings)
{
    uint64_t trip = readings->flowed / 3600;
    set_reading(posting, CEDARSKEIN_UX_FLOW, flow_at(readings->second));
    set_reading(posting, CEDARSKEIN_UX_GAS_PRESSURE, value_at(posting->meter, CEDARSKEIN_UX_GAS_PRESSURE_SETTING));
    set_reading(posting, CEDARSKEIN_UX_TEMPERATURE, temperature_at(readings->second));
    set_reading(posting, CEDARSKEIN_UX_TOTAL_VOLUME, total_volume(readings));
    set_reading(posting, CEDARSKEIN_UX_TRIP_VOLUME, trip);
}

/* As document 003, 3-2, has them: volumes in 0.1 m3, the temperature in 0.01 degrees. Actual and compensated flow are the same here, and
   nothing flows back. */
static void set_aswe(struct posting *posting, const struct readings *readings)
{
    uint64_t volume = total_volume(readings) / 10;
    set_reading(posting, CEDARSKEIN_ASWE_ACTUAL_FLOW, flow_at(readings->second));
    set_reading(posting, CEDARSKEIN_ASWE_COMPENSATED_FLOW, flow_at(readings->second));
    set_reading(posting, CEDARSKEIN_ASWE_PRESSURE, ASWE_PRESSURE_READING);
    set_reading(posting, CEDARSKEIN_ASWE_TEMPERATURE, 10 * temperature_at(readings->second));
    set_reading(posting, CEDARSKEIN_ASWE_FORWARD_ACTUAL_VOLUME, volume);
    set_reading(posting, CEDARSKEIN_ASWE_FORWARD_COMPENSATED_VOLUME, volume);
    set_reading(posting, CEDARSKEIN_ASWE_SOUND_VELOCITY, ASWE_VELOCITY_READING);
}

/* What the words of another sheet mean is not known here: each counts the seconds, from its place on. */
static void set_counts(struct posting *posting, const struct readings *readings)
{
    for (unsigned address = posting->area.first; address <= posting->area.last; address++)
        set_reading(posting, address, readings->second + place_of(posting->meter, address));
}

static void post_area(struct meter *meter, struct area area, const struct readings *readings)
{
    struct posting posting = { meter, area, { 0 } };
    switch (map_of(meter)) {
    case UX_MAP: set_ux(&posting, readings); break;
    case ASWE_MAP: set_aswe(&posting, readings); break;
    default: set_counts(&posting, readings); break;
    }
    uint32_t number = cedarskein_post(meter->sheet, meter->sheet_n, meter->bank, meter->bank_n, area.first, posting.words,
                                      2 * (area.last + 1 - area.first));
    if (number != CEDARSKEIN_DONE)
        printf("posting at %04X handed back %u\n", area.first, (unsigned)number);
}

struct readings begin_readings(const struct meter *meter)
{
    struct readings readings = { 0, COUNTED_BEFORE, 0, 0 };
    uint64_t total = 0, trip = 0;
    if (map_of(meter) == UX_MAP) {
        total = value_at(meter, CEDARSKEIN_UX_TOTAL_VOLUME);
        trip = value_at(meter, CEDARSKEIN_UX_TRIP_VOLUME);
    } else if (map_of(meter) == ASWE_MAP) {
        total = 10 * value_at(meter, CEDARSKEIN_ASWE_FORWARD_ACTUAL_VOLUME);
    } else {
        total = total_recorded(meter);
    }
    if (total > 0 && total >= trip) {
        readings.before_trip = total - trip;
        readings.flowed = 3600 * trip;
    }
    readings.recorded = total_volume(&readings) / 10;
    return readings;
}

void post_next_second(struct readings *readings, struct meter *meter)
{
    readings->second++;
    readings->flowed += flow_at(readings->second);
    for (unsigned k = 0; k < area_count(meter); k++)
        if (area_at(meter, k).access == READ_ONLY_AREA)
            post_area(meter, area_at(meter, k), readings);
}
