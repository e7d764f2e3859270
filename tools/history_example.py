#!/usr/bin/env python3
"""The example of a sheet with a history, sheets/history_example.sheet.

  history_example.py            writes the file
  history_example.py --check    compares it with what would be written; the exit status is 1 where it is something else

It is made up, in the shape of document 004, the meters AS-W and AS-C: 6600 records of 22 words (44 bytes) from 0400 on, and most of the settings and
readings in front of them. It is the sheet of no meter. An item's range is one interval, and there is no AS-W or AS-C sheet for that reason: 004 takes 0
at 0106 besides 0320 to 04B0. What is otherwise here than in 004: 0106 without the 0, stations 1 to 247 and not 0 to 255, the cutoff at 0109 as for bore
40, five readings at 03FB in place of 021F, so that there is a register in front of the history, a clear of the alarm mark at 0300, no alarm contact
at 010C, and no settings behind 0113."""
import argparse
import os
import sys

PATH = os.path.join(os.path.dirname(os.path.dirname(os.path.abspath(__file__))), "sheets", "history_example.sheet")

VERSION = 1
READ, CLEAR, WRITE, WRITE_SEVERAL = 1, 2, 4, 8
READ_ONLY, READ_AND_WRITE = 1, 3
WORD = 0
CLEAR_ADDRESS = 0x0300
STATION, RATE = 0x0108, 0x0107

# Each setting: its address, its lowest and its highest value. All are plain words.
SETTINGS = [
    (0x0100, 0, 1),            # the pressure that is set is in use
    (0x0101, 0, 0x2710),       # that pressure, in 0.1 kPa
    (0x0102, 4, 6),            # pulse constant
    (0x0103, 0, 1),            # flow compensation
    (0x0104, 0, 1),            # flow of the pulses
    (0x0105, 1, 0x10),         # flow readings averaged
    (0x0106, 0x320, 0x4B0),    # compressibility factor, in 0.001
    (RATE, 0, 1),
    (STATION, 1, 0xF7),
    (0x0109, 0, 0xA0),         # low flow cutoff, in 0.01 m3/h
    (0x010E, 0, 0xFFFF),       # year
    (0x010F, 1, 12),           # month
    (0x0110, 1, 31),           # day
    (0x0111, 0, 23),           # hour
    (0x0112, 0, 59),           # minute
    (0x0113, 1, 0x120),        # time between two records, in 5 minutes
]

# Each area: its first and its last address, and its access.
AREAS = [
    (0x0100, 0x0109, READ_AND_WRITE),
    (0x010E, 0x0113, READ_AND_WRITE),
    (0x01FF, 0x020E, READ_ONLY),    # flow, pressure, temperature, volumes, errors, velocity of sound
    (0x03FB, 0x03FF, READ_ONLY),    # model and serial number
]

# The history: the first address, the number of records, and the words of each.
RECORD_AREA = (0x0400, 6600, 22)


def first_places():
    """The place of each area's first address: an area begins where the one in front of it ends."""
    places = [0]
    for first, last, _ in AREAS:
        places.append(places[-1] + last + 1 - first)
    return places


def place_of(address):
    return next(place + address - first for (first, last, _), place in zip(AREAS, first_places()) if first <= address <= last)


def sheet():
    """The words of the sheet: the header, the areas' rows, the items' rows, the record area."""
    area_rows = [word for (first, last, access), place in zip(AREAS, first_places()) for word in (first, last, place, access)]
    item_rows = [word for address, low, high in SETTINGS for word in (WORD, place_of(address), 0, low, 0, high)]
    begin_areas = 12
    begin_items = begin_areas + len(area_rows)
    header = [
        VERSION, len(AREAS), begin_areas, len(SETTINGS), begin_items, first_places()[-1], READ | CLEAR | WRITE | WRITE_SEVERAL,
        begin_items + len(item_rows) + len(RECORD_AREA), place_of(STATION), place_of(RATE), CLEAR_ADDRESS, 1,
    ]
    return [*header, *area_rows, *item_rows, *RECORD_AREA]


def main():
    words_given = argparse.ArgumentParser(description=__doc__, formatter_class=argparse.RawDescriptionHelpFormatter)
    words_given.add_argument("--check", action="store_true", help="compare, and write nothing")
    made = b"".join(word.to_bytes(2, "big") for word in sheet())
    if not words_given.parse_args().check:
        with open(PATH, "wb") as file:
            file.write(made)
        return 0
    with open(PATH, "rb") as file:
        if file.read() == made:
            return 0
    print("FAILED: sheets/history_example.sheet is not what tools/history_example.py writes")
    return 1


if __name__ == "__main__":
    sys.exit(main())
