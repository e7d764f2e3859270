/* The cases that 01 lists, and more for the requests W1 to W3 and W5 to W7 of 02, run on
 * both sides: the library and the second statement must agree, and both must
 * give what is written here. Each frame is asked about first: the reason, and with
 * an item the side, is the one that 02 names for what 01 writes. */
#include "calls.h"
#include "cedarskein_sheets.h"
#include "second.h"
#include "sheets_made.h"

#include <stdio.h>
#include <stdlib.h>
#include <string.h>

enum { MARK = 0x10000, WORDS = 8, OUT_ROOM = 100 };

/* For the calls of a meter. */
#define NO_ORDER { 0, 0, 0, 0 }

/* AS-WE goes by its bore. No maker's pair can be too low, and so there is UX with
 * another range of the pair 0103. No maker's presets have a neighbour, and so there is
 * AS-WE 40 with settings at 0116 and 0117 and at 011F and 0120 and readings from 0121
 * to 0130; and no maker's station is only written, and so there is one whose settings
 * from 00FF to 0109 are. */
enum { MAP_UX = 0, MAP_PAIR = 1, MAP_BESIDE = 2, MAP_HIDDEN = 3, MAP_AS_WE = 40 };
enum { PAIR_LOW = 0x00018000, PAIR_HIGH = 0x00034000 };

struct stored {
    uint32_t address, word;     /* address 0: none; MARK: the alarm mark */
};

struct frame_case {
    const char *name;
    uint32_t map;
    struct stored before[WORDS];
    const char *frame;          /* checks left out */
    const char *reply;          /* empty for silence */
    struct stored after[WORDS]; /* what has changed; the rest stays */
    enum second_reason reason;
    uint32_t address;           /* told with the reason */
    enum second_side side;      /* likewise */
};

static const struct frame_case cases[] = {
    { "P1", MAP_UX, { { 0x0101, 1 }, { 0x0102, 0 } },
      "01 03 01 01 00 02", "01 03 04 00 01 00 00", { { 0, 0 } },
      REASON_NONE, 0, SIDE_NONE },
    { "P2", MAP_UX, { { 0, 0 } }, "01 10 01 0F 00 02 04 00 01 13 88", "01 10 01 0F 00 02",
      { { 0x010F, 1 }, { 0x0110, 0x1388 } },
      REASON_NONE, 0, SIDE_NONE },
    { "P3", MAP_UX, { { 0, 0 } }, "01 06 01 0E 00 02", "01 06 01 0E 00 02", { { 0x010E, 2 } },
      REASON_NONE, 0, SIDE_NONE },
    { "P4", MAP_UX, { { 0x0103, 0 }, { 0x0104, 0x9876 } },
      "01 06 01 03 00 01", "01 86 03", { { 0, 0 } },
      REASON_ITEM, 0x0103, SIDE_TOO_HIGH },
    { "P5 stored", MAP_UX, { { 0x0103, 0 }, { 0x0104, 0x9876 } },
      "01 10 01 03 00 02 04 00 01 86 9F", "01 10 01 03 00 02",
      { { 0x0103, 1 }, { 0x0104, 0x869F } },
      REASON_NONE, 0, SIDE_NONE },
    { "P5 refused", MAP_UX, { { 0x0103, 0 }, { 0x0104, 0x9876 } },
      "01 10 01 03 00 02 04 00 01 86 A0", "01 90 03", { { 0, 0 } },
      REASON_ITEM, 0x0103, SIDE_TOO_HIGH },
    { "P6", MAP_UX, { { 0, 0 } }, "01 10 01 01 00 03 06 00 04 00 02 00 00", "01 90 03",
      { { 0x0101, 4 } },
      REASON_ITEM, 0x0102, SIDE_TOO_HIGH },
    { "P7", MAP_UX, { { 0, 0 } }, "01 10 01 0E 00 02 04 00 02 00 02", "01 90 03",
      { { 0x010E, 2 } },
      REASON_ITEM, 0x010F, SIDE_TOO_HIGH },
    { "P8 FFF6", MAP_UX, { { 0x0100, 5 } }, "01 06 01 00 FF F6", "01 06 01 00 FF F6",
      { { 0x0100, 0xFFF6 } },
      REASON_NONE, 0, SIDE_NONE },
    { "P8 003C", MAP_UX, { { 0, 0 } }, "01 06 01 00 00 3C", "01 06 01 00 00 3C",
      { { 0x0100, 0x003C } },
      REASON_NONE, 0, SIDE_NONE },
    { "P8 FFF5", MAP_UX, { { 0, 0 } }, "01 06 01 00 FF F5", "01 86 03", { { 0, 0 } },
      REASON_ITEM, 0x0100, SIDE_TOO_LOW },
    { "P8 003D", MAP_UX, { { 0, 0 } }, "01 06 01 00 00 3D", "01 86 03", { { 0, 0 } },
      REASON_ITEM, 0x0100, SIDE_TOO_HIGH },
    { "P9 23", MAP_UX, { { 0, 0 } }, "01 03 01 00 00 17",
      "01 03 2E FF F6 00 00 00 00 00 00 00 00 00 00 00 00 00 00 00 00 00 01 00 00 00 00 00 00 "
      "00 01 00 01 00 00 00 00 00 00 00 00 00 00 00 00 00 00 00 00", { { 0, 0 } },
      REASON_NONE, 0, SIDE_NONE },
    { "P9 24", MAP_UX, { { 0, 0 } }, "01 03 01 00 00 18", "01 83 02", { { 0, 0 } },
      REASON_ADDRESS, 0x0117, SIDE_NONE },
    { "P9 0", MAP_UX, { { 0, 0 } }, "01 03 01 00 00 00", "01 83 03", { { 0, 0 } },
      REASON_BAD_COUNT, 0, SIDE_NONE },
    { "P10 0000", MAP_UX, { { MARK, 1 } }, "01 05 03 00 00 00", "01 05 03 00 00 00",
      { { MARK, 0 } },
      REASON_NONE, 0, SIDE_NONE },
    { "P10 0001", MAP_UX, { { MARK, 1 } }, "01 05 03 00 00 01", "01 85 03", { { 0, 0 } },
      REASON_CLEAR_VALUE, 0, SIDE_NONE },
    { "P10 0301", MAP_UX, { { MARK, 1 } }, "01 05 03 01 00 01", "01 85 02", { { 0, 0 } },
      REASON_ADDRESS, 0x0301, SIDE_NONE },
    { "P10 AS-WE", MAP_AS_WE, { { 0, 0 } }, "01 05 03 00 00 00", "01 85 01", { { 0, 0 } },
      REASON_FUNCTION, 0, SIDE_NONE },
    { "P11 0010", MAP_AS_WE, { { 0, 0 } }, "01 06 01 09 00 10", "01 06 01 09 00 10",
      { { 0x0109, 0x10 } },
      REASON_NONE, 0, SIDE_NONE },
    { "P11 0011", MAP_AS_WE, { { 0, 0 } }, "01 06 01 09 00 11", "01 86 03", { { 0, 0 } },
      REASON_ITEM, 0x0109, SIDE_TOO_HIGH },
    { "function 83", MAP_UX, { { 0, 0 } }, "01 83 01 00 00 01", "01 83 01", { { 0, 0 } },
      REASON_FUNCTION, 0, SIDE_NONE },
    { "06 at 0200", MAP_UX, { { 0, 0 } }, "01 06 02 00 00 01", "01 86 02", { { 0, 0 } },
      REASON_ADDRESS, 0x0200, SIDE_NONE },
    { "9-byte 06", MAP_UX, { { 0, 0 } }, "01 06 01 01 00 01 00", "", { { 0, 0 } },
      REASON_BODY_LENGTH, 0, SIDE_NONE },
    { "W1 lower half", MAP_UX, { { 0x0103, 1 } }, "01 06 01 04 86 A0", "01 86 03", { { 0, 0 } },
      REASON_ITEM, 0x0103, SIDE_TOO_HIGH },
    { "W1 count 48", MAP_UX, { { 0, 0 } }, "01 03 04 00 00 30", "01 83 02", { { 0, 0 } },
      REASON_BAD_COUNT, 0, SIDE_NONE },
    { "W1 byte count", MAP_UX, { { 0, 0 } }, "01 10 01 01 00 02 02 00 01", "01 90 03",
      { { 0, 0 } },
      REASON_BAD_COUNT, 0, SIDE_NONE },
    { "W1 station", MAP_UX, { { 0, 0 } }, "02 03 01 01 00 02", "", { { 0, 0 } },
      REASON_STATION, 0, SIDE_NONE },
    { "W2 read at 0", MAP_AS_WE, { { 0, 0 } }, "00 03 01 08 00 01", "", { { 0, 0 } },
      REASON_STATION, 0, SIDE_NONE },
    { "W2 write at 0", MAP_AS_WE, { { 0, 0 } }, "00 06 01 09 00 10", "", { { 0, 0 } },
      REASON_STATION, 0, SIDE_NONE },
    { "W2 clear at 0", MAP_UX, { { MARK, 1 } }, "00 05 03 00 00 00", "", { { 0, 0 } },
      REASON_STATION, 0, SIDE_NONE },
    { "W2 read at F8", MAP_AS_WE, { { 0x0108, 0xF7 } }, "F8 03 01 08 00 01", "", { { 0, 0 } },
      REASON_STATION, 0, SIDE_NONE },
    { "W2 write at FF", MAP_AS_WE, { { 0x0108, 0xF7 } }, "FF 06 01 09 00 10", "", { { 0, 0 } },
      REASON_STATION, 0, SIDE_NONE },
    { "W2 at F7", MAP_AS_WE, { { 0x0108, 0xF7 } }, "F7 03 01 08 00 01", "F7 03 02 00 F7",
      { { 0, 0 } },
      REASON_NONE, 0, SIDE_NONE },
    { "W2 F7 stored", MAP_AS_WE, { { 0, 0 } }, "01 06 01 08 00 F7", "01 06 01 08 00 F7",
      { { 0x0108, 0xF7 } },
      REASON_NONE, 0, SIDE_NONE },
    { "W2 1 stored", MAP_AS_WE, { { 0x0108, 0xF7 } }, "F7 06 01 08 00 01", "F7 06 01 08 00 01",
      { { 0x0108, 1 } },
      REASON_NONE, 0, SIDE_NONE },
    { "W2 0 refused", MAP_AS_WE, { { 0, 0 } }, "01 06 01 08 00 00", "01 86 03", { { 0, 0 } },
      REASON_ITEM, 0x0108, SIDE_TOO_LOW },
    { "W2 F8 refused", MAP_AS_WE, { { 0, 0 } }, "01 06 01 08 00 F8", "01 86 03", { { 0, 0 } },
      REASON_ITEM, 0x0108, SIDE_TOO_HIGH },
    { "W2 FF refused", MAP_AS_WE, { { 0, 0 } }, "01 06 01 08 00 FF", "01 86 03", { { 0, 0 } },
      REASON_ITEM, 0x0108, SIDE_TOO_HIGH },
    { "W2 0101 refused", MAP_AS_WE, { { 0, 0 } }, "01 06 01 08 01 01", "01 86 03", { { 0, 0 } },
      REASON_ITEM, 0x0108, SIDE_TOO_HIGH },
    { "W2 part stored", MAP_AS_WE, { { 0, 0 } }, "01 10 01 07 00 03 06 00 00 00 F8 00 10",
      "01 90 03", { { 0x0107, 0 } },
      REASON_ITEM, 0x0108, SIDE_TOO_HIGH },
    { "W2 UX F7 stored", MAP_UX, { { 0, 0 } }, "01 06 01 0E 00 F7", "01 06 01 0E 00 F7",
      { { 0x010E, 0xF7 } },
      REASON_NONE, 0, SIDE_NONE },
    { "W2 UX 0 refused", MAP_UX, { { 0, 0 } }, "01 06 01 0E 00 00", "01 86 03", { { 0, 0 } },
      REASON_ITEM, 0x010E, SIDE_TOO_LOW },
    { "W2 UX F8 refused", MAP_UX, { { 0, 0 } }, "01 06 01 0E 00 F8", "01 86 03", { { 0, 0 } },
      REASON_ITEM, 0x010E, SIDE_TOO_HIGH },
    { "W5 0109 0000", MAP_UX, { { 0, 0 } }, "01 06 01 09 00 00", "01 86 03", { { 0, 0 } },
      REASON_ITEM, 0x0109, SIDE_TOO_LOW },
    { "W5 0109 0001", MAP_UX, { { 0x0109, 5 } }, "01 06 01 09 00 01", "01 06 01 09 00 01",
      { { 0x0109, 1 } },
      REASON_NONE, 0, SIDE_NONE },
    { "W5 0109 0010", MAP_UX, { { 0, 0 } }, "01 06 01 09 00 10", "01 06 01 09 00 10",
      { { 0x0109, 0x10 } },
      REASON_NONE, 0, SIDE_NONE },
    { "W5 0109 0011", MAP_UX, { { 0, 0 } }, "01 06 01 09 00 11", "01 86 03", { { 0, 0 } },
      REASON_ITEM, 0x0109, SIDE_TOO_HIGH },
    { "W5 0109 FFFF", MAP_UX, { { 0, 0 } }, "01 06 01 09 FF FF", "01 86 03", { { 0, 0 } },
      REASON_ITEM, 0x0109, SIDE_TOO_HIGH },
    { "W5 0106 031F", MAP_AS_WE, { { 0, 0 } }, "01 06 01 06 03 1F", "01 86 03", { { 0, 0 } },
      REASON_ITEM, 0x0106, SIDE_TOO_LOW },
    { "W5 0106 0320", MAP_AS_WE, { { 0x0106, 0x0400 } }, "01 06 01 06 03 20", "01 06 01 06 03 20",
      { { 0x0106, 0x0320 } },
      REASON_NONE, 0, SIDE_NONE },
    { "W5 0106 04B0", MAP_AS_WE, { { 0, 0 } }, "01 06 01 06 04 B0", "01 06 01 06 04 B0",
      { { 0x0106, 0x04B0 } },
      REASON_NONE, 0, SIDE_NONE },
    { "W5 0106 04B1", MAP_AS_WE, { { 0, 0 } }, "01 06 01 06 04 B1", "01 86 03", { { 0, 0 } },
      REASON_ITEM, 0x0106, SIDE_TOO_HIGH },
    { "W5 010E FFFF", MAP_AS_WE, { { 0, 0 } }, "01 06 01 0E FF FF", "01 06 01 0E FF FF",
      { { 0x010E, 0xFFFF } },
      REASON_NONE, 0, SIDE_NONE },
    { "W5 0100 8000", MAP_UX, { { 0, 0 } }, "01 06 01 00 80 00", "01 86 03", { { 0, 0 } },
      REASON_ITEM, 0x0100, SIDE_TOO_LOW },
    { "W5 0100 FFFF", MAP_UX, { { 0, 0 } }, "01 06 01 00 FF FF", "01 06 01 00 FF FF",
      { { 0x0100, 0xFFFF } },
      REASON_NONE, 0, SIDE_NONE },
    { "W5 0100 0000", MAP_UX, { { 0, 0 } }, "01 06 01 00 00 00", "01 06 01 00 00 00",
      { { 0x0100, 0 } },
      REASON_NONE, 0, SIDE_NONE },
    { "W5 0100 7FFF", MAP_UX, { { 0, 0 } }, "01 06 01 00 7F FF", "01 86 03", { { 0, 0 } },
      REASON_ITEM, 0x0100, SIDE_TOO_HIGH },
    { "W5 0123 FF9B", MAP_AS_WE, { { 0, 0 } }, "01 06 01 23 FF 9B", "01 86 03", { { 0, 0 } },
      REASON_ITEM, 0x0123, SIDE_TOO_LOW },
    { "W5 0123 FF9C", MAP_AS_WE, { { 0x0123, 0 } }, "01 06 01 23 FF 9C", "01 06 01 23 FF 9C",
      { { 0x0123, 0xFF9C } },
      REASON_NONE, 0, SIDE_NONE },
    { "W5 0123 0258", MAP_AS_WE, { { 0, 0 } }, "01 06 01 23 02 58", "01 06 01 23 02 58",
      { { 0x0123, 0x0258 } },
      REASON_NONE, 0, SIDE_NONE },
    { "W5 0123 0259", MAP_AS_WE, { { 0, 0 } }, "01 06 01 23 02 59", "01 86 03", { { 0, 0 } },
      REASON_ITEM, 0x0123, SIDE_TOO_HIGH },
    { "W5 0113 000F 423F", MAP_UX, { { 0, 0 } },
      "01 10 01 13 00 02 04 00 0F 42 3F", "01 10 01 13 00 02",
      { { 0x0113, 0x000F }, { 0x0114, 0x423F } },
      REASON_NONE, 0, SIDE_NONE },
    { "W5 0113 000F 4240", MAP_UX, { { 0, 0 } }, "01 10 01 13 00 02 04 00 0F 42 40", "01 90 03",
      { { 0, 0 } },
      REASON_ITEM, 0x0113, SIDE_TOO_HIGH },
    { "W5 0113 FFFF FFFF", MAP_UX, { { 0, 0 } }, "01 10 01 13 00 02 04 FF FF FF FF", "01 90 03",
      { { 0, 0 } },
      REASON_ITEM, 0x0113, SIDE_TOO_HIGH },
    { "W5 0103 0001 alone", MAP_UX, { { 0x0104, 0x869F } },
      "01 06 01 03 00 01", "01 06 01 03 00 01", { { 0x0103, 1 } },
      REASON_NONE, 0, SIDE_NONE },
    { "W5 0103 0001, by 86A0", MAP_UX, { { 0x0104, 0x86A0 } }, "01 06 01 03 00 01", "01 86 03",
      { { 0, 0 } },
      REASON_ITEM, 0x0103, SIDE_TOO_HIGH },
    { "W5 0103 0002 alone", MAP_UX, { { 0, 0 } }, "01 06 01 03 00 02", "01 86 03", { { 0, 0 } },
      REASON_ITEM, 0x0103, SIDE_TOO_HIGH },
    { "W5 0104 FFFF alone", MAP_UX, { { 0, 0 } }, "01 06 01 04 FF FF", "01 06 01 04 FF FF",
      { { 0x0104, 0xFFFF } },
      REASON_NONE, 0, SIDE_NONE },
    { "W5 0104 869F, by 0001", MAP_UX, { { 0x0103, 1 } }, "01 06 01 04 86 9F", "01 06 01 04 86 9F",
      { { 0x0104, 0x869F } },
      REASON_NONE, 0, SIDE_NONE },
    { "W5 up to an upper half", MAP_UX, { { 0x0104, 0x9876 } },
      "01 10 01 02 00 02 04 00 01 00 01", "01 90 03", { { 0x0102, 1 } },
      REASON_ITEM, 0x0103, SIDE_TOO_HIGH },
    { "W5 from a lower half on", MAP_UX, { { 0x0103, 1 } },
      "01 10 01 04 00 02 04 86 A0 00 00", "01 90 03", { { 0, 0 } },
      REASON_ITEM, 0x0103, SIDE_TOO_HIGH },
    { "W5 high, then low", MAP_AS_WE, { { 0, 0 } }, "01 10 01 05 00 02 04 00 11 03 1F", "01 90 03",
      { { 0, 0 } },
      REASON_ITEM, 0x0105, SIDE_TOO_HIGH },
    { "W5 low, then high", MAP_AS_WE, { { 0, 0 } }, "01 10 01 05 00 02 04 00 00 04 B1", "01 90 03",
      { { 0, 0 } },
      REASON_ITEM, 0x0105, SIDE_TOO_LOW },
    { "W5 good, then low", MAP_AS_WE, { { 0, 0 } }, "01 10 01 05 00 02 04 00 10 03 1F", "01 90 03",
      { { 0x0105, 0x10 } },
      REASON_ITEM, 0x0106, SIDE_TOO_LOW },
    { "W5 pair 0001 7FFF", MAP_PAIR, { { 0, 0 } }, "01 10 01 03 00 02 04 00 01 7F FF", "01 90 03",
      { { 0, 0 } },
      REASON_ITEM, 0x0103, SIDE_TOO_LOW },
    { "W5 pair 0001 8000", MAP_PAIR, { { 0x0103, 2 }, { 0x0104, 0 } },
      "01 10 01 03 00 02 04 00 01 80 00", "01 10 01 03 00 02",
      { { 0x0103, 1 }, { 0x0104, 0x8000 } },
      REASON_NONE, 0, SIDE_NONE },
    { "W5 pair 0003 4000", MAP_PAIR, { { 0, 0 } },
      "01 10 01 03 00 02 04 00 03 40 00", "01 10 01 03 00 02",
      { { 0x0103, 3 }, { 0x0104, 0x4000 } },
      REASON_NONE, 0, SIDE_NONE },
    { "W5 pair 0003 4001", MAP_PAIR, { { 0, 0 } }, "01 10 01 03 00 02 04 00 03 40 01", "01 90 03",
      { { 0, 0 } },
      REASON_ITEM, 0x0103, SIDE_TOO_HIGH },
    { "W5 pair 0000 FFFF", MAP_PAIR, { { 0, 0 } }, "01 10 01 03 00 02 04 00 00 FF FF", "01 90 03",
      { { 0, 0 } },
      REASON_ITEM, 0x0103, SIDE_TOO_LOW },
    { "W5 pair FFFF 0000", MAP_PAIR, { { 0, 0 } }, "01 10 01 03 00 02 04 FF FF 00 00", "01 90 03",
      { { 0, 0 } },
      REASON_ITEM, 0x0103, SIDE_TOO_HIGH },
    { "W5 upper 0001, by 8000", MAP_PAIR, { { 0x0103, 2 }, { 0x0104, 0x8000 } },
      "01 06 01 03 00 01", "01 06 01 03 00 01", { { 0x0103, 1 } },
      REASON_NONE, 0, SIDE_NONE },
    { "W5 upper 0001, by 7FFF", MAP_PAIR, { { 0x0103, 2 }, { 0x0104, 0x7FFF } },
      "01 06 01 03 00 01", "01 86 03", { { 0, 0 } },
      REASON_ITEM, 0x0103, SIDE_TOO_LOW },
    { "W5 upper 0003, by 4000", MAP_PAIR, { { 0x0103, 2 }, { 0x0104, 0x4000 } },
      "01 06 01 03 00 03", "01 06 01 03 00 03", { { 0x0103, 3 } },
      REASON_NONE, 0, SIDE_NONE },
    { "W5 upper 0003, by 4001", MAP_PAIR, { { 0x0103, 2 }, { 0x0104, 0x4001 } },
      "01 06 01 03 00 03", "01 86 03", { { 0, 0 } },
      REASON_ITEM, 0x0103, SIDE_TOO_HIGH },
    { "W5 upper 0000", MAP_PAIR, { { 0x0103, 2 }, { 0x0104, 0xFFFF } },
      "01 06 01 03 00 00", "01 86 03", { { 0, 0 } },
      REASON_ITEM, 0x0103, SIDE_TOO_LOW },
    { "W5 upper 0004", MAP_PAIR, { { 0x0103, 2 }, { 0x0104, 0 } }, "01 06 01 03 00 04", "01 86 03",
      { { 0, 0 } },
      REASON_ITEM, 0x0103, SIDE_TOO_HIGH },
    { "W5 lower 8000, by 0001", MAP_PAIR, { { 0x0103, 1 }, { 0x0104, 0x9000 } },
      "01 06 01 04 80 00", "01 06 01 04 80 00", { { 0x0104, 0x8000 } },
      REASON_NONE, 0, SIDE_NONE },
    { "W5 lower 7FFF, by 0001", MAP_PAIR, { { 0x0103, 1 }, { 0x0104, 0x9000 } },
      "01 06 01 04 7F FF", "01 86 03", { { 0, 0 } },
      REASON_ITEM, 0x0103, SIDE_TOO_LOW },
    { "W5 lower 4000, by 0003", MAP_PAIR, { { 0x0103, 3 }, { 0x0104, 0 } },
      "01 06 01 04 40 00", "01 06 01 04 40 00", { { 0x0104, 0x4000 } },
      REASON_NONE, 0, SIDE_NONE },
    { "W5 lower 4001, by 0003", MAP_PAIR, { { 0x0103, 3 }, { 0x0104, 0 } },
      "01 06 01 04 40 01", "01 86 03", { { 0, 0 } },
      REASON_ITEM, 0x0103, SIDE_TOO_HIGH },
    { "W5 lower FFFF, by 0003", MAP_PAIR, { { 0x0103, 3 }, { 0x0104, 0 } },
      "01 06 01 04 FF FF", "01 86 03", { { 0, 0 } },
      REASON_ITEM, 0x0103, SIDE_TOO_HIGH },
    { "W5 lower 0000, by 0001", MAP_PAIR, { { 0x0103, 1 }, { 0x0104, 0x9000 } },
      "01 06 01 04 00 00", "01 86 03", { { 0, 0 } },
      REASON_ITEM, 0x0103, SIDE_TOO_LOW },
    { "W7 read of 0118", MAP_AS_WE, { { 0, 0 } }, "01 03 01 18 00 01", "01 83 02", { { 0, 0 } },
      REASON_ADDRESS, 0x0118, SIDE_NONE },
    { "W7 read of 011E", MAP_AS_WE, { { 0, 0 } }, "01 03 01 1E 00 01", "01 83 02", { { 0, 0 } },
      REASON_ADDRESS, 0x011E, SIDE_NONE },
    { "W7 read of all", MAP_AS_WE, { { 0x0118, 9 } }, "01 03 01 18 00 07", "01 83 02",
      { { 0, 0 } },
      REASON_ADDRESS, 0x0118, SIDE_NONE },
    { "W7 read of none", MAP_AS_WE, { { 0, 0 } }, "01 03 01 18 00 00", "01 83 03", { { 0, 0 } },
      REASON_BAD_COUNT, 0, SIDE_NONE },
    { "W7 read of 48", MAP_AS_WE, { { 0, 0 } }, "01 03 01 18 00 30", "01 83 02", { { 0, 0 } },
      REASON_BAD_COUNT, 0, SIDE_NONE },
    { "W7 read over 0117", MAP_AS_WE, { { 0, 0 } }, "01 03 01 16 00 03", "01 83 02", { { 0, 0 } },
      REASON_ADDRESS, 0x0117, SIDE_NONE },
    { "W7 read of 0115", MAP_AS_WE, { { 0, 0 } }, "01 03 01 15 00 02", "01 03 04 00 00 00 01",
      { { 0, 0 } },
      REASON_NONE, 0, SIDE_NONE },
    { "W7 0118 0009", MAP_AS_WE, { { 0, 0 } }, "01 06 01 18 00 09", "01 06 01 18 00 09",
      { { 0x0118, 9 } },
      REASON_NONE, 0, SIDE_NONE },
    { "W7 0118 000A", MAP_AS_WE, { { 0, 0 } }, "01 06 01 18 00 0A", "01 86 03", { { 0, 0 } },
      REASON_ITEM, 0x0118, SIDE_TOO_HIGH },
    { "W7 0119 270F", MAP_AS_WE, { { 0, 0 } }, "01 06 01 19 27 0F", "01 06 01 19 27 0F",
      { { 0x0119, 0x270F } },
      REASON_NONE, 0, SIDE_NONE },
    { "W7 0119 2710", MAP_AS_WE, { { 0, 0 } }, "01 06 01 19 27 10", "01 86 03", { { 0, 0 } },
      REASON_ITEM, 0x0119, SIDE_TOO_HIGH },
    { "W7 011A 270F", MAP_AS_WE, { { 0, 0 } }, "01 06 01 1A 27 0F", "01 06 01 1A 27 0F",
      { { 0x011A, 0x270F } },
      REASON_NONE, 0, SIDE_NONE },
    { "W7 011A 9999", MAP_AS_WE, { { 0, 0 } }, "01 06 01 1A 99 99", "01 86 03", { { 0, 0 } },
      REASON_ITEM, 0x011A, SIDE_TOO_HIGH },
    { "W7 011B FFFF alone", MAP_AS_WE, { { 0x011C, 0x1234 } }, "01 06 01 1B FF FF",
      "01 06 01 1B FF FF", { { 0x011B, 0xFFFF } },
      REASON_NONE, 0, SIDE_NONE },
    { "W7 011C FFFF alone", MAP_AS_WE, { { 0x011B, 0xFFFF } }, "01 06 01 1C FF FF",
      "01 06 01 1C FF FF", { { 0x011C, 0xFFFF } },
      REASON_NONE, 0, SIDE_NONE },
    { "W7 011E ABCD alone", MAP_AS_WE, { { 0x011D, 0x8000 } }, "01 06 01 1E AB CD",
      "01 06 01 1E AB CD", { { 0x011E, 0xABCD } },
      REASON_NONE, 0, SIDE_NONE },
    { "W7 011D FFFF FFFF", MAP_AS_WE, { { 0, 0 } }, "01 10 01 1D 00 02 04 FF FF FF FF",
      "01 10 01 1D 00 02", { { 0x011D, 0xFFFF }, { 0x011E, 0xFFFF } },
      REASON_NONE, 0, SIDE_NONE },
    { "W7 all", MAP_AS_WE, { { 0, 0 } },
      "01 10 01 18 00 07 0E 00 09 27 0F 00 01 FF FF 00 00 00 00 FF FF", "01 10 01 18 00 07",
      { { 0x0118, 9 }, { 0x0119, 0x270F }, { 0x011A, 1 }, { 0x011B, 0xFFFF }, { 0x011E, 0xFFFF } },
      REASON_NONE, 0, SIDE_NONE },
    { "W7 from a half on", MAP_AS_WE, { { 0, 0 } }, "01 10 01 1C 00 02 04 11 11 22 22",
      "01 10 01 1C 00 02", { { 0x011C, 0x1111 }, { 0x011D, 0x2222 } },
      REASON_NONE, 0, SIDE_NONE },
    { "W7 one too many", MAP_AS_WE, { { 0, 0 } }, "01 10 01 1E 00 02 04 00 01 00 01", "01 90 02",
      { { 0, 0 } },
      REASON_ADDRESS, 0x011F, SIDE_NONE },
    { "W7 from 0117", MAP_AS_WE, { { 0, 0 } }, "01 10 01 17 00 02 04 00 01 00 01", "01 90 02",
      { { 0, 0 } },
      REASON_ADDRESS, 0x0117, SIDE_NONE },
    { "W7 good, then high", MAP_AS_WE, { { 0, 0 } }, "01 10 01 18 00 03 06 00 09 27 10 00 01",
      "01 90 03", { { 0x0118, 9 } },
      REASON_ITEM, 0x0119, SIDE_TOO_HIGH },
    { "W7 beside, read of the last", MAP_BESIDE, { { 0, 0 } }, "01 03 01 17 00 02", "01 83 02",
      { { 0, 0 } },
      REASON_ADDRESS, 0x0118, SIDE_NONE },
    { "W7 beside, read over all", MAP_BESIDE, { { 0, 0 } }, "01 03 01 17 00 09", "01 83 02",
      { { 0, 0 } },
      REASON_ADDRESS, 0x0118, SIDE_NONE },
    { "W7 beside, read of the first", MAP_BESIDE, { { 0, 0 } }, "01 03 01 1E 00 02", "01 83 02",
      { { 0, 0 } },
      REASON_ADDRESS, 0x011E, SIDE_NONE },
    { "W7 beside, read in front", MAP_BESIDE, { { 0x0116, 5 } }, "01 03 01 16 00 02",
      "01 03 04 00 05 00 01", { { 0, 0 } },
      REASON_NONE, 0, SIDE_NONE },
    { "W7 beside, read behind", MAP_BESIDE, { { 0x0121, 0xBEEF } }, "01 03 01 1F 00 03",
      "01 03 06 FF 9C 00 00 BE EF", { { 0, 0 } },
      REASON_NONE, 0, SIDE_NONE },
    { "W7 beside, write into", MAP_BESIDE, { { 0, 0 } }, "01 10 01 17 00 02 04 00 04 00 09",
      "01 10 01 17 00 02", { { 0x0117, 4 }, { 0x0118, 9 } },
      REASON_NONE, 0, SIDE_NONE },
    { "W7 beside, write out of", MAP_BESIDE, { { 0x011D, 7 } }, "01 10 01 1E 00 02 04 00 08 00 09",
      "01 10 01 1E 00 02", { { 0x011E, 8 }, { 0x011F, 9 } },
      REASON_NONE, 0, SIDE_NONE },
    { "W7 beside, bad behind", MAP_BESIDE, { { 0, 0 } },
      "01 10 01 1D 00 03 06 12 34 56 78 02 59", "01 90 03",
      { { 0x011D, 0x1234 }, { 0x011E, 0x5678 } },
      REASON_ITEM, 0x011F, SIDE_TOO_HIGH },
    { "W7 beside, bad in front", MAP_BESIDE, { { 0, 0 } }, "01 10 01 17 00 02 04 00 05 00 09",
      "01 90 03", { { 0, 0 } },
      REASON_ITEM, 0x0117, SIDE_TOO_HIGH },
    { "W7 beside, bad within", MAP_BESIDE, { { 0, 0 } }, "01 10 01 17 00 02 04 00 04 00 0A",
      "01 90 03", { { 0x0117, 4 } },
      REASON_ITEM, 0x0118, SIDE_TOO_HIGH },
    { "W7 beside, to the readings", MAP_BESIDE, { { 0, 0 } },
      "01 10 01 1E 00 04 08 00 01 00 01 00 01 00 01", "01 90 02", { { 0, 0 } },
      REASON_ADDRESS, 0x0121, SIDE_NONE },
    { "W7 hidden, read of the station", MAP_HIDDEN, { { 0, 0 } }, "01 03 01 08 00 01", "01 83 02",
      { { 0, 0 } },
      REASON_ADDRESS, 0x0108, SIDE_NONE },
    { "W7 hidden, station 2", MAP_HIDDEN, { { 0, 0 } }, "01 06 01 08 00 02", "01 06 01 08 00 02",
      { { 0x0108, 2 } },
      REASON_NONE, 0, SIDE_NONE },
    { "W7 hidden, station 0", MAP_HIDDEN, { { 0, 0 } }, "01 06 01 08 00 00", "01 86 03",
      { { 0, 0 } },
      REASON_ITEM, 0x0108, SIDE_TOO_LOW },
    { "W7 hidden, rate 0, station 3", MAP_HIDDEN, { { 0, 0 } }, "01 10 01 07 00 02 04 00 00 00 03",
      "01 10 01 07 00 02", { { 0x0107, 0 }, { 0x0108, 3 } },
      REASON_NONE, 0, SIDE_NONE },
    { "W7 hidden, at station 9", MAP_HIDDEN, { { 0x0108, 9 } }, "09 06 01 09 00 11", "09 86 03",
      { { 0, 0 } },
      REASON_ITEM, 0x0109, SIDE_TOO_HIGH }
};

static int failed;

static void expect(bool holds, const char *name, const char *what)
{
    if (holds)
        return;
    printf("%s: %s\n", name, what);
    failed++;
}

static size_t put_hex(const char *hex, uint8_t *bytes)
{
    size_t n = 0;
    for (char *next; *hex != '\0'; hex = next)
        bytes[n++] = (uint8_t)strtoul(hex, &next, 16);
    return n;
}

static size_t add_check(uint8_t *bytes, size_t n)
{
    uint16_t value = second_check_value(bytes, n);
    bytes[n] = (uint8_t)(value & 0xFF);
    bytes[n + 1] = (uint8_t)(value >> 8);
    return n + 2;
}

static size_t put_checked(const char *hex, uint8_t *bytes)
{
    return add_check(bytes, put_hex(hex, bytes));
}

static void put_stored(const struct made *made, const struct stored *stored, uint8_t *bank)
{
    for (int i = 0; i < WORDS && stored[i].address != 0; i++) {
        if (stored[i].address == MARK) {
            put16(bank, made->bank_words, stored[i].word);
            continue;
        }
        const struct made_area *area = &made->areas[made_area_of(made, stored[i].address)];
        put16(bank, area->place + (stored[i].address - area->first), stored[i].word);
    }
}

static void judge_case(const struct frame_case *one, const struct call *call,
                       const struct outcome *outcome, const uint8_t *bank)
{
    uint8_t out[OUT_ROOM] = { 0 };
    size_t n = *one->reply == '\0' ? 0 : put_checked(one->reply, out);
    expect(outcome->number == (n == 0 ? NUMBER_SILENCE : NUMBER_DONE), one->name, "number");
    expect(outcome->length == n, one->name, "length");
    expect(outcome->rate == (n == 0 ? 0 : 1), one->name, "rate");
    expect(memcmp(out, part_after(PART_OUT), OUT_ROOM) == 0, one->name, "reply");
    expect(memcmp(bank, part_after(PART_BANK), call->part_n[PART_BANK]) == 0, one->name, "bank");
}

/* Asked with the bank as it is before the frame, which stays as it is. */
static void ask_why(const struct frame_case *one, struct call call)
{
    struct outcome why;
    call.sort = CALL_WHY;
    call.part_n[PART_OUT] = 0;
    expect(same_on_both_sides(&call, &why), one->name, "the sides differ");
    expect(why.number == NUMBER_DONE, one->name, "number of why");
    expect(why.reason == one->reason, one->name, "reason");
    expect(why.address == one->address, one->name, "address");
    expect(why.side == one->side, one->name, "side");
}

static void move_area(struct made_area *area, uint32_t first)
{
    area->last = first + (area->last - area->first);
    area->first = first;
}

static void make_map(struct made *made, uint32_t map)
{
    if (map == MAP_UX || map == MAP_PAIR)
        make_ux(made);
    else
        make_as_we(made, map == MAP_BESIDE || map == MAP_HIDDEN ? MAP_AS_WE : map);
    if (map == MAP_PAIR) {
        made->items[3].low = PAIR_LOW;
        made->items[3].high = PAIR_HIGH;
    }
    if (map == MAP_BESIDE) {
        move_area(&made->areas[2], 0x0116);
        move_area(&made->areas[4], 0x011F);
        move_area(&made->areas[5], 0x0121);
    }
    if (map == MAP_HIDDEN)
        made->areas[0].access = 2;
}

static void run_case(const struct frame_case *one)
{
    static const uint8_t out[OUT_ROOM];
    uint8_t sheet[SHEET_ROOM], bank[BANK_ROOM], after[BANK_ROOM], frame[OUT_ROOM];
    struct made made;
    struct outcome outcome;
    make_map(&made, one->map);
    size_t sheet_n = put_sheet(&made, sheet);
    size_t bank_n = 2 * (size_t)made.bank_words + 2;
    expect(second_bank_fresh(sheet, sheet_n, bank, bank_n) == NUMBER_DONE, one->name, "fresh");
    put_stored(&made, one->before, bank);
    memcpy(after, bank, bank_n);
    put_stored(&made, one->after, after);
    size_t frame_n = put_checked(one->frame, frame);
    struct call call = { CALL_ANSWER, { sheet, bank, NULL, frame, out },
                         { sheet_n, bank_n, 0, frame_n, OUT_ROOM }, 0, 0, NO_ORDER };
    ask_why(one, call);
    expect(same_on_both_sides(&call, &outcome), one->name, "the sides differ");
    judge_case(one, &call, &outcome, after);
}

/* P12, and the values after 01 and 03 that the meter's document prints. */
static void run_check_values(void)
{
    struct call call = { CALL_CHECK_VALUE,
                         { NULL, NULL, NULL, (const uint8_t *)"123456789", NULL },
                         { 0, 0, 0, 9, 0 }, 0, 0, NO_ORDER };
    struct outcome outcome;
    expect(same_on_both_sides(&call, &outcome) && outcome.number == 0x4B37, "P12", "value");
    call.part[PART_BYTES] = (const uint8_t *)"\x01\x03";
    call.part_n[PART_BYTES] = 1;
    expect(same_on_both_sides(&call, &outcome) && outcome.number == 0x807E, "01", "value");
    call.part_n[PART_BYTES] = 2;
    expect(same_on_both_sides(&call, &outcome) && outcome.number == 0x2140, "01 03", "value");
}

/* The sheet of 01's listing. */
static void run_listed_sheet(void)
{
    static const uint16_t words[34] = {
        0x0001, 0x0001, 0x000C, 0x0003, 0x0010, 0x0003, 0x000D, 0x0022, 0x0000, 0x0001, 0x0000,
        0x0000, 0x0000, 0x0002, 0x0000, 0x0003, 0x0000, 0x0000, 0x0000, 0x0001, 0x0000, 0x00F7,
        0x0000, 0x0001, 0x0000, 0x0000, 0x0000, 0x0001, 0x0001, 0x0002, 0x0000, 0xFFF6, 0x0000,
        0x003C
    };
    uint8_t sheet[68];
    for (size_t i = 0; i < 34; i++)
        put16(sheet, i, words[i]);
    struct call call = { CALL_SHEET_CHECK, { sheet, NULL, NULL, NULL, NULL }, { 68, 0, 0, 0, 0 },
                         0, 0, NO_ORDER };
    struct outcome outcome;
    expect(same_on_both_sides(&call, &outcome) && outcome.number == NUMBER_DONE,
           "listed sheet", "number");
}

struct map_case {
    const char *name;
    uint32_t map, version, areas, items, bank_words;
    const uint8_t *sheet;       /* as it is handed out */
    size_t sheet_n, bank_n;
};

/* Rules M14, M25 and M27: the makers' sheets in numbers. */
static const struct map_case maps[] = {
    { "UX", MAP_UX, 1, 2, 18, 34, cedarskein_ux_sheet, CEDARSKEIN_UX_SHEET_SIZE,
      CEDARSKEIN_UX_BANK_SIZE },
    { "AS-WE 40", 40, 2, 6, 27, 45, cedarskein_aswe_40_sheet, CEDARSKEIN_ASWE_40_SHEET_SIZE,
      CEDARSKEIN_ASWE_40_BANK_SIZE },
    { "AS-WE 50", 50, 1, 5, 22, 38, cedarskein_aswe_50_sheet, CEDARSKEIN_ASWE_50_SHEET_SIZE,
      CEDARSKEIN_ASWE_50_BANK_SIZE },
    { "AS-WE 80", 80, 1, 5, 22, 38, cedarskein_aswe_80_sheet, CEDARSKEIN_ASWE_80_SHEET_SIZE,
      CEDARSKEIN_ASWE_80_BANK_SIZE }
};

static void run_maps(void)
{
    for (size_t i = 0; i < sizeof maps / sizeof maps[0]; i++) {
        const struct map_case *one = &maps[i];
        uint8_t sheet[SHEET_ROOM];
        struct made made;
        make_map(&made, one->map);
        expect(made.version == one->version, one->name, "version");
        expect(made.areas_n == one->areas && made.items_n == one->items, one->name, "rows");
        expect(made.bank_words == one->bank_words, one->name, "bank words");
        expect(one->bank_n == 2 * (size_t)one->bank_words + 2, one->name, "bytes of a bank");
        expect(put_sheet(&made, sheet) == one->sheet_n
                   && memcmp(sheet, one->sheet, one->sheet_n) == 0, one->name, "sheet");
    }
}

/* ---- W2: ranges and banks at and beyond both ends ---- */

struct range_case {
    const char *name;
    uint32_t low, high;         /* of 0108 */
    enum second_number number;
};

static const struct range_case ranges[] = {
    { "range 1 to F7", 1, 0xF7, NUMBER_DONE },
    { "range 1 to F6", 1, 0xF6, NUMBER_DONE },
    { "range 1 alone", 1, 1, NUMBER_DONE },
    { "range 0 to FF", 0, 0xFF, NUMBER_SHEET },
    { "range 0 to F7", 0, 0xF7, NUMBER_SHEET },
    { "range 0 to 1", 0, 1, NUMBER_SHEET },
    { "range 0 alone", 0, 0, NUMBER_SHEET },
    { "range 1 to F8", 1, 0xF8, NUMBER_SHEET },
    { "range 1 to FF", 1, 0xFF, NUMBER_SHEET },
    { "range 1 to 0100", 1, 0x0100, NUMBER_SHEET },
    { "range 1 to FFFF", 1, 0xFFFF, NUMBER_SHEET },
    { "range 2 to F7", 2, 0xF7, NUMBER_SHEET }
};

/* AS-WE's sheet of a bore with another range for its address, asked for a read:
 * a bank at station 1 is in each range that is taken. */
static void run_range(const struct range_case *one, uint32_t bore)
{
    static const uint8_t out[OUT_ROOM];
    uint8_t sheet[SHEET_ROOM], bank[BANK_ROOM], frame[OUT_ROOM];
    struct made made;
    struct outcome outcome;
    make_as_we(&made, bore);
    size_t sheet_n = put_sheet(&made, sheet);
    size_t bank_n = 2 * (size_t)made.bank_words + 2;
    second_bank_fresh(sheet, sheet_n, bank, bank_n);
    made.items[made_item_of(&made, made.address_place)].low = one->low;
    made.items[made_item_of(&made, made.address_place)].high = one->high;
    put_sheet(&made, sheet);
    size_t frame_n = put_checked("01 03 01 08 00 01", frame);
    struct call call = { CALL_SHEET_CHECK, { sheet, bank, NULL, frame, out },
                         { sheet_n, 0, 0, 0, 0 }, 0, 0, NO_ORDER };
    expect(same_on_both_sides(&call, &outcome), one->name, "the sides differ");
    expect(outcome.number == one->number, one->name, "number of the sheet");
    call.sort = CALL_ANSWER;
    call.part_n[PART_BANK] = bank_n;
    call.part_n[PART_BYTES] = frame_n;
    call.part_n[PART_OUT] = OUT_ROOM;
    expect(same_on_both_sides(&call, &outcome), one->name, "the sides differ on a frame");
    expect(outcome.number == one->number, one->name, "number of the frame");
    expect(outcome.length == (one->number == NUMBER_DONE ? 7 : 0), one->name, "length");
    expect(!bank_changed(&call), one->name, "bank");
}

struct bank_case {
    const char *name;
    uint32_t station;
    enum second_number number;
};

static const struct bank_case banks[] = {
    { "bank at 1", 1, NUMBER_DONE },
    { "bank at F7", 0xF7, NUMBER_DONE },
    { "bank at 0", 0, NUMBER_BANK_SOUND },
    { "bank at F8", 0xF8, NUMBER_BANK_SOUND },
    { "bank at FF", 0xFF, NUMBER_BANK_SOUND },
    { "bank at 0101", 0x0101, NUMBER_BANK_SOUND }
};

static void run_bank(const struct bank_case *one, uint32_t bore)
{
    uint8_t sheet[SHEET_ROOM], bank[BANK_ROOM];
    struct made made;
    struct outcome outcome;
    make_as_we(&made, bore);
    size_t sheet_n = put_sheet(&made, sheet);
    size_t bank_n = 2 * (size_t)made.bank_words + 2;
    second_bank_fresh(sheet, sheet_n, bank, bank_n);
    put16(bank, made.address_place, one->station);
    struct call call = { CALL_BANK_CHECK, { sheet, bank, NULL, NULL, NULL },
                         { sheet_n, bank_n, 0, 0, 0 }, 0, 0, NO_ORDER };
    expect(same_on_both_sides(&call, &outcome), one->name, "the sides differ");
    expect(outcome.number == one->number, one->name, "number");
}

static void run_stations(void)
{
    static const uint32_t bores[] = { 40, 50, 80 };
    for (size_t bore = 0; bore < sizeof bores / sizeof bores[0]; bore++) {
        for (size_t i = 0; i < sizeof ranges / sizeof ranges[0]; i++)
            run_range(&ranges[i], bores[bore]);
        for (size_t i = 0; i < sizeof banks / sizeof banks[0]; i++)
            run_bank(&banks[i], bores[bore]);
    }
}

/* ---- W3: sheets with a record area ---- */

struct sheet_case {
    const char *name;
    uint32_t functions, clear, first, count, words;
    enum second_number number;
};

/* On AS-WE 40's areas: 00FF to 0109, 010D to 0113, 0115 and 0116, 0118 to 011E,
 * 0123 and 0124, 01FF to 020E. */
static const struct sheet_case sheets[] = {
    { "history", 13, 0, 0x0400, 6600, 22, NUMBER_DONE },
    { "1 record of 1 word", 13, 0, 0x0400, 1, 1, NUMBER_DONE },
    { "6600 of 47 words", 13, 0, 0x0400, 6600, 47, NUMBER_DONE },
    { "no records", 13, 0, 0x0400, 0, 22, NUMBER_SHEET },
    { "6601 records", 13, 0, 0x0400, 6601, 22, NUMBER_SHEET },
    { "65535 records", 13, 0, 0x0400, 0xFFFF, 1, NUMBER_SHEET },
    { "no words", 13, 0, 0x0400, 6600, 0, NUMBER_SHEET },
    { "48 words", 13, 0, 0x0400, 6600, 48, NUMBER_SHEET },
    { "256 + 47 words", 13, 0, 0x0400, 6600, 0x012F, NUMBER_SHEET },
    { "one at FFFF", 13, 0, 0xFFFF, 1, 1, NUMBER_DONE },
    { "two from FFFF", 13, 0, 0xFFFF, 2, 1, NUMBER_SHEET },
    { "6600 up to FFFF", 13, 0, 0xE638, 6600, 22, NUMBER_DONE },
    { "6600 up to 10000", 13, 0, 0xE639, 6600, 22, NUMBER_SHEET },
    { "up to 00FE", 13, 0, 0x0000, 255, 2, NUMBER_DONE },
    { "up to 00FF", 13, 0, 0x0000, 256, 2, NUMBER_SHEET },
    { "010A to 010C", 13, 0, 0x010A, 3, 2, NUMBER_DONE },
    { "0109 to 010C", 13, 0, 0x0109, 4, 2, NUMBER_SHEET },
    { "010A to 010D", 13, 0, 0x010A, 4, 2, NUMBER_SHEET },
    { "0114", 13, 0, 0x0114, 1, 47, NUMBER_DONE },
    { "0115", 13, 0, 0x0115, 1, 47, NUMBER_SHEET },
    { "0117", 13, 0, 0x0117, 1, 3, NUMBER_DONE },
    { "0117 and 0118", 13, 0, 0x0117, 2, 3, NUMBER_SHEET },
    { "among the presets", 13, 0, 0x011B, 1, 3, NUMBER_SHEET },
    { "011E to 0122", 13, 0, 0x011E, 5, 3, NUMBER_SHEET },
    { "011F to 0122", 13, 0, 0x011F, 4, 3, NUMBER_DONE },
    { "0125 to 01FE", 13, 0, 0x0125, 218, 2, NUMBER_DONE },
    { "0125 to 01FF", 13, 0, 0x0125, 219, 2, NUMBER_SHEET },
    { "from 020F", 13, 0, 0x020F, 1, 1, NUMBER_DONE },
    { "from 020E", 13, 0, 0x020E, 1, 1, NUMBER_SHEET },
    { "in an area", 13, 0, 0x0204, 2, 1, NUMBER_SHEET },
    { "over all areas", 13, 0, 0x0050, 6600, 1, NUMBER_SHEET },
    { "word 10 is no clear address", 13, 0, 0x0000, 1, 1, NUMBER_DONE },
    { "clear address 0000", 15, 0, 0x0000, 1, 1, NUMBER_SHEET },
    { "next to clear address 0000", 15, 0, 0x0001, 1, 1, NUMBER_DONE },
    { "clear address 0300", 15, 0x0300, 0x0300, 1, 1, NUMBER_SHEET },
    { "from 0301", 15, 0x0300, 0x0301, 9, 1, NUMBER_DONE },
    { "up to 02FF", 15, 0x0300, 0x02F0, 16, 1, NUMBER_DONE },
    { "up to 0300", 15, 0x0300, 0x02F0, 17, 1, NUMBER_SHEET },
    { "over 0300", 15, 0x0300, 0x02F0, 30, 1, NUMBER_SHEET },
    { "only 05", 2, 0x0300, 0x0400, 5, 1, NUMBER_DONE },
    { "no function", 0, 0, 0x0400, 5, 1, NUMBER_DONE }
};

static uint8_t big_ring[4 + 2 * 6600 * 47];

static void make_with_records(struct made *made, const struct sheet_case *one)
{
    make_as_we(made, 40);
    made->functions = one->functions;
    made->clear = one->clear;
    made->records.is = true;
    made->records.first = one->first;
    made->records.count = one->count;
    made->records.words = one->words;
}

static void ask(struct call *call, enum call_sort sort, uint32_t number, const char *name)
{
    struct outcome outcome;
    call->sort = sort;
    expect(same_on_both_sides(call, &outcome), name, "the sides differ");
    if (outcome.number != number)
        printf("%s: %s gives %u\n", name, call_name(sort), (unsigned)outcome.number);
    expect(outcome.number == number, name, "number");
    expect(outcome.side == SIDE_NONE, name, "side");
}

/* Asked with the ring that the sheet would have if it were sound, empty, and a
 * whole record. */
static void run_sheet(const struct sheet_case *one)
{
    static const uint8_t record[94] = { 1, 2, 3, 4 };
    uint8_t sheet[SHEET_ROOM];
    struct made made;
    make_with_records(&made, one);
    bool sound = one->number == NUMBER_DONE;
    size_t ring_n = sound ? 4 + 2 * (size_t)one->count * one->words : 4;
    size_t record_n = sound ? 2 * (size_t)one->words : 2;
    memset(big_ring, 0, 4);
    struct call call = { CALL_SHEET_CHECK, { sheet, NULL, big_ring, record, NULL },
                         { put_sheet(&made, sheet), 0, ring_n, record_n, 0 }, 0, 0, NO_ORDER };
    ask(&call, CALL_SHEET_CHECK, one->number, one->name);
    ask(&call, CALL_RING_CHECK, one->number, one->name);
    ask(&call, CALL_ADD_RECORD, one->number, one->name);
}

/* Word 11, the three words behind the rows, and word 7 go together. */
static void run_sheet_lengths(void)
{
    static const struct {
        uint32_t word_11, word_7, words;
        enum second_number number;
    } lengths[] = {
        { 1, 201, 201, NUMBER_DONE }, { 0, 201, 201, NUMBER_SHEET }, { 2, 201, 201, NUMBER_SHEET },
        { 0x0101, 201, 201, NUMBER_SHEET }, { 1, 198, 201, NUMBER_SHEET },
        { 1, 201, 198, NUMBER_SHEET }, { 1, 198, 198, NUMBER_SHEET },
        { 1, 200, 200, NUMBER_SHEET }, { 1, 202, 202, NUMBER_SHEET },
        { 0, 198, 198, NUMBER_DONE }, { 2, 198, 198, NUMBER_SHEET }
    };
    for (size_t i = 0; i < sizeof lengths / sizeof lengths[0]; i++) {
        uint8_t sheet[SHEET_ROOM] = { 0 };
        struct made made;
        make_with_records(&made, &sheets[0]);
        expect(put_sheet(&made, sheet) == 2 * 201, "lengths", "12 + 4 * 6 + 6 * 27 + 3 words");
        put16(sheet, 7, lengths[i].word_7);
        put16(sheet, 11, lengths[i].word_11);
        struct call call = { CALL_SHEET_CHECK, { sheet, NULL, NULL, NULL, NULL },
                             { 2 * (size_t)lengths[i].words, 0, 0, 0, 0 }, 0, 0, NO_ORDER };
        ask(&call, CALL_SHEET_CHECK, lengths[i].number, "lengths");
    }
}

/* ---- W3: three records of two words, A, B and C at places 0, 1 and 2 ---- */

enum { SMALL_RING = 16 };

static size_t put_small_ring(uint8_t *ring, uint32_t newest, uint32_t stored)
{
    put_hex("00 00 00 00 A0 A1 A2 A3 B0 B1 B2 B3 C0 C1 C2 C3", ring);
    put16(ring, 0, newest);
    put16(ring, 1, stored);
    return SMALL_RING;
}

struct record_case {
    const char *name;
    uint32_t first;             /* of the records; the clear address is behind them */
    uint32_t newest, stored;
    const char *frame, *reply;  /* as above */
    enum second_reason reason;
    uint32_t address;
};

#define A_REPLY "01 03 04 A0 A1 A2 A3"
#define B_REPLY "01 03 04 B0 B1 B2 B3"
#define C_REPLY "01 03 04 C0 C1 C2 C3"

static const struct record_case record_cases[] = {
    { "empty", 0x0400, 0, 0, "01 03 04 00 00 01", "01 83 02", REASON_ADDRESS, 0x0400 },
    { "1 of 1", 0x0400, 0, 1, "01 03 04 00 00 01", A_REPLY, REASON_NONE, 0 },
    { "2 of 1", 0x0400, 0, 1, "01 03 04 01 00 01", "01 83 02", REASON_ADDRESS, 0x0401 },
    { "1 of 2", 0x0400, 1, 2, "01 03 04 00 00 01", B_REPLY, REASON_NONE, 0 },
    { "2 of 2", 0x0400, 1, 2, "01 03 04 01 00 01", A_REPLY, REASON_NONE, 0 },
    { "3 of 2", 0x0400, 1, 2, "01 03 04 02 00 01", "01 83 02", REASON_ADDRESS, 0x0402 },
    { "1 of 3", 0x0400, 2, 3, "01 03 04 00 00 01", C_REPLY, REASON_NONE, 0 },
    { "2 of 3", 0x0400, 2, 3, "01 03 04 01 00 01", B_REPLY, REASON_NONE, 0 },
    { "3 of 3", 0x0400, 2, 3, "01 03 04 02 00 01", A_REPLY, REASON_NONE, 0 },
    { "behind 3", 0x0400, 2, 3, "01 03 04 03 00 01", "01 83 02", REASON_ADDRESS, 0x0403 },
    { "in front of 1", 0x0400, 2, 3, "01 03 03 FF 00 01", "01 83 02", REASON_ADDRESS, 0x03FF },
    { "1, round", 0x0400, 0, 3, "01 03 04 00 00 01", A_REPLY, REASON_NONE, 0 },
    { "2, round", 0x0400, 0, 3, "01 03 04 01 00 01", C_REPLY, REASON_NONE, 0 },
    { "3, round", 0x0400, 0, 3, "01 03 04 02 00 01", B_REPLY, REASON_NONE, 0 },
    { "3, round from 1", 0x0400, 1, 3, "01 03 04 02 00 01", C_REPLY, REASON_NONE, 0 },
    { "1 of 1 at 2", 0x0400, 2, 1, "01 03 04 00 00 01", C_REPLY, REASON_NONE, 0 },
    { "2 of 1 at 2", 0x0400, 2, 1, "01 03 04 01 00 01", "01 83 02", REASON_ADDRESS, 0x0401 },
    { "2 of 2 at 0", 0x0400, 0, 2, "01 03 04 01 00 01", C_REPLY, REASON_NONE, 0 },
    { "3 of 2 at 0", 0x0400, 0, 2, "01 03 04 02 00 01", "01 83 02", REASON_ADDRESS, 0x0402 },
    { "count 0", 0x0400, 2, 3, "01 03 04 00 00 00", "01 83 03", REASON_BAD_COUNT, 0 },
    { "count 2", 0x0400, 2, 3, "01 03 04 00 00 02", "01 83 03", REASON_BAD_COUNT, 0 },
    { "count 47", 0x0400, 2, 3, "01 03 04 00 00 2F", "01 83 03", REASON_BAD_COUNT, 0 },
    { "count 48", 0x0400, 2, 3, "01 03 04 00 00 30", "01 83 03", REASON_BAD_COUNT, 0 },
    { "count 257", 0x0400, 2, 3, "01 03 04 00 01 01", "01 83 03", REASON_BAD_COUNT, 0 },
    { "count FFFF", 0x0400, 2, 3, "01 03 04 00 FF FF", "01 83 03", REASON_BAD_COUNT, 0 },
    { "two from the last", 0x0400, 2, 3, "01 03 04 02 00 02", "01 83 03", REASON_BAD_COUNT, 0 },
    { "two of none", 0x0400, 0, 0, "01 03 04 00 00 02", "01 83 03", REASON_BAD_COUNT, 0 },
    { "none of none", 0x0400, 0, 0, "01 03 04 02 00 00", "01 83 03", REASON_BAD_COUNT, 0 },
    { "48 behind", 0x0400, 2, 3, "01 03 04 03 00 30", "01 83 02", REASON_BAD_COUNT, 0 },
    { "48 in front", 0x0400, 2, 3, "01 03 03 FF 00 30", "01 83 02", REASON_BAD_COUNT, 0 },
    { "two from in front", 0x0400, 2, 3, "01 03 03 FF 00 02", "01 83 02", REASON_ADDRESS, 0x03FF },
    { "up to the records", 0x020F, 2, 3, "01 03 02 0E 00 01", "01 03 02 00 00", REASON_NONE, 0 },
    { "read into them", 0x020F, 2, 3, "01 03 02 0E 00 02", "01 83 02", REASON_ADDRESS, 0x020F },
    { "read over them", 0x01FB, 2, 3, "01 03 01 FB 00 05", "01 83 03", REASON_BAD_COUNT, 0 },
    { "write up to them", 0x0125, 2, 3, "01 10 01 24 00 01 02 00 00", "01 10 01 24 00 01",
      REASON_NONE, 0 },
    { "write into them", 0x0125, 2, 3, "01 10 01 24 00 02 04 00 05 00 00", "01 90 02",
      REASON_ADDRESS, 0x0125 },
    { "06 at one", 0x0400, 2, 3, "01 06 04 00 00 01", "01 86 02", REASON_ADDRESS, 0x0400 },
    { "10 at one", 0x0400, 2, 3, "01 10 04 02 00 01 02 00 01", "01 90 02", REASON_ADDRESS,
      0x0402 },
    { "10 with count 0", 0x0400, 2, 3, "01 10 04 00 00 00 00", "01 90 03", REASON_BAD_COUNT, 0 },
    { "05 at one", 0x0400, 2, 3, "01 05 04 00 00 00", "01 85 02", REASON_ADDRESS, 0x0400 },
    { "05 at one, value 1", 0x0400, 2, 3, "01 05 04 02 00 01", "01 85 02", REASON_ADDRESS,
      0x0402 },
    { "05 behind them", 0x0400, 2, 3, "01 05 04 03 00 00", "01 05 04 03 00 00", REASON_NONE, 0 },
    { "04 at one", 0x0400, 2, 3, "01 04 04 00 00 01", "01 84 01", REASON_FUNCTION, 0 },
    { "a byte more", 0x0400, 2, 3, "01 03 04 00 00 01 00", "", REASON_BODY_LENGTH, 0 },
    { "another station", 0x0400, 2, 3, "02 03 04 00 00 01", "", REASON_STATION, 0 }
};

/* A fresh bank of the sheet with three records of two words and all functions. */
static void make_small(uint32_t first, struct made *made, struct call *call, uint8_t *sheet,
                       uint8_t *bank)
{
    struct sheet_case small = { "small", 15, (first + 3) & 0xFFFF, first, 3, 2, NUMBER_DONE };
    memset(call, 0, sizeof *call);
    make_with_records(made, &small);
    call->part[PART_SHEET] = sheet;
    call->part_n[PART_SHEET] = put_sheet(made, sheet);
    call->part[PART_BANK] = bank;
    call->part_n[PART_BANK] = 2 * (size_t)made->bank_words + 2;
    expect(second_bank_fresh(sheet, call->part_n[PART_SHEET], bank, call->part_n[PART_BANK])
               == NUMBER_DONE, "small", "fresh");
}

/* The bank stays as it is: what the cases store is there already. */
static void run_record_case(const struct record_case *one)
{
    static const uint8_t out[OUT_ROOM];
    uint8_t sheet[SHEET_ROOM], bank[BANK_ROOM], ring[SMALL_RING], frame[OUT_ROOM];
    struct frame_case as_frame = { one->name, 0, { { 0, 0 } }, one->frame, one->reply,
                                   { { 0, 0 } }, one->reason, one->address, SIDE_NONE };
    struct made made;
    struct call call;
    struct outcome outcome;
    make_small(one->first, &made, &call, sheet, bank);
    call.sort = CALL_ANSWER;
    call.part[PART_RING] = ring;
    call.part_n[PART_RING] = put_small_ring(ring, one->newest, one->stored);
    call.part[PART_BYTES] = frame;
    call.part_n[PART_BYTES] = put_checked(one->frame, frame);
    call.part[PART_OUT] = out;
    call.part_n[PART_OUT] = OUT_ROOM;
    ask_why(&as_frame, call);
    expect(same_on_both_sides(&call, &outcome), one->name, "the sides differ");
    judge_case(&as_frame, &call, &outcome, bank);
    expect(!part_changed(&call, PART_RING), one->name, "ring");
}

/* ---- W3: rings ---- */

struct ring_case {
    const char *name;
    size_t size;
    uint32_t newest, stored;
    bool refused;
};

static const struct ring_case rings[] = {
    { "an empty ring", 16, 0, 0, false },
    { "one stored", 16, 0, 1, false },
    { "one stored at 2", 16, 2, 1, false },
    { "full", 16, 2, 3, false },
    { "full, newest at 0", 16, 0, 3, false },
    { "a byte less", 15, 0, 0, true },
    { "a byte more", 17, 0, 0, true },
    { "a word less", 14, 0, 0, true },
    { "a word more", 18, 0, 0, true },
    { "a record less", 12, 0, 0, true },
    { "a record more", 20, 0, 0, true },
    { "two words", 4, 0, 0, true },
    { "no bytes", 0, 0, 0, true },
    { "place 3", 16, 3, 3, true },
    { "place 3, one stored", 16, 3, 1, true },
    { "place 0100", 16, 0x0100, 3, true },
    { "place FFFF", 16, 0xFFFF, 3, true },
    { "four stored", 16, 2, 4, true },
    { "0103 stored", 16, 2, 0x0103, true },
    { "FFFF stored", 16, 0, 0xFFFF, true },
    { "empty at 1", 16, 1, 0, true },
    { "empty at 2", 16, 2, 0, true },
    { "empty at 3", 16, 3, 0, true }
};

/* 8 stands behind 2, 3 and 4, and ahead of 5 and 7. */
static void run_ring(const struct ring_case *one)
{
    static const uint8_t out[OUT_ROOM];
    uint8_t sheet[SHEET_ROOM], bank[BANK_ROOM], ring[24] = { 0 }, bytes[OUT_ROOM];
    uint32_t number = one->refused ? NUMBER_RING : NUMBER_DONE;
    struct made made;
    struct call call;
    make_small(0x0400, &made, &call, sheet, bank);
    put_small_ring(ring, one->newest, one->stored);
    call.part[PART_RING] = ring;
    call.part_n[PART_RING] = one->size;
    call.part[PART_BYTES] = bytes;
    call.part_n[PART_BYTES] = put_checked("01 03 01 08 00 01", bytes);
    call.part[PART_OUT] = out;
    call.part_n[PART_OUT] = 100;
    ask(&call, CALL_RING_CHECK, number, one->name);
    ask(&call, CALL_ANSWER, number, one->name);
    ask(&call, CALL_WHY, number, one->name);
    ask(&call, CALL_ADD_RECORD, one->refused ? NUMBER_RING : NUMBER_BAD_INPUT, one->name);
    call.part_n[PART_OUT] = 99;
    ask(&call, CALL_ANSWER, one->refused ? NUMBER_RING : NUMBER_BUFFER, one->name);
    call.part_n[PART_BYTES] = 4;
    ask(&call, CALL_ADD_RECORD, number, one->name);
    put16(bank, made.bank_words, 2);
    ask(&call, CALL_ANSWER, NUMBER_BANK_SOUND, one->name);
    ask(&call, CALL_WHY, NUMBER_BANK_SOUND, one->name);
    ask(&call, CALL_RING_CHECK, number, one->name);
    call.part_n[PART_BANK]--;
    ask(&call, CALL_ANSWER, NUMBER_BANK_SIZE, one->name);
    sheet[0] = 1;
    ask(&call, CALL_ANSWER, NUMBER_SHEET, one->name);
    ask(&call, CALL_RING_CHECK, NUMBER_SHEET, one->name);
    ask(&call, CALL_ADD_RECORD, NUMBER_SHEET, one->name);
}

/* Without a record area there is no ring, and nothing can be added. */
static void run_no_ring(void)
{
    static const uint8_t zeros[OUT_ROOM];
    static const size_t sizes[] = { 0, 1, 2, 4, 16 };
    uint8_t sheet[SHEET_ROOM], bank[BANK_ROOM], bytes[OUT_ROOM];
    struct made made;
    make_ux(&made);
    size_t sheet_n = put_sheet(&made, sheet);
    size_t bank_n = 2 * (size_t)made.bank_words + 2;
    second_bank_fresh(sheet, sheet_n, bank, bank_n);
    size_t bytes_n = put_checked("01 03 01 01 00 02", bytes);
    for (size_t i = 0; i < sizeof sizes / sizeof sizes[0]; i++) {
        struct call call = { CALL_ANSWER, { sheet, bank, zeros, bytes, zeros },
                             { sheet_n, bank_n, sizes[i], bytes_n, 100 }, 0, 0, NO_ORDER };
        uint32_t number = sizes[i] == 0 ? NUMBER_DONE : NUMBER_RING;
        ask(&call, CALL_RING_CHECK, number, "no ring");
        ask(&call, CALL_ANSWER, number, "no ring");
        ask(&call, CALL_WHY, number, "no ring");
        ask(&call, CALL_ADD_RECORD, NUMBER_SHEET, "no ring");
    }
}

/* ---- W3: adding ---- */

struct add_case {
    const char *name;
    uint32_t count;             /* records of two words */
    const char *before, *record, *after;
    enum second_number number;
};

static const struct add_case adds[] = {
    { "the first", 3, "00 00 00 00 A0 A1 A2 A3 B0 B1 B2 B3 C0 C1 C2 C3", "D0 D1 D2 D3",
      "00 00 00 01 D0 D1 D2 D3 B0 B1 B2 B3 C0 C1 C2 C3", NUMBER_DONE },
    { "the second", 3, "00 00 00 01 A0 A1 A2 A3 B0 B1 B2 B3 C0 C1 C2 C3", "D0 D1 D2 D3",
      "00 01 00 02 A0 A1 A2 A3 D0 D1 D2 D3 C0 C1 C2 C3", NUMBER_DONE },
    { "the third", 3, "00 01 00 02 A0 A1 A2 A3 B0 B1 B2 B3 C0 C1 C2 C3", "D0 D1 D2 D3",
      "00 02 00 03 A0 A1 A2 A3 B0 B1 B2 B3 D0 D1 D2 D3", NUMBER_DONE },
    { "the fourth", 3, "00 02 00 03 A0 A1 A2 A3 B0 B1 B2 B3 C0 C1 C2 C3", "D0 D1 D2 D3",
      "00 00 00 03 D0 D1 D2 D3 B0 B1 B2 B3 C0 C1 C2 C3", NUMBER_DONE },
    { "the fifth", 3, "00 00 00 03 A0 A1 A2 A3 B0 B1 B2 B3 C0 C1 C2 C3", "D0 D1 D2 D3",
      "00 01 00 03 A0 A1 A2 A3 D0 D1 D2 D3 C0 C1 C2 C3", NUMBER_DONE },
    { "behind place 2, one stored", 3, "00 02 00 01 A0 A1 A2 A3 B0 B1 B2 B3 C0 C1 C2 C3",
      "D0 D1 D2 D3", "00 00 00 02 D0 D1 D2 D3 B0 B1 B2 B3 C0 C1 C2 C3", NUMBER_DONE },
    { "behind place 1, one stored", 3, "00 01 00 01 A0 A1 A2 A3 B0 B1 B2 B3 C0 C1 C2 C3",
      "D0 D1 D2 D3", "00 02 00 02 A0 A1 A2 A3 B0 B1 B2 B3 D0 D1 D2 D3", NUMBER_DONE },
    { "behind place 0, two stored", 3, "00 00 00 02 A0 A1 A2 A3 B0 B1 B2 B3 C0 C1 C2 C3",
      "D0 D1 D2 D3", "00 01 00 03 A0 A1 A2 A3 D0 D1 D2 D3 C0 C1 C2 C3", NUMBER_DONE },
    { "the only room", 1, "00 00 00 00 A0 A1 A2 A3", "D0 D1 D2 D3", "00 00 00 01 D0 D1 D2 D3",
      NUMBER_DONE },
    { "the only room again", 1, "00 00 00 01 A0 A1 A2 A3", "D0 D1 D2 D3",
      "00 00 00 01 D0 D1 D2 D3", NUMBER_DONE },
    { "no record", 1, "00 00 00 00 A0 A1 A2 A3", "", "00 00 00 00 A0 A1 A2 A3",
      NUMBER_BAD_INPUT },
    { "half a record", 1, "00 00 00 00 A0 A1 A2 A3", "D0 D1", "00 00 00 00 A0 A1 A2 A3",
      NUMBER_BAD_INPUT },
    { "a byte too few", 1, "00 00 00 00 A0 A1 A2 A3", "D0 D1 D2", "00 00 00 00 A0 A1 A2 A3",
      NUMBER_BAD_INPUT },
    { "a byte too many", 1, "00 00 00 00 A0 A1 A2 A3", "D0 D1 D2 D3 D4",
      "00 00 00 00 A0 A1 A2 A3", NUMBER_BAD_INPUT },
    { "two records", 3, "00 00 00 00 A0 A1 A2 A3 B0 B1 B2 B3 C0 C1 C2 C3",
      "D0 D1 D2 D3 E0 E1 E2 E3", "00 00 00 00 A0 A1 A2 A3 B0 B1 B2 B3 C0 C1 C2 C3",
      NUMBER_BAD_INPUT }
};

static void run_add(const struct add_case *one)
{
    struct sheet_case of = { one->name, 13, 0, 0x0400, one->count, 2, NUMBER_DONE };
    uint8_t sheet[SHEET_ROOM], before[SMALL_RING], after[SMALL_RING], record[16];
    struct made made;
    make_with_records(&made, &of);
    size_t sheet_n = put_sheet(&made, sheet);
    size_t ring_n = put_hex(one->before, before);
    size_t record_n = put_hex(one->record, record);
    put_hex(one->after, after);
    struct call call = { CALL_ADD_RECORD, { sheet, NULL, before, record, NULL },
                         { sheet_n, 0, ring_n, record_n, 0 }, 0, 0, NO_ORDER };
    ask(&call, CALL_ADD_RECORD, one->number, one->name);
    expect(memcmp(part_after(PART_RING), after, ring_n) == 0, one->name, "ring");
}

/* ---- W3: 6600 records of 22 words from 0400, each byte of one its place ---- */

static void read_history(const uint8_t *sheet, size_t sheet_n, const char *hex, uint32_t length,
                         uint8_t byte)
{
    static const uint8_t out[OUT_ROOM];
    uint8_t bank[BANK_ROOM], frame[OUT_ROOM];
    size_t bank_n = 2 * 45 + 2;
    struct outcome outcome;
    second_bank_fresh(sheet, sheet_n, bank, bank_n);
    struct call call = { CALL_ANSWER, { sheet, bank, big_ring, frame, out },
                         { sheet_n, bank_n, 4 + 44 * 6600, put_checked(hex, frame), OUT_ROOM },
                         0, 0, NO_ORDER };
    expect(same_on_both_sides(&call, &outcome), hex, "the sides differ");
    expect(outcome.number == NUMBER_DONE && outcome.length == length, hex, "length");
    const uint8_t *reply = part_after(PART_OUT);
    expect(length == 5 ? reply[2] == byte : reply[2] == 44 && reply[3] == byte && reply[46] == byte,
           hex, "reply");
}

static void run_history(void)
{
    uint8_t sheet[SHEET_ROOM];
    struct made made;
    make_with_records(&made, &sheets[0]);
    size_t sheet_n = put_sheet(&made, sheet);
    for (size_t place = 0; place < 6600; place++)
        memset(big_ring + 4 + 44 * place, (int)(place % 251), 44);
    put16(big_ring, 0, 6599);
    put16(big_ring, 1, 6600);
    read_history(sheet, sheet_n, "01 03 04 00 00 01", 49, 6599 % 251);
    read_history(sheet, sheet_n, "01 03 1D C7 00 01", 49, 0);
    read_history(sheet, sheet_n, "01 03 1D C8 00 01", 5, 2);
    read_history(sheet, sheet_n, "01 03 1D C7 00 02", 5, 3);
    put16(big_ring, 0, 0);
    read_history(sheet, sheet_n, "01 03 04 00 00 01", 49, 0);
    read_history(sheet, sheet_n, "01 03 04 01 00 01", 49, 6599 % 251);
    read_history(sheet, sheet_n, "01 03 1D C7 00 01", 49, 1);
    put16(big_ring, 0, 6598);
    put16(big_ring, 1, 6599);
    read_history(sheet, sheet_n, "01 03 1D C6 00 01", 49, 0);
    read_history(sheet, sheet_n, "01 03 1D C7 00 01", 5, 2);
}

/* ---- W3: the longest record, and records that 03 does not reach ---- */

static void run_longest(void)
{
    static const uint8_t out[OUT_ROOM];
    struct sheet_case longest = { "longest", 13, 0, 0x0400, 2, 47, NUMBER_DONE };
    uint8_t sheet[SHEET_ROOM], bank[BANK_ROOM], ring[4 + 2 * 94], frame[OUT_ROOM];
    size_t bank_n = 2 * 45 + 2;
    struct made made;
    struct outcome outcome;
    make_with_records(&made, &longest);
    size_t sheet_n = put_sheet(&made, sheet);
    second_bank_fresh(sheet, sheet_n, bank, bank_n);
    for (size_t i = 0; i < sizeof ring; i++)
        ring[i] = (uint8_t)i;
    put16(ring, 0, 1);
    put16(ring, 1, 2);
    struct call call = { CALL_ANSWER, { sheet, bank, ring, frame, out },
                         { sheet_n, bank_n, sizeof ring, put_checked("01 03 04 00 00 01", frame),
                           OUT_ROOM }, 0, 0, NO_ORDER };
    expect(same_on_both_sides(&call, &outcome), "longest", "the sides differ");
    expect(outcome.number == NUMBER_DONE && outcome.length == 99, "longest", "length");
    expect(part_after(PART_OUT)[2] == 94, "longest", "byte count");
    expect(memcmp(part_after(PART_OUT) + 3, ring + 4 + 94, 94) == 0, "longest", "record");
    expect(part_after(PART_OUT)[99] == 0, "longest", "byte behind the reply");
    expect(!bank_changed(&call), "longest", "bank");
    put16(sheet, 6, 12);
    expect(same_on_both_sides(&call, &outcome), "03 closed", "the sides differ");
    expect(outcome.number == NUMBER_DONE && outcome.length == 5, "03 closed", "length");
    expect(part_after(PART_OUT)[1] == 0x83 && part_after(PART_OUT)[2] == 1, "03 closed", "error");
}

/* ---- W3: posting at records, and from the readings in front into them ---- */

static void run_post(void)
{
    static const uint8_t words[4] = { 1, 2, 3, 4 };
    uint8_t sheet[SHEET_ROOM], bank[BANK_ROOM];
    struct made made;
    struct call call;
    make_small(0x020F, &made, &call, sheet, bank);
    call.part[PART_BYTES] = words;
    call.part_n[PART_BYTES] = 2;
    call.value = 0x020F;
    ask(&call, CALL_POST, NUMBER_POSTED_ADDRESS, "posted at a record");
    call.value = 0x020E;
    ask(&call, CALL_POST, NUMBER_DONE, "posted up to the records");
    call.part_n[PART_BYTES] = 4;
    ask(&call, CALL_POST, NUMBER_POSTED_ADDRESS, "posted into the records");
    expect(!bank_changed(&call), "posted into the records", "bank");
}

static void run_records(void)
{
    for (size_t i = 0; i < sizeof sheets / sizeof sheets[0]; i++)
        run_sheet(&sheets[i]);
    run_sheet_lengths();
    for (size_t i = 0; i < sizeof record_cases / sizeof record_cases[0]; i++)
        run_record_case(&record_cases[i]);
    for (size_t i = 0; i < sizeof rings / sizeof rings[0]; i++)
        run_ring(&rings[i]);
    run_no_ring();
    for (size_t i = 0; i < sizeof adds / sizeof adds[0]; i++)
        run_add(&adds[i]);
    run_history();
    run_longest();
    run_post();
}

/* ---- W5: every item of the maps at both ends of its range and next to them ---- */

static uint32_t first_address(const struct made *made, const struct made_item *item)
{
    const struct made_area *area = made->areas;
    while (area->place + (area->last - area->first) < item->place)
        area++;
    return area->first + (item->place - area->place);
}

/* A 10 with one value for the whole item. */
static size_t put_write(const struct made *made, const struct made_item *item, int64_t value,
                        uint8_t *frame)
{
    uint32_t count = item->kind == 2 ? 2 : 1;
    frame[0] = 1;
    frame[1] = 0x10;
    put16(frame + 2, 0, first_address(made, item));
    put16(frame + 4, 0, count);
    frame[6] = (uint8_t)(2 * count);
    put16(frame + 7, 0, (uint32_t)(value >> 16 & 0xFFFF));
    put16(frame + 7, count - 1, (uint32_t)(value & 0xFFFF));
    return add_check(frame, 7 + 2 * (size_t)count);
}

static void run_end(const struct made *made, const struct made_item *item, int64_t value,
                    enum second_side side)
{
    uint8_t sheet[SHEET_ROOM], bank[BANK_ROOM], frame[OUT_ROOM];
    size_t sheet_n = put_sheet(made, sheet);
    size_t bank_n = 2 * (size_t)made->bank_words + 2;
    size_t frame_n = put_write(made, item, value, frame);
    bool bad = side != SIDE_NONE;
    struct outcome why;
    second_bank_fresh(sheet, sheet_n, bank, bank_n);
    struct call call = { CALL_WHY, { sheet, bank, NULL, frame, NULL },
                         { sheet_n, bank_n, 0, frame_n, 0 }, 0, 0, NO_ORDER };
    expect(same_on_both_sides(&call, &why), "end of a range", "the sides differ");
    expect(why.reason == (bad ? REASON_ITEM : REASON_NONE), "end of a range", "reason");
    expect(why.address == (bad ? first_address(made, item) : 0), "end of a range", "address");
    expect(why.side == side, "end of a range", "side");
}

/* A value that the item's words cannot hold is left out. */
static void run_item_ends(const struct made *made, const struct made_item *item)
{
    run_end(made, item, item->low, SIDE_NONE);
    run_end(made, item, item->high, SIDE_NONE);
    if (item->low > kind_least(item->kind))
        run_end(made, item, item->low - 1, SIDE_TOO_LOW);
    if (item->high < kind_most(item->kind))
        run_end(made, item, item->high + 1, SIDE_TOO_HIGH);
}

static void run_map_ends(uint32_t map)
{
    struct made made;
    make_map(&made, map);
    for (uint32_t i = 0; i < made.items_n; i++)
        run_item_ends(&made, &made.items[i]);
}

static void run_ends(void)
{
    static const uint32_t ended[] = {
        MAP_UX, MAP_PAIR, MAP_BESIDE, MAP_HIDDEN, MAP_AS_WE, 50, 80
    };
    for (size_t i = 0; i < sizeof ended / sizeof ended[0]; i++)
        run_map_ends(ended[i]);
}

/* ---- W7: versions and accesses ---- */

struct version_case {
    const char *name;
    uint32_t version, access;   /* of 0118 to 011E, which have items */
    enum second_number number;
};

static const struct version_case versions[] = {
    { "version 2, access 2", 2, 2, NUMBER_DONE },
    { "version 2, access 3", 2, 3, NUMBER_DONE },
    { "version 1, access 3", 1, 3, NUMBER_DONE },
    { "version 1, access 2", 1, 2, NUMBER_SHEET },
    { "version 0, access 2", 0, 2, NUMBER_SHEET },
    { "version 0, access 3", 0, 3, NUMBER_SHEET },
    { "version 3, access 2", 3, 2, NUMBER_SHEET },
    { "version 3, access 3", 3, 3, NUMBER_SHEET },
    { "version 4, access 2", 4, 2, NUMBER_SHEET },
    { "version 0102, access 2", 0x0102, 2, NUMBER_SHEET },
    { "version 0101, access 3", 0x0101, 3, NUMBER_SHEET },
    { "version 0200, access 2", 0x0200, 2, NUMBER_SHEET },
    { "version 8002, access 2", 0x8002, 2, NUMBER_SHEET },
    { "version FFFF, access 2", 0xFFFF, 2, NUMBER_SHEET },
    { "version 2, access 0", 2, 0, NUMBER_SHEET },
    { "version 2, access 1", 2, 1, NUMBER_SHEET },
    { "version 2, access 4", 2, 4, NUMBER_SHEET },
    { "version 2, access 6", 2, 6, NUMBER_SHEET },
    { "version 2, access 0102", 2, 0x0102, NUMBER_SHEET },
    { "version 2, access 0200", 2, 0x0200, NUMBER_SHEET },
    { "version 1, access 0", 1, 0, NUMBER_SHEET },
    { "version 1, access 4", 1, 4, NUMBER_SHEET }
};

/* The whole sheet is refused, whatever a call is about. */
static void run_version(const struct version_case *one)
{
    static const uint8_t out[OUT_ROOM];
    uint8_t sheet[SHEET_ROOM], bank[BANK_ROOM], frame[OUT_ROOM];
    struct made made;
    make_as_we(&made, 40);
    size_t sheet_n = put_sheet(&made, sheet);
    size_t bank_n = 2 * (size_t)made.bank_words + 2;
    second_bank_fresh(sheet, sheet_n, bank, bank_n);
    made.version = one->version;
    made.areas[3].access = one->access;
    put_sheet(&made, sheet);
    struct call call = { CALL_SHEET_CHECK, { sheet, bank, NULL, frame, out },
                         { sheet_n, bank_n, 0, put_checked("01 03 01 08 00 01", frame), OUT_ROOM },
                         0x01FF, 0, NO_ORDER };
    ask(&call, CALL_SHEET_CHECK, one->number, one->name);
    ask(&call, CALL_BANK_CHECK, one->number, one->name);
    ask(&call, CALL_BANK_FRESH, one->number, one->name);
    ask(&call, CALL_POST, one->number, one->name);
    ask(&call, CALL_ANSWER, one->number, one->name);
    ask(&call, CALL_WHY, one->number, one->name);
    call.part_n[PART_RING] = 0;
    ask(&call, CALL_RING_CHECK, one->number, one->name);
    call.value = 0;
    ask(&call, CALL_SET_MARK, one->number, one->name);
}

/* An access that is none where there are no items. */
static void run_other_access(void)
{
    static const uint32_t accesses[] = { 0, 4, 5, 7, 0x0101, 0x0102, 0xFFFF };
    for (size_t i = 0; i < sizeof accesses / sizeof accesses[0]; i++) {
        uint8_t sheet[SHEET_ROOM];
        struct made made;
        make_as_we(&made, 40);
        made.areas[5].access = accesses[i];
        struct call call = { CALL_SHEET_CHECK, { sheet, NULL, NULL, NULL, NULL },
                             { put_sheet(&made, sheet), 0, 0, 0, 0 }, 0, 0, NO_ORDER };
        ask(&call, CALL_SHEET_CHECK, NUMBER_SHEET, "access of the readings");
    }
}

/* Without the item of one preset, or of a reading that is one now. */
static void run_uncovered(void)
{
    for (uint32_t left_out = 20; left_out <= 25; left_out++) {
        uint8_t sheet[SHEET_ROOM];
        struct made made;
        make_as_we(&made, 40);
        if (left_out == 25) {
            made.areas[5].access = 2;
        } else {
            made.items_n--;
            memmove(&made.items[left_out], &made.items[left_out + 1],
                    (made.items_n - left_out) * sizeof made.items[0]);
        }
        struct call call = { CALL_SHEET_CHECK, { sheet, NULL, NULL, NULL, NULL },
                             { put_sheet(&made, sheet), 0, 0, 0, 0 }, 0, 0, NO_ORDER };
        ask(&call, CALL_SHEET_CHECK, NUMBER_SHEET, "a preset without an item");
    }
}

/* ---- W7: banks and posting ---- */

/* A preset that begins at 5: fresh, and on both sides of its ends. */
static void run_preset_bank(void)
{
    static const struct {
        uint32_t word;
        enum second_number number;
    } words[] = {
        { 5, NUMBER_DONE }, { 9, NUMBER_DONE }, { 4, NUMBER_BANK_SOUND },
        { 10, NUMBER_BANK_SOUND }, { 0, NUMBER_BANK_SOUND }, { 0x0105, NUMBER_BANK_SOUND }
    };
    uint8_t sheet[SHEET_ROOM], bank[BANK_ROOM];
    struct made made;
    make_as_we(&made, 40);
    made.items[20].low = 5;
    memset(bank, 0xA5, sizeof bank);
    struct call call = { CALL_BANK_FRESH, { sheet, bank, NULL, NULL, NULL },
                         { put_sheet(&made, sheet), 2 * 45 + 2, 0, 0, 0 }, 0, 0, NO_ORDER };
    ask(&call, CALL_BANK_FRESH, NUMBER_DONE, "fresh presets");
    memcpy(bank, part_after(PART_BANK), 2 * 45 + 2);
    expect(get16(bank, 20) == 5, "fresh presets", "low bound");
    for (size_t place = 21; place < 27; place++)
        expect(get16(bank, place) == 0, "fresh presets", "0");
    for (size_t i = 0; i < sizeof words / sizeof words[0]; i++) {
        put16(bank, 20, words[i].word);
        ask(&call, CALL_BANK_CHECK, words[i].number, "a bank's preset");
    }
}

/* A bank of before, of 78 bytes, is none of the sheet with presets, and the other way
 * round. */
static void run_preset_sizes(void)
{
    uint8_t sheet[SHEET_ROOM], bank[BANK_ROOM] = { 0 };
    struct made made;
    make_as_we(&made, 40);
    struct call call = { CALL_BANK_FRESH, { sheet, bank, NULL, NULL, NULL },
                         { put_sheet(&made, sheet), 78, 0, 0, 0 }, 0, 0, NO_ORDER };
    ask(&call, CALL_BANK_FRESH, NUMBER_BANK_SIZE, "78 bytes, presets");
    call.part_n[PART_BANK] = 92;
    ask(&call, CALL_BANK_FRESH, NUMBER_DONE, "92 bytes, presets");
    make_plain_as_we_40(&made);
    call.part_n[PART_SHEET] = put_sheet(&made, sheet);
    ask(&call, CALL_BANK_FRESH, NUMBER_BANK_SIZE, "92 bytes, no presets");
    call.part_n[PART_BANK] = 78;
    ask(&call, CALL_BANK_FRESH, NUMBER_DONE, "78 bytes, no presets");
    made.items[10].high = 0x1E;
    expect(put_sheet(&made, sheet) == 328 && memcmp(sheet, cedarskein_aswe_50_sheet, 328) == 0,
           "AS-WE 40 of before", "it differs from AS-WE 50 in more than the bound at 0109");
}

struct post_case {
    const char *name;
    uint32_t address;
    size_t bytes;
    enum second_number number;
};

/* With settings up to 0117, presets, settings up to 0120 and readings up to 0130. */
static const struct post_case posts[] = {
    { "posted at 0118", 0x0118, 2, NUMBER_POSTED_ADDRESS },
    { "posted at 011E", 0x011E, 2, NUMBER_POSTED_ADDRESS },
    { "posted at all presets", 0x0118, 14, NUMBER_POSTED_ADDRESS },
    { "posted at half a pair", 0x011C, 2, NUMBER_POSTED_ADDRESS },
    { "posted up to presets", 0x0117, 4, NUMBER_POSTED_ADDRESS },
    { "posted from presets on", 0x011E, 8, NUMBER_POSTED_ADDRESS },
    { "posted at 10118", 0x10118, 2, NUMBER_POSTED_ADDRESS },
    { "odd bytes at 0118", 0x0118, 3, NUMBER_BAD_INPUT },
    { "nothing at 0118", 0x0118, 0, NUMBER_BAD_INPUT },
    { "posted at 0121", 0x0121, 32, NUMBER_DONE }
};

static void run_preset_posts(void)
{
    static const uint8_t words[32] = { 1, 2, 3, 4 };
    uint8_t sheet[SHEET_ROOM], bank[BANK_ROOM];
    struct made made;
    make_map(&made, MAP_BESIDE);
    size_t sheet_n = put_sheet(&made, sheet);
    second_bank_fresh(sheet, sheet_n, bank, 92);
    for (size_t i = 0; i < sizeof posts / sizeof posts[0]; i++) {
        struct call call = { CALL_POST, { sheet, bank, NULL, words, NULL },
                             { sheet_n, 92, 0, posts[i].bytes, 0 }, posts[i].address, 0, NO_ORDER };
        ask(&call, CALL_POST, posts[i].number, posts[i].name);
        expect(bank_changed(&call) == (posts[i].number == NUMBER_DONE), posts[i].name, "bank");
    }
    made.areas[2].access = 1;
    made.items_n -= 2;
    memmove(&made.items[18], &made.items[20], (made.items_n - 18) * sizeof made.items[0]);
    sheet_n = put_sheet(&made, sheet);
    struct call call = { CALL_POST, { sheet, bank, NULL, words, NULL },
                         { sheet_n, 92, 0, 4, 0 }, 0x0116, 0, NO_ORDER };
    ask(&call, CALL_POST, NUMBER_DONE, "posted in front of presets");
    call.value = 0x0117;
    ask(&call, CALL_POST, NUMBER_POSTED_ADDRESS, "posted into presets");
}

static void run_presets(void)
{
    for (size_t i = 0; i < sizeof versions / sizeof versions[0]; i++)
        run_version(&versions[i]);
    run_other_access();
    run_uncovered();
    run_preset_bank();
    run_preset_sizes();
    run_preset_posts();
}

/* ---- W6: orders on both sides of each limit ---- */

enum { MOST_VALUES = 400, KEPT = 0xA5 };

struct order_case {
    const char *name;
    struct asked asked;
    size_t values_n;            /* bytes 01, 02, 03 and so on */
    const char *query;          /* without check and values; empty if there is none */
};

static const struct order_case orders[] = {
    { "read of 0", { 0, 1, 0x0100, 0 }, 0, "" },
    { "read of 1", { 0, 1, 0x0100, 1 }, 0, "01 03 01 00 00 01" },
    { "read of 47", { 0, 1, 0x0100, 47 }, 0, "01 03 01 00 00 2F" },
    { "read of 48", { 0, 1, 0x0100, 48 }, 0, "" },
    { "read of 257", { 0, 1, 0x0100, 0x0101 }, 0, "" },
    { "read of 10001", { 0, 1, 0x0100, 0x00010001 }, 0, "" },
    { "read of FFFFFFFF", { 0, 1, 0x0100, 0xFFFFFFFF }, 0, "" },
    { "read at 0000", { 0, 1, 0, 1 }, 0, "01 03 00 00 00 01" },
    { "read at FFFF", { 0, 1, 0xFFFF, 1 }, 0, "01 03 FF FF 00 01" },
    { "read of two at FFFE", { 0, 1, 0xFFFE, 2 }, 0, "01 03 FF FE 00 02" },
    { "read of two at FFFF", { 0, 1, 0xFFFF, 2 }, 0, "" },
    { "read of 47 at FFD1", { 0, 1, 0xFFD1, 47 }, 0, "01 03 FF D1 00 2F" },
    { "read of 47 at FFD2", { 0, 1, 0xFFD2, 47 }, 0, "" },
    { "read at 10000", { 0, 1, 0x10000, 1 }, 0, "" },
    { "read at 10100", { 0, 1, 0x10100, 1 }, 0, "" },
    { "read at FFFFFFFF", { 0, 1, 0xFFFFFFFF, 1 }, 0, "" },
    { "read of 47 at FFFFFFD1", { 0, 1, 0xFFFFFFD1, 47 }, 0, "" },
    { "read of 47 at FFFFFFD2", { 0, 1, 0xFFFFFFD2, 47 }, 0, "" },
    { "read, values of no use", { 0, 1, 0x0100, 2 }, 3, "01 03 01 00 00 02" },
    { "record of 0", { 1, 1, 0x0400, 0 }, 0, "" },
    { "record of 1", { 1, 1, 0x0400, 1 }, 0, "01 03 04 00 00 01" },
    { "record of 22", { 1, 1, 0x1DC7, 22 }, 0, "01 03 1D C7 00 01" },
    { "record of 47", { 1, 1, 0x0400, 47 }, 0, "01 03 04 00 00 01" },
    { "record of 48", { 1, 1, 0x0400, 48 }, 0, "" },
    { "record of 10001", { 1, 1, 0x0400, 0x00010001 }, 0, "" },
    { "record of 47 at FFFF", { 1, 1, 0xFFFF, 47 }, 0, "01 03 FF FF 00 01" },
    { "record at 10000", { 1, 1, 0x10000, 1 }, 0, "" },
    { "record at FFFFFFFF", { 1, 1, 0xFFFFFFFF, 1 }, 0, "" },
    { "record, values of no use", { 1, 1, 0x0400, 2 }, 92, "01 03 04 00 00 01" },
    { "write of 0000", { 2, 1, 0x010E, 0 }, 0, "01 06 01 0E 00 00" },
    { "write of FFFF", { 2, 1, 0x010E, 0xFFFF }, 0, "01 06 01 0E FF FF" },
    { "write of 10000", { 2, 1, 0x010E, 0x10000 }, 0, "" },
    { "write of 10002", { 2, 1, 0x010E, 0x10002 }, 0, "" },
    { "write of FFFFFFFF", { 2, 1, 0x010E, 0xFFFFFFFF }, 0, "" },
    { "write at FFFF", { 2, 1, 0xFFFF, 0x1234 }, 0, "01 06 FF FF 12 34" },
    { "write at 10000", { 2, 1, 0x10000, 0x1234 }, 0, "" },
    { "write at FFFFFFFF", { 2, 1, 0xFFFFFFFF, 0x1234 }, 0, "" },
    { "write, values of no use", { 2, 1, 0x010E, 2 }, 5, "01 06 01 0E 00 02" },
    { "writes of nothing", { 3, 1, 0x010F, 1 }, 0, "" },
    { "writes of a byte", { 3, 1, 0x010F, 1 }, 1, "" },
    { "writes of one", { 3, 1, 0x010F, 0 }, 2, "01 10 01 0F 00 01 02" },
    { "writes of three bytes", { 3, 1, 0x010F, 1 }, 3, "" },
    { "writes of two", { 3, 1, 0x010F, 0xFFFFFFFF }, 4, "01 10 01 0F 00 02 04" },
    { "writes of 89 bytes", { 3, 1, 0x010F, 44 }, 89, "" },
    { "writes of 45", { 3, 1, 0x010F, 48 }, 90, "01 10 01 0F 00 2D 5A" },
    { "writes of 91 bytes", { 3, 1, 0x010F, 45 }, 91, "" },
    { "writes of 46", { 3, 1, 0x010F, 1 }, 92, "" },
    { "writes of 129", { 3, 1, 0x010F, 1 }, 258, "" },
    { "writes of one at FFFF", { 3, 1, 0xFFFF, 0 }, 2, "01 10 FF FF 00 01 02" },
    { "writes of two at FFFF", { 3, 1, 0xFFFF, 0 }, 4, "" },
    { "writes of 45 at FFD3", { 3, 1, 0xFFD3, 0 }, 90, "01 10 FF D3 00 2D 5A" },
    { "writes of 45 at FFD4", { 3, 1, 0xFFD4, 0 }, 90, "" },
    { "writes at 10000", { 3, 1, 0x10000, 0 }, 2, "" },
    { "writes at FFFFFFFF", { 3, 1, 0xFFFFFFFF, 0 }, 2, "" },
    { "clear", { 4, 1, 0x0300, 0 }, 0, "01 05 03 00 00 00" },
    { "clear, the rest of no use", { 4, 1, 0x0300, 0xFF00FF00 }, 91, "01 05 03 00 00 00" },
    { "clear at 0000", { 4, 1, 0, 0 }, 0, "01 05 00 00 00 00" },
    { "clear at FFFF", { 4, 1, 0xFFFF, 0 }, 0, "01 05 FF FF 00 00" },
    { "clear at 10000", { 4, 1, 0x10000, 0 }, 0, "" },
    { "clear at 10300", { 4, 1, 0x10300, 0 }, 0, "" },
    { "order 5", { 5, 1, 0x0100, 1 }, 2, "" },
    { "order 256", { 256, 1, 0x0100, 1 }, 2, "" },
    { "order 10003", { 0x10003, 1, 0x0100, 1 }, 2, "" },
    { "order FFFFFFFF", { 0xFFFFFFFF, 1, 0x0100, 1 }, 2, "" },
    { "station 0", { 0, 0, 0x0100, 1 }, 0, "" },
    { "station 2", { 0, 2, 0x0100, 1 }, 0, "02 03 01 00 00 01" },
    { "station 247", { 0, 247, 0x0100, 1 }, 0, "F7 03 01 00 00 01" },
    { "station 248", { 0, 248, 0x0100, 1 }, 0, "" },
    { "station 255", { 0, 255, 0x0100, 1 }, 0, "" },
    { "station 256", { 0, 256, 0x0100, 1 }, 0, "" },
    { "station 257", { 0, 257, 0x0100, 1 }, 0, "" },
    { "station FFFFFFFF", { 0, 0xFFFFFFFF, 0x0100, 1 }, 0, "" },
    { "record, station 0", { 1, 0, 0x0400, 1 }, 0, "" },
    { "record, station 247", { 1, 247, 0x0400, 1 }, 0, "F7 03 04 00 00 01" },
    { "record, station 248", { 1, 248, 0x0400, 1 }, 0, "" },
    { "write, station 0", { 2, 0, 0x010E, 2 }, 0, "" },
    { "write, station 247", { 2, 247, 0x010E, 2 }, 0, "F7 06 01 0E 00 02" },
    { "write, station 248", { 2, 248, 0x010E, 2 }, 0, "" },
    { "writes, station 0", { 3, 0, 0x010F, 0 }, 2, "" },
    { "writes, station 247", { 3, 247, 0x010F, 0 }, 2, "F7 10 01 0F 00 01 02" },
    { "writes, station 248", { 3, 248, 0x010F, 0 }, 2, "" },
    { "clear, station 0", { 4, 0, 0x0300, 0 }, 0, "" },
    { "clear, station 247", { 4, 247, 0x0300, 0 }, 0, "F7 05 03 00 00 00" },
    { "clear, station 248", { 4, 248, 0x0300, 0 }, 0, "" }
};

/* A buffer to which nothing was written. */
static const uint8_t *kept_out(void)
{
    static uint8_t out[OUT_ROOM + 1];
    memset(out, KEPT, sizeof out);
    return out;
}

static struct call order_call(enum call_sort sort, struct asked asked, size_t values_n)
{
    static uint8_t values[MOST_VALUES];
    for (size_t i = 0; i < MOST_VALUES; i++)
        values[i] = (uint8_t)(i + 1);
    struct call call = { sort, { NULL }, { 0 }, 0, 0, asked };
    call.part[PART_VALUES] = values;
    call.part_n[PART_VALUES] = values_n;
    call.part[PART_OUT] = kept_out();
    call.part_n[PART_OUT] = OUT_ROOM;
    return call;
}

/* The number, what is told with it, and all of out. */
static void ask_order(const struct call *call, const struct outcome *told, const uint8_t *out,
                      const char *name)
{
    struct outcome outcome;
    expect(same_on_both_sides(call, &outcome), name, "the sides differ");
    expect(outcome.number == told->number, name, "number");
    expect(outcome.length == told->length, name, "length");
    expect(outcome.error == told->error, name, "error");
    expect(memcmp(part_after(PART_OUT), out, call->part_n[PART_OUT]) == 0, name, "out");
}

/* With 100 bytes, with one more, and with too few: 9 comes ahead of 5. */
static void ask_with_each_out(struct call *call, const struct outcome *told, const uint8_t *out,
                              const char *name)
{
    struct outcome small = { NUMBER_BUFFER, 0, 0, 0, 0, 0, 0 };
    if (told->number == NUMBER_NO_FRAME)
        small.number = NUMBER_NO_FRAME;
    call->part_n[PART_OUT] = OUT_ROOM;
    ask_order(call, told, out, name);
    call->part_n[PART_OUT] = OUT_ROOM + 1;
    ask_order(call, told, out, name);
    call->part_n[PART_OUT] = OUT_ROOM - 1;
    ask_order(call, &small, kept_out(), name);
    call->part_n[PART_OUT] = 0;
    ask_order(call, &small, kept_out(), name);
}

/* The query, and an error that comes back to it. To an order without a frame nothing
 * can, and so the refusal is ahead of what the bytes are. */
static void run_order(const struct order_case *one)
{
    uint8_t query[OUT_ROOM + 1], reply[OUT_ROOM];
    struct outcome built = { NUMBER_NO_FRAME, 0, 0, 0, 0, 0, 0 };
    struct outcome read = built;
    struct call call = order_call(CALL_QUERY, one->asked, one->values_n);
    memset(query, KEPT, sizeof query);
    size_t n = put_hex(one->query, query);
    if (n > 0) {
        if (n == 7) {
            memcpy(query + n, call.part[PART_VALUES], one->values_n);
            n += one->values_n;
        }
        built.number = read.number = NUMBER_DONE;
        built.length = (uint32_t)add_check(query, n);
        read.error = 2;
    }
    ask_with_each_out(&call, &built, query, one->name);
    reply[0] = query[0];
    reply[1] = query[1] | 0x80;
    reply[2] = 2;
    call.sort = CALL_REPLY;
    call.part[PART_BYTES] = reply;
    call.part_n[PART_BYTES] = add_check(reply, 3);
    ask_with_each_out(&call, &read, kept_out(), one->name);
}

/* ---- W6: replies ---- */

/* A read of two words, a record of two, a write of 0002, writes of two words and a
 * clear. */
#define ASKED_READ { 0, 1, 0x0101, 2 }, 0
#define ASKED_RECORD { 1, 1, 0x0400, 2 }, 0
#define ASKED_WRITE { 2, 1, 0x010E, 2 }, 0
#define ASKED_WRITES { 3, 1, 0x010F, 0 }, 4
#define ASKED_CLEAR { 4, 1, 0x0300, 7 }, 0

struct reply_case {
    struct asked asked;
    size_t values_n;
    const char *reply;          /* checks left out */
    uint32_t number;
    uint32_t length, error;
};

static const struct reply_case replies[] = {
    { ASKED_READ, "01 03 04 00 01 00 00", NUMBER_DONE, 4, 0 },
    { ASKED_READ, "01 03 04 FF FE FD FC", NUMBER_DONE, 4, 0 },
    { ASKED_READ, "01 03 03 00 01 00 00", NUMBER_REPLY_BODY, 0, 0 },
    { ASKED_READ, "01 03 05 00 01 00 00", NUMBER_REPLY_BODY, 0, 0 },
    { ASKED_READ, "01 03 02 00 01 00 00", NUMBER_REPLY_BODY, 0, 0 },
    { ASKED_READ, "01 03 04 00 01 00", NUMBER_REPLY_BODY, 0, 0 },
    { ASKED_READ, "01 03 04 00 01 00 00 00", NUMBER_REPLY_BODY, 0, 0 },
    { ASKED_READ, "01 03 03 00 01 00", NUMBER_REPLY_BODY, 0, 0 },
    { ASKED_READ, "01 03 05 00 01 00 00 00", NUMBER_REPLY_BODY, 0, 0 },
    { ASKED_READ, "01 03 02 00 01", NUMBER_REPLY_BODY, 0, 0 },
    { ASKED_READ, "01 03 06 00 01 00 00 00 00", NUMBER_REPLY_BODY, 0, 0 },
    { ASKED_READ, "01 03 00", NUMBER_REPLY_BODY, 0, 0 },
    { ASKED_READ, "01 03 04", NUMBER_REPLY_BODY, 0, 0 },
    { ASKED_READ, "01 03 02", NUMBER_REPLY_BODY, 0, 0 },
    { ASKED_READ, "01 03", NUMBER_REPLY_BODY, 0, 0 },
    { ASKED_READ, "01 03 01 01 00 02", NUMBER_REPLY_BODY, 0, 0 },
    { ASKED_READ, "01", NUMBER_REPLY_DAMAGED, 0, 0 },
    { ASKED_READ, "", NUMBER_REPLY_DAMAGED, 0, 0 },
    { ASKED_READ, "01 83 01", NUMBER_DONE, 0, 1 },
    { ASKED_READ, "01 83 02", NUMBER_DONE, 0, 2 },
    { ASKED_READ, "01 83 03", NUMBER_DONE, 0, 3 },
    { ASKED_READ, "01 83 00", NUMBER_REPLY_BODY, 0, 0 },
    { ASKED_READ, "01 83 04", NUMBER_REPLY_BODY, 0, 0 },
    { ASKED_READ, "01 83 81", NUMBER_REPLY_BODY, 0, 0 },
    { ASKED_READ, "01 83 FF", NUMBER_REPLY_BODY, 0, 0 },
    { ASKED_READ, "01 83", NUMBER_REPLY_BODY, 0, 0 },
    { ASKED_READ, "01 83 02 00", NUMBER_REPLY_BODY, 0, 0 },
    { ASKED_READ, "01 83 00 02", NUMBER_REPLY_BODY, 0, 0 },
    { ASKED_READ, "01 83 02 02", NUMBER_REPLY_BODY, 0, 0 },
    { ASKED_READ, "01 83 04 00 01 00 00", NUMBER_REPLY_BODY, 0, 0 },
    { ASKED_READ, "02 03 04 00 01 00 00", NUMBER_REPLY_STATION, 0, 0 },
    { ASKED_READ, "00 03 04 00 01 00 00", NUMBER_REPLY_STATION, 0, 0 },
    { ASKED_READ, "81 03 04 00 01 00 00", NUMBER_REPLY_STATION, 0, 0 },
    { ASKED_READ, "02 83 02", NUMBER_REPLY_STATION, 0, 0 },
    { ASKED_READ, "02 06 01 0E 00 02", NUMBER_REPLY_STATION, 0, 0 },
    { ASKED_READ, "02 03 03 00 01 00 00", NUMBER_REPLY_STATION, 0, 0 },
    { ASKED_READ, "02 00", NUMBER_REPLY_STATION, 0, 0 },
    { ASKED_READ, "01 04 04 00 01 00 00", NUMBER_REPLY_FUNCTION, 0, 0 },
    { ASKED_READ, "01 02 04 00 01 00 00", NUMBER_REPLY_FUNCTION, 0, 0 },
    { ASKED_READ, "01 43 04 00 01 00 00", NUMBER_REPLY_FUNCTION, 0, 0 },
    { ASKED_READ, "01 05 03 00 00 00", NUMBER_REPLY_FUNCTION, 0, 0 },
    { ASKED_READ, "01 06 01 01 00 02", NUMBER_REPLY_FUNCTION, 0, 0 },
    { ASKED_READ, "01 10 01 01 00 02", NUMBER_REPLY_FUNCTION, 0, 0 },
    { ASKED_READ, "01 86 02", NUMBER_REPLY_FUNCTION, 0, 0 },
    { ASKED_READ, "01 80 02", NUMBER_REPLY_FUNCTION, 0, 0 },
    { ASKED_READ, "01 86 04", NUMBER_REPLY_FUNCTION, 0, 0 },
    { ASKED_READ, "01 00", NUMBER_REPLY_FUNCTION, 0, 0 },
    { ASKED_RECORD, "01 03 04 12 34 56 78", NUMBER_DONE, 4, 0 },
    { ASKED_RECORD, "01 03 02 12 34", NUMBER_REPLY_BODY, 0, 0 },
    { ASKED_RECORD, "01 03 06 12 34 56 78 9A BC", NUMBER_REPLY_BODY, 0, 0 },
    { ASKED_RECORD, "01 03 04 00 00 01", NUMBER_REPLY_BODY, 0, 0 },
    { ASKED_RECORD, "01 83 02", NUMBER_DONE, 0, 2 },
    { ASKED_RECORD, "01 83 04", NUMBER_REPLY_BODY, 0, 0 },
    { ASKED_RECORD, "02 03 04 12 34 56 78", NUMBER_REPLY_STATION, 0, 0 },
    { ASKED_RECORD, "01 10 04 00 00 02", NUMBER_REPLY_FUNCTION, 0, 0 },
    { ASKED_WRITE, "01 06 01 0E 00 02", NUMBER_DONE, 0, 0 },
    { ASKED_WRITE, "01 06 01 0E 00 03", NUMBER_REPLY_BODY, 0, 0 },
    { ASKED_WRITE, "01 06 01 0E 01 02", NUMBER_REPLY_BODY, 0, 0 },
    { ASKED_WRITE, "01 06 01 0E 02 00", NUMBER_REPLY_BODY, 0, 0 },
    { ASKED_WRITE, "01 06 01 0F 00 02", NUMBER_REPLY_BODY, 0, 0 },
    { ASKED_WRITE, "01 06 00 0E 00 02", NUMBER_REPLY_BODY, 0, 0 },
    { ASKED_WRITE, "01 06 0E 01 00 02", NUMBER_REPLY_BODY, 0, 0 },
    { ASKED_WRITE, "01 06 01 0E 00", NUMBER_REPLY_BODY, 0, 0 },
    { ASKED_WRITE, "01 06 01 0E", NUMBER_REPLY_BODY, 0, 0 },
    { ASKED_WRITE, "01 06 01 0E 00 02 00", NUMBER_REPLY_BODY, 0, 0 },
    { ASKED_WRITE, "01 06", NUMBER_REPLY_BODY, 0, 0 },
    { ASKED_WRITE, "01 06 03", NUMBER_REPLY_BODY, 0, 0 },
    { ASKED_WRITE, "01 86 01", NUMBER_DONE, 0, 1 },
    { ASKED_WRITE, "01 86 03", NUMBER_DONE, 0, 3 },
    { ASKED_WRITE, "01 86 04", NUMBER_REPLY_BODY, 0, 0 },
    { ASKED_WRITE, "01 86 01 0E 00 02", NUMBER_REPLY_BODY, 0, 0 },
    { ASKED_WRITE, "02 06 01 0E 00 02", NUMBER_REPLY_STATION, 0, 0 },
    { ASKED_WRITE, "01 10 01 0E 00 02", NUMBER_REPLY_FUNCTION, 0, 0 },
    { ASKED_WRITE, "01 05 01 0E 00 02", NUMBER_REPLY_FUNCTION, 0, 0 },
    { ASKED_WRITE, "01 83 03", NUMBER_REPLY_FUNCTION, 0, 0 },
    { ASKED_WRITES, "01 10 01 0F 00 02", NUMBER_DONE, 0, 0 },
    { ASKED_WRITES, "01 10 01 0F 00 01", NUMBER_REPLY_BODY, 0, 0 },
    { ASKED_WRITES, "01 10 01 0F 00 03", NUMBER_REPLY_BODY, 0, 0 },
    { ASKED_WRITES, "01 10 01 0F 00 04", NUMBER_REPLY_BODY, 0, 0 },
    { ASKED_WRITES, "01 10 01 0F 01 02", NUMBER_REPLY_BODY, 0, 0 },
    { ASKED_WRITES, "01 10 01 0E 00 02", NUMBER_REPLY_BODY, 0, 0 },
    { ASKED_WRITES, "01 10 01 0F 00", NUMBER_REPLY_BODY, 0, 0 },
    { ASKED_WRITES, "01 10 01 0F 00 02 04", NUMBER_REPLY_BODY, 0, 0 },
    { ASKED_WRITES, "01 10 01 0F 00 02 04 01 02 03 04", NUMBER_REPLY_BODY, 0, 0 },
    { ASKED_WRITES, "01 90 03", NUMBER_DONE, 0, 3 },
    { ASKED_WRITES, "01 90 00", NUMBER_REPLY_BODY, 0, 0 },
    { ASKED_WRITES, "02 90 03", NUMBER_REPLY_STATION, 0, 0 },
    { ASKED_WRITES, "01 06 01 0F 00 02", NUMBER_REPLY_FUNCTION, 0, 0 },
    { ASKED_CLEAR, "01 05 03 00 00 00", NUMBER_DONE, 0, 0 },
    { ASKED_CLEAR, "01 05 03 00 FF 00", NUMBER_REPLY_BODY, 0, 0 },
    { ASKED_CLEAR, "01 05 03 00 00 07", NUMBER_REPLY_BODY, 0, 0 },
    { ASKED_CLEAR, "01 05 03 01 00 00", NUMBER_REPLY_BODY, 0, 0 },
    { ASKED_CLEAR, "01 05 03 00 00", NUMBER_REPLY_BODY, 0, 0 },
    { ASKED_CLEAR, "01 05 03 00 00 00 00", NUMBER_REPLY_BODY, 0, 0 },
    { ASKED_CLEAR, "01 85 02", NUMBER_DONE, 0, 2 },
    { ASKED_CLEAR, "01 85 00", NUMBER_REPLY_BODY, 0, 0 },
    { ASKED_CLEAR, "F8 05 03 00 00 00", NUMBER_REPLY_STATION, 0, 0 },
    { ASKED_CLEAR, "01 06 03 00 00 00", NUMBER_REPLY_FUNCTION, 0, 0 },
    { ASKED_CLEAR, "01 15 03 00 00 00", NUMBER_REPLY_FUNCTION, 0, 0 }
};

/* As it came, damaged in each of its bits, and cut to each length. */
static void run_reply(const struct reply_case *one)
{
    static const struct outcome damaged = { NUMBER_REPLY_DAMAGED, 0, 0, 0, 0, 0, 0 };
    uint8_t reply[OUT_ROOM] = { 0 }, out[OUT_ROOM + 1];
    struct outcome told = { one->number, one->length, 0, 0, 0, 0, one->error };
    struct call call = order_call(CALL_REPLY, one->asked, one->values_n);
    size_t n = put_checked(one->reply, reply);
    call.part[PART_BYTES] = reply;
    call.part_n[PART_BYTES] = n;
    memset(out, KEPT, sizeof out);
    memcpy(out, reply + 3, one->length);
    ask_with_each_out(&call, &told, out, one->reply);
    call.part_n[PART_OUT] = OUT_ROOM;
    for (size_t bit = 0; bit < 8 * n; bit++) {
        reply[bit / 8] ^= (uint8_t)(1 << bit % 8);
        ask_order(&call, &damaged, kept_out(), one->reply);
        reply[bit / 8] ^= (uint8_t)(1 << bit % 8);
    }
    for (size_t cut = 0; cut < 4; cut++) {
        call.part_n[PART_BYTES] = cut;
        ask_order(&call, &damaged, kept_out(), one->reply);
    }
}

/* ---- W6: the longest replies ---- */

/* So many bytes behind the byte count, to an order of so many words. */
static void run_long_reply(uint32_t order, uint32_t words, size_t bytes, uint32_t number)
{
    struct asked asked = { order, 0xF7, 0x0400, words };
    struct call call = order_call(CALL_REPLY, asked, 0);
    struct outcome told = { number, number == NUMBER_DONE ? 2 * words : 0, 0, 0, 0, 0, 0 };
    uint8_t reply[2 * OUT_ROOM] = { 0xF7, 0x03, (uint8_t)bytes }, out[OUT_ROOM + 1];
    for (size_t i = 0; i < bytes; i++)
        reply[3 + i] = (uint8_t)(0xFF - i);
    memset(out, KEPT, sizeof out);
    memcpy(out, reply + 3, told.length);
    call.part[PART_BYTES] = reply;
    call.part_n[PART_BYTES] = add_check(reply, 3 + bytes);
    ask_with_each_out(&call, &told, out, "a long reply");
}

static void run_long_replies(void)
{
    for (uint32_t order = ORDER_READ; order <= ORDER_RECORD; order++) {
        run_long_reply(order, 1, 2, NUMBER_DONE);
        run_long_reply(order, 1, 0, NUMBER_REPLY_BODY);
        run_long_reply(order, 1, 4, NUMBER_REPLY_BODY);
        run_long_reply(order, 46, 92, NUMBER_DONE);
        run_long_reply(order, 46, 94, NUMBER_REPLY_BODY);
        run_long_reply(order, 47, 92, NUMBER_REPLY_BODY);
        run_long_reply(order, 47, 94, NUMBER_DONE);
        run_long_reply(order, 47, 95, NUMBER_REPLY_BODY);
        run_long_reply(order, 47, 96, NUMBER_REPLY_DAMAGED);
        run_long_reply(order, 48, 96, NUMBER_NO_FRAME);
        run_long_reply(order, 47, 97, NUMBER_REPLY_DAMAGED);
    }
}

/* With nothing at all that is right: 9, then 5, then 10. */
static void run_order_of_refusals(void)
{
    struct asked none = { 5, 0, 0x10000, 0 }, one = { 0, 1, 0, 1 };
    struct outcome no_frame = { NUMBER_NO_FRAME, 0, 0, 0, 0, 0, 0 };
    struct outcome damaged = { NUMBER_REPLY_DAMAGED, 0, 0, 0, 0, 0, 0 };
    struct call call = order_call(CALL_REPLY, none, 0);
    ask_with_each_out(&call, &no_frame, kept_out(), "nothing to nothing");
    call.asked = one;
    ask_with_each_out(&call, &damaged, kept_out(), "nothing to a read");
}

static void run_orders(void)
{
    for (size_t i = 0; i < sizeof orders / sizeof orders[0]; i++)
        run_order(&orders[i]);
    for (size_t i = 0; i < sizeof replies / sizeof replies[0]; i++)
        run_reply(&replies[i]);
    run_long_replies();
    run_order_of_refusals();
}

int main(void)
{
    size_t n = sizeof cases / sizeof cases[0];
    size_t records_n = sizeof record_cases / sizeof record_cases[0];
    size_t orders_n = sizeof orders / sizeof orders[0];
    size_t replies_n = sizeof replies / sizeof replies[0];
    for (size_t i = 0; i < n; i++)
        run_case(&cases[i]);
    run_check_values();
    run_listed_sheet();
    run_maps();
    run_stations();
    run_records();
    run_ends();
    run_presets();
    run_orders();
    printf("ran %zu frame cases, %zu orders and %zu replies, %d failures\n", n + records_n,
           orders_n, replies_n, failed);
    return failed == 0 ? 0 : 1;
}
