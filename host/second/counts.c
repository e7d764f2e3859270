#include "counts.h"

#include <inttypes.h>
#include <stdio.h>

static const char *const damage_names[DAMAGE_COUNT] = {
    "none", "1 bit", "2 bits", "3 bits", "burst within 16 bits"
};

static const char *const special_names[SPECIAL_COUNT] = {
    [SPECIAL_REPLY_READ] = "reply to 03",
    [SPECIAL_REPLY_CLEAR] = "reply to 05",
    [SPECIAL_REPLY_WRITE_ONE] = "reply to 06",
    [SPECIAL_REPLY_WRITE_MANY] = "reply to 10",
    [SPECIAL_REPLY_ERROR_1] = "error 01",
    [SPECIAL_REPLY_ERROR_2] = "error 02",
    [SPECIAL_REPLY_ERROR_3] = "error 03",
    [SPECIAL_READ_47] = "good read of 47 words",
    [SPECIAL_READ_OVER_AREAS] = "good read over two areas",
    [SPECIAL_WRITE_OVER_AREAS] = "good write over two areas",
    [SPECIAL_STORED_PART] = "bad item, part stored",
    [SPECIAL_UPPER_ALONE_GOOD] = "upper half alone, good",
    [SPECIAL_UPPER_ALONE_BAD] = "upper half alone, bad",
    [SPECIAL_LOWER_ALONE_GOOD] = "lower half alone, good",
    [SPECIAL_LOWER_ALONE_BAD] = "lower half alone, bad",
    [SPECIAL_ADDRESS_CHANGED] = "address changed",
    [SPECIAL_RATE_CHANGED] = "rate changed",
    [SPECIAL_PART_CHANGED_ADDRESS] = "address changed, then error",
    [SPECIAL_REPLY_FROM_1] = "reply from station 1",
    [SPECIAL_REPLY_FROM_F7] = "reply from station F7",
    [SPECIAL_SILENT_AT_0] = "silence, only for station 0",
    [SPECIAL_SILENT_ABOVE_F7] = "silence, only for one above F7",
    [SPECIAL_WRITE_TO_0] = "good write to 0, not stored",
    [SPECIAL_RANGE_FROM_0] = "2, only for a range from 0",
    [SPECIAL_RANGE_ABOVE_F7] = "2, only for a range above F7",
    [SPECIAL_RANGE_BOTH_SIDES] = "2, only for both ends of it",
    [SPECIAL_BANK_AT_0] = "4, only for station 0",
    [SPECIAL_BANK_ABOVE_F7] = "4, only for one above F7",
    [SPECIAL_FRAME_FOR_REFUSED] = "4, with a frame for that station",
    [SPECIAL_STATION_TO_0] = "station to 0, error 03",
    [SPECIAL_STATION_ABOVE_F7] = "station above F7, error 03",
    [SPECIAL_STATION_TO_F7] = "station changed to F7",
    [SPECIAL_SILENCE_SMALL_BUFFER] = "5 for a frame to be silent at",
    [SPECIAL_CLEARED_MARK] = "mark went from 1 to 0",
    [SPECIAL_POST_OVER_AREAS] = "posted over two areas",
    [SPECIAL_7_BEFORE_6] = "7 where 6 holds too",
    [SPECIAL_NULL_SLICE] = "an empty slice lent",
    [SPECIAL_CHAINED] = "on a bank changed before",
    [SPECIAL_WHY_COUNT_0] = "why: count 0",
    [SPECIAL_WHY_OVER_47] = "why: a read of more than 47",
    [SPECIAL_WHY_BYTE_COUNT] = "why: byte count not twice",
    [SPECIAL_WHY_READ_ADDRESS] = "why: address of a read",
    [SPECIAL_WHY_WRITE_ADDRESS] = "why: address of a write",
    [SPECIAL_WHY_CLEAR_ADDRESS] = "why: address of a clear",
    [SPECIAL_WHY_ADDRESS_BEHIND] = "why: address behind the first",
    [SPECIAL_WHY_10000] = "why: address 10000",
    [SPECIAL_WHY_ITEM_AT_START] = "why: item at the write's start",
    [SPECIAL_WHY_ITEM_BEHIND] = "why: item behind the start",
    [SPECIAL_WHY_ITEM_IN_FRONT] = "why: pair, lower half written",
    [SPECIAL_WHY_WORD_UNDER_LOW] = "why: word, one under low",
    [SPECIAL_WHY_WORD_AT_LOW] = "why: word, at low",
    [SPECIAL_WHY_WORD_AT_HIGH] = "why: word, at high",
    [SPECIAL_WHY_WORD_OVER_HIGH] = "why: word, one over high",
    [SPECIAL_WHY_SIGNED_UNDER_LOW] = "why: signed word, one under low",
    [SPECIAL_WHY_SIGNED_AT_LOW] = "why: signed word, at low",
    [SPECIAL_WHY_SIGNED_AT_HIGH] = "why: signed word, at high",
    [SPECIAL_WHY_SIGNED_OVER_HIGH] = "why: signed word, one over high",
    [SPECIAL_WHY_PAIR_UNDER_LOW] = "why: pair, one under low",
    [SPECIAL_WHY_PAIR_AT_LOW] = "why: pair, at low",
    [SPECIAL_WHY_PAIR_AT_HIGH] = "why: pair, at high",
    [SPECIAL_WHY_PAIR_OVER_HIGH] = "why: pair, one over high",
    [SPECIAL_WHY_SIGN_TOO_LOW] = "why: too low only by its sign",
    [SPECIAL_WHY_SIGN_TOO_HIGH] = "why: too high only by its sign",
    [SPECIAL_WHY_UPPER_TOO_LOW] = "why: upper half, too low",
    [SPECIAL_WHY_UPPER_TOO_HIGH] = "why: upper half, too high",
    [SPECIAL_WHY_LOWER_TOO_LOW] = "why: lower half, too low",
    [SPECIAL_WHY_LOWER_TOO_HIGH] = "why: lower half, too high",
    [SPECIAL_WHY_UPPER_LOW_BY_OTHER] = "why: upper, low by the other",
    [SPECIAL_WHY_UPPER_HIGH_BY_OTHER] = "why: upper, high by the other",
    [SPECIAL_WHY_LOWER_LOW_BY_OTHER] = "why: lower, low by the other",
    [SPECIAL_WHY_LOWER_HIGH_BY_OTHER] = "why: lower, high by the other",
    [SPECIAL_WHY_RECORD_COUNT] = "why: not one record",
    [SPECIAL_WHY_RECORD] = "why: a record not stored",
    [SPECIAL_WHY_READ_INTO_RECORDS] = "why: read up to the records",
    [SPECIAL_WHY_WRITE_INTO_RECORDS] = "why: write up to the records",
    [SPECIAL_WHY_SHUT_IN_FRONT] = "why: shut in front of records",
    [SPECIAL_WHY_CLEAR_AT_RECORD] = "why: 05 at a record",
    [SPECIAL_WHY_WRITE_ONE_RECORD] = "why: 06 at a record",
    [SPECIAL_WHY_WRITE_MANY_RECORD] = "why: 10 at a record",
    [SPECIAL_RECORDS_0] = "2, only for no records",
    [SPECIAL_RECORDS_6601] = "2, only for 6601 records",
    [SPECIAL_WORDS_0] = "2, only for records of 0 words",
    [SPECIAL_WORDS_48] = "2, only for records of 48 words",
    [SPECIAL_RECORDS_TO_10000] = "2, only for an end at 10000",
    [SPECIAL_RECORDS_SHARE_1] = "2, only for one shared address",
    [SPECIAL_CLEAR_FIRST_RECORD] = "2, only clear at the first",
    [SPECIAL_CLEAR_LAST_RECORD] = "2, only clear at the last",
    [SPECIAL_RECORDS_IN_FRONT] = "records in front of the areas",
    [SPECIAL_RECORDS_BETWEEN] = "records between areas",
    [SPECIAL_RECORDS_BEHIND] = "records behind the areas",
    [SPECIAL_RECORDS_NEXT_ABOVE] = "records up to an area",
    [SPECIAL_RECORDS_NEXT_BELOW] = "records right behind an area",
    [SPECIAL_RECORDS_AT_0] = "records from 0000",
    [SPECIAL_RECORDS_AT_WORD_10] = "records from 0000, 05 closed",
    [SPECIAL_RECORDS_TO_FFFF] = "records up to FFFF",
    [SPECIAL_RECORDS_1] = "one record",
    [SPECIAL_RECORDS_6600] = "6600 records",
    [SPECIAL_RECORDS_HISTORY] = "6600 of 22 words from 0400",
    [SPECIAL_CLEAR_IN_FRONT] = "clear address in front of them",
    [SPECIAL_CLEAR_BEHIND] = "clear address behind them",
    [SPECIAL_SHEET_862] = "a sheet of 862 bytes",
    [SPECIAL_RING_NOT_ASKED_FOR] = "8, bytes without a record area",
    [SPECIAL_RING_BYTE_LESS] = "8, one byte less",
    [SPECIAL_RING_BYTE_MORE] = "8, one byte more",
    [SPECIAL_RING_WORD_LESS] = "8, one word less",
    [SPECIAL_RING_WORD_MORE] = "8, one word more",
    [SPECIAL_RING_0_BYTES] = "8, no bytes",
    [SPECIAL_RING_PLACE] = "8, only for the place",
    [SPECIAL_RING_STORED] = "8, only for one too many",
    [SPECIAL_RING_EMPTY] = "8, only empty not at place 0",
    [SPECIAL_8_BEFORE_5] = "8 where 5 holds too",
    [SPECIAL_8_BEFORE_7] = "8 where 7 holds too",
    [SPECIAL_4_BEFORE_8] = "4 where 8 holds too",
    [SPECIAL_ADD_FIRST] = "added to an empty ring",
    [SPECIAL_ADD_MIDST] = "added, room left behind",
    [SPECIAL_ADD_FILLS] = "added, then full",
    [SPECIAL_ADD_OVER_OLDEST] = "added over the oldest",
    [SPECIAL_ADD_ROUND] = "added, round to place 0",
    [SPECIAL_ADD_ONLY_ROOM] = "added over the only one",
    [SPECIAL_ADD_NEVER_MADE] = "added to a ring never made so",
    [SPECIAL_ADD_6600] = "added to one of 6600",
    [SPECIAL_ADD_NO_AREA] = "2, no record area to add to",
    [SPECIAL_ADD_NOTHING] = "7, no bytes added",
    [SPECIAL_ADD_BYTE_LESS] = "7, one byte less",
    [SPECIAL_ADD_BYTE_MORE] = "7, one byte more",
    [SPECIAL_ADD_WORD_LESS] = "7, one word less",
    [SPECIAL_ADD_WORD_MORE] = "7, one word more",
    [SPECIAL_ADD_TWO] = "7, two records",
    [SPECIAL_RECORD_NEWEST] = "record 1 of several",
    [SPECIAL_RECORD_OLDEST] = "the oldest, room left",
    [SPECIAL_RECORD_OLDEST_FULL] = "the oldest of a full ring",
    [SPECIAL_RECORD_AT_PLACE_0] = "an older one, at place 0",
    [SPECIAL_RECORD_ROUND] = "the one before place 0",
    [SPECIAL_RECORD_NEVER_MADE] = "record of a ring never made so",
    [SPECIAL_RECORD_OF_1] = "record of 1 word",
    [SPECIAL_RECORD_OF_22] = "record of 22 words",
    [SPECIAL_RECORD_OF_47] = "record of 47 words",
    [SPECIAL_RECORD_OF_6600] = "record of one of 6600",
    [SPECIAL_RECORD_COUNT_0] = "records, count 0",
    [SPECIAL_RECORD_COUNT_2] = "records, count 2, both stored",
    [SPECIAL_RECORD_COUNT_47] = "records, count 47",
    [SPECIAL_RECORD_OVER_47] = "records, count over 47",
    [SPECIAL_RECORD_LAST_TWO] = "records, two from the last on",
    [SPECIAL_RECORD_NONE_OF_TWO] = "records, several, not stored",
    [SPECIAL_RECORD_BEYOND] = "record, the first not stored",
    [SPECIAL_RECORD_OF_NONE] = "record of an empty ring",
    [SPECIAL_READ_INTO_RECORDS] = "read from an area into records",
    [SPECIAL_WRITE_INTO_RECORDS] = "write from an area into records",
    [SPECIAL_CLEAR_AT_RECORD] = "05 at a record",
    [SPECIAL_WRITE_ONE_RECORD] = "06 at a record",
    [SPECIAL_WRITE_MANY_RECORD] = "10 at a record",
    [SPECIAL_COUNTS_AT_RECORD] = "10 at or into them, counts off",
    [SPECIAL_POST_AT_RECORD] = "6, posted at a record",
    [SPECIAL_POST_INTO_RECORDS] = "6, posted into records",
    [SPECIAL_LIST_ADDED] = "record added by a call before",
    [SPECIAL_LIST_SECOND_ADDED] = "record added by the one before",
    [SPECIAL_LIST_OLDER] = "record older than those added",
    [SPECIAL_LIST_OVERWRITTEN] = "record, older ones overwritten"
};

static const char *const preset_names[PRESET_MET_COUNT] = {
    [PRESET_VERSION_1] = "a sheet of version 1",
    [PRESET_VERSION_2_PLAIN] = "version 2 without access 2",
    [PRESET_VERSION_2] = "version 2 with access 2",
    [PRESET_ALL_AREAS] = "nothing but access 2",
    [PRESET_STATION] = "station in access 2",
    [PRESET_RATE] = "rate in access 2",
    [PRESET_AND_RECORDS] = "access 2 beside records",
    [PRESET_PAIR] = "a pair in access 2",
    [PRESET_ALL_BITS] = "a pair over all 32 bits there",
    [PRESET_ASWE_40] = "AS-WE 40",
    [PRESET_PLAIN_ASWE_40] = "AS-WE 40 without its presets",
    [PRESET_NEXT_1_1] = "access 1, then 1 right behind",
    [PRESET_NEXT_1_2] = "access 1, then 2 right behind",
    [PRESET_NEXT_1_3] = "access 1, then 3 right behind",
    [PRESET_NEXT_2_1] = "access 2, then 1 right behind",
    [PRESET_NEXT_2_2] = "access 2, then 2 right behind",
    [PRESET_NEXT_2_3] = "access 2, then 3 right behind",
    [PRESET_NEXT_3_1] = "access 3, then 1 right behind",
    [PRESET_NEXT_3_2] = "access 3, then 2 right behind",
    [PRESET_NEXT_3_3] = "access 3, then 3 right behind",
    [PRESET_VERSION_0] = "2, only for version 0",
    [PRESET_VERSION_3] = "2, only for version 3",
    [PRESET_VERSION_LARGE] = "2, only for a version above FF",
    [PRESET_VERSION_OTHER] = "2, another version, access 2",
    [PRESET_IN_VERSION_1] = "2, only access 2 in version 1",
    [PRESET_ACCESS_0] = "2, only for access 0",
    [PRESET_ACCESS_4] = "2, only for access 4",
    [PRESET_ACCESS_LARGE] = "2, only for an access above FF",
    [PRESET_PLACE_MISSING] = "2, only a preset without item",
    [PRESET_PLACE_TWICE] = "2, only a preset in two items",
    [PRESET_PAIR_OVER_2_2] = "2, only a pair over 2 and 2",
    [PRESET_PAIR_OVER_2_3] = "2, only a pair over 2 and 3",
    [PRESET_BANK_TOO_LOW] = "4, only for a preset too low",
    [PRESET_BANK_TOO_HIGH] = "4, only for a preset too high",
    [PRESET_BANK_PAIR] = "4, only for a pair there",
    [PRESET_FRESH_LOW] = "fresh, presets above 1",
    [PRESET_FRESH_STATION] = "fresh, the station a preset",
    [PRESET_FRESH_RATE] = "fresh, the rate a preset",
    [PRESET_READ_ONE] = "read of a preset",
    [PRESET_READ_FIRST] = "read, a preset is its first",
    [PRESET_READ_MIDDLE] = "read, presets are in its middle",
    [PRESET_READ_LAST] = "read, a preset is its last",
    [PRESET_WHY_READ_ONE] = "why: read of a preset",
    [PRESET_WHY_READ_FIRST] = "why: a preset is the first",
    [PRESET_WHY_READ_MIDDLE] = "why: presets in the middle",
    [PRESET_WHY_READ_LAST] = "why: a preset is the last",
    [PRESET_READ_NONE] = "read from a preset, count 0",
    [PRESET_READ_OVER_47] = "read with presets, over 47",
    [PRESET_READ_UP_TO] = "good read up to a preset",
    [PRESET_READ_BEHIND] = "good read right behind a preset",
    [PRESET_WRITE_ONE] = "06 of a preset",
    [PRESET_WRITE_MANY] = "10 of presets",
    [PRESET_WRITE_2_TO_3] = "10 from access 2 into 3",
    [PRESET_WRITE_3_TO_2] = "10 from access 3 into 2",
    [PRESET_WRITE_2_TO_2] = "10 from access 2 into another 2",
    [PRESET_WRITE_2_TO_1] = "10 from access 2 into 1",
    [PRESET_WRITE_2_TO_NONE] = "10 from access 2 into no area",
    [PRESET_WRITE_1_TO_2] = "10 from access 1 into 2",
    [PRESET_WHY_WRITE_BEYOND] = "why: write beyond presets",
    [PRESET_UPPER_GOOD] = "upper half of a preset, good",
    [PRESET_UPPER_BAD] = "upper half of a preset, bad",
    [PRESET_UPPER_ALL_BITS] = "upper half of all 32 bits",
    [PRESET_LOWER_GOOD] = "lower half of a preset, good",
    [PRESET_LOWER_BAD] = "lower half of a preset, bad",
    [PRESET_LOWER_ALL_BITS] = "lower half of all 32 bits",
    [PRESET_BAD] = "06 of a preset, bad",
    [PRESET_STORED_AHEAD] = "preset stored, then a bad item",
    [PRESET_WHY_TOO_LOW] = "why: a preset too low",
    [PRESET_WHY_TOO_HIGH] = "why: a preset too high",
    [PRESET_WHY_BEHIND] = "why: a preset behind the start",
    [PRESET_STATION_CHANGED] = "station changed as a preset",
    [PRESET_RATE_CHANGED] = "rate changed as a preset",
    [PRESET_CLEAR] = "05 at a preset",
    [PRESET_POST_AT] = "6, posted at a preset",
    [PRESET_POST_INTO] = "6, posted into presets",
    [PRESET_POST_UP_TO] = "posted up to a preset",
    [PRESET_POST_ODD] = "7, odd bytes at a preset"
};

static const char *const order_names[ORDER_MET_COUNT] = {
    [ORDER_TAKEN_READ] = "read",
    [ORDER_TAKEN_RECORD] = "record",
    [ORDER_TAKEN_WRITE] = "write",
    [ORDER_TAKEN_WRITES] = "writes",
    [ORDER_TAKEN_CLEAR] = "clear",
    [ORDER_READ_TO_FFFF] = "read up to FFFF",
    [ORDER_RECORD_AT_FFFF] = "record at FFFF",
    [ORDER_WRITE_AT_FFFF] = "write at FFFF",
    [ORDER_WRITES_TO_FFFF] = "writes up to FFFF",
    [ORDER_CLEAR_AT_FFFF] = "clear at FFFF",
    [ORDER_READ_OF_1] = "read of 1",
    [ORDER_READ_OF_47] = "read of 47",
    [ORDER_RECORD_OF_1] = "record of 1 word",
    [ORDER_RECORD_OF_47] = "record of 47 words",
    [ORDER_WRITES_OF_1] = "writes of 1",
    [ORDER_WRITES_OF_45] = "writes of 45",
    [ORDER_VALUE_FFFF] = "write of FFFF",
    [ORDER_STATION_1] = "station 1",
    [ORDER_STATION_F7] = "station F7",
    [ORDER_NUMBER_OF_NO_USE] = "a number of no use above FFFF",
    [ORDER_VALUES_OF_NO_USE] = "values of no use, odd or many",
    [ORDER_9_KIND_5] = "9, only for order 5",
    [ORDER_9_KIND_LARGE] = "9, only for an order above FF",
    [ORDER_9_STATION_0] = "9, only for station 0",
    [ORDER_9_STATION_F8] = "9, only for station F8",
    [ORDER_9_STATION_LARGE] = "9, only for a station above FF",
    [ORDER_9_READ_OF_0] = "9, only for a read of 0",
    [ORDER_9_READ_OF_48] = "9, only for a read of 48",
    [ORDER_9_RECORD_OF_0] = "9, only for a record of 0",
    [ORDER_9_RECORD_OF_48] = "9, only for a record of 48",
    [ORDER_9_WORDS_LARGE] = "9, only for more than FF words",
    [ORDER_9_VALUE_10000] = "9, only for the value 10000",
    [ORDER_9_NO_VALUES] = "9, only for no values",
    [ORDER_9_ODD_VALUES] = "9, only for odd values",
    [ORDER_9_WRITES_OF_46] = "9, only for writes of 46",
    [ORDER_9_READ_TO_10000] = "9, only for a read to 10000",
    [ORDER_9_RECORD_AT_10000] = "9, only for a record at 10000",
    [ORDER_9_WRITE_AT_10000] = "9, only for a write at 10000",
    [ORDER_9_WRITES_TO_10000] = "9, only for writes to 10000",
    [ORDER_9_CLEAR_AT_10000] = "9, only for a clear at 10000",
    [ORDER_9_ADDRESS_LARGE] = "9, only for a start above FFFF",
    [ORDER_9_SUM_OVER_32_BITS] = "9, only for an end over 32 bits",
    [ORDER_9_SEVERAL] = "9 for several things",
    [ORDER_9_BEFORE_5] = "9 where 5 holds too"
};

static const char *const reply_names[REPLY_MET_COUNT] = {
    [REPLY_READ] = "values of a read",
    [REPLY_RECORD] = "values of a record",
    [REPLY_WRITE] = "write done",
    [REPLY_WRITES] = "writes done",
    [REPLY_CLEAR] = "clear done",
    [REPLY_CODE_1] = "error 01",
    [REPLY_CODE_2] = "error 02",
    [REPLY_CODE_3] = "error 03",
    [REPLY_OF_1] = "values of 1 word",
    [REPLY_OF_47] = "values of 47 words",
    [REPLY_5_BEFORE_10] = "5 where the reply is refused too",
    [REPLY_10_NOTHING] = "10, no bytes",
    [REPLY_10_SHORT] = "10, 1 to 3 bytes",
    [REPLY_10_OF_3] = "10, 3 bytes with a right check",
    [REPLY_10_LONG] = "10, only for 101 bytes",
    [REPLY_10_CHECK] = "10, only for the check",
    [REPLY_10_OF_SEVERAL] = "10 where 11 to 13 hold too",
    [REPLY_11] = "11, only for the station",
    [REPLY_11_OF_SEVERAL] = "11 where 12 or 13 holds too",
    [REPLY_12] = "12, only for the function",
    [REPLY_12_OF_SEVERAL] = "12 where 13 holds too",
    [REPLY_12_OTHER_ORDER] = "12, another order's function",
    [REPLY_12_OTHER_ERROR] = "12, another order's error",
    [REPLY_13_CODE_0] = "13, error 00",
    [REPLY_13_CODE_4] = "13, error 04",
    [REPLY_13_NO_CODE] = "13, an error without a code",
    [REPLY_13_TWO_CODES] = "13, a code and a byte more",
    [REPLY_13_CODE_UNMARKED] = "13, a code that is not marked",
    [REPLY_13_BODY_MARKED] = "13, a good body marked as error",
    [REPLY_13_BYTE_COUNT] = "13, only for the byte count",
    [REPLY_13_LENGTH] = "13, only for the length",
    [REPLY_13_WORD_LESS] = "13, whole, one word less",
    [REPLY_13_WORD_MORE] = "13, whole, one word more",
    [REPLY_13_ADDRESS] = "13, only for the address",
    [REPLY_13_VALUE] = "13, only for the value of 06",
    [REPLY_13_COUNT] = "13, only for the count of 10",
    [REPLY_13_CLEAR_VALUE] = "13, only for the value of 05",
    [REPLY_13_ECHO_SHORT] = "13, an echo cut short",
    [REPLY_13_ECHO_LONG] = "13, an echo and more",
    [REPLY_13_OF_100] = "13, a reply of 100 bytes"
};

static const char *const order_kinds[ORDER_COUNT] = {
    "read", "record", "write", "writes", "clear"
};

static const char *const end_names[ASKED_END_COUNT] = {
    "done", "error 01", "error 02", "error 03"
};

/* No query has a count or a clear value that gets error 03, so that only a write
 * gets it. One bit for each end. */
static const unsigned ends_of[ORDER_COUNT] = {
    [ORDER_READ] = 7, [ORDER_RECORD] = 7, [ORDER_WRITE] = 15, [ORDER_WRITES] = 15,
    [ORDER_CLEAR] = 7
};

static const char *const asked_names[ASKED_MET_COUNT] = {
    [ASKED_OTHER_STATION] = "silence, for another station",
    [ASKED_READ_OF_RECORDS] = "a read of records, error 03",
    [ASKED_READ_OF_ONE_RECORD] = "a read of one, a record came",
    [ASKED_READ_OF_ONE_WORD] = "the same, and it has one word",
    [ASKED_RECORD_OTHER_WORDS] = "a record of other words",
    [ASKED_RECORD_ELSEWHERE] = "a record order at a register",
    [ASKED_RECORD_ONE_WORD] = "the same, of one word",
    [ASKED_OTHER_TAKEN] = "taken for another order's",
    [ASKED_OTHER_REFUSED] = "not taken for another order's"
};

/* The numbers that each call can hand back, one bit each. */
static const unsigned numbers_of[CALL_COUNT] = {
    [CALL_QUERY] = 1 << 0 | 1 << 5 | 1 << 9,
    [CALL_REPLY] = 1 << 0 | 1 << 5 | 1 << 9 | 1 << 10 | 1 << 11 | 1 << 12 | 1 << 13,
    [CALL_SHEET_CHECK] = 1 << 0 | 1 << 2,
    [CALL_BANK_CHECK] = 1 << 0 | 1 << 2 | 1 << 3 | 1 << 4,
    [CALL_BANK_FRESH] = 1 << 0 | 1 << 2 | 1 << 3,
    [CALL_POST] = 1 << 0 | 1 << 2 | 1 << 3 | 1 << 4 | 1 << 6 | 1 << 7,
    [CALL_SET_MARK] = 1 << 0 | 1 << 2 | 1 << 3 | 1 << 4 | 1 << 7,
    [CALL_ANSWER] = 1 << 0 | 1 << 1 | 1 << 2 | 1 << 3 | 1 << 4 | 1 << 5 | 1 << 8,
    [CALL_WHY] = 1 << 0 | 1 << 2 | 1 << 3 | 1 << 4 | 1 << 8,
    [CALL_RING_CHECK] = 1 << 0 | 1 << 2 | 1 << 8,
    [CALL_ADD_RECORD] = 1 << 0 | 1 << 2 | 1 << 7 | 1 << 8
};

static bool line(const char *group, const char *name, uint64_t count, uint64_t least)
{
    printf("%-13s %-32s %9" PRIu64 "\n", group, name, count);
    if (count >= least)
        return true;
    printf("TOO FEW: %s %s was met %" PRIu64 " times, %" PRIu64 " are asked for\n", group, name,
           count, least);
    return false;
}

/* How often a thing of the meter's half, and of the box's, is to be met. */
struct least {
    uint64_t meter, box;
};

static bool call_lines(const struct counts *counts, const struct least *leasts)
{
    bool enough = true;
    char name[40];
    for (int sort = 0; sort < CALL_COUNT; sort++) {
        bool of_box = sort == CALL_QUERY || sort == CALL_REPLY;
        uint64_t least = of_box ? leasts->box : leasts->meter;
        enough = line("call", call_name((enum call_sort)sort), counts->call[sort], least) && enough;
        for (int number = 0; number < NUMBER_COUNT; number++) {
            snprintf(name, sizeof name, "%s gives %d", call_name((enum call_sort)sort), number);
            if ((numbers_of[sort] >> number & 1) == 1)
                enough = line("number", name, counts->number[sort][number], least) && enough;
        }
    }
    return enough;
}

static bool asked_lines(const struct counts *counts, uint64_t least)
{
    bool enough = true;
    char name[40];
    for (int order = 0; order < ORDER_COUNT; order++)
        for (int end = 0; end < ASKED_END_COUNT; end++) {
            snprintf(name, sizeof name, "%s, %s", order_kinds[order], end_names[end]);
            if ((ends_of[order] >> end & 1) == 1)
                enough = line("asked", name, counts->asked[order][end], least) && enough;
        }
    for (int met = 0; met < ASKED_MET_COUNT; met++)
        enough = line("asked", asked_names[met], counts->asked_met[met], least) && enough;
    return enough;
}

static bool box_lines(const struct counts *counts, uint64_t least)
{
    bool enough = true;
    for (int met = 0; met < ORDER_MET_COUNT; met++)
        enough = line("query", order_names[met], counts->order[0][met], least) && enough;
    for (int met = 0; met < ORDER_MET_COUNT; met++)
        enough = line("reply's order", order_names[met], counts->order[1][met], least) && enough;
    for (int met = 0; met < REPLY_MET_COUNT; met++)
        enough = line("reply", reply_names[met], counts->reply[met], least) && enough;
    for (int damage = DAMAGE_NONE + 1; damage < DAMAGE_COUNT; damage++)
        enough = line("reply hit", damage_names[damage], counts->reply_damage[damage], least)
            && enough;
    return asked_lines(counts, least) && enough;
}

static bool rule_lines(const struct counts *counts, uint64_t least)
{
    bool enough = true;
    for (int rule = RULE_NONE + 1; rule < RULE_COUNT; rule++) {
        bool alone = can_break_alone((enum second_rule)rule);
        uint64_t count = alone ? counts->rule_alone[rule] : counts->rule_first[rule];
        enough = line(alone ? "broken alone" : "broken first",
                      second_rule_name((enum second_rule)rule), count, least) && enough;
    }
    return enough;
}

/* Each reason, and how often it was told where another one held behind it. A
 * clear value and an item have none behind them. */
static bool reason_lines(const struct counts *counts, uint64_t least)
{
    bool enough = true;
    for (int reason = REASON_NONE; reason < REASON_COUNT; reason++)
        enough = line("reason", second_reason_name((enum second_reason)reason),
                      counts->reason[reason], least) && enough;
    for (int reason = REASON_TOO_SHORT; reason <= REASON_ADDRESS; reason++)
        enough = line("of several", second_reason_name((enum second_reason)reason),
                      counts->reason_of_several[reason], least) && enough;
    return enough;
}

static struct least leasts_of(const struct counts *counts, uint64_t calls_for_one)
{
    struct least least = { 0, 0 };
    if (calls_for_one > 0) {
        least.meter = (counts->calls - counts->calls_of_box) / calls_for_one;
        least.box = counts->calls_of_box / calls_for_one;
    }
    return least;
}

bool counts_enough(const struct counts *counts, uint64_t calls_for_one)
{
    struct least leasts = leasts_of(counts, calls_for_one);
    uint64_t least = leasts.meter;
    bool enough = call_lines(counts, &leasts);
    for (int step = STEP_REFUSED + 1; step < STEP_COUNT; step++)
        enough = line("step", second_step_name((enum second_step)step), counts->step[step], least)
            && enough;
    enough = reason_lines(counts, least) && enough;
    for (int special = 0; special < SPECIAL_COUNT; special++)
        enough = line("met", special_names[special], counts->special[special], least) && enough;
    for (int preset = 0; preset < PRESET_MET_COUNT; preset++)
        enough = line("preset", preset_names[preset], counts->preset[preset], least) && enough;
    for (int damage = DAMAGE_NONE + 1; damage < DAMAGE_COUNT; damage++)
        enough = line("damage", damage_names[damage], counts->damage[damage], least) && enough;
    enough = rule_lines(counts, least) && enough;
    return box_lines(counts, leasts.box) && enough;
}
