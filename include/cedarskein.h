/* Cedarskein: the registers of a Modbus gas flowmeter, for its C firmware and for that of a box that asks it.
 *
 * A sheet says which registers a meter has. A bank holds their words, and a ring the records of the meter's history, where
 * the sheet has any. The functions check all three, make a bank fresh, post readings, set the alarm mark, add records,
 * answer frames and tell why a frame gets silence or an error. For the box at the other end of the line one builds the
 * query of an order, and one reads the meter's reply to it. All of them call nothing, keep nothing between calls and use no
 * heap: what a call works on is lent to it, as a pointer and a number of bytes.
 *
 * docs/RULES.md has the rules that the functions are proved against, by number.
 *
 * Sizes
 *
 *   At most 14 KiB of code and constants, nothing writable among it, and at most 1 KiB of stack in a call. A meter has at
 *   most 12 KiB of that, and a box that only asks at most 2 KiB, where the linker drops unused sections
 *   (-Wl,--gc-sections): every function has a section of its own. docs/BENCH.md has what was measured.
 *
 *   A sheet has at most 862 bytes, a bank 514, and out at least 100. A ring has as many bytes as its sheet asks for,
 *   620,404 at most, and none where the sheet has no record area (see "The ring"). What a call costs does not grow with the
 *   ring.
 *
 * The bank
 *
 *   2B + 2 bytes: the words of places 0 to B - 1, and the alarm mark behind them. B is word 5 of the sheet. Every word, of
 *   a sheet, of a bank, of a ring, of posted bytes, of a record and of the values of an order or a reply, is two bytes, the
 *   upper one first. The word of place p is bytes 2p and 2p + 1 of the bank; an area's addresses have the places from the
 *   area's first place upward. The mark is the last two bytes.
 *
 * The ring
 *
 *   A sheet whose word 11 is 0 has no record area: it has no ring, and the ring is lent as NULL, 0. One whose word 11 is 1
 *   has N records of w words, at N addresses. Three words behind its item rows say so, from word 12 + 4A + 6I on, with A
 *   word 1 and I word 3 of the sheet: the first address, N (1 to 6600) and w (1 to 47). They are there where sheet[23] is
 *   1, and in a sound sheet A, I and w fit a byte:
 *
 *     row    = 2 * (12 + 4 * sheet[3] + 6 * sheet[7]);
 *     first  = 256u * sheet[row] + sheet[row + 1];
 *     N      = 256 * sheet[row + 2] + sheet[row + 3];
 *     w      = sheet[row + 5];
 *     ring_n = 2 * (2 + (size_t)N * w);
 *
 *   The first word of a ring is the place of the newest record, 0 to N - 1, the second the number of records stored, 0 to
 *   N. Behind them are the places 0 to N - 1, of w words each. An empty ring has 0 in both words; the bytes behind them are
 *   free. So ring_n bytes whose first four are 0 are an empty ring, and no call is needed for it.
 *
 *   Records are added one by one, each whole: an empty ring takes it at place 0, any other right behind its newest, and past
 *   place N - 1 comes place 0. Once N are stored, the next one overwrites the oldest. Record 1 is always the newest. A
 *   master reads record k by 03 at address first + k - 1 with count 1, and k is at most the number stored. It lies here:
 *
 *     newest = 256 * ring[0] + ring[1];
 *     place  = (newest + N - (k - 1)) % N;
 *     record = ring + 2 * (2 + (size_t)place * w);
 *
 *   Call cedarskein_ring_check at start-up, and whenever the two words were written by anything but cedarskein_add_record.
 *
 * Registers that are only written
 *
 *   An area's access is 1 (read only), 2 (write only) or 3 (read and write); 2 needs a sheet of version 2. The registers of
 *   an access 2 area are items, judged and stored like those of access 3, and a master writes both by 06 and 10. A read that
 *   touches one gets error 02: what a master wrote there is never sent out. The AS-WE 40 has the presets of its totals
 *   there, 0118 to 011E.
 *
 *   The firmware finds what was written in the bank, at the register's place. The bank shows the value and not the frame: a
 *   total that is preset to the value that the bank has already, 0 too, changes no word. So take a preset over by the frame:
 *   after a call that answered 0 to a 06 or 10 for such a register. A write whose reply is no error stored all its words,
 *   one with error 3 those ahead of the first bad item, and one with error 1 or 2 none. A total that is in several
 *   registers, as that of 0118 to 011A, or a pair of which a master sends one half, is half new and half old until all its
 *   words are there: take it over after one 10 without error for all of them, or when the last of them has come.
 *
 *   These registers are among the bytes that must last, and a restart finds in the bank what was written last, whether it
 *   was taken over or not. Where that matters, keep beside the copies whether it was: mark it as waiting before the reply is
 *   sent, and as taken over in one store with the total itself, or a cut between the two takes it over twice.
 *
 * The next station and the next rate
 *
 *   cedarskein_answer hands back the rate to send the reply at, the one before the frame. The frame may have changed the
 *   rate or the station, so once the reply is out the line goes on at the rate that the bank now holds, 1 for 9600 and
 *   0 for 4800. Word 9 of the sheet is its place, and word 8 the place of the station. In a sound bank both fit a byte:
 *
 *     rate    = bank[2 * (256 * sheet[18] + sheet[19]) + 1];
 *     station = bank[2 * (256 * sheet[16] + sheet[17]) + 1];
 *
 * Stations, and a board from before version 1.3
 *
 *   A meter's station is 1 to 247. By 0 a master means all meters at once, which is left to others, and 248 to 255 are
 *   reserved: cedarskein_answer meets a frame for one of these with silence, or with a refusal, whatever else the frame
 *   holds, and stores nothing.
 *
 *   Up to version 1.2 a sheet could have stations 0 to 255, and the AS-WE sheets had. A board that is updated with such a
 *   sheet in its memory, or with a bank of it, sees:
 *
 *   - with the old sheet, 2 from every call that takes a sheet. Put the new one in its place (cedarskein_sheets.h, or a
 *     file of sheets/);
 *   - with the new sheet and a bank whose station is 1 to 247, no change: the bank is good as it is, since its size, the
 *     places and the other ranges are what they were (but for the AS-WE 40, whose bank has another size since 3.2);
 *   - with the new sheet and a bank whose station is 0 or 248 to 255, 4 from every call on the bank but
 *     cedarskein_bank_fresh, which would lose every setting.
 *
 *   A bank of the AS-WE 40 is first carried over (see "A board from before version 3.2"), whatever its station is.
 *
 *   To keep the other settings of such a bank, give it a station that no other meter of the line has, and check it:
 *
 *     place = 256 * sheet[16] + sheet[17];
 *     bank[2 * place] = 0;
 *     bank[2 * place + 1] = station;
 *     number = cedarskein_bank_check(sheet, sheet_n, bank, bank_n);
 *
 *   With 0 every other byte of the bank is as it was: write both copies (see "A power cut"), and tell the master the new
 *   station. With 4 the station is none of 1 to 247, or something else in the bank is out of its range. host/stations.c
 *   does this to boards of each old sheet, at each station.
 *
 * A board from version 1
 *
 *   From 2.0 on cedarskein_answer and cedarskein_why take a ring behind the bank, and a program that is compiled with this
 *   header shows each place to change: pass NULL, 0 there; cedarskein_why has one pointer more since 3.0 ("A board from
 *   version 2"). Compile anew everything that calls these two. Their names are the same, and C checks no arguments at link
 *   time: an object that was compiled with version 1's header links without a word, and its calls go wrong.
 *
 *   Sheets of version 1.3 have word 11 at 0 and are taken as before, banks are as they were, and so is every reply. Two
 *   calls are new, cedarskein_ring_check and cedarskein_add_record, and one number, 8; a board whose sheet has no record
 *   area gets it only for a ring that is not 0 bytes.
 *
 * A board from version 2
 *
 *   From 3.0 on cedarskein_why takes one pointer more, behind the address, for the side at which the value that an item
 *   would have misses its range. A program that is compiled with this header shows each place to change; compile anew
 *   everything that calls it. An object that was compiled with version 2's header links without a word, and the side is then
 *   written to wherever the last argument would lie. Every other call, the reasons and their addresses, sheets, banks, rings
 *   and replies are as they were.
 *
 *   With 3.1 two calls are new, for the box that asks, and the numbers 9 to 13, which no other call gives.
 *
 * A board from before version 3.2, and the AS-WE 40
 *
 *   With 3.2 a sheet's version may be 2, and then its areas may have access 2 (see "Registers that are only written").
 *   Calls, numbers and sheets of version 1 are as they were. A library before 3.2 refuses a sheet of version 2 by 2.
 *
 *   The AS-WE 40's sheet is of version 2 now and has seven registers more, 0118 to 011E; those of bores 50 and 80 did not
 *   change. Its bank has 92 bytes in place of 78, and with the new sheet a bank of the old one is 3 from every call on a
 *   bank. A board that keeps its old sheet, of 328 bytes, goes on as before; cedarskein_sheets.h and sheets/ have the new
 *   one, so that a board which takes it from there changes with the update. One that takes the new sheet carries its bank
 *   over, once, and only a bank of the AS-WE 40: those of bores 50 and 80 have 78 bytes too, and nothing in them tells which
 *   bore it is.
 *
 *     places of the old bank   of the new bank
 *     0 to 19                  0 to 19           the settings 00FF to 0116
 *                              20 to 26          the presets 0118 to 011E, which are new
 *     20 and 21                27 and 28         the settings 0123 and 0124
 *     22 to 37                 29 to 44          the readings 01FF to 020E
 *     38                       45                the mark
 *
 *     number = cedarskein_bank_fresh(sheet, sheet_n, bank, 92);
 *     memcpy(bank, old, 40);
 *     memcpy(bank + 54, old + 40, 38);
 *     number = cedarskein_bank_check(sheet, sheet_n, bank, 92);
 *
 *   With 0 from both, every setting, reading and the mark are what they were, and the presets are at their low bounds. With
 *   4 from the second, the old bank is not sound under the new sheet: where its station is 0 or 248 to 255, see "Stations",
 *   and else carry its last good copy over. Write both copies of the new bank where the old ones do not lie (see "A power
 *   cut"), and only then give the old ones up: where a cut comes in between, and no new copy is good at start-up, carry over
 *   again. demo/carried.c has this as C; host/carried_over.c does it to boards with each setting at both ends of its range.
 *
 * The box that asks
 *
 *   cedarskein_query and cedarskein_reply are the other half of the line: a box that asks meters. They know no sheet and
 *   no bank. Both take the same order, five things that say what is asked of which station:
 *
 *     order      station    address            number               values
 *     0 read     1 to 247   the first one      how many, 1 to 47    no matter
 *     1 record   1 to 247   the record's       its words, 1 to 47   no matter
 *     2 write    1 to 247   the register's     the value            no matter
 *     3 writes   1 to 247   the first one      no matter            1 to 45 words, upper byte first
 *     4 clear    1 to 247   the one to clear   no matter            no matter
 *
 *   Addresses, the last of a run too, and values are at most FFFF. A meter's records are at one address each, the newest at
 *   the first, and have the w words of its sheet (see "The ring"): a record is asked for by order 1, never by order 0. The
 *   address to clear is word 10 of the meter's sheet, 0300 for the UX15/25.
 *
 *   The query is built, sent, and what comes back is read against the same order:
 *
 *     done = cedarskein_query(CEDARSKEIN_READ, 1, 0x0204, 6, NULL, 0, out, out_n, &length);
 *     .. send the first length bytes of out, and take in what comes until the line is quiet ..
 *     done = cedarskein_reply(CEDARSKEIN_READ, 1, 0x0204, 6, NULL, 0, reply, reply_n, out, out_n, &length, &error);
 *
 *   What a box should know of the line:
 *
 *   - A reply says less than its query. It names no address of a read or a record and no value of 10, and an error names
 *     its station and function alone. So a reply that comes late can pass for one to the next order, where the two differ
 *     in nothing else. Wait for a reply as long as the meter may take; after no answer wait so long once more, and take in
 *     what comes, before the next query.
 *   - An adapter that hands a box its own bytes back makes a 05 or a 06 look done, though no meter answered: the reply is
 *     the query itself. Switch that echo off, or take it off what comes.
 *   - After no answer, or one that is refused, a write may have been carried out all the same. To ask again is safe: the
 *     same write, done twice, leaves what it left once. Not so a preset (see "Registers that are only written"): a meter
 *     that takes it over at once takes it over twice, and loses what it counted in between; and no read shows whether the
 *     first was carried out. With error 3 a write may have stored what stands ahead of the first bad item.
 *   - A write of the station or the rate is answered from the old station at the old rate. From then on the meter has the
 *     new ones, and at the old ones it is silent, to the same write too.
 *
 * What the caller owes
 *
 *   The proofs hold for any bytes in the buffers, and for calls that keep to this:
 *
 *   - each pointer is valid for the number of bytes given with it; it may be null only where that number is 0;
 *   - the pointers length, rate, reason, address, side and error are valid and aligned; byte buffers may start at any
 *     address;
 *   - what a call writes (bank, out, *length, *rate, *reason, *address, *side, *error, and the ring, which only
 *     cedarskein_add_record writes) overlaps nothing else that the call is lent: a frame is not answered in its own buffer,
 *     a reply is not read into its own, and a record that is added does not lie in the ring;
 *   - while a call runs nobody else writes what it is lent, or reads what it writes: one bank is not used by two tasks,
 *     or a task and an interrupt, at once, and no record is added while a frame is answered from the ring. Calls on
 *     different banks may run at once, on one sheet and on one ring too.
 *
 * A power cut
 *
 *   A call stores a bank's words one after another. A cut between the two words of a pair can leave a pair that is out of
 *   its range: the bank is then not sound, and every call on it but cedarskein_bank_fresh answers 4 from then on, which
 *   the line sees as silence. A cut between two items leaves half of a write. So it is not enough that the bank lies in
 *   memory which outlasts a cut. Keep a last good copy:
 *
 *   - the bank at work lies in plain memory; two copies lie in memory that outlasts a cut, each followed by its check
 *     value (cedarskein_check_value over the copy's bytes), low byte first as on the line;
 *   - after each call that answered 0, where a byte that must last differs from the first copy, or the copies differ from
 *     each other, write the first copy and its check value, and when that is done the second; then send the reply, which
 *     so tells of what is kept. An error reply counts: it answers 0 too, and may have stored part;
 *   - at start-up put the first copy into the bank where its check value agrees and cedarskein_bank_check answers 0,
 *     else the second on the same terms, and write the other copy anew where it differs. A cut spoils one copy at most:
 *     where it hit the first, the second is the bank before that write, and where it hit the second, the first is the
 *     bank after it;
 *   - where neither copy is good, cedarskein_bank_fresh is the last resort: every setting is then at its low bound, at
 *     station 1 and 9600, and the meter has to be set up again. Report it. After an update of an AS-WE 40 from before 3.2
 *     look for copies of the old size first, and carry them over.
 *
 *   The bytes that must last are the places of the items, with station and rate among them, and the mark: of each area
 *   whose access is not 1 (read only), the 2 * (last - first + 1) bytes from byte 2 * place of the bank on, and the last two
 *   bytes. The row of area k is words 12 + 4k to 15 + 4k of the sheet: first address, last address, first place, access.
 *
 *   Readings do not count, or one that is posted each second would write both copies 3,600 times an hour, and a memory
 *   that takes 100,000 writes would be worn out in 28 hours. They are in the copies all the same. So that totals outlast
 *   a cut, write both copies once an hour too: 8,760 writes a year, and a cut loses the volume of one hour at most. Where
 *   that is too much, keep the totals in a memory that does not wear.
 *
 *   demo/last_good.c has this as C; host/power_cut.c tries it with a cut at every byte, and counts the writes of an hour.
 *
 *   A ring is large, and an addition changes little of it, so it is kept otherwise. Its records lie once in memory that
 *   outlasts a cut, its two words twice, each copy followed by its check value as a bank's is:
 *
 *   - write both copies once for a new ring: zeros are an empty ring, but not a kept one, since the check value of four zero
 *     bytes is not 0000, and start-up would find the history lost;
 *   - add a record to the ring at work; where that answers 0, write the record's bytes to their place in the lasting
 *     memory (a ring that lies there itself has them already), when that is done the first copy of the two words, and when
 *     that is done the second; only then answer a frame, or a master can read a record that a cut takes back;
 *   - where a store fails, add nothing more, but write the record again and then the copies, beginning with the one that
 *     start-up would not take: so a good one is left at any time;
 *   - at start-up load the records, and put the first copy into the two words where its check value agrees and
 *     cedarskein_ring_check answers 0, else the second on the same terms; write the other copy anew where it differs;
 *   - where neither copy is good, the two words are 0, and the history is lost. Report it. What could not be loaded is not
 *     lost yet: write nothing, and load it again.
 *
 *   After a cut the new record is there whole and counted, or it is not counted; the others are as they were. One thing
 *   this does not save: in a full ring the new record is written over the oldest, which the two words count until the first
 *   copy is whole. A cut before that leaves as record N the front of the new record and the rest of the old one, or the
 *   whole new record. With N = 1 that is record 1: the newest record, and the only one, is then torn. Nothing here shows it;
 *   the next addition takes that place again. Where it matters, give each record a check value over its other words, and a
 *   time or a serial number.
 *
 *   Each copy of the two words is written once for each record: with one every 5 minutes, the makers' shortest interval, a
 *   memory that takes 100,000 writes lasts 347 days. Keep the 12 bytes of both in a memory that does not wear, or give each
 *   copy several places in turn, with a number beside the two words that grows.
 *
 *   For banks and rings alike, the memory is one whose bytes can be written without erasing others. In flash a cut while a
 *   sector is erased loses all that the sector holds: each copy needs one of its own there, and records go with theirs.
 *
 *   demo/ring_kept.c has this as C; host/ring_power_cut.c tries it with a cut at every byte.
 */
#ifndef CEDARSKEIN_H
#define CEDARSKEIN_H

#include <stddef.h>
#include <stdint.h>

#ifdef __cplusplus
extern "C" {
#endif

#define CEDARSKEIN_VERSION_MAJOR 3
#define CEDARSKEIN_VERSION_MINOR 2
#define CEDARSKEIN_VERSION_PATCH 0
#define CEDARSKEIN_VERSION "3.2.0"

#define CEDARSKEIN_LONGEST_FRAME 100 /* bytes, its check included; a longer frame gets silence, a longer reply 10 */
#define CEDARSKEIN_LEAST_OUT 100     /* bytes that out must have at least, for the longest reply or query */
#define CEDARSKEIN_LONGEST_SHEET 862 /* bytes of a sheet with 8 areas, 64 items and a record area */
#define CEDARSKEIN_LONGEST_BANK 514  /* bytes of a bank with 256 words and the mark */

/* The numbers that a call hands back, and what the firmware does then. With any number but 0 the bank, the ring and out are
 * as they were. Where several would hold, the first of 2, 3, 4, 8, 9, 5, 7, 6, 10, 11, 12, 13 is told, of those that the
 * call can give. */
enum cedarskein_number {
    /* Done. Keep the bank, or the record that was added (see "A power cut"). Of cedarskein_answer: then send the first
     * *length bytes of out at *rate, and go on at the bank's rate. An error reply is a reply. Of cedarskein_query: send the
     * first *length bytes of out. Of cedarskein_reply: look at *error first. */
    CEDARSKEIN_DONE = 0,
    /* Silence: send nothing, and wait for the next frame. */
    CEDARSKEIN_SILENCE = 1,
    /* The sheet is not sound: it is damaged, not a sheet, one of another version than 1 and 2, one of version 1 with access
     * 2, or one with stations outside 1 to 247 from before 1.3 (see "Stations"). Stay off the line; nothing but a good sheet
     * helps. Of cedarskein_add_record also: the sheet has no record area, and so no ring. */
    CEDARSKEIN_SHEET_BREAKS_RULE = 2,
    /* The bank has not 2B + 2 bytes: it belongs to another sheet, or bank_n is wrong. Mend the program; after a change of
     * sheet, make a new bank fresh, or carry the old one over (see "A board from before version 3.2"). */
    CEDARSKEIN_BANK_MISFITS = 3,
    /* The bank is not sound: an item is out of its range, or the mark is neither 0 nor 1. No call here brings that about,
     * but a power cut or a stray write can, or an update from before 1.3 (see "Stations"). It does not pass: every frame is
     * refused from now on. Put the last good copy back, or make the bank fresh (see "A power cut"). Setting the mark does
     * not mend a bad mark. */
    CEDARSKEIN_BANK_NOT_SOUND = 4,
    /* out has under 100 bytes, also where the frame would get silence, or the reply brings no values. Lend a larger one. */
    CEDARSKEIN_SMALL_OUT = 5,
    /* Not all posted addresses lie in access 1 (read only) areas; none of the words is stored. Mend the address or the
     * number of words. */
    CEDARSKEIN_NOT_READ_ONLY = 6,
    /* The posted bytes are none or odd, the mark is neither 0 nor 1, or the added record has not 2w bytes. Mend the call. */
    CEDARSKEIN_BAD_INPUT = 7,
    /* The ring has not the bytes that its sheet asks for, 0 where the sheet has no record area; or the place of the newest
     * record is not below N, the number stored is above N, or an empty ring is not at place 0. Where ring_n is wrong, mend
     * the program. Else a power cut or a stray write has spoiled the two words, and every frame is refused from now on,
     * those for registers too. Put a good copy of the two words back, or make the ring empty (see "A power cut"). */
    CEDARSKEIN_BAD_RING = 8,
    /* The order has no frame in 100 bytes: none of the five, a station outside 1 to 247, a read or a record outside 1 to 47
     * words, writes of an odd number of bytes or outside 1 to 45 words, a value above FFFF, or an address above FFFF, be it
     * the last of a run. Mend the order. */
    CEDARSKEIN_NO_FRAME = 9,
    /* What came has under 4 or over 100 bytes, or its last two are not the check of those in front. Ask again (see "The box
     * that asks"). */
    CEDARSKEIN_REPLY_DAMAGED = 10,
    /* It comes from another station than the order's. It may be a late reply to an earlier query: take in what still comes,
     * and ask again. */
    CEDARSKEIN_REPLY_STATION = 11,
    /* Its function is neither that of the order's query nor that with the top bit set, which marks an error. As with 11. */
    CEDARSKEIN_REPLY_FUNCTION = 12,
    /* Its body does not fit the order: another number of bytes or words, another address, value or count than the query's,
     * or an error that is not one code of 1 to 3. As with 11. Where it comes again and again the order is wrong for this
     * meter, as with a record that has other words than the order says. */
    CEDARSKEIN_REPLY_BODY = 13
};

/* Why a frame gets silence or an error: the first that holds, in this order. */
enum cedarskein_reason {
    CEDARSKEIN_NO_REASON = 0,     /* a reply without error goes out */
    CEDARSKEIN_TOO_SHORT = 1,     /* under 4 bytes: silence */
    CEDARSKEIN_TOO_LONG = 2,      /* over 100 bytes: silence */
    CEDARSKEIN_CHECK = 3,         /* the last two bytes are not the check of those in front: silence */
    CEDARSKEIN_STATION = 4,       /* the frame is for another station, or for 0 or 248 to 255: silence */
    CEDARSKEIN_FUNCTION = 5,      /* the sheet does not allow the function: error 01 */
    CEDARSKEIN_BODY_LENGTH = 6,   /* the frame has not the length of its function: silence */
    CEDARSKEIN_COUNT = 7,         /* no register, 10 with a byte count that is not twice its count, or a read that starts
                                   * at a record and has another count than 1: error 03; else a read of more than 47:
                                   * error 02 */
    CEDARSKEIN_ADDRESS = 8,       /* an address is not open to the function, or no record is stored there: error 02 */
    CEDARSKEIN_CLEAR_VALUE = 9,   /* a clear with another value than 0: error 03 */
    CEDARSKEIN_ITEM = 10          /* an item would be out of its range: error 03 */
};

/* Which end of its range an item's value would miss. */
enum cedarskein_side {
    CEDARSKEIN_NO_SIDE = 0,  /* with every reason but CEDARSKEIN_ITEM, and with a refusal */
    CEDARSKEIN_TOO_LOW = 1,  /* the value would be below the item's low bound */
    CEDARSKEIN_TOO_HIGH = 2  /* the value would be above the item's high bound */
};

/* What a box asks of a meter (see "The box that asks"). */
enum cedarskein_order {
    CEDARSKEIN_READ = 0,   /* registers, by 03: number is how many */
    CEDARSKEIN_RECORD = 1, /* one record of a history, by 03 with count 1: number is how many words it has */
    CEDARSKEIN_WRITE = 2,  /* one register, by 06: number is the value */
    CEDARSKEIN_WRITES = 3, /* registers, by 10, also one: values */
    CEDARSKEIN_CLEAR = 4   /* the alarm mark, by 05 with value 0; address is the meter's clear address */
};

/* The check value as a running state: the state before any byte. Touches no memory. */
uint16_t cedarskein_check_start(void);

/* Takes a state and one byte more, and gives back the state after it. After the last byte the state is the check value;
 * on the line it goes out lower byte first. Touches no memory. */
uint16_t cedarskein_check_take(uint16_t state, uint8_t byte);

/* Takes any bytes and gives back their check value. Writes nothing. */
uint16_t cedarskein_check_value(const uint8_t *bytes, size_t bytes_n);

/* Takes what may be a sheet, of any length. Gives back 0 where it keeps every rule, else 2. Writes nothing. */
uint32_t cedarskein_sheet_check(const uint8_t *sheet, size_t sheet_n);

/* Takes a sheet and what may be a bank of it, as at start-up. Gives back 0 where the bank is sound, else the first of 2, 3
 * and 4. Writes nothing. */
uint32_t cedarskein_bank_check(const uint8_t *sheet, size_t sheet_n, const uint8_t *bank, size_t bank_n);

/* Makes a bank fresh, whatever it held: the low bound of every item, but station 1 and 9600 (rate 1); words that can only be
 * read, and the mark, 0. Gives back 0, else the first of 2 and 3; the bank is then as it was. This is not the maker's
 * factory setting. */
uint32_t cedarskein_bank_fresh(const uint8_t *sheet, size_t sheet_n, uint8_t *bank, size_t bank_n);

/* Posts readings: takes words, upper byte first, and stores them from an address upward. Gives back 0, else the first of
 * 2, 3, 4, 7 and 6; the bank is then as it was. With 0 only the posted words of the bank change. An address above FFFF, a
 * run past it, a register that can be written or a record's address is 6. */
uint32_t cedarskein_post(const uint8_t *sheet, size_t sheet_n, uint8_t *bank, size_t bank_n, uint32_t address,
                         const uint8_t *words, size_t words_n);

/* Sets the alarm mark to 0 or 1. Gives back 0, else the first of 2, 3, 4 and 7; the bank is then as it was. With 0 only the
 * mark changes. The line clears the mark by function 05, where the sheet allows it. */
uint32_t cedarskein_set_mark(const uint8_t *sheet, size_t sheet_n, uint8_t *bank, size_t bank_n, uint32_t mark);

/* Answers one frame, its check included, as it came from the line. Gives back
 *   0: the reply is the first *length bytes of out (5 to 99), its check included, to be sent at *rate. The bytes of out
 *      behind it are as they were. The bank has what the frame stored; with an error reply, what stands ahead of the
 *      first bad item;
 *   1: silence; *length and *rate are 0, and the bank and out are as they were;
 *   the first of 2, 3, 4, 8 and 5: the same.
 * *length and *rate are written by every call. *rate is a rate only where the number is 0: 1 for 9600, 0 for 4800.
 * The sheet, the ring and the frame are only read. A record is read alone, by a 03 with count 1, and the reply has its 2w
 * bytes. A run into the record area from outside, a write and a clear there get error 02. */
uint32_t cedarskein_answer(const uint8_t *sheet, size_t sheet_n, uint8_t *bank, size_t bank_n, const uint8_t *ring,
                           size_t ring_n, const uint8_t *frame, size_t frame_n, uint8_t *out, size_t out_n,
                           uint32_t *length, uint32_t *rate);

/* Tells why cedarskein_answer gives silence or an error to a frame, with the bank and the ring as they are before the frame.
 * Gives back 0, else the first of 2, 3, 4 and 8. With 0, *reason is a number of enum cedarskein_reason, *side one of enum
 * cedarskein_side, and *address is
 *   for CEDARSKEIN_ADDRESS: the lowest address of the frame's run that is in none of the areas (a record's is in none), not
 *      open to its function, or above FFFF (it can be 10000 hexadecimal); for a clear elsewhere than at the clear address,
 *      and for a record that is not stored, the frame's own;
 *   for CEDARSKEIN_ITEM: the first address of the first bad item, also where the frame writes only its lower half;
 *   for every other reason: 0.
 * *side is 1 or 2 for CEDARSKEIN_ITEM, by the value that this item would have: its word, with a sign for kind 1; of a pair
 * both words, also where the frame sends one of them and the other is the bank's. For every other reason it is 0.
 * *reason, *address and *side are written by every call, zeros with a refusal. The sheet, the bank, the ring and the frame
 * are only read. Ask before the frame is answered: an answer may have changed the station, and with it the reason. */
uint32_t cedarskein_why(const uint8_t *sheet, size_t sheet_n, const uint8_t *bank, size_t bank_n, const uint8_t *ring,
                        size_t ring_n, const uint8_t *frame, size_t frame_n, uint32_t *reason, uint32_t *address,
                        uint32_t *side);

/* Takes a sheet and what may be a ring of it, as at start-up. Gives back 0 where the ring is sound, else the first of 2 and
 * 8. What the records hold is not looked at. Writes nothing. */
uint32_t cedarskein_ring_check(const uint8_t *sheet, size_t sheet_n, const uint8_t *ring, size_t ring_n);

/* Adds one whole record to a ring, as the newest: takes its w words, upper byte first, in 2w bytes. Gives back 0, else the
 * first of 2 (also where the sheet has no record area), 8 and 7 (record_n is not 2w); the ring is then as it was. With 0 the
 * record's place and the two words change, and nothing else of the ring. */
uint32_t cedarskein_add_record(const uint8_t *sheet, size_t sheet_n, uint8_t *ring, size_t ring_n, const uint8_t *record,
                               size_t record_n);

/* Builds the query of an order (see "The box that asks"). Gives back
 *   0: the query is the first *length bytes of out (8 to 99), its check included. The bytes of out behind it are as they
 *      were;
 *   the first of 9 and 5: *length is 0, and out is as it was.
 * *length is written by every call. The values are only read, and only by order 3; where the order has no use for number or
 * for values they are not looked at. */
uint32_t cedarskein_query(uint32_t order, uint32_t station, uint32_t address, uint32_t number, const uint8_t *values,
                          size_t values_n, uint8_t *out, size_t out_n, uint32_t *length);

/* Reads what came back to the query of an order, its check included, as it came from the line. Gives back
 *   0: with *error 0 the order is done. *length is then the number of bytes of values that stand in the first bytes of out,
 *      upper byte first: twice the order's number for orders 0 and 1, and 0 for the others. With *error 1, 2 or 3 the
 *      meter sent an error of that code, and *length is 0: 1 it does not take the function, 2 not the addresses, 3 not a
 *      count or a value (what stands ahead of the first bad item is stored). The bytes of out behind the values are as they
 *      were;
 *   the first of 9, 5, 10, 11, 12 and 13: *length and *error are 0, and out is as it was.
 * *length and *error are written by every call. The values and the reply are only read; of order 3's values only their
 * number is looked at. */
uint32_t cedarskein_reply(uint32_t order, uint32_t station, uint32_t address, uint32_t number, const uint8_t *values,
                          size_t values_n, const uint8_t *reply, size_t reply_n, uint8_t *out, size_t out_n,
                          uint32_t *length, uint32_t *error);

#ifdef __cplusplus
}
#endif

#endif
