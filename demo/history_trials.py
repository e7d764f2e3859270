"""A history: what `make why` says of it, the files that keep the meter's, and sheets and rings that are bad. trials.py runs these."""
import os
import signal
import time

from why_trials import ROOT, bytes_of, sealed, sheet_of

EXAMPLE = os.path.join(ROOT, "sheets", "history_example.sheet")
RECORDS, WORDS = 6600, 22
RING_SIZE = 2 * (2 + RECORDS * WORDS)
SMALL = (0x0400, 3, 2)    # three records of two words
IN_ONE_AREA = (0x0010, 0x0012, 0, 3)
LEFT = "It was left as it is"


def ring_of(newest, stored, size=RING_SIZE):
    """A ring of the example, but for its size: each record's words are its place."""
    records = b"".join(WORDS * place.to_bytes(2, "big") for place in range(RECORDS))
    return (bytes_of((newest, stored)) + records)[:size]


def longest_sheet():
    """8 areas, 64 items and a record area: 862 bytes."""
    areas = [word for k in range(8) for word in (0x0100 * k, 0x0100 * k + 7, 8 * k, 3)]
    items = [word for place in range(64) for word in (0, place, 0, 1 if place == 0 else 0, 0, 0xF7 if place == 0 else 1)]
    header = (1, 8, 12, 64, 44, 64, 15, 12 + len(areas) + len(items) + 3, 0, 1, 0x0F00, 1)
    return bytes_of((*header, *areas, *items, 0x1000, 6600, 47))


def asked(text, newest=2, stored=3):
    """A frame at the example, whose ring has some records."""
    return lambda why: why.run("history_example", "-r", why.file("ring", ring_of(newest, stored)), "-f", sealed(text))


def asked_empty(text):
    return lambda why: why.run("history_example", "-f", sealed(text))


def asked_small(text, functions, records):
    """A frame at a small sheet, whose ring is empty."""
    return lambda why: why.run(why.file("sheet", sheet_of(functions, IN_ONE_AREA, records=records)), "-f", sealed(text))


def asked_with_ring(data, sheet="history_example"):
    return lambda why: why.run(sheet, "-r", why.file("ring", data), "-f", sealed("02 03 04 00 00 01"))


def asked_with_words(sheet, word_11):
    """A sheet whose word 7 has its length, and word 11 what is given."""
    return lambda why: why.sheet(sheet[:14] + bytes_of((len(sheet) // 2,)) + sheet[16:22] + bytes_of((word_11,)) + sheet[24:])


def asked_with_sheet(functions, records, word_11=1):
    """A sheet that has a bad record area."""
    return asked_with_words(sheet_of(functions, IN_ONE_AREA, records=records), word_11)


def of_version_2(records):
    return b"\0\2" + sheet_of(15, IN_ONE_AREA, records=records)[2:]


def bad_area(first, records, words):
    return (f"status 2: sheet: no sheet: its history is {records} records of {words} words from {first:04X} on; it must be 1 to 6600 records of "
            "1 to 47 words, at addresses up to FFFF that nothing else has")


def bad_word_11(word):
    return (f"status 2: sheet: no sheet: its word 11 is {word}; by request W3 of document 02 it is the number of record areas at the sheet's end, "
            "0 or 1")


BREAKS_01 = "status 2: sheet: no sheet: it breaks a rule of document 01"
ONE_AT_A_TIME = "Error 03: a history record is read one at a time, with a count of 1; the frame has a count of"
FOR_TWO = "Silence: the frame is for station 2; this meter is station 1"
NO_HISTORY = "this meter's sheet has no history, so there is none to keep: leave RING out"
READS = [
    ("the newest record", asked("01 03 04 00 00 01"), "A reply goes out: the frame reads record 1 of the 3 stored"),
    ("the oldest record", asked("01 03 04 02 00 01"), "A reply goes out: the frame reads record 3 of the 3 stored"),
    ("the oldest record of a full ring", asked("01 03 1D C7 00 01", 17, 6600), "A reply goes out: the frame reads record 6600 of the 6600 stored"),
    ("one beyond what is stored", asked("01 03 04 03 00 01"), "Error 02: record 4 is asked for, at 0403; 3 are stored"),
    ("the last of a ring that is not full", asked("01 03 1D C7 00 01", 6598, 6599), "Error 02: record 6600 is asked for, at 1DC7; 6599 are stored"),
    ("one beyond one", asked("01 03 04 01 00 01", 0, 1), "Error 02: record 2 is asked for, at 0401; 1 is stored"),
    ("an empty ring", asked("01 03 04 00 00 01", 0, 0), "Error 02: record 1 is asked for, at 0400; none is stored yet"),
    ("no ring is given", asked_empty("01 03 04 00 00 01"), "Error 02: record 1 is asked for, at 0400; none is stored yet"),
    ("two records", asked("01 03 04 00 00 02"), f"{ONE_AT_A_TIME} 2"),
    ("no record", asked("01 03 04 00 00 00"), f"{ONE_AT_A_TIME} 0"),
    ("more records than registers fit a reply", asked("01 03 04 00 00 30"), f"{ONE_AT_A_TIME} 48"),
    ("two records beyond what is stored", asked("01 03 05 00 00 02"), f"{ONE_AT_A_TIME} 2"),
    ("two records from the last one on", asked("01 03 1D C7 00 02"), f"{ONE_AT_A_TIME} 2"),
    ("a run from outside", asked("01 03 03 FE 00 03"),
     "Error 02: the run comes from outside and reaches the history at 0400, whose records are read one at a time; the frame is for 3 registers from "
     "03FE on"),
    ("a run from outside that is too long", asked("01 03 03 FF 00 30"), "Error 02: the frame reads 48 registers; a read is of 1 to 47"),
    ("a run from outside that has a gap in front", asked("01 03 03 FA 00 20"),
     "Error 02: this meter has no register at 03FA; the frame is for 32 registers from 03FA on"),
    ("up to the history", asked("01 03 03 FB 00 05"), "A reply goes out: the frame reads 03FB to 03FF"),
    ("behind the history", asked("01 03 1D C8 00 01"), "Error 02: this meter has no register at 1DC8"),
    ("a write of a record", asked("01 06 04 00 00 01"), "Error 02: 0400 is a history record, which can only be read"),
    ("a write of several records", asked("01 10 04 01 00 02 04 00 00 00 00"),
     "Error 02: 0401 is a history record, which can only be read; the frame is for 2 registers from 0401 on"),
    ("a write of a record that is not stored", asked("01 06 10 00 00 01"), "Error 02: 1000 is a history record, which can only be read"),
    ("a clear of a record", asked("01 05 04 00 00 00"), "Error 02: a clear goes to 0300; this one is for 0400"),
    ("another station", asked("02 03 04 00 00 01"), FOR_TWO),
    ("a history and no reads", asked_small("01 03 04 00 00 01", 14, SMALL), "Error 01: the frame has function 03; this meter takes 05, 06, 10"),
    ("a history in front of all", asked_small("01 03 00 00 00 01", 1, (0, 3, 2)), "Error 02: record 1 is asked for, at 0000; none is stored yet"),
    ("a write from outside into a history behind it", asked_small("01 10 00 12 00 02 04 00 00 00 00", 15, (0x0013, 3, 2)),
     "Error 02: 0013 is a history record, which can only be read; the frame is for 2 registers from 0012 on"),
    ("a history that ends at FFFF", asked_small("01 03 FF FF 00 02", 15, (0xFFFE, 2, 47)), f"{ONE_AT_A_TIME} 2"),
]

RINGS = [
    ("a ring", asked_with_ring(ring_of(2, 3)), FOR_TWO),
    ("a ring whose newest record is elsewhere", asked_with_ring(ring_of(17, 3)), FOR_TWO),
    ("a ring that is full", asked_with_ring(ring_of(6599, 6600)), FOR_TWO),
    ("an empty file for a ring", asked_with_ring(b""), f"status 2: the ring ring: it has 0 bytes; a ring of this sheet has {RING_SIZE}"),
    ("a letter for a ring", asked_with_ring(b"a letter"), f"status 2: the ring ring: it has 8 bytes; a ring of this sheet has {RING_SIZE}"),
    ("a ring with a byte too few", asked_with_ring(ring_of(2, 3, RING_SIZE - 1)),
     f"status 2: the ring ring: it has {RING_SIZE - 1} bytes; a ring of this sheet has {RING_SIZE}"),
    ("a ring with a byte too many", asked_with_ring(ring_of(2, 3) + b"\0"),
     f"status 2: the ring ring: it has over {RING_SIZE} bytes; a ring of this sheet has {RING_SIZE}"),
    ("a newest record at a place that is none", asked_with_ring(ring_of(6600, 3)),
     "status 2: the ring ring: it has its newest record at place 6600; the places of this sheet are 0 to 6599"),
    ("more records than there is room for", asked_with_ring(ring_of(2, 6601)),
     "status 2: the ring ring: it has 6601 records stored; this sheet has room for 6600"),
    ("an empty ring that is not at place 0", asked_with_ring(ring_of(2, 0)),
     "status 2: the ring ring: it has no record stored, and its newest one at place 2; an empty ring has it at 0"),
    ("a ring for a sheet without a history", asked_with_ring(ring_of(2, 3), "ux15_25"), f"status 2: the ring ring: {NO_HISTORY}"),
    ("a ring that is not there", lambda why: why.run("history_example", "-r", why.folder + "/none", "-f", "01"),
     "status 2: the ring none: No such file or directory"),
    ("a folder for a ring", lambda why: why.run("history_example", "-r", why.folder + "/.", "-f", "01"), "status 2: the ring .: Is a directory"),
    ("a bad bank comes before a bad ring", lambda why: why.run("history_example", "-b", why.folder + "/none", "-r", why.folder + "/none", "-f", "01"),
     "status 2: the bank none: No such file or directory"),
]

SHEETS = [
    ("the longest sheet", lambda why: why.run(why.file("sheet", longest_sheet()), "-f", sealed("01 03 10 00 00 01")),
     "Error 02: record 1 is asked for, at 1000; none is stored yet"),
    ("the longest sheet has 862 bytes", lambda why: str(len(longest_sheet())), "862"),
    ("a history in a sheet of version 2", lambda why: why.run(why.file("sheet", of_version_2(SMALL)), "-f", sealed("01 03 04 00 00 01")),
     "Error 02: record 1 is asked for, at 0400; none is stored yet"),
    ("a history of no record in a sheet of version 2", lambda why: why.sheet(of_version_2((0x0400, 0, 2))), bad_area(0x0400, 0, 2)),
    ("a history of no record", asked_with_sheet(15, (0x0400, 0, 2)), bad_area(0x0400, 0, 2)),
    ("a history of too many records", asked_with_sheet(15, (0x0400, 6601, 2)), bad_area(0x0400, 6601, 2)),
    ("records of no word", asked_with_sheet(15, (0x0400, 3, 0)), bad_area(0x0400, 3, 0)),
    ("records that do not fit a reply", asked_with_sheet(15, (0x0400, 3, 48)), bad_area(0x0400, 3, 48)),
    ("a history past FFFF", asked_with_sheet(15, (0xFFFE, 3, 2)), bad_area(0xFFFE, 3, 2)),
    ("a history at a register", asked_with_sheet(15, (0x0012, 3, 2)), bad_area(0x0012, 3, 2)),
    ("a history around the registers", asked_with_sheet(15, (0x0000, 64, 2)), bad_area(0x0000, 64, 2)),
    ("a history at the clear address", asked_with_sheet(15, (0x02FE, 3, 2)), bad_area(0x02FE, 3, 2)),
    ("word 11 is 0, and a record area follows", asked_with_sheet(15, SMALL, 0), bad_word_11(0)),
    ("word 11 is 2, and a record area follows", asked_with_sheet(15, SMALL, 2), bad_word_11(2)),
    ("word 11 is 65535, and a bad record area follows", asked_with_sheet(15, (0x0400, 0, 2), 65535), bad_word_11(65535)),
    ("word 11 is 1, and no record area follows", asked_with_words(sheet_of(15, IN_ONE_AREA), word_11=1), bad_word_11(1)),
    ("word 11 is 2, and no record area follows", asked_with_words(sheet_of(15, IN_ONE_AREA), word_11=2), bad_word_11(2)),
    ("word 11 is 2, and two record areas follow", asked_with_words(sheet_of(15, IN_ONE_AREA, records=SMALL) + bytes_of((0x0500, 3, 2)), word_11=2),
     bad_word_11(2)),
    ("word 11 is 0, a record area follows, and a rule of document 01 is broken", asked_with_sheet(16, SMALL, 0), BREAKS_01),
    ("word 11 is 1, a record area follows, and a rule of document 01 is broken", asked_with_sheet(16, SMALL), BREAKS_01),
    ("a file that has another number of words than word 7 says", lambda why: why.sheet(b"a letter, and no sheet. "), BREAKS_01),
]

OF_WHY = [*READS, *RINGS, *SHEETS]


def stored_in(bench):
    """How many records the ring's file has stored, if it is a whole one."""
    ring = bench.read("ring")
    return int.from_bytes(ring[2:4], "big") if len(ring) == RING_SIZE else -1


def wait_for_records(bench, number):
    deadline = time.monotonic() + 10
    while stored_in(bench) < number and time.monotonic() < deadline:
        time.sleep(0.02)


def end_of(meter, number):
    meter.send_signal(number)
    return f"status {meter.wait(timeout=10)}"


def with_history(trial):
    """A trial at the example's meter."""
    def at_example(bench):
        bench.sheet = EXAMPLE
        return trial(bench)
    return at_example


def shown(bench, *options):
    """What the meter's screen has ahead of the line that it is on."""
    with bench.running(*options) as meter:
        end_of(meter, signal.SIGTERM)
    lines = bench.read("screen").decode().replace(bench.folder + "/", "").split("\n")
    return "; ".join(lines[:[line[:8] for line in lines].index("meter on")])


def kept(bench):
    fresh = shown(bench, "-r", "a ring")
    return f"{fresh}; {len(bench.read('a ring'))} bytes, empty {not any(bench.read('a ring'))}; then {shown(bench, '-r', 'a ring', '-e60')}"


def not_kept(bench):
    return f"{shown(bench, '-e1')}; files {sorted(os.listdir(bench.folder))}"


def cut(bench):
    """A meter that is killed, and the next one with its file. What the first may have left of a new file is in nobody's way."""
    with bench.running("-r", "ring", "-e1") as meter:
        wait_for_records(bench, 2)
        meter.kill()
        meter.wait()
    bench.write("ring.a1B2c3", b"cut off")
    before = stored_in(bench)
    with bench.running("-r", "ring", "-e1") as meter:
        wait_for_records(bench, before + 1)
        more = stored_in(bench) == before + 1
        end_of(meter, signal.SIGTERM)
    return f"stored {before >= 2}, and one more {more}, left {sorted(os.listdir(bench.folder))}"


KINDS = {"a link": os.path.islink, "a folder": os.path.isdir, "a file": os.path.isfile}


def beside(lay):
    """A meter whose file has a neighbour that is the user's own, laid from a letter to ring.new."""
    def trial(bench):
        bench.write("letter", b"mine")
        lay(bench.path("letter"), bench.path("ring.new"))
        with bench.running("-r", "ring", "-e1") as meter:
            wait_for_records(bench, 2)
            end_of(meter, signal.SIGTERM)
        kind = next((name for name, holds in KINDS.items() if holds(bench.path("ring.new"))), "nothing")
        return f"stored {stored_in(bench) >= 2}; ring.new is {kind}, the letter holds {bench.read('letter').decode()}"
    return trial


def mode_kept(bench, mode):
    bench.write("ring", ring_of(2, 3))
    os.chmod(bench.path("ring"), mode)
    with bench.running("-r", "ring", "-e1"):
        wait_for_records(bench, 4)
    return f"stored {stored_in(bench) >= 4}, mode {os.stat(bench.path('ring')).st_mode & 0o7777:o}"


def without_room(bench, blocks=100):
    """From here on a meter can write a part of a ring, as on a disk that fills up, or with no block nothing at all."""
    bench.command = ["sh", "-c", f'ulimit -S -f {blocks}; exec "$@"', "sh", *bench.command]


def wait_for_words(bench, words):
    deadline = time.monotonic() + 10
    while words not in bench.read("screen").decode() and time.monotonic() < deadline:
        time.sleep(0.02)


def told(bench):
    """What the meter's screen has behind the line that it is on."""
    lines = bench.read("screen").decode().replace(bench.folder + "/", "").splitlines()
    return "; ".join(lines[[line[:8] for line in lines].index("meter on") + 1:])


def full_disk(bench):
    """It is told once, though it holds for several records, and what was written of a new file is gone."""
    before = ring_of(2, 3)
    bench.write("ring", before)
    without_room(bench)
    with bench.running("-r", "ring", "-e1") as meter:
        wait_for_words(bench, "not kept")
        time.sleep(2.2)
        ended = end_of(meter, signal.SIGTERM)
    return f"{told(bench)}; {ended}, unchanged {bench.read('ring') == before}, left {sorted(os.listdir(bench.folder))}"


def full_disk_at_first(bench):
    without_room(bench)
    said = bench.refused("-l", "line", "-r", "ring")
    return f"{said}; {len(bench.read('ring'))} bytes, left {sorted(os.listdir(bench.folder))}"


def folder_gone(bench):
    """The ring's folder is moved away and back."""
    os.mkdir(bench.path("here"))
    with bench.running("-r", "here/ring", "-e1") as meter:
        os.rename(bench.path("here"), bench.path("there"))
        wait_for_words(bench, "not kept")
        os.rename(bench.path("there"), bench.path("here"))
        wait_for_words(bench, "again")
        end_of(meter, signal.SIGTERM)
    return told(bench)


def never_torn(bench):
    """Whoever has the file open keeps the ring that it was: no byte of it is written where it lies."""
    before = ring_of(6599, 6600)
    bench.write("ring", before)
    with open(bench.path("ring"), "rb") as file, bench.running("-r", "ring", "-e3"):
        deadline = time.monotonic() + 10
        while bench.read("ring") == before and time.monotonic() < deadline:
            time.sleep(0.02)
        ring = bench.read("ring")
        same = ring[4 + 2 * WORDS:] == before[4 + 2 * WORDS:]
        return f"the old one as it was {file.read() == before}; the new one: {ring[:4].hex(' ')}, the other records as they were {same}"


def through_link(bench):
    os.symlink(bench.path("ring"), bench.path("link"))
    with bench.running("-r", "link", "-e1"):
        wait_for_records(bench, 1)
    return f"still a link {os.path.islink(bench.path('link'))}, stored {stored_in(bench) >= 1}"


def refused(bench, data=None):
    if data is not None:
        bench.write("ring", data)
    before = bench.read("ring")
    said = bench.refused("-l", "line", "-r", "ring")
    return f"{said}; unchanged {bench.read('ring') == before}, link left {os.path.lexists(bench.path('line'))}"


def in_use(bench):
    with bench.running("-r", "ring", "-e1"):
        wait_for_records(bench, 2)
        said = bench.refused("-r", "ring")
        return f"{said}; the first goes on {wait_for_records(bench, 4) or stored_in(bench) >= 4}"


def without_history(bench):
    """At the sheet of the bench, UX15/25."""
    bench.write("ring", b"mine")
    return refused(bench)


def bad_every(text):
    return with_history(lambda bench: bench.refused(f"-e{text}"))


AT = "history at 0400 to 1DC7, 22 words to a record, the newest at 0400"
GOES_ON = "The meter goes on; if it is switched off now, its newest records are lost"
AS_IT_WAS = f"{LEFT}; unchanged True, link left False"
SECONDS = "EVERY takes a number of seconds, 1 to 86400, and not"
OF_METER = [
    ("a ring that is kept", with_history(kept),
     f"the ring is empty, and kept in a ring; {AT}; stored: 0; one more every 5 seconds; {RING_SIZE} bytes, empty True; "
     f"then the ring is the one that a ring keeps; {AT}; stored: 0; one more every 60 seconds"),
    ("a ring that is not kept", with_history(not_kept), f"{AT}; stored: 0; one more every 1 second; files ['screen']"),
    ("a meter that is killed", with_history(cut), "stored True, and one more True, left ['ring', 'ring.a1B2c3', 'screen']"),
    ("a file of the user's own beside the ring's", with_history(beside(os.link)), "stored True; ring.new is a file, the letter holds mine"),
    ("a link of the user's own beside the ring's file", with_history(beside(os.symlink)), "stored True; ring.new is a link, the letter holds mine"),
    ("a folder of the user's own beside the ring's file", with_history(beside(lambda _, path: os.mkdir(path))),
     "stored True; ring.new is a folder, the letter holds mine"),
    ("a ring's file for one reader", with_history(lambda bench: mode_kept(bench, 0o600)), "stored True, mode 600"),
    ("a ring's file for all", with_history(lambda bench: mode_kept(bench, 0o666)), "stored True, mode 666"),
    ("a disk that is full", with_history(full_disk),
     f"the ring is not kept in ring: File too large. {GOES_ON}; meter off after 0 frames; status 0, unchanged True, left ['ring', 'screen']"),
    ("a disk that is full at first", with_history(full_disk_at_first),
     f"status 1: the ring's file ring: no ring can be kept in it: File too large. {LEFT}; 0 bytes, left ['ring']"),
    ("a folder that is gone for a while", with_history(folder_gone),
     f"the ring is not kept in here/ring: No such file or directory. {GOES_ON}; the ring is kept in here/ring again, with every record; "
     "meter off after 0 frames"),
    ("a full ring, and one record more", with_history(never_torn),
     "the old one as it was True; the new one: 00 00 19 c8, the other records as they were True"),
    ("a link to the ring's file", with_history(through_link), "still a link True, stored True"),
    ("a ring's file of another size", with_history(lambda bench: refused(bench, b"a letter")),
     f"status 1: the ring's file ring: it has 8 bytes; a ring of this sheet has {RING_SIZE}. {AS_IT_WAS}"),
    ("a ring's file that is too long", with_history(lambda bench: refused(bench, ring_of(2, 3) + b"\0")),
     f"status 1: the ring's file ring: it has over {RING_SIZE} bytes; a ring of this sheet has {RING_SIZE}. {AS_IT_WAS}"),
    ("a ring's file with a bad place", with_history(lambda bench: refused(bench, ring_of(6600, 3))),
     f"status 1: the ring's file ring: it has its newest record at place 6600; the places of this sheet are 0 to 6599. {AS_IT_WAS}"),
    ("a ring's file with a bad number", with_history(lambda bench: refused(bench, ring_of(2, 6601))),
     f"status 1: the ring's file ring: it has 6601 records stored; this sheet has room for 6600. {AS_IT_WAS}"),
    ("a ring's file that is empty at a wrong place", with_history(lambda bench: refused(bench, ring_of(2, 0))),
     f"status 1: the ring's file ring: it has no record stored, and its newest one at place 2; an empty ring has it at 0. {AS_IT_WAS}"),
    ("a ring that is in use", with_history(in_use),
     f"status 1: the ring's file ring: another meter has it in use. {LEFT}; the first goes on True"),
    ("a folder for a ring", with_history(lambda bench: bench.refused("-r", ".")), f"status 1: the ring's file .: Is a directory. {LEFT}"),
    ("a device for a ring", with_history(lambda bench: bench.refused("-r/dev/null")), f"status 1: the ring's file /dev/null: no plain file. {LEFT}"),
    ("a ring for a sheet without a history", without_history, f"status 1: the ring's file ring: {NO_HISTORY}. {AS_IT_WAS}"),
    ("seconds for a sheet without a history", lambda bench: bench.refused("-e5"),
     "status 1: EVERY is for a history, and this meter's sheet has none: leave it out"),
    ("no second", bad_every("0"), f"status 1: {SECONDS} 0"),
    ("more seconds than a day has", bad_every("86401"), f"status 1: {SECONDS} 86401"),
    ("seconds that are no number", bad_every("5s"), f"status 1: {SECONDS} 5s"),
    ("seconds below 0", bad_every("-5"), f"status 1: {SECONDS} -5"),
    ("too many seconds for a number", bad_every("4294967301"), f"status 1: {SECONDS} 4294967301"),
]
