"""What `make ask` says: at the simulated meter, at meters that answer wrongly, on lines that are none, and of bad orders. trials.py runs these."""
import contextlib
import fcntl
import os
import re
import subprocess
import termios
import time
import tty

from history_trials import ring_of
from played_line import BrokenLine, NoisyLine, PlayedLine, sent
from why_trials import ROOT, outside_of_make, parts_of_readme, sealed

TIMEOUT = 30


def told(status, printed, said=""):
    """All that was said, its lines one behind the other and its blanks made one."""
    lines = [" ".join(line.split()) for line in (printed + said).splitlines()]
    return f"status {status}: " + " / ".join(lines)


class Ask:
    """The program `ask`."""

    def __init__(self, command, folder):
        self.command, self.folder = command, folder

    def started(self, link, order, *options, sheet="ux15_25", **more):
        lines = ["-l", link] if link else []
        orders = ["-o", order] if order is not None else []
        path = sheet if "/" in sheet else os.path.join("sheets", sheet + ".sheet")
        return subprocess.run([*self.command, *lines, *orders, *options, path], cwd=ROOT, capture_output=True, text=True, timeout=TIMEOUT, check=False,
                              **more)

    def run(self, link, order, *options, **more):
        done = self.started(link, order, *options, **more)
        return told(done.returncode, done.stdout, done.stderr.replace(self.folder + "/", ""))


# ---- what is expected

def tried(number, query, reply=None, refusal=None):
    """A try as it is told; the reply is None where nothing came."""
    text = f"try {number} sent {query} / came {reply or 'nothing within a second'}"
    return f"{text} / refused, number {refusal}" if refusal else text


def first(query, reply, end):
    return f"{tried(1, sealed(query), sealed(reply))} / {end}"


def thrice(query, reply, refusal, end):
    return " / ".join([*(tried(number, query, reply, refusal) for number in (1, 2, 3)), end])


def done(query, reply, *registers, names="ux15_25"):
    by = f", with the names of sheets/{names}.sheet" if names else ""
    return "status 0: " + first(query, reply, " / ".join([f"Done{by}:", *registers]))


AT_HAND = "BANK= where the meter's bank is at hand"
NEEDED = "BANK=, the meter's bank: it is needed, since a fresh one is at station 1"
WITH_RING = "; with RING= for its history"
WITH_OTHER_SHEET = f"{WITH_RING}, and its own SHEET=: this one has no history"


def error(query, reply, words, sheet="ux15_25", given=AT_HAND):
    way = f'for the reason: make why SHEET="sheets/{sheet}.sheet" FRAME="{sealed(query)}", with {given}'
    return "status 1: " + first(query, reply, f"{words} / {way}")


def once(query, reply, refusal, end):
    return f"{tried(1, query, reply, refusal)} / {end}"


def refused(query, reply, refusal, hint=""):
    """Three times the same, as it came."""
    return "status 1: " + thrice(sealed(query), reply, refusal, f"Refused: what came in 3 tries is no reply to this order{hint}")


READ_BACK = ". It may be done all the same, and its replies lost: read it back"
SEND_AGAIN = ". It may be done all the same, and its replies lost. It cannot be read back: send it again"


LOOK_AT_TOTAL = ". It may be done all the same. It cannot be read back: look at the meter's total before it is sent again"


def no_answer(query, station=1, rate=9600, other=4800, behind="", tries="3 tries", told_tries=thrice):
    return "status 1: " + told_tries(sealed(query), None, None,
                                     f"No answer from station {station} at {rate} in {tries}; look at the station (STATION=), the rate (RATE={other}?), "
                                     f"the wires (A to A, B to B) and the meter's power{behind}")


def no_answer_to_preset(query):
    """A preset is sent once."""
    return no_answer(query, behind=LOOK_AT_TOTAL, tries="1 try", told_tries=once)


def refused_preset(query, reply, refusal, hint=""):
    return "status 1: " + once(sealed(query), reply, refusal, f"Refused: what came in 1 try is no reply to this order{hint}{LOOK_AT_TOTAL}")


# ---- at the simulated meter

@contextlib.contextmanager
def meter_at(bench, sheet="ux15_25", *options):
    """A simulated meter on a line of its own."""
    bench.sheet = os.path.join(ROOT, "sheets", sheet + ".sheet")
    with bench.running("-l", "line", *options):
        yield bench.path("line")


def asked(*orders, sheet="ux15_25"):
    """Orders, one after the other, at a meter with a fresh bank: what is said of the last."""
    def trial(bench):
        with meter_at(bench, sheet) as link:
            return [bench.ask.run(link, order, sheet=sheet) for order in orders][-1]
    return trial


def asked_with(order, sheet):
    """An order at a UX15/25, with another sheet."""
    def trial(bench):
        with meter_at(bench) as link:
            return bench.ask.run(link, order, sheet=sheet)
    return trial


def asked_history(order, sheet="history_example"):
    """An order at a meter with three records of 22 words, which have the numbers of their places, 2, 1 and 0."""
    def trial(bench):
        bench.write("ring", ring_of(2, 3))
        with meter_at(bench, "history_example", "-r", "ring", "-e", "86400") as link:
            return bench.ask.run(link, order, sheet=sheet)
    return trial


def screen_of(bench):
    """What the meter's screen says of each frame."""
    return [" ".join(line.split()) for line in bench.read("screen").decode().splitlines() if line.startswith("station ")]


def asked_and_screen(order, *options):
    """What is said, how long it took, and what the meter's screen said of the frames."""
    def trial(bench):
        with meter_at(bench) as link:
            begin = time.monotonic()
            said = bench.ask.run(link, order, *options)
            seconds = time.monotonic() - begin
            took = "three seconds" if 3.0 <= seconds < 4.5 else "no second" if seconds < 1.0 else f"{seconds} s"
            return f"{said}; {took}; {' / '.join(screen_of(bench))}"
    return trial


def asked_at_new(order, options, then, new):
    """An order, and then one with other options at the same meter."""
    def trial(bench):
        with meter_at(bench) as link:
            bench.ask.run(link, order, *options)
            return bench.ask.run(link, then, *new)
    return trial


LIMIT = "0103 Alarm upper limit: 100.0 m3/h"
BAD_VALUE = "Error 03: the meter does not take a value of this order"
BAD_ADDRESS = "Error 02: the meter has no register at an address of this order, or it is not open to function"
SCREEN_OF_TWO = "station 2 03 read 0103 count 2 silence: the frame is for station 2; this meter is station 1"
SCREEN_OF_RATE = "station 1 03 read 0103 count 2 noise: not sent at 9600"
RECORD = " ".join(22 * ["0002"])
AT_METER = [
    ("a read of one register", asked("read 0101 1"), done("01 03 01 01 00 01", "01 03 02 00 00", "0101 Pulse constant: 1 L/pulse")),
    ("a read below zero", asked("read 0100 1"), done("01 03 01 00 00 01", "01 03 02 FF F6", "0100 Reference temperature: -10 degC")),
    ("a pair that was written", asked("writes 0103 0000 03E8", "read 0103 2"), done("01 03 01 03 00 02", "01 03 04 00 00 03 E8", LIMIT)),
    ("a read that cuts two pairs", asked("writes 0103 0000 03E8", "read 0104 2"),
     done("01 03 01 04 00 02", "01 03 04 03 E8 00 00", "0104: 03E8, a word of 0103 Alarm upper limit", "0105: 0000, a word of 0105 Alarm lower limit")),
    ("a read that begins and ends with halves", asked("read 0104 4"),
     done("01 03 01 04 00 04", "01 03 08 00 00 00 00 00 00 00 00", "0104: 0000, a word of 0103 Alarm upper limit", "0105 Alarm lower limit: 0.0 m3/h",
          "0107: 0000, a word of 0107 Alarm hysteresis")),
    ("0x in front, and small letters", asked("writes 0x103 0 0x3e8"),
     done("01 10 01 03 00 02 04 00 00 03 E8", "01 10 01 03 00 02", LIMIT)),
    ("a write", asked("write 0101 0004"), done("01 06 01 01 00 04", "01 06 01 01 00 04", "0101 Pulse constant: 10000 L/pulse")),
    (".. is read back", asked("write 0101 0004", "read 0101 1"),
     done("01 03 01 01 00 01", "01 03 02 00 04", "0101 Pulse constant: 10000 L/pulse")),
    ("a write of half a pair", asked("write 0104 1388"),
     done("01 06 01 04 13 88", "01 06 01 04 13 88", "0104: 1388, a word of 0103 Alarm upper limit")),
    ("writes of one", asked("writes 0101 0003"), done("01 10 01 01 00 01 02 00 03", "01 10 01 01 00 01", "0101 Pulse constant: 1000 L/pulse")),
    ("a clear", asked_and_screen("clear 0300"),
     f"status 0: {first('01 05 03 00 00 00', '01 05 03 00 00 00', 'Done: the alarm mark is cleared')}; no second; "
     "station 1 05 clear 0300 value 0000 reply of 8 bytes at 9600; the alarm mark was 1, is 0"),
    ("a read of AS-WE", asked("read 0106 4", sheet="aswe_40"),
     done("01 03 01 06 00 04", "01 03 08 03 20 00 01 00 01 00 00", "0106 Compressibility factor: 0.800", "0107 Bit rate: 9600 bit/s", "0108 Station: 1",
          "0109 Low flow cutoff: 0.0 m3/h", names="aswe_40")),
    ("a sheet that is no maker's", asked("read 0107 2", sheet="history_example"),
     done("01 03 01 07 00 02", "01 03 04 00 01 00 01", "0107: 0001", "0108: 0001", names=None)),
    ("error 01", asked("clear 0300", sheet="aswe_40"),
     error("01 05 03 00 00 00", "01 85 01", "Error 01: the meter does not take function 05", "aswe_40")),
    ("error 02 to a read", asked("read 0100 24"), error("01 03 01 00 00 18", "01 83 02", f"{BAD_ADDRESS} 03")),
    ("error 02 to a write", asked("write 0200 0001"), error("01 06 02 00 00 01", "01 86 02", f"{BAD_ADDRESS} 06")),
    ("error 02 to writes", asked("writes 0116 0001 0001"), error("01 10 01 16 00 02 04 00 01 00 01", "01 90 02", f"{BAD_ADDRESS} 10")),
    ("error 02 to a clear", asked("clear 0301"),
     error("01 05 03 01 00 00", "01 85 02", "Error 02: 0301 is not the meter's clear address; by sheets/ux15_25.sheet it is 0300")),
    (".. with a sheet that has none", asked_with("clear 0301", "aswe_40"),
     error("01 05 03 01 00 00", "01 85 02",
           "Error 02: 0301 is not the meter's clear address; that is word 10 of its own sheet, and sheets/aswe_40.sheet is another's", "aswe_40")),
    ("error 03 to a write", asked("write 0101 0005"), error("01 06 01 01 00 05", "01 86 03", BAD_VALUE)),
    ("error 03 to writes", asked("writes 0103 0000 03E8 0001 86A0"),
     error("01 10 01 03 00 04 08 00 00 03 E8 00 01 86 A0", "01 90 03", f"{BAD_VALUE}; those ahead of it may be stored: read them back")),
    (".. and the one ahead is stored", asked("writes 0103 0000 03E8 0001 86A0", "read 0103 4"),
     done("01 03 01 03 00 04", "01 03 08 00 00 03 E8 00 00 00 00", LIMIT, "0105 Alarm lower limit: 0.0 m3/h")),
    ("another station", asked_and_screen("read 0103 2", "-s", "2"),
     f"{no_answer('02 03 01 03 00 02', station=2)}; three seconds; {' / '.join(3 * [SCREEN_OF_TWO])}"),
    ("another rate", asked_and_screen("read 0103 2", "-r", "4800"),
     f"{no_answer('01 03 01 03 00 02', rate=4800, other=9600)}; three seconds; {' / '.join(3 * [SCREEN_OF_RATE])}"),
    ("a station that was written", asked_at_new("write 010E 00F7", (), "read 010E 1", ("-s", "247")),
     done("F7 03 01 0E 00 01", "F7 03 02 00 F7", "010E Station: 247")),
    ("a rate that was written", asked_at_new("write 010D 0000", (), "read 010D 1", ("-r", "4800")),
     done("01 03 01 0D 00 01", "01 03 02 00 00", "010D Bit rate: 4800 bit/s")),
    ("the newest record", asked_history("record 0400 22"), done("01 03 04 00 00 01", "01 03 2C" + 22 * " 00 02", f"record 1, the newest: {RECORD}",
                                                                names=None)),
    ("the oldest record", asked_history("record 0402 22"),
     done("01 03 04 02 00 01", "01 03 2C" + 22 * " 00 00", f"record 3: {RECORD.replace('2', '0')}", names=None)),
    ("a record with a sheet that has no history", asked_history("record 0400 22", "ux15_25"),
     done("01 03 04 00 00 01", "01 03 2C" + 22 * " 00 02", f"record at 0400: {RECORD}", names=None)),
    ("a record that is not stored", asked_history("record 0403 22"),
     error("01 03 04 03 00 01", "01 83 02", "Error 02: the meter has no record at 0403, or none is stored there yet", "history_example",
           AT_HAND + WITH_RING)),
    (".. with a sheet that has no history", asked_history("record 0403 22", "ux15_25"),
     error("01 03 04 03 00 01", "01 83 02", "Error 02: the meter has no record at 0403, or none is stored there yet", given=AT_HAND + WITH_OTHER_SHEET)),
    ("a write where the sheet has a history", asked("write 0300 0001", sheet="history_example"),
     error("01 06 03 00 00 01", "01 86 02", f"{BAD_ADDRESS} 06", "history_example", AT_HAND + WITH_RING)),
    ("an error at another station", asked_at_new("write 010E 0002", (), "write 0101 0005", ("-s", "2")),
     error("02 06 01 01 00 05", "02 86 03", BAD_VALUE, given=NEEDED)),
    ("two records", asked_history("read 0400 2"),
     error("01 03 04 00 00 02", "01 83 03", "Error 03: the meter does not take the count of this order", "history_example",
           AT_HAND + WITH_RING)),
    ("a record of other words", asked_history("record 0400 21"),
     refused("01 03 04 00 00 01", sealed("01 03 2C" + 22 * " 00 02"),
             "13: its body does not fit: a reply to this order has 47 bytes, with a byte count of 42; this one has 49, with 44",
             '; this sheet\'s records have 22 words: ORDER="record 0400 22"')),
    ("a record by a plain read", asked_history("read 0401 1"),
     refused("01 03 04 01 00 01", sealed("01 03 2C" + 22 * " 00 01"),
             "13: its body does not fit: a reply to this order has 7 bytes, with a byte count of 2; this one has 49, with 44",
             '; this sheet\'s records have 22 words: ORDER="record 0401 22"')),
    (".. with a sheet that has no history", asked_history("read 0401 1", "ux15_25"),
     refused("01 03 04 01 00 01", sealed("01 03 2C" + 22 * " 00 01"),
             "13: its body does not fit: a reply to this order has 7 bytes, with a byte count of 2; this one has 49, with 44",
             '; a record? then ORDER="record 0401 22"')),
    ("a register as a record of two words", asked("record 0101 2"),
     refused("01 03 01 01 00 01", sealed("01 03 02 00 00"),
             "13: its body does not fit: a reply to this order has 9 bytes, with a byte count of 4; this one has 7, with 2",
             "; the meter's records have another number of words, or it has none there")),
]


def preset(address, name):
    return f"by sheets/aswe_40.sheet {address}, {name}, can be written but not read"


def written(address, name):
    return f"it cannot be read back: {preset(address, name)}"


UPPER_DIGIT, SECOND = "Preset volume upper digit", "Preset second volume"
PRESETS = [
    ("a preset", asked("write 0118 0002", sheet="aswe_40"),
     done("01 06 01 18 00 02", "01 06 01 18 00 02", "0118 Preset volume upper digit: 20000000 m3", written("0118", UPPER_DIGIT), names="aswe_40")),
    ("three presets", asked("writes 0118 0001 04D2 162E", sheet="aswe_40"),
     done("01 10 01 18 00 03 06 00 01 04 D2 16 2E", "01 10 01 18 00 03", "0118 Preset volume upper digit: 10000000 m3",
          "0119 Preset volume middle digits: 1234000 m3", "011A Preset volume lower digits: 567.8 m3", written("0118", UPPER_DIGIT), names="aswe_40")),
    ("half of a preset", asked("write 011C 0002", sheet="aswe_40"),
     done("01 06 01 1C 00 02", "01 06 01 1C 00 02", f"011C: 0002, a word of 011B {SECOND}", written("011C", SECOND), names="aswe_40")),
    ("a read of a preset", asked("write 0118 0002", "read 0118 1", sheet="aswe_40"),
     error("01 03 01 18 00 01", "01 83 02", f"Error 02: {preset('0118', UPPER_DIGIT)}", "aswe_40")),
    ("a read that ends in the presets", asked("read 011B 5", sheet="aswe_40"),
     error("01 03 01 1B 00 05", "01 83 02", f"Error 02: {preset('011B', SECOND)}", "aswe_40")),
    ("a read that comes to the presets over a gap", asked("read 0116 3", sheet="aswe_40"),
     error("01 03 01 16 00 03", "01 83 02", f"{BAD_ADDRESS} 03", "aswe_40")),
    ("a write that comes to the presets over a gap", asked("writes 0116 0001 0001 0001", sheet="aswe_40"),
     error("01 10 01 16 00 03 06 00 01 00 01 00 01", "01 90 02", f"{BAD_ADDRESS} 10", "aswe_40")),
    ("a preset that is too high", asked("write 0118 000A", sheet="aswe_40"), error("01 06 01 18 00 0A", "01 86 03", BAD_VALUE, "aswe_40")),
    ("presets, the second is too high", asked("writes 0118 0001 2710", sheet="aswe_40"),
     error("01 10 01 18 00 02 04 00 01 27 10", "01 90 03", f"{BAD_VALUE}; those ahead of it may be stored, and cannot be read back: send them again",
           "aswe_40")),
    ("a setting is read back as ever", asked("write 0116 0004", sheet="aswe_40"),
     done("01 06 01 16 00 04", "01 06 01 16 00 04", "0116 Pressure readings averaged: 4", names="aswe_40")),
    ("a preset at a meter that has none", asked_with("read 0118 1", "aswe_40"),
     error("01 03 01 18 00 01", "01 83 02", f"Error 02: {preset('0118', UPPER_DIGIT)}", "aswe_40")),
]


# ---- at meters that answer otherwise

def reply_of(text):
    return bytes.fromhex(sealed(text))


def played(order, *answers, line=PlayedLine, sheet="history_example"):
    """An order at a meter that gives these answers: what is said, and how many queries the meter heard."""
    def trial(bench):
        with line(*answers) as meter:
            said = bench.ask.run(meter.link, order, sheet=sheet)
            return f"{said}; {len(meter.heard)} heard, {len(set(meter.heard))} of them different"
    return trial


def wrong_thrice(order, answer):
    """The same wrong answer to each try, its bytes as they are."""
    return played(order, *(3 * [[sent(bytes.fromhex(answer))]]))


def late(bench):
    """A meter that takes 1.3 seconds for the first order, so that the reply to the first try meets the second, and a reply is left over. The next order
    must not take it for its own."""
    answer, other = reply_of("01 03 02 11 11"), reply_of("01 03 02 22 22")
    with PlayedLine([sent(answer, 1.3)], [sent(answer, 0.8)], [sent(other)]) as meter:
        before = bench.ask.run(meter.link, "read 0101 1", sheet="history_example")
        after = bench.ask.run(meter.link, "read 0102 1", sheet="history_example")
        return f"{before}; {after}; {len(meter.heard)} heard"


def stale(bench):
    """A line on which bytes have lain since before."""
    with PlayedLine([sent(reply_of("01 03 02 22 22"))]) as meter:
        tty.setraw(meter.master_end)
        os.write(meter.meter_end, reply_of("01 03 02 11 11"))
        return bench.ask.run(meter.link, "read 0101 1", sheet="history_example")


def unusual_line(bench):
    """A line that was set otherwise: how the meter finds it while it is asked, and whether it is left as it was."""
    with PlayedLine([sent(reply_of("01 03 08 0D 0A 11 13 03 04 7F 1A"))]) as meter:
        mode = termios.tcgetattr(meter.master_end)
        mode[2] |= termios.CSTOPB
        mode[4] = mode[5] = termios.B1200
        termios.tcsetattr(meter.master_end, termios.TCSANOW, mode)
        before = termios.tcgetattr(meter.master_end)
        said = bench.ask.run(meter.link, "read 0101 4", "-r", "4800", sheet="history_example")
        iflag, oflag, cflag, lflag, ispeed, ospeed, _ = meter.modes[0]
        is_raw = not (iflag & (termios.ICRNL | termios.IXON) or oflag & termios.OPOST or cflag & (termios.CSTOPB | termios.PARENB)
                      or lflag & (termios.ICANON | termios.ECHO | termios.ISIG))
        as_before = termios.tcgetattr(meter.master_end) == before and bool(before[2] & termios.CSTOPB)
        return f"{said}; raw {is_raw}, 4800 {ispeed == ospeed == termios.B4800}, as before {as_before}; heard {meter.heard}"


READ, GOOD = "01 03 01 01 00 01", "01 03 02 12 34"
HEARD_ONCE, HEARD = "; 1 heard, 1 of them different", "; 3 heard, 1 of them different"
WRITE = "01 06 01 01 00 04"
DAMAGED = "; look at the rate (RATE=4800?), the parity (none) and the wires"


def refused_reply(text, order, query, reply, refusal, hint=""):
    """A reply that is refused at every try. It is given with its check."""
    return (text, wrong_thrice(order, reply), refused(query, reply, refusal, hint) + HEARD)


def then_good(reply, refusal):
    """A first reply that is refused, and a good one to the second try."""
    return (f"status 0: {tried(1, sealed(READ), reply, refusal)} / {tried(2, sealed(READ), sealed(GOOD))} / Done: / 0101: 1234; "
            "2 heard, 1 of them different")


def disagrees(reply):
    """A check that is not that of the bytes in front of it."""
    return f"10: the check does not agree: it ends in {reply[-5:]}, its other bytes give {sealed(reply[:-6])[-5:]}"


NOISE = "55 AA 00 FF"
LONG_NOISE = " ".join(101 * ["55"])
MANY = reply_of("01 03 5E" + 47 * " 12 34")
MANY_DONE = done("01 03 01 00 00 2F", "01 03 5E" + 47 * " 12 34", *(f"{0x100 + k:04X}: 1234" for k in range(47)), names=None) + HEARD_ONCE
AT_PLAYED = [
    ("47 registers", played("read 0100 47", [sent(MANY)]), MANY_DONE),
    ("45 values", played("writes FFD3" + 45 * " FEDC", [sent(reply_of("01 10 FF D3 00 2D"))]),
     done("01 10 FF D3 00 2D 5A" + 45 * " FE DC", "01 10 FF D3 00 2D", *(f"{0xFFD3 + k:04X}: FEDC" for k in range(45)), names=None)
     + HEARD_ONCE),
    ("bytes that a terminal would change, both ways", unusual_line,
     done("01 03 01 01 00 04", "01 03 08 0D 0A 11 13 03 04 7F 1A", "0101: 0D0A", "0102: 1113", "0103: 0304", "0104: 7F1A", names=None)
     + f"; raw True, 4800 True, as before True; heard ['{sealed('01 03 01 01 00 04')}']"),
    ("bytes that a terminal would change, in a query", played("writes 0D0A 1113 0304 7F1A", [sent(reply_of("01 10 0D 0A 00 03"))]),
     done("01 10 0D 0A 00 03 06 11 13 03 04 7F 1A", "01 10 0D 0A 00 03", "0D0A: 1113", "0D0B: 0304", "0D0C: 7F1A", names=None)
     + HEARD_ONCE),
    ("one damaged answer", played("read 0101 1", [sent(bytes.fromhex("01 03 02 12 35 B5 33"))], [sent(reply_of(GOOD))]),
     then_good("01 03 02 12 35 B5 33", disagrees("01 03 02 12 35 B5 33"))),
    ("an answer in three parts", played("read 0100 47", [sent(MANY[:3]), sent(MANY[3:50], 0.015), sent(MANY[50:], 0.015)]), MANY_DONE),
    ("an answer behind noise, which the next try must not take", played("read 0101 1", [sent(101 * b"\x55" + reply_of("01 03 02 11 11"))],
                                                                        [sent(reply_of(GOOD))]),
     then_good(LONG_NOISE, "10: it has over 100 bytes; the longest frame has 100")),
    ("no answer to the first try", played("read 0101 1", [], [sent(reply_of(GOOD))]),
     f"status 0: {tried(1, sealed(READ))} / {tried(2, sealed(READ), sealed(GOOD))} / Done: / 0101: 1234; 2 heard, 1 of them different"),
    ("a damaged answer, and then none", played("read 0101 1", [sent(b"\xFF")]),
     f"status 1: {tried(1, sealed(READ), 'FF', '10: it has 1 byte; the shortest frame has 4')} / {tried(2, sealed(READ))} / {tried(3, sealed(READ))} / "
     f"{no_answer(READ).rpartition(' / ')[2]}{HEARD}"),
    ("a late answer", late,
     f"status 0: {tried(1, sealed(READ))} / {tried(2, sealed(READ), sealed('01 03 02 11 11'))} / Done: / 0101: 1111; "
     + done("01 03 01 02 00 01", "01 03 02 22 22", "0102: 2222", names=None) + "; 3 heard"),
    ("bytes from before", stale, done(READ, "01 03 02 22 22", "0101: 2222", names=None)),
    ("no answer to a write", played("write 0101 0004"), no_answer(WRITE, behind=READ_BACK) + HEARD),
    ("no answer to a clear", played("clear 0300"), no_answer("01 05 03 00 00 00", behind=SEND_AGAIN) + HEARD),
    ("no answer to a preset", played("write 0118 0002", sheet="aswe_40"), no_answer_to_preset("01 06 01 18 00 02") + HEARD_ONCE),
    ("no answer to writes of presets", played("writes 011D 0000 0002", sheet="aswe_40"),
     no_answer_to_preset("01 10 01 1D 00 02 04 00 00 00 02") + HEARD_ONCE),
    ("no answer to writes that end in a preset", played("writes 0117 0000 0002", sheet="aswe_40"),
     no_answer_to_preset("01 10 01 17 00 02 04 00 00 00 02") + HEARD_ONCE),
    ("no answer to a setting of a sheet that has presets", played("write 0116 0004", sheet="aswe_40"),
     no_answer("01 06 01 16 00 04", behind=READ_BACK) + HEARD),
    ("no answer to a clear with a sheet that has presets", played("clear 0118", sheet="aswe_40"),
     no_answer("01 05 01 18 00 00", behind=SEND_AGAIN) + HEARD),
    ("a damaged answer to a preset", played("write 0118 0002", [sent(b"\xFF")], sheet="aswe_40"),
     refused_preset("01 06 01 18 00 02", "FF", "10: it has 1 byte; the shortest frame has 4", DAMAGED) + HEARD_ONCE),
    ("another value than was preset", played("write 0118 0002", [sent(reply_of("01 06 01 18 00 03"))], sheet="aswe_40"),
     refused_preset("01 06 01 18 00 02", sealed("01 06 01 18 00 03"),
                    "13: its body does not fit: it is for 0118 and 0003; the query is for 0118 and 0002") + HEARD_ONCE),
    ("no answer to a read of a preset", played("read 0118 1", sheet="aswe_40"), no_answer("01 03 01 18 00 01") + HEARD),
    ("a meter that reads a preset out", played("read 0118 1", [sent(reply_of("01 03 02 00 02"))], sheet="aswe_40"),
     done("01 03 01 18 00 01", "01 03 02 00 02", "0118 Preset volume upper digit: 20000000 m3", names="aswe_40") + HEARD_ONCE),
    refused_reply("a bad check", "write 0101 0004", WRITE, "01 06 01 01 00 04 D8 36",
                  disagrees("01 06 01 01 00 04 D8 36"), DAMAGED),
    refused_reply("noise", "read 0101 1", READ, NOISE, disagrees(NOISE), DAMAGED),
    refused_reply("one byte", "read 0101 1", READ, "FF", "10: it has 1 byte; the shortest frame has 4", DAMAGED),
    refused_reply("101 bytes", "read 0101 1", READ, LONG_NOISE, "10: it has over 100 bytes; the longest frame has 100", DAMAGED),
    ("300 bytes", wrong_thrice("read 0101 1", " ".join(300 * ["55"])),
     refused(READ, LONG_NOISE, "10: it has over 100 bytes; the longest frame has 100", DAMAGED) + HEARD),
    refused_reply("another station", "read 0101 1", READ, sealed("02 03 02 12 34"), "11: it comes from station 2",
                  "; another meter or another master is at work on the line"),
    refused_reply("another function", "read 0101 1", READ, sealed("01 04 02 12 34"), "12: it has function 04; the query has 03"),
    refused_reply("an error of another function", "read 0101 1", READ, sealed("01 86 02"), "12: it has function 86; the query has 03"),
    refused_reply("a word too many", "read 0101 1", READ, sealed("01 03 04 12 34 56 78"),
                  "13: its body does not fit: a reply to this order has 7 bytes, with a byte count of 2; this one has 9, with 4",
                  '; a record? then ORDER="record 0101 2"'),
    refused_reply("two words too many, in a read of two", "read 0101 2", "01 03 01 01 00 02", sealed("01 03 08 12 34 56 78 12 34 56 78"),
                  "13: its body does not fit: a reply to this order has 9 bytes, with a byte count of 4; this one has 13, with 8"),
    refused_reply("a byte too many", "read 0101 1", READ, sealed("01 03 03 12 34 56"),
                  "13: its body does not fit: a reply to this order has 7 bytes, with a byte count of 2; this one has 8, with 3"),
    refused_reply("a byte count that is wrong", "read 0101 1", READ, sealed("01 03 04 12 34"),
                  "13: its body does not fit: a reply to this order has 7 bytes, with a byte count of 2; this one has 7, with 4"),
    refused_reply("no body", "read 0101 1", READ, sealed("01 03"),
                  "13: its body does not fit: a reply to this order has 7 bytes, with a byte count of 2; this one has 4"),
    refused_reply("another value than was written", "write 0101 0004", WRITE, sealed("01 06 01 01 00 03"),
                  "13: its body does not fit: it is for 0101 and 0003; the query is for 0101 and 0004"),
    refused_reply("another address than was written", "write 0101 0004", WRITE, sealed("01 06 01 02 00 04"),
                  "13: its body does not fit: it is for 0102 and 0004; the query is for 0101 and 0004"),
    refused_reply("another count than was written", "writes 0101 0004 0005", "01 10 01 01 00 02 04 00 04 00 05", sealed("01 10 01 01 00 01"),
                  "13: its body does not fit: it is for 0101 and 0001; the query is for 0101 and 0002"),
    refused_reply("a clear with a byte too many", "clear 0300", "01 05 03 00 00 00", sealed("01 05 03 00 00 00 00"),
                  "13: its body does not fit: a reply to this order has 8 bytes; this one has 9"),
    refused_reply("an error with code 04", "read 0101 1", READ, sealed("01 83 04"),
                  "13: its body does not fit: an error of these meters has one code, 01 to 03"),
    refused_reply("an error with code 04, to a record", "record 0400 22", "01 03 04 00 00 01", sealed("01 83 04"),
                  "13: its body does not fit: an error of these meters has one code, 01 to 03"),
    refused_reply("an error with two codes", "read 0101 1", READ, sealed("01 83 02 02"),
                  "13: its body does not fit: an error of these meters has one code, 01 to 03"),
    refused_reply("an adapter that hears itself", "read 0101 1", READ, f"{sealed(READ)} {sealed(GOOD)}", disagrees(f"{sealed(READ)} {sealed(GOOD)}"),
                  "; it begins with the query: the adapter hears itself. Switch its echo off"),
    ("a clear at its sheet's clear address, which the meter's own has elsewhere",
     played("clear 0300", [sent(reply_of("01 85 02"))], sheet="ux15_25"),
     error("01 05 03 00 00 00", "01 85 02",
           "Error 02: 0300 is not the meter's clear address; that is word 10 of its own sheet, and sheets/ux15_25.sheet is another's") + HEARD_ONCE),
    ("a line that is cut off", lambda bench: played("read 0101 1", line=BrokenLine)(bench).partition(";")[0],
     f"status 1: try 1 sent {sealed(READ)} / The line is gone: it was cut off or unplugged"),
    ("a line that is never quiet", played("read 0101 1", line=NoisyLine),
     "status 1: The line does not get quiet: something sends on it all the time; 0 heard, 0 of them different"),
]


# ---- lines that are none

def file_for_line(bench):
    bench.write("line", b"mine")
    said = bench.ask.run(bench.path("line"), "write 0101 0004")
    return f"{said}; holds {bench.read('line').decode()}"


def held_line(hold):
    """A line that another has: what is said, and that nothing came over it."""
    def trial(bench):
        with PlayedLine() as meter:
            end = os.open(meter.link, os.O_RDWR | os.O_NOCTTY)
            hold(end)
            before = termios.tcgetattr(meter.master_end)
            said = bench.ask.run(meter.link, "read 0101 1").replace(meter.link, "LINE")
            time.sleep(0.1)
            fcntl.ioctl(end, termios.TIOCNXCL)
            os.close(end)
            return f"{said}; {len(meter.heard)} heard, set as before {termios.tcgetattr(meter.master_end) == before}"
    return trial


def own_terminal(bench):
    """The line is the terminal that the program has."""
    with PlayedLine() as meter:
        def take_terminal():
            os.setsid()
            end = os.open(meter.link, os.O_RDWR)
            fcntl.ioctl(end, termios.TIOCSCTTY, 0)
        done_there = bench.ask.started(meter.link, "read 0101 1", preexec_fn=take_terminal)
        time.sleep(0.1)
        return f"{told(done_there.returncode, done_there.stdout, done_there.stderr).replace(meter.link, 'LINE')}; {len(meter.heard)} heard"


def without_terminal(bench, link):
    """In a session of its own, which has none."""
    return bench.ask.run(link, "read 0101 1", start_new_session=True)


def dead_line(bench):
    os.symlink("/dev/pts/999999", bench.path("line"))
    return bench.ask.run(bench.path("line"), "read 0101 1")


EXAMPLE = "give a serial line, as LINK=/dev/ttyUSB0, or the LINK= of a simulated meter"
IN_USE = "another program has it in use: end that one, or wait until it is done"
LINES = [
    ("no line", lambda bench: bench.ask.run(None, "read 0101 1"),
     "status 2: LINK: there is none; name the line, as LINK=/dev/ttyUSB0, or the LINK= of a simulated meter"),
    ("a line that is not there", lambda bench: bench.ask.run(bench.path("none"), "read 0101 1"), f"status 2: LINK: none: it is not there: {EXAMPLE}"),
    ("a link to a line that is gone", dead_line, f"status 2: LINK: line: it is not there: {EXAMPLE}"),
    ("a file", file_for_line, f"status 2: LINK: line: it is a file, and no serial line: {EXAMPLE}; holds mine"),
    ("a folder", lambda bench: bench.ask.run(bench.path("."), "read 0101 1"), f"status 2: LINK: .: it is a folder, and no serial line: {EXAMPLE}"),
    ("a device that is no line", lambda bench: bench.ask.run("/dev/null", "read 0101 1"),
     f"status 2: LINK: /dev/null: it is no serial line: {EXAMPLE}"),
    ("/dev/tty without a terminal", lambda bench: without_terminal(bench, "/dev/tty"),
     f"status 2: LINK: /dev/tty: no line is behind it: {EXAMPLE}"),
    ("a line that is locked", held_line(lambda end: fcntl.flock(end, fcntl.LOCK_EX)),
     f"status 2: LINK: LINE: {IN_USE}; 0 heard, set as before True"),
    ("a line in exclusive use", held_line(lambda end: fcntl.ioctl(end, termios.TIOCEXCL)),
     f"status 2: LINK: LINE: {IN_USE}; 0 heard, set as before True"),
    ("the terminal that this is typed at", own_terminal,
     f"status 2: LINK: LINE: it is the terminal that this was typed at: {EXAMPLE}; 0 heard"),
]


# ---- orders that are bad

FORMS = {"read": ("read ADDRESS COUNT", "read 0103 2"), "record": ("record ADDRESS WORDS", "record 0400 22"),
         "write": ("write ADDRESS VALUE", "write 0101 0004"), "writes": ("writes ADDRESS VALUE ..", "writes 0103 0000 03E8"),
         "clear": ("clear ADDRESS", "clear 0300")}
ALL_FORMS = ", ".join(form for form, _ in FORMS.values())
ONE_OF = f'It is one of: {ALL_FORMS}; as ORDER="read 0103 2"'
ADDRESS, VALUE = "address (hexadecimal, 0000 to FFFF)", "value (hexadecimal, 0000 to FFFF)"
COUNT, WORDS = "count (decimal, 1 to 47)", "number of words (decimal, 1 to 47)"


def bad(order, why):
    """The order is judged ahead of the line, which is not there."""
    form, example = FORMS[order.split()[0]]
    return (f"the order {order}"[:60], lambda bench: bench.ask.run("/none", order), f'status 2: ORDER: {why}; the form is {form}, as ORDER="{example}"')


def bad_setting(text, *options, sheet="ux15_25"):
    return (text, lambda bench: bench.ask.run("/none", "read 0101 1", *options, sheet=sheet))


ORDERS = [
    ("no order", lambda bench: bench.ask.run("/none", None), f"status 2: ORDER: there is none. {ONE_OF}"),
    ("an order of blanks", lambda bench: bench.ask.run("/none", "  "), f"status 2: ORDER: there is none. {ONE_OF}"),
    ("a word that is no order", lambda bench: bench.ask.run("/none", "raed 0103 2"), f"status 2: ORDER: raed is no order. {ONE_OF}"),
    ("a word that is almost an order", lambda bench: bench.ask.run("/none", "rea 0103 2"), f"status 2: ORDER: rea is no order. {ONE_OF}"),
    ("a long word with what is no text", lambda bench: bench.ask.run("/none", "\x1b[31m" + 30 * "wind"),
     f"status 2: ORDER: ?[31mwindwindwindwin.. is no order. {ONE_OF}"),
    bad("read", f"there is no {ADDRESS}"),
    bad("read 01G3 2", f"01G3 is no {ADDRESS}"),
    bad("read 0x 2", f"0x is no {ADDRESS}"),
    bad("read -1 2", f"-1 is no {ADDRESS}"),
    bad("read 10000 1", "an address is 0000 to FFFF"),
    bad("read 100000000000000000103 1", "an address is 0000 to FFFF"),
    bad("read FFFF 2", "there is no address above FFFF, and the order is for 1 more behind FFFF"),
    bad("read 0103", f"there is no {COUNT}"),
    bad("read 0103 0x2", f"0x2 is no {COUNT}"),
    bad("read 0103 2F", f"2F is no {COUNT}"),
    bad("read 0103 0", "a read is of 1 to 47 registers"),
    bad("read 0103 48", "a read is of 1 to 47 registers"),
    bad("read 0103 4294967297", "a read is of 1 to 47 registers"),
    bad("read 0103 2 1", "1 is a word too many"),
    bad("record 0400", f"there is no {WORDS}"),
    bad("record 0400 0", "a record has 1 to 47 words"),
    bad("record 0400 48", "a record has 1 to 47 words"),
    bad("record 10000 22", "an address is 0000 to FFFF"),
    bad("write 0101", f"there is no {VALUE}"),
    bad("write 0101 4.0", f"4.0 is no {VALUE}"),
    bad("write 0101 10000", "a value is 0000 to FFFF"),
    bad("write 0101 0004 0005", "0005 is a word too many"),
    bad("writes 0101", f"there is no {VALUE}"),
    bad("writes 0101 0001 x", f"x is no {VALUE}"),
    bad("writes 0101 10000", f"10000 is no {VALUE}"),
    bad("writes 0100" + 46 * " 0001", "a write is of 1 to 45 values"),
    bad("writes 0100" + 300 * " 0001", "a write is of 1 to 45 values"),
    bad("writes FFFE 0001 0002 0003", "there is no address above FFFF, and the order is for 2 more behind FFFE"),
    bad("clear", f"there is no {ADDRESS}"),
    bad("clear 0300 0000", "0000 is a word too many"),
    bad("clear 10000", "an address is 0000 to FFFF"),
    (*bad_setting("station 0", "-s", "0"), "status 2: STATION takes 1 to 247, and not 0; as STATION=1"),
    (*bad_setting("station 248", "-s", "248"), "status 2: STATION takes 1 to 247, and not 248; as STATION=1"),
    (*bad_setting("a station in hex", "-s", "F7"), "status 2: STATION takes a number, 1 to 247, and not F7; as STATION=1"),
    (*bad_setting("a rate that is none", "-r", "19200"), "status 2: RATE takes 9600 or 4800, and not 19200; as RATE=9600"),
    (*bad_setting("a sheet that is not there", sheet="/none"), "status 2: /none: No such file or directory"),
    ("a word too many", lambda bench: bench.ask.run("/none", "read 0101 1", "more"),
     "status 2: usage: ask -l LINK -o ORDER [-s STATION] [-r RATE] SHEET"),
]


# ---- by make

def by_make(*words):
    """What is printed, and of what is said the first line, or make's own where it says what is wrong."""
    done_there = subprocess.run(["make", "-s", "ask", *words], cwd=ROOT, env=outside_of_make(), capture_output=True, text=True, timeout=60, check=False)
    lines = done_there.stderr.strip().splitlines()
    said = re.sub(r"Makefile:\d+", "Makefile", " / ".join(line.partition("*** ")[2] or line for line in lines))
    return told(done_there.returncode, done_there.stdout, said)


def made(*words):
    """At a simulated meter whose link has a blank."""
    def trial(bench):
        with bench.running("-l", "a line"):
            return by_make("LINK=" + bench.path("a line"), *words)
    return trial


def form_of(command, said):
    """What of it can be compared: of make's own line only the end is the same everywhere, and the words of a record are another meter's."""
    bare = re.sub(r"Makefile:\d+|^ +| +$", "", said, flags=re.M).strip()
    return re.sub(r"\b[0-9A-F]{2,4}\b", "N", bare) if "SHEET=history" in command else bare


def sheet_named(command):
    return "".join(re.findall(r"SHEET=(\S+)", command))


def shown_otherwise(bench, command, lines, link):
    """What a command of the README prints that comes out otherwise than it shows; else nothing."""
    typed = command.replace("/tmp/meter", link).replace("target/demo/ask", " ".join(bench.ask.command))
    done_there = subprocess.run(typed, shell=True, cwd=ROOT, env=outside_of_make(), capture_output=True, text=True, timeout=60, check=False)
    printed, expected = (form_of(command, said) for said in (done_there.stdout + done_there.stderr, lines))
    return f"{command} prints {printed}, and not {expected}" if printed != expected else ""


def shown_in_readme(bench):
    """The README's orders that come out otherwise than it shows, one after the other at a meter that is fresh at first, or at one of its sheet."""
    shown = re.findall(r"^ +\$ ((?:make|target/demo/)\W*ask.*)\n((?: +(?!\$)\S.*\n)*)", parts_of_readme("Preset a total", "Ask a meter"), re.M)
    bench.write("ring", ring_of(2, 3))
    with contextlib.ExitStack() as meters:
        links = {"": bench.path("ux")}
        meters.enter_context(bench.running("-l", "ux"))
        for word, sheet, options in (("history", "history_example", ("-r", "ring", "-e", "86400")), ("aswe_40", "aswe_40", ())):
            bench.sheet, links[word] = os.path.join(ROOT, "sheets", sheet + ".sheet"), bench.path(word)
            meters.enter_context(bench.running("-l", word, *options))
        otherwise = [said for command, lines in shown if (said := shown_otherwise(bench, command, lines, links[sheet_named(command)]))]
    return f"{len(shown)} shown, otherwise: {otherwise}"


MAKE = [
    ("make ask", made("ORDER=read 0101 1"), done("01 03 01 01 00 01", "01 03 02 00 00", "0101 Pulse constant: 1 L/pulse")),
    ("make ask, a sheet and a station", made("SHEET=history", "STATION=1", "RATE=9600", "ORDER=writes 0103 0000 03E8"),
     done("01 10 01 03 00 02 04 00 00 03 E8", "01 10 01 03 00 02", "0103: 0000", "0104: 03E8", names=None)),
    ("make ask, an error", made("ORDER=write 0101 0005"),
     error(WRITE.replace("04", "05"), "01 86 03", BAD_VALUE).replace("status 1", "status 2") + " / [Makefile: ask] Error 1"),
    ("make ask, a bad order", lambda _: by_make("LINK=/none", "ORDER=read 0103"),
     f'status 2: ORDER: there is no {COUNT}; the form is read ADDRESS COUNT, as ORDER="read 0103 2" / [Makefile: ask] Error 2'),
    ("make ask, no order", lambda _: by_make("LINK=/none"), f"status 2: ORDER: there is none. {ONE_OF} / [Makefile: ask] Error 2"),
    ("make ask, no line", lambda _: by_make("ORDER=read 0103 2"),
     "status 2: LINK: there is none; name the line, as LINK=/dev/ttyUSB0, or the LINK= of a simulated meter / [Makefile: ask] Error 2"),
    ("make ask, a sheet of three", lambda _: by_make("SHEET=aswe", "LINK=/none", "ORDER=read 0103 2"),
     "status 2: more than one sheet begins with aswe. SHEET= takes one of: aswe_40 aswe_50 aswe_80 / [Makefile: ask] Error 2"),
    ("make ask, an empty name", lambda _: by_make("ORDER="), "status 2: empty: ORDER. Give each a name, or leave it out. Stop."),
    ("make ask, a name that is misspelt", lambda _: by_make("BAUD=9600"),
     "status 2: make ask takes no BAUD. It takes: SHEET LINK ORDER STATION RATE. Stop."),
    ("what the README shows of make ask", shown_in_readme, "9 shown, otherwise: []"),
]

TRIALS = [*AT_METER, *PRESETS, *AT_PLAYED, *LINES, *ORDERS, *MAKE]
