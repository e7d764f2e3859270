"""What `make why` says: a sentence for each reason, and of what it cannot take, one message and exit status 2. trials.py runs these."""
import os
import re
import subprocess

ROOT = os.path.dirname(os.path.dirname(os.path.abspath(__file__)))
AT_THE_END = (0xFFFD, 0xFFFF, 0, 3)
WITH_READINGS = (0x0010, 0x0012, 0, 3, 0x0020, 0x0021, 3, 1)
RATE_AND_SIGNED_WORD = (0, 1, 0, 0, 0, 1, 1, 2, 0, 0xFFF6, 0, 0x3C)
WORD, SIGNED, PAIR = 0, 1, 2


def bytes_of(words):
    return b"".join(word.to_bytes(2, "big") for word in words)


def check_of(data):
    value = 0xFFFF
    for byte in data:
        value ^= byte
        for _ in range(8):
            value = value >> 1 ^ (0xA001 if value & 1 else 0)
    return value.to_bytes(2, "little")


def sealed(text):
    """A frame in hex, with its check."""
    data = bytes.fromhex(text)
    return (data + check_of(data)).hex(" ").upper()


def sheet_of(functions, areas, stations=(1, 0xF7), records=()):
    """A sheet that is no maker's: areas with a station, a rate and a signed word at places 0 to 2, a clear at 0300, and a record area where one is
    given."""
    items, places = (0, 0, 0, stations[0], 0, stations[1], *RATE_AND_SIGNED_WORD), areas[-2] + areas[-3] + 1 - areas[-4]
    rows = 12 + len(areas)
    words = rows + len(items) + len(records)
    header = (1, len(areas) // 4, 12, 3, rows, places, functions, words, 0, 1, 0x0300 if functions & 2 else 0, 1 if records else 0)
    return bytes_of((*header, *areas, *items, *records))


def sheet_with(kind, low, high):
    """A sheet that is no maker's: a station and a rate, and at 0012 an item of a kind, with its bounds."""
    bounds = [word for bound in (low, high) for word in (bound >> 16 if kind == PAIR else 0, bound & 0xFFFF)]
    items, places = (0, 0, 0, 1, 0, 0xF7, 0, 1, 0, 0, 0, 1, kind, 2, *bounds), 3 + (kind == PAIR)
    return bytes_of((1, 1, 12, 3, 16, places, 15, 34, 0, 1, 0x0300, 0, 0x0010, 0x0010 + places - 1, 0, 3, *items))


def written_only_sheet(version=2, access=2):
    """A sheet that is no maker's: a station, a rate and a signed word at 0010 to 0012, a pair that is only written at 0013, and two readings at 0015."""
    areas = (0x0010, 0x0012, 0, 3, 0x0013, 0x0014, 3, access, 0x0015, 0x0016, 5, 1)
    items = (0, 0, 0, 1, 0, 0xF7, *RATE_AND_SIGNED_WORD, PAIR, 3, 0, 0, 1, 0x869F)
    return bytes_of((version, 3, 12, 4, 24, 7, 13, 48, 0, 1, 0, 0, *areas, *items))


def old_aswe_sheet(stations=(0, 0xFF)):
    """AS-WE, bore 40, as it was up to version 1.2 of the library, or up to 3.1 with stations 1 to 247: that of bore 50, but for the low flow cutoff."""
    with open(os.path.join(ROOT, "sheets", "aswe_50.sheet"), "rb") as file:
        sheet = file.read()
    old = sheet.replace(bytes_of((0, 10, 0, 0, 0, 0x1E)), bytes_of((0, 10, 0, 0, 0, 0x10)))
    return old.replace(bytes_of((0, 9, 0, 1, 0, 0xF7)), bytes_of((0, 9, 0, stations[0], 0, stations[1])))


def kept(bank):
    """The file that a meter keeps, by cedarskein.h, "A power cut"."""
    return 2 * (bank + check_of(bank))


class Why:
    """The program in a folder of its own, and the banks that it is asked about."""

    def __init__(self, command, folder):
        self.command, self.folder = command, folder

    def file(self, name, data):
        path = os.path.join(self.folder, name)
        with open(path, "wb") as file:
            file.write(data)
        return path

    def run(self, sheet, *options, given=b""):
        """What it prints; with an exit status, that and its message."""
        path = sheet if "/" in sheet else os.path.join(ROOT, "sheets", sheet + ".sheet")
        done = subprocess.run([*self.command, *options, path], input=given, capture_output=True, timeout=20, check=False)
        return result_of(done.returncode, done.stdout.decode(), done.stderr.decode().replace(self.folder + "/", "").replace(ROOT + "/", ""))

    def frame(self, text, sheet="ux15_25", **words):
        """A frame with its check, at a fresh bank with some words of its own, as a0103=0x9876."""
        options = ["-b", self.file("bank", ux_bank(**words))] if words else []
        return self.run(sheet, *options, "-f", sealed(text))

    def bank(self, data, sheet="ux15_25"):
        """A read, with a bank of these bytes."""
        return self.run(sheet, "-b", self.file("bank", data), "-f", sealed("02 03 01 00 00 01"))

    def sheet(self, data):
        return self.run(self.file("sheet", data), "-f", "01")

    def capture(self, given):
        return self.run("ux15_25", given=given.encode("latin-1"))


def result_of(status, printed, said):
    printed, said = printed.strip(), said.strip()
    return printed if status == 0 and not said else f"status {status}: {said}" + (f"; printed: {printed}" if printed else "")


def ux_bank(**words):
    """A fresh bank of UX15/25, but for the words given by their addresses."""
    bank = [0] * 35
    bank[0], bank[0x09], bank[0x0D], bank[0x0E] = 0xFFF6, 1, 1, 1
    for name, word in words.items():
        bank[int(name[1:], 16) - 0x0100] = word
    return bytes_of(bank)


def aswe_bank(station, presets=7 * (0,), behind=(0xFF9C, 0, *17 * (0,))):
    """A bank of AS-WE, bore 40, at a station, fresh where nothing else is said. Without presets it is one from before version 3.2 of the library."""
    in_front = (0, 0, 0, 0, 0, 0, 1, 800, 1, station, 0, 500, 0, 1, 1, 0, 0, 1, 0, 1)
    return bytes_of((*in_front, *presets, *behind))


def old_aswe_bank(station):
    return aswe_bank(station, presets=())


def outside_of_make():
    """The environment as it is where no make runs: this one's own words are not the next one's."""
    return {name: value for name, value in os.environ.items() if name not in ("MAKEFLAGS", "MFLAGS", "MAKELEVEL")}


def by_make(*words, given=""):
    done = subprocess.run(["make", "-s", "why", *words], cwd=ROOT, env=outside_of_make(), input=given, capture_output=True, text=True, timeout=60,
                          check=False)
    first = done.stderr.strip().splitlines()[:1]
    return result_of(done.returncode, done.stdout, first[0].partition("*** ")[2] or first[0] if first else "")


def parts_of_readme(*headings):
    with open(os.path.join(ROOT, "README.md"), encoding="utf-8") as page:
        text = page.read()
    return "\n".join(text.partition(f"## {heading}\n")[2].partition("\n## ")[0] for heading in headings)


def shown_in_readme(why):
    """The README's questions that come out otherwise than it shows. Of make's own line only its end is the same everywhere."""
    text = parts_of_readme("Preset a total", "Ask why")
    files = {"/tmp/pump.bank": why.file("pump.bank", kept(ux_bank(a0104=0x9876))),
             "/tmp/pump.ring": why.file("pump.ring", bytes_of((2, 3)) + bytes(2 * 6600 * 22))}
    shown = re.findall(r"^ +\$ (.*make why.*)\n((?: +(?!\$)\S.*\n)*)", text, re.M)
    otherwise = []
    for command, lines in shown:
        for name, file in files.items():
            command = command.replace(name, file)
        done = subprocess.run(command, shell=True, cwd=ROOT, env=outside_of_make(), capture_output=True, text=True,
                              timeout=60, check=False)
        printed, expected = (re.sub(r"Makefile:\d+|^ +| +$", "", said, flags=re.M).strip() for said in (done.stdout + done.stderr, lines))
        if printed != expected:
            otherwise.append(f"{command} prints {printed}, and not {expected}")
    return f"{len(shown)} shown, otherwise: {otherwise}"


FOR_TWO = "Silence: the frame is for station 2; this meter is station 1"
BROADCAST = "the frame is for station 0, the broadcast, which is neither answered nor acted on"
UPPER, LOWER = "the item at 0103, Alarm upper limit,", "the item at 0105, Alarm lower limit,"
LIMIT = "would be too high: it takes 0 to 99999 (0.0 to 9999.9 m3/h), this would be"
TENTH_OF_LIMIT = "; a tenth of it, 10000 (1000.0 m3/h), would be taken"
TEMPERATURE = "the item at 0100, Reference temperature, would be too"
DEGREES = "it takes -10 to 60 degC, this would be"
TENTHS = "Reference temperature, would be too low: it takes -100 to 600 (-10.0 to 60.0 degC), this would be"
REASONS = [
    ("a read of one register", lambda why: why.frame("01 03 01 01 00 01"), "A reply goes out: the frame reads 0101, Pulse constant"),
    ("a read of a pair", lambda why: why.frame("01 03 01 03 00 02"), "A reply goes out: the frame reads 0103 to 0104, Alarm upper limit"),
    ("a read of several", lambda why: why.frame("01 03 01 03 00 04"),
     "A reply goes out: the frame reads 0103, Alarm upper limit, to 0106, Alarm lower limit"),
    ("a write", lambda why: why.frame("01 06 01 16 00 04"), "A reply goes out: the frame writes 0116, Gas"),
    ("a write of several", lambda why: why.frame("01 10 01 0F 00 02 04 00 01 13 88"),
     "A reply goes out: the frame writes 010F, Flow conversion, to 0110, Gas pressure setting"),
    ("a clear", lambda why: why.frame("01 05 03 00 00 00"), "A reply goes out: the frame clears the alarm mark"),
    ("one byte", lambda why: why.run("ux15_25", "-f", "01"), "Silence: the frame has 1 byte; the shortest has 4"),
    ("three bytes", lambda why: why.run("ux15_25", "-f", "01 03 01"), "Silence: the frame has 3 bytes; the shortest has 4"),
    ("100 bytes are not too long", lambda why: why.frame("01 07" + 96 * " 00"),
     "Error 01: the frame has function 07; this meter takes 03, 05, 06, 10"),
    ("101 bytes", lambda why: why.frame("01 07" + 97 * " 00"), "Silence: the frame has over 100 bytes; the longest has 100"),
    ("a check that does not agree", lambda why: why.run("ux15_25", "-f", "01 06 01 04 13 08 C4 A1"),
     "Silence: the check does not agree: the frame ends in C4 A1, its other bytes give C5 01"),
    ("another station", lambda why: why.frame("02 06 01 04 13 88"), "Silence: the frame is for station 2; this meter is station 1"),
    ("another station than the bank's", lambda why: why.frame("01 06 01 04 13 88", a010E=7),
     "Silence: the frame is for station 1; this meter is station 7"),
    ("the broadcast", lambda why: why.frame("00 06 01 04 13 88"), f"Silence: {BROADCAST}; this meter is station 1"),
    ("the broadcast of a read", lambda why: why.frame("00 03 01 04 00 01", a010E=247), f"Silence: {BROADCAST}; this meter is station 247"),
    ("the broadcast at AS-WE", lambda why: why.frame("00 06 01 08 00 02", "aswe_40"), f"Silence: {BROADCAST}; this meter is station 1"),
    ("the broadcast of a function that is none", lambda why: why.frame("00 07"), f"Silence: {BROADCAST}; this meter is station 1"),
    ("a check that does not agree comes before the broadcast", lambda why: why.run("ux15_25", "-f", "00 07 00 00"),
     "Silence: the check does not agree: the frame ends in 00 00, its other bytes give 40 72"),
    ("the last station", lambda why: why.frame("F7 06 01 04 13 88"), "Silence: the frame is for station 247; this meter is station 1"),
    ("the first station behind it", lambda why: why.frame("F8 06 01 04 13 88"),
     "Silence: the frame is for station 248, which no meter has: stations are 1 to 247; this meter is station 1"),
    ("the highest byte for a station", lambda why: why.frame("FF 06 01 08 00 02", "aswe_40"),
     "Silence: the frame is for station 255, which no meter has: stations are 1 to 247; this meter is station 1"),
    ("function 04", lambda why: why.frame("01 04 01 00 00 01"), "Error 01: the frame has function 04; this meter takes 03, 05, 06, 10"),
    ("a clear at AS-WE", lambda why: why.frame("01 05 03 00 00 00", "aswe_40"), "Error 01: the frame has function 05; this meter takes 03, 06, 10"),
    ("a meter that takes no function", lambda why: why.frame("01 03 FF FD 00 01", why.file("sheet", sheet_of(0, AT_THE_END))),
     "Error 01: the frame has function 03; this meter takes none"),
    ("06 of 9 bytes", lambda why: why.frame("01 06 01 01 00 01 00"), "Silence: the frame has 9 bytes; with function 06 it has 8"),
    ("10 of 8 bytes", lambda why: why.frame("01 10 01 01 00 01"), "Silence: the frame has 8 bytes; with function 10 it has 9 or more"),
    ("10 that is cut short", lambda why: why.frame("01 10 01 01 00 02 04 00 01 00"),
     "Silence: the frame has 12 bytes; with function 10 and a byte count of 4 it has 13"),
    ("a read of none", lambda why: why.frame("01 03 01 00 00 00"), "Error 03: the frame reads 0 registers; a read is of 1 to 47"),
    ("a read of 48", lambda why: why.frame("01 03 01 00 00 30"), "Error 02: the frame reads 48 registers; a read is of 1 to 47"),
    ("a write of none", lambda why: why.frame("01 10 01 00 00 00 00"), "Error 03: the frame writes 0 registers; a write is of 1 to 45"),
    ("a byte count that does not fit", lambda why: why.frame("01 10 01 01 00 01 04 00 01 00 00"),
     "Error 03: the frame has a byte count of 4; 1 register has 2 bytes"),
    ("a byte count that does not fit several", lambda why: why.frame("01 10 01 01 00 81 02 00 01"),
     "Error 03: the frame has a byte count of 2; 129 registers have 258 bytes"),
    ("no such register", lambda why: why.frame("01 06 01 17 00 00"), "Error 02: this meter has no register at 0117"),
    ("a read that runs too far", lambda why: why.frame("01 03 01 00 00 18"),
     "Error 02: this meter has no register at 0117; the frame is for 24 registers from 0100 on"),
    ("a write of a reading", lambda why: why.frame("01 06 02 00 00 00"), "Error 02: 0200, Flow, can only be read"),
    ("a write of the last reading", lambda why: why.frame("01 06 02 0A 00 00"), "Error 02: 020A, Error bits, can only be read"),
    ("a read of the clear address", lambda why: why.frame("01 03 03 00 00 01"),
     "Error 02: 0300, Volume alarm clear, takes a clear, function 05, and nothing else"),
    ("a clear elsewhere", lambda why: why.frame("01 05 03 01 00 01"), "Error 02: a clear goes to 0300, Volume alarm clear; this one is for 0301"),
    ("a read past FFFF", lambda why: why.frame("01 03 FF FE 00 03", why.file("sheet", sheet_of(15, AT_THE_END))),
     "Error 02: there is no address above FFFF; the frame is for 3 registers from FFFE on"),
    ("a clear with a value", lambda why: why.frame("01 05 03 00 FF 00"), "Error 03: the clear has the value FF00; it takes 0000 alone"),
    ("half of a pair, P4", lambda why: why.frame("01 06 01 03 00 01", a0104=0x9876),
     f"Error 03: {UPPER} {LIMIT} 104566 (10456.6 m3/h), with 9876 still at 0104"),
    ("the lower half of a pair", lambda why: why.frame("01 06 01 04 98 76", a0103=1),
     f"Error 03: {UPPER} {LIMIT} 104566 (10456.6 m3/h), with 0001 still at 0103"),
    ("a pair, the second of three", lambda why: why.frame("01 10 01 03 00 06 0C 00 00 03 E8 00 01 86 A0 00 00 00 32"),
     f"Error 03: {LOWER} {LIMIT} 100000 (10000.0 m3/h){TENTH_OF_LIMIT}"),
    ("the upper half at the end of a write", lambda why: why.frame("01 10 01 02 00 02 04 00 00 00 02", a0104=0x0001),
     f"Error 03: {UPPER} {LIMIT} 131073 (13107.3 m3/h), with 0001 still at 0104"),
    ("the lower half at the start of a write", lambda why: why.frame("01 10 01 04 00 02 04 98 76 00 00", a0103=1),
     f"Error 03: {UPPER} {LIMIT} 104566 (10456.6 m3/h), with 0001 still at 0103"),
    ("a value that is a word", lambda why: why.frame("01 06 01 01 00 05"),
     "Error 03: the item at 0101, Pulse constant, would be too high: it takes 0 to 4 (1, 10, 100, 1000, 10000 L/pulse), this would be 5"),
    ("below zero", lambda why: why.frame("01 06 01 00 FF F5"),
     f"Error 03: {TEMPERATURE} low: {DEGREES} -11 degC"),
    ("below zero, in tenths", lambda why: why.frame("01 06 01 23 FF 9B", "aswe_80"),
     f"Error 03: the item at 0123, {TENTHS} -101 (-10.1 degC)"),
    ("steps of five", lambda why: why.frame("01 06 01 13 01 21", "aswe_40"),
     "Error 03: the item at 0113, History interval, would be too high: it takes 1 to 288 (5 to 1440 min), this would be 289 (1445 min)"),
    ("a number without a unit", lambda why: why.frame("01 06 01 0E 00 F8"),
     "Error 03: the item at 010E, Station, would be too high: it takes 1 to 247, this would be 248"),
    ("the broadcast for a station", lambda why: why.frame("01 06 01 08 00 00", "aswe_40"),
     "Error 03: the item at 0108, Station, would be too low: it takes 1 to 247, this would be 0"),
    ("a meter of no maker", lambda why: why.frame("01 06 FF FF FF F5", why.file("sheet", sheet_of(15, AT_THE_END))),
     "Error 03: the item at FFFF would be too low: it takes -10 to 60, this would be -11"),
    ("a meter of no maker, a write past an area",
     lambda why: why.frame("01 10 00 12 00 02 04 00 00 00 00", why.file("sheet", sheet_of(15, WITH_READINGS))),
     "Error 02: this meter has no register at 0013; the frame is for 2 registers from 0012 on"),
    ("a meter of no maker, a write of a reading", lambda why: why.frame("01 06 00 20 00 00", why.file("sheet", sheet_of(15, WITH_READINGS))),
     "Error 02: 0020 can only be read"),
    ("a meter of no maker, a read of the clear address", lambda why: why.frame("01 03 03 00 00 01", why.file("sheet", sheet_of(15, WITH_READINGS))),
     "Error 02: 0300 takes a clear, function 05, and nothing else"),
    ("a meter of no maker, a clear elsewhere", lambda why: why.frame("01 05 03 01 00 00", why.file("sheet", sheet_of(15, WITH_READINGS))),
     "Error 02: a clear goes to 0300; this one is for 0301"),
    ("a meter of no maker replies", lambda why: why.frame("01 03 FF FD 00 03", why.file("sheet", sheet_of(15, AT_THE_END))),
     "A reply goes out: the frame reads FFFD to FFFF"),
]

NOT_READ = "can be written but not read"
UPPER_DIGIT = "the item at 0118, Preset volume upper digit, would be too high: it takes 0 to 9 (0 to 90000000 m3), this would be"
MIDDLE_DIGITS = "the item at 0119, Preset volume middle digits, would be too high: it takes 0 to 9999 (0 to 9999000 m3), this would be"
LOWER_DIGITS = "the item at 011A, Preset volume lower digits, would be too high: it takes 0 to 9999 (0.0 to 999.9 m3), this would be"


def at_aswe(text):
    return lambda why: why.frame(text, "aswe_40")


def at_old_aswe(text):
    return lambda why: why.frame(text, why.file("sheet", old_aswe_sheet((1, 0xF7))))


def at_written_only(text):
    return lambda why: why.frame(text, why.file("sheet", written_only_sheet()))


def with_sheet(*given):
    return lambda why: why.sheet(written_only_sheet(*given))


PRESETS = [
    ("a read of a preset", at_aswe("01 03 01 18 00 01"), f"Error 02: 0118, Preset volume upper digit, {NOT_READ}"),
    ("a read of the last preset's lower half", at_aswe("01 03 01 1E 00 01"), f"Error 02: 011E, Preset reverse volume, {NOT_READ}"),
    ("a read of all presets", at_aswe("01 03 01 18 00 07"),
     f"Error 02: 0118, Preset volume upper digit, {NOT_READ}; the frame is for 7 registers from 0118 on"),
    ("a read that comes to the presets over a gap", at_aswe("01 03 01 16 00 03"),
     "Error 02: this meter has no register at 0117; the frame is for 3 registers from 0116 on"),
    ("a read of a preset, and of too many", at_aswe("01 03 01 18 00 30"), "Error 02: the frame reads 48 registers; a read is of 1 to 47"),
    ("a preset at its highest", at_aswe("01 06 01 18 00 09"), "A reply goes out: the frame writes 0118, Preset volume upper digit"),
    ("a preset that is too high", at_aswe("01 06 01 18 00 0A"),
     f"Error 03: {UPPER_DIGIT} 10 (100000000 m3)"),
    ("the second of three is too high", at_aswe("01 10 01 18 00 03 06 00 09 27 10 27 0F"),
     f"Error 03: {MIDDLE_DIGITS} 10000 (10000000 m3)"),
    ("the third of three is too high", at_aswe("01 10 01 18 00 03 06 00 09 27 0F 27 11"), f"Error 03: {LOWER_DIGITS} 10001 (1000.1 m3)"),
    ("three at their highest", at_aswe("01 10 01 18 00 03 06 00 09 27 0F 27 0F"),
     "A reply goes out: the frame writes 0118, Preset volume upper digit, to 011A, Preset volume lower digits"),
    ("a pair for which no value is bad", at_aswe("01 10 01 1B 00 02 04 FF FF FF FF"),
     "A reply goes out: the frame writes 011B to 011C, Preset second volume"),
    ("half of it", at_aswe("01 06 01 1C FF FF"), "A reply goes out: the frame writes 011C, Preset second volume"),
    ("all presets", at_aswe("01 10 01 18 00 07 0E" + 7 * " 00 01"),
     "A reply goes out: the frame writes 0118, Preset volume upper digit, to 011E, Preset reverse volume"),
    ("a write behind the presets", at_aswe("01 10 01 1E 00 02 04 00 00 00 00"),
     "Error 02: this meter has no register at 011F; the frame is for 2 registers from 011E on"),
    ("bore 50 has no presets", lambda why: why.frame("01 06 01 18 00 01", "aswe_50"), "Error 02: this meter has no register at 0118"),
    ("nor had bore 40", at_old_aswe("01 06 01 18 00 01"), "Error 02: this meter has no register at 0118"),
    (".. whose registers have their names still", at_old_aswe("01 06 01 09 00 11"),
     "Error 03: the item at 0109, Low flow cutoff, would be too high: it takes 0 to 16 (0.0 to 1.6 m3/h), this would be 17 (1.7 m3/h)"),
    ("a meter of no maker, a read", at_written_only("01 03 00 13 00 01"), f"Error 02: 0013 {NOT_READ}"),
    ("a meter of no maker, a run into what is only written", at_written_only("01 03 00 10 00 07"),
     f"Error 02: 0013 {NOT_READ}; the frame is for 7 registers from 0010 on"),
    ("a meter of no maker, up to it", at_written_only("01 03 00 10 00 03"), "A reply goes out: the frame reads 0010 to 0012"),
    ("a meter of no maker, behind it", at_written_only("01 03 00 15 00 02"), "A reply goes out: the frame reads 0015 to 0016"),
    ("a meter of no maker, a write of both kinds", at_written_only("01 10 00 12 00 02 04 00 00 00 01"),
     "A reply goes out: the frame writes 0012 to 0013"),
    ("a meter of no maker, a write on into the readings", at_written_only("01 10 00 14 00 02 04 00 00 00 00"),
     "Error 02: 0015 can only be read; the frame is for 2 registers from 0014 on"),
    ("a meter of no maker, half a pair", at_written_only("01 06 00 13 00 02"),
     "Error 03: the item at 0013 would be too high: it takes 0 to 99999, this would be 131072, with 0000 still at 0014"),
    ("version 2 without what is only written", lambda why: why.frame("01 03 00 10 00 05", why.file("sheet", written_only_sheet(access=3))),
     "A reply goes out: the frame reads 0010 to 0014"),
    ("version 1 with what is only written", with_sheet(1),
     "status 2: sheet: no sheet: its version is 1, and its registers from 0013 on can only be written (access 2), which by request W7 of document 02 "
     "takes version 2"),
    ("version 3", with_sheet(3), "status 2: sheet: no sheet: its version is 3; there are versions 1 and 2"),
    ("version 0", with_sheet(0, 3), "status 2: sheet: no sheet: its version is 0; there are versions 1 and 2"),
    ("an access that is none", with_sheet(2, 4), "status 2: sheet: no sheet: it breaks a rule of document 01"),
    ("version 3 and an access that is none", with_sheet(3, 0), "status 2: sheet: no sheet: it breaks a rule of document 01"),
]


def missed(kind, low, high, number, side, more=""):
    """A number that an item of a meter of no maker does not take, and what is said of it."""
    words = bytes_of((number >> 16, number & 0xFFFF) if kind == PAIR else (number & 0xFFFF,))
    frame = f"01 10 00 12 00 {len(words) // 2:02X} {len(words):02X} {words.hex(' ')}"
    text = f"{('a word', 'a signed word', 'a pair')[kind]} of {low} to {high}: {number}"
    return (text, lambda why: why.frame(frame, why.file("sheet", sheet_with(kind, low, high))),
            f"Error 03: the item at 0012 would be too {side}: it takes {low} to {high}, this would be {number}{more}")


def missed_by_half(low, high, frame, said):
    """The same of half a pair. A fresh bank has the low bound in its other half."""
    return f"{frame} at a pair of {low} to {high}", lambda why: why.frame(frame, why.file("sheet", sheet_with(PAIR, low, high))), f"Error 03: {said}"


def tenth(number):
    return f"; a tenth of it, {number}, would be taken"


def ten_times(number):
    return f"; ten times it, {number}, would be taken"


SIDES = [
    missed(WORD, 5, 50, 4, "low", ten_times(40)), missed(WORD, 5, 50, 51, "high"), missed(WORD, 5, 50, 0, "low"), missed(WORD, 0, 50, 0xFFFF, "high"),
    missed(WORD, 0xFFF0, 0xFFFF, 0xFFEF, "low"), missed(WORD, 0x7FFF, 0x8000, 0x7FFE, "low"), missed(WORD, 0x7FFF, 0x8000, 0x8001, "high"),
    missed(SIGNED, -10, 60, -11, "low"), missed(SIGNED, -10, 60, 61, "high"), missed(SIGNED, -10, 60, -32768, "low"),
    missed(SIGNED, -10, 60, 32767, "high"), missed(SIGNED, 5, 60, -1, "low"), missed(SIGNED, 5, 60, 0, "low"), missed(SIGNED, -60, -5, 0, "high"),
    missed(SIGNED, -60, -5, 1, "high"), missed(SIGNED, -60, -5, -61, "low"),
    missed(PAIR, 70000, 99999, 69999, "low"), missed(PAIR, 70000, 99999, 100000, "high"), missed(PAIR, 0, 99999, 0xFFFFFFFF, "high"),
    missed(PAIR, 0x80000000, 0xFFFFFFFE, 0x7FFFFFFF, "low"), missed(PAIR, 0x80000000, 0xFFFFFFFE, 0xFFFFFFFF, "high"),
    ("a temperature that is too high", lambda why: why.frame("01 06 01 00 00 3D"), f"Error 03: {TEMPERATURE} high: {DEGREES} 61 degC"),
    ("a bad item of a damaged frame", lambda why: why.run("ux15_25", "-f", "01 06 01 00 02 58 88 AD"),
     "Silence: the check does not agree: the frame ends in 88 AD, its other bytes give 88 AC"),
    ("a bad item for another station", lambda why: why.frame("02 06 01 00 02 58"), FOR_TWO),
    ("a bad item, and an address that is none", lambda why: why.frame("01 10 01 16 00 02 04 00 0A 00 00"),
     "Error 02: this meter has no register at 0117; the frame is for 2 registers from 0116 on"),
]

FACTOR_OF_TEN = [
    missed(WORD, 5, 50, 500, "high", tenth(50)), missed(WORD, 5, 50, 510, "high"), missed(WORD, 5, 50, 501, "high"), missed(WORD, 5, 50, 499, "high"),
    missed(WORD, 5, 50, 60, "high", tenth(6)), missed(WORD, 50, 60, 500, "high", tenth(50)), missed(WORD, 50, 60, 490, "high"),
    missed(WORD, 50, 60, 600, "high", tenth(60)), missed(WORD, 50, 60, 610, "high"), missed(WORD, 50, 60, 70, "high"),
    missed(WORD, 50, 60, 5, "low", ten_times(50)), missed(WORD, 50, 60, 6, "low", ten_times(60)), missed(WORD, 50, 60, 4, "low"),
    missed(WORD, 50, 60, 7, "low"), missed(WORD, 0, 7000, 0xFFF0, "high", tenth(6552)), missed(WORD, 10000, 0xFFFF, 6553, "low", ten_times(65530)),
    missed(WORD, 10000, 0xFFFF, 8000, "low"),
    missed(SIGNED, -10, 60, 600, "high", tenth(60)), missed(SIGNED, -10, 60, 610, "high"), missed(SIGNED, -10, 60, 605, "high"),
    missed(SIGNED, -10, 60, -100, "low", tenth(-10)), missed(SIGNED, -10, 60, -110, "low"), missed(SIGNED, -10, 60, -99, "low"),
    missed(SIGNED, -100, -50, -5, "high", ten_times(-50)), missed(SIGNED, -100, -50, -4, "high"), missed(SIGNED, -100, -50, -11, "high"),
    missed(SIGNED, -100, -50, -1000, "low", tenth(-100)), missed(SIGNED, 50, 600, 5, "low", ten_times(50)), missed(SIGNED, 50, 600, -5, "low"),
    missed(SIGNED, 5000, 32767, 4000, "low"),
    missed(PAIR, 0, 99999, 100000, "high", tenth(10000)), missed(PAIR, 0, 99999, 999990, "high", tenth(99999)),
    missed(PAIR, 0, 99999, 1000000, "high"), missed(PAIR, 0, 99999, 999999, "high"),
    missed(PAIR, 0, 429496729, 4294967290, "high", tenth(429496729)), missed(PAIR, 70000, 99999, 7000, "low", ten_times(70000)),
    missed(PAIR, 70000, 99999, 6999, "low"), missed(PAIR, 70000, 99999, 9999, "low", ten_times(99990)), missed(PAIR, 70000, 99999, 10000, "low"),
    missed(PAIR, 1000000000, 0xFFFFFFFF, 429496729, "low", ten_times(4294967290)), missed(PAIR, 1000000000, 0xFFFFFFFF, 800000000, "low"),
    ("a tenth, in degrees", lambda why: why.frame("01 06 01 00 02 58"),
     f"Error 03: {TEMPERATURE} high: {DEGREES} 600 degC; a tenth of it, 60 degC, would be taken"),
    ("a tenth, below zero", lambda why: why.frame("01 06 01 00 FF 9C"),
     f"Error 03: {TEMPERATURE} low: {DEGREES} -100 degC; a tenth of it, -10 degC, would be taken"),
    ("a tenth, in tenths below zero", lambda why: why.frame("01 06 01 23 FC 18", "aswe_40"),
     f"Error 03: the item at 0123, {TENTHS} -1000 (-100.0 degC); a tenth of it, -100 (-10.0 degC), would be taken"),
    ("ten times, in its unit", lambda why: why.frame("01 06 01 06 00 50", "aswe_40"),
     "Error 03: the item at 0106, Compressibility factor, would be too low: it takes 800 to 1200 (0.800 to 1.200), this would be 80 (0.080); "
     "ten times it, 800 (0.800), would be taken"),
    ("a tenth that is a word", lambda why: why.frame("01 06 01 16 00 0A"),
     "Error 03: the item at 0116, Gas, would be too high: it takes 0 to 4 (13A, propane, butane, nitrogen, air), this would be 10; "
     "a tenth of it, 1 (propane), would be taken"),
    ("a tenth that is a word with a unit", lambda why: why.frame("01 06 01 01 00 1E"),
     "Error 03: the item at 0101, Pulse constant, would be too high: it takes 0 to 4 (1, 10, 100, 1000, 10000 L/pulse), this would be 30; "
     "a tenth of it, 3 (1000 L/pulse), would be taken"),
    ("a pair, its tenth", lambda why: why.frame("01 10 01 03 00 02 04 00 01 86 A0"),
     f"Error 03: {UPPER} {LIMIT} 100000 (10000.0 m3/h){TENTH_OF_LIMIT}"),
    ("the lower half: a tenth has another upper one", lambda why: why.frame("01 06 01 04 86 A0", a0103=1),
     f"Error 03: {UPPER} {LIMIT} 100000 (10000.0 m3/h), with 0001 still at 0103"),
    ("the upper half: a tenth has another lower one", lambda why: why.frame("01 06 01 03 00 05"),
     f"Error 03: {UPPER} {LIMIT} 327680 (32768.0 m3/h), with 0000 still at 0104"),
    ("the upper half: a tenth has the same lower one", lambda why: why.frame("01 06 01 03 00 0A"),
     f"Error 03: {UPPER} {LIMIT} 655360 (65536.0 m3/h), with 0000 still at 0104; a tenth of it, 65536 (6553.6 m3/h), would be taken"),
    ("the upper half at the end of a write: a tenth has another lower one", lambda why: why.frame("01 10 01 02 00 02 04 00 00 00 05"),
     f"Error 03: {UPPER} {LIMIT} 327680 (32768.0 m3/h), with 0000 still at 0104"),
    ("both halves and more", lambda why: why.frame("01 10 01 02 00 04 08 00 00 00 05 00 00 00 00"),
     f"Error 03: {UPPER} {LIMIT} 327680 (32768.0 m3/h); a tenth of it, 32768 (3276.8 m3/h), would be taken"),
    missed_by_half(0, 9999, "01 06 00 13 C3 50",
                   "the item at 0012 would be too high: it takes 0 to 9999, this would be 50000, with 0000 still at 0012" + tenth(5000)),
    missed_by_half(1000, 60000, "01 06 00 13 00 64",
                   "the item at 0012 would be too low: it takes 1000 to 60000, this would be 100, with 0000 still at 0012" + ten_times(1000)),
    missed_by_half(70000, 99999, "01 06 00 12 00 00",
                   "the item at 0012 would be too low: it takes 70000 to 99999, this would be 4464, with 1170 still at 0013"),
    missed_by_half(70000, 99999, "01 06 00 13 00 00",
                   "the item at 0012 would be too low: it takes 70000 to 99999, this would be 65536, with 0001 still at 0012"),
    missed_by_half(20000, 99999, "01 06 00 13 1F 40",
                   "the item at 0012 would be too low: it takes 20000 to 99999, this would be 8000, with 0000 still at 0012"),
]

NOT_SOUND = "it is not sound: an item is out of its range, or the mark is neither 0 nor 1"
MOVABLE = 'and this sheet takes 1 to 247; all else in it is good, and include/cedarskein.h, "Stations", says how it gets another one'
WITHIN = "they must lie within 1 to 247, as those of the files in sheets/ do"
SIZES = "a bank of this sheet has 70, and a file that make meter keeps has 144"
OLD = "by its size it is of the AS-WE 40 from before version 3.2"
NOT_CARRIED = f"{OLD}, whose banks demo/carried.c carries over"
CARRIED = (f"status 0: the bank bank: {OLD}; the frames are judged with it carried over to this sheet, the presets 0118 to 011E at 0. "
           "The file is left as it is; printed: Silence: the frame is for station 2; this meter is station 5")


def spoiled(file, *places):
    """A file with some bytes turned. In these banks place 24, the lower byte of the year, may be anything, and only the check value can tell."""
    return bytes(byte ^ 0xFF if place in places else byte for place, byte in enumerate(file))


def old_bank(data):
    """A bank for AS-WE, bore 40, and whether its file is as it was."""
    def trial(why):
        said = why.bank(data, "aswe_40")
        with open(os.path.join(why.folder, "bank"), "rb") as file:
            return said if file.read() == data and os.listdir(why.folder) == ["bank"] else f"{said}; and the file is another"
    return trial


OLD_BANKS = [
    ("an old bank's own bytes", old_bank(old_aswe_bank(5)), CARRIED),
    ("an old bank that a meter kept", old_bank(kept(old_aswe_bank(5))), CARRIED),
    ("an old bank, its first copy spoiled", old_bank(spoiled(kept(old_aswe_bank(5)), 24)), CARRIED),
    ("an old bank, its second copy spoiled", old_bank(spoiled(kept(old_aswe_bank(5)), 80 + 24)), CARRIED),
    ("an old bank, both copies spoiled", old_bank(spoiled(kept(old_aswe_bank(5)), 24, 80 + 24)),
     f"status 2: the bank bank: {NOT_CARRIED}; neither copy in it is a good bank"),
    ("an old bank, two copies that are not sound", old_bank(kept(aswe_bank(5, (), (0x0259, *18 * (0,))))),
     f"status 2: the bank bank: {NOT_CARRIED}; neither copy in it is a good bank"),
    ("an old bank, the first of two copies is not sound", old_bank(kept(aswe_bank(5, (), (0x0259, *18 * (0,))))[:80] + kept(old_aswe_bank(5))[80:]),
     CARRIED),
    ("an old bank's own bytes that are not sound", old_bank(old_aswe_bank(5)[:-1] + b"\2"), f"status 2: the bank bank: {NOT_CARRIED}; {NOT_SOUND}"),
    ("an old bank at station 0", old_bank(old_aswe_bank(0)), f"status 2: the bank bank: {NOT_CARRIED}; its station is 0, {MOVABLE}"),
    ("an old bank that a meter kept at station 255", old_bank(kept(old_aswe_bank(255))),
     f"status 2: the bank bank: {NOT_CARRIED}; its station is 255, {MOVABLE}"),
    ("an old bank at station 248, its first copy spoiled", old_bank(spoiled(kept(old_aswe_bank(248)), 24)),
     f"status 2: the bank bank: {NOT_CARRIED}; its station is 248, {MOVABLE}"),
    ("an old bank at station 0 that is not sound either", old_bank(old_aswe_bank(0)[:-1] + b"\2"), f"status 2: the bank bank: {NOT_CARRIED}; {NOT_SOUND}"),
    ("an old bank with a byte too many", old_bank(old_aswe_bank(5) + b"\0"),
     "status 2: the bank bank: it has 79 bytes; a bank of this sheet has 92, and a file that make meter keeps has 188"),
    ("a bank of bore 50 has as many bytes still", lambda why: why.bank(old_aswe_bank(5), "aswe_50"),
     "Silence: the frame is for station 2; this meter is station 5"),
    ("an old bank with its old sheet", lambda why: why.bank(old_aswe_bank(5), why.file("sheet", old_aswe_sheet((1, 0xF7)))),
     "Silence: the frame is for station 2; this meter is station 5"),
    ("an old bank for another meter", lambda why: why.bank(kept(old_aswe_bank(5))), f"status 2: the bank bank: it has 160 bytes; {SIZES}"),
]

BANKS = [
    ("a bank's own bytes", lambda why: why.bank(ux_bank()), FOR_TWO),
    ("a bank that a meter keeps", lambda why: why.bank(kept(ux_bank())), FOR_TWO),
    ("a first copy that is spoiled", lambda why: why.bank(b"\1" + kept(ux_bank())[1:]), FOR_TWO),
    ("both copies spoiled", lambda why: why.bank(72 * b"\1" + kept(ux_bank())[72:-1] + b"\1"),
     "status 2: the bank bank: neither copy in it is a good bank of this sheet"),
    ("two copies that are not sound", lambda why: why.bank(kept(ux_bank(a0101=5))),
     "status 2: the bank bank: neither copy in it is a good bank of this sheet"),
    ("an item out of its range", lambda why: why.bank(ux_bank(a0101=5)), f"status 2: the bank bank: {NOT_SOUND}"),
    ("a bank at station 0", lambda why: why.bank(ux_bank(a010E=0)), f"status 2: the bank bank: its station is 0, {MOVABLE}"),
    ("a bank at station 248", lambda why: why.bank(ux_bank(a010E=248)), f"status 2: the bank bank: its station is 248, {MOVABLE}"),
    ("a bank at station 247", lambda why: why.bank(ux_bank(a010E=247)), "Silence: the frame is for station 2; this meter is station 247"),
    ("a kept bank at station 0", lambda why: why.bank(kept(aswe_bank(0)), "aswe_40"), f"status 2: the bank bank: its station is 0, {MOVABLE}"),
    ("a kept bank at station 255", lambda why: why.bank(kept(aswe_bank(255)), "aswe_40"), f"status 2: the bank bank: its station is 255, {MOVABLE}"),
    ("a kept bank at station 5", lambda why: why.bank(kept(aswe_bank(5)), "aswe_40"), "Silence: the frame is for station 2; this meter is station 5"),
    ("a kept bank at station 0, its first copy spoiled", lambda why: why.bank(b"\1" + kept(aswe_bank(0))[1:], "aswe_40"),
     f"status 2: the bank bank: its station is 0, {MOVABLE}"),
    ("a kept bank at station 0, both copies spoiled", lambda why: why.bank(2 * (aswe_bank(0) + b"\0\0"), "aswe_40"),
     "status 2: the bank bank: neither copy in it is a good bank of this sheet"),
    ("a bank at station 0 with another item out of its range", lambda why: why.bank(ux_bank(a010E=0, a0101=5)),
     f"status 2: the bank bank: {NOT_SOUND}"),
    *OLD_BANKS,
    ("a mark of 2", lambda why: why.bank(ux_bank()[:-1] + b"\2"), f"status 2: the bank bank: {NOT_SOUND}"),
    ("an empty bank", lambda why: why.bank(b""), f"status 2: the bank bank: it has 0 bytes; {SIZES}"),
    ("a bank of AS-WE", lambda why: why.bank(bytes(78)), f"status 2: the bank bank: it has 78 bytes; {SIZES}"),
    ("a file that is longer than any bank", lambda why: why.bank(bytes(5000)), "status 2: the bank bank: it is longer than any bank"),
    ("a bank that is not there", lambda why: why.run("ux15_25", "-b", why.folder + "/none", "-f", "01"),
     "status 2: the bank none: No such file or directory"),
    ("a folder for a bank", lambda why: why.run("ux15_25", "-b", why.folder + "/.", "-f", "01"), "status 2: the bank .: Is a directory"),
    ("a sheet that is not sound", lambda why: why.sheet(sheet_of(16, AT_THE_END)), "status 2: sheet: no sheet: it breaks a rule of document 01"),
    ("AS-WE from before version 1.3", lambda why: why.sheet(old_aswe_sheet()), f"status 2: sheet: no sheet: its stations are 0 to 255; {WITHIN}"),
    ("a sheet with stations from 0 on", lambda why: why.sheet(sheet_of(15, AT_THE_END, (0, 0xF7))),
     f"status 2: sheet: no sheet: its stations are 0 to 247; {WITHIN}"),
    ("a sheet with stations up to 248", lambda why: why.sheet(sheet_of(15, AT_THE_END, (1, 0xF8))),
     f"status 2: sheet: no sheet: its stations are 1 to 248; {WITHIN}"),
    ("a sheet with stations in the wrong order", lambda why: why.sheet(sheet_of(15, AT_THE_END, (2, 1))),
     "status 2: sheet: no sheet: it breaks a rule of document 01"),
    ("a sheet with stations 0 to 255 that is not sound either", lambda why: why.sheet(sheet_of(16, AT_THE_END, (0, 0xFF))),
     "status 2: sheet: no sheet: it breaks a rule of document 01"),
    ("a sheet that ends in the station's row", lambda why: why.sheet(sheet_of(15, AT_THE_END, (0, 0xFF))[:40]),
     "status 2: sheet: no sheet: it breaks a rule of document 01"),
    ("a sheet that ends in its header", lambda why: why.sheet(old_aswe_sheet()[:23]), "status 2: sheet: no sheet: it breaks a rule of document 01"),
    ("a file that is longer than any sheet", lambda why: why.sheet(bytes(863)), "status 2: sheet: no sheet: it is longer than any"),
    ("a sheet that is not there", lambda why: why.run(why.folder + "/none", "-f", "01"), "status 2: none: No such file or directory"),
    ("a bank where there is no sheet", lambda why: why.run(why.folder + "/none", "-b", why.folder + "/none", "-f", "zz"),
     "status 2: none: No such file or directory"),
    ("a word too many", lambda why: why.run("ux15_25", "-f", "01", "02"), "status 2: usage: why [-b BANK] [-r RING] [-f FRAME] SHEET"),
]

ODD = "has an odd number of digits, and a byte has two"
NEW_STATION = sealed("01 06 01 0E 00 02")
CAPTURE = f"""# sent to the pump house
{sealed("02 03 01 01 00 01")}
   {sealed("02 03 01 01 00 01").lower().replace(" ", "")}\r

{NEW_STATION}   # from here on it is station 2
[{sealed("02 03 01 01 00 01").replace(" ", "][")}]
{" ".join(hex(byte) for byte in bytes.fromhex(sealed("02 03 01 01 00 01")))}"""
HEX = [
    ("a capture", lambda why: why.capture(CAPTURE),
     f"{FOR_TWO}\n{FOR_TWO}\nA reply goes out: the frame writes 010E, Station\n{FOR_TWO}\n{FOR_TWO}"),
    ("a capture with a bad line", lambda why: why.capture(f"# two\n{NEW_STATION}\n01 06 0G 03\n"), "status 2: standard input, line 3: 0G is not hex"),
    ("a capture with times", lambda why: why.capture(f"12:00:01 {NEW_STATION}"), "status 2: standard input, line 1: 12:00:01 is not hex"),
    ("a capture that is no text", lambda why: why.capture("\1\0\7\x1b[31m"), "status 2: standard input, line 1: ???? is not hex"),
    ("a long word", lambda why: why.capture(30 * "wind"), "status 2: standard input, line 1: windwindwindwindwind.. is not hex"),
    ("a capture without a frame", lambda why: why.capture("# nothing\n\n"), "status 2: standard input: there is no frame"),
    ("nothing at all", lambda why: why.capture(""), "status 2: standard input: there is no frame"),
    ("a digit that is missing", lambda why: why.run("ux15_25", "-f", "01 03 1"), f"status 2: FRAME: 1 {ODD}"),
    ("a digit that is missing, without blanks", lambda why: why.run("ux15_25", "-f", "0103010"), f"status 2: FRAME: 0103010 {ODD}"),
    ("0x and nothing behind", lambda why: why.run("ux15_25", "-f", "01 0x"), "status 2: FRAME: 0x is not hex"),
    ("blanks for a frame", lambda why: why.run("ux15_25", "-f", "  "), "status 2: FRAME: there is no frame"),
]

ASWE = "aswe_40 aswe_50 aswe_80"
SHORT_NAMES = f"{ASWE} history_example ux15_25"
MAKE = [
    ("make why, a frame", lambda _: by_make("SHEET=ux", "FRAME=" + sealed("02 03 01 01 00 01")), FOR_TWO),
    ("make why, a capture", lambda _: by_make(given=CAPTURE).splitlines()[2], "A reply goes out: the frame writes 010E, Station"),
    ("make why, a bank with a blank in its name", lambda why: by_make("BANK=" + why.file("a bank", ux_bank(a010E=7)),
     "FRAME=" + sealed("02 03 01 01 00 01")),
     "Silence: the frame is for station 2; this meter is station 7"),
    ("make why, not hex", lambda _: by_make("FRAME=01 zz"), "status 2: FRAME: zz is not hex"),
    ("make why, a sheet that is not there", lambda _: by_make("SHEET=uz", "FRAME=01"),
     f"status 2: there is no sheet uz. SHEET= takes the name of a file, or one of: {SHORT_NAMES}"),
    ("make why, a sheet of three", lambda _: by_make("SHEET=aswe", "FRAME=01"),
     f"status 2: more than one sheet begins with aswe. SHEET= takes one of: {ASWE}"),
    ("make why, a frame that is empty", lambda _: by_make("FRAME="), "status 2: empty: FRAME. Give each a name, or leave it out.  Stop."),
    ("make why, a name that is misspelt", lambda _: by_make("FRAM=01"), "status 2: make why takes no FRAM. It takes: SHEET BANK RING FRAME.  Stop."),
    ("what the README shows of make why", shown_in_readme, "9 shown, otherwise: []"),
]

TRIALS = [*REASONS, *PRESETS, *SIDES, *FACTOR_OF_TEN, *BANKS, *HEX, *MAKE]
