#!/usr/bin/python3
"""What knows nothing of this repository, at both ends of the line: two masters, mbpoll and pymodbus's client, at the simulated meter, and the program
ASK at two servers, one of pymodbus and one of libmodbus.

  interop.py [--run RUN] ASK SERVER UX ASWE HISTORY METER              plays the steps, which are those of the UX15/25 sheet, of AS-WE, bore 40, of the
                                                                       example of a history, and of the servers; SERVER is that of libmodbus
  interop.py [--run RUN] --wrong ASK SERVER UX ASWE HISTORY METER...   plays them at meters that are wrong: each step must fail at one of these; with
                                                                       --only TEXT, each step whose text has TEXT
  --wires NAME,NAME                                                    how wrong the line to the servers is while each of the meters is played

Each step has its expected result. A step that comes out otherwise is shown with both, and the exit status is 1.
RUN is put in front of METER and ASK where they need an emulator.
"""
import argparse
import collections
import contextlib
import os
import re
import subprocess
import sys

from asking_steps import steps_of_asking
from history_steps import steps_of_growing, steps_of_history
from masters import Mbpoll, Pymodbus, damaged, send_raw, with_check
from played_meter import UNCHANGED, GrowingHistory, Meter, StandingHistory, at_new_line, refused
from preset_steps import steps_of_presets
from servers import WIRES, Server

HERE = os.path.dirname(os.path.abspath(__file__))
README = os.path.join(HERE, "..", "README.md")


def judge_readings(said):
    """The read-only run: what the simulated flow can be, or the words themselves."""
    run = [int(word, 16) for word in said.split()] if re.fullmatch(r"([0-9A-F]{4} ?){11}", said) else [0] * 11
    flow, pressure, temperature, fault = run[0] << 16 | run[1], run[2], run[3], run[10]
    positive = run[4] << 32 | run[5] << 16 | run[6]
    trip = run[7] << 32 | run[8] << 16 | run[9]
    sound = 200 <= flow <= 800 and 150 <= temperature <= 180 and positive - trip == 1234567 and pressure == 0 and fault == 0
    return "readings" if sound else said


def at_station(master, station, deed):
    master.station = station
    return deed()


def for_station(sender, station, deed):
    """A deed for a station that is not the meter's. Afterwards the sender is where it was."""
    own, sender.station = sender.station, station
    result = deed()
    sender.station = own
    return result


def at_rate(master, rate, deed):
    master.rate = rate
    return deed()


FRESH = "FFF6 0000 0000 0000 0000 0000 0000 0000 0000 0001 0000 0000 0000 0001 0001" + 8 * " 0000"
# From 0100 on: what the steps up to those of pairs have written, and an AS-WE that is fresh but for 0101.
WRITTEN = "FFFB 0003 0000 0001 869F 0000 0000 0000 0000 0001 0000 0000 0000 0001 0001 0001 1388" + 6 * " 0000"
WRITTEN_ASWE = "0000 0003 0000 0000 0000 0001 0320 0001 0001 0000"
BROADCAST = "the frame is for station 0, the broadcast, which is neither answered nor acted on"
NO_METERS = "the frame is for station {}, which no meter has: stations are 1 to 247"
TEMPERATURE = "the item at 0100, Reference temperature, would be too"
LIMIT = "the item at 0103, Alarm upper limit, would be too high: it takes 0 to 99999 (0.0 to 9999.9 m3/h), this would be"


def steps_of_reading(master, meter):
    return [
        ("the 23 registers of a fresh bank", lambda: master.read(0x0100, 23), FRESH),
        *refused(meter, "24 registers, one more than there are", lambda: master.read(0x0100, 24), "error 2",
                 "error 02 at 9600: this meter has no register at 0117; the frame is for 24 registers from 0100 on" + UNCHANGED),
        *refused(meter, "48 registers, one more than a reply can have", lambda: master.read(0x0100, 48), "error 2",
                 "error 02 at 9600: the frame reads 48 registers; a read is of 1 to 47" + UNCHANGED),
        ("the read-only run, 0200 to 020A", lambda: judge_readings(master.read(0x0200, 11)), "readings"),
        *refused(meter, "function 04, which is not allowed", lambda: master.read_input(0x0100, 1), "error 1",
                 "error 01 at 9600: the frame has function 04; this meter takes 03, 05, 06, 10" + UNCHANGED),
    ]


def steps_of_writing(master, meter):
    return [
        ("0101 = 0004", lambda: master.write(0x0101, 0x0004), "done"),
        (".. is read", lambda: master.read(0x0101, 1), "0004"),
        ("010F = 0001 1388, two registers", lambda: master.write(0x010F, 0x0001, 0x1388), "done"),
        (".. are read", lambda: master.read(0x010F, 2), "0001 1388"),
        ("0100 = FFFB, minus five degrees", lambda: master.write(0x0100, 0xFFFB), "done"),
        (".. is read", lambda: master.read(0x0100, 1), "FFFB"),
        *refused(meter, "0100 = FFF5, minus eleven, too low", lambda: master.write(0x0100, 0xFFF5), "error 3",
                 f"error 03 at 9600: {TEMPERATURE} low: it takes -10 to 60 degC, this would be -11 degC{UNCHANGED}"),
        *refused(meter, "0100 = 003D, 61, too high", lambda: master.write(0x0100, 0x003D), "error 3",
                 f"error 03 at 9600: {TEMPERATURE} high: it takes -10 to 60 degC, this would be 61 degC{UNCHANGED}"),
        (".. FFFB is read still", lambda: master.read(0x0100, 1), "FFFB"),
        *refused(meter, "0101 = 0005, too high", lambda: master.write(0x0101, 0x0005), "error 3",
                 "error 03 at 9600: the item at 0101, Pulse constant, would be too high: it takes 0 to 4 (1, 10, 100, 1000, 10000 L/pulse), "
                 "this would be 5" + UNCHANGED),
        (".. and which value it has still", meter.last_line, "0101 Pulse constant: 5 was not stored, it is still 10000 L/pulse"),
        (".. 0004 is read still", lambda: master.read(0x0101, 1), "0004"),
        *refused(meter, "0200, which is read only", lambda: master.write(0x0200, 0x0001), "error 2",
                 "error 02 at 9600: 0200, Flow, can only be read" + UNCHANGED),
        *refused(meter, "0116 and 0117, which is in no area", lambda: master.write(0x0116, 0x0001, 0x0001), "error 2",
                 "error 02 at 9600: this meter has no register at 0117; the frame is for 2 registers from 0116 on" + UNCHANGED),
    ]


def steps_of_pairs(master, meter):
    return [
        ("0103 = 0000 9876, a pair", lambda: master.write(0x0103, 0x0000, 0x9876), "done"),
        *refused(meter, "0103 = 0001, its upper half: 00019876 is too high", lambda: master.write(0x0103, 0x0001), "error 3",
                 f"error 03 at 9600: {LIMIT} 104566 (10456.6 m3/h), with 9876 still at 0104{UNCHANGED}"),
        (".. 0000 9876 is read still", lambda: master.read(0x0103, 2), "0000 9876"),
        ("0104 = 1388, its lower half", lambda: master.write(0x0104, 0x1388), "done"),
        ("0103 = 0001, its upper half: 00011388 is good", lambda: master.write(0x0103, 0x0001), "done"),
        (".. 0001 1388 is read", lambda: master.read(0x0103, 2), "0001 1388"),
        *refused(meter, "0103 = 0001 86A0, too high", lambda: master.write(0x0103, 0x0001, 0x86A0), "error 3",
                 f"error 03 at 9600: {LIMIT} 100000 (10000.0 m3/h); a tenth of it, 10000 (1000.0 m3/h), would be taken{UNCHANGED}"),
        (".. 0001 1388 is read still", lambda: master.read(0x0103, 2), "0001 1388"),
        ("0103 = 0001 869F, the highest", lambda: master.write(0x0103, 0x0001, 0x869F), "done"),
        *refused(meter, "0101 = 0003 0002 0000, the second is bad", lambda: master.write(0x0101, 0x0003, 0x0002, 0x0000), "error 3",
                 "error 03 at 9600: the item at 0102, Alarm contact, would be too high: it takes 0 to 1 (normally open, normally closed), "
                 "this would be 2"),
        (".. the first is stored, no more", lambda: master.read(0x0101, 4), "0003 0000 0001 869F"),
    ]


def steps_of_no_meters_station(master, meter, station, why, still):
    """Frames for a station that no meter has, each good but for that, and the registers from 0100 on behind them. Those that are sent have other
    words before; they are set anew, so that what an earlier frame had done would not show here."""
    sender = master.sender_to_any_station()

    def silent(text, deed):
        return refused(meter, f"{text}, for station {station}", lambda: for_station(sender, station, deed), "silence",
                       f"silence: {why}; this meter is station 1")

    return [
        ("0101 = 0003 0000", lambda: master.write(0x0101, 0x0003, 0x0000), "done"),
        *silent("a read of 0101", lambda: sender.read(0x0101, 2)),
        *silent("0101 = 0001", lambda: sender.write(0x0101, 0x0001)),
        *silent("0101 = 0002 0001, two registers", lambda: sender.write(0x0101, 0x0002, 0x0001)),
        *silent("the alarm clear", lambda: sender.clear(0x0300, 0)),
        (".. nothing was done, and station 1 answers", lambda: master.read(0x0100, len(still.split())), still),
    ]


def steps_of_no_meters_stations(master, meter):
    return [
        *steps_of_no_meters_station(master, meter, 0, BROADCAST, WRITTEN),
        *steps_of_no_meters_station(master, meter, 248, NO_METERS.format(248), WRITTEN),
        *steps_of_no_meters_station(master, meter, 255, NO_METERS.format(255), WRITTEN),
    ]


def steps_of_clearing(master, meter):
    return [
        *refused(meter, "the alarm clear with value FF00", lambda: master.clear(0x0300, 1), "error 3",
                 "error 03 at 9600: the clear has the value FF00; it takes 0000 alone" + UNCHANGED),
        *refused(meter, "the alarm clear at 0301", lambda: master.clear(0x0301, 0), "error 2",
                 "error 02 at 9600: a clear goes to 0300, Volume alarm clear; this one is for 0301" + UNCHANGED),
        ("the alarm clear", lambda: master.clear(0x0300, 0), "done"),
        (".. nothing was done to the mark till now, the meter's screen says", meter.last_line,
         "station 1 05 clear 0300 value 0000 reply of 8 bytes at 9600; the alarm mark was 1, is 0"),
    ]


def steps_of_raw_frames(master, meter):
    def read():
        return master.read(0x0101, 2)

    return [
        *refused(meter, "raw: function 83", lambda: send_raw(meter.link, with_check("01 83 01 01 00 02")), with_check("01 83 01").hex(" ").upper(),
                 "error 01 at 9600: the frame has function 83; this meter takes 03, 05, 06, 10" + UNCHANGED),
        (".. the next read is as ever", read, "0003 0000"),
        *refused(meter, "raw: 06 with a byte too many", lambda: send_raw(meter.link, with_check("01 06 01 01 00 01 00")), "silence",
                 "silence: the frame has 9 bytes; with function 06 it has 8"),
        (".. the next read is as ever", read, "0003 0000"),
        *refused(meter, "raw: 06 with one bit turned", lambda: send_raw(meter.link, damaged("01 06 01 01 00 01")), "silence",
                 "silence: the check does not agree: the frame ends in 18 36, its other bytes give 15 F6"),
        *refused(meter, "raw: 06 for station 2", lambda: send_raw(meter.link, with_check("02 06 01 01 00 01")), "silence",
                 "silence: the frame is for station 2; this meter is station 1"),
        *refused(meter, "raw: 3 bytes", lambda: send_raw(meter.link, b"\1\3\1"), "silence", "silence: the frame has 3 bytes; the shortest has 4"),
        *refused(meter, "raw: 101 bytes", lambda: send_raw(meter.link, with_check("01 10" + 97 * " 00")), "silence",
                 "silence: the frame has over 100 bytes; the longest has 100"),
        (".. the next read is as ever", read, "0003 0000"),
    ]


def steps_of_own_station(master, meter, address):
    """The stations that a meter takes for its own; in front of that register is the rate. Afterwards the meter is at 247."""
    def read():
        return master.read(address - 1, 2)

    def bad(station, side):
        return refused(meter, f"{address:04X} = {station:04X}, a station that no meter has", lambda: master.write(address, station), "error 3",
                       f"error 03 at 9600: the item at {address:04X}, Station, would be too {side}: it takes 1 to 247, "
                       f"this would be {station}{UNCHANGED}")

    return [
        *bad(0, "low"), *bad(248, "high"),
        (".. 0001 is read still", read, "0001 0001"),
        (f"{address:04X} = 00F7, the highest station", lambda: master.write(address, 0x00F7), "done"),
        *refused(meter, ".. it no longer answers at 1", read, "silence", "silence: the frame is for station 1; this meter is station 247"),
        (".. it answers at 247", lambda: at_station(master, 247, read), "0001 00F7"),
    ]


def steps_of_station_and_rate(master, meter):
    def read():
        return master.read(0x010D, 2)

    return [
        *steps_of_own_station(master, meter, 0x010E),
        ("010E = 0002, the station", lambda: master.write(0x010E, 0x0002), "done"),
        *refused(meter, ".. it no longer answers at 247", read, "silence", "silence: the frame is for station 247; this meter is station 2"),
        (".. it answers at 2", lambda: at_station(master, 2, read), "0001 0002"),
        *refused(meter, "010E = 0003 0002, the second is bad: error from station 2", lambda: master.write(0x010E, 0x0003, 0x0002), "error 3",
                 "error 03 at 9600: the item at 010F, Flow conversion, would be too high: it takes 0 to 1 (none, normal or standard), "
                 "this would be 2; from now on station 3"),
        (".. it answers at 3", lambda: at_station(master, 3, read), "0001 0003"),
        ("010D = 0000, the rate: reply at 9600", lambda: master.write(0x010D, 0x0000), "done"),
        (".. it no longer hears 9600", read, "silence"),
        (".. it answers at 4800", lambda: at_rate(master, 4800, read), "0000 0003"),
    ]


def steps_of_broadcast(master, meter):
    """pymodbus's own broadcast, at the station and the rate that the steps before have left. It waits for nothing: the screen has to tell."""
    return [
        ("0101 = 0003", lambda: master.write(0x0101, 0x0003), "done"),
        ("0101 = 0004 as a broadcast: the meter's screen", lambda: meter.told_of_next(lambda: master.broadcast(0x0101, 0x0004)),
         f"silence: {BROADCAST}; this meter is station 3"),
        (".. nothing was done, and station 3 answers", lambda: master.read(0x0101, 1), "0003"),
    ]


def steps_of_aswe(master, meter):
    return [
        *steps_of_no_meters_station(master, meter, 0, BROADCAST, WRITTEN_ASWE),
        *steps_of_no_meters_station(master, meter, 255, NO_METERS.format(255), WRITTEN_ASWE),
        *steps_of_own_station(master, meter, 0x0108),
    ]


def steps_of_keeping(master, meter):
    def read():
        return master.read(0x0103, 2)

    return [
        ("0103 = 0000 03E8, a pair", lambda: master.write(0x0103, 0x0000, 0x03E8), "done"),
        ("010E = 0007, the station", lambda: master.write(0x010E, 0x0007), "done"),
        ("the meter is switched off and on", meter.switch_off_and_on, "status 0, link gone"),
        (".. at station 7 it has 0000 03E8 still", lambda: at_new_line(master, meter, lambda: at_station(master, 7, read)), "0000 03E8"),
    ]


def run_command(command, link):
    """What a command of the README writes at this meter, its blanks made one, and a message last, as it comes at a terminal."""
    done = subprocess.run(command.replace("/tmp/meter", link).split(), capture_output=True, text=True, check=False)
    return " ".join((done.stdout + done.stderr).split())


def between(text, marker):
    """The lines of a fenced block of the README that stands between <!-- marker --> and <!-- end -->."""
    found = re.search(rf"^<!-- {marker} -->\n```\w*\n(.*?)^```\n<!-- end -->$", text, re.M | re.S)
    if not found:
        sys.exit(f"README.md has no block {marker}")
    return found.group(1)


def run_program(program, link):
    """What a Python program of the README prints at this meter."""
    done = subprocess.run([sys.executable, "-c", program.replace("/tmp/meter", link)], stdout=subprocess.PIPE, stderr=subprocess.STDOUT, text=True,
                          check=False)
    return done.stdout


def part_of_readme(heading):
    with open(README, encoding="utf-8") as page:
        return page.read().partition(f"## {heading}\n")[2].partition("\n## ")[0]


def steps_of_shown(text, meter):
    """The commands of a part of the README with what it shows below each, and the lines that it shows of the meter's screen. What it shows of `make ask`
    has registers too, and is the trials'."""
    text = re.sub(r"^    \$ make ask .*\n(?:    (?!\$).*\n)*", "", text, flags=re.M)
    commands = re.findall(r"^    \$ (mbpoll .*)\n((?:    (?!\$).*\n)*)", text, re.M)
    screen = re.findall(r"^    (station .*|        +[0-9A-F]{4} .*)$", text, re.M)
    if not commands or not screen:
        sys.exit("README.md shows no mbpoll command at the simulated meter, or nothing of its screen")
    return [
        *((command, lambda command=command: run_command(command, meter.link), " ".join(shown.split())) for command, shown in commands),
        ("the meter's screen", lambda: "\n".join(meter.lines()[-len(screen):]), "\n".join(screen)),
    ]


def steps_of_readme(meter):
    """What the README shows at a UX15/25, and its program."""
    text = part_of_readme("Talk to a simulated meter")
    return [
        *steps_of_shown(text, meter),
        ("the program for pymodbus", lambda: run_program(between(text, "pymodbus"), meter.link), between(text, "what pymodbus prints")),
    ]


def steps_of_readme_history(meter):
    """The same of the README's history. Its numbers are another meter's: only their form is compared."""
    text = part_of_readme("Read a history")
    (command, shown), = re.findall(r"^    \$ (mbpoll .*)\n((?:    (?!\$).*\n)*)", text, re.M)
    screen = re.findall(r"^    (station .*|        +record \d+ of .*)$", text, re.M)

    def form(said):
        return re.sub(r"\b[0-9A-F]+\b", "N", said)

    return [
        (command, lambda: meter.with_records(3, lambda: run_command(command, meter.link)), " ".join(shown.split())),
        ("the meter's screen", lambda: form("\n".join(meter.lines()[-len(screen):])), form("\n".join(screen))),
        ("the program for pymodbus", lambda: form(run_program(between(text, "pymodbus record"), meter.link)),
         form(between(text, "what it prints of a record"))),
    ]


def play(name, steps):
    """The numbers of the steps that came out otherwise than expected."""
    differing = set()
    for number, (text, deed, expected) in enumerate(steps):
        result = deed()
        print(f"{name:{WIDTH}} {text}: {result}", flush=True)
        if result != expected:
            differing.add(number)
            print(f"{'DIFFERS':{WIDTH}} {name}: {text}: expected {expected}", flush=True)
    return differing


def steps_of_master(master, meter):
    return [
        *steps_of_reading(master, meter), *steps_of_writing(master, meter), *steps_of_pairs(master, meter),
        *steps_of_no_meters_stations(master, meter), *steps_of_clearing(master, meter), *steps_of_raw_frames(master, meter),
        *steps_of_station_and_rate(master, meter),
    ]


# Each part: the meter and its sheet, the master that plays it, and its steps. The README's commands bring their own.
PARTS = {
    "mbpoll": (Meter, "ux", Mbpoll, steps_of_master),
    "pymodbus": (Meter, "ux", Pymodbus, lambda master, meter: [*steps_of_master(master, meter), *steps_of_broadcast(master, meter)]),
    "AS-WE": (Meter, "aswe", Pymodbus, steps_of_aswe),
    "totals, mbpoll": (Meter, "aswe", Mbpoll, steps_of_presets),
    "totals, pymodbus": (Meter, "aswe", Pymodbus, steps_of_presets),
    "kept": (Meter, "ux", Mbpoll, steps_of_keeping),
    "README": (Meter, "ux", contextlib.nullcontext, lambda _, meter: steps_of_readme(meter)),
    "README, totals": (Meter, "aswe", contextlib.nullcontext, lambda _, meter: steps_of_shown(part_of_readme("Preset a total"), meter)),
    "history, mbpoll": (StandingHistory, "history", Mbpoll, steps_of_history),
    "history, pymodbus": (StandingHistory, "history", Pymodbus, steps_of_history),
    "history, growing": (GrowingHistory, "history", Pymodbus, steps_of_growing),
    "README, history": (GrowingHistory, "history", contextlib.nullcontext, lambda _, meter: steps_of_readme_history(meter)),
}


# The parts at the servers.
AT_PYMODBUS, AT_LIBMODBUS = "ask at pymodbus", "ask at libmodbus"
WIDTH = max(map(len, (*PARTS, AT_PYMODBUS, AT_LIBMODBUS)))

# What the steps are played with: the words that start each program, the sheets by their names, and the line to the servers.
Played = collections.namedtuple("Played", "meter ask servers sheets wire")


@contextlib.contextmanager
def steps_at_meter(name, played):
    """The steps of one part at a meter of its own."""
    meter_of, sheet, master_of, steps_of = PARTS[name]
    with meter_of(played.meter, played.sheets[sheet]) as meter, master_of(meter.link) as master:
        yield [*steps_of(master, meter), ("the meter is switched off", meter.switch_off, "status 0, link gone")]


@contextlib.contextmanager
def steps_at_server(name, played):
    with Server(played.servers[name], played.wire) as server:
        yield steps_of_asking(played.ask, server.link)


def play_part(name, played, only):
    """The steps of one part: their texts, and the numbers of those that differ. A part of which no step has a text is left out."""
    steps_at = steps_at_meter if name in PARTS else steps_at_server
    with steps_at(name, played) as steps:
        texts = [f"{name}: {text}" for text, _, _ in steps]
        return texts, play(name, steps) if any(only in text for text in texts) else set()


def play_all(played, only):
    """Every step, and every step that differs, as (number, text)."""
    every, differing = [], []
    for name in (*PARTS, *played.servers):
        texts, numbers = play_part(name, played, only)
        differing += [(len(every) + number, texts[number]) for number in numbers]
        every += list(enumerate(texts, len(every)))
    return every, differing


def judge(every, differing):
    print(f"{len(every)} steps, {len(differing)} came out otherwise than expected")
    return 1 if differing else 0


def judge_wrong(every, differing, only):
    """A step that agrees with every wrong meter could not fail. Of the steps, those that have a text are looked at."""
    looked_at = [step for step in every if only in step[1]]
    idle = [text for number, text in looked_at if (number, text) not in differing]
    for text in idle:
        print(f"CANNOT FAIL  {text}")
    print(f"{len(looked_at)} steps, {len(looked_at) - len(idle)} failed at one of the wrong meters")
    return 1 if idle or not looked_at else 0


def words_of_command():
    words_given = argparse.ArgumentParser(description=__doc__, formatter_class=argparse.RawDescriptionHelpFormatter)
    words_given.add_argument("--run", default="")
    words_given.add_argument("--wrong", action="store_true", help="each step must fail at one of the meters")
    words_given.add_argument("--only", default="", metavar="TEXT", help="of the steps, those whose text has TEXT")
    words_given.add_argument("--wires", default="plain", metavar="NAME,NAME", help=f"one for each meter, of: {', '.join(WIRES)}")
    for name in ("ask", "server", "ux", "aswe", "history"):
        words_given.add_argument(name)
    words_given.add_argument("meters", nargs="+")
    given = words_given.parse_args()
    if len(given.wires.split(",")) != len(given.meters):
        words_given.error("there is a wire for each meter")
    return given


def main():
    given = words_of_command()
    run = given.run.split()
    servers = {AT_PYMODBUS: [sys.executable, "-B", os.path.join(HERE, "pymodbus_server.py")], AT_LIBMODBUS: [given.server]}
    sheets = {"ux": given.ux, "aswe": given.aswe, "history": given.history}
    every, differing = [], []
    for meter, wire in zip(given.meters, given.wires.split(",")):
        every, found = play_all(Played([*run, meter], [*run, given.ask], servers, sheets, wire), given.only)
        differing += found
    return judge_wrong(every, differing, given.only) if given.wrong else judge(every, differing)


if __name__ == "__main__":
    sys.exit(main())
