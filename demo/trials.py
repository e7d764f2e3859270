#!/usr/bin/env python3
"""The simulated meter's names and its end: links that are in the way, files that keep a bank, signals, what its screen says of a bad value, and what
`make meter` is told. And what `make why` says, which why_trials.py has. What both make of a history is in history_trials.py. And what `make ask` says of
meters, lines and orders, which ask_trials.py has.

  trials.py [--run RUN] SHEET METER WHY ASK

Each trial has its expected result. One that comes out otherwise is shown with both, and the exit status is 1."""
import argparse
import contextlib
import os
import signal
import subprocess
import sys
import tempfile
import time

import ask_trials
import history_trials
import why_trials

ROOT = os.path.dirname(os.path.dirname(os.path.abspath(__file__)))
ASWE = os.path.join(ROOT, "sheets", "aswe_40.sheet")
FRAME_COLUMNS = 38


class Bench:
    """A folder to try in, and how the meter and the programs `why` and `ask` are started."""

    def __init__(self, run, given, folder):
        self.command, self.sheet, self.folder = [*run, os.path.abspath(given.meter)], given.sheet, os.path.realpath(folder)
        self.why = why_trials.Why([*run, os.path.abspath(given.why)], folder)
        self.ask = ask_trials.Ask([*run, os.path.abspath(given.ask)], folder)

    def path(self, name):
        return os.path.join(self.folder, name)

    def words(self, options):
        named = [word if word.startswith("-") or word.isdigit() else self.path(word) for word in options]
        return [*self.command, *named, self.sheet]

    @contextlib.contextmanager
    def running(self, *options):
        """A meter that is on, and ended at the latest when the trial is over."""
        screen = self.path("screen")
        with open(screen, "w", encoding="ascii") as file, subprocess.Popen(self.words(options), stdout=file) as meter:
            deadline = time.monotonic() + 10
            while "meter on" not in self.read("screen").decode() and meter.poll() is None and time.monotonic() < deadline:
                time.sleep(0.02)
            try:
                yield meter
            finally:
                meter.kill()

    def refused(self, *options):
        """What a meter says that does not start."""
        done = subprocess.run(self.words(options), capture_output=True, text=True, timeout=20, check=False)
        return f"status {done.returncode}: " + done.stderr.replace(self.folder + "/", "").strip()

    def read(self, name):
        with open(self.path(name), "rb") as file:
            return file.read()

    def write(self, name, data):
        with open(self.path(name), "wb") as file:
            file.write(data)


def ended(meter, number):
    meter.send_signal(number)
    return f"status {meter.wait(timeout=10)}"


def link_in_the_way(bench, target):
    """A meter for a link that leads elsewhere, and where it leads afterwards."""
    os.symlink(target, bench.path("line"))
    said = bench.refused("-l", "line")
    return f"{said}; leads to {os.readlink(bench.path('line'))}"


def file_in_the_way(bench):
    bench.write("line", b"mine")
    said = bench.refused("-l", "line")
    return f"{said}; holds {bench.read('line').decode()}"


def dead_link(bench):
    os.symlink("/dev/pts/999999", bench.path("line"))
    with bench.running("-l", "line") as meter:
        leads = os.readlink(bench.path("line")) != "/dev/pts/999999"
        return f"taken {leads}, {ended(meter, signal.SIGTERM)}, left {os.path.lexists(bench.path('line'))}"


def second_meter(bench):
    with bench.running("-l", "line") as meter:
        said = bench.refused("-l", "line").replace(os.readlink(bench.path("line")), "LINE")
        stays = os.path.exists(bench.path("line"))
        return f"{said}; stays {stays}, {ended(meter, signal.SIGTERM)}, left {os.path.lexists(bench.path('line'))}"


def link_of_another(bench):
    with bench.running("-l", "line") as meter:
        os.unlink(bench.path("line"))
        os.symlink("/dev/null", bench.path("line"))
        return f"{ended(meter, signal.SIGTERM)}, leads to {os.readlink(bench.path('line'))}"


def signalled(bench, number):
    with bench.running("-l", "a line") as meter:
        return f"{ended(meter, number)}, left {os.path.lexists(bench.path('a line'))}"


def bank_lines(bench, *options):
    with bench.running(*options) as meter:
        ended(meter, signal.SIGTERM)
    return bench.read("screen").decode().split("\n")[0].replace(bench.folder + "/", "")


def kept_twice(bench):
    fresh = bank_lines(bench, "-b", "a bank")
    return f"{fresh}; {len(bench.read('a bank'))} bytes; {bank_lines(bench, '-b', 'a bank')}"


def spoil(bench, *places):
    bank_lines(bench, "-b", "bank")
    data = bytearray(bench.read("bank"))
    for place in places:
        data[place] ^= 1
    bench.write("bank", bytes(data))


def first_spoiled(bench):
    spoil(bench, 5)
    said = bank_lines(bench, "-b", "bank")
    data = bench.read("bank")
    return f"{said}; copies alike {data[:len(data) // 2] == data[len(data) // 2:]}"


def refused_bank(bench):
    before = bench.read("bank")
    said = bench.refused("-l", "line", "-b", "bank")
    return f"{said}; unchanged {bench.read('bank') == before}, link left {os.path.lexists(bench.path('line'))}"


def both_spoiled(bench):
    spoil(bench, 5, 80)
    return refused_bank(bench)


def foreign_file(bench):
    bench.write("bank", b"a letter")
    return refused_bank(bench)


def bank_in_use(bench):
    with bench.running("-b", "bank"):
        return refused_bank(bench)


def bank_at_station(bench, station):
    bench.write("bank", why_trials.kept(why_trials.ux_bank(a010E=station)))
    return refused_bank(bench)


CARRIED = why_trials.aswe_bank(5, behind=(100, 7, *range(0x2001, 0x2011), 1))
OLD_FILE = why_trials.kept(why_trials.aswe_bank(5, (), (100, 7, *range(0x2001, 0x2011), 1)))


def with_old_bank(trial, data=OLD_FILE, lay=lambda _: None):
    """A trial at an AS-WE, bore 40, with a bank's file from before version 3.2, and with what else is laid beside it."""
    def at_aswe(bench):
        bench.sheet = ASWE
        bench.write("bank", data)
        lay(bench)
        return trial(bench)
    return at_aswe


def carried(bench):
    """The meter's first line, what is there then, and what the next meter says."""
    before = bench.read("bank")
    with bench.running("-b", "bank") as meter:
        is_carried = bench.read("bank") == why_trials.kept(CARRIED)
        ended(meter, signal.SIGTERM)
    said = bench.read("screen").decode().split("\n")[0].replace(bench.folder + "/", "")
    files = sorted(set(os.listdir(bench.folder)) - {"screen"})
    stays = bench.read("bank.old") == before
    return f"{said}; carried over {is_carried}, the old one as it was {stays}, {files}; then {bank_lines(bench, '-b', 'bank')}"


def not_carried(bench):
    """What a meter says that does not take the file, and that the folder is as it was."""
    before = {name: bench.read(name) for name in os.listdir(bench.folder)}
    said = bench.refused("-b", "bank")
    return f"{said}; unchanged {before == {name: bench.read(name) for name in os.listdir(bench.folder)}}"


def cut_off(bench):
    """What a meter leaves that is cut off while it carries a bank over: the second name, and a part of the new file."""
    os.link(bench.path("bank"), bench.path("bank.old"))
    bench.write("bank.a1B2c3", why_trials.kept(CARRIED)[:50])


def carried_through_link(bench):
    os.mkdir(bench.path("there"))
    bench.write("there/bank", OLD_FILE)
    os.chmod(bench.path("there/bank"), 0o600)
    os.symlink(bench.path("there/bank"), bench.path("bank"))
    bench.sheet = ASWE
    bank_lines(bench, "-b", "bank")
    mode = os.stat(bench.path("there/bank")).st_mode & 0o777
    return f"still a link {os.path.islink(bench.path('bank'))}, mode {mode:o}, there {sorted(os.listdir(bench.path('there')))}"


def carried_settings(bench):
    lines = screen_of_frames(bench, [why_trials.sealed(frame) for frame in ("05 06 01 23 00 00", "05 03 01 24 00 01")], "-b", "bank")
    return " / ".join(line.strip() for line in lines if line.startswith(" "))


def refused_sheet(bench, data):
    bench.write("sheet", data)
    bench.sheet = bench.path("sheet")
    return f"{bench.refused('-l', 'line')}; link left {os.path.lexists(bench.path('line'))}"


def bank_in_use_asked(bench):
    """Asked for the reason, the program only reads the file, and no meter is in its way."""
    with bench.running("-b", "bank"):
        before = bench.read("bank")
        said = bench.why.run("ux15_25", "-b", bench.path("bank"), "-f", why_trials.sealed("02 03 01 01 00 01"))
        return f"{said}; unchanged {bench.read('bank') == before}"


def wait_for_frames(bench, number):
    deadline = time.monotonic() + 10
    while bench.read("screen").count(b"\nstation ") < number and time.monotonic() < deadline:
        time.sleep(0.02)


def screen_of_frames(bench, frames, *options):
    """The lines of the meter's screen behind the one that it is on, once it has met frames, which are put on the line as they are."""
    with bench.running("-l", "line", *options) as meter:
        for number, text in enumerate(frames, 1):
            line = os.open(bench.path("line"), os.O_WRONLY | os.O_NOCTTY)
            os.write(line, bytes.fromhex(text))
            os.close(line)
            wait_for_frames(bench, number)
        ended(meter, signal.SIGTERM)
    lines = bench.read("screen").decode().splitlines()
    return lines[[line[:8] for line in lines].index("meter on") + 1:-1]


def told_of_frame(bench, text):
    """What the meter's screen says became of a frame."""
    frames = [line for line in screen_of_frames(bench, [text]) if line.startswith("station ")]
    return "; then ".join(line[FRAME_COLUMNS:] for line in frames)


def told_by_aswe(*frames):
    """What the screen of an AS-WE, bore 40, says of each frame and of its registers; a frame is given without its check."""
    def trial(bench):
        bench.sheet = ASWE
        lines = screen_of_frames(bench, [why_trials.sealed(frame) for frame in frames])
        return " / ".join(line[FRAME_COLUMNS:] if line.startswith("station ") else line.strip() for line in lines)
    return trial


def preset_kept(bench):
    """Presets in the file that keeps the bank, and what the meter says of them when it is on again."""
    bench.sheet = ASWE
    screen_of_frames(bench, [why_trials.sealed("01 10 01 18 00 07 0E 00 09 27 0F 27 0F FF FF FF FE 00 01 00 02")], "-b", "bank")
    copies = bench.read("bank")
    again = screen_of_frames(bench, [why_trials.sealed("01 06 01 18 00 01")], "-b", "bank")
    return f"{[copies[at:at + 14].hex(' ', 2) for at in (40, 94 + 40)]}; {again[-1].strip()}"


def told_by_make(*words):
    done = subprocess.run(["make", "-s", "meter", *words], cwd=ROOT, capture_output=True, text=True, timeout=60, check=False)
    return f"status {done.returncode}: {done.stderr.strip().splitlines()[0].partition('*** ')[2] or done.stderr.splitlines()[0].strip()}"


LEFT = "It was left as it is"
TAKEN = "the bank is the one that bank keeps"
SECOND = "; its first copy was spoiled, and the second was taken"
OVER = ("; by its size it was of the AS-WE 40 from before version 3.2, and was carried over to this sheet, the presets 0118 to 011E at 0; "
        "the old file is bank.old; carried over True, the old one as it was True")
OLD_BANKS = [
    ("a bank from before version 3.2", with_old_bank(carried), f"{TAKEN}{OVER}, ['bank', 'bank.old']; then {TAKEN}"),
    (".. its first copy spoiled", with_old_bank(carried, why_trials.spoiled(OLD_FILE, 24)), f"{TAKEN}{SECOND}{OVER}, ['bank', 'bank.old']; then {TAKEN}"),
    (".. its second copy spoiled", with_old_bank(carried, why_trials.spoiled(OLD_FILE, 80 + 24)), f"{TAKEN}{OVER}, ['bank', 'bank.old']; then {TAKEN}"),
    (".. after a cut", with_old_bank(carried, lay=cut_off), f"{TAKEN}{OVER}, ['bank', 'bank.a1B2c3', 'bank.old']; then {TAKEN}"),
    (".. behind a link", carried_through_link, "still a link True, mode 600, there ['bank', 'bank.old']"),
    (".. its settings", with_old_bank(carried_settings),
     "0123 Reference temperature: 0.0 degC, it was 10.0 degC / 0124 Reference pressure: 0.07 kPa gauge"),
    (".. both copies spoiled", with_old_bank(not_carried, why_trials.spoiled(OLD_FILE, 24, 80 + 24)),
     f"status 1: the bank's file bank: {why_trials.NOT_CARRIED}; neither copy in it is a good bank. {LEFT}; unchanged True"),
    (".. at station 0", with_old_bank(not_carried, why_trials.kept(why_trials.old_aswe_bank(0))),
     f"status 1: the bank's file bank: {why_trials.NOT_CARRIED}; its station is 0, {why_trials.MOVABLE}. {LEFT}; unchanged True"),
    (".. at station 255", with_old_bank(not_carried, why_trials.kept(why_trials.old_aswe_bank(255))),
     f"status 1: the bank's file bank: {why_trials.NOT_CARRIED}; its station is 255, {why_trials.MOVABLE}. {LEFT}; unchanged True"),
    (".. a file of the user's own under the old one's name", with_old_bank(not_carried, lay=lambda bench: bench.write("bank.old", b"mine")),
     f"status 1: the bank's file bank: {why_trials.OLD}; it cannot be carried over and stay as bank.old: another file has that name; "
     f"move that one away first. {LEFT}; unchanged True"),
    (".. a disk that is full", with_old_bank(not_carried, lay=lambda bench: history_trials.without_room(bench, 0)),
     f"status 1: the bank's file bank: {why_trials.OLD}; it cannot be carried over and stay as bank.old: File too large. {LEFT}; unchanged True"),
    (".. as its own bytes", with_old_bank(not_carried, OLD_FILE[:78]),
     "status 1: the bank's file bank: by its size it is a bare bank of the AS-WE 40 from before version 3.2; a meter takes two copies with their check "
     'values. include/cedarskein.h, "A board from before version 3.2", says how it is carried over, and demo/carried.c does it. '
     f"{LEFT}; unchanged True"),
    (".. of another size", with_old_bank(not_carried, OLD_FILE[:159]),
     f"status 1: the bank's file bank: it has not the bytes of two banks of this sheet with their check values. {LEFT}; unchanged True"),
]
NOT_BACK = "; it cannot be read back"
PRESETS = [
    ("a preset", told_by_aswe("01 06 01 18 00 02"), f"reply of 8 bytes at 9600 / 0118 Preset volume upper digit: 20000000 m3, it was 0 m3{NOT_BACK}"),
    ("a preset that is there already", told_by_aswe("01 06 01 1A 00 00"),
     f"reply of 8 bytes at 9600 / 011A Preset volume lower digits: 0.0 m3, as it was{NOT_BACK}"),
    ("three presets, the last is bad", told_by_aswe("01 10 01 18 00 03 06 00 09 27 0F 27 11"),
     f"error 03 at 9600: {why_trials.LOWER_DIGITS} 10001 (1000.1 m3) / 0118 Preset volume upper digit: 90000000 m3, it was 0 m3{NOT_BACK} / "
     f"0119 Preset volume middle digits: 9999000 m3, it was 0 m3{NOT_BACK} / "
     f"011A Preset volume lower digits: 1000.1 m3 was not stored, it is still 0.0 m3{NOT_BACK}"),
    ("a preset that is a pair, and half of it", told_by_aswe("01 10 01 1B 00 02 04 FF FF FF FF", "01 06 01 1B 00 00"),
     f"reply of 8 bytes at 9600 / 011B Preset second volume: 429496729.5 m3, it was 0.0 m3{NOT_BACK} / "
     f"reply of 8 bytes at 9600 / 011B Preset second volume: 6553.5 m3, it was 429496729.5 m3{NOT_BACK}"),
    ("a preset and a setting", told_by_aswe("01 06 01 1E 00 01", "01 06 01 23 00 00"),
     f"reply of 8 bytes at 9600 / 011D Preset reverse volume: 0.1 m3, it was 0.0 m3{NOT_BACK} / "
     "reply of 8 bytes at 9600 / 0123 Reference temperature: 0.0 degC, it was -10.0 degC"),
    ("a preset, and a read of it", told_by_aswe("01 06 01 18 00 02", "01 03 01 18 00 01"),
     f"reply of 8 bytes at 9600 / 0118 Preset volume upper digit: 20000000 m3, it was 0 m3{NOT_BACK} / "
     f"error 02 at 9600: 0118, Preset volume upper digit, {why_trials.NOT_READ}; nothing changed"),
    ("presets that are kept", preset_kept,
     "['0009 270f 270f ffff fffe 0001 0002', '0009 270f 270f ffff fffe 0001 0002']; "
     f"0118 Preset volume upper digit: 10000000 m3, it was 90000000 m3{NOT_BACK}"),
    ("a sheet of version 1 with what is only written", lambda bench: refused_sheet(bench, why_trials.written_only_sheet(1)),
     "status 1: sheet: no sheet: its version is 1, and its registers from 0013 on can only be written (access 2), which by request W7 of document 02 "
     "takes version 2; link left False"),
]

TRIALS = [
    ("a link to a line that is there", lambda bench: link_in_the_way(bench, "/dev/null"),
     f"status 1: line is a link to /dev/null, which is in use. {LEFT}: give LINK another name; leads to /dev/null"),
    ("a dead link that is no meter's", lambda bench: link_in_the_way(bench, "/dev/ttyUSB99"),
     f"status 1: line is a link to /dev/ttyUSB99, which no meter made. {LEFT}: give LINK another name; leads to /dev/ttyUSB99"),
    ("a file in the place of the link", file_in_the_way,
     f"status 1: line is there already, and no meter's link. {LEFT}: give LINK another name; holds mine"),
    ("a dead link of an earlier run", dead_link, "taken True, status 0, left False"),
    ("a second meter at the same link", second_meter,
     f"status 1: line is a link to LINE, which is in use. {LEFT}: give LINK another name; stays True, status 0, left False"),
    ("a link that became another's", link_of_another, "status 0, leads to /dev/null"),
    ("Ctrl-C, a link with a blank", lambda bench: signalled(bench, signal.SIGINT), "status 0, left False"),
    ("SIGHUP", lambda bench: signalled(bench, signal.SIGHUP), "status 0, left False"),
    ("SIGTERM", lambda bench: signalled(bench, signal.SIGTERM), "status 0, left False"),
    ("a bank that is kept", kept_twice, "the bank is fresh, and kept in a bank; 144 bytes; the bank is the one that a bank keeps"),
    ("a first copy that is spoiled", first_spoiled,
     "the bank is the one that bank keeps; its first copy was spoiled, and the second was taken; copies alike True"),
    ("both copies spoiled", both_spoiled,
     "status 1: the bank's file bank: neither copy in it is a good bank of this sheet; without the file the meter begins with a fresh bank. "
     f"{LEFT}; unchanged True, link left False"),
    ("a file that is no bank", foreign_file,
     "status 1: the bank's file bank: it has not the bytes of two banks of this sheet with their check values. "
     f"{LEFT}; unchanged True, link left False"),
    ("a bank that is in use", bank_in_use,
     f"status 1: the bank's file bank: another meter has it in use. {LEFT}; unchanged True, link left False"),
    ("a bank that is in use, asked why", bank_in_use_asked,
     "Silence: the frame is for station 2; this meter is station 1; unchanged True"),
    ("a bank at station 0", lambda bench: bank_at_station(bench, 0),
     f"status 1: the bank's file bank: its station is 0, {why_trials.MOVABLE}. {LEFT}; unchanged True, link left False"),
    ("a sheet that is not sound", lambda bench: refused_sheet(bench, b"a letter"),
     "status 1: sheet: no sheet: it breaks a rule of document 01; link left False"),
    ("AS-WE from before version 1.3", lambda bench: refused_sheet(bench, why_trials.old_aswe_sheet()),
     f"status 1: sheet: no sheet: its stations are 0 to 255; {why_trials.WITHIN}; link left False"),
    ("a value that is too low", lambda bench: told_of_frame(bench, why_trials.sealed("01 06 01 00 FF F5")),
     f"error 03 at 9600: {why_trials.TEMPERATURE} low: {why_trials.DEGREES} -11 degC; nothing changed"),
    ("a value that is too high, and a tenth of it", lambda bench: told_of_frame(bench, why_trials.sealed("01 06 01 00 02 58")),
     f"error 03 at 9600: {why_trials.TEMPERATURE} high: {why_trials.DEGREES} 600 degC; a tenth of it, 60 degC, would be taken; nothing changed"),
    ("a limit that is too high, behind one that is stored",
     lambda bench: told_of_frame(bench, why_trials.sealed("01 10 01 03 00 04 08 00 00 03 E8 00 01 86 A0")),
     f"error 03 at 9600: {why_trials.LOWER} {why_trials.LIMIT} 100000 (10000.0 m3/h){why_trials.TENTH_OF_LIMIT}"),
    ("a damaged frame with a bad value", lambda bench: told_of_frame(bench, "01 06 01 00 02 58 88 AD"),
     "silence: the check does not agree: the frame ends in 88 AD, its other bytes give 88 AC"),
    ("a sheet that is not there", lambda _: told_by_make("SHEET=aswe 45"),
     f"status 2: there is no sheet aswe 45. SHEET= takes the name of a file, or one of: {why_trials.SHORT_NAMES}"),
    ("a sheet of three", lambda _: told_by_make("SHEET=aswe"),
     "status 2: more than one sheet begins with aswe. SHEET= takes one of: aswe_40 aswe_50 aswe_80"),
    ("a ring's file by make", lambda bench: told_by_make("RING=" + bench.path("a ring")).replace(bench.folder + "/", ""),
     f"status 2: the ring's file a ring: {history_trials.NO_HISTORY}. {LEFT}"),
    ("seconds by make", lambda _: told_by_make("SHEET=history", "EVERY=5 s"), "status 2: EVERY takes a number of seconds, 1 to 86400, and not 5 s"),
    ("a name that is empty", lambda _: told_by_make("LINK="), "status 2: empty: LINK. Give each a name, or leave it out.  Stop."),
    ("a name that is misspelt", lambda _: told_by_make("LNK=x"), "status 2: make meter takes no LNK. It takes: SHEET LINK BANK RING EVERY.  Stop."),
]


def has_pseudo_terminals():
    try:
        for end in os.openpty():
            os.close(end)
    except OSError:
        return False
    return True


def differing(trials, run, given, tried):
    """How many trials come out otherwise than expected, of the bench or of what is tried at it; each of them is shown."""
    count = 0
    for text, trial, expected in trials:
        with tempfile.TemporaryDirectory() as folder:
            result = trial(tried(Bench(run, given, folder)))
        if result != expected:
            count += 1
            print(f"DIFFERS   {text}: {result}\n          expected: {expected}", flush=True)
    return count


def main():
    words_given = argparse.ArgumentParser(description=__doc__, formatter_class=argparse.RawDescriptionHelpFormatter)
    words_given.add_argument("--run", default="")
    words_given.add_argument("sheet")
    words_given.add_argument("meter")
    words_given.add_argument("why")
    words_given.add_argument("ask")
    given = words_given.parse_args()
    run = given.run.split()
    why, meter = [*why_trials.TRIALS, *history_trials.OF_WHY], [*TRIALS, *OLD_BANKS, *PRESETS, *history_trials.OF_METER]
    of_why = differing(why, run, given, lambda bench: bench.why)
    print(f"{len(why)} trials of make why, {of_why} came out otherwise than expected")
    if not has_pseudo_terminals():
        print("the trials of the meter and of make ask are LEFT OUT: the system has no pseudo-terminal to give")
        return 1 if of_why else 0
    of_meter = differing(meter, run, given, lambda bench: bench)
    print(f"{len(meter)} trials of the meter's names, its screen, its end and its history, {of_meter} came out otherwise than expected")
    of_ask = differing(ask_trials.TRIALS, run, given, lambda bench: bench)
    print(f"{len(ask_trials.TRIALS)} trials of make ask, {of_ask} came out otherwise than expected")
    return 1 if of_why or of_meter or of_ask else 0


if __name__ == "__main__":
    sys.exit(main())
