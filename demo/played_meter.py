"""The simulated meter as interop.py plays it: with files of its own, on a line named by a link, and with a screen that is read."""
import os
import signal
import subprocess
import sys
import tempfile
import time

from masters import ReadRecord, words

FRAME_COLUMNS = 38
UNCHANGED = "; nothing changed"


class Meter:
    """The simulated meter, with a bank that is fresh at first and kept in a file, on a line named by a link."""

    def __init__(self, command, sheet):
        self.folder = tempfile.TemporaryDirectory()
        self.screen = os.path.join(self.folder.name, "screen")
        self.bank = os.path.join(self.folder.name, "bank")
        self.command = [*command, "-b", self.bank, *self.options()]
        self.sheet = sheet
        self.start("meter")

    def options(self):
        """What else the meter is told."""
        return []

    def start(self, name):
        self.link = os.path.join(self.folder.name, name)
        with open(self.screen, "w", encoding="ascii") as screen:
            self.process = subprocess.Popen([*self.command, "-l", self.link, self.sheet], stdout=screen)

    def __enter__(self):
        self.wait_for_line()
        return self

    def __exit__(self, *_):
        if self.process.poll() is None:
            self.process.kill()
            self.process.wait()
        self.folder.cleanup()

    def wait_for_line(self):
        deadline = time.monotonic() + 10
        while "meter on" not in self.lines()[-1]:
            if self.process.poll() is not None or time.monotonic() > deadline:
                self.__exit__()
                sys.exit("the simulated meter did not start")
            time.sleep(0.02)

    def lines(self):
        with open(self.screen, encoding="ascii") as screen:
            return screen.read().splitlines() or [""]

    def last_lines(self, number):
        return [" ".join(line.split()) for line in self.lines()[-number:]]

    def last_line(self):
        return self.last_lines(1)[0]

    def kept_words(self, place, count):
        """Words of the bank as its file has them, from a place on: those of the first copy, and of the second where they are others."""
        with open(self.bank, "rb") as file:
            data = file.read()
        copies = [data[at + 2 * place:at + 2 * (place + count)].hex(" ", 2).upper() for at in (0, len(data) // 2)]
        return copies[0] if copies[0] == copies[1] else " and ".join(copies)

    def told(self):
        """What the screen says became of the last frame, behind what it says the frame was."""
        frames = [line for line in self.lines() if line.startswith("station ")] or [""]
        return frames[-1][FRAME_COLUMNS:].strip()

    def told_of_next(self, deed):
        """What the screen says of a frame that its master does not wait for."""
        before = len(self.lines())
        deed()
        deadline = time.monotonic() + 2
        while len(self.lines()) == before and time.monotonic() < deadline:
            time.sleep(0.02)
        return self.told()

    def switch_off(self):
        """Ctrl-C: how the meter ended, and whether its link is gone."""
        self.process.send_signal(signal.SIGINT)
        status = self.process.wait(timeout=10)
        link = "link left behind" if os.path.lexists(self.link) else "link gone"
        return f"status {status}, {link}"

    def switch_off_and_on(self):
        """The same bank on another line: how the meter ended before."""
        said = self.switch_off()
        self.start("meter again")
        self.wait_for_line()
        return said


class GrowingHistory(Meter):
    """A meter whose history is empty at first, gets a record every few seconds, and is kept in a file."""

    SECONDS = 4
    RECORDS = 6600

    def options(self):
        self.ring = os.path.join(self.folder.name, "ring")
        return ["-r", self.ring, "-e", str(self.SECONDS)]

    def records(self):
        """The words of each record that the file has, the newest first."""
        with open(self.ring, "rb") as file:
            data = file.read()
        ring = [int.from_bytes(data[k:k + 2], "big") for k in range(0, len(data), 2)]
        newest, stored = ring[:2]
        places = [(newest - k) % self.RECORDS for k in range(stored)]
        return [words(ring[2 + ReadRecord.words * place:][:ReadRecord.words]) for place in places]

    def with_records(self, number, deed):
        """What a deed comes to as soon as so many records are stored."""
        deadline = time.monotonic() + (number + 1) * self.SECONDS
        while len(self.records()) < number and time.monotonic() < deadline:
            time.sleep(0.02)
        return deed()


class StandingHistory(GrowingHistory):
    """The same with three records to begin with, and a day to the next. The last of them turned the ring over, as far as its place can tell."""

    SECONDS = 86400
    STORED = ["3333", "2222", "1111"]    # a word of each, the newest first; they lie at places 1, 0 and 6599

    def options(self):
        words_given = super().options()
        record = [bytes.fromhex(ReadRecord.words * word) for word in self.STORED]
        between = bytes(2 * ReadRecord.words * (self.RECORDS - 3))
        with open(self.ring, "wb") as file:
            file.write(b"\0\1\0\3" + record[1] + record[0] + between + record[2])
        return words_given


def refused(meter, text, deed, expected, told):
    """A frame that gets an error or silence, and why, as the meter's screen has it."""
    return [(text, deed, expected), (".. the meter's screen tells why", meter.told, told)]


def at_new_line(master, meter, deed):
    master.move(meter.link)
    return deed()
