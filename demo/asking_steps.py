"""The steps of `make ask` at servers that others wrote: 47 registers from 0100 on, a coil at 0300, station 1. A record cannot be shown there: Modbus knows
no such reply. Nor can a count that a server refuses: no order has one."""
import os
import re
import subprocess

from masters import Mbpoll, words

SHEET = os.path.join(os.path.dirname(os.path.abspath(__file__)), "..", "sheets", "history_example.sheet")    # no maker's, so that no register has a name
FIRST, REGISTERS, COIL = 0x0100, 47, 0x0300
LAST = FIRST + REGISTERS - 1
TOTALS = (0x0001, 0x0929, 0x1A85, 0xFFFE, 0x1234, 0x8001, 0x0203)    # 0118 to 011E, which a meter does not let be read


class Asker:
    """The program `ask` at a line. What an order came to is said in words: the registers in hex, "done", or the exit status and how the end begins."""

    def __init__(self, command, link):
        self.command, self.link = command, link

    def ask(self, order, station=1):
        command = [*self.command, "-l", self.link, "-s", str(station), "-o", order, SHEET]
        return subprocess.run(command, capture_output=True, text=True, timeout=30, check=False)

    @staticmethod
    def end_of(done):
        lines = done.stdout.splitlines()
        if done.returncode == 0 and any(line.startswith("Done:") for line in lines):
            return "done"
        tries = sum(line.startswith("try ") for line in lines)
        ends = [line for line in lines if re.match(r"(Error \d\d:|No answer from|Refused:|The line)", line)] or [done.stdout + done.stderr]
        return f"status {done.returncode}, {tries} tr{'y' if tries == 1 else 'ies'}: {re.split(':| from', ends[-1])[0]}"

    def result(self, order, station=1):
        return self.end_of(self.ask(order, station))

    def read(self, address, count):
        """The registers, where each has its line, in the order of the addresses."""
        done = self.ask(f"read {address:04X} {count}")
        told = re.findall(r"^ {12}([0-9A-F]{4}): ([0-9A-F]{4})$", done.stdout, re.M)
        if done.returncode != 0 or [place for place, _ in told] != [f"{address + k:04X}" for k in range(count)]:
            return self.end_of(done)
        return " ".join(word for _, word in told)

    def write(self, address, value, station=1):
        return self.result(f"write {address:04X} {value:04X}", station)

    def writes(self, address, *values):
        return self.result(f"writes {address:04X} {words(values)}")

    def clear(self, address):
        return self.result(f"clear {address:04X}")


def fresh(first, count):
    return [0xA000 + address for address in range(first, first + count)]


def steps_of_reading(asker):
    return [
        ("ask reads 1 register", lambda: asker.read(FIRST, 1), words(fresh(FIRST, 1))),
        ("ask reads 2 registers", lambda: asker.read(0x0101, 2), words(fresh(0x0101, 2))),
        ("ask reads 47 registers, all that there are", lambda: asker.read(FIRST, REGISTERS), words(fresh(FIRST, REGISTERS))),
        ("ask reads the last register", lambda: asker.read(LAST, 1), words(fresh(LAST, 1))),
    ]


def steps_of_writing(asker, witness):
    many = [0xFE00 + 5 * k for k in range(45)]
    all_written = words([*fresh(FIRST, 1), *many, *fresh(LAST, 1)])
    return [
        ("ask writes one register", lambda: asker.write(0x0103, 0x1388), "done"),
        (".. ask reads it as written", lambda: asker.read(0x0103, 1), "1388"),
        (".. mbpoll finds it as written", lambda: witness.read(0x0103, 1), "1388"),
        ("ask writes one register by 10", lambda: asker.writes(0x0104, 0x9ABC), "done"),
        (".. ask reads it as written, with its neighbours", lambda: asker.read(0x0103, 3), "1388 9ABC A105"),
        ("ask writes the totals of an AS-WE 40, by 10", lambda: asker.writes(0x0118, *TOTALS), "done"),
        ("ask writes half of one, by 06", lambda: asker.write(0x011C, 0x5678), "done"),
        (".. ask reads them as written, where the server lets it", lambda: asker.read(0x0118, 7), "0001 0929 1A85 FFFE 5678 8001 0203"),
        (".. mbpoll finds them as written", lambda: witness.read(0x0118, 7), "0001 0929 1A85 FFFE 5678 8001 0203"),
        ("ask writes 45 registers", lambda: asker.writes(0x0101, *many), "done"),
        (".. ask reads them as written, with their neighbours", lambda: asker.read(FIRST, REGISTERS), all_written),
        (".. mbpoll finds them as written", lambda: witness.read(FIRST, REGISTERS), all_written),
    ]


def steps_of_clearing(asker, witness):
    """05 with value 0000 is to these servers what it is to a meter: it clears. What it clears is a coil."""
    return [
        ("mbpoll finds the coil set", lambda: witness.read_coil(COIL), "1"),
        ("ask clears it", lambda: asker.clear(COIL), "done"),
        (".. mbpoll finds it cleared as written", lambda: witness.read_coil(COIL), "0"),
        ("ask clears it once more", lambda: asker.clear(COIL), "done"),
    ]


def steps_of_errors(asker):
    bad_address = "status 1, 1 try: Error 02"
    last = 0xFE00 + 5 * 44    # at LAST - 1, since the write of 45
    return [
        ("ask: a register in front of the first", lambda: asker.read(FIRST - 1, 1), bad_address),
        ("ask: a run past the last register", lambda: asker.read(FIRST + 1, REGISTERS), bad_address),
        ("ask: a write behind the last register", lambda: asker.write(LAST + 1, 0x0001), bad_address),
        ("ask: writes past the last register", lambda: asker.writes(LAST, 0x0001, 0x0002), bad_address),
        ("ask: a clear beside the coil", lambda: asker.clear(COIL + 1), bad_address),
        (".. ask reads the last registers as they were", lambda: asker.read(LAST - 1, 2), words([last, *fresh(LAST, 1)])),
    ]


def steps_of_no_answer(asker):
    none = "status 1, 3 tries: No answer"
    return [
        ("ask: a read at station 2", lambda: asker.result("read 0100 1", 2), none),
        ("ask: a write at station 2", lambda: asker.write(FIRST, 0x0001, 2), none),
        (".. ask reads the register as it was", lambda: asker.read(FIRST, 1), words(fresh(FIRST, 1))),
    ]


def steps_of_asking(command, link):
    asker, witness = Asker(command, link), Mbpoll(link)
    return [
        *steps_of_reading(asker), *steps_of_writing(asker, witness), *steps_of_clearing(asker, witness), *steps_of_errors(asker),
        *steps_of_no_answer(asker),
    ]
