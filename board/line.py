#!/usr/bin/python3
"""Two masters that know nothing of this repository, mbpoll and pymodbus's client, at the meter of board/example on an emulated board:
line.py METER.elf. Each step has its expected result; one that comes out otherwise is shown with both, and the exit status is 1."""
import os
import re
import subprocess
import sys

sys.dont_write_bytecode = True
sys.path.insert(0, os.path.join(os.path.dirname(os.path.abspath(__file__)), "..", "demo"))
from masters import Mbpoll, Pymodbus, damaged, send_raw, with_check  # noqa: E402

READ, READING = "01 03 01 01 00 02", "01 03 04 00 00 00 00 FA 33"
TRIES = 20  # of half a second each, until the emulator runs and has noticed that its line is open


def emulator(program):
    """The board, and the name of its serial line, which the emulator tells first."""
    board = subprocess.Popen(["qemu-system-arm", "-M", "mps2-an385", "-display", "none", "-monitor", "none", "-serial", "pty", "-kernel", program],
                             stdout=subprocess.PIPE, stderr=subprocess.STDOUT, text=True)
    return board, re.search(r"/dev/\S+", board.stdout.readline()).group(0)


def wait_for_meter(line):
    for _ in range(TRIES):
        if send_raw(line, with_check(READ)) == READING:
            return
    sys.exit("FAILED: the example's meter does not answer on the emulated board")


def steps(master):
    """What is done, and what it must come to. Each master finds the meter fresh, and leaves it so."""
    yield "the reference temperature and the pulse constant, fresh", lambda: master.read(0x100, 2), "FFF6 0000"
    yield "06: the pulse constant 4, the highest", lambda: master.write(0x101, 4), "done"
    yield "06: the pulse constant 5 is out of its range", lambda: master.write(0x101, 5), "error 3"
    yield "it is 4 still", lambda: master.read(0x101, 1), "0004"
    yield "10: a limit of 100.0, and one that is out of its range", lambda: master.write(0x103, 0, 1000, 1, 34464), "error 3"
    yield "the first is stored, the second not", lambda: master.read(0x103, 4), "0000 03E8 0000 0000"
    yield "an address that the meter has not", lambda: master.read(0x150, 1), "error 2"
    yield "a reading cannot be written", lambda: master.write(0x200, 1), "error 2"
    yield "10: both limits back", lambda: master.write(0x103, 0, 0, 0, 0), "done"
    yield "06: the pulse constant back", lambda: master.write(0x101, 0), "done"


def raw_steps(line):
    """Frames that no master would send."""
    yield "a damaged frame", lambda: send_raw(line, damaged(READ)), "silence"
    yield "another station's frame", lambda: send_raw(line, with_check("02 03 01 01 00 02")), "silence"
    yield "a good check behind 99 bytes", lambda: send_raw(line, with_check("01 10" + 97 * " 00")), "silence"
    yield "the next frame is answered", lambda: send_raw(line, with_check(READ)), READING


def played(name, some):
    """How many steps there were, and how many came out otherwise."""
    tried = failed = 0
    for text, deed, expected in some:
        said = deed()
        tried += 1
        if said != expected:
            failed += 1
            print(f"FAILED: {name}: {text}: expected {expected!r}, came {said!r}")
    return tried, failed


def main(program):
    board, line = emulator(program)
    # The emulator looks after a line that nobody has open only once a second. So it is held open, and each master opens it besides.
    held = os.open(line, os.O_RDWR | os.O_NOCTTY)
    try:
        wait_for_meter(line)
        results = []
        for kind in (Mbpoll, Pymodbus):
            with kind(line) as master:
                results.append(played(kind.__name__, steps(master)))
        results.append(played("bare frames", raw_steps(line)))
    finally:
        os.close(held)
        board.kill()
        board.wait()
    tried, failed = (sum(column) for column in zip(*results))
    if failed:
        sys.exit(1)
    print(f"the example's meter on an emulated Cortex-M3 board: {tried} steps of mbpoll, pymodbus and bare frames, each as expected")


main(*sys.argv[1:])
