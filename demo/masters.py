"""The masters: mbpoll, pymodbus's client, and frames that no master would send. What a frame came to is said in words:
the registers in hex, "done", "error 1" to "error 3", or "silence".

A master's sender_to_any_station() reads, writes and clears at the stations that no meter has, 0 and 248 to 255.

A reply with a history record has more words than were asked for, which is not as Modbus has it. What each master makes of it is its own."""
import re
import subprocess
import time

import serial
from pymodbus.client import ModbusSerialClient
from pymodbus.exceptions import ModbusIOException
from pymodbus.register_read_message import ReadHoldingRegistersRequest
from pymodbus.utilities import computeCRC

TIMEOUT = 1  # second that a master waits, a whole number for pymodbus; the meter replies within milliseconds


def words(values):
    return " ".join(f"{value:04X}" for value in values)


class Mbpoll:
    """One run of the command mbpoll for each frame. Between two of them nothing is open."""

    ERRORS = {"Illegal function": "error 1", "Illegal data address": "error 2", "Illegal data value": "error 3",
              "Connection timed out": "silence", "failed: Invalid data": "invalid data"}

    def __init__(self, link):
        self.link = link
        self.station = 1
        self.rate = 9600

    def __enter__(self):
        return self

    def __exit__(self, *_):
        pass

    def move(self, link):
        """From now on at another line."""
        self.link = link

    def started(self, table, address, *words_of_command):
        """mbpoll when it is done, -0 so that it counts registers from 0 as the meter's documents do."""
        command = ["mbpoll", "-m", "rtu", "-a", str(self.station), "-b", str(self.rate), "-P", "none", "-0", "-1",
                   "-o", str(TIMEOUT), "-t", table, "-r", str(address)]
        return subprocess.run([*command, *words_of_command], capture_output=True, text=True, check=False)

    def run(self, table, address, *words_of_command):
        """What mbpoll says."""
        done = self.started(table, address, "-q", *words_of_command)
        for message, result in self.ERRORS.items():
            if message in done.stderr:
                return result
        return done.stdout if done.returncode == 0 else f"{done.stdout} {done.stderr}"

    def sender_to_any_station(self):
        """mbpoll sends to none of them: of -a 0 it says that the address is out of range, and with 248 to 255 an assertion of its library ends it
        before a byte goes out. So the frames are put on the line without it."""
        return BareFrames(self.link)

    def read(self, address, count, table="4:hex"):
        said = self.run(table, address, "-c", str(count), self.link)
        values = re.findall(r"^\[\d+\]:\s+0x([0-9A-F]{4})", said, re.M)
        return " ".join(values) or said

    def read_input(self, address, count):
        return self.read(address, count, "3:hex")

    def read_coil(self, address):
        """One bit: 0 or 1."""
        said = self.run("0", address, "-c", "1", self.link)
        value = re.search(r"^\[\d+\]:\s+([01])$", said, re.M)
        return value.group(1) if value else said

    def bytes_read(self, address):
        """The bytes that came back to a read of one register, which mbpoll shows with -v, and what its library says of their number."""
        done = self.started("4:hex", address, "-v", self.link)
        came = " ".join(re.findall(r"<([0-9A-F]{2})>", done.stdout))
        said = re.search(r"Message length .*", done.stderr)
        return f"{came or 'silence'}; {said.group() if said else 'nothing is said of their number'}"

    def write(self, address, *values):
        said = self.run("4", address, self.link, *map(str, values))
        return "done" if f"Written {len(values)} references." in said else said

    def clear(self, address, value):
        said = self.run("0", address, self.link, str(value))
        return "done" if "Written 1 references." in said else said


class ReadRecord(ReadHoldingRegistersRequest):
    """A read whose reply has the words of a record, and not as many as are asked for. pymodbus takes as many bytes off the line as this says."""

    words = 22

    def get_response_pdu_size(self):
        return 2 + 2 * self.words


class Pymodbus:
    """pymodbus's client. It is connected anew when the rate has changed."""

    def __init__(self, link):
        self.link = link
        self.station = 1
        self.connect(9600)

    def __enter__(self):
        return self

    def __exit__(self, *_):
        self.client.close()

    def connect(self, rate):
        self.client = ModbusSerialClient(self.link, baudrate=rate, bytesize=8, parity="N", stopbits=1, timeout=TIMEOUT, retries=0)
        self.client.connect()

    @property
    def rate(self):
        return self.client.params.baudrate

    @rate.setter
    def rate(self, rate):
        self.client.close()
        self.connect(rate)

    def move(self, link):
        """From now on at another line."""
        self.link = link
        self.rate = self.rate

    def sender_to_any_station(self):
        """pymodbus sends to each of them, 0 too, and waits for a reply as from any other."""
        return self

    def broadcast(self, address, value):
        """A write that goes out to station 0 without waiting for a reply, which pymodbus does only where it is asked to."""
        self.client.params.broadcast_enable = True
        self.client.write_register(address, value, slave=0)
        self.client.params.broadcast_enable = False

    @staticmethod
    def result(reply, good):
        if not reply.isError():
            return good(reply)
        if isinstance(reply, ModbusIOException):
            return "silence" if "no response" in str(reply).lower() else str(reply)
        return f"error {reply.exception_code}"

    def read(self, address, count):
        reply = self.client.read_holding_registers(address, count, slave=self.station)
        return self.result(reply, lambda good: words(good.registers))

    def read_record_plainly(self, address):
        """A read that leaves most of a record on the line. pymodbus says of it what it says of silence, but does not wait: so that is told too."""
        begin = time.monotonic()
        reply = self.client.read_holding_registers(address, 1, slave=self.station)
        said = str(reply) if reply.isError() else words(reply.registers)
        return f"{said}, {'at once' if time.monotonic() - begin < TIMEOUT else 'after a wait'}"

    def read_record(self, address):
        reply = self.client.execute(ReadRecord(address, 1, self.station))
        return self.result(reply, lambda good: words(good.registers))

    def read_input(self, address, count):
        reply = self.client.read_input_registers(address, count, slave=self.station)
        return self.result(reply, lambda good: words(good.registers))

    def write(self, address, *values):
        if len(values) == 1:
            reply = self.client.write_register(address, values[0], slave=self.station)
        else:
            reply = self.client.write_registers(address, list(values), slave=self.station)
        return self.result(reply, lambda good: "done")

    def clear(self, address, value):
        reply = self.client.write_coil(address, bool(value), slave=self.station)
        return self.result(reply, lambda good: "done")


def with_check(hex_bytes):
    """A frame with its check, which pymodbus hands back in the order in which it is sent."""
    frame = bytes.fromhex(hex_bytes)
    return frame + computeCRC(frame).to_bytes(2, "big")


def send_raw(link, frame):
    """A frame as no master would send it: the bytes that come back within half a second, in hex."""
    with serial.Serial(link, 9600, timeout=0.5) as line:
        line.write(frame)
        return line.read(256).hex(" ").upper() or "silence"


class BareFrames:
    """Frames as a master would make them, and the reply as it came, for stations that a master does not send to."""

    def __init__(self, link):
        self.link = link
        self.station = 1

    def send(self, function, *given, behind=""):
        return send_raw(self.link, with_check(f"{self.station:02X} {function:02X} {words(given)} {behind}"))

    def read(self, address, count):
        return self.send(0x03, address, count)

    def write(self, address, *values):
        if len(values) == 1:
            return self.send(0x06, address, *values)
        return self.send(0x10, address, len(values), behind=f"{2 * len(values):02X} {words(values)}")

    def clear(self, address, value):
        return self.send(0x05, address, 0xFF00 if value else 0)


def damaged(hex_bytes):
    """A frame that had its check, with one bit turned since."""
    frame = bytearray(with_check(hex_bytes))
    frame[4] ^= 0x10
    return bytes(frame)
