"""Servers that others wrote, each at the far end of a line: what a master sends is passed on to the server, and the server's replies are passed back. And
lines that are wrong, so that each step at a server is seen to fail."""
import os
import select
import subprocess
import sys
import tty

from masters import with_check
from played_line import PAUSE, PlayedLine

READ, WRITES = 0x03, (0x05, 0x06, 0x10)


def sealed(frame, station):
    """A frame that is changed, as from or for a station, with the check that it then has."""
    return with_check((bytes([station]) + frame[1:-2]).hex())


class Plain:
    """How a frame goes over a line that is as it should be. One to the server may be answered by the line itself."""

    def to_server(self, frame):
        return frame

    def to_master(self, frame):
        return frame

    def own_answer(self, _):
        return b""


class Silent(Plain):
    """No reply comes back."""

    def to_master(self, frame):
        return b""


class Hasty(Plain):
    """Whatever station is asked, the server at station 1 answers for it."""

    def __init__(self):
        self.station = 1

    def to_server(self, frame):
        self.station = frame[0]
        return sealed(frame, 1)

    def to_master(self, frame):
        return sealed(frame, self.station)


class Swapped(Plain):
    """The registers come back with the lower byte first."""

    def to_master(self, frame):
        if frame[1] != READ:
            return frame
        words = frame[3:-2]
        turned = b"".join(words[k:k + 2][::-1] for k in range(0, len(words), 2))
        return sealed(frame[:3] + turned + frame[-2:], frame[0])


class Forgetful(Plain):
    """What is written is answered as done, and never gets to the server."""

    def to_server(self, frame):
        return b"" if frame[1] in WRITES else frame

    def own_answer(self, frame):
        return sealed(frame[:6] + b"\0\0", frame[0]) if frame[1] in WRITES else b""


WIRES = {"plain": Plain, "silent": Silent, "hasty": Hasty, "swapped": Swapped, "forgetful": Forgetful}


class Server(PlayedLine):
    """A server that runs at the far end of a line."""

    def __init__(self, command, wire):
        super().__init__()
        self.wire = WIRES[wire]()
        self.far_end, self.server_end = os.openpty()
        for end in (self.master_end, self.server_end):
            tty.setraw(end)
        self.process = subprocess.Popen([*command, os.ttyname(self.server_end)], stdout=subprocess.PIPE, text=True)

    def __enter__(self):
        if self.process.stdout.readline() != "server on\n":
            sys.exit("a server did not start")
        return super().__enter__()

    def __exit__(self, *_):
        self.process.kill()
        self.process.wait()
        self.process.stdout.close()
        super().__exit__()
        for end in (self.far_end, self.server_end):
            self.close(end)

    @staticmethod
    def whole_frame(end):
        """What comes without a pause from an end at which something is."""
        frame = b""
        while select.select([end], [], [], PAUSE)[0]:
            frame += os.read(end, 256)
        return frame

    def play(self):
        while not self.is_over.is_set():
            for end in select.select([self.meter_end, self.far_end], [], [], 0.05)[0]:
                frame = self.whole_frame(end)
                if end == self.far_end:
                    os.write(self.meter_end, self.wire.to_master(frame))
                else:
                    os.write(self.far_end, self.wire.to_server(frame))
                    os.write(self.meter_end, self.wire.own_answer(frame))
