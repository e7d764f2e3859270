"""A meter that is played by a few lines of Python: at a pseudo-terminal it answers each query with the bytes that it was told, right or wrong."""
import os
import select
import termios
import threading
import time

PAUSE = 0.02    # seconds after which a query is whole


def sent(data, after=0.0):
    """A part of an answer, and the seconds ahead of it."""
    return (after, data)


class PlayedLine:
    """What is heard is kept; each answer is a list of parts. Behind the last one there is silence."""

    def __init__(self, *answers):
        self.answers, self.heard, self.modes = list(answers), [], []
        self.meter_end, self.master_end = os.openpty()
        self.link = os.ttyname(self.master_end)
        self.is_over = threading.Event()
        self.thread = threading.Thread(target=self.play)

    def __enter__(self):
        self.thread.start()
        return self

    def __exit__(self, *_):
        self.is_over.set()
        self.thread.join()
        for end in (self.meter_end, self.master_end):
            self.close(end)

    @staticmethod
    def close(end):
        try:
            os.close(end)
        except OSError:
            pass

    def take_query(self):
        """The bytes that come without a pause; none where nothing comes for a while."""
        query, patience = b"", 0.05
        while select.select([self.meter_end], [], [], patience)[0]:
            query, patience = query + os.read(self.meter_end, 256), PAUSE
        return query

    def play(self):
        while not self.is_over.is_set():
            query = self.take_query()
            if not query:
                continue
            self.heard.append(query.hex(" ").upper())
            self.modes.append(termios.tcgetattr(self.master_end))
            for after, data in self.answers.pop(0) if self.answers else []:
                time.sleep(after)
                os.write(self.meter_end, data)


class BrokenLine(PlayedLine):
    """One that is cut off when the first query has come."""

    def play(self):
        while not self.take_query() and not self.is_over.is_set():
            pass
        self.close(self.master_end)
        self.close(self.meter_end)


class NoisyLine(PlayedLine):
    """One on which something sends all the time, and hears nothing."""

    def play(self):
        while not self.is_over.wait(0.002):
            os.write(self.meter_end, b"\x55")
            termios.tcflush(self.meter_end, termios.TCIFLUSH)
