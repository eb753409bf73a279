"""A terminal, and what it shows."""
import os
from contextlib import contextmanager

from harness.place import until


class Terminal:
    """A terminal of 80 columns, and what it shows."""

    def __init__(self, master):
        self.master, self.written = master, b""
        os.set_blocking(master, False)

    def type(self, text):
        os.write(self.master, text.encode())

    def lines(self):
        try:
            while more := os.read(self.master, 65536):
                self.written += more
        except OSError:     # there is no more, or the other side was closed
            pass
        return [shown(line) for line in self.written.decode("ascii").split("\n")]

    def until(self, line):
        """Waits until this is the line that was written last."""
        try:
            until(line, lambda: self.lines()[-1] == line)
        except AssertionError:
            raise AssertionError(f"the terminal shows {self.lines()!r}, and not {line!r}") from None


def shown(line):
    """What the line of a terminal shows once this was written to it."""
    cells = []
    for part in line.split("\r"):
        cells[:len(part)] = part
    return "".join(cells).rstrip(" ")


@contextmanager
def terminal():
    master, slave = os.openpty()
    try:
        yield Terminal(master), slave
    finally:
        os.close(master)
        os.close(slave)
