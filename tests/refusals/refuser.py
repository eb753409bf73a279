"""Has a growth of memory or a thread of a program be refused, by refuse.c, and says what was, and what asked for it."""
import bisect
import os
import re
import struct
import subprocess
from dataclasses import dataclass
from functools import cache
from pathlib import Path

from harness.program import TESTED, ending, folder, needs, stored

NOTHING, GROWTH, GROWTH_OF_A_START, THREAD = range(4)
GROWS = re.compile(r"rattle_(?:re)?alloc|std_alloc::vec::Vec::grow_amortized")


@dataclass
class Asked:
    words: list
    name: str
    given: bytes
    workers: int = 0    # the threads that a whole run starts
    readers: int = 0    # of which so many read, before the others work

    def __str__(self):
        return f"{' '.join(self.words) or '(no word)'}, {self.name}"


@dataclass
class Report:
    """What refuse.c wrote."""
    FORM = "=9q"
    growths: int
    threads: int
    started: int
    refused: int
    by_worker: int
    started_before: int
    calls: list     # that led to the growth, innermost first, 0 for none

    @classmethod
    def of(cls, data):
        *numbers, inner, middle, outer = struct.unpack(cls.FORM, data)
        return cls(*numbers, [inner, middle, outer])


class Symbols:
    """The functions of a program, by address."""

    def __init__(self, program):
        lines = subprocess.run(["nm", program], capture_output=True, text=True, check=True).stdout.splitlines()
        found = (line.split(None, 2) for line in lines if re.match(r"[0-9a-f]+ [tT] ", line))
        self.functions = sorted((int(address, 16), name) for address, _, name in found)

    def place(self, address):
        """The function that an address lies in, without the numbers of its instance."""
        _, name = self.functions[bisect.bisect(self.functions, (address, "\x7f")) - 1]
        return re.fullmatch(r"(.+?)(::<#[0-9a-f]+>)?(\+.*)?", name)[1]

    def asker(self, report):
        """What asked for the growth that was refused: the innermost call that isn't a list's own."""
        places = (self.place(address) for address in report.calls if address)
        return next((place for place in places if not GROWS.match(place)), "nobody known")

    def is_of_a_start(self, report):
        """Whether the growth is the library's own, as it starts a thread: the program's all go by its allocator."""
        return not GROWS.match(next((self.place(address) for address in report.calls if address), ""))


@cache
def symbols(program):
    needs("nm")
    return Symbols(program)


@cache
def library():
    """refuse.c, to be preloaded."""
    needs("cc")
    made = f"{folder()}/refuse.so"
    source = f"{os.path.dirname(os.path.abspath(__file__))}/refuse.c"
    subprocess.run(["cc", "-O1", "-shared", "-fPIC", "-o", made, source, "-ldl"], check=True)
    return made


def refusing(asked, program=None, **what):
    """How a run ends where REFUSE_.. are as given, and the report."""
    path = stored("report", bytes(struct.calcsize(Report.FORM)))
    around = {f"REFUSE_{name.upper()}": str(number) for name, number in what.items()}
    around.update(LD_PRELOAD=library(), REFUSE_REPORT=path)
    end = ending(asked.words, asked.given, program or TESTED.program, env=around)
    report = Report.of(Path(path).read_bytes())
    if report.refused == GROWTH and symbols(program or TESTED.program).is_of_a_start(report):
        report.refused = GROWTH_OF_A_START
    return end, report
