"""Joins the listings that runs of ilocfarm made of pieces of a file into that of one run."""
import re
from contextlib import suppress
from dataclasses import dataclass
from functools import cached_property
from itertools import groupby
from pathlib import Path

# How the lines at the end of a listing begin, by its command; their numbers are added.
ENDINGS = {"run": [], "simulate": [], "trace": [], "schedule": ["total"], "counts": ["total"], "explain": ["total"],
           "optimize": ["total"], "compare": ["total", "fewest", "optimal"]}
TABLES = ("counts", "compare")
NUMBER = re.compile(rb"^block ([0-9]{1,9})(?![0-9])", re.MULTILINE)
NUMBER_IN_TABLE = re.compile(rb"^([0-9]{1,9})(?=,)", re.MULTILINE)
FAULT = re.compile(r"ilocfarm: (line|.*\bblock) ([0-9]{1,9})\b(.*)\n(?:line \2\b(.*\n)((?: .*\n)*))?")
INDEXED = re.compile(r"([0-9]{1,9}) ([0-9]{1,18}) ([0-9]{1,5})\n")
DONE, REFUSED = 0, 1


class Refused(Exception):
    """The text of the whole file is refused."""


class Unjoined(Exception):
    """There is no listing to be joined."""


@dataclass
class Piece:
    folder: str
    number: int
    line: int       # of the whole file, where the piece begins
    blocks: int

    def path(self, name):
        return Path(f"{self.folder}/{self.number}.result/{name}")

    def text(self, name):
        return self.path(name).read_text("utf-8", "replace")

    @cached_property
    def status(self):
        """None where it wasn't run to its end."""
        with suppress(FileNotFoundError, ValueError):
            return int(self.text("status"))

    def fault(self, before):
        """Whether the text stopped the program or the priorities did, and where, in lines and blocks of the whole file,
        of which so many blocks are `before` the piece."""
        said = FAULT.fullmatch(self.text("err"))
        if self.status != REFUSED or not said:
            raise Unjoined(f"piece {self.number} ended with {self.status}: {self.text('err').rstrip()}")
        is_text, at = said[1] == "line", int(said[2])
        number = at + (self.line - 1 if is_text else before)
        reason = f"line {number}{said[4]}{said[5]}" if said[4] else ""
        return is_text, (f"ilocfarm: {said[1]} {number}{said[3]}\n{reason}"
                         f"ilocpieces: this is {said[1].split()[-1]} {at} of {self.folder}/{self.number}.iloc\n")


@dataclass
class Form:
    """How the listings of some words are joined."""
    number: re.Pattern      # a block's, where its entry begins
    whole: re.Pattern       # the lines that precede the entries, the entries, and the lines after them

    @classmethod
    def of(cls, words):
        command = words[0]
        if command not in ENDINGS:
            raise Unjoined(f"the listings of {command} can't be joined, only those of {', '.join(ENDINGS)}")
        apart = ("-h", "--help", *["--csv"] * (command not in TABLES))
        other = next((word for word in words if word in apart or word.startswith("--task")), None)
        if other:
            raise Unjoined(f"the listings of {command} {other} can't be joined")
        if "--csv" in words and command in TABLES:
            return cls(NUMBER_IN_TABLE, re.compile(rb"([^\n]*\n)(.*)()", re.DOTALL))
        ending = "".join(rf"^{ending}(?: [a-z]+| [0-9]{{1,18}})+\n" for ending in ENDINGS[command])
        return cls(NUMBER, re.compile(rf"()(.*)({ending})".encode(), re.DOTALL | re.MULTILINE))

    def parts(self, piece):
        """The lines before the entries of a piece, the entries, and the lines after them; all have to be there."""
        found = self.whole.fullmatch(piece.path("out").read_bytes())
        numbers = [int(digits) for digits in self.number.findall(found[2])] if found else None
        if numbers != list(range(1, piece.blocks + 1)):
            raise Unjoined(f"piece {piece.number} has {piece.blocks} blocks, and its listing others")
        return found[1], found[2], found[3].splitlines()

    def renumbered(self, entries, before):
        return self.number.sub(lambda found: found[0].replace(found[1], b"%d" % (int(found[1]) + before)), entries)


def pieces_of(folder):
    lines = Path(f"{folder}/index").read_text("ascii", "replace").splitlines(True)
    found = [*map(INDEXED.fullmatch, lines)]
    if not all(found) or not found:
        line = [*map(bool, found), False].index(False) + 1
        raise Unjoined(f"{folder}/index: line {line} is none that ilocpieces split writes")
    return [Piece(folder, *map(int, found.groups())) for found in found]


def runs(numbers):
    """Those of numbers in rising order that follow one another, which then are as far from their places: `1`, `3-5`."""
    for _, placed in groupby(enumerate(numbers), lambda placed: placed[1] - placed[0]):
        run = [number for _, number in placed]
        yield f"{run[0]}-{run[-1]}" if len(run) > 1 else f"{run[0]}"


def check_run(pieces):
    """Each piece was run to its end, with the same words. Of a piece whose text is refused only those before it were; a
    fault of priorities is found once all texts are read."""
    missing, faults, before = [piece.number for piece in pieces if piece.status is None], [], 0
    for piece in pieces:
        if piece.status is None:
            raise Unjoined(f"not run to their end: {','.join(runs(missing))}")
        words, usual = piece.text("words"), pieces[0].text("words")
        if words != usual:
            raise Unjoined(f"piece {piece.number} was run as {words.split()}, and piece 1 as {usual.split()}")
        if piece.status != DONE:
            is_text, said = piece.fault(before)
            faults.append(said)
            if is_text:
                raise Refused(said)
        before += piece.blocks
    if faults:
        raise Refused(faults[0])


def added(lines):
    """The sum of lines like `total 3 least 2`, number by number; they have to be alike."""
    if len({re.sub(rb"[0-9]+", b"", line) for line in lines}) > 1:
        raise Unjoined(f"the pieces' last lines differ: {lines[0].decode()}, ..")
    columns = zip(*(line.split() for line in lines))
    return b" ".join(b"%d" % sum(map(int, column)) if column[0].isdigit() else column[0] for column in columns) + b"\n"


def join(pieces, out):
    form = next((Form.of(piece.text("words").split("\n")) for piece in pieces if piece.status is not None), None)
    check_run(pieces)
    checked = [(head, ending) for head, _, ending in map(form.parts, pieces)]
    endings = [added(lines) for lines in zip(*(ending for _, ending in checked))]
    out.write(checked[0][0])
    before = 0
    for piece in pieces:
        out.write(form.renumbered(form.parts(piece)[1], before))
        before += piece.blocks
    out.writelines(endings)
    out.flush()
