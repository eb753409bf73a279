"""The cycles of two or more listings beside one another, as a picture."""
import os
import re
from dataclasses import dataclass
from itertools import accumulate

import svg
from curve import Curve
from listing import PASSED, VERDICT, count
from svg import Unread

COLOURS = ("#4c9be8", "#e8833a", "#3fae5a", "#a879e0", "#d9a514", "#d6568c", "#25aeb0", "#a06a42", "#e5484d")
SHAPES = 6
ROWS = 60           # more blocks have no row each
OURS, LEAST = "ours", "least"
COUNTED = re.compile(r"block \d+ (\S+) cycles (\d+)")
COMPARED = re.compile(r"block \d+ (\S+) least (\d+)((?: [a-z]+ \d+)+)")
TABLE = re.compile(r"block,name,least((?:,\w+)+)")
TABLE_ROW = re.compile(r"\d+,([^,]+),(\d+)((?:,\d+)+)")
LISTED = re.compile(rb"block(?:,| \d+ \S+ )")     # how a listing begins
NOTHING = re.compile(r"  .*|(?:total|fewest|optimal) .*")

HEIGHT = 20         # of a row
MARGIN = 12
TOP = 60
PLOT = 380          # columns of the scale
MARK = 5


@dataclass
class Entry:
    name: str
    cycles: int
    verdict: str = "lawful"
    ours: int = None
    least: int = None


@dataclass
class Listing:
    name: str
    entries: list


def compared(name, least, numbers):
    """The entries of a block by each priority, with the bound for the least where it is listed."""
    cycles = dict(numbers)
    least = count(cycles.pop("bound", least))
    return {priority: Entry(name, count(number), least=least) for priority, number in cycles.items()}


def read_entries(line, columns):
    """The entries of a block by priority, where a table has these columns; by None where there is one entry alone."""
    judged, counted, tried, row = (form.fullmatch(line) for form in (VERDICT, COUNTED, COMPARED, TABLE_ROW))
    if judged:
        _, name, verdict, cycles, ours, least = judged.groups()
        return {None: Entry(name, count(cycles), verdict, count(ours), count(least))}
    if counted:
        return {None: Entry(counted[1], count(counted[2]))}
    if tried:
        words = tried[3].split()
        return compared(tried[1], tried[2], zip(words[::2], words[1::2]))
    if row and row[3].count(",") == len(columns):
        return compared(row[1], row[2], zip(columns, row[3].split(",")[1:]))
    return None


def read_listings(name, path, data):
    """The one listing of a file, or those of `compare`, one of each priority."""
    blocks, columns = [], []
    for at, line in enumerate(data.decode("utf-8", "replace").splitlines(), 1):
        entries, heads = read_entries(line, columns), TABLE.fullmatch(line)
        if entries:
            blocks.append(entries)
        elif heads:
            columns = heads[1].split(",")[1:]
        elif not NOTHING.fullmatch(line):
            raise Unread(f"{path}: line {at} is none of a listing of counts, check or compare: {line}")
    if not blocks:
        raise Unread(f"{path}: there is no block")
    if any(block.keys() != blocks[0].keys() for block in blocks):
        raise Unread(f"{path}: the blocks are listed in more than one way")
    return [Listing(f"{name} {priority}".strip() if priority else name or os.path.basename(path),
                    [block[priority] for block in blocks])
            for priority in blocks[0]]


def rows_of(name, table):
    """The lines of a table of `compare` by column, of which the last gets this name, if it is one."""
    heads, *rows = [line.split(",") for line in table.decode().splitlines()]
    heads[-1] = name or heads[-1]
    return [dict(zip(heads, row)) for row in [heads, *rows]]


def joined(tables):
    """One table of several, in which only the last columns differ: it has each of these, by its table's name."""
    (_, whole), *others = [(name, rows_of(name, table)) for name, table in tables]
    for name, rows in others:
        pairs = [*zip(whole, rows)]
        if len(rows) != len(whole) or any(len(more.items() - row.items()) != 1 for row, more in pairs):
            raise Unread(f"with the priorities {name} the other columns aren't the same")
        for row, more in pairs:
            row.update(more)
    return "".join(",".join(row.values()) + "\n" for row in whole).encode()


@dataclass
class Column:
    name: str
    shape: object       # a number, or OURS or LEAST
    colour: str
    values: list

    def mark(self, x, y):
        """Each column's has a shape or a colour of its own."""
        if self.shape == LEAST:
            return svg.line(x, y - 8, x, y + 8, stroke=self.colour, stroke_width=2)
        if self.shape == OURS:
            return svg.element("circle", cx=x, cy=y, r=MARK + 2, fill="none", stroke=self.colour, stroke_width=2)
        return svg.mark(self.shape, x, y, self.colour, MARK)


def columns_of(listings):
    columns = [Column(listing.name, (k % len(COLOURS) + k // len(COLOURS)) % SHAPES, COLOURS[k % len(COLOURS)],
                      [entry.cycles for entry in listing.entries]) for k, listing in enumerate(listings)]
    for shape in (OURS, LEAST):
        known = next((listing for listing in listings if getattr(listing.entries[0], shape) is not None), None)
        if known:
            columns.append(Column(shape, shape, svg.INK, [getattr(entry, shape) for entry in known.entries]))
    return columns


def left_out(listings):
    """The numbers of the blocks with a verdict that doesn't pass, from 0 on."""
    return [k for k, entries in enumerate(zip(*(listing.entries for listing in listings)))
            if any(entry.verdict not in PASSED for entry in entries)]


class Chart:
    """A row a block."""

    def __init__(self, listings, columns, wrong):
        self.listings, self.columns = listings, columns
        self.names = [f"{number} {entry.name}" for number, entry in enumerate(listings[0].entries, 1)]
        most = max(max(column.values) for column in columns)
        self.step = svg.step_for(max(most, 1), 8)
        self.end = self.step * -(-max(most, 1) // self.step)
        self.wrong = set(wrong)
        self.left = MARGIN + max(svg.width_of(text) for text in [*self.names, "total"]) + 14
        widths = [svg.width_of(max(column.name, str(sum(column.values)), key=len)) + 24 for column in columns]
        self.ends = [*accumulate(widths, initial=self.left + PLOT + 12)][1:]        # of each column's numbers

    def totals(self):
        return [sum(value for k, value in enumerate(column.values) if k not in self.wrong) for column in self.columns]

    def x(self, cycles):
        return self.left + PLOT * cycles / self.end

    def y(self, row):
        return TOP + HEIGHT * row + HEIGHT / 2

    def grid(self):
        bottom = TOP + HEIGHT * len(self.names)
        for cycles in range(0, self.end + 1, self.step):
            yield svg.line(self.x(cycles), TOP - 4, self.x(cycles), bottom, class_="grid")
            yield svg.text(self.x(cycles), TOP - 9, str(cycles), text_anchor="middle")

    def heads(self):
        yield svg.text(MARGIN, 20, "cycles of each block", "ink head")
        for end, column in zip(self.ends, self.columns):
            yield column.mark(end - svg.width_of(column.name) - 10, TOP - 13)
            yield svg.text(end, TOP - 9, column.name, text_anchor="end")

    def verdicts(self, row):
        told = [f"{listing.name}: {listing.entries[row].verdict}"
                for listing in self.listings if listing.entries[row].verdict not in PASSED]
        return ", ".join(told)

    def row(self, row, name):
        y = self.y(row)
        values = [column.values[row] for column in self.columns]
        told = "\n".join([name, *(f"{column.name}: {value}" for column, value in zip(self.columns, values)),
                          *filter(None, [self.verdicts(row)])])
        marks = [column.mark(self.x(value), y) for column, value in zip(self.columns, values)]
        return svg.group(told, svg.text(MARGIN, y + 4, name),
                         svg.line(self.x(min(values)), y, self.x(max(values)), y, class_="axis"), *reversed(marks),
                         *self.numbers_at(y, values, self.verdicts(row)))

    def numbers_at(self, y, values, more=""):
        yield from (svg.text(end, y + 4, str(value), text_anchor="end") for end, value in zip(self.ends, values))
        if more:
            yield svg.text(self.ends[-1] + 14, y + 4, more)

    def below(self):
        """What is written beside the totals."""
        return "without those that don't pass" if self.wrong else ""

    def parts(self):
        yield from self.heads()
        yield from self.grid()
        yield from (self.row(row, name) for row, name in enumerate(self.names))
        y = self.y(len(self.names)) + 4
        yield svg.text(MARGIN, y + 4, "total", "ink head")
        yield from self.numbers_at(y, self.totals(), self.below())

    def picture(self):
        beside = [self.below(), *map(self.verdicts, range(len(self.names)))]
        told = max((svg.width_of(text) + 14 for text in beside if text), default=0)
        width = self.ends[-1] + told + MARGIN
        title = "cycles of " + " and ".join(listing.name for listing in self.listings)
        return svg.picture(width, self.y(len(self.names)) + HEIGHT, title, self.parts())


def drawn(given):
    """The picture of files, each by its name, path and bytes."""
    listings = [listing for each in given for listing in read_listings(*each)]
    if len(listings) < 2 and listings[0].entries[0].ours is None:
        raise Unread("one listing of counts can't be compared: give another")
    sizes = [len(listing.entries) for listing in listings]
    if len(set(sizes)) > 1:
        raise Unread("the listings have " + ", ".join(map(str, sizes)) + " blocks: only the same ones can be compared")
    if len(listings) > len(COLOURS) * SHAPES:
        raise Unread(f"more than {len(COLOURS) * SHAPES} listings can't be told apart")
    columns, wrong = columns_of(listings), left_out(listings)
    if sizes[0] > ROWS:
        return Curve(columns, wrong).picture()
    return Chart(listings, columns, wrong).picture()
