"""Many blocks in one picture: how many have cycles within which ratio of the least, or of the first column's."""
import bisect
import math
from dataclasses import dataclass
from statistics import geometric_mean

import svg

LEAST = "least"
MARGIN = 12
LEFT, TOP = 58, 58
WIDTH, HEIGHT = 520, 260
LINE = 20               # of the table
MARKS = (0.25, 0.5, 0.75)
HEADS = ("", "cycles", "as few", "mean", "9 in 10", "worst")
PLACES = (0, 210, 290, 360, 440, 510)


@dataclass
class Ratios:
    """A column's ratios in rising order."""
    column: object
    cycles: int
    sorted: list

    def at(self, share):
        """The ratio that this share of the blocks doesn't exceed."""
        return self.sorted[max(0, math.ceil(share * len(self.sorted)) - 1)]

    def share(self, ratio):
        return bisect.bisect_right(self.sorted, ratio) / len(self.sorted)

    def texts(self):
        numbers = (geometric_mean(self.sorted), self.at(0.9), self.sorted[-1])
        return [self.column.name, str(self.cycles), f"{100 * self.share(1):.0f} %",
                *(f"{number:.3f}" for number in numbers)]


class Curve:
    """Curves that rise with the share of blocks, and a table."""

    def __init__(self, columns, wrong):
        least = [column for column in columns if column.name == LEAST]
        self.base = (least or columns)[0]
        left_out = set(wrong) | {k for column in columns for k, value in enumerate(column.values) if value == 0}
        self.taken = [k for k in range(len(self.base.values)) if k not in left_out]
        self.wrong, self.empty = len(wrong), len(left_out) - len(wrong)
        if not self.taken:
            raise svg.Unread("no block has cycles that can be compared")
        self.all = [self.ratios(column) for column in columns]
        self.drawn = [ratios for ratios in self.all if ratios.column is not self.base]
        low, high = min(ratios.sorted[0] for ratios in self.drawn), max(ratios.at(0.99) for ratios in self.drawn)
        self.step = svg.step_for(max(high - low, 0.03), 6, -2)
        self.low = math.floor(low / self.step + 1e-9) * self.step
        self.high = max(math.ceil(high / self.step - 1e-9) * self.step, self.low + self.step)

    def ratios(self, column):
        pairs = [(column.values[k], self.base.values[k]) for k in self.taken]
        return Ratios(column, sum(cycles for cycles, _ in pairs), sorted(cycles / base for cycles, base in pairs))

    def x(self, ratio):
        return LEFT + WIDTH * (min(ratio, self.high) - self.low) / (self.high - self.low)

    def y(self, share):
        return TOP + HEIGHT * (1 - share)

    def grid(self):
        for k in range(round((self.high - self.low) / self.step) + 1):
            ratio = self.low + k * self.step
            yield svg.line(self.x(ratio), TOP, self.x(ratio), TOP + HEIGHT, class_="grid")
            yield svg.text(self.x(ratio), TOP + HEIGHT + 16, f"{ratio:.2f}", text_anchor="middle")
        for percent in range(0, 101, 25):
            y = self.y(percent / 100)
            yield svg.line(LEFT, y, LEFT + WIDTH, y, class_="grid")
            yield svg.text(LEFT - 12, y + 4, f"{percent} %", text_anchor="end")

    def curve(self, ratios):
        """Steps: up at each ratio that some block has."""
        points, share = [(self.x(self.low), self.y(0))], 0
        for ratio in sorted(set(ratios.sorted)):
            if ratio > self.high:
                break
            points.append((self.x(ratio), self.y(share)))
            share = ratios.share(ratio)
            points.append((self.x(ratio), self.y(share)))
        points.append((self.x(self.high), self.y(share)))
        line = svg.element("polyline", points=" ".join(f"{svg.number(x)},{svg.number(y)}" for x, y in points),
                           fill="none", stroke=ratios.column.colour, stroke_width=2)
        marks = [ratios.column.mark(self.x(ratios.at(share)), self.y(share)) for share in MARKS]
        told = ", ".join(f"{value} {head}" for head, value in zip(HEADS[1:], ratios.texts()[1:]))
        return svg.group(f"{ratios.column.name}: {told}", line, *marks)

    def table(self):
        y = TOP + HEIGHT + 72
        for head, place in zip(HEADS, PLACES):
            yield svg.text(LEFT + place, y, head, "ink head", text_anchor="end" if place else "start")
        for row, ratios in enumerate(self.all, 1):
            yield ratios.column.mark(LEFT - 16, y + LINE * row - 4)
            for text, place in zip(ratios.texts(), PLACES):
                yield svg.text(LEFT + place, y + LINE * row, text, text_anchor="end" if place else "start")

    def note(self):
        parts = [f"{len(self.taken)} blocks"]
        parts += [f"{self.wrong} left out that don't pass"] if self.wrong else []
        parts += [f"{self.empty} left out without cycles"] if self.empty else []
        return ", ".join(parts)

    def parts(self):
        yield svg.text(MARGIN, 20, f"share of blocks with at most this ratio of cycles to {self.base.name}", "ink head")
        yield svg.text(MARGIN, 38, self.note())
        yield from self.grid()
        yield from (self.curve(ratios) for ratios in self.drawn)
        yield svg.text(LEFT, TOP + HEIGHT + 38, "to where each has 99 % of its blocks")
        yield from self.table()

    def picture(self):
        height = TOP + HEIGHT + 72 + LINE * len(self.all) + MARGIN
        title = f"cycles of {' and '.join(ratios.column.name for ratios in self.drawn)}, as ratios to {self.base.name}"
        return svg.picture(LEFT + WIDTH + 40, height, title, self.parts())
