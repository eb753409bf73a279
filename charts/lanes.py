"""A block's schedule as a picture: units over cycles, each operation from its issue to its arrival."""
from heapq import heappop, heappush

import svg
from listing import CHAIN, COLOURS, MOST_CYCLES, PASSED, PATH, WRONG, read_block

HEIGHT = 18         # of a row
LANE = 9            # from one bar to the next
BAR = 5
MARGIN = 12
TOP = 68
DOT = 3             # half of one that marks the path


def lanes(operations, latencies):
    """Each operation whose result is under way for more than a cycle, with the first lane that is free then."""
    free, busy, count = [], [], 0
    for operation in sorted(operations, key=lambda operation: operation.cycle):
        while busy and busy[0][0] <= operation.cycle:
            heappush(free, heappop(busy)[1])
        if operation.arrival(latencies) > operation.cycle + 1:
            lane = heappop(free) if free else count
            count = max(count, lane + 1)
            heappush(busy, (operation.arrival(latencies), lane))
            yield operation, lane


class Chart:
    def __init__(self, block, latencies):
        if block.cycles > MOST_CYCLES:
            raise svg.Unread(f"block {block.number} takes {block.cycles} cycles: at most {MOST_CYCLES} are drawn")
        if len({(operation.cycle, operation.unit) for operation in block.operations}) < len(block.operations):
            raise svg.Unread(f"block {block.number} has two operations on one unit in one cycle")
        self.block, self.latencies = block, latencies
        self.chain, self.path = set(block.chain), set(block.path)
        units = [[operation for operation in block.operations if operation.unit == unit] for unit in (0, 1)]
        self.flights = [list(lanes(operations, latencies)) for operations in units]
        self.boxes = [max([svg.width_of(operation.label()) + 12 for operation in unit], default=70) for unit in units]
        lane_counts = [max([lane + 1 for _, lane in flight], default=0) for flight in self.flights]
        self.left = MARGIN + svg.width_of(str(block.cycles)) + 10
        self.starts = [self.left, self.left + self.boxes[0] + LANE * (lane_counts[0] + 1) + 14]
        self.width = self.starts[1] + self.boxes[1] + LANE * (lane_counts[1] + 1) + MARGIN
        self.width = max(self.width, self.legend_end() + MARGIN, MARGIN * 2 + svg.width_of(self.title()))

    def title(self):
        """The bound says nothing of rows that are wrong."""
        block, verdict = self.block, "wrong" if self.block.verdict in ("differs", "units") else self.block.verdict
        least = f", at least {block.least}" if block.least and block.verdict in PASSED else ""
        name = "" if block.name == "-" else f" {block.name}"
        return f"block {block.number}{name}: {block.cycles} cycles{least}{verdict and f', {verdict}'}"

    def y(self, cycle):
        return TOP + HEIGHT * cycle

    def keys(self):
        """Legend: name, colour and place."""
        x = MARGIN
        marks = [("product" if name == "mult" else name, colour) for name, colour in COLOURS.items()]
        marks += [("longest chain", CHAIN)] if self.block.chain else []
        marks += [("path", PATH)] if self.block.path else []
        marks += [("wrong", WRONG)] if self.block.wrong else []
        for name, colour in marks:
            yield name, colour, x
            x += 18 + svg.width_of(name) + 12

    def legend_end(self):
        name, _, x = list(self.keys())[-1]
        return x + 18 + svg.width_of(name)

    def legend(self):
        for name, colour, x in self.keys():
            if colour == PATH:
                yield svg.mark(0, x + 6, 38, PATH, DOT)
            elif colour in (CHAIN, WRONG):
                yield svg.rectangle(x, 32, 12, 12, "none", stroke=colour, stroke_width=2)
            else:
                yield svg.rectangle(x, 32, 12, 12, colour)
            yield svg.text(x + 17, 42, name)

    def grid(self):
        step = 1 if self.block.cycles <= 60 else 5
        for cycle in range(0, self.block.cycles + 1, step):
            yield svg.line(self.left - 4, self.y(cycle), self.width - MARGIN, self.y(cycle), class_="grid")
            yield svg.text(self.left - 8, self.y(cycle) + 13, str(cycle), text_anchor="end")

    def bar(self, operation, lane):
        colour, edge = COLOURS[operation.kind()], self.starts[operation.unit] + self.boxes[operation.unit]
        x = edge + LANE * lane + 6
        end = self.y(operation.arrival(self.latencies))
        middle = self.y(operation.cycle) + HEIGHT / 2
        return [svg.line(edge, middle, x + BAR / 2, middle, stroke=colour),
                svg.rectangle(x, self.y(operation.cycle) + 2, BAR, end - self.y(operation.cycle) - 3, colour)]

    def box(self, operation):
        mark = WRONG if operation.cycle in self.block.wrong else CHAIN if operation.number in self.chain else None
        marked = {"stroke": mark, "stroke_width": 2} if mark else {}
        x, y = self.starts[operation.unit], self.y(operation.cycle)
        dot = [svg.mark(0, x, y + HEIGHT / 2, PATH, DOT)] if operation.number in self.path else []
        filled = svg.rectangle(x, y + 1, self.boxes[operation.unit], HEIGHT - 2, COLOURS[operation.kind()],
                               class_="box", **marked)
        return [filled, *dot, svg.text(x + 6, y + 13, operation.label(), "on")]

    def parts(self):
        yield svg.text(MARGIN, 20, self.title(), "ink head")
        yield from self.legend()
        for unit in (0, 1):
            yield svg.text(self.starts[unit], TOP - 6, f"unit {unit}", "ink head")
        yield from self.grid()
        bars = {id(operation): self.bar(operation, lane) for flights in self.flights for operation, lane in flights}
        for operation in self.block.operations:
            told = "\n".join([operation.told(self.latencies), *self.block.wrong.get(operation.cycle, [])])
            yield svg.group(told, *bars.get(id(operation), []), *self.box(operation), data_op=operation.place())

    def picture(self):
        return svg.picture(self.width, self.y(self.block.cycles) + HEIGHT + MARGIN, self.title(), self.parts())


def drawn(lines, wanted, latencies):
    """The picture of a listing's block of this number, with the latencies of its schedule."""
    block = read_block(lines, wanted)
    block.cycles = block.end(latencies)
    return Chart(block, latencies).picture()
