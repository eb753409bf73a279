"""Pictures of hand-ins, and pages of what they do on the machine, by the charts beside this folder."""
import threading
from contextlib import suppress
from functools import cache

import judge
import lanes
import listing
import stepper
import svg
from language import USUAL
from traced import read_traces
from words import faults, reason

MOST = 200_000      # bytes of rows that are drawn
MOST_STEPPED = 50_000       # of those that have a page


class Pictures:
    """Draws into the folder of a class's feedback."""

    def __init__(self, asked, folder_of):
        self.which, self.folder_of = asked.pictures, folder_of
        timed = [option for option in asked.check if "=" in option]
        given = dict(option.removeprefix("--").split("=") for option in timed)
        self.latencies = {kind: int(given.get(kind, usual)) for kind, usual in USUAL.items()}
        self.traced = ["trace", *timed, *{"--either-slot"}.intersection(asked.check)]
        graph = ["graph", *timed, *["--disambiguate"] * asked.disambiguate]
        self.graph = cache(lambda path: judge.call(graph, path.read_bytes())[1])
        self.turn = threading.Lock()        # one is drawn at a time, for memory's sake

    def draw(self, student, mark, said, rows):
        """Writes the picture and the page of a hand-in, and gives their names to its mark."""
        is_wanted = self.which == "all" or self.which == "wrong" and not mark.passes()
        if not is_wanted or said["verdict"] in ("unread", "void") or len(rows.data) > MOST:
            return
        for ending, drawn in (("svg", self.picture), ("html", self.page)):
            with suppress(judge.NoAnswer, svg.Unread), self.turn:
                made, folder = drawn(mark, said, rows), self.folder_of(student.name)
                folder.mkdir(parents=True, exist_ok=True)
                (folder / f"{mark.task.name}.{ending}").write_bytes(made)
                mark.pictures.append(f"{mark.task.name}.{ending}")

    def picture(self, mark, said, rows):
        """The timeline of the rows, with what is wrong at its row."""
        block = listing.read_block(listing.lines_of(rows.data), 1)
        block.cycles = block.end(self.latencies)
        return lanes.Chart(judged(block, mark, said, rows), self.latencies).picture().encode()

    def page(self, mark, said, rows):
        """The page on which a reader steps through what the rows do."""
        if len(rows.data) > MOST_STEPPED:
            raise svg.Unread("too many rows")
        trace = judge.call([*self.traced, "--task", f"{mark.task.path}", *mark.task.words], rows.data)[1]
        block, = read_traces(listing.lines_of(self.graph(mark.task.path) + trace))
        block.number_by(said["operations"])
        block.said += faults(said, rows)
        return stepper.drawn([judged(block, mark, said, rows)]).encode()


def judged(block, mark, said, rows):
    """A block with its verdict, and with what is said of each row that is wrong."""
    block.judge(said["name"] or "-", mark.verdict, f"{said['least']}")
    for found in [] if mark.passes() else said["reasons"]:
        if "row" in found:
            block.wrong.setdefault(found["row"], []).append(reason(found, rows))
    return block
