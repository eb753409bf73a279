"""What comparing addresses gains: cycles by the book, with `--disambiguate`, and of the best schedule that a search
finds with it.

    tests/studies/run gains [COUNT [SEED [FOLDER]]]

COUNT blocks of each family of families.py, 20 where it isn't given. A row has the mean cycles of a block; how many
blocks are shorter with the option, how many longer, and how many shorter than any schedule by the book, since
`optimize` proves that one takes more; the mean of what a block gains; and how far all cycles with the option exceed
the bounds that the search proves with it. FOLDER gets a listing of each of the three with a line for each family,
which has the mean cycles, for `ilocview compare`. The status is 1 where over 1 % of the blocks are longer.
"""
from operator import attrgetter
from pathlib import Path
from typing import NamedTuple

from studies.families import explained, families_of, optimized

OPTION = "--disambiguate"
NAMES = ("book", "option", "best")
HEADS = (*NAMES, "shorter", "longer", "below", "gain", "gap")
MOST_LONGER = 0.01


class Block(NamedTuple):
    """A block's cycles, the least that a schedule by the book takes, and the bound of all with the option."""
    book: int
    option: int
    best: int
    least: int
    bound: int


def measured(blocks):
    rows = zip(explained(blocks), explained(blocks, OPTION), optimized(blocks), optimized(blocks, OPTION), strict=True)
    return [Block(book, option, best, least, bound) for (book, _), (option, _), (_, least), (best, bound) in rows]


def mean(blocks, measure):
    return sum(map(measure, blocks)) / len(blocks)


def longer(blocks):
    return mean(blocks, lambda block: block.option > block.book)


def cycles_of(blocks):
    return [mean(blocks, attrgetter(name)) for name in NAMES]


def show(name, blocks):
    shares = (mean(blocks, lambda block: block.option < block.book), longer(blocks),
              mean(blocks, lambda block: block.option < block.least),
              mean(blocks, lambda block: 1 - block.option / max(1, block.book)),
              mean(blocks, attrgetter("option")) / mean(blocks, attrgetter("bound")) - 1)
    print(f"{name:16}" + "".join(f"{cycles:9.1f}" for cycles in cycles_of(blocks))
          + "".join(f"{share:9.1%}" for share in shares), flush=True)


def main(count=20, seed=0, folder=None):
    print("family          " + "".join(f"{head:>9}" for head in HEADS))
    families = {}
    for name, blocks in families_of(count, seed).items():
        families[name] = measured(blocks)
        show(name, families[name])
    every = [block for blocks in families.values() for block in blocks]
    show("all", every)
    print("cycles", *(sum(getattr(block, name) for block in every) for name in NAMES))
    if folder:
        Path(folder).mkdir(parents=True, exist_ok=True)
    for at, listing in enumerate(NAMES if folder else ()):
        lines = (f"block {k} {name} cycles {cycles_of(blocks)[at]:.0f}\n" for k, (name, blocks) in
                 enumerate(families.items(), 1))
        Path(folder, listing).write_text("".join(lines), "ascii")
    return int(longer(every) > MOST_LONGER)
