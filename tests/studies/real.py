"""Blocks of real programs: what heuristics, bounds and a search make of C in Debian's packages.

    tests/studies/run real FOLDER [NODES]

FOLDER gets the sources of PACKAGES (`apt-get source`, from Debian's servers), their LLVM IR by clang -O2, blocks by
`ilocview from-llvm`, and listings of `compare --csv`, by the book and with `--disambiguate`, with a search of NODES
nodes, 10,000 where it isn't given. Sources and IR that are there aren't made again. A row has of the blocks of so many
operations: how many there are, how many of their best schedules are proved optimal; by priority how many blocks take
the fewest cycles, and by how much all cycles exceed those of the best schedules; and what comparing addresses saves of
the best. FOLDER/long.csv, of blocks of LONG operations and more, is what docs/real.svg is drawn of. Without network,
clang or tclsh it isn't run, and the status is 1.
"""
import csv
import re
import shutil
import subprocess
import sys
from pathlib import Path
from typing import NamedTuple

from harness.program import TESTED, TOP

SUITE = "bookworm"
CLANG = ("clang", "-O2", "-fno-vectorize", "-fno-slp-vectorize", "-fno-unroll-loops", "-w", "-S", "-emit-llvm")
TOOLS = ("apt-get", "dpkg-source", "clang", "make", "tclsh")
PRIORITIES = ("chain", "slack", "descendants", "successors", "latency", "order")
GROUPS = (2, 10, 20, 50, 100)       # operations from which on a row begins
LONG = 20
MOST_SECONDS = 3600


class Package(NamedTuple):
    sources: str            # the C files
    options: tuple = ()     # for clang
    before: str = ""        # what makes the sources ready


HEADER = "lua5.4-deb-multiarch.h"       # Debian's build makes it
PACKAGES = {
    "zlib": Package("*.c", ("-DHAVE_UNISTD_H", "-D_LARGEFILE64_SOURCE")), "bzip2": Package("*.c"),
    "lz4": Package("lib/*.c"),
    "lua5.4": Package("src/*.c", ("-Isrc", '-DDEB_HOST_MULTIARCH="x86_64-linux-gnu"'), f"touch src/{HEADER}"),
    "sqlite3": Package("sqlite3.c", (), "./configure && make sqlite3.c"),
}


class NotRun(Exception):
    """Why the study can't be run here."""


def ran(words, at, why=None):
    done = subprocess.run(words, cwd=at, stdin=subprocess.DEVNULL, capture_output=True, timeout=MOST_SECONDS)
    if done.returncode:
        said = (done.stderr.decode(errors="replace").strip() or "no word").splitlines()[-1]
        raise NotRun(f"{why or words[0]}: {said}")
    return done.stdout


def fetch(folder):
    """The sources of all packages, by a list of sources and with an index of their own, so that nothing is changed."""
    lists = folder / "lists"
    (lists / "partial").mkdir(parents=True, exist_ok=True)
    (folder / "sources.list").write_text(f"deb-src http://deb.debian.org/debian {SUITE} main\n", "ascii")
    options = [f"-oDir::Etc::SourceList={folder}/sources.list", "-oDir::Etc::SourceParts=-",
               f"-oDir::State::Lists={lists}", "-oAPT::Sandbox::User=root", "-oAcquire::Retries=1"]
    ran(["apt-get", *options, "update", "--error-on=any"], folder, "Debian's servers can't be read")
    ran(["apt-get", *options, "source", *PACKAGES], folder, "the sources can't be fetched")


def compiled(folder, name):
    """The LLVM IR of a package's files, beside them."""
    (at,) = folder.glob(f"{name}-[0-9]*/")
    if not (at / "ready").exists():
        ran(["sh", "-c", f"{PACKAGES[name].before or ':'} && touch ready"], at, name)
    made = []
    for source in sorted(at.glob(PACKAGES[name].sources)):
        made.append(source.with_suffix(".ll"))
        if not made[-1].exists():
            words = [*CLANG, *PACKAGES[name].options, source.relative_to(at), "-o", "made.ll"]
            ran([*map(str, words)], at, f"clang of {source.name}")
            (at / "made.ll").rename(made[-1])
    return made


class Block(NamedTuple):
    operations: int
    book: dict          # the row of `compare --csv`
    apart: dict         # that with `--disambiguate`

    def best(self):
        return int(self.book["best"])

    def is_proved(self):
        return self.book["best"] == self.book["bound"]


def listed(blocks, nodes, *option):
    given = blocks.read_bytes()
    made = subprocess.run([TESTED.program, "compare", "--csv", "--nodes", str(nodes), *option], input=given,
                          stdout=subprocess.PIPE, check=True).stdout
    return [*csv.DictReader(made.decode("ascii").splitlines())]


def measured(folder, name, nodes):
    blocks = folder / f"{name}.iloc"
    said = subprocess.run([f"{TOP}/charts/ilocview", "from-llvm", *compiled(folder, name), "-o", blocks], check=True,
                          stderr=subprocess.PIPE).stderr.decode()
    print(f"{name} {version(folder, name)}: {said.splitlines()[0].removeprefix('ilocview: ')}", flush=True)
    sizes = [block.count("\n") for block in re.split(r"^\w+:\n", blocks.read_text("ascii"), flags=re.MULTILINE)[1:]]
    tables = listed(blocks, nodes), listed(blocks, nodes, "--disambiguate")
    return [Block(*each) for each in zip(sizes, *tables, strict=True)]


def version(folder, name):
    (described,) = folder.glob(f"{name}_*.dsc")
    return described.stem.partition("_")[2]


def row(name, blocks):
    best = sum(block.best() for block in blocks)
    cells = [name, f"{len(blocks):,}", f"{len(blocks) - sum(block.is_proved() for block in blocks):,}"]
    for priority in PRIORITIES:
        cycles = [int(block.book[priority]) for block in blocks]
        fewest = sum(taken == block.best() for taken, block in zip(cycles, blocks))
        cells.append(f"{fewest / len(blocks):.1%} +{sum(cycles) / best - 1:.2%}")
    saved = 1 - sum(int(block.apart["best"]) for block in blocks) / best
    return f"| {' | '.join([*cells, f'{saved:.1%}'])} |"


def table(blocks):
    yield f"| Operations | Blocks | not proved | {' | '.join(PRIORITIES)} | saved by addresses |"
    yield "|---" * (len(PRIORITIES) + 4) + "|"
    for first, after in zip(GROUPS, (*GROUPS[1:], None)):
        some = [block for block in blocks if first <= block.operations < (after or block.operations + 1)]
        if some:
            yield row(f"{first} to {after - 1}" if after else f"{first} and more", some)
    yield row("all", blocks)


def main(folder=None, nodes=10000):
    missing = [tool for tool in TOOLS if not shutil.which(tool)]
    try:
        if not folder:
            sys.exit("tests/studies/run real FOLDER: give a folder for what is fetched and made")
        if missing:
            raise NotRun(f"{missing[0]} is not on the PATH")
        folder = Path(folder).absolute()
        if not all([*folder.glob(f"{name}-[0-9]*/")] for name in PACKAGES):
            folder.mkdir(parents=True, exist_ok=True)
            fetch(folder)
        print(ran(["clang", "--version"], folder).decode().splitlines()[0], flush=True)
        blocks = [block for name in PACKAGES for block in measured(folder, name, nodes)]
    except NotRun as why:
        print(f"NOT RUN: {why}")
        return 1
    print(*table(blocks), sep="\n")
    with open(folder / "long.csv", "w", newline="", encoding="ascii") as file:
        made = csv.DictWriter(file, blocks[0].book, lineterminator="\n")
        made.writeheader()
        made.writerows(block.book | {"block": str(at)} for at, block in
                       enumerate((block for block in blocks if block.operations >= LONG), 1))
    return 0
