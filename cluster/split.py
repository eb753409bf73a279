"""Cuts a file of blocks, and priorities for them, into pieces that each fit into one run of ilocfarm."""
import re

from language import MOST_BYTES

LABEL = re.compile(rb"^[ \t\r]*[A-Za-z][A-Za-z0-9_]*[ \t\r]*:", re.MULTILINE)
LINE = re.compile(rb"[^\n]*\n|[^\n]+")
OPERATION = re.compile(rb"^[ \t\r]*[^ \t\r\n/]", re.MULTILINE)


class Uncut(Exception):
    """The file can't be cut into pieces that a run takes."""


def blocks(text):
    """Start and end of each block, with how many blocks it is: the text before the first label may be none."""
    starts = [found.start() for found in LABEL.finditer(text)]
    first = starts[0] if starts else len(text)
    yield 0, first, int(bool(OPERATION.search(text, 0, first)))
    for start, end in zip(starts, [*starts[1:], len(text)]):
        yield start, end, 1


def pieces(text, most_bytes, most_blocks):
    """Start, end and number of blocks of each piece. There is one at least."""
    start = last = count = 0
    for block, end, one in blocks(text):
        if start < last and (end - start > most_bytes or count + one > most_blocks):
            yield start, last, count
            start, count = last, 0
        if end - start > MOST_BYTES:
            line = text.count(b"\n", 0, block) + 1
            raise Uncut(f"the block from line {line} on has more than {MOST_BYTES} bytes, which no run takes")
        last, count = end, count + one
    yield start, last, count


def split(file, folder, beside, most_bytes, most_blocks):
    """Writes the pieces, and gives how many there are. Of each file of `beside`, by its NAME, piece K gets the lines of
    its blocks as `K.NAME`, and the last one all that are left."""
    names = [path.name for path in beside]
    if len({*names, "iloc", "result"}) < len(names) + 2:
        raise Uncut(f"files of priorities need names of their own, other than iloc and result: {', '.join(names)}")
    text, lines = file.read_bytes(), [LINE.findall(path.read_bytes()) for path in beside]
    cut = list(pieces(text, most_bytes, most_blocks))
    folder.mkdir()
    index, line, block = [], 1, 0
    for number, (start, end, count) in enumerate(cut, 1):
        (folder / f"{number}.iloc").write_bytes(text[start:end])
        last = block + count if number < len(cut) else None
        for name, each in zip(names, lines):
            (folder / f"{number}.{name}").write_bytes(b"".join(each[block:last]))
        index.append(f"{number} {line} {count}\n")
        line, block = line + text.count(b"\n", start, end), last
    (folder / "index").write_text("".join(index), "ascii")
    return len(cut)
