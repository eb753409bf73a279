"""Rows as they are judged, and among other lines, as logs have them: what `--lenient` takes, and notes of changes."""
import codecs
import io
import re
from array import array
from collections import Counter
from functools import cached_property, lru_cache
from itertools import islice

from language import FORMS
from words import count, shown

ENDINGS = (".rows", ".rows.txt", ".out", ".sched", ".txt", "")      # of a file's name
MARKS = {codecs.BOM_UTF16_LE: "utf-16", codecs.BOM_UTF16_BE: "utf-16", codecs.BOM_UTF8: "utf-8-sig"}
OPCODES = {opcode.lower(): opcode for opcode in FORMS}
CLAIM = re.compile(r"(?:cycles|total) \d{1,9}", re.ASCII)
LONGEST = 200   # characters of a row
LOST = "left out, being no rows"


class Rows:
    def __init__(self, data, notes=()):
        self.data, self.notes = data.removeprefix(codecs.BOM_UTF8), [*notes]       # of what was changed in them

    @cached_property
    def lines(self):
        """By row its line, from 1; each line is looked at once."""
        return array("L", (at for at, line in enumerate(io.BytesIO(self.data), 1) if line.lstrip(b" \t\r")[:1] == b"["))

    def line_of(self, row):
        return self.lines[row] if row < len(self.lines) else None

    def text_at(self, line):
        return next(islice(io.BytesIO(self.data), line - 1, line), b"").decode("utf-8", "replace").strip()


def spelling(opcode, form):
    """How an operation is written where blanks are single, as a pattern."""
    loose = re.sub(" ?(,|=>) ?", r" ?\1 ?", form)
    return f"{opcode} {re.sub('[udc]', lambda role: 'r' * (role[0] != 'c') + r'[0-9]{1,10}', loose)}".strip()


OPERATION = f"(?:{'|'.join(spelling(*entry) for entry in FORMS.items())})"
ROW = re.compile(rf"(?P<prefix>[\[(|#]? ?(?:cycle |row |line )?\d{{1,10}}\]?(?P<colon> ?[:.)|=>-]{{0,2}}) ?)?"
                 rf"(?P<open>[\[({{|]?) ?(?P<zero>{OPERATION})? ?(?:(?P<between>[;,|]) ?(?P<one>{OPERATION})?)? ?"
                 rf"(?P<close>[\])}}|]?) ?(?P<end>[,;.]*)", re.ASCII | re.IGNORECASE)


def spelled(operation):
    """An operation as the program reads it; `nop` where there is none."""
    opcode, blank, operands = (operation or "nop").partition(" ")
    return OPCODES[opcode.lower()] + blank + operands.lower()


@lru_cache(maxsize=1024)
def row_of(plain):
    """A line as a row, and the kinds of changes that make it one. Without brackets a product alone is on unit 1."""
    found = ROW.fullmatch(plain)
    if not found or not (found["zero"] or found["one"] or found["between"] == ";" or (found["colon"] or "").strip()
                         or found["open"] + found["close"] == "[]"):
        return "", [LOST]
    operations, is_apart = [each for each in found.group("zero", "one") if each], found["between"] in (",", "|")
    changes = {
        "numbers before rows are left out": found["prefix"],
        "brackets are added": found["open"] + found["close"] != "[]",
        "`,` or `|` between operations is read as `;`": is_apart and found["one"],
        "what ends a row is left out": found["end"] or is_apart and not found["one"],
        "capitals are read as small letters": any(spelled(each) != each for each in operations)}
    is_pair = found["one"] or found["open"] == "[" and found["between"] == ";"
    row = f"{spelled(found['zero'])} ; {spelled(found['one'])}" if is_pair else spelled(found["zero"])
    return f"[ {row} ]", [kind for kind, is_so in changes.items() if is_so]


def lenient(data, head):
    """The rows among other lines, each in the line where it was, and a note of each kind of change: losses first."""
    coding = next((name for mark, name in MARKS.items() if data.startswith(mark)), None)
    rows, times, first = bytearray(), Counter(), {}
    for at, line in enumerate(io.TextIOWrapper(io.BytesIO(data), coding or "utf-8", "replace", "\n"), 1):
        row, kinds = " ".join(line.partition("//")[0].split()), []
        if row and row != head and not CLAIM.fullmatch(row):
            plain, (row, kinds) = row, row_of(row) if len(row) <= LONGEST else ("", [LOST])
        if new := [kind for kind in kinds if kind not in first]:
            first.update(dict.fromkeys(new, f"line {at}: `{shown(plain, 60)}`"))
        times.update(kinds)
        rows += row.encode() + b"\n"
    kinds = sorted(first, key=lambda kind: kind != LOST)
    begun = [f"read as {coding}, with a mark of its bytes' order"] if coding == "utf-16" else []
    return bytes(rows), [*(f"{kind}: {count(times[kind], 'line')}, as in {first[kind]}" for kind in kinds), *begun]
