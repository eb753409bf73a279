"""Feedback in sentences that a student reads: those of sentences.ini, about a hand-in."""
import sys
import unicodedata
from configparser import ConfigParser
from pathlib import Path

SENTENCES = ConfigParser(interpolation=None)
SENTENCES.read_string(Path(__file__).with_name("sentences.ini").read_text("utf-8"))
VERDICTS = {**SENTENCES["verdicts"], **SENTENCES["open"]}


def key_of(text):
    """What names somebody or something, as it is compared."""
    return unicodedata.normalize("NFC", " ".join(text.casefold().split()))


def shown(text, most=200):
    """A text of students in one line that leads no terminal, page or log astray."""
    line = "".join(letter if letter.isprintable() else " " if letter.isspace() else "?" for letter in text)
    return line if len(line) <= most else f"{line[:most]} .."


def say(text):
    print(f"ilocgrade: {text}", file=sys.stderr)


def plain_error(why):
    """What an error says; of one of the system's the file and the reason, without a number."""
    if not isinstance(why, OSError) or not why.strerror:
        return str(why)
    return f"{why.filename}: {why.strerror}" if why.filename else why.strerror


def number(value):
    return f"{value:.12g}" if isinstance(value, float) else f"{value}"


def count(value, what):
    return f"{number(value)} {what}" + "s" * (value != 1)


def difference(said):
    found, seen = said["difference"], said["memory"]
    more = "_lacks" if found.get("got", 0) is None else "_more" if found.get("wanted", 0) is None else ""
    told = SENTENCES["differences"][found["kind"] + more].format(**found)
    if not seen:
        return told
    return f"{told} (Seen where memory from {seen['at']} on holds {' '.join(map(str, seen['words'] or [0]))}.)"


def reason(found, rows):
    """A reason of the program's record, or None."""
    if found["kind"] == "undecided":
        return None
    more = {name: shown(value, 80) if name in ("problem", "text") else value for name, value in found.items()}
    if "row" in found:
        more["Row"] = f"Row {found['row']} (line {rows.line_of(found['row'])})"
    lost = found.get("lost_operation")
    more["before"] = f"of row {found['lost_row']}, `{lost}`" if lost else "of the start"
    kind = " ".join(filter(None, (found["kind"], found.get("side"))))
    return SENTENCES["reasons"][kind].format(**more)


def faults(said, rows):
    if rows.line_of(0) is None:
        yield "There are no rows."
    if said["difference"]:
        yield difference(said)
    left_out, added = (None, None) if said["verdict"] == "unread" else (said["left_out"], said["added"])
    if left_out:
        yield f"{count(left_out['count'], 'operation')} of the block left out, such as `{left_out['operation']}`."
    if added:
        few = count(added["count"], "operation")
        yield f"{few} that the block hasn't, such as `{added['operation']}` in row {added['row']}."
    yield from filter(None, (reason(found, rows) for found in said["reasons"]))
    if said["more"]:
        yield f"And {said['more']} more."


def told(mark, is_staff=True):
    """The lines that are said of a task: to students of one that is hidden its points alone."""
    head = f"{shown(mark.task.name)}: {count(mark.points, 'point')}."
    if mark.task.is_hidden and not is_staff:
        return [f"{head} The task is hidden."]
    head += f" {VERDICTS[mark.verdict]}"
    if mark.cycles is not None:
        head += (f" {count(mark.cycles, 'cycle')}; the reference takes {mark.task.ours}, "
                 f"the bound {mark.task.rule} is {mark.task.least}.")
    return [head, *mark.lines, *(f"Note: {note}" for note in mark.notes)]
