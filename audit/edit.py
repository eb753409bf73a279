"""An edit that makes the body of a function wrong, so that the prover has to refuse that function."""
import os
import re
from dataclasses import dataclass, field
from pathlib import Path

# The names of the lines; what follows a name is the line's text, blanks and all.
LINE = re.compile(r"(only|gate|file|old|new):(?: (.*))?")
FILE = re.compile(r"src/[\w/]+\.rt")
CONSTANT = re.compile(r"\s*(pub )?const (?!fn)")


class BadEdit(Exception):
    """Says why an edit can't be tried."""


@dataclass
class Edit:
    crate: str
    name: str
    only: str = ""              # the function whose contract refuses it, by its path below the crate
    is_gates: bool = False
    changes: list = field(default_factory=list)     # file, old text, new text

    def changes_a_constant(self):
        return any(CONSTANT.match(old) for _, old, _ in self.changes)

    def change(self, texts, folder):
        """Adds the files that it changes of the crate in this folder, as it makes them of these texts, else of its
        own."""
        for name, old, new in self.changes:
            text = texts.get(name) or read(f"{folder}/{name}")
            if text.count(old) != 1:
                raise BadEdit(f"an old text occurs {text.count(old)} times in {name}, and not once")
            texts[name] = text.replace(old, new)


def read(path):
    try:
        return Path(path).read_text("utf-8")
    except (OSError, UnicodeDecodeError) as why:
        raise BadEdit(f"{path} can't be read: {why}") from why


def read_edit(path, crate):
    """The edit that a file has."""
    edit, name, old = Edit(crate, os.path.basename(path).removesuffix(".edit")), "", ""
    for line in read(path).splitlines():
        found = LINE.fullmatch(line)
        key, text = found.groups("") if found else ("", "")
        if key == "only":
            edit.only = text
        elif key == "gate":
            edit.is_gates = True
        elif key == "file" and FILE.fullmatch(text):
            name = text
        elif key == "old" and name and text:
            old = text
        elif key == "new" and old:
            edit.changes.append((name, old, text))
            old = ""
        else:
            raise BadEdit(f"a line of another form: {line}")
    if not edit.only or not edit.changes or old:
        raise BadEdit("it needs a line 'only:', and a line 'old:' with a line 'new:' after it")
    return edit
