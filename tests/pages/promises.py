#!/usr/bin/env python3
"""Prints what each public contract promises, by the sources: the page that a package has as docs/PROMISES.md.

    tests/pages/promises.py

A row is a public call with an `ensures`, or a public type whose comment has a promise. Its sentence is the paragraph
of its `///` that begins with `Promise:`, or the first one where none does. Its definitions are the modules of specs/
that its clauses cite; below the rows are all that these and the public ghost items reach, in the crates below too.
What is public is read from `pub use` and `pub mod` in src/lib.rt. Definitions of the toolchain's libraries are left
out.
"""
import os
import re
import sys
from dataclasses import dataclass
from pathlib import Path

TOP = os.path.dirname(os.path.dirname(os.path.dirname(os.path.abspath(__file__))))
CRATES = os.path.join(TOP, "crates")
HEAD = """# Promises

What each public contract promises, crate by crate: the call, its promise, the clauses that carry it, and the \
definitions that these cite, modules of `specs/`. `tests/pages/promises.py` makes this page from the sources. \
[PROOFS.md](PROOFS.md) says how to read it, and what isn't promised.
"""
WORD = re.compile(r"[^\W\d][\w-]*")
IMPORT = re.compile(r"^\s*(?:pub )?(?:ghost )?use Rattle\.(\w+)\.specs\.([\w.+-]+?)(?:\.\{([^}]*)\})?"
                    r"(?: as (\w+))?;?\s*$", re.MULTILINE)
FUNCTION = re.compile(r"^(?P<indent> *)pub (?:const )?fn (?P<name>\w+)", re.MULTILINE)
METHOD = re.compile(r"^(?P<indent> *)fn (?P<name>\w+)", re.MULTILINE)
OUTSIDE = re.compile(r"^(?P<indent>)pub (?:const )?fn (?P<name>\w+)", re.MULTILINE)
BLOCK = re.compile(r"^(?:pub )?(impl|trait)\b([^{;]*)\{", re.MULTILINE)
TYPE = re.compile(r"^pub (?:struct|enum|trait) (\w+)[^{;]*[{;]", re.MULTILINE)
GHOST = re.compile(r"^ *(?:pub )?ghost (?!use\b|view\b|invariant\b)\w+\s*[:=]\s*\{", re.MULTILINE)
PUBLIC_GHOST = re.compile(r"^ *pub ghost \w+\s*:\s*\{", re.MULTILINE)
CLAUSE = re.compile(r"\b(requires|ensures)\s*(\w*)\s*\{")


@dataclass
class Row:
    """A public item: its name, its promise, the clauses that carry it, and the modules that its contract cites."""
    name: str
    promise: str
    clauses: list
    cited: set


def read(path):
    return Path(path).read_text("utf-8")


def end_of(text, start):
    """After the brace that closes the one before `start`."""
    depth = 1
    while depth:
        depth += {"{": 1, "}": -1}.get(text[start], 0)
        start += 1
    return start


def head_of(text, function):
    """A function up to its body, which begins at a line that ends with a brace and has no clause, or at a semicolon."""
    begins = re.compile(rf"^{function['indent']}\{{|;\n|\{{\n?\s*\}}\n|^(?!.*\b(?:requires|ensures)\b).*\{{$",
                        re.MULTILINE)
    found = begins.search(text, function.start())
    return text[function.start():found.start() if found else len(text)] + "}" * 9


def promise_above(source, start):
    """The promise in the comment above the item that starts here, and whether it is marked as one."""
    lines = []
    for line in reversed(source[:start].splitlines()):
        if not line.lstrip().startswith(("///", "#[")):
            break
        lines.append(line.strip())
    text = "\n".join(line[3:].strip() for line in reversed(lines) if line.startswith("///"))
    paragraphs = [" ".join(paragraph.split()) for paragraph in re.split(r"\n\n|\n(?=Promise: )", text)]
    marked = [paragraph.removeprefix("Promise: ") for paragraph in paragraphs if paragraph.startswith("Promise: ")]
    said = " ".join(marked) or paragraphs[0]
    return said[:1].upper() + said[1:], bool(marked)


class Module:
    """A file of src/. Comments are blanked in `text`, so that places are the same in both."""

    def __init__(self, path):
        self.source = read(path)
        self.text = re.sub(r"//[^\n]*", lambda comment: " " * len(comment[0]), self.source)
        self.names = imports(self.text)

    def rows(self, prefix, place, functions, names):
        """A row for each of these functions within a place."""
        for found in functions.finditer(self.text, *place):
            head = head_of(self.text, found)
            clauses = list(CLAUSE.finditer(head))
            cited = cited_in(" ".join(head[clause.end():end_of(head, clause.end())] for clause in clauses), names)
            promise, _ = promise_above(self.source, found.start())
            yield Row(prefix + found["name"], promise, [clause[2] for clause in clauses if clause[1] == "ensures"],
                      cited)

    def ghosts(self, place, items, names):
        """The modules that these ghost items within a place cite."""
        return set().union(*(cited_in(self.text[found.end():end_of(self.text, found.end())], names)
                             for found in items.finditer(self.text, *place)))

    def types(self, public):
        """A row for each public type. Its clause is the type itself where its comment marks a promise."""
        for found in TYPE.finditer(self.text):
            if found[1] in public:
                end = end_of(self.text, found.end()) if found[0].endswith("{") else found.end()
                promise, marked = promise_above(self.source, found.start())
                cited = self.ghosts((found.start(), end), PUBLIC_GHOST, self.names)
                yield Row(found[1], promise, ["the type"] * marked, cited)

    def blocks(self):
        """Each impl and trait: its place, which of both, its type, and the names that it and the file import."""
        for found in BLOCK.finditer(self.text):
            place = found.start(), end_of(self.text, found.end())
            of = re.sub(r"<[^<>]*(<[^<>]*>)?[^<>]*>", "", found[2]).split(" for ")[-1].split(":")[0]
            yield place, found[1], (WORD.findall(of) or [""])[0], {**self.names, **imports(self.text[slice(*place)])}


class Crate:
    def __init__(self, name):
        self.name = name
        folder = os.path.join(CRATES, name, "src")
        paths = (os.path.join(place, file) for place, _, files in os.walk(folder) for file in files)
        self.files = {os.path.relpath(path, folder)[:-3]: Module(path) for path in paths if path.endswith(".rt")}
        root = self.files["lib"]
        self.title = " ".join(re.match(r"(//! .*\n)+", root.source)[0].replace("//! ", "").split())
        uses = re.findall(r"^pub use ([^;]*);", root.text, re.MULTILINE)
        self.names = {word for use in uses for word in WORD.findall(re.split(r"\{|::(?!.*\{)", use)[-1])}
        self.modules = set(re.findall(r"^pub mod (\w+);", root.text, re.MULTILINE))

    def rows(self):
        """Each public item; those without a clause count for the definitions alone."""
        for name, module in sorted(self.files.items()):
            is_public = name in self.modules
            yield from module.types(self.names)
            for place, kind, owner, names in module.blocks():
                if owner in self.names or is_public:
                    yield from module.rows(f"{owner}::", place, METHOD if kind == "trait" else FUNCTION, names)
                    yield Row(owner, "", [], module.ghosts(place, GHOST, names))
            for row in module.rows(f"{name}::" if is_public else "", (0,), OUTSIDE, module.names):
                if is_public or row.name in self.names:
                    yield row


def cited_in(text, names):
    return {names[word] for word in WORD.findall(text) if word in names}


def imports(text):
    """By name the module of definitions that it comes from; types and functions of the code aren't among them."""
    found = {}
    for crate, module, names, other in IMPORT.findall(text):
        if not os.path.isdir(os.path.join(CRATES, crate)) or module.startswith(("declared", "contracts")):
            continue
        place = (crate, module)
        if not names:
            found[other or module.split(".")[-1]] = place
        for name in filter(None, (name.strip() for name in names.split(","))):
            found[name.split(" as ")[-1]] = place
            for word in WORD.findall(name.split(" as ")[-1]):
                found[word] = place
    return found


def module_of(place):
    """The module of specs/ that a path names, which may go on with a type of that module, and its file."""
    crate, path = place
    parts = path.split(".")
    while parts:
        file = os.path.join(CRATES, crate, "specs", *parts) + ".antt"
        if os.path.exists(file):
            return (crate, ".".join(parts)), file
        parts.pop()
    raise SystemExit(f"no module {path} in specs/ of {crate}")


def reached(places):
    """These modules, and all that they import."""
    found, left = set(), list(places)
    while left:
        place, file = module_of(left.pop())
        if place not in found:
            found.add(place)
            left += imports(read(file)).values()
    return found


def listed(words):
    *first, last = words
    return f"{', '.join(first)} and {last}" if first else last


def line_of(row, crate):
    """The line of the table for a contract."""
    clauses = " ".join(clause if clause == "the type" else f"`{clause or 'ensures'}`" for clause in row.clauses)
    cited = sorted({module_of(place)[0] for place in row.cited})
    modules = " ".join(f"`{name}`" if of == crate.name else f"`{of}.{name}`" for of, name in cited)
    return f"| `{row.name}` | {row.promise} | {clauses} | {modules} |"


def section(crate, order):
    """What the page says of a crate: a line for each contract, and the definitions that all of them reach."""
    rows = list(crate.rows())
    found = reached(place for row in rows for place in row.cited)
    parts = []
    for name in [crate.name, *(other for other in reversed(order) if other != crate.name)]:
        modules = sorted(f"`{module}`" for owner, module in found if owner == name)
        if modules:
            parts.append(("on " if name == crate.name else f"of `{name}` on ") + listed(modules))
    lines = [line_of(row, crate) for row in rows if row.clauses]
    table = ["| Call | Promise | Clauses | Definitions |", "|---|---|---|---|", *lines, ""] if lines else []
    return "\n".join([f"## {crate.name}", "", crate.title, "", *table, f"They rest {'; '.join(parts)}.", ""])


def page():
    names = re.findall(r"^(\w+)(?: [^:\n]*)?:", read(os.path.join(TOP, "crates.txt")), re.MULTILINE)
    libraries = [name for name in names if os.path.exists(os.path.join(CRATES, name, "src", "lib.rt"))]
    return "\n".join([HEAD, *(section(Crate(name), names) for name in libraries if not name.endswith("_tests"))])


if __name__ == "__main__":
    sys.stdout.buffer.write(page().encode())
