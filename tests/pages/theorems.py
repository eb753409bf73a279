#!/usr/bin/env python3
"""What has to be read to believe the theorems: each definition of specs/ that their words reach, for docs/PROOFS.md.

    tests/pages/theorems.py --write

A definition is a paragraph of an .antt file; its lines are counted without comments. Types of the code are counted by
their number, and definitions of the toolchain's libraries are left out. test_theorems.py compares the page.
"""
import os
import re
import sys
from functools import cache
from pathlib import Path

TOP = os.path.dirname(os.path.dirname(os.path.dirname(os.path.abspath(__file__))))
PAGE = f"{TOP}/docs/PROOFS.md"
HEAD = ("| What it says | Files of `specs/` in the order of reading, each with its lines | New | In all |\n"
        "|---|---|---|---|\n")
# Each part is new definitions, after those of the parts before it.
PARTS = {
    "**Does what its block does**: `KeepsItsBlock`": ["Headline.KeepsItsBlock"],
    "**One legal history** by several workers: `Headline`": ["Headline.Headline"],
    "**What was read and written**, by which words: `ReadsBlocks`, `ListsSchedules`, `AskFor`": [
        "Reads.ReadsBlocks", "Theorem.Listed.ListsSchedules", "Theorem.IfAsked"],
    "**Lawful**, and all of `schedule`: `KeepsEachBlock`": [
        "Theorem.Kept.KeepsEachBlock", "Theorem.Listed.ListsSchedules", "Theorem.IfAsked"],
    "`run`, `simulate`, `counts`": [
        "Theorem.Shown.ShowsEachBlock", "Theorem.Listed.ListsOutcomes", "Theorem.Listed.ListsCounts"],
    "By receipt: `HasHeadline`": ["Theorem.Farmed.HasHeadline"],
    "`optimize`, `compare`": ["Theorem.Listed.ListsBounds", "Theorem.Compared.ComparesEachBlock"],
    "`check`: `ReadsTheSame`": ["Theorem.Checked.ReadsTheSame"],
    "`explain`, and all of these: `Status0Tells`": ["Theorem.Status0Tells"],
}
IMPORT = re.compile(r"^\s*(?:pub )?use (?:Rattle\.)?(\S+?)(?:\.\{(.*)\})?(?: as (\w+))?$", re.M)
NAME = re.compile(r"(?:abbrev |unfoldable |opaque )*(?:pub )?(?:record |data )?(?P<name>[^\s:({]+)")
TOKEN = re.compile(r"[^\s(){}\[\],;.→×λ≡¬:]+")


class Module:
    """A file of definitions: what it imports, by name, and the code of each definition, without comments."""

    def __init__(self, path):
        text = Path(path).read_text("utf-8")
        self.names, self.others, self.code, self.makers, self.heads = {}, {}, {}, {}, {}
        for module, names, other in IMPORT.findall(text):
            for name in filter(None, names.split(", ")):
                self.names[name.split(" as ")[-1]] = module, name.split(" as ")[0]
            if other and not names:
                self.others[other] = module
        sections = []
        for paragraph in text.split("\n\n"):
            lines = [line for line in paragraph.split("\n") if line.strip() and not line.lstrip().startswith("--")]
            lines = [line for line in lines if not re.match(r"\s*(pub )?(use|mod) ", line)]
            while lines and "module _" in lines[0]:
                lines = self.open(sections, lines)
            if lines:
                self.define(lines, [head for indent, head in sections if indent < depth(lines[0])])

    @staticmethod
    def open(sections, lines):
        """Without the head of a section of definitions, which goes up to its `where`."""
        last = next(i for i, line in enumerate(lines) if line.rstrip().endswith("where"))
        sections[:] = [section for section in sections if section[0] < depth(lines[0])]
        sections.append((depth(lines[0]), " ".join(lines[:last + 1])))
        return lines[last + 1:]

    def define(self, lines, heads):
        name = NAME.match(lines[0].strip())["name"]
        self.code[name], self.heads[name] = lines, " ".join(heads)
        if "data " in lines[0]:
            self.makers.update({line.split()[0]: name for line in lines[1:]})


def depth(line):
    return len(line) - len(line.lstrip())


@cache
def module_of(name):
    crate, *parts = name.split(".")
    path = f"{TOP}/crates/{crate}/{'/'.join(parts)}.antt"
    return Module(path) if os.path.exists(path) else None


@cache
def cited(place):
    """The definitions and types that a definition names."""
    name, of = place
    module = module_of(name)
    text = f"{module.heads[of]} {' '.join(module.code[of])}"
    found = {(module.others[other], word) for other, word in re.findall(r"(\w+)\.([^\s(){}\[\],;.]+)", text)
             if other in module.others}
    for word in set(TOKEN.findall(text)) - {of}:
        word = module.makers.get(word, word)
        if word in module.code and word != of:
            found.add((name, word))
        elif word in module.names:
            found.add(module.names[word])
    return found


def reached(places):
    """These definitions and all that they name, in an order in which each is after those that it names; and types."""
    order, types = {}, set()

    def visit(place):
        name, of = place
        module = module_of(name)
        if module is None:
            types.update([place] if re.match(r"iloc_\w+\.specs\.declared\.", name) else [])
            return
        of = module.makers.get(of, of)
        if of not in module.code and of in module.names:
            visit(module.names[of])
        elif (name, of) not in order:
            order[name, of] = None
            for other in sorted(cited((name, of))):
                visit(other)
            order[name, of] = order.pop((name, of))

    for place in places:
        visit(place)
    return list(order), types


def files_of(places):
    """By file the lines of these definitions, each file after those that it imports."""
    lines = {}
    for name, of in places:
        lines[name] = lines.get(name, 0) + len(module_of(name).code[of])
    order = {}

    def visit(name):
        if name not in order and module_of(name):
            order[name] = None
            module = module_of(name)
            for other in sorted({of for of, _ in module.names.values()} | set(module.others.values())):
                visit(other)
            order[name] = order.pop(name)

    for name in sorted(lines):
        visit(name)
    return {name: lines[name] for name in order if name in lines}


def table():
    text, known = HEAD, set()
    for title, names in PARTS.items():
        all_of, types = reached([(f"iloc_farm.specs.{name.rpartition('.')[0]}", name.rpartition(".")[2])
                                 for name in names])
        files, whole = files_of([place for place in all_of if place not in known]), files_of(all_of)
        places = {name.replace(".specs.", "/").replace(".", "/"): count for name, count in files.items()}
        listed = ", ".join(f"`{place}` {count}" for place, count in places.items())
        text += (f"| {title} | {listed} | {sum(files.values())} | {len(whole)} files, {sum(whole.values())} lines, "
                 f"{len(types)} types |\n")
        known.update(all_of)
    return text


def page():
    """The page as it has to be."""
    return re.sub(re.escape(HEAD) + r"(\|.*\n)*", lambda _: table(), Path(PAGE).read_text("utf-8"))


def main():
    if sys.argv[1:] != ["--write"]:
        sys.exit(__doc__)
    Path(PAGE).write_text(page(), "utf-8")


if __name__ == "__main__":
    main()
