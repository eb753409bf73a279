"""The command line: the options of options.tsv."""
import argparse
import csv
import math
import os
import re
import shlex
from datetime import datetime
from pathlib import Path

import judge

TABLE = os.path.join(os.path.dirname(os.path.realpath(__file__)), "options.tsv")
OPTION = re.compile(r"--(?:load|store|mult)=(?:[1-9]|1[0-6])|--either-slot|--outputs")


def checked(kind, holds, what):
    """Reads a value of a kind of which something holds, or says what it is."""
    def read(text):
        value = kind(text)
        if not holds(value):
            raise argparse.ArgumentTypeError(f"{text} is {what}")
        return value
    return read


KINDS = {"text": str, "time": datetime.fromisoformat, "path": Path, "words": shlex.split,
         "option": checked(str, OPTION.fullmatch, "none of --load=N, --store=N, --mult=N, --either-slot, --outputs"),
         "whole": checked(int, lambda value: value >= 1, "not a number from 1 on"),
         "number": checked(float, lambda value: 0 <= value < math.inf, "not a number from 0 on"),
         "share": checked(float, lambda value: 0 <= value <= 1, "not between 0 and 1")}
ACTIONS = {"flag": {"action": "store_true"}, "version": {"action": judge.Version, "nargs": 0},
           "names": {"nargs": "+", "metavar": "NAME"}}


def parser(usage):
    """Each option is a flag, one of several words, or a value of a kind, which may be given again."""
    made = group = argparse.ArgumentParser(prog="ilocgrade", description=usage,
                                           formatter_class=argparse.RawDescriptionHelpFormatter)
    made.add_argument("tasks", metavar="TASKS", type=Path)
    made.add_argument("submissions", metavar="SUBMISSIONS", type=Path)
    with open(TABLE, newline="", encoding="utf-8") as table:
        for names, *row in csv.reader(table, delimiter="\t", quoting=csv.QUOTE_NONE):
            if not row:
                group = made.add_argument_group(names)
                continue
            value, kind, default, about = row
            valued = {"type": KINDS.get(kind), "metavar": value} if value else {"choices": kind.split()}
            again = {"action": "append", "default": []} if default == ".." else {"default": default or None}
            group.add_argument(*names.split(), **ACTIONS.get(kind) or {**valued, **again}, help=about)
    made.set_defaults(jobs=len(os.sched_getaffinity(0)))
    return made


def parse(usage):
    made = parser(usage)
    asked = made.parse_args()
    is_one = asked.gradescope or asked.github
    if is_one:
        asked.pictures = "none"
    wrong = {
        "--policy best needs a class": is_one and asked.policy == "best",
        "--only needs a class": is_one and asked.only,
        "no command is given": asked.program == [] or asked.build == [],
        "--build needs --program": asked.build and not asked.program,
        "--merge needs --column": asked.merge and not asked.column,
        "--disambiguate isn't for schedules by the book": asked.disambiguate and asked.require == "lawful"}
    for why in (why for why, is_so in wrong.items() if is_so):
        made.error(why)
    asked.check += [f"--{asked.require}"] * (asked.require != "outcome") + ["--disambiguate"] * asked.disambiguate
    asked.inner = getattr(asked, "in") or ""
    return asked
