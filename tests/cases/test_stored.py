"""The cases of stored/.

Below `= NAME` is an input, and below `- STATUS WORDS` what the program prints of it then, on standard error where it
refuses the text or the words. Where there is a text below `- task`, the words `--task` and its path follow the others.
A run is named by its case; those after its first one by their words too.

From these follow more cases, since a rule of the program says so:
- NAME/spaced has blanks round each line end and no last line end, which change no answer that quotes no line;
- what `run` prints without `--where`, `simulate` prints, whatever the latencies;
- a text that is refused is refused by every command alike;
- what `schedule`, `counts`, `compare` and `optimize` print doesn't depend on the number of workers.
"""
from functools import cache
from pathlib import Path

from harness.program import ALL, FARMED, Run, stored
from harness.suite import sections, table

WITH_LISTING = ("0", "5")     # the statuses of runs that say nothing on standard error


@cache
def stored_runs():
    """The runs of each case, by their names."""
    cases = [case for path in Path(__file__).with_name("stored").glob("*.cases") for case in sections(path)]
    runs = [run for case in cases for run in runs_of(*case)]
    named = {run.name: run for run in runs}
    assert len(named) == len(runs), "two cases of one name"
    assert {name for (name,), *_ in cases} <= {*named}, "a case without a run"
    return named


def runs_of(head, given, parts):
    (name,), task, tag = head, [], None
    for (kind, *words), text in parts:
        data = text.encode("latin-1")
        if kind == "task":
            task = ["--task", stored(f"{name}.task", data)]
        else:
            tag = "" if tag is None else "." + "_".join(words).replace("--", "")
            outputs = (data, b"") if kind in WITH_LISTING else (b"", data)
            yield Run(name + tag, words + task, given.encode("latin-1"), *outputs, int(kind))


def stored_cases():
    for run in stored_runs().values():
        yield from refused_by_all(run)
        yield from as_simulated(run)
        for spelled in spelled_twice(run):
            yield from by_workers(spelled)


def again(case, mark, words, given=None):
    return Run(f"{case.name}/{mark}", words, case.given if given is None else given, case.out, case.err, case.status)


def spelled_twice(case):
    yield case
    spaced = case.given.rstrip(b"\n").replace(b"\n", b" \n\t")
    if spaced != case.given and b"\n    " not in case.err:
        yield again(case, "spaced", case.words, spaced)


def as_simulated(case):
    is_of_run_alone = {"--help", "--where"} & set(case.words)
    if case.words[:1] == ["run"] and case.status == 0 and not is_of_run_alone:
        yield again(case, "simulated", ["simulate", *case.words[1:]])
        slow = ["simulate", *case.words[1:], "--load", "16", "--store", "1", "--mult", "16"]
        yield again(case, "simulated_slowly", slow)


def refused_by_all(case):
    if case.words[:1] == ["run"] and case.status == 1:
        for command in ALL[1:]:
            yield again(case, command, [command])


def by_workers(case):
    yield case
    if case.status == 0 and case.words[0] in FARMED:
        for workers in range(1, 9):
            yield again(case, f"workers_{workers}", [*case.words, "--workers", str(workers)])


load_tests = table(stored_cases)
