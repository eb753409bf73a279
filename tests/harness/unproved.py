"""The first test of a fresh clone: cases of each command on the sources as they are, compiled once and not proved.

`rt try --cases` takes a folder: the file NAME is standard input, NAME.args has more arguments, NAME.stdout what
standard output must have. Of a case without that file it shows both outputs, standard output below `== NAME`; of each
it says the status.
"""
import os
import re
import shutil
import subprocess
import tempfile
from pathlib import Path

from cases.test_stored import stored_cases
from harness.program import TOP, Run
from judged.test_json import undecided
from judged.test_rows import LISTED
from oracle.judge import NOT_SAME

# Of cases/stored, by command or by what they show.
STORED = (
    "results_of_a_constant", "results_of_two_registers", "words_are_patterns", "places_of_faults",
    "each_block_has_its_own_memory", "numbers_of_each_length", "addresses_wrap_to_faults/simulated_slowly",
    "first.schedule", "first.schedule/workers_3", "first.counts_store_1", "first.compare_csv", "first.lint",
    "first.counts_csv", "orders_of_the_dot_product", "orders_of_the_dot_product.schedule_priority_order",
    "orders_of_the_dot_product.schedule_priority_slack", "orders_of_the_dot_product.schedule_priority_successors",
    "products_that_want_one_row.optimize_nodes_100000", "products_that_want_one_row.compare_nodes_1",
    "load_then_store_of_its_value.explain", "block_without_operations.graph", "explained_by_address",
    "drawn_by_address", "trace_of_changes", "trace_of_faults", "reasons", "rows_explained", "rows_traced",
    "outputs_of_checks", "table_of_checks", "version", "help_of_check",
    # faults of the text, of the words and of the task
    "arrow_with_one_dash", "reason_of_a_bad_line", "address_too_large_to_read", "words_beyond_memory",
    "start_off_a_word", "unknown_command", "priority_of_no_name", "lawful_and_disambiguate", "task_with_a_row",
)
# Of judged/rows.cases, by verdict.
ROWS = ("letters_of_utf_8", "load_on_unit_1", "row_on_unit_0", "fault_missing", "both_units", "outputs_on_both_units",
        "one_of_two_words_is_even")
SHOWN = re.compile(r"^== (\S+)\n(.*?)(?=^== |\Z)", re.MULTILINE | re.DOTALL)
ENDED = re.compile(r"^case=(\S+) run=(\S+)(?: status=(\d+))?.*$", re.MULTILINE)


def undecided_soon():
    """Rows that no verdict is found for, after few steps: 201 blocks share them."""
    lines = ["block 1 B1 undecided cycles 400 ours 200 least 200", "  the block shows nothing", "  undecided",
             *(f"block {k} other lawful cycles 0 ours 0 least 0" for k in range(2, 202)), "total 400 ours 200 least 200"]
    out = "".join(f"{line}\n" for line in lines).encode()
    return Run("undecided", ["check", "--lawful"], undecided(100, 200), out, b"", NOT_SAME)


def chosen():
    every = {case.name: case for case in stored_cases()}
    rows = [LISTED[name].case(name) for name in ROWS]
    return [*(every[name] for name in STORED), *rows, undecided_soon()]


def named(case):
    """The name of a file for a case."""
    return case.name.replace("/", "-").replace(".", "-")


def fill(folder, cases):
    """Writes the cases into a folder, and gives the words that hand `rt` the files that arguments name."""
    data = {}
    for case in cases:
        Path(folder, named(case)).write_bytes(case.given)
        for word in case.words:
            if os.path.isabs(word):
                data[os.path.basename(word)] = word
        words = [os.path.basename(word) if word in data.values() else word for word in case.words]
        Path(folder, f"{named(case)}.args").write_text("".join(f"{word}\n" for word in words), "ascii")
        if case.out:
            Path(folder, f"{named(case)}.stdout").write_bytes(case.out)
    return [word for name, path in data.items() for word in ("--data", f"{name}={path}")]


def wrong(case, ran, status, err, out):
    """What is wrong with how a case ended; of one that has to print nothing its outputs are known."""
    if ran != "ended":
        return f"{ran} in place of an end: {err}"
    if int(status) != case.status:
        return f"status {status} in place of {case.status}"
    if case.out:
        return err if "the output differs" in err else None
    got = out.encode(), err.encode()
    return None if got == (case.out, case.err) else f"the outputs {got} in place of {(case.out, case.err)}"


def main():
    """The exit status: 0 where each case passed."""
    rt = shutil.which("rt")
    if not rt:
        print("NOT RUN: the toolchain's command rt is not on the PATH\n0 passed, 1 failed")
        return 1
    cases = chosen()
    with tempfile.TemporaryDirectory(prefix="ilocfarm-") as folder:
        words = [rt, "try", "--cases", folder, *fill(folder, cases)]
        done = subprocess.run(words, cwd=f"{TOP}/crates/ilocfarm", stdin=subprocess.DEVNULL, capture_output=True)
    said, ends, start, failed = done.stderr.decode(errors="replace"), {}, 0, 0
    shown = dict(SHOWN.findall(done.stdout.decode(errors="replace")))
    for found in ENDED.finditer(said):
        ends[found[1]] = found[2], found[3], said[start:found.start()], shown.get(found[1], "")
        start = found.end() + 1
    for case in cases:
        ended = ends.get(named(case))
        why = wrong(case, *ended) if ended else f"not run: {said[start:].strip()[-2000:]}"
        failed += why is not None
        if why is not None:
            print(f"FAILED {case.name}: {why}")
    print(f"{len(cases) - failed} passed, {failed} failed")
    return int(failed > 0)
