"""Tables of comma-separated values: what pandas and R read of them."""
import csv
import subprocess
import unittest

from harness.program import SECONDS, ending, needs
from harness.suite import Check, table
from oracle.scheduler import ORDERS

UNNAMED = b"output 0\nempty:\nA: output 4\nA: loadAI r1, 4 => r2\n"
# Labels that mean a missing value, or a truth, unless the reader is told otherwise.
ODD_NAMES = b"NA: output 0\nnan: output 0\nT: output 0\n"
# What has pandas and R read a table, print it again, and print a letter for each column: i of whole numbers.
PYTHONS = ("python3", "/usr/bin/python3")       # one from elsewhere may lack what the system's has
PANDAS = """import pandas, sys
table = pandas.read_csv(sys.stdin, keep_default_na=False)
print(table.to_csv(index=False) + "".join(column.kind for column in table.dtypes))"""
R = """table <- read.csv(file("stdin"), na.strings = character(), colClasses = c(name = "character"))
write.csv(table, row.names = FALSE)
cat(substr(sapply(table, class), 1, 1), "\n", sep = "")"""


def has_pandas(python):
    return subprocess.run([python, "-c", "import pandas"], capture_output=True, check=False).returncode == 0


def by_pandas():
    """The command that has pandas read a table, its program, and how it tells a column of texts."""
    python = next(filter(has_pandas, PYTHONS), None)
    if not python:
        raise unittest.SkipTest("pandas is not installed")
    return [python, "-c", PANDAS], "O"


def by_r():
    needs("Rscript")
    return ["Rscript", "-e", R], "c"


def cells(text):
    return [*csv.reader(text.splitlines())]


def read_back(command):
    """Each row and column is read as it is written, the numbers as whole ones."""
    words, of_texts = command()
    for given in (UNNAMED, ODD_NAMES):
        rows = ending(["schedule"], given)[1]
        for asked, more, kinds in (("counts", b"", "i"), ("compare", b"", "i" * (1 + len(ORDERS))),
                                   ("check", rows, f"{of_texts}iiii"),
                                   ("explain", b"", f"iiii{of_texts}iii{of_texts * 3}")):
            text = ending([asked, "--csv"], given + more)[1].decode()
            done = subprocess.run(words, input=text, capture_output=True, text=True, timeout=SECONDS, check=False)
            if cells(done.stdout) != cells(f"{text}i{of_texts}{kinds}\n"):
                yield f"{asked}: {done.stdout}{done.stderr} in place of {text}"


def table_checks():
    yield Check("tables/pandas", read_back, by_pandas)
    yield Check("tables/R", read_back, by_r)


load_tests = table(table_checks)
