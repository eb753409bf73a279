"""Runs a program and measures it: what it executes, time, processor time, the memory that it held. Linux alone."""
import ctypes
import os
import subprocess
import sys
import time
from contextlib import contextmanager
from dataclasses import dataclass
from pathlib import Path

PR_SET_CHILD_SUBREAPER = 36
TURNS = 100
COUNTER = ["valgrind", "--tool=cachegrind", "--cache-sim=yes", "--branch-sim=yes"]
# Starts the words after the two paths and leaves it to be waited for by this program.
START = 'given=$1; output=$2; shift 2; "$@" <"$given" >"$output" 2>"$output.err" & echo $!'


@dataclass
class Result:
    """What a program did with an input: status, output and standard error, its times and the most that it held."""
    status: int
    output: str     # the path of the file; standard error is in the one beside it
    wall_ms: float
    processor_ms: float
    mebibytes: float

    def shown(self):
        return self.status, contents(self.output), contents(self.output + ".err")


@dataclass
class Counts:
    """What a program executes: instructions, reads and writes of data, and mispredicted branches."""
    instructions: int
    data: int
    mispredicted: int


def contents(path):
    return Path(path).read_bytes()


def stored(path, data):
    Path(path).write_bytes(data)
    return path


@contextmanager
def adopting_orphans():
    """Meanwhile what a shell left running is a child of this program."""
    prctl = ctypes.CDLL(None, use_errno=True).prctl
    if prctl(PR_SET_CHILD_SUBREAPER, 1, 0, 0, 0) != 0:
        sys.exit(f"{sys.argv[0]}: this system can't hand over the children of a shell")
    try:
        yield
    finally:
        prctl(PR_SET_CHILD_SUBREAPER, 0, 0, 0, 0)


def adopted(words, given, output):
    """Runs a program on the file `given`. A shell starts it, since a child of Python counts Python's memory as its
    own. Raises ChildProcessError where the shell was the last to end and waited for the program itself."""
    start = time.perf_counter()
    shell = ["sh", "-c", START, "sh", given, output, *words]
    with adopting_orphans():
        started = subprocess.run(shell, stdout=subprocess.PIPE, check=True)
        _, status, usage = os.wait4(int(started.stdout), 0)
    wall = time.perf_counter() - start
    return Result(os.waitstatus_to_exitcode(status), output, 1000 * wall,
                  1000 * (usage.ru_utime + usage.ru_stime), usage.ru_maxrss / 1024)


def run(words, given, output):
    """What a program does with the file `given`. It is run again where its shell was slower than itself."""
    for _ in range(TURNS):
        try:
            return adopted(words, given, output)
        except ChildProcessError:
            pass
    sys.exit(f"{sys.argv[0]}: the shell waits for {words[0]} each time")


def counted(words, given, output):
    """The counts of a program on the file `given`, by valgrind's cachegrind. A program has the same ones each time."""
    events = output + ".events"
    with open(given, "rb") as text, open(output, "wb") as shown:
        said = subprocess.run([*COUNTER, f"--cachegrind-out-file={events}", *words], stdin=text, stdout=shown,
                              stderr=subprocess.PIPE).stderr
    lines = dict(line.split(b": ", 1)
                 for line in contents(events).splitlines() if line.startswith((b"events: ", b"summary: ")))
    if len(lines) != 2:
        sys.exit(f"{sys.argv[0]}: {words[0]} isn't counted: {said[-200:].decode()}")
    of = dict(zip(lines[b"events"].decode().split(), map(int, lines[b"summary"].split())))
    return Counts(of["Ir"], of["Dr"] + of["Dw"], of["Bcm"] + of["Bim"])
