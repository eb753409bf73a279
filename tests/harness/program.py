"""The program that is tested, what is built to test it, and cases of one run."""
import atexit
import os
import re
import shutil
import subprocess
import tempfile
import unittest
from functools import cache
from types import SimpleNamespace

from bench import measure
from harness.suite import Case

TOP = os.path.dirname(os.path.dirname(os.path.dirname(os.path.abspath(__file__))))
TESTED = SimpleNamespace(program=f"{TOP}/out/ilocfarm", is_short=False)     # as tests/run was asked
SECONDS = 120
COMMANDS = ("run", "simulate", "schedule", "counts")
FARMED = ("schedule", "counts", "compare", "optimize", "explain")   # whose blocks workers share
ALONE = ("run", "simulate", "check", "graph", "trace")
ALL = (*ALONE, *FARMED)
NO_BLOCKS = b"ilocfarm: blocks come before their rows, or from a file by --task FILE\n"
FAULT = re.compile(rb"ilocfarm: line ([0-9]+): (?:not understood|number above 2147483647)\n")


def ending(words, given=b"", program=None, **how):
    """Status, standard output and standard error of a run; `how` is for `subprocess.run`."""
    how = {"stdout": subprocess.PIPE, "stderr": subprocess.PIPE, **how}
    if "stdin" not in how:
        how["input"] = given
    done = subprocess.run([program or TESTED.program, *words], timeout=SECONDS, **how)
    return done.returncode, done.stdout or b"", done.stderr or b""


@cache
def folder():
    """For files of this run of the tests; it is gone at its end."""
    made = tempfile.TemporaryDirectory(prefix="ilocfarm-")
    atexit.register(made.cleanup)
    return os.path.realpath(made.name)


def stored(name, data):
    return measure.stored(os.path.join(folder(), name), data)


def needs(*tools):
    for tool in tools:
        if not shutil.which(tool):
            raise unittest.SkipTest(f"{tool} is not on the PATH")


def needs_bubblewrap(user=()):
    """Skips what needs bubblewrap where it isn't installed, or forbidden to a user whom these words make."""
    needs("bwrap")
    done = subprocess.run([*user, "bwrap", "--unshare-user", "--ro-bind", "/", "/", "true"], capture_output=True)
    if done.returncode:
        raise unittest.SkipTest(f"bubblewrap is forbidden here: {done.stderr.decode().strip()}")


def short(value, most=300):
    text = repr(value)
    return text if len(text) <= most else f"{text[:most // 2]} .. {text[-most // 2:]}"


def told(end):
    status, out, err = end
    return f"status {status}, {short(out, 120)}, {short(err, 120)}"


def unlike(what, got, due):
    """What is wrong where a run ended otherwise than it must."""
    return [] if got == due else [f"{what}: {told(got)} in place of {told(due)}"]


def with_reason(command, given, said):
    """What standard error has where this is said of an input: below the fault of a line what `lint` lists of that line,
    but by the four of COMMANDS."""
    if (command, said) == ("check", b"ilocfarm: no blocks\n"):
        return said + NO_BLOCKS
    fault = FAULT.fullmatch(said)
    if not fault or command in COMMANDS:
        return said
    lines = ending(["lint"], given)[1].splitlines(True)
    first = next((at for at, line in enumerate(lines) if line.startswith(b"line %s: " % fault[1])), len(lines))
    return said + b"".join(lines[first:first + 3])


class Run(Case):
    """How the program ends with these words on this input, where a fault that `lint` lists too stands without the reason
    below it."""

    def __init__(self, name, words, given, out, err, status, by=ending):
        super().__init__(name)
        self.words, self.given, self.out, self.err, self.status, self.by = words, given, out, err, status, by

    def passes(self):
        said = with_reason("".join(self.words[:1]), self.given, self.err)
        got = dict(zip(("status", "standard output", "standard error"), self.by(self.words, self.given)))
        wrong = [f"{what}: {short(got[what])} in place of {short(due)}"
                 for what, due in zip(got, (self.status, self.out, said)) if got[what] != due]
        if wrong:
            self.fail("; ".join(wrong))


def listed(name, given, out, words=("run",), **how):
    return Run(name, [*words], given, out, b"", 0, **how)


def refused(name, given, line, status=1, words=("run",), **how):
    return Run(name, [*words], given, b"", b"ilocfarm: " + line + b"\n", status, **how)
