"""Cases that have a folder of their own, and scripts of the repository that run there."""
import os
import re
import subprocess
import tempfile
import time
import unittest
from itertools import zip_longest
from pathlib import Path

from harness.program import SECONDS, TESTED, TOP, needs, short

# Each command that bin/ has, with the file that it starts.
COMMANDS = {"ilocfarm": "ilocfarm", "ilocgrade": "grading/ilocgrade", "ilocpieces": "cluster/ilocpieces",
            "ilocview": "charts/ilocview"}
# The commands that a page shows, each after `$ `, with the lines below it; on a page they are indented. A line that
# ends with `\` or `|` goes on.
COMMAND = re.compile(r"^\$ ((?:.*[\\|]\n)*.*)\n((?:(?!\$ ).*\n)*)", re.MULTILINE)
EXAMPLE = re.compile(r"(?:^    .*\n)+", re.MULTILINE)


class InFolder(unittest.TestCase):
    """A case that has a folder of its own."""
    needs = staticmethod(needs)

    def setUp(self):
        folder = tempfile.TemporaryDirectory(prefix="ilocfarm-")
        self.addCleanup(folder.cleanup)
        self.folder = os.path.realpath(folder.name)

    def path(self, name):
        return os.path.join(self.folder, name)

    def write(self, name, data):
        os.makedirs(os.path.dirname(self.path(name)), exist_ok=True)
        Path(self.path(name)).write_bytes(data.encode() if isinstance(data, str) else data)

    def script(self, name, text):
        self.write(name, text)
        os.chmod(self.path(name), 0o755)

    def read(self, name):
        return Path(self.path(name)).read_bytes()

    def text(self, name):
        return self.read(name).decode(errors="replace")

    def call(self, *words, given=b"", at=".", **more):
        """Status, standard output and standard error, in the case's environment."""
        done = subprocess.run(words, cwd=self.path(at), env={**self.environment, **more}, input=given,
                              capture_output=True, timeout=5 * SECONDS)
        return done.returncode, done.stdout, done.stderr

    def process(self, *words, **how):
        """A process whose streams are texts; it ends with the case."""
        pipes = dict.fromkeys(("stdin", "stdout", "stderr"), subprocess.PIPE)
        begun = subprocess.Popen(words, text=True, **{**pipes, **how})
        self.addCleanup(lambda: (begun.kill(), begun.communicate()))
        return begun

    def follows(self, shown):
        """Commands with what is shown below them, typed one after another into a shell, print just that."""
        self.expect("commands are shown", bool(shown), True)
        typed = "".join(f"{command}\nprintf '\\0'\n" for command, _ in shown)
        printed = self.shell(typed)[1].split(b"\0")
        for (command, below), got in zip_longest(shown, printed[:-1], fillvalue=b"it isn't run"):
            with self.subTest(command):
                self.expect(command, got, below.encode())

    def expect(self, what, got, wanted):
        if got != wanted:
            self.fail(f"{what}: {short(got, 600)} in place of {short(wanted, 600)}")


class Place(InFolder):
    """Its folder has links to those of the repository, and `ilocfarm` is on the PATH."""

    def setUp(self):
        super().setUp()
        os.mkdir(self.path("bin"))
        for name, file in COMMANDS.items():
            os.symlink(TESTED.program if name == "ilocfarm" else f"{TOP}/{file}", self.path(f"bin/{name}"))
        for name in ("charts", "cluster", "docs", "examples", "grading", "install", "man", "CHANGELOG.md", "README.md"):
            os.symlink(f"{TOP}/{name}", self.path(name))
        self.environment = {**os.environ, "PATH": f"{self.path('bin')}:{os.environ['PATH']}", "LC_ALL": "C.UTF-8"}

    def printed(self, *words, **how):
        """What a command prints that ends well and says nothing."""
        status, out, err = self.call(*words, **how)
        self.expect(f"{words}", (status, err), (0, b""))
        return out

    def listings(self, *commands, given=b""):
        """What these commands print of the same input, one after the other."""
        return b"".join(self.call("ilocfarm", *words, given=given)[1] for words in commands)

    def commands(self):
        """The commands that the top help lists, but `help`."""
        out = self.call("ilocfarm", "--help")[1].decode()
        found = re.findall(r"^  (\w+) ", out.partition("Commands:\n")[2].partition("\n\n")[0], re.MULTILINE)
        return [name for name in found if name != "help"]

    def shell(self, line):
        """Status, and both outputs as one, as on a terminal."""
        done = subprocess.run(["bash", "-c", line], cwd=self.folder, env=self.environment, stdin=subprocess.DEVNULL,
                              stdout=subprocess.PIPE, stderr=subprocess.STDOUT, timeout=5 * SECONDS)
        return done.returncode, done.stdout


def shown_on(page, but=()):
    """The commands of a page of the repository but those with one of these words, and what is shown below them."""
    blocks = EXAMPLE.findall(Path(f"{TOP}/{page}").read_text("utf-8"))
    shown = [shown for block in blocks for shown in COMMAND.findall(re.sub("^    ", "", block, flags=re.MULTILINE))]
    return [(command, below) for command, below in shown if not any(word in command for word in but)]


def crates_of(name):
    """By name what a crate uses, as crates.txt says, and each crate that it needs."""
    uses = dict(re.findall(r"^(\w+)[^:#\n]*: (.*)$", Path(f"{TOP}/crates.txt").read_text("utf-8"), re.MULTILINE))
    needed = {name}
    while more := {used for crate in needed for used in uses[crate].split() if used in uses} - needed:
        needed |= more
    return {crate: uses[crate] for crate in needed}


def until(what, holds):
    last = time.monotonic() + SECONDS
    while not holds():
        if time.monotonic() > last:
            raise AssertionError(f"{what}: not within {SECONDS} seconds")
        time.sleep(0.02)
