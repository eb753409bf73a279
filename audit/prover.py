"""The toolchain's prover, on single functions of a crate.

docs/DECISIONS.md says why not by `rt must-fail`.
"""
import os
import re
import shutil
import subprocess
import tempfile
import threading
from pathlib import Path

PARTS = ("src", "specs", "proofs")
BUILDING, BUILT = threading.Lock(), set()
QUIET = {"stdin": subprocess.DEVNULL, "stdout": subprocess.PIPE, "stderr": subprocess.STDOUT}


def uses_of(top):
    """By the name of each crate in crates.txt what it uses."""
    lines = re.findall(r"^(\w+)[^:#\n]*:([^#\n]*)", Path(f"{top}/crates.txt").read_text("utf-8"), re.MULTILINE)
    return {name: used.replace(",", " ").split() for name, used in lines}


def linked(one, other):
    """Gives a file a second name, where it is replaced and never written into."""
    try:
        os.link(one, other)
    except OSError:     # on another disk
        shutil.copyfile(one, other)


def linked_if_proved(one, other):
    (linked if one.endswith(".oantt") else shutil.copyfile)(one, other)


class Prover:
    """For the functions of one crate, over the libraries below it: those in this folder, or the crates' own."""

    def __init__(self, top, name, libraries):
        self.folder, self.name, self.uses, self.libraries = f"{top}/crates", name, uses_of(top), libraries
        self.below = self.all_below(name)
        self.kit = os.path.dirname(os.path.dirname(os.path.realpath(shutil.which("rt"))))

    def all_below(self, name):
        """The crates of the repository that this one uses, lowest first."""
        return [*dict.fromkeys(lower for used in self.uses[name] if used in self.uses
                               for lower in (*self.all_below(used), used))]

    def rlib(self, name):
        return f"{self.libraries or f'{self.folder}/{name}/out/rlib'}/{name}.rlib"

    def build_below(self):
        """Builds the crates' own libraries below. Gives what rt said of the first that it couldn't build."""
        with BUILDING:
            for name in () if self.libraries else self.below:
                if name not in BUILT:
                    ran = subprocess.run(["rt", "lib", "--jobs", "1"], cwd=f"{self.folder}/{name}", **QUIET)
                    if ran.returncode:
                        return ran.stdout.decode(errors="replace")
                    BUILT.add(name)
        return ""

    def words(self, kept):
        rlibs = f"{self.kit}/rlibs"
        yield from ("--crate-name", self.name, "src/lib.rt", "-L", f"dependency={rlibs}")
        for name in ["std", *self.uses[self.name]]:
            yield from ("--extern", f"{name}={self.rlib(name) if name in self.below else f'{rlibs}/{name}.rlib'}")
        for name in self.below:
            yield from ("-L", f"dependency={os.path.dirname(self.rlib(name))}")
        yield from ("--antt-project", f"{self.kit}/rattle/logic/antt-project.json")
        yield from ("--logic-built", f"{self.kit}/logic_built", "--incremental", kept, "--jobs", "1")

    def crate_folder(self):
        return f"{self.folder}/{self.name}"

    def begin(self, kept):
        """Puts what rt check kept of the crate into this new folder, over the crates' own libraries."""
        if not self.libraries and os.path.isdir(f"{self.crate_folder()}/out/incremental"):
            shutil.copytree(f"{self.crate_folder()}/out/incremental", kept, copy_function=linked_if_proved)

    def check(self, functions, texts, kept):
        """Checks these functions of the crate, and what they call, with these texts in place of its own, over the work
        that the folder kept has. Gives the status and the lines that were said."""
        with tempfile.TemporaryDirectory(prefix="ilocfarm-edit-") as room:
            for part in PARTS:
                if os.path.isdir(f"{self.crate_folder()}/{part}"):
                    shutil.copytree(f"{self.crate_folder()}/{part}", f"{room}/{part}")
            for name, text in texts.items():
                Path(f"{room}/{name}").write_text(text, "utf-8")
            only = [word for function in functions for word in ("--only", function)]
            words = ["setpriv", "--pdeathsig", "KILL", f"{self.kit}/bin/rattle", "check", *self.words(kept), *only]
            ran = subprocess.run(words, cwd=room, **QUIET)
        return ran.returncode, ran.stdout.decode(errors="replace").splitlines()
