"""./ilocfarm with the toolchain's own rt: a small program unproved, and the commands of the README in fresh copies."""
import os
import shutil
import subprocess

from harness.place import shown_on
from harness.program import TOP
from launcher.test_launcher import UNPROVED, Repository

# What ./ilocfarm needs of the repository to run the README's commands, and how long each may take, all at once.
CLONED = ("bin", "ilocfarm", "launcher.sh", "crates.txt", "HANDLES", "crates", "examples")
UNPROVED_SECONDS = 900


class Real(Repository):
    def test_toolchain(self):
        """What the real rt says of an unproved run is understood: a program ends well, and one has no end."""
        shutil.rmtree(f"{self.top}/crates")
        self.write(f"{self.top}/crates.txt", "ilocfarm:\n")
        os.makedirs(f"{self.top}/crates/ilocfarm/src")
        self.write(f"{self.top}/crates/ilocfarm/src/main.rt", """#![tactic(auto)]

use std::io;

fn main(rt: HostRuntime) -> io::Result<()> {
    for line in rt.lines(rt.alloc()) {
        let text = line?;
        println!(rt; "{text}")?;
        eprintln!(rt; "ilocfarm: a word")?;
    }
    Ok(())
}
""")
        started = self.start("run", env={"PATH": os.environ["PATH"]})
        status, out, err = self.ended(started, "one\ntwo\n", UNPROVED_SECONDS)
        self.assertEqual((status, out), (0, "one\ntwo\n"))
        self.assertRegex(err, rf"\A{UNPROVED}(ilocfarm: a word\n){{2}}\Z")

    def clone(self, number):
        """A copy of what ./ilocfarm needs of the repository, where nothing is built."""
        def left_out(at, names):
            return [name for name in names if name == "out" or at == TOP and name not in CLONED]
        return shutil.copytree(TOP, f"{self.folder}/clone {number}", symlinks=True, ignore=left_out)

    def test_readme_on_a_fresh_clone(self):
        """Where nothing is built each command of the README prints what is shown below it."""
        shown = shown_on("README.md", but=("PATH=", "apt ", "/usr/", "grade"))
        started = [self.process("bash", "-c", f"PATH=$PWD/bin:$PATH\n{command}", cwd=self.clone(number), stdin=subprocess.DEVNULL)
                   for number, (command, _) in enumerate(shown)]
        self.assertTrue(started)
        for (command, below), run in zip(shown, started):
            with self.subTest(command):
                out, err = run.communicate(timeout=UNPROVED_SECONDS)
                self.assertEqual(out, below)
                self.assertRegex(err, rf"\A{UNPROVED}\Z")
