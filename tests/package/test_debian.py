"""The release as somebody gets it who has neither the toolchain nor the repository: in a minimal Debian."""
import os
import subprocess
import unittest

from harness.place import COMMANDS, shown_on
from harness.program import TESTED, needs
from package.test_release import Clones

# The oldest with the C library that the program needs, and a newer one.
SYSTEMS = ("bookworm",) if TESTED.is_short else ("bookworm", "trixie")
SECONDS = 900       # for a step
PATH = "/usr/local/sbin:/usr/local/bin:/usr/sbin:/usr/bin:/sbin:/bin"
SETTINGS = {"PATH": PATH, "LC_ALL": "C.UTF-8", "HOME": "/home/student", "DEBIAN_FRONTEND": "noninteractive",
            "MANPAGER": "cat"}
# apt asks nothing, and leaves out what is only recommended.
APT = 'APT::Get::Assume-Yes "true"; APT::Install-Recommends "false"; quiet "2";\n'
UNPACKED = "/home/student/my tools/iloc"
# By page which of its commands aren't run, by words that they have: those for root, and of programs that aren't there.
PAGES = {"README.md": ("apt ", "/usr/"), "docs/GRADING.md": ("--program", "graph.svg"), "docs/STUDENTS.md": (),
         "docs/COMPARING.md": (), "docs/CLUSTER.md": ("sbatch", "large", "> files", ".out")}
PICTURES = ("compare.svg", "timeline.svg")      # that docs/GRADING.md has made
FIRST = ("ilocfarm run < examples/first.iloc", "block 1 -\n7\n")
TYPED = (
    ("ilocview graph examples/book.iloc; echo $?\n",
     "ilocview: this needs dot, which is not on the PATH (Debian: graphviz)\n3\n"),
    *((f"man {name} | head -n 1 | cut -d '(' -f 1", f"{name.upper()}\n") for name in COMMANDS),
)
# What the shells complete by, once the package is installed.
COMPLETED = (
    ("bash", ". /usr/share/bash-completion/bash_completion; "
     "for name in {}; do _completion_loader $name; complete -p $name; done",
     "complete -o bashdefault -o default -F _{0} {0}\n"),
    ("zsh", "autoload -Uz compinit; compinit -u -D; for name in {}; do print $_comps[$name]; done", "_{0}\n"),
)
NO_PYTHON = "‘python3’: No such file or directory\n127\n"


def unmount_below(folder):
    """What debootstrap mounted there and left, since it was stopped, goes before the folder does."""
    with open("/proc/mounts", encoding="utf-8") as file:
        points = [line.split()[1] for line in file]
    for point in reversed([point for point in points if point.startswith(f"{folder}/")]):
        subprocess.run(["umount", "--lazy", point], check=True)


class Debian(Clones):
    def setUp(self):
        needs("debootstrap", "chroot")
        if os.geteuid() != 0:
            raise unittest.SkipTest("only root can make a minimal Debian")
        super().setUp()

    def begin(self, suite):
        """A minimal system with a user, who has the release, and with what shows manual and completions."""
        self.root = self.path(suite)
        self.addCleanup(unmount_below, self.root)
        words = ["debootstrap", "--variant=minbase", "--include=bash-completion,man-db,zsh", suite, self.root]
        done = subprocess.run(words, capture_output=True, text=True, timeout=SECONDS, check=False)
        if done.returncode:
            said = (done.stdout + done.stderr).strip().splitlines()
            raise unittest.SkipTest(f"debootstrap makes no {suite}: {said[-1]}")
        for kind, at in ("proc", "proc"), ("sysfs", "sys"):     # where GNU parallel counts processors
            self.call("mount", "-t", kind, kind, f"{self.root}/{at}")
        self.write(f"{suite}/etc/apt/apt.conf.d/90test", APT)
        self.inside("apt-get update && useradd --create-home student", user="root", at="/")
        for name, data in self.packages("one").items():
            self.write(f"{suite}/home/student/{name}", data)

    def inside(self, line, user="student", shell="sh", at="/home/student"):
        """What a line prints in the system; it has to end well."""
        words = ["chroot", f"--userspec={user}", self.root, shell, "-c", f"cd '{at}' && {line}"]
        done = subprocess.run(words, env=SETTINGS, stdin=subprocess.DEVNULL, capture_output=True, text=True,
                              timeout=SECONDS, check=False)
        self.expect(f"{line}: {done.stderr[-500:]}", done.returncode, 0)
        return done.stdout

    def shell(self, lines):
        """What is shown where lines are typed after the first ones, by this user in this folder."""
        return 0, self.inside(f"exec 2>&1\n{self.first}\n{lines}", self.user, "bash", self.at).encode()

    def types(self, shown, first="", user="student", at="/home/student"):
        """Types commands, and sees that they print what is shown below them."""
        self.first, self.user, self.at = first, user, at
        self.follows(shown)

    def works(self, pages, begin, first=""):
        """The commands of these pages, after a first line, in a folder `page` that another makes."""
        for page in pages:
            self.inside(f"rm -rf page && {begin}")
            self.types([*shown_on(page, PAGES[page]), *TYPED], first, at="/home/student/page")
            for name in PICTURES if page == "docs/GRADING.md" else ():
                drawn = self.read(f"{self.root}/home/student/page/{name}") == self.read(f"one/docs/{name}")
                self.expect(f"{name} is that of docs/", drawn, True)

    def test_release(self):
        for suite in SYSTEMS:
            with self.subTest(suite):
                self.begin(suite)
                self.archive()
                self.package()

    def archive(self):
        """The program alone needs nothing; the others say what they lack. The folder is moved before it is used."""
        shown = shown_on("docs/INSTALL.md")
        at = next(k for k, (command, _) in enumerate(shown) if command.startswith("tar "))
        self.types(shown[at:at + 4])
        self.inside("mkdir 'my tools' && mv ilocfarm-*-x86_64 'my tools/iloc'")
        first = "PATH=$PWD/bin:$PATH"
        self.types([FIRST], first, at=UNPACKED)
        said = self.inside(f"{first}; ilocgrade 2>&1; echo $?", at=UNPACKED)
        self.expect(f"ilocgrade: {said}", said.endswith(NO_PYTHON), True)
        self.inside("apt-get install python3 parallel", user="root")
        self.works(PAGES, "cp -r 'my tools/iloc' page", first)

    def package(self):
        """What the pages have a user type, all that is installed, and its removal."""
        for page in ("README.md", "docs/INSTALL.md"):
            shown = [shown for shown in shown_on(page) if "sudo apt " in shown[0] or "/usr/share/" in shown[0]]
            self.types([*shown, FIRST], 'sudo() { "$@" >/dev/null 2>&1; }', user="root")
        self.works(["README.md"], "mkdir page && cp -r /usr/share/ilocfarm/examples page")
        for shell, line, printed in COMPLETED:
            wanted = "".join(printed.format(name) for name in COMMANDS)
            self.expect(shell, self.inside(line.format(" ".join(COMMANDS)), shell=shell), wanted)
        files = [name for name in self.inside("dpkg -L ilocfarm").splitlines() if "iloc" in name]
        missing = [name for name in files if not os.path.lexists(f"{self.root}{name}")]
        self.expect("files", (len(files) > 80, missing), (True, []))
        self.inside("apt-get purge ilocfarm", user="root")
        self.expect("what is left", self.inside("find / -xdev -name '*iloc*' ! -path '/home/*'", user="root"), "")
