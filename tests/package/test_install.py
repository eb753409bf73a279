"""Cases of ./install: what it installs, that it removes just that, and that it does nothing by halves."""
import os
import shlex
import stat
import subprocess
import unittest
from pathlib import Path

from harness.place import COMMANDS, Place
from harness.program import TESTED, TOP
from pages.test_links import dead_links

# Of each command.
FORMS = ("bin/{}", "share/man/man1/{}.1", "share/bash-completion/completions/{}", "share/zsh/site-functions/_{}",
         "share/fish/vendor_completions.d/{}.fish")
ALONE = ("share/doc/ilocfarm/README.md", "share/doc/ilocfarm/CHANGELOG.md", "share/ilocfarm/installed")
# Folders of the repository of which all is installed, and where.
WHOLE = {"charts": "share/ilocfarm/charts", "grading": "share/ilocfarm/grading", "cluster": "share/ilocfarm/cluster",
         "examples": "share/ilocfarm/examples", "docs": "share/doc/ilocfarm/docs"}
GRADED = (0, b"10 students, 1 task, 4 of 10 passed: grades/report.html\n", b"")
LAB = ("--load", "3", "--store", "3", "--mult", "2")
USAGE = b"""usage: [DESTDIR=FOLDER] ./install PREFIX [PROGRAM]
       [DESTDIR=FOLDER] ./install --uninstall PREFIX
"""
NOT_THERE = b"install: no ilocfarm is installed in made: made/share/ilocfarm/installed isn't there\n"
OUTSIDE = b"install: made/share/ilocfarm/installed names what isn't below made: nothing is removed\n"
TOO_OLD = "#!/bin/sh\necho 'man/make needs Python 3.9 or later, and this is 3.6.15' >&2; exit 3\n"
SOURCES = "charts cluster docs examples grading install man CHANGELOG.md README.md"


def files_below(folder):
    return {os.path.relpath(f"{at}/{name}", folder) for at, _, names in os.walk(folder) for name in names}


def mounted(case, folder, size):
    """Makes a folder one that holds no more, as long as the case runs."""
    words = ["mount", "-t", "tmpfs", "-o", f"size={size}", "none", folder]
    if subprocess.run(words, capture_output=True, check=False).returncode:
        raise unittest.SkipTest("no folder of a given size can be mounted: not root")
    case.addCleanup(subprocess.run, ["umount", folder], check=True)


class Install(Place):
    def setUp(self):
        super().setUp()
        self.version = self.call("ilocfarm", "--version")

    def installs(self, prefix, **more):
        self.expect(f"install {prefix}", self.call("./install", prefix, "bin/ilocfarm", **more), self.version)

    def fails(self, words, said, status=1, **more):
        self.expect(f"{words}", self.call("./install", *words, **more), (status, b"", said))

    def removes(self, prefix, left=(), **more):
        """Uninstalls, after which these files are left, or not even the folder."""
        self.expect(f"uninstall {prefix}", self.call("./install", "--uninstall", prefix, **more), (0, b"", b""))
        where = self.path(f"{more.get('DESTDIR', '')}/{prefix}".lstrip("/"))
        self.expect(f"left in {prefix}", (files_below(where), os.path.exists(where)), (set(left), bool(left)))

    def test_installs(self):
        self.installs("a prefix")
        wanted = {form.format(name) for form in FORMS for name in COMMANDS} | set(ALONE)
        wanted |= {f"{at}/{name}" for folder, at in WHOLE.items() for name in files_below(f"{TOP}/{folder}")}
        self.expect("files", sorted(files_below(self.path("a prefix"))), sorted(wanted))
        wanted |= {f"{at}/" for name in wanted for at in Path(name).parents if at.name}
        self.expect("the list", self.text("a prefix/share/ilocfarm/installed").splitlines(), sorted(wanted))
        self.expect("dead links", list(dead_links(self.path("a prefix/share/doc/ilocfarm/**/*.md"))), [])
        for made, source in (("bin/ilocfarm", TESTED.program), ("share/man/man1/ilocfarm.1", "man/ilocfarm.1"),
                             ("share/ilocfarm/cluster/join.py", "cluster/join.py")):
            self.expect(f"{made} as it is", self.read(f"a prefix/{made}") == self.read(source), True)
        self.works(self.path("a prefix"))
        self.removes("a prefix")

    def works(self, prefix):
        """All three commands by their paths, with no other ilocfarm about."""
        os.remove(self.path("bin/ilocfarm"))
        ran = self.call(f"{prefix}/bin/ilocfarm", "run", given=self.read("examples/first.iloc"))
        self.expect("run", ran, (0, b"block 1 -\n7\n", b""))
        graded = self.call(f"{prefix}/bin/ilocgrade", "examples/class/tasks", "examples/class/submissions")
        self.expect("ilocgrade", graded, GRADED)
        drawn = self.call(f"{prefix}/bin/ilocview", "timeline", *LAB, "examples/book.iloc")
        self.expect("ilocview", drawn, (0, self.read("docs/book.svg"), b""))

    def test_prefixes(self):
        """Relative ones, and those below DESTDIR, with a slash at its start or without."""
        self.installs("made here")
        files = files_below(self.path("made here"))
        for prefix in ("/usr", "usr/local"):
            self.installs(prefix, DESTDIR="a root")
            self.expect("files", files_below(self.path(f"a root/{prefix.lstrip('/')}")), files)
        self.removes("usr/local", DESTDIR="a root")
        self.expect("files of another prefix", files_below(self.path("a root/usr")), files)
        self.removes("/usr", DESTDIR="a root")
        self.write("elsewhere/made here/bin/ilocfarm", "")
        self.removes("made here", CDPATH=self.path("elsewhere"))
        os.mkdir(self.path("tmp"))
        self.installs("made here", PATH=f".:{os.environ['PATH']}", TMPDIR="tmp")
        self.expect("what is temporary", os.listdir(self.path("tmp")), [])
        self.expect("elsewhere", files_below(self.path("elsewhere")), {"made here/bin/ilocfarm"})

    def test_modes(self):
        """All may read it, whoever installs it, and whatever the modes of the sources."""
        self.shell(f"umask 077; mkdir mine; cp -RL {SOURCES} mine; chmod -R go= mine; mine/install made bin/ilocfarm")
        modes = {stat.S_IMODE(os.stat(f"{at}/{name}").st_mode)
                 for at, _, names in os.walk(self.path("made")) for name in (*names, ".")}
        self.expect("modes", {oct(mode) for mode in modes}, {"0o755", "0o644"})
        files = files_below(self.path("made"))
        begun = {name for name in files if self.read(f"made/{name}")[:2] in (b"#!", b"\x7fE")}
        self.expect("what can be run", {name for name in files if os.access(self.path(f"made/{name}"), os.X_OK)}, begun)

    def test_upgrades(self):
        """What an older version had, and this hasn't, goes, also where its folder is a file now; what is somebody's own
        stays."""
        self.installs("made")
        older = "share/ilocfarm/older", "share/ilocfarm/charts/curve.py"
        os.remove(self.path(f"made/{older[1]}"))
        for name in ("bin/mine", "share/ilocfarm/mine/file", *(f"{folder}/file" for folder in older)):
            self.write(f"made/{name}", "")
        listed = self.text("made/share/ilocfarm/installed")
        self.write("made/share/ilocfarm/installed", listed + "".join(f"{folder}/\n{folder}/file\n" for folder in older))
        os.unlink(self.path("made/bin/ilocfarm"))
        os.symlink("mine", self.path("made/bin/ilocfarm"))      # is replaced, and not followed
        self.installs("made")
        self.expect("own file", self.read("made/bin/mine"), b"")
        self.expect("older", os.path.exists(self.path(f"made/{older[0]}")), False)
        self.expect("a file now", self.read(f"made/{older[1]}"), self.read("charts/curve.py"))
        self.expect("listed", self.text("made/share/ilocfarm/installed"), listed)
        self.removes("made", ["bin/mine", "share/ilocfarm/mine/file"])

    def test_what_was_there(self):
        """Folders that were there stay, empty ones too; one in the way of a file is named, and nothing is written."""
        for name in ("bin", "elsewhere", "share"):
            os.makedirs(self.path(f"made/{name}"))
        os.symlink("../elsewhere", self.path("made/share/man"))
        os.symlink("made", self.path("a link"))
        self.installs("a link")
        self.expect("by a link", os.path.exists(self.path("made/elsewhere/man1/ilocfarm.1")), True)
        self.expect("uninstall", self.call("./install", "--uninstall", "a link"), (0, b"", b""))
        left = sorted(os.path.relpath(at, self.path("made")) for at, _, _ in os.walk(self.path("made")))
        self.expect("left", (left, files_below(self.path("made"))), ([".", "bin", "elsewhere", "share"], set()))
        os.mkdir(self.path("made/bin/ilocgrade"))
        self.fails(["made", "bin/ilocfarm"], b"install: made/bin/ilocgrade is a folder: nothing is installed\n")
        self.expect("nothing", files_below(self.path("made")), set())
        self.write("file", "")
        self.expect("a file", self.call("./install", "file", "bin/ilocfarm")[:2], (1, b""))

    def test_odd_names(self):
        """Of the prefix, of the folder that it is installed from, and of the one for what is temporary."""
        for name in ("it's \"one\"", "a*b?[c]", "$HOME `id`\\", "-- dash", " blank "):
            self.write(f"{name}/file", "")
            self.shell(f"cp -RL {SOURCES} ./{shlex.quote(name)}/")
            ended = self.call(f"./{name}/install", f"./{name}/made", "bin/ilocfarm", TMPDIR=self.path(name))
            self.expect(f"install {name}", ended, self.version)
            self.expect("by it", self.call(f"./{name}/made/bin/ilocview", "--version"), self.version)
            self.expect("uninstall", self.call("./install", "--uninstall", f"./{name}/made"), (0, b"", b""))
            self.expect("left", {"install", "made"} & {*os.listdir(self.path(name))}, {"install"})

    def test_read_only(self):
        """Nothing is written; of what is installed nothing is removed, and the list stays."""
        os.mkdir(self.path("disk"))
        mounted(self, self.path("disk"), "64m")
        self.installs("disk/made")
        files = files_below(self.path("disk"))
        self.call("mount", "-o", "remount,ro", self.path("disk"))
        for words in (("disk/made", "bin/ilocfarm"), ("disk/other", "bin/ilocfarm"), ("--uninstall", "disk/made")):
            status, out, err = self.call("./install", *words)
            self.expect(f"{words}", (status != 0, out, b"Read-only file system" in err), (True, b"", True))
        self.expect("files", files_below(self.path("disk")), files)
        self.call("mount", "-o", "remount,rw", self.path("disk"))
        self.removes("disk/made")

    def test_removes_nothing_else(self):
        self.fails(["--uninstall", "made"], NOT_THERE)
        self.write("outside", "")
        for line in ("../outside", self.path("outside"), "share/../../outside", ""):
            self.write("made/share/ilocfarm/installed", f"bin/x\n{line}\n")
            self.write("made/bin/x", "")
            self.fails(["--uninstall", "made"], OUTSIDE)
            left = (files_below(self.path("made")), os.path.exists(self.path("outside")))
            self.expect(f"{line}: files", left, ({"bin/x", "share/ilocfarm/installed"}, True))

    def test_nothing_by_mistake(self):
        for words in ((), ("--help",), ("",), ("--uninstall",), ("--uninstall", ""), ("--uninstall", "a", "b"), "abc"):
            self.fails(words, USAGE, 2)

    def test_nothing_by_halves(self):
        """Without a program that works, Python, or one that is new enough, nothing is installed."""
        self.script("bad", "#!/bin/sh\nexit 3\n")
        self.script("tools/python3", TOO_OLD)
        usual, old = os.environ["PATH"], f"{self.path('tools')}:{os.environ['PATH']}"
        for program, path, why in (("nosuch", usual, b"nosuch"), ("bad", usual, b"exit status 3"),
                                   ("bin/ilocfarm", old, b"needs Python 3.9 or later")):
            status, out, err = self.call("./install", "made", program, PATH=path)
            self.expect(program, (status != 0, out, why in err), (True, b"", True))
            self.expect(f"{program}: nothing", os.path.exists(self.path("made")), False)
        for name in ("sh", "dirname", "mktemp", "rm"):
            os.symlink(f"/bin/{name}", self.path(f"bin/{name}"))
        self.fails(["made", "bin/ilocfarm"], b"install: python3 is not on the PATH\n", PATH=self.path("bin"))
        self.expect("nothing", os.path.exists(self.path("made")), False)

    def test_full_disk(self):
        """It fails, and what it left is removed."""
        os.mkdir(self.path("small"))
        mounted(self, self.path("small"), "64k")
        status, out, err = self.call("./install", "small/made", "bin/ilocfarm")
        self.expect("full", (status != 0, out, b"No space left on device" in err), (True, b"", True))
        self.removes("small/made")
