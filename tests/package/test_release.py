"""Cases of ./package: what it makes, of whatever clone the same bytes, and what it refuses.

The clones have all that ./package needs of the repository as it is, in a commit of their own.
"""
import hashlib
import os
import re
import shutil
import stat
import tarfile
import unittest

from harness.place import COMMANDS, InFolder
from harness.program import TESTED, TOP, needs
from package.test_install import GRADED, LAB, files_below, mounted
from pages.test_links import dead_links

CLONED = ("build", "install", "launcher.sh", "package", "packaging", "charts", "cluster", "docs", "examples", "grading",
          "man", "CHANGELOG.md", "README.md", ".gitignore", "HANDLES", "crates.txt")
PROMISES = "share/doc/ilocfarm/docs/PROMISES.md"
WHEN = 1795959508               # 29 November 2026, 13:38:28 in Greenwich
WHO, ADDRESS = "A & B|C", "a@b.example"
GIT = {"GIT_CONFIG_NOSYSTEM": "1"}
for role in ("AUTHOR", "COMMITTER"):
    GIT |= {f"GIT_{role}_NAME": WHO, f"GIT_{role}_EMAIL": ADDRESS, f"GIT_{role}_DATE": f"{WHEN} +0100"}
with open(f"{TOP}/CHANGELOG.md", encoding="utf-8") as changes:
    NUMBER = re.search(r"^## (\S+)", changes.read(), re.MULTILINE)[1]
# What somebody may have set.
ODD = {"SOURCE_DATE_EPOCH": "1", "TZ": "Pacific/Auckland", "LC_ALL": "C", "TAR_OPTIONS": "--sparse", "GZIP": "-1",
       "DPKG_DEB_COMPRESSOR_TYPE": "gzip", "GIT_DIR": "/nowhere", "CDPATH": "/", "POSIXLY_CORRECT": "1",
       "DESTDIR": "/nowhere"}
CONTROL = {"Depends": "libc6 (>= 2.34), python3 (>= 3.9)", "Maintainer": f"{WHO} <{ADDRESS}>",
           "Recommends": "bubblewrap, graphviz, librsvg2-bin, python3-seccomp"}
DATED = f" -- {WHO} <{ADDRESS}>  Sun, 29 Nov 2026 13:38:28 +0000\n"
PROVENANCE = """ilocfarm {}
commit {}
program {} as it is built
program {} without its symbols, as it is installed
{}This program was given to ./package, which doesn't know what was proved of it.
"""
CHANGED = """ilocfarm ({}) UNRELEASED; urgency=medium

  * Made of commit {}.
  * CHANGELOG.md, beside this file, says what changed.

"""


def digests(made):
    return {name: hashlib.sha256(data).hexdigest() for name, data in made.items()}


class Clones(InFolder):
    """A repository of what is here, and clones of it."""
    @classmethod
    def setUpClass(cls):
        needs("git", "dpkg-deb", "strip", "readelf")

    def setUp(self):
        super().setUp()
        self.environment = {**os.environ, **GIT, "HOME": self.folder, "LC_ALL": "C.UTF-8"}
        os.mkdir(self.path("one"))
        for name in CLONED:
            copy = shutil.copytree if os.path.isdir(f"{TOP}/{name}") else shutil.copy2
            copy(f"{TOP}/{name}", self.path(f"one/{name}"))
        self.script("one/tests/pages/promises.py", "#!/bin/sh\necho Promises\n")
        self.git("one", "init", "--quiet", "--initial-branch=main")
        self.commits("one")

    def git(self, at, *words):
        status, out, err = self.call("git", *words, at=at)
        self.expect(f"git {words}: {err}", status, 0)
        return out.decode().strip()

    def commits(self, at):
        """Commits all that is there, of which the version comes."""
        self.git(at, "add", "--all")
        self.git(at, "commit", "--quiet", "--message=all")
        self.commit = self.git(at, "rev-parse", "HEAD")
        self.version = f"{NUMBER}~git20261129.{self.commit[:8]}"

    def names(self):
        return f"ilocfarm-{self.version}-linux-x86_64.tar.gz", f"ilocfarm_{self.version}_amd64.deb"

    def made(self, at):
        return {name: self.read(f"{at}/out/release/{name}") for name in os.listdir(self.path(f"{at}/out/release"))}

    def packages(self, at, **more):
        """What a run makes, by name."""
        ended = self.call("./package", TESTED.program, at=at, **more)
        self.expect("package", ended, (0, b"", f"ilocfarm: out/release has {' '.join(self.names())}\n".encode()))
        made = self.made(at)
        self.expect("files", sorted(made), ["PROVENANCE", "SHA256SUMS", *self.names()])
        return made

    def refuses(self, at, said, program=TESTED.program, **more):
        """Nothing is made, and the last lines say why."""
        status, out, err = self.call("./package", program, at=at, **more)
        self.expect(f"refuses: {err}", (status, out, err.decode().endswith(f"ilocfarm: {said}\n")), (125, b"", True))
        self.expect("out", os.path.exists(self.path(f"{at}/out")) and os.listdir(self.path(f"{at}/out")), False)


class Release(Clones):
    def test_same_bytes(self):
        """Two runs, in another folder, in a shallow clone, whoever makes them, whatever git ignores there and whatever
        the environment."""
        made = self.packages("one")
        self.write("one/docs/notes.swp", "")
        self.expect("again", digests(self.packages("one")), digests(made))
        self.git(".", "clone", "--quiet", "one", "a clone/of two")
        self.git(".", "clone", "--quiet", "--depth=1", f"file://{self.path('one')}", "shallow")
        self.expect("a shallow clone", digests(self.packages("shallow")), digests(made))
        self.call("chmod", "-R", "g+s,o=", self.path("a clone"))
        self.git(".", "config", "--global", "core.autocrlf", "true")
        self.git(".", "config", "--global", "log.showSignature", "true")
        self.write("attributes", "*.md text eol=crlf\n*.py export-ignore\n")
        self.git(".", "config", "--global", "core.attributesFile", self.path("attributes"))
        self.addCleanup(os.umask, os.umask(0o077))
        self.expect("in odd company", digests(self.packages("a clone/of two", **ODD)), digests(made))
        sums = dict(line.split("  ")[::-1] for line in made["SHA256SUMS"].decode().splitlines())
        self.expect("sums", sums, {name: sum for name, sum in digests(made).items() if name != "SHA256SUMS"})
        self.unpacks("one")
        built, stripped = (digests({"": self.read(name)})[""] for name in (TESTED.program, "unpacked/bin/ilocfarm"))
        said = made["PROVENANCE"].decode()
        tools = "".join(re.findall("(?m)^tool .*\n", said))
        self.expect("tools", [line.split()[1] for line in tools.splitlines()], ["Debian", "GNU", "tar", "gzip"])
        self.expect("PROVENANCE", said, PROVENANCE.format(self.version, self.commit, built, stripped, tools))

    def unpacks(self, at):
        """Unpacks the archive as `unpacked`."""
        with tarfile.open(self.path(f"{at}/out/release/{self.names()[0]}")) as archive:
            entries = archive.getmembers()
            self.expect("times", {entry.mtime for entry in entries}, {WHEN})
            owners = {(entry.uid, entry.gid, entry.uname, entry.gname) for entry in entries}
            self.expect("owners", owners, {(0, 0, "", "")})
            self.expect("modes", {entry.mode for entry in entries}, {0o755, 0o644, 0o777})
            archive.extractall(self.folder)
        os.rename(self.path(self.names()[0].removesuffix(".tar.gz")), self.path("unpacked"))

    def installed(self):
        """The files that ./install installs, the page of promises, and the one with the commit."""
        self.expect("install", self.call("./install", self.path("installed"), TESTED.program, at="one")[0], 0)
        return files_below(self.path("installed")) | {PROMISES, "share/ilocfarm/grading/commit"}

    def test_archive(self):
        """It has what ./install installs, works where it is moved, and knows its commit."""
        self.packages("one")
        self.unpacks("one")
        self.expect("files", files_below(self.path("unpacked")), self.installed())
        self.expect("promises", self.text(f"unpacked/{PROMISES}"), "Promises\n")
        os.makedirs(self.path("a folder"))
        os.rename(self.path("unpacked"), self.path("a folder/of mine"))
        drawn = self.call("a folder/of mine/bin/ilocview", "timeline", *LAB, "one/examples/book.iloc")
        self.expect("ilocview", drawn, (0, self.read("one/docs/book.svg"), b""))
        version = self.call(TESTED.program, "--version")[1]
        for name in COMMANDS:
            of = b"" if name == "ilocfarm" else f"{name} is of commit {self.commit}\n".encode()
            for at, said in ("a folder/of mine", version + of), ("installed", version):
                self.expect(f"{at}/bin/{name}", self.call(f"{at}/bin/{name}", "--version"), (0, said, b""))
        folders = ("one/examples/class/tasks", "one/examples/class/submissions")
        self.expect("ilocgrade", self.call("a folder/of mine/bin/ilocgrade", *folders), GRADED)

    def test_debian(self):
        """Files, control and changelog, as Debian has them, and no link to what isn't installed."""
        self.write("one/README.md", self.text("one/README.md") + "[a list](tests/packages), [a page](install#it)\n")
        self.commits("one")
        self.packages("one")
        self.call("dpkg-deb", "--raw-extract", f"one/out/release/{self.names()[1]}", "deb")
        pages = {f"share/man/man1/{name}.1" for name in COMMANDS}
        wanted = self.installed() - {"share/ilocfarm/installed"} - pages
        wanted = {name.replace("/zsh/site-functions/", "/zsh/vendor-completions/") for name in wanted}
        wanted |= {f"{name}.gz" for name in pages}
        wanted |= {f"share/doc/ilocfarm/{name}" for name in ("changelog.gz", "copyright")}
        wanted |= {"share/lintian/overrides/ilocfarm"}
        self.expect("files", files_below(self.path("deb/usr")), wanted)
        self.expect("sums", self.call("md5sum", "--check", "--quiet", "DEBIAN/md5sums", at="deb"), (0, b"", b""))
        self.expect("dead links", list(dead_links(self.path("deb/usr/share/doc/ilocfarm/**/*.md"))), [])
        texts = {name: self.text(f"deb/usr/{name}") for name in wanted if name != "bin/ilocfarm"}
        firsts = {text.split("\n")[0] for text in texts.values() if text.startswith("#!")}
        self.expect("interpreters", firsts, {"#!/usr/bin/python3", "#!/bin/sh"})
        modes = {stat.S_IMODE(os.lstat(self.path(f"deb/usr/{name}")).st_mode) for name in wanted}
        self.expect("modes", modes, {0o755, 0o644, 0o777})
        control = dict(line.split(": ", 1) for line in self.text("deb/DEBIAN/control").splitlines() if line[0] != " ")
        for field, value in (("Version", self.version), *CONTROL.items()):
            self.expect(field, control[field], value)
        changelog = self.call("zcat", "deb/usr/share/doc/ilocfarm/changelog.gz")[1].decode()
        self.expect("changelog", changelog, CHANGED.format(self.version, self.commit) + DATED)

    def test_released(self):
        """A version whose heading says nothing more is released, and is called by its number alone."""
        text = self.text("one/CHANGELOG.md")
        self.write("one/CHANGELOG.md", re.sub(r"(?m)^## (\S+) .*$", r"## \1", text, count=1))
        self.commits("one")
        self.version = NUMBER
        self.packages("one")

    def test_lintian(self):
        """Nothing but what its owner has to choose: a licence."""
        needs("lintian")
        self.packages("one")
        words = ("lintian", "--allow-root", "--display-info", "--pedantic", "--fail-on", "none")
        found = self.call(*words, f"one/out/release/{self.names()[1]}")[1].decode().splitlines()
        print("\n".join(found), flush=True)
        worse = [line for line in found if line[:2] in ("E:", "W:")]
        self.expect("lintian", [line for line in worse if "copyright" not in line], [])


class Refusals(Clones):
    def test_changes(self):
        """What no commit has isn't packaged, nor left out in silence."""
        said = "these files aren't the commit's: commit them, or package a clone\n"
        self.write("one/README.md", "")
        self.refuses("one", f"{said} M README.md")
        self.git("one", "checkout", "--quiet", ".")
        self.write("one/docs/new.md", "")
        self.refuses("one", f"{said}?? docs/new.md")

    def test_no_commit(self):
        shutil.rmtree(self.path("one/.git"))
        self.refuses("one", f"no commit can be read in {self.path('one')}, as git says above")
        self.git(".", "init", "--quiet")
        self.commits(".")
        self.refuses("one", f"{self.path('one')} is a folder of another repository: package a clone")

    def test_somebody_elses_clone(self):
        """git reads no clone of another user; what to do is git's own word."""
        if os.geteuid() != 0:
            raise unittest.SkipTest("no file can be given to another user: not root")
        self.call("chown", "-R", "65534", self.path("one"))
        self.refuses("one", f"no commit can be read in {self.path('one')}, as git says above")

    def test_programs(self):
        for program, said in (
                ("nosuch", f"{self.path('one')}/nosuch is no program that can be packaged"),
                ("install", f"{self.path('one')}/install is no program that can be packaged"),
                (shutil.which("xz"), "the program needs other libraries than libc.so.6: liblzma.so.5 libc.so.6"),
                (shutil.which("echo"), f"the program is of version echo, and CHANGELOG.md begins with {NUMBER}")):
            self.refuses("one", said, program)
        status, _, err = self.call("./package", "a", "b", at="one")
        self.expect("usage", (status, err), (125, b"ilocfarm: usage: ./package [PROGRAM]\n"))

    def test_tools(self):
        """Each is missed by its name; of too old a Python man/make says so."""
        os.mkdir(self.path("bin"))
        for name in ("sh", "readlink", "git", "strip", "readelf", "python3", "gzip"):
            os.symlink(shutil.which(name), self.path(f"bin/{name}"))
        self.refuses("one", "dpkg-deb is not on the PATH", PATH=self.path("bin"))
        self.script("old/python3", "#!/bin/sh\nexit 3\n")
        self.refuses("one", "the release can't be made, for the reason above",
                     PATH=f"{self.path('old')}:{os.environ['PATH']}")

    def test_nothing_runs_in_the_room(self):
        os.mkdir(self.path("tmp"))
        mounted(self, self.path("tmp"), "64m,noexec")
        status, out, err = self.call("./package", TESTED.program, at="one", TMPDIR=self.path("tmp"))
        said = err.endswith(b": set TMPDIR to a folder where programs may\n")
        self.expect("noexec", (status, out, said), (125, b"", True))

    def test_full_disk(self):
        """What was there stays, and nothing new."""
        os.mkdir(self.path("one/out"))
        mounted(self, self.path("one/out"), "64k")
        self.write("one/out/release/older", "")
        status, out, err = self.call("./package", TESTED.program, at="one")
        said = "ilocfarm: out/release can't be written: free some space, and run ./package again"
        self.expect("full", (status, out, err.decode().splitlines()[-1]), (125, b"", said))
        self.expect("left", files_below(self.path("one/out")), {"release/older"})


RT = """#!/bin/sh
[ "$1" != version ] || { echo kit 1; exit; }
[ ! -e "$TEST/fails" ] || exit 6
mkdir -p crates/ilocfarm/out && cp "$TEST/ilocfarm" crates/ilocfarm/out/ilocfarm
cat "$TEST/says"
"""
SAYS = """== low
logic=proved functions=3 sum=x
rt: low proved
== high: its tests
logic=proved functions=99 sum=x
rt: high is kept: an earlier run on this machine proved the same files
== ilocfarm
logic=proved functions=2 sum=x
rt: ilocfarm proved
1 passed, 0 failed
"""
PROVED = """toolchain kit 1
proved low 3
kept high
proved ilocfarm 2
A line `proved` has a crate and how many of its functions this build proved, `kept` one that the
toolchain had proved before, with the same files. To do it again, in a clone of the repository:
git checkout {} && ./package
"""


class Built(Clones):
    """Without a program it builds one first, here by a stand-in for the toolchain's rt."""
    def setUp(self):
        super().setUp()
        self.script("bin/rt", RT)
        self.write("says", SAYS)
        shutil.copy2(TESTED.program, self.path("ilocfarm"))
        self.write("one/crates.txt", "ilocfarm may_wait=1: high\nhigh: low clap\nlow:\nhigh_tests: high\n")
        for name in ("low", "high", "ilocfarm", "high_tests"):
            self.write(f"one/crates/{name}/src/lib.rt", "\n")
        self.commits("one")
        self.environment |= {"PATH": f"{self.path('bin')}:{os.environ['PATH']}", "TEST": self.folder}

    def ends(self, *words):
        """Status, and the last line, but where it is that of success what ./build said."""
        status, _, err = self.call("./package", *words, at="one")
        said = [line for line in err.decode().splitlines() if line.startswith("ilocfarm: ")]
        return status, said[0 if status == 0 else -1]

    def test_builds(self):
        """PROVENANCE has what the build said; the packages are those of the program that was built."""
        self.expect("built", self.ends(), (0, "ilocfarm: out/ilocfarm is proved and built, and ./ilocfarm runs it"))
        made = self.made("one")
        self.expect("PROVENANCE", PROVED.format(self.commit) in made["PROVENANCE"].decode(), True)
        self.expect("again", self.ends(), (0, "ilocfarm: out/ilocfarm is proved and built already"))
        self.expect("the same", digests(self.made("one")), digests(made))
        self.expect("given", self.ends("out/ilocfarm")[0], 0)
        self.expect("the same", [self.made("one")[name] == made[name] for name in self.names()], [True, True])

    def test_says_nothing_unknown(self):
        """A log that lacks a crate isn't that of the program."""
        self.write("says", SAYS.replace("== low", "== lower"))
        said = "ilocfarm: out/build.log doesn't say what was proved: remove out/built, and run ./package again"
        self.expect("a crate is missing", self.ends(), (125, said))
        os.remove(self.path("one/out/build.log"))
        self.expect("no log", self.ends(), (125, said))
        self.expect("nothing", os.path.exists(self.path("one/out/release")), False)

    def test_fails(self):
        self.write("fails", "")
        said = "ilocfarm: not proved, so not built: out/build.log has what rt said"
        self.expect("not proved", self.ends(), (125, said))
        self.expect("nothing", os.path.exists(self.path("one/out/release")), False)
