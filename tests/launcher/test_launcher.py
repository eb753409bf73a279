"""./ilocfarm, ./build and ./install in a small repository, with a stand-in for the toolchain's rt."""
import os
import re
import shutil
import signal
import subprocess
from pathlib import Path

from harness.place import InFolder, crates_of, until
from harness.program import SECONDS, TOP
from harness.terminal import terminal

TOOLS = ("awk cat chmod cmp cp find flock grep head mkdir mkfifo mktemp mv nproc readlink rm sed setpriv sh sleep tail "
         "tar tee wc").split()
ENDING = (signal.SIGHUP, signal.SIGINT, signal.SIGTERM)
# It fails with what the file `says` has, and doesn't end where there is a file `hold`. As `rt try` it answers with its
# words and its input; as `rt ci` it makes a program that does, and prints the number of its build too; `low` it has
# kept. Where there is a file `kills`, memory is too short for any number of jobs that it is told.
RT = """#!/bin/sh
[ "$1" != version ] || exec cat "$TEST/kit"
echo "$1" >>"$TEST/asked"
echo "$1 ${RT_JOBS-none}" >>"$TEST/jobs"
[ ! -e "$TEST/hold" ] || { echo $$ >"$TEST/child"; exec sleep 600; }
while [ -e "$TEST/slow" ]; do sleep 0.02; done
[ ! -e "$TEST/kills" ] || [ -z "${RT_JOBS-}" ] || { echo "the check was killed, most likely for memory"; exit 1; }
[ ! -e "$TEST/says" ] || { cat "$TEST/says" >&2; exit 6; }
if [ "$1" = try ]; then
    shift 2
    echo "unproved: $*: $(cat)"
    echo "ilocfarm: a word" >&2
    printf 'checked: ended status=7\\nraces: not looked for\\nrun=ended status=7 runners=1 proved=no\\n' >&2
    exit 7
fi
sed 's/[ :].*//; /^#/d' crates.txt | tee "$TEST/proved" |
    sed 's/.*/== &\\nlogic=proved\\nrt: & proved/; s/rt: low proved/rt: low is kept: as before/'
mkdir -p crates/ilocfarm/out
printf '#!/bin/sh\\necho "build %s: $*: $(cat)"\\nexit 7\\n' "$(grep -c ci "$TEST/asked")" >crates/ilocfarm/out/ilocfarm
chmod +x crates/ilocfarm/out/ilocfarm
echo '3 passed, 0 failed'
"""
CRATES = "# what each uses\nilocfarm may_wait=1: high # last\nlow: clap\nhigh: low thiserror\nhigh_tests: high\n"
ADVICE = (r"\./build proves and builds the program, once, in some \d+ minutes here"
          r"(?:, or \d+ with \d+ GB of memory free)?")
NOT_PROVED = "ilocfarm: not proved, so not built: out/build.log has what rt said"
OTHERWISE = "ilocfarm: {} isn't as it was when the program was built\n"
COPIED = "ilocfarm: this is a copy: only where the program was built is it known to match the sources\n"
UNPROVED = rf"ilocfarm: this answer is of an unproved run, which takes one to four minutes by load\. {ADVICE}\n"
BUILT = "ilocfarm: out/ilocfarm is proved and built, and ./ilocfarm runs it\n"


def is_running(pid):
    try:
        return Path(f"/proc/{pid}/stat").read_text("utf-8").rpartition(")")[2].split()[0] != "Z"
    except (FileNotFoundError, ProcessLookupError):
        return False


class Repository(InFolder):
    def setUp(self):
        super().setUp()
        for number in ENDING:       # also where what runs the tests ignores them
            self.addCleanup(signal.signal, number, signal.signal(number, signal.SIG_DFL))
        self.top = f"{self.folder}/a copy"
        for name in ("bin", "tools", "tmp", "a copy"):
            os.mkdir(f"{self.folder}/{name}")
        for name in TOOLS:
            os.symlink(shutil.which(name), f"{self.folder}/tools/{name}")
        for name in ("ilocfarm", "build", "launcher.sh", "HANDLES"):
            shutil.copy2(f"{TOP}/{name}", self.top)
        self.write("KIT-ID", "kit 1\n")
        self.script("bin/rt", RT)
        self.with_crates(CRATES)

    def with_crates(self, text):
        self.write(f"{self.top}/crates.txt", text)
        for name in [line.replace(":", " ").split()[0] for line in text.splitlines() if line.partition("#")[0].strip()]:
            for part in ("src/lib.rt", "specs/Lib.antt", "out/rlib"):
                self.write(f"{self.top}/crates/{name}/{part}", "\n")

    def start(self, *words, by="ilocfarm", with_rt=True, **how):
        path = [f"{self.folder}/bin"] * with_rt + [f"{self.folder}/tools"]
        given = {"PATH": ":".join(path), "TEST": self.folder, "TMPDIR": f"{self.folder}/tmp", **how.pop("env", {})}
        return self.process(os.path.join(self.top, by), *words, env=given, **how)

    def ended(self, started, given=None, seconds=SECONDS):
        """Its status and what it wrote, once nothing of it is left among the temporary files."""
        out, err = started.communicate(given, timeout=seconds)
        self.assertEqual(os.listdir(f"{self.folder}/tmp"), [])
        return started.returncode, out, err

    def ran(self, *words, given="", **how):
        return self.ended(self.start(*words, **how), given if "stdin" not in how else None)

    def builds(self, number, *words):
        status, out, err = self.ran(*words, by="build")
        self.assertEqual((status, err), (0, BUILT))
        self.assertEqual(self.ran("run", "--at", "4 5", given="text"), (7, f"build {number}: run --at 4 5: text\n", ""))
        return out

    def answers_unproved(self, why="", **how):
        status, out, err = self.ran("run", "--at", "4 5", given="text", **how)
        self.assertEqual((status, out), (7, "unproved: run --at 4 5: text\n"))
        self.assertRegex(err, rf"\A{why}{UNPROVED}ilocfarm: a word\n\Z")

    def with_memory_for(self, each):
        """Has as many processors as share the free memory by so many GB each, and returns how many."""
        free = int(re.search(r"^MemAvailable: +(\d+)", Path("/proc/meminfo").read_text("ascii"), re.MULTILINE)[1])
        count = max(1, int(free * 1024 / 1e9 / each))
        os.remove(f"{self.folder}/tools/nproc")
        self.script("tools/nproc", f"#!/bin/sh\necho {count}\n")
        return count

    def fails(self, why, *words, **how):
        """No answer, status 125, and as the last line what to do."""
        status, out, err = self.ran(*words, **how)
        self.assertEqual((status, out), (125, ""))
        self.assertRegex(err, rf"(\A|\n)ilocfarm: {why}\n\Z")

    def has_begun(self, *words, **how):
        """A start in which rt runs, and doesn't end, with the number of its process."""
        self.write("hold", "")
        started = self.start(*words, **how)
        if how.get("by", "ilocfarm") == "ilocfarm":
            started.stdin.close()
            started.stdin = None
        until("rt runs", lambda: os.path.exists(f"{self.folder}/child") and self.text("child"))
        os.remove(f"{self.folder}/hold")
        return started, int(self.text("child"))


class Answers(Repository):
    def test_unproved_until_it_is_built(self):
        self.answers_unproved()
        self.assertEqual(os.listdir(f"{self.top}/crates/ilocfarm"), ["src", "specs", "out"])
        self.assertEqual(self.builds(1), "ilocfarm proved, 1 of 3\nhigh proved, 2 of 3\nlow is kept, 3 of 3\n")
        self.assertEqual(self.ran(by="build"), (0, "", "ilocfarm: out/ilocfarm is proved and built already\n"))

    def test_unproved_where_anything_changed(self):
        def in_place(path):
            with open(path, "r+b") as file:
                file.write(b"\t")

        def replaced(path):
            shutil.copy2(path, f"{path}.new")
            os.replace(f"{path}.new", path)

        changes = [(in_place, "crates.txt"), (in_place, "HANDLES"), (in_place, "crates/low/src/lib.rt"),
                   (replaced, "crates/low/specs/Lib.antt"), (os.remove, "crates/high/specs/Lib.antt"),
                   (in_place, "out/ilocfarm"), (os.remove, "out/ilocfarm"), (in_place, "../KIT-ID"),
                   (os.remove, "../KIT-ID")]
        self.write("kit", "kit 1")
        for number, (change, name) in enumerate(changes, 1):
            with self.subTest(f"{change.__name__} {name}"):
                self.builds(number)
                path = f"{self.top}/{name}"
                times = os.stat(path)
                change(path)
                if os.path.exists(path):
                    os.utime(path, ns=(times.st_atime_ns, times.st_mtime_ns))
                self.answers_unproved(OTHERWISE.format("the toolchain" if name == "../KIT-ID" else name))
        with self.subTest("a toolchain that has no file KIT-ID"):
            self.builds(len(changes) + 1)
            self.write("kit", "kit 2")
            self.answers_unproved(OTHERWISE.format("the toolchain"))

    def test_unproved_in_a_copy(self):
        self.builds(1)
        shutil.copytree(self.top, f"{self.folder}/other", symlinks=True)
        self.answers_unproved(COPIED, by=f"{self.folder}/other/ilocfarm")

    def test_unproved_after_a_change_in_mid_build(self):
        self.write("slow", "")
        started = self.start(by="build")
        until("it builds", lambda: os.path.exists(f"{self.folder}/asked"))
        self.write(f"{self.top}/crates/low/src/lib.rt", "\n\n")
        os.remove(f"{self.folder}/slow")
        status, _, err = self.ended(started)
        said = "ilocfarm: a source changed meanwhile, or the disk is full: look, and run ./build again\n"
        self.assertEqual((status, err), (125, said))
        self.answers_unproved()

    def test_jobs_by_memory(self):
        """Where each processor has 2.5 GB, but less than rt plans for, each gets a crate; else rt chooses."""
        for each, is_told in ((1.2, False), (3.5, True), (9, False)):
            with self.subTest(f"{each} GB a processor"):
                count = self.with_memory_for(each)
                status, _, err = self.ran(by="ilocfarm")
                minutes = 22 + 80 // count if each > 2.5 else "\\d+"
                also = rf", or {22 + 80 // count} with {count * 5 // 2 + 1} GB of memory free" if each < 2.5 else ""
                self.assertRegex(err, rf"in some {minutes} minutes here{also}\n")
                self.ran(by="build")
                self.assertEqual(self.text("jobs").splitlines()[-1], f"ci {count if is_told else 'none'}")
                os.remove(f"{self.top}/out/built")
        with self.subTest("whoever sets RT_JOBS"):
            self.with_memory_for(3.5)
            self.ran(by="build", env={"RT_JOBS": "1"})
            self.assertEqual(self.text("jobs").splitlines()[-1], "ci 1")

    def test_memory_runs_short(self):
        """A check that is killed is tried again with as many side by side as rt chooses."""
        self.write("kills", "")
        count = self.with_memory_for(3.5)
        status, out, err = self.ran(by="build")
        short = "ilocfarm: memory was short: once more, with fewer crates side by side\n"
        self.assertEqual((status, err), (0, short + BUILT))
        self.assertEqual(self.text("jobs"), f"ci {count}\nci none\n")
        self.assertIn("check was killed", self.text(f"{self.top}/out/build.log"))
        os.remove(f"{self.top}/out/built")
        status, _, err = self.ran(by="build", env={"RT_JOBS": "2"})
        killed = "a check was killed, most likely since memory was short: free some, or try RT_JOBS=1 ./build"
        self.assertEqual((status, err), (125, f"{NOT_PROVED}\nilocfarm: {killed}\n"))

    def test_in_place_for_the_gate(self):
        out = self.builds(1, "--all")
        self.assertEqual(out.splitlines()[-1], "3 passed, 0 failed")
        self.assertEqual(self.text("proved"), "ilocfarm\nlow\nhigh\nhigh_tests\n")
        self.assertEqual(self.text(f"{self.top}/out/build.log"), out)

    def test_crates_of_the_repository(self):
        self.with_crates(self.text(f"{TOP}/crates.txt"))
        self.builds(1)
        self.assertEqual(sorted(self.text("proved").split()), sorted(crates_of("ilocfarm")))

    def test_by_links(self):
        os.symlink("../a copy/ilocfarm", f"{self.folder}/bin/near")
        os.symlink(f"{self.folder}/bin/near", f"{self.folder}/far")
        self.builds(1)
        for by in ("bin/near", "far"):
            self.assertEqual(self.ran("run", given="text", by=f"{self.folder}/{by}"), (7, "build 1: run: text\n", ""))

    def test_paths_are_the_callers(self):
        """A relative path of an option leads from the caller's folder, whether the program is built or not."""
        os.mkdir(f"{self.folder}/at home")
        for words, made in ((["check", "--task", "a b"], f"check --task {self.folder}/at home/a b"),
                            (["check", "--task=../b", "3"], f"check --task={self.folder}/at home/../b 3"),
                            (["check", "--task", "/c", "--csv"], "check --task /c --csv"),
                            (["check", "--task=/c"], "check --task=/c"),
                            (["counts", "--priorities", "a b"], f"counts --priorities {self.folder}/at home/a b"),
                            (["counts", "--priorities=a=b"], f"counts --priorities={self.folder}/at home/a=b"),
                            (["counts", "--priorities", "/c"], "counts --priorities /c"),
                            (["check", "--task", "--csv"], "check --task --csv"),
                            (["check", "--task"], "check --task")):
            with self.subTest(words):
                _, out, _ = self.ran(*words, cwd=f"{self.folder}/at home")
                self.assertEqual(out, f"unproved: {made}: \n")
        self.script("bin/rt", RT.replace('"build %s: $*: $(cat)', '"build %s: $*: $(pwd)'))
        self.assertEqual(self.ran(by="build")[0], 0)
        self.assertEqual(self.ran("--task", "b", cwd=f"{self.folder}/at home"),
                         (7, f"build 1: --task b: {self.folder}/at home\n", ""))

    def test_any_input_for_the_program(self):
        self.builds(1)
        folder = os.open(self.folder, os.O_RDONLY)
        self.addCleanup(os.close, folder)
        self.assertEqual(self.ran("run", stdin=folder), (7, "build 1: run: \n", "cat: -: Is a directory\n"))

    def test_terminal(self):
        for words, told in ((["run"], "blocks"), (["check"], "blocks and rows"), (["check", "--task", "/t"], "rows"),
                            (["explain", "--task=/t"], "rows"), (["run", "--help"], ""),
                            (["check", "-h", "--task=/t"], ""), (["-h"], ""),
                            ([], ""), (["--version"], ""), (["-V"], ""), (["help", "run"], "")):
            with self.subTest(words), terminal() as (screen, slave):
                started = self.start(*words, stdin=slave)
                os.write(screen.master, b"text\n\x04")
                _, out, err = self.ended(started)
                reads = f"ilocfarm: reading {told} from the terminal; Ctrl-D on a line of its own ends them\n"
                self.assertEqual("".join(line for line in err.splitlines(True) if "reading" in line),
                                 reads if told else "")
                self.assertEqual(out == f"unproved: {' '.join(words)}: text\n", bool(told))
        self.builds(1)
        with self.subTest("the program says it itself"), terminal() as (screen, slave):
            started = self.start("run", stdin=slave)
            os.write(screen.master, b"text\n\x04")
            self.assertEqual(self.ended(started), (7, "build 1: run: text\n", ""))

    def test_two_at_once(self):
        started = [self.start("run") for _ in range(2)]
        for each in started:
            self.assertEqual(each.communicate("text", timeout=SECONDS)[0], "unproved: run: text\n")
        self.write("slow", "")
        first = self.start(by="build")
        until("it builds", lambda: "ci" in self.text("asked"))
        second = self.start(by="build")
        self.assertEqual(second.stderr.readline(), "ilocfarm: waiting for another ./build here\n")
        os.remove(f"{self.folder}/slow")
        self.assertEqual([each.communicate(timeout=SECONDS)[1] for each in (first, second)],
                         [BUILT, "ilocfarm: out/ilocfarm is proved and built already\n"])

    def test_install_builds(self):
        """It builds first; the stand-in has no help for a manual, so nothing is installed."""
        for name in ("man", "charts", "cluster", "docs", "examples", "grading", "CHANGELOG.md", "README.md"):
            os.symlink(f"{TOP}/{name}", f"{self.top}/{name}")
        shutil.copy2(f"{TOP}/install", self.top)
        status, _, err = self.ran(f"{self.folder}/prefix", by="install",
                                  env={"PATH": f"{self.folder}/bin:{os.environ['PATH']}"})
        self.assertEqual((status, BUILT in err, os.path.exists(f"{self.folder}/prefix")), (1, True, False))


class Fails(Repository):
    def test_without_the_toolchain(self):
        self.fails("no proved program is here, and the toolchain's command rt is not on the PATH: add its folder, or "
                   "install a release, as docs/INSTALL.md says", "run", with_rt=False)
        self.fails("the toolchain's command rt is not on the PATH: add its folder", by="build", with_rt=False)
        self.builds(1)
        self.assertEqual(self.ran("run", given="text", with_rt=False), (7, "build 1: run: text\n", ""))

    def test_no_answer(self):
        says = {"checked: no-answer: the program did not end within the time limit\nrun=no-answer proved=no\n":
                f"no answer: an unproved run has a minute and writes at most 1 MiB\\. {ADVICE}, without these limits",
                "src/main.rt:1:1: error[x]: y\nrun=none proved=no\n":
                "no answer: the unproved run failed, as rt says above",
                "": "no answer: the unproved run failed, as rt says above"}
        for said, why in says.items():
            with self.subTest(said):
                self.write("says", said)
                self.fails(why, "run")

    def test_not_proved(self):
        self.builds(1)
        self.write(f"{self.top}/crates/low/src/lib.rt", "\n\n")
        self.write("says", "rt: low NOT PROVED\n")
        for words in ((), ("--all",)):
            status, out, err = self.ran(*words, by="build")
            self.assertEqual((status, err), (125, f"{NOT_PROVED}\n"))
            self.assertRegex(out, r"\A(low NOT PROVED, 1 of 3|rt: low NOT PROVED)\n\Z")
        os.remove(f"{self.folder}/says")
        self.answers_unproved(OTHERWISE.format("crates/low/src/lib.rt"))

    def test_input(self):
        folder = os.open(self.folder, os.O_RDONLY)
        self.addCleanup(os.close, folder)
        why = r"standard input can't be read and kept: .*{}.* Give blocks, as in ./ilocfarm run < FILE"
        self.fails(why.format("Is a directory"), "run", stdin=folder)
        self.script("closing", f'#!/bin/sh\nexec "{self.top}/ilocfarm" "$@" <&-\n')
        self.fails(why.format("Bad file descriptor"), "run", by=f"{self.folder}/closing")
        with open(f"{self.folder}/large", "wb+") as large:
            large.truncate(64 << 20)
            self.fails(f"an unproved run reads less than 64 MiB\\. {ADVICE}, without this limit", "run", stdin=large)

    def test_output(self):
        with open("/dev/full", "wb") as full:
            status, _, err = self.ran("run", stdin=subprocess.DEVNULL, stdout=full)
        self.assertEqual(status, 125)
        self.assertRegex(err, r"\nilocfarm: standard output can't be written\n\Z")

    def test_no_place_for_files(self):
        nowhere = {"env": {"TMPDIR": f"{self.folder}/nowhere"}}
        why = "no temporary folder can be made: free some space, or set TMPDIR"
        self.fails(why, "run", **nowhere)
        self.fails(why, by="build", **nowhere)
        shutil.rmtree(f"{self.top}/out")
        self.write(f"{self.top}/out", "")
        self.fails(f"{self.top}/out can't be written: make it writable, or build in a copy of the repository",
                   by="build")

    def test_no_repository(self):
        shutil.copy2(f"{self.top}/ilocfarm", self.folder)
        shutil.copy2(f"{self.top}/launcher.sh", self.folder)
        self.fails(f"no crates.txt in {self.folder}: start this in its repository, or by a link to it",
                   by=f"{self.folder}/ilocfarm")

    def test_signals(self):
        advice = {"ilocfarm": ADVICE, "build": "The next ./build proves what rt has not kept"}
        for by, number in [(by, number) for by in advice for number in ENDING]:
            with self.subTest(f"{by} {number.name}"):
                started, child = self.has_begun(by=by)
                started.send_signal(number)
                status, out, err = self.ended(started)
                self.assertEqual((status, out), (125, ""))
                self.assertRegex(err, rf"(\A|\n)ilocfarm: stopped\. {advice[by]}\n\Z")
                self.assertFalse(is_running(child))
                os.remove(f"{self.folder}/child")
        for by in advice:
            with self.subTest(f"{by} killed"):
                started, child = self.has_begun(by=by)
                started.kill()
                until("rt has ended", lambda: not is_running(child))
                os.remove(f"{self.folder}/child")
        shutil.rmtree(f"{self.folder}/tmp")     # nothing can remove what a killed one has there
        os.mkdir(f"{self.folder}/tmp")
        self.builds(self.text("asked").count("ci") + 1)
