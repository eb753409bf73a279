"""Students' programs that break a limit or attack what is outside of their walls, graded by root and by a user."""
import ctypes
import json
import os
import re
import shlex
import shutil
import signal
import socket
from concurrent.futures import ThreadPoolExecutor
from pathlib import Path

from grading import classes
from grading.test_class import BOTH, Graded
from harness.place import until
from harness.program import TESTED, TOP, needs, needs_bubblewrap

PROGRAM = ("--program", "./schedule")
WARNING = "Without walls any program may have falsified marks, and read and written what its user may."
LOOKED = "Memory was looked at ten times a second, and not bounded exactly, since systemd-run doesn't work here."
# Commands that a grading starts, by Debian's package of those without which there is none.
COMMANDS = {"": "bwrap cc systemd-run", "coreutils": "cat chmod env rm test timeout", "dash": "sh", "tar": "tar",
            "findutils": "find", "libc-bin": "getent", "util-linux": "prlimit setpriv taskset"}
NOBODY = 65534
TO_NOBODY = [shutil.which("setpriv") or "setpriv", "--reuid", f"{NOBODY}", "--regid", f"{NOBODY}", "--clear-groups"]


def groups(name):
    """The words after each `##` in a file of cases, and by name the verdict and the lines of each case below."""
    told = Path(f"{TOP}/tests/grading/{name}.cases").read_text("utf-8")
    for words, text in re.findall(r"^## (.*)\n((?:(?!## ).*\n)*)", told, re.MULTILINE):
        found = re.findall(r"^= (.+?): (\S+): (.*\n(?:(?!= ).*\n)*)", text, re.MULTILINE)
        yield shlex.split(words), {name: case for names, *case in found for name in names.split(", ")}


class Programs(Graded):
    """A class whose students hand in programs, graded by a user."""
    is_root = True

    def setUp(self):
        if self.is_root and os.geteuid():
            self.skipTest("root is needed")
        super().setUp()
        needs("setpriv", "prlimit", "taskset", "unshare", "pgrep", "/usr/bin/python3")
        self.user = [] if self.is_root or os.geteuid() else TO_NOBODY
        self.environment["TMPDIR"] = self.path("open")
        self.addCleanup(self.shell, "rm -rf submissions")       # of any depth
        self.shell("chmod 755 .; mkdir -m 777 open" + f"; chown {NOBODY}:{NOBODY} ." * bool(self.user))
        if self.call(*self.user, "test", "-x", TESTED.program, "-a", "-r", f"{TOP}/grading/ilocgrade")[0]:
            self.skipTest("an ordinary user can't read the repository")

    def hand_in_program(self, name, lines):
        """Hands in a program and right rows, after lines that are run in its folder."""
        self.script(f"submissions/{name}/schedule", "#!/bin/sh\n" + re.sub(r"^\$ .*\n", "", lines, flags=re.MULTILINE))
        self.hand_in(name, self.rows(), "rows")
        for line in re.findall(r"^\$ (.*)", lines, re.MULTILINE):
            self.shell(f"cd 'submissions/{name}'; {line}")

    def path_without(self, name):
        """A PATH of all commands of this machine but one."""
        self.shell(f"rm -rf links; mkdir links; ln -s /usr/bin/* /usr/sbin/* /bin/* links; rm -f links/{name}")
        return f"{self.path('bin')}:{self.path('links')}"

    def left(self):
        """What is left of gradings and their programs, in folders and running."""
        ours = [*os.listdir(self.folder), *os.listdir(self.path("open"))]
        marked = [name for name in (*os.listdir("/tmp"), *os.listdir("/dev/shm")) if "MARK" in name]
        return [name for name in ours if re.match("ilocgrade-|.grades-", name)] + marked, self.is_running("98765")

    def graded(self, due, command=("ilocgrade",)):
        """Grades, of which only the result is said; whoever is lawful has all points, and nobody else any."""
        book = self.grade(*PROGRAM * ("--program" not in command), command=command)
        self.expect("said", self.said.count("\n"), 1)
        self.shell("rm -r grades submissions")
        for name, verdict in due.items():
            got = book[name]["both verdict"]
            points = "10" if got == "lawful" else "0"
            self.expect(name, (got, book[name]["total"]), (got if verdict == "-" else verdict, points))


class ByRoot(Programs):
    def setUp(self):
        super().setUp()
        needs_bubblewrap(self.user)

    def test_limits(self):
        """Who breaks a limit has no points, nobody else has less for it, and nothing is left."""
        core = f"{min(os.sched_getaffinity(0))}"
        for command, due in groups("programs"):
            for name, (_, lines) in due.items():
                self.hand_in_program(name, lines)
            command = [core if word == "CORE" else word for word in command]
            self.graded({name: verdict for name, (verdict, _) in due.items()}, command)
        self.expect("left", self.left(), ([], False))

    def test_commands(self):
        """Without a command programs run all the same, or it is named with its package."""
        self.hand_in_program("right", "cat rows\n")
        for package, name in ((package, name) for package, names in COMMANDS.items() for name in names.split()):
            path, due = self.path_without(name), f"{name} is not on the PATH (Debian: {package})"
            for words in "submissions", "submissions --unconfined", "submissions/right --gradescope json":
                status, *said = self.call(*self.user, "ilocgrade", BOTH, *words.split(), *PROGRAM, PATH=path)
                passes = b"1 of 1 passed" in said[0] or '"score": 10' in self.text("json") if not status else None
                got = status, passes, due in said[1].decode()
                self.expect(f"{name} {words}: {said}", got, (3, None, True) if package else (0, True, False))

    def test_scope(self):
        """Of a scope that fails from now on nothing is left to students: what ran in it runs without."""
        self.script("bin/systemd-run", f"#!/bin/sh\nmkdir {self.folder}/open/scoped || exit 1\n"
                    'while case $1 in -*) ;; *) exec "$@" ;; esac; do shift; done\n')
        self.hand_in_program("right", "cat rows\n")
        self.grade(*PROGRAM)
        self.expect("passed", (self.said.partition(":")[0], LOOKED in self.text("grades/report.html")),
                    ("1 student, 1 task, 1 of 1 passed", True))

    def test_killed(self):
        """What is killed runs once more, alone: others may have taken the memory."""
        self.hand_in_program("right", "sleep 5.98765 && cat rows || kill -9 $$\n")
        begun = self.process(*self.user, "ilocgrade", BOTH, "submissions", *PROGRAM, cwd=self.folder,
                             env=self.environment)
        until("it runs", lambda: self.call("pkill", "-KILL", "-f", "sleep 5.98765")[0] == 0)
        said = begun.communicate(timeout=120)[0]
        self.expect(f"passed: {said}", said.partition(":")[0], "1 student, 1 task, 1 of 1 passed")

    def test_stopped(self):
        """A signal ends it at once, and nothing is left, with walls and without."""
        for name in map(str, range(9)):
            self.hand_in_program(name, "(setsid sleep 98765 &) >&-; sleep 98765\n")
        for number, words in (signal.SIGINT, ()), (signal.SIGTERM, ()), (signal.SIGINT, ("--unconfined",)):
            words = *self.user, "ilocgrade", BOTH, "submissions", *PROGRAM, "--time", "99", *words
            begun = self.process(*words, cwd=self.folder, env=self.environment)
            until("a program runs", lambda: self.is_running("98765"))
            begun.send_signal(number)
            said = begun.communicate(timeout=60)[1].splitlines()
            self.expect(f"ended: {said}", (begun.returncode, said[-1]), (128 + number, "ilocgrade: stopped"))
            self.expect("left", self.left(), ([], False))

    def test_class(self):
        """A class's programs have the marks of the rows that they print, with walls and without."""
        apart = 6 if TESTED.is_short else 1
        for name, *_ in self.class_of(classes.tasks()[::apart], apart):
            self.script(f"submissions/{name}/schedule", '#!/bin/sh\nexec cat "$(sed -n "s,^// ,,p").rows"\n')
        books = [self.grade(*words, tasks="tasks") for words in ((), PROGRAM, (*PROGRAM, "--unconfined"))]
        for line in (line for book in books for line in book.values()):
            for name in [name for name in line if name.endswith(" seconds")]:
                del line[name]
        self.expect("marks", (len(books[0]) > 9, books[1], books[2]), (True, books[0], books[0]))

    def test_attacks(self):
        """What can be reached outside of the walls can't within; an attack that fails there too isn't run."""
        self.hand_in_program("right", f"cat {self.folder}/tools/hello || exit 1; cat rows\n")
        self.shell("mkdir old tools outside; touch old/gradebook.csv tools/hello;"
                   f"cp {TESTED.program} tools/ilocfarm-2; cp {BOTH}/both.iloc outside/task.iloc;"
                   "ln -s ../submissions/right/rows outside/solution")
        has_filter, due = self.call("/usr/bin/python3", "-c", "import seccomp")[0] == 0, {"right": "lawful"}
        values = {"FOLDER": self.folder, "TOP": TOP, "PROGRAM": TESTED.program, "PROCESS": f"{os.getpid()}"}
        with socket.create_server(("127.0.0.1", 0)) as server:
            values["PORT"] = f"{server.getsockname()[1]}"
            (command, attacks), = groups("attacks")
            for name, (kind, lines) in attacks.items():
                lines = re.sub("|".join(values), lambda word: values[word[0]], lines)
                with self.subTest(name):
                    if not has_filter and kind == "call":
                        self.skipTest("python3-seccomp isn't installed")
                    if self.call(*self.user, "sh", "-c", f"cd outside; {{ {lines}}} >../open/said")[0]:
                        self.skipTest("it isn't possible on this machine")
                    link = f"$ ln -s {self.folder}/submissions/right/rows solution\n"
                    self.hand_in_program(name, f"{link}{{ {lines}}} >&2 && cat rows\n")
                    due[name] = "crashed"
            os.remove(self.path("open/reached"))
            self.graded(due, (*command, "--bind", self.path("tools")))
        self.expect("a file outside", os.path.exists(self.path("open/reached")), False)

    def test_changed(self):
        """A folder that a link takes the place of meanwhile leads nowhere."""
        self.write("secret/rows", self.rows())
        names = [f"{number}" for number in range(40)]
        inner = [self.path(f"submissions/{name}/inner").encode() for name in names]
        for name in names:
            self.hand_in_program(name, f"$ mkdir inner; ln -s {self.folder}/secret link\ncat inner/rows\n")
        rename = ctypes.CDLL(None).renameat2
        with ThreadPoolExecutor() as pool:
            graded = pool.submit(self.graded, dict.fromkeys(names, "crashed"))
            while not graded.done():
                for path in inner:
                    rename(-1, path, -1, path.replace(b"inner", b"link"), 2)        # which exchanges them
        graded.result()


class ByUser(ByRoot):
    is_root = False


class Unwalled(Programs):
    """Where bubblewrap is forbidden, and systemd fails, which programs in their places do."""

    def setUp(self):
        super().setUp()
        self.script("bin/bwrap", "#!/bin/sh\necho 'bwrap: forbidden' >&2\nexit 1\n")
        self.script("bin/systemd-run", "#!/bin/sh\nexit 1\n")
        self.hand_in_program("right", "(setsid sleep 98765 &) >&-; cat rows\n")
        self.hand_in_program("fails", "echo $PWD/x >&2; exit 1\n")

    def test_nothing_runs(self):
        self.grade(*PROGRAM, status=3)
        self.expect("said", self.said, "ilocgrade: programs can't be run apart: bwrap: forbidden: Debian's package "
                    "bubblewrap, 0.8 or later, has to be installed and allowed, or see --unconfined\n")
        self.expect("grades", os.path.exists(self.path("grades")), False)

    def test_unconfined(self):
        """Programs run all the same, and that marks may be false is said wherever there are any."""
        words = (*PROGRAM, "--unconfined", "--memory", "64")
        self.hand_in_program("kills", "kill -9 $$\n")
        self.hand_in_program("says", "yes >&2\n")
        for name in "zipped", "zipped too":
            self.hand_in_program(name, "$ python3 -m zipfile -c x.zip schedule rows; rm schedule rows\ncat rows\n")
        self.hand_in_program("holds", "(python3 -c 'import time\nheld = b\"x\" * (99 << 20), open(\"held\", \"x\")\n"
                             "time.sleep(99)' &)\nuntil [ -e held ]; do sleep 0.1; done; sleep 1; cat rows\n")
        book = self.grade(*words)
        self.expect("said", self.said.splitlines()[-1], f"ilocgrade: {WARNING} {LOOKED}")
        passed = [name for name, line in book.items() if line["both verdict"] == "lawful"]
        self.expect("passed", passed, ["right", "zipped", "zipped too"])
        self.expect("report", WARNING in self.text("grades/report.html"), True)
        self.expect("feedback", [self.feedback(name)[-1] for name in ("kills", "says", "holds")], [
            "  It ended with signal 9.", "  It printed more than 16 MiB of errors.", "  It used more than 64 MiB."])
        self.expect("feedback", self.feedback("fails")[-2:], ["  It ended with status 1:", "    x"])
        self.call("ilocgrade", BOTH, "submissions/right", *words, "--gradescope", "results.json")
        self.expect("results", WARNING in self.text("results.json"), True)
        self.expect("left", self.left(), ([], False))

    def test_in_a_container(self):
        """For Gradescope root runs one student's program all the same, as a user who can't read what is secret."""
        self.shell(f"cp -rL {BOTH} secret; cp {TESTED.program} secret/ilocfarm")
        lines = f"(setsid sleep 98765 &) >&-; id -u >&2; cat {self.folder}/secret/* || cat rows\n"
        self.hand_in_program("right", lines)
        words = "ilocgrade", "secret", "submissions/right", *PROGRAM, "--ilocfarm", "secret/ilocfarm"
        words += "--gradescope", "secret/results.json"
        status, _, said = self.call(*words)
        self.expect("not hidden", (status, b"secret can be read, which `chmod 700` prevents" in said), (3, True))
        self.shell("chmod 700 secret submissions")
        self.expect("status", self.call(*words), (0, b"", f"ilocgrade: {LOOKED}\n".encode()))
        made = json.loads(self.read("secret/results.json"))
        self.expect("score", (made["score"], made["output"]), (10, "1 of 1 tasks passed."))
        self.expect("left running", self.is_running("98765"), False)

    def test_autograder(self):
        """Gradescope's autograder with --program, in a container without systemd."""
        self.shell("sed 's,--gradescope,--program ./schedule &,' grading/gradescope/run_autograder > run; chmod +x run;"
                   f"rm bin/systemd-run; cp --remove-destination {TESTED.program} bin; mkdir -p auto/source/ilocfarm;"
                   f"mv bin $_; cp -rL {BOTH} auto/source/tasks; mv submissions/right auto/submission")
        path = f"{self.path_without('systemd-run')}:{self.path('auto')}"
        self.expect("status", self.call("./run", AUTOGRADER=self.path("auto"), PATH=path)[:2], (0, b""))
        self.expect("score", json.loads(self.read("auto/results/results.json"))["score"], 10)


class UnwalledByUser(Unwalled):
    is_root, test_in_a_container, test_autograder = False, None, None
