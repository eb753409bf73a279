"""How a student's program is started: in bubblewrap or without walls, for root as another user, within limits."""
import ctypes
import os
import random
import shlex
import shutil
import signal
import subprocess
import tempfile
from contextlib import ExitStack, contextmanager
from glob import glob
from pathlib import Path

from programs.usage import children

HERE = os.path.dirname(os.path.realpath(__file__))
OWN_USERS = range(61184, 65520)     # of these systemd takes numbers for services while they run
NO_FILTER = "Programs ran without a filter of system calls, since python3-seccomp isn't installed."
SUBREAPER = 36      # of <linux/prctl.h>
NO_WALLS = "Without walls any program may have falsified marks, and read and written what its user may."


def covered(bound, hidden):
    """The words that hide paths, and any ilocfarm, of what is bound."""
    found = subprocess.run(["find", *bound, "-name", "ilocfarm*", "-prune", "-print0"], capture_output=True).stdout
    paths = {Path(os.path.realpath(path)) for path in [*hidden, *map(os.fsdecode, found.split(b"\0")[:-1])]}
    inner = {path for path in paths if any(Path(folder) in path.parents for folder in bound)}
    for path in sorted(path for path in inner if not inner & {*path.parents}):
        yield from (["--tmpfs", f"{path}", "--remount-ro"] if path.is_dir() else ["--ro-bind", "/dev/null"])
        yield f"{path}"


class Walls:
    """What all have in common. For root, who owns much of /proc, a user whom nobody else is, nor another grading."""
    sizes, warning = {}, ""     # in bytes, by path of a file system in memory; what is said beside the marks
    hidden = ()                 # what programs must not be able to read
    others = 0                  # processes of its user that aren't the run's
    top = None                  # the process below which all of a run is, if not the run's first

    def __init__(self):
        self.number, self.user = None, []
        if os.geteuid() == 0:
            self.number = next(user for user in random.sample(OWN_USERS, 99) if subprocess.call(
                ["getent", "passwd", f"{user}"], stdout=subprocess.DEVNULL))
            user = f"{self.number}"
            self.user = ["setpriv", "--reuid", user, "--regid", user, "--clear-groups", "--inh-caps=-all"]

    def reached(self):
        """What of what is hidden a program could read, or nothing."""
        reads = (path for path in self.hidden if not subprocess.run([*self.user, "test", "-r", path]).returncode)
        return next((f"{path} can be read, which `chmod 700` prevents" for path in reads), "")


class Bubblewrap(Walls):
    """The machine of bubblewrap.words, with the student's folder and a task."""

    def __init__(self, asked, hidden):
        super().__init__()
        self.sizes = {"/work": asked.memory << 20, "/tmp": 1 << 24, "/dev/shm": 1 << 22}
        bound = [folder for folder in map(os.path.realpath, asked.bind) if os.path.exists(folder)]
        words = Path(f"{HERE}/bubblewrap.words").read_text().format(*self.sizes.values())
        seen = [*glob("/bin"), *glob("/sbin"), *glob("/lib*"), *glob("/etc/java-*"), *bound]     # as they are here
        shown = [word for path in seen for word in (
            ("--symlink", os.readlink(path), path) if os.path.islink(path) else ("--ro-bind", path, path))]
        hiding = covered(["/usr", *bound], hidden)
        self.words = [*self.user, shutil.which("bwrap") or "bwrap", *shlex.split(words, comments=True), *shown, *hiding]
        calls = subprocess.run(["env", "/usr/bin/python3", "-I", f"{HERE}/filter.py"], capture_output=True)
        self.filter, self.warning = (b"", NO_FILTER) if calls.returncode else (calls.stdout, "")

    @contextmanager
    def start(self, task):
        """The words before a run, what else starts it, and what the student's folder and the task are called there."""
        with ExitStack() as stack:
            files = [stack.enter_context(tempfile.TemporaryFile()).fileno() for _ in range(3)]
            for number, data in zip(files, (b"student:x:1000:1000::/work:/bin/sh\n", task, self.filter)):
                os.pwrite(number, data, 0)      # each is read from its start
            passwd, given, calls = map(str, files)
            words = [*self.words, "--ro-bind-data", passwd, "/etc/passwd", "--ro-bind-data", given, "/task",
                     "--remount-ro", "/", "--chdir", "/work", *["--seccomp", calls] * bool(self.filter), "--"]
            yield words, {"cwd": "/", "pass_fds": files}, "/work", "/task"


class NoWalls(Walls):
    """A folder on the disk, which goes with the run; and for root all that its user runs. One run at a time: what its
    processes leave behind comes to this one, and so is counted, and ended."""
    others = 4096 * bool(os.geteuid())
    top = os.getpid()

    def __init__(self, asked, hidden):
        super().__init__()
        self.hidden = [] if asked.unconfined else hidden
        self.warning = NO_WALLS * bool(asked.unconfined)        # else it is of one student, who has no neighbour
        ctypes.CDLL(None).prctl(SUBREAPER, 1, 0, 0, 0)

    @contextmanager
    def start(self, task):
        made = tempfile.mkdtemp(prefix="ilocgrade-")
        home, given = f"{made}/home", Path(made, "task")
        try:
            os.mkdir(home)
            given.write_bytes(task)
            if self.user:
                os.chown(home, self.number, self.number)
                os.chmod(made, 0o711)
            words = [*self.user, "setpriv", "--no-new-privs", "env", f"TMPDIR={home}"]
            yield words, {"cwd": home}, home, f"{given}"
        finally:        # the folder isn't walked here: `rm` follows no link, and goes to any depth
            if self.user:
                subprocess.run([*self.user, "sh", "-c", "kill -9 -1"], stderr=subprocess.DEVNULL)
            while left := children("self"):
                for each in left:
                    os.kill(each, signal.SIGKILL)
                    os.waitpid(each, 0)
            for words in ["chmod", "-R", "u+rwx", made], ["rm", "-rf", made]:
                subprocess.run(words, stderr=subprocess.DEVNULL)
