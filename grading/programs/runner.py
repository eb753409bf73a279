"""Runs students' programs on tasks within limits: what they print, or why there is nothing to judge."""
import io
import itertools
import os
import queue
import select
import shutil
import signal
import subprocess
import tarfile
import tempfile
import threading
import time
from contextlib import contextmanager
from functools import partial

import judge
from handins.folder import MOST_BYTES
from judge import CannotGrade
from marks import NoRows
from programs.usage import seconds_of_scope, used
from programs.walls import Bubblewrap, NoWalls
from words import shown

VARIABLES = ["PATH=/usr/local/bin:/usr/bin:/bin", "LANG=C.UTF-8", "USER=student"]    # all that walls and programs see
MOST_KEPT = 1 << 26         # bytes of a student's folder, and of each file in it
MOST_WRITTEN = 1 << 24      # of a file that a program writes
SPACE = 1 << 32             # of addresses of a process: to reserve them is free, and what is used is watched
# Unpacks a student's folder from standard input, and runs the words after a task's path on it; or on nothing,
# and then packs the folder. A line before all that is printed says that it began, and another that there is a program.
UNPACK = """echo; tar xf - --no-same-owner --no-overwrite-dir 2>/dev/null
case $1 in */*) [ -e "$1" ] ;; *) command -v "$1" >/dev/null ;; esac || exit 127
echo; """
MARKS = 2           # bytes of these lines
RUN = f'{UNPACK}rm -rf task.iloc; cp "$0" task.iloc && exec prlimit --fsize={MOST_WRITTEN} "$@" <"$0"'
BUILD = f'{UNPACK}prlimit --fsize={MOST_WRITTEN} "$@" </dev/null >&2 && exec tar cf - .'
SECONDS = 60        # for reading a student's folder
LINES = 10          # of standard error that are shown, after the first
NEEDED = "Debian's package bubblewrap, 0.8 or later, has to be installed and allowed, or see --unconfined"
PACKAGES = {"coreutils": "cat chmod env rm test timeout", "dash": "sh", "findutils": "find", "libc-bin": "getent",
            "tar": "tar", "util-linux": "prlimit setpriv taskset"}      # of Debian, with their commands
LOOKED = "Memory was looked at ten times a second, and not bounded exactly, since systemd-run doesn't work here."
STEP = 0.1              # seconds from one look at what is used to the next
PATIENCE = 4            # times as long by the clock for what starved
STARVED = 0.1           # of the time that a program has, what it may wait for the processor
MOST_ERRORS = 1 << 24   # bytes of standard error


class Run:
    """A run: its status, or the failure for which it was stopped, what it printed, and how long it computed. It has
    begun where its script ran, and there is a program where the script found one. It starved where the clock ended it
    while it waited for the processor, or where it was killed, as the kernel does to any where memory is wanting."""

    def __init__(self, words, runner, most, patience, **how):
        self.most, self.asked, self.walls, self.patience = most, runner.asked, runner.walls, patience
        self.status, self.failure, self.output, self.errors = None, None, bytearray(), bytearray()
        self.is_starved = False
        self.seconds, self.ready, self.times, pipe = 0, 0, {}, subprocess.PIPE      # ready: in which it could run
        self.begun = self.looked = time.monotonic()
        self.process = subprocess.Popen(words, stdout=pipe, stderr=pipe, start_new_session=True, **how)
        self.ending = os.pidfd_open(self.process.pid)
        with self.process.stdout, self.process.stderr:
            try:
                self.wait()
            finally:        # ends what is left of it
                os.close(self.ending)
                os.killpg(self.process.pid, signal.SIGKILL)
                _, status, usage = os.wait4(self.process.pid, 0)
                self.process.returncode = os.waitstatus_to_exitcode(status)
        if not self.failure:        # bubblewrap may end before it is told what its processes have used
            self.status, self.seconds = self.process.returncode, max(self.seconds, usage.ru_utime + usage.ru_stime)
            self.failure = self.late()
            self.is_starved = self.seconds < self.asked.time and self.status in (-signal.SIGKILL, 128 + signal.SIGKILL)
        self.has_begun, self.is_there = (len(self.output) >= lines for lines in range(1, MARKS + 1))
        del self.output[:MARKS]

    def wait(self):
        """Waits until it has ended or has to be stopped, and takes what it prints."""
        printed = {self.process.stdout.fileno(): self.output, self.process.stderr.fileno(): self.errors}
        poll, found = select.poll(), set()
        for number in (self.ending, *printed):
            poll.register(number, select.POLLIN)
        while found != {self.ending} and not self.failure:
            if judge.stopped.is_set():
                raise KeyboardInterrupt
            found = {number for number, _ in poll.poll(1000 * STEP)}
            for stream in found - {self.ending}:
                piece = os.read(stream, 1 << 16)
                printed[stream] += piece
                if not piece:
                    poll.unregister(stream)
            self.failure = self.fault()

    def late(self):
        """The failure where all its processes together took longer than any of them may."""
        if self.seconds > self.asked.time + 1:
            return NoRows("timeout", f"No answer within {self.asked.time} s of processor time.")

    def fault(self):
        """Why it has to be stopped, or None."""
        if len(self.output) > self.most + MARKS:
            what = "It printed" if self.most < MOST_KEPT else "What the build left has"
            return NoRows("crashed", f"{what} more than {self.most >> 20} MiB.")
        if len(self.errors) > MOST_ERRORS:
            return NoRows("crashed", f"It printed more than {MOST_ERRORS >> 20} MiB of errors.")
        passed, limit = time.monotonic() - self.looked, self.asked.time
        if passed < STEP:
            return None
        self.looked += passed
        most, top = self.asked.memory << 20, self.walls.top or self.process.pid
        seconds, memory, is_ready = used(top, self.walls.sizes, most, self.times)
        self.seconds = max(self.seconds, seconds, seconds_of_scope(self.process.pid))
        self.ready += passed * is_ready
        if memory > most:
            return NoRows("crashed", f"It used more than {self.asked.memory} MiB.")
        clock = self.looked - self.begun
        if clock <= self.patience * (2 * limit + 1):
            return self.late()
        self.is_starved = self.seconds < limit and self.ready - self.seconds > STARVED * limit
        return NoRows("timeout", f"No answer within {clock:.0f} s, in which it computed for {self.seconds:.1f} s.")


def pack(folder, made):
    """The same of files that have other names here, or are in archives."""
    with tarfile.open(fileobj=made, mode="w") as archive:
        for path, data in folder.files():
            about = tarfile.TarInfo(path)
            about.size, about.mode = len(data), 0o755
            archive.addfile(about, io.BytesIO(data))
            if made.tell() > MOST_KEPT:
                raise NoRows("refused", f"The folder has more than {MOST_KEPT >> 20} MiB.")
    made.flush()


def archive(folder, made):
    """Packs a student's folder into a file, by `tar`: it follows no link, also none that appears meanwhile."""
    if folder.is_packed():
        return pack(folder, made)
    limits = ["prlimit", f"--fsize={MOST_KEPT}", "timeout", f"{SECONDS}"]
    words = [*limits, "tar", "cf", "-", "--ignore-failed-read", "-C", f"/proc/self/fd/{folder.number}", "."]
    done = subprocess.run(words, stdin=subprocess.DEVNULL, stdout=made, stderr=subprocess.DEVNULL,
                          pass_fds=[folder.number])
    if done.returncode not in (0, 1):       # 1: something changed meanwhile
        raise NoRows("refused", f"The folder has more than {MOST_KEPT >> 20} MiB, or can't be read in {SECONDS} s.")


def said_in(errors, home):
    """The first and the last lines of standard error, without the folder's name."""
    text = errors.decode("utf-8", "replace").replace(f"{home}/", "")
    lines = [shown(line, 120) for line in text.splitlines() if line.strip()]
    return lines if len(lines) <= LINES + 1 else [lines[0], "..", *lines[-LINES:]]


def why_not(ended, home):
    """Why a run came to nothing, in the words of what refused it; or nothing where it went well."""
    if ended.status == 0:
        return ""
    said = ended.failure.lines if ended.failure else said_in(ended.errors, home)
    return " ".join(said) or f"status {ended.status}"


class Runner:
    """How programs are run on this machine, as tried once."""

    def __init__(self, asked, hidden):
        self.asked, self.cores, self.turn = asked, queue.Queue(), threading.Lock()
        self.jobs, is_root = 1 if asked.unconfined else asked.jobs, os.geteuid() == 0
        for _, core in zip(range(self.jobs), itertools.cycle(sorted(os.sched_getaffinity(0)))):
            self.cores.put(core)
        for package, name in ((package, name) for package, names in PACKAGES.items() for name in names.split()):
            if not shutil.which(name):
                raise CannotGrade(f"programs can't be run: {name} is not on the PATH (Debian: {package})")
        scope = ["systemd-run", *["--user"] * (not is_root), "--scope", "--quiet", "--collect",
                 f"-pMemoryMax={asked.memory}M", "-pMemorySwapMax=0", f"-pTasksMax={asked.processes + 16}"]
        for walls in [NoWalls] if asked.unconfined else [Bubblewrap, *[NoWalls] * bool(asked.gradescope and is_root)]:
            self.scope, self.walls = scope * bool(shutil.which(scope[0])), walls(asked, hidden)
            why = self.refusal() or self.walls.reached()
            if not why:
                return
        raise CannotGrade(f"programs can't be run apart: {why}: {NEEDED}")

    @property
    def warning(self):
        """What is to be said beside the marks."""
        return " ".join(filter(None, (self.walls.warning, LOOKED * (not self.scope))))

    def run(self, *asked):
        """How a command in a student's folder ends, and the folder's name; without the scope from when it fails on.
        What starved runs once more, alone."""
        scope = self.scope      # which bounds memory exactly, where it works
        ended, home = self.run_in(scope, 1, *asked)
        if scope and not ended.has_begun and not ended.is_starved:
            self.scope = []
            ended, home = self.run_in([], 1, *asked)
        return self.run_in(self.scope, PATIENCE, *asked) if ended.is_starved else (ended, home)

    def run_in(self, scope, patience, command, archive, task):
        """The same in a scope, on a core of its own while others run, or on the only one in use. It builds where there
        is no task."""
        script, most = (BUILD, MOST_KEPT) if task is None else (RUN, MOST_BYTES)
        with self.turn:
            cores = [self.cores.get() for _ in range(1 if patience == 1 else self.jobs)]
        seconds, processes = self.asked.time, self.asked.processes + self.walls.others
        # With a limit on cores that isn't 1 byte, the host may start a program of its own for one.
        limits = ["prlimit", f"--cpu={seconds}:{seconds + 1}", f"--as={SPACE}", f"--nproc={processes}",
                  f"--fsize={MOST_KEPT}", "--nofile=256", "--core=1", "--memlock=0", "--msgqueue=0"]
        try:
            # A program could write to a file that it is handed, so it gets a pipe.
            with self.walls.start(task or b"") as (words, how, home, given), \
                    open(f"/proc/self/fd/{archive.fileno()}", "rb") as packed, \
                    subprocess.Popen(["cat"], stdin=packed, stdout=subprocess.PIPE) as piped:
                before = [*scope, "taskset", "-c", f"{cores[0]}", "env", "-i", *VARIABLES, f"HOME={home}", *words]
                words = [*before, *limits, "sh", "-c", script, given, *command]
                return Run(words, self, most, patience, stdin=piped.stdout, **how), home
        finally:
            for core in cores:
                self.cores.put(core)

    def refusal(self):
        """Why nothing can be run, in the words of what refuses it."""
        with tempfile.TemporaryFile() as nothing:
            return why_not(*self.run(["true"], nothing, b""))

    @contextmanager
    def reading(self, folder):
        """A call that gives what a student's program prints of a task, nothing to say of it, and its seconds."""
        with tempfile.TemporaryFile() as packed, tempfile.TemporaryFile() as built:
            archive(folder, packed)
            if self.asked.build:
                built.write(self.ended(folder, self.asked.build, packed, None).output)
                built.flush()
            yield partial(self.printed, folder, built if self.asked.build else packed)

    def printed(self, folder, archive, task):
        words = [word.replace("{task}", "task.iloc") for word in self.asked.program]
        ended = self.ended(folder, words, archive, task.path.read_bytes())
        return ended.output, [], [], round(ended.seconds, 2)

    def ended(self, folder, command, *asked):
        """A run that ended with status 0, or the failure of any other."""
        ended, home = self.run(command, *asked)
        if not ended.has_begun:
            raise CannotGrade(f"programs can't be run apart: {why_not(ended, home)}")
        if ended.failure:
            raise ended.failure
        if ended.status == 0:
            return ended
        number = -ended.status if ended.status < 0 else ended.status - 128
        if not ended.is_there and ended.status == 127:
            raise NoRows("missing", f"There is no program {shown(command[0])}; there is {folder.names()}.")
        if number == signal.SIGXCPU or number == signal.SIGKILL and ended.seconds >= self.asked.time:
            raise NoRows("timeout", f"No answer within {self.asked.time} s of processor time.")
        how = f"signal {number}" if 0 < number < 65 else f"status {ended.status}"
        if number == signal.SIGKILL and self.scope:
            how += f", as what uses more than {self.asked.memory} MiB does"
        lines = [f"  {line}" for line in said_in(ended.errors, home)]
        raise NoRows("crashed", f"It ended with {how}{':' if lines else '.'}", *lines)
