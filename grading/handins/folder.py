"""A student's folder and archives in it: nothing outside is read, whatever is in it and becomes of it meanwhile."""
import errno
import json
import os
import re
import shutil
import stat
import subprocess
import sys
import tempfile
from contextlib import ExitStack, contextmanager, suppress
from functools import cached_property
from glob import glob
from itertools import accumulate, islice
from pathlib import Path
from threading import Lock

import judge
from handins import unpack
from handins.unpack import MOST_NAMES, MOST_PACKED
from judge import CannotGrade
from marks import NoRows
from words import key_of, shown

MOST_BYTES = 1 << 20        # of a file, and of what a program prints
DEPTH = 2                   # of folders in a student's that are looked into
ENDINGS = (".zip", ".tar", ".tar.gz", ".tgz", ".tar.bz2")
META = {"__MACOSX", ".git", ".github", ".DS_Store", "Thumbs.db", "desktop.ini", "submission_metadata.yml"}
AGAIN = re.compile(r" ?\(\d{1,3}\)(?=\.|$)")        # how browsers name what was downloaded before
# Errors that are no student's.
OURS = (errno.ENFILE, errno.EMFILE, errno.ENOMEM, errno.EIO, errno.ENOSPC, errno.EDQUOT)
LOCK = Lock()       # who has it may have something unpacked
STRANGE = {errno.ELOOP: "It is a link", errno.ENXIO: "It is no regular file", errno.ENOTDIR: "The folder is a link"}


def is_meta(path):
    """Whether a system or a program keeps something of its own there."""
    return any(part in META or part.startswith("._") for part in path.split("/"))


def unpacked_apart(given, sizes, made):
    """Writes into a file, by a process of its own, in bubblewrap where that works, what is in archives, which another
    has one after the other. Of each of their files the archive's number, path and size; and of an archive that is
    refused its number and why."""
    bubblewrap = [shutil.which("bwrap"), "--unshare-all", "--new-session", "--die-with-parent", "--cap-drop", "ALL"]
    for path in "/usr", *glob("/lib*"), sys.base_prefix, "/etc/ld.so.cache":
        bubblewrap += ["--ro-bind-try", path, path]
    python = [os.path.realpath(sys.executable), "-ISc", Path(unpack.__file__).read_text("utf-8"), *map(str, sizes)]
    for words in [[*bubblewrap, "--", *python]] * bool(bubblewrap[0]) + [python]:
        given.seek(0)
        with subprocess.Popen(words, stdin=given, stdout=made, stderr=subprocess.DEVNULL, cwd="/",
                              env={**os.environ, "LC_ALL": "C"}) as process:
            while process.poll() is None:
                if judge.stopped.wait(0.01):
                    process.kill()
        made.seek(0)
        if made.readline():
            too_much = f"it takes more than {unpack.SECONDS} s or {unpack.MOST_MEMORY >> 20} MiB"
            return ([], [0, too_much]) if process.returncode else json.loads(made.readline())
    raise CannotGrade("archives can't be unpacked: Python doesn't begin")


@contextmanager
def blamed():
    """Errors of the system as the student's, but for some."""
    try:
        yield
    except OSError as why:
        if why.errno in OURS:
            raise
        verdict = "missing" if why.errno == errno.ENOENT else "refused"
        raise NoRows(verdict, f"{STRANGE.get(why.errno, why.strerror)}.") from why


@contextmanager
def opened(parts, flags=0, within=None):
    """The number of an open file, by the parts of its path. No link is followed, and no pipe or device waited for."""
    with ExitStack() as stack:
        for left, part in enumerate(parts, 1 - len(parts)):
            with blamed():
                kind = os.O_DIRECTORY if left else flags
                within = os.open(part, kind | os.O_NOFOLLOW | os.O_NONBLOCK, dir_fd=within)
            stack.callback(os.close, within)
        yield within


def listed(number):
    """The first entries of an open folder by name, without what systems and programs put there."""
    with blamed(), os.scandir(number) as entries:
        found = islice((entry for entry in entries if not is_meta(entry.name)), MOST_NAMES)
        return sorted((entry.name, entry.is_dir(follow_symlinks=False)) for entry in found)


def nearest(names, paths):
    """The path of what has one of these names in any letters, the first name first, and of its places the nearest; or
    has one but for the number of a download."""
    ranks = {key_of(name): rank for rank, name in enumerate(names)}
    for name_of in key_of, lambda base: key_of(AGAIN.sub("", base)):
        bases = ((name_of(path.rpartition("/")[2]), path) for path in paths)
        found = sorted((ranks[base], path.count("/"), path) for base, path in bases if base in ranks)
        if len(found) > 1 and found[0][:2] == found[1][:2]:
            raise NoRows("refused", f"There are {shown(found[0][2])} and {shown(found[1][2])}, and one is expected.")
        if found:
            return found[0][2]
    return None


class Folder:
    """An open folder of a student's; or, of one with all students' files, some by the names that they had."""

    def __init__(self, number, given=None):
        self.number, self.given, self.packed, self.store, self.refusal = number, given, None, None, None

    def opened(self, path, flags=0):
        return opened((self.given[path] if self.given else path).split("/"), flags, self.number)

    @contextmanager
    def regular(self, path):
        """The number of an open file that isn't of another kind."""
        with self.opened(path) as number, blamed():
            if not stat.S_ISREG(os.fstat(number).st_mode):
                raise NoRows("refused", "It is no regular file.")
            yield number

    def has(self, name):
        return name in self.given if self.given else os.access(name, os.F_OK, dir_fd=self.number, follow_symlinks=False)

    @cached_property
    def paths(self):
        """What is in the folder, and in folders in it, those above first."""
        if self.given is not None:
            return [*self.given]
        found = [*listed(self.number)]
        for path, is_folder in found:
            if is_folder and path.count("/") < DEPTH and len(found) < MOST_NAMES:
                with suppress(NoRows), self.opened(path, os.O_DIRECTORY) as inner:
                    found += [(f"{path}/{name}", is_folder) for name, is_folder in listed(inner)]
        return [path for path, _ in found]

    def archives(self):
        return [path for path in self.paths if path.lower().endswith(ENDINGS)]

    def is_packed(self):
        """Whether what was handed in isn't there as it was: it has other names, or is in archives alone."""
        return self.given is not None or {*self.paths} == {*self.archives()} != set()

    def members(self, names):
        """By path place and size in the store of each file in archives, which are in no memory of this process."""
        self.store, sizes = tempfile.TemporaryFile(), []
        with LOCK, tempfile.TemporaryFile() as given:
            for name in names:
                sizes.append(0)
                with self.regular(name) as number:
                    while more := os.sendfile(given.fileno(), number, None, MOST_PACKED + 1 - sum(sizes)):
                        sizes[-1] += more
                if sum(sizes) > MOST_PACKED:
                    raise NoRows("refused", f"Archives have more than {MOST_PACKED >> 20} MiB.")
            found, wrong = unpacked_apart(given, sizes, self.store)
        if wrong:
            raise NoRows("refused", f"{shown(names[wrong[0]])} can't be unpacked: {shown(wrong[1])}.")
        ends = accumulate((size for *_, size in found), initial=self.store.tell())
        return {f"{names[number]}/{path}": (at, size) for (number, path, size), at in zip(found, ends)
                if not is_meta(path)}

    def unpacked(self):
        """The same of all archives that are there; they are unpacked once."""
        if self.packed is None:
            try:
                self.packed = self.members(self.archives()) if self.archives() else {}
            except NoRows as why:
                self.packed, self.refusal = {}, why
        if self.refusal:
            raise self.refusal
        return self.packed

    def find(self, names):
        """The path of what has one of these names, as it is spelled, or below and in any letters; or nothing."""
        exact = next(filter(self.has, names), None)
        return exact or nearest(names, self.paths) or nearest(names, self.unpacked())

    def read(self, path, most=MOST_BYTES):
        """The bytes of a regular file that isn't too long."""
        at, size = (self.packed or {}).get(path, (0, None))
        if size is not None:
            data = os.pread(self.store.fileno(), min(size, most + 1), at)
        else:
            with self.regular(path) as number, open(number, "rb", closefd=False) as file:
                data = file.read(most + 1)
        if len(data) > most:
            raise NoRows("refused", f"It is longer than {most >> 20} MiB.")
        return data

    def files(self):
        """Path and bytes of each file that was handed in with another name or in an archive, without folders that have
        all of them."""
        found = {path.split("/", 1)[1]: path for path in self.unpacked()}
        while found and len({path.partition("/")[0] for path in found}) == 1 and all("/" in path for path in found):
            found = {path.partition("/")[2]: here for path, here in found.items()}
        found.update((path, path) for path in self.paths if path not in self.archives())
        for path, here in found.items():
            with suppress(NoRows):
                yield path, self.read(here, MOST_PACKED)

    def names(self):
        """What is there in place of what was asked for."""
        names = [shown(path, 40) for path in (*self.paths, *(self.packed or ()))]
        return ", ".join(names[:8]) + " .." * (len(names) > 8) if names else "nothing"
