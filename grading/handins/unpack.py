"""Unpacks archives of students, in a process of its own. It stands alone: in walls there may be nothing but Python."""
import bz2
import gzip
import io
import json
import resource
import signal
import stat
import sys
import tarfile
import zipfile
from contextlib import suppress
from functools import partial
from itertools import islice

# Of a folder's archives together, and of all that is in them.
MOST_PACKED = 1 << 24       # bytes
MOST_NAMES = 1000           # files
MOST_MEMORY = 1 << 27       # bytes of addresses, of which Python itself has 20 MiB
SECONDS, CLOCK = 10, 300    # of processor time, and by the clock
MOST_SAID = 1 << 20         # letters of their names
OPENERS = {b"\x1f\x8b": gzip.open, b"BZh": bz2.open}


def files_of(data):
    """Of each file in an archive path, size, and what opens it."""
    if data.startswith(b"PK"):
        archive = zipfile.ZipFile(io.BytesIO(data))
        named = ((entry.filename.replace("\\", "/"), entry) for entry in archive.infolist())    # of old Windows
        return ((path, entry.file_size, partial(archive.open, entry)) for path, entry in named
                if not path.endswith("/") and not stat.S_ISLNK(entry.external_attr >> 16))
    archive = tarfile.open(fileobj=io.BytesIO(data), mode="r:")
    return ((entry.name, entry.size, partial(archive.extractfile, entry))
            for entry in archive if entry.isreg() and not entry.issparse())


def unpacked(data, names, left):
    """Path and bytes of each file in an archive, where there are at most `names`, of at most `left` bytes."""
    opener = next((opener for begin, opener in OPENERS.items() if data.startswith(begin)), io.BufferedReader)
    data = opener(io.BytesIO(data)).read(MOST_PACKED + 1)
    found = [*islice(files_of(data), names + 1)]
    if len(data) > MOST_PACKED or len(found) > names or sum(size for _, size, _ in found) > left:
        raise ValueError(f"there are more than {MOST_PACKED >> 20} MiB or {MOST_NAMES} files in archives")
    if any(size < 0 for _, size, _ in found):
        raise ValueError("it has a file of a negative size")
    if sum(len(path) for path, *_ in found) > MOST_SAID:
        raise ValueError("names of files are too long")
    outside = [path for path, *_ in found if path.startswith("/") or ".." in path.split("/")]
    if outside:
        raise ValueError(f"it has a file {outside[0][:80]}")
    return [(path, opened().read(size)) for path, size, opened in found]


def unpack(archives):
    """Of each file in archives the archive's number, path and bytes; and number and why of one that is refused."""
    found, left = [], MOST_PACKED
    for number, data in enumerate(archives):
        try:
            files = unpacked(data, MOST_NAMES - len(found), left)
        except MemoryError:
            raise
        except Exception as why:        # whatever is wrong with it
            return [], [number, f"{why}"]
        found += [(number, *file) for file in files]
        left -= sum(len(data) for _, data in files)
    return found, None


def main(sizes):
    """Says that it began; then what is in archives of these sizes, in a line that all bytes follow. It ends before
    where that takes more than it may."""
    asked, made = sys.stdin.buffer, sys.stdout.buffer
    made.write(b"begun\n")
    made.flush()
    for kind, most in (resource.RLIMIT_AS, MOST_MEMORY), (resource.RLIMIT_CPU, SECONDS):
        with suppress(ValueError):      # there are less
            resource.setrlimit(kind, (most, most))
    signal.alarm(CLOCK)
    found, wrong = unpack([asked.read(int(size)) for size in sizes])
    made.write(json.dumps([[(number, path, len(data)) for number, path, data in found], wrong]).encode() + b"\n")
    made.writelines(data for *_, data in found)


if __name__ == "__main__":
    main(sys.argv[1:])
