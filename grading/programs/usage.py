"""What a run uses, as /proc shows it: processor time, memory, and whether it waits for the processor."""
import os
import re
from contextlib import suppress
from glob import glob
from pathlib import Path

TICKS, PAGE = os.sysconf("SC_CLK_TCK"), os.sysconf("SC_PAGE_SIZE")
INODE = 1 << 10     # bytes of memory that a file costs, however short


def text_of(path):
    """A file of /proc; nothing where the process has ended."""
    with suppress(OSError):
        return Path(path).read_text("ascii", "replace")
    return ""


def numbers(path, before=""):
    """The numbers after a pattern in a file of /proc, to the end of their line."""
    found = re.search(rf"{before}([-0-9 \t]*)", text_of(path), re.DOTALL)
    return [*map(int, found[1].split())] if found else []


def limit(name):
    """The last number in a file of /proc/sys/net, or 4 MiB where there is none."""
    return [1 << 22, *numbers(f"/proc/sys/net/{name}")][-1]


# The most bytes that a socket may hold: a local one, and one of the network.
LOCAL = 2 * limit("core/wmem_max")
INET = sum(max(limit(f"ipv4/tcp_{way}"), 2 * limit(f"core/{way}_max")) for way in ("rmem", "wmem"))


def stat(path):
    """A process's state, and what follows it: its name before may be anything."""
    return text_of(path).rpartition(")")[2].split()


def children(process):
    return [child for path in glob(f"/proc/{process}/task/*/children") for child in numbers(path)]


def below(process):
    """All that comes of a process."""
    found = children(process)
    for each in found:
        found += children(each)
    return found


def kept(processes, sizes):
    """Bytes of files in memory, and the most that sockets may hold, as the last process sees them that is in its
    sandbox, by these sizes."""
    for each in reversed(processes if sizes else ()):
        with suppress(OSError):
            found = [os.statvfs(f"/proc/{each}/root{path}") for path in sizes]
            if [about.f_blocks * about.f_frsize for about in found] == [*sizes.values()]:
                files = sum((about.f_blocks - about.f_bfree) * about.f_frsize + (about.f_files - about.f_ffree) * INODE
                            for about in found)
                local = max(0, text_of(f"/proc/{each}/net/unix").count("\n") - 1)
                others = sum(numbers(f"/proc/{each}/net/sockstat", "sockets: used ")) - local
                return files + LOCAL * local + INET * max(0, others)
    return 0


def seconds_of_scope(process):
    """What a scope that systemd made for a process has computed, also by what nobody waited for."""
    scope, own = (text_of(f"/proc/{each}/cgroup").rpartition("0::")[2].strip() for each in (process, "self"))
    return sum(numbers(f"/sys/fs/cgroup{scope}/cpu.stat", "usage_usec ")) / 1e6 if scope != own else 0


def used(process, sizes, most, times):
    """Seconds and bytes of all below a process, shared bytes once if need be; and whether any could run. The times of
    each are kept: what ends is counted by whoever waits for it, or else as it was seen last."""
    resident, waited, alive = {}, 0, set()
    for each in below(process):
        about = stat(f"/proc/{each}/stat")
        if about:
            user, system, *ended = map(int, about[11:15])
            times[each, about[19]] = user + system      # a number may be another's by now, that began later
            alive.add((each, about[19]))
            waited += sum(ended)
            resident[each] = int(about[21]) * PAGE
    ticks = max(waited + sum(times[each] for each in alive), sum(times.values()))
    tables = 1024 * sum(sum(numbers(f"/proc/{each}/status", ".*\nVmPTE:\t *")) for each in resident)
    others = kept([*resident], sizes) + tables
    if others + sum(resident.values()) > most:
        resident = {each: 1024 * sum(numbers(f"/proc/{each}/smaps_rollup", ".*\nPss: +")) for each in resident}
    is_ready = any(stat(path)[:1] == ["R"] for each in resident for path in glob(f"/proc/{each}/task/*/stat"))
    return ticks / TICKS, others + sum(resident.values()), is_ready
