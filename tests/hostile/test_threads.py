"""As many workers as asked for, eight where there is one processor, or no thread to be had, and the same bytes each
time."""
import os
import resource
import shutil

from bench import inputs
from harness.program import ALL, ALONE, FARMED, TESTED, ending, folder, told, unlike
from harness.suite import Check, table
from language import MOST_OPERATIONS
from refusals.refuser import Asked, refusing
from refusals.test_program import NO_WORKER, long_text

RUNS = 200
STACK = 128 * 1024
TINY = b"".join(b"B%d: loadI %d => r1\nmult r1, r1 => r2\n" % (k, k) for k in range(300))
# A user that nobody is, so that no process but ours counts.
NOBODY = 54_321


def thread_checks():
    for check, commands in ((same_bytes, FARMED), (as_many_as_asked, FARMED), (as_many_that_read, FARMED),
                            (one_processor, FARMED),
                            (none_to_be_had, FARMED), (none_needed, ALONE), (little_stack, ALL)):
        for command in commands:
            yield Check(f"threads/{check.__name__}/{command}", check, command)


def by(workers):
    return ["--workers", str(workers)]


def same_bytes(command, given=TINY, runs=RUNS, **how):
    """Runs that differ from one with one worker."""
    due = ending([command, *by(1)], given)
    if due[0] != 0 or not due[1]:
        yield f"one worker: {told(due)}"
    for number in range(1, runs + 1):
        yield from unlike(f"run {number}", ending([command, *by(8)], given, **how), due)


def as_many_as_asked(command):
    """Two workers where nothing is asked, else the number that is asked for, though there be fewer blocks."""
    for due, words in [(2, []), *((workers, by(workers)) for workers in range(1, 9))]:
        _, report = refusing(Asked([command, *words], "no block", b""))
        if report.threads != due:
            yield f"{' '.join(words) or 'nothing asked'}: {report.threads} threads"


def as_many_that_read(command):
    """A long text is read by two threads before others work, where one is asked for by the one that is there."""
    for workers in range(1, 9):
        _, report = refusing(Asked([command, *by(workers)], "a long text", long_text()))
        if report.threads != (2 + workers if workers > 1 else 1):
            yield f"{workers} workers: {report.threads} threads"


def one_processor(command):
    first = min(os.sched_getaffinity(0))
    draw = inputs.Draw()
    blocks = b"".join(inputs.block(draw, "L", 100, range(64)) for _ in range(300))
    return same_bytes(command, blocks, 10, preexec_fn=lambda: os.sched_setaffinity(0, {first}))


def may_start_none():
    """Called in the child: root may start as many threads as it likes, so it becomes somebody else."""
    if os.getuid() == 0:
        os.setgroups([])
        os.setgid(NOBODY)
        os.setuid(NOBODY)
    resource.setrlimit(resource.RLIMIT_NPROC, (1, 1))


def alone(words, given=TINY):
    """How the program ends where it may start no thread. The copy is one that anybody may run."""
    copy = shutil.copy2(TESTED.program, f"{folder()}/copy")
    for path in (folder(), copy):
        os.chmod(path, 0o755)
    return ending(words, given, copy, preexec_fn=may_start_none)


def none_to_be_had(command):
    for workers in (1, 2, 8):
        got = alone([command, *by(workers)])
        if got != NO_WORKER:
            yield f"{workers} workers: {told(got)}"


def handed_in(command, text):
    """The text, for `check` with our schedules of its blocks after it."""
    return text + ending(["schedule"], text)[1] if command == "check" else text


def none_needed(command):
    given = handed_in(command, TINY)
    got, due = alone([command], given), ending([command], given)
    if got != due or due[0] != 0:
        yield f"{told(got)} in place of {told(due)}"


def little_stack(command):
    """The longest blocks need no more stack than others: one whose operations hang together, one of loose ones."""
    chained = b"load r0 => r0\n" * MOST_OPERATIONS
    loose = b"".join(b"addI r%d, 1 => r%d\n" % (k, 7 * k) for k in range(MOST_OPERATIONS))
    for block in (chained, loose):
        block = handed_in(command, block)
        due = ending([command], block)
        got = ending([command], block, preexec_fn=lambda: resource.setrlimit(resource.RLIMIT_STACK, (STACK, STACK)))
        if got != due or due[0] != 0 or not due[1]:
            yield f"{told(got)} in place of {told(due)}"


load_tests = table(thread_checks)
