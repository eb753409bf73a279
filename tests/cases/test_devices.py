"""Devices that fail, are full, closed, slow or endless, what is read of a long text, and the memory that a run
holds."""
import os
import resource
import select
import subprocess
from pathlib import Path

from bench import measure
from cases.test_stored import stored_runs
from harness.program import ALL, SECONDS, TESTED, Run, ending, folder, listed, refused, stored, told
from harness.suite import Check, table
from language import MOST_BLOCKS, MOST_BYTES

FIRST = stored_runs()["first"].given
ROWS = (b"[ loadI 1024 => r0 ; loadI 7 => r1 ]\n[ store r1 => r0 ; nop ]\n" + b"[ nop ; nop ]\n" * 4
        + b"[ output 1024 ; nop ]\n")
LAWFUL = b"block 1 - lawful cycles 7 ours 7 least 7\ntotal 7 ours 7 least 7\n"
BAD = b"nop\nnop nop\n"
# What is listed of it fills a pipe, whatever the command.
LONG = b"A:\n" * 10_000
UNREAD, UNWRITTEN = b"reading failed", b"writing failed"
NO_TEXT = b"error: invalid UTF-8 was detected in one or more arguments\n"
MOST_MIB = 64
WRITES = 1000
WORDS_ALONE = [(0, ["--help"]), (2, ["jump"]), (2, ["run", "--at", "2"]), (2, ["run", "--at", "65532", "1", "2"])]


def device_cases():
    for command in ALL:
        yield from inputs(command)
        yield from outputs(command)
        yield Check(f"device/little_room/{command}", little_room, [command],
                    b"strict" if command == "graph" else b"block 1 -")
    yield Check("device/little_room/help", little_room, ["--help"], b"List")
    yield Run("device/little_room_to_tell", ["run"], BAD, b"", b"ilocfarm", 1, with_room(8, "stderr"))
    yield refused("device/line_comes_before_input", b"", b"--at is not a multiple of 4", 2, ["run", "--at", "2"],
                  by=redirected("</"))
    yield refused("device/help_to_a_full_one", b"", UNWRITTEN, 4, ["--help"], by=redirected(">/dev/full"))
    yield listed("device/nothing_to_a_full_one", b"", b"", by=redirected(">/dev/full"))
    yield listed("device/nothing_to_a_closed_one", b"", b"", by=redirected(">&-"))
    yield Run("device/word_is_no_text", ["run", b"\xff"], FIRST, b"", NO_TEXT, 2)
    for number, (status, words) in enumerate(WORDS_ALONE):
        yield Check(f"device/words_alone_decide_{number}", words_alone_decide, status, words)
    for command in ("run", "counts", "check"):
        yield Check(f"device/reads_one_byte_too_many/{command}", reads_one_byte_too_many, command)
    for command in ("run", "simulate"):
        yield one_word_many_times(command)
    for command in ("run", "check"):
        yield refused(f"device/longest_fault/{command}", b"\n" * 16_000_000 + b"nop\n" * 10_001,
                      b"line 16010001: more than 10000 operations in a block", 1, [command])
    fives = b"".join(b"block %d A\n5\n" % k for k in range(1, MOST_BLOCKS + 1))
    yield listed("device/most_blocks_in_little_memory", b"A: output 0\n" * MOST_BLOCKS, fives,
                 ["run", "--at", "0", "5"], by=in_little_memory)


def inputs(command):
    def unread(name, by):
        return refused(f"device/{name}/{command}", b"", UNREAD, 4, [command], by=by)

    name = "first" if command in ("run", "simulate") else f"first.{command}"
    given, out = (FIRST + ROWS, LAWFUL) if command == "check" else (FIRST, stored_runs()[name].out)
    yield listed(f"device/one_byte_at_a_time/{command}", given, out, [command], by=bytewise)
    yield refused(f"device/input_without_end/{command}", b"", b"input longer than 16777216 bytes", 1, [command],
                  by=redirected("</dev/zero"))
    yield unread("input_is_a_folder", redirected("</"))
    yield unread("input_is_closed", redirected("<&-"))
    yield unread("input_is_not_there_yet", hasty(b""))
    yield unread("input_fails_in_mid_way", hasty(b"nop"))
    yield unread("input_fails_behind_a_fault", hasty(BAD))
    yield refused(f"device/fault_one_byte_at_a_time/{command}", BAD, b"line 2: not understood", 1, [command],
                  by=bytewise)


def outputs(command):
    def unwritten(name, by, given=FIRST):
        return refused(f"device/{name}/{command}", given, UNWRITTEN, 4, [command], by=by)

    yield unwritten("full", redirected(">/dev/full"))
    yield unwritten("output_is_closed", redirected(">&-"))
    yield unwritten("nobody_reads", broken(0))
    yield unwritten("somebody_reads_a_part", broken(10), LONG)
    yield Run(f"device/nobody_to_tell/{command}", [command], BAD, b"", b"", 1, redirected("2>/dev/full"))
    yield Run(f"device/nobody_to_tell_at_all/{command}", [command], BAD, b"", b"", 1, redirected("2>&-"))


def redirected(streams):
    """A shell gives the run other streams; what is written to them isn't seen."""
    return lambda words, given: ending(["-c", f'exec "$0" "$@" {streams}', TESTED.program, *words], given, "/bin/sh")


def with_room(size, stream="stdout"):
    """Standard output, or error, is a file that takes no more than so many bytes. (That a signal ends a program then
    is switched off, as it is for a pipe.)"""
    def by(words, given):
        path = stored(stream, b"")
        with open(path, "wb") as file:
            how = {stream: file, "restore_signals": False,
                   "preexec_fn": lambda: resource.setrlimit(resource.RLIMIT_FSIZE, (size, size))}
            status, out, err = ending(words, given, **how)
        held = Path(path).read_bytes()
        return (status, held, err) if stream == "stdout" else (status, out, held)
    return by


def hasty(there):
    """Standard input gives this, and then fails in place of waiting."""
    def by(words, _):
        reader, writer = os.pipe2(os.O_NONBLOCK)
        try:
            os.write(writer, there)
            return ending(words, stdin=reader)
        finally:
            os.close(reader)
            os.close(writer)
    return by


def broken(taken):
    """Standard output is a pipe whose reader takes so many bytes and leaves."""
    def by(words, given):
        reader, writer = os.pipe()
        if not taken:
            os.close(reader)
        with open(stored("given", given), "rb") as file:
            child = subprocess.Popen([TESTED.program, *words], stdin=file, stdout=writer, stderr=subprocess.PIPE)
        os.close(writer)
        if taken:
            if select.select([reader], [], [], SECONDS)[0]:
                os.read(reader, taken)
            os.close(reader)
        return ended(child)
    return by


def bytewise(words, given):
    """Standard input gives one byte at a time."""
    child = subprocess.Popen([TESTED.program, *words], bufsize=0, stdin=subprocess.PIPE, stdout=subprocess.PIPE,
                             stderr=subprocess.PIPE)
    try:
        for byte in given:
            child.stdin.write(bytes([byte]))
    except BrokenPipeError:
        pass    # it ended before it read all
    return ended(child)


def ended(child):
    """How a child ends that has got its input."""
    try:
        out, err = child.communicate(timeout=SECONDS)
    finally:
        child.kill()
    return child.returncode, out or b"", err


def in_little_memory(words, given):
    """The run holds at most 64 MiB at any time; what it held above that counts as said on standard error."""
    got = measure.run([TESTED.program, *words], stored("given", given), f"{folder()}/got")
    status, out, err = got.shown()
    return status, out, err + (b"%d MiB held" % got.mebibytes if got.mebibytes > MOST_MIB else b"")


def little_room(words, start):
    """What fits is written, and the rest is reported."""
    for size in (0, 3, len(start)):
        got = with_room(size)(words, FIRST)
        if got != (4, start[:size], b"ilocfarm: writing failed\n"):
            yield f"room for {size} bytes: {told(got)}"


def words_alone_decide(status, words):
    """Where nothing has to be read, nothing is: standard input is a folder, which can't be read."""
    got, due = redirected("</")(words, b""), ending(words)
    if got != due or due[0] != status:
        yield f"{told(got)} in place of {told(due)}"


def reads_one_byte_too_many(command):
    """Of a text that is too long one byte more is read than a text may have, and no further one."""
    with open(stored("given", b"\n" * (MOST_BYTES + 100_000)), "rb", buffering=0) as file:
        got = ending([command], stdin=file)
        at = os.lseek(file.fileno(), 0, os.SEEK_CUR)
    if got != (1, b"", b"ilocfarm: input longer than 16777216 bytes\n") or at != MOST_BYTES + 1:
        yield f"{told(got)}, {at} bytes were read"


def one_word_many_times(command):
    """A block that writes one word over and over, and one after it that reads what the memory started with."""
    writes = b"".join(b"loadI %d => r2\nstore r2 => r1\n" % value for value in range(WRITES))
    given = (b"A: loadI 8 => r1\n" + writes + b"output 8\nB: output 8\n") * 3
    due = b"".join(b"block %d A\n%d\nblock %d B\n7\n" % (k, WRITES - 1, k + 1) for k in (1, 3, 5))
    return listed(f"device/one_word_many_times/{command}", given, due, [command, "--at", "8", "7"])


load_tests = table(device_cases)
