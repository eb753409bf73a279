"""Texts that are cut at any byte, have any byte at any place, or are drawn: how each command ends, by the oracle."""
import random
import re
from pathlib import Path

from cases.test_lint import WRONG
from harness.program import COMMANDS, TESTED, TOP, ending, unlike
from harness.suite import Check, plain, table
from oracle.odd import odd_text
from oracle.printed import printed

# Each form of a line and of an operation, blanks of each kind and none, leading zeros, the greatest numbers; and a
# bad line at the end.
FORMS = plain(Path(f"{TOP}/tests/hostile/forms.text").read_text("ascii")).encode("latin-1")
SHORT = b"a1 :loadI 8=>r1//x\n\tstore r1 => r1\r\nB_: addI r1, 2 => r3\nloadAI r2,8 => r2\n output 8\nnop"
# A byte of each kind that the grammar knows, and some that it doesn't.
KINDS = b"\x00\n\x0b\r +,/08:=>A_rz\x80"
ALL = bytes(range(256))
# In the short mode other commands than `run` are tried with one text in so many.
SELDOM = 8
DRAWN, ALL_DRAWN = 400, 20_000


def text_checks():
    chance = random.Random(5)
    kinds = {"cut": [FORMS[:end] for end in range(len(FORMS) + 1)],
             "changed": [*changed_texts(SHORT, KINDS if TESTED.is_short else ALL)],
             "drawn": [odd_text(chance) for _ in range(DRAWN if TESTED.is_short else ALL_DRAWN)]}
    yield Check("texts/wrong/lint", unlike_run, [b"nop\n" + line + b"\nadd r1\n" for line, *_ in WRONG])
    for name, texts in kinds.items():
        for command in COMMANDS:
            step = SELDOM if TESTED.is_short and command != "run" else 1
            yield Check(f"texts/{name}/{command}", wrong_among, command, texts[::step])
        yield Check(f"texts/{name}/lint", unlike_run, texts[::SELDOM if TESTED.is_short else 1])


def changed_texts(text, others):
    """The text with another byte at each place."""
    for place in range(len(text)):
        for byte in others:
            yield text[:place] + bytes([byte]) + text[place + 1:]


def wrong_among(command, texts):
    """Where the program ends otherwise than it must; and where the texts are all of one kind."""
    statuses = set()
    for text in texts:
        due = printed(command, text)
        statuses.add(due[0])
        yield from unlike(repr(text), ending([command], text), due)
    print(f"{command}: {len(texts)} texts")
    if statuses != {0, 1}:
        yield f"the texts end with the statuses {statuses} in place of 0 and 1"


def unlike_run(texts):
    """Where the first line that `lint` lists isn't that for which `run` refuses the text, or without those lines a text
    is refused."""
    for text in texts:
        status, out, err = ending(["lint"], text)
        said = ending(["run"], text)[2]
        first = out.split(b":")[0] if status else b""
        if err or said.removeprefix(b"ilocfarm: ").split(b":")[0] != first:
            yield f"{text!r}: {first} beside {said}"
        numbers = {int(number) for number in re.findall(rb"(?m)^line (\d+):", out)}
        left = b"\n".join(b"" if k in numbers else line for k, line in enumerate(text.split(b"\n"), 1))
        if numbers and ending(["lint"], left)[0]:
            yield f"{text!r}: refused without lines {numbers}"


load_tests = table(text_checks)
