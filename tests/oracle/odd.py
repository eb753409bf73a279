"""Texts that are drawn: good ones, bad ones and nearly good ones."""
import re

from language import FORMS

OPCODES = [*FORMS]
NUMBERS = ["0", "1", "4", "31", "1024", "65532", "65536", "214748364", "2147483647", "2147483648", "2147483650",
           "4294967295", "4294967296", "21474836470", "99999999999999999999"]
BLANKS = ["", " ", " ", "  ", "\t", "\r", " \t ", "\r "]
NO_BLANKS = ["\f", "\v", "\0", "\x80", "\xa0"]
COMMENTS = ["//", "// a comment", "//// : => ,", "// r1\t\x00\xff", "/", "/ /", "#"]
NAMES = ["L", "a", "Zz", "nop", "r1", "_", "1", *OPCODES]
BYTES = "rlsmaonIA_:=>,/0123456789 \t\r\n\f\x00\xe9Zz"


def one_in(chance, count):
    return chance.randrange(count) == 0


def number(chance):
    if one_in(chance, 6):
        return "0" * chance.randrange(12) + chance.choice(NUMBERS)
    return str(chance.choice([4 * chance.randrange(64), chance.randrange(10 ** chance.randrange(1, 5))]))


def blanks(chance, usual, odd):
    """The usual blanks, but once in `odd` times others, or what is no blank."""
    if not one_in(chance, odd):
        return usual
    return chance.choice(NO_BLANKS if one_in(chance, 20) else BLANKS)


def operation(chance, odd):
    marks = {"r": lambda: "r" + (number(chance) if one_in(chance, 8) else str(chance.randrange(9))),
             "c": lambda: number(chance),
             " => ": lambda: blanks(chance, " ", odd) + "=>" + blanks(chance, " ", odd),
             ", ": lambda: blanks(chance, "", odd) + "," + blanks(chance, " ", odd)}
    opcode = chance.choice(OPCODES)
    form = re.sub("[ud]", "r", FORMS[opcode])
    operands = "".join(marks[mark]() for mark in re.findall("[rc]| => |, ", form))
    return opcode + (blanks(chance, " ", odd) if operands else "") + operands


def line(chance, odd):
    parts = [blanks(chance, chance.choice(["", "", "\t"]), odd)]
    if one_in(chance, 8):
        name = chance.choice(NAMES) + chance.choice(["", "", "1", "_2", "I", "x" * chance.randrange(40)])
        parts += [name, blanks(chance, "", odd), ":", blanks(chance, " ", odd)]
    if not one_in(chance, 8):
        parts += [operation(chance, odd)]
    return "".join([*parts, blanks(chance, "", odd), chance.choice(COMMENTS) if one_in(chance, 10) else ""])


def spoiled(chance, text):
    """The text with a few bytes taken out, put in, exchanged or repeated, or cut off."""
    for _ in range(chance.randrange(1, 4)):
        at, byte = chance.randrange(len(text) + 1), chance.choice(BYTES)
        text = text[:at] + chance.choice([text[at + 1:], byte + text[at:], byte + text[at + 1:],
                                          text[at:at + 6] + text[at:], ""])
    return text


def odd_text(chance):
    if one_in(chance, 20):
        return "".join(chance.choice(BYTES) for _ in range(chance.randrange(60))).encode("latin-1")
    odd = chance.choice([3, 20, 1000])
    count = chance.randrange(chance.choice([6, 6, 6, 60]))
    text = "\n".join(line(chance, odd) for _ in range(count)) + chance.choice(["", "\n", "\r\n", "\n\n"])
    return (spoiled(chance, text) if one_in(chance, 2) else text).encode("latin-1")
