"""LLVM IR as text: the words of a line, its types with their sizes on x86-64, and its operands."""
import re
import zlib
from typing import NamedTuple

# A string or quoted name, a comment, a word with its mark, or one character.
TOKEN = re.compile(r'[%@!$#^c]?"[^"]*"|;.*|[%@!$#^]?[-\w.$+]+|\S')
FLOATS = {"half": 2, "bfloat": 2, "float": 4, "double": 8, "x86_fp80": 16, "fp128": 16, "ppc_fp128": 16}
OTHERS = {"x86_mmx": 8, "x86_amx": 1024, "void": 0, "label": 0, "metadata": 0, "token": 0, "opaque": 0, "target": 8}
DEEPEST = 60        # types or constants within one another; real programs have some ten
MOST_SIZE = 2 ** 64
AFTER = ("", "", "", "")     # what is looked at after the last token of a line
CLOSING = {"(": ")", "[": "]", "{": "}", "<": ">"}
CASTS = ("zext sext trunc bitcast ptrtoint inttoptr addrspacecast fptrunc fpext fptoui fptosi uitofp sitofp").split()
FIXED = {"true": 1, **dict.fromkeys(("false", "null", "none", "undef", "poison", "zeroinitializer"), 0)}


class NotUnderstood(Exception):
    """A line isn't what clang writes."""


class Type(NamedTuple):
    size: int               # in bytes
    align: int
    kind: str               # int, float, pointer, vector, array, struct or other
    parts: tuple = ()       # the types of a struct's parts, or the one of an array's or a vector's elements
    offsets: tuple = ()     # of a struct's parts


POINTER = Type(8, 8, "pointer")


def number(text):
    """The integer `text`; of one with more digits than any type has, what its lowest 64 bits are."""
    digits = text.removeprefix("-")
    if not (digits.isascii() and digits.isdigit()):
        raise NotUnderstood("a number is missing")
    value = int(digits) if len(digits) <= 64 else int(digits[-64:]) % MOST_SIZE
    return value if digits == text else -value


def tokens_of(line):
    return [token for token in TOKEN.findall(line) if token[0] != ";"]


def is_integer(token):
    return token[0] == "i" and token[1:].isdecimal()


def is_type(token):
    return token[:1] in ("%", "{", "[", "<") or token == "ptr" or token in FLOATS or token in OTHERS or \
        token != "" and is_integer(token)


def folded(text):
    """A number for a constant that is none: the same for the same text."""
    return zlib.crc32(text.encode()) // 4 * 2


class Line:
    """The tokens of a line, read from the left. `module` has the types and the addresses that they name."""

    def __init__(self, tokens, module, depth=0):
        self.tokens, self.module, self.depth, self.at = [*tokens, *AFTER], module, depth, 0

    def peek(self, ahead=0):
        return self.tokens[self.at + ahead]

    def next(self):
        token = self.tokens[self.at]
        if not token:
            raise NotUnderstood("the line ends early")
        self.at += 1
        return token

    def skips(self, token):
        """Whether `token` is the next one, which is passed then."""
        is_next = self.peek() == token
        self.at += is_next
        return is_next

    def expect(self, token):
        if not self.skips(token):
            raise NotUnderstood(f"{token} is missing")

    def skip_flags(self):
        """Passes what precedes a type: `nuw`, `inbounds`, `volatile`, the predicate of a comparison, and their like."""
        while self.peek()[:1].isalpha() and not is_type(self.peek()):
            self.at += 1
            if self.peek(-1) == "inrange":
                self.skip_group("(")

    def skip_group(self, opening):
        """Passes the group in brackets that `opening` begins, if that is the next token."""
        closing = []
        while closing or self.peek() == opening:
            token = self.next()
            if token in CLOSING:
                closing.append(CLOSING[token])
            elif closing and token == closing[-1]:
                closing.pop()
            if not closing:
                break

    def go_deeper(self):
        self.depth += 1
        if self.depth > DEEPEST:
            raise NotUnderstood(f"more than {DEEPEST} types or constants within one another")

    def type(self):
        self.go_deeper()
        named, found = self.simple_type()
        while True:
            if self.skips("addrspace"):
                self.skip_group("(")
            elif self.skips("*"):
                named, found = None, POINTER
            elif self.peek() == "(":
                self.skip_group("(")
                named, found = None, Type(0, 1, "other")        # of a function
            else:
                break
        # A type that only a pointer names isn't looked at: it may have the pointer in itself.
        found = self.module.named(named, self.depth) if named else found
        self.depth -= 1
        return found

    def simple_type(self):
        """The name of a type that has one, or else the type, without what follows it."""
        token = self.next()
        if token[0] == "%":
            return token, None
        if is_integer(token):
            size = 1 << (max(1, (number(token[1:]) + 7) // 8) - 1).bit_length()
            return None, Type(size, min(size, 16), "int")
        if token == "ptr":
            return None, POINTER
        if token in FLOATS:
            return None, Type(FLOATS[token], FLOATS[token], "float")
        if token in OTHERS:
            self.skip_group("(")        # of `target("NAME")`
            return None, Type(OTHERS[token], 1, "other")
        if token == "[":
            return None, self.sequence("array", "]")
        if token == "{":
            return None, self.struct(is_packed=False)
        if token == "<" and self.skips("{"):
            found = self.struct(is_packed=True)
            self.expect(">")
            return None, found
        if token == "<":
            return None, self.sequence("vector", ">")
        raise NotUnderstood("a type is missing")

    def sequence(self, kind, closing):
        if self.skips("vscale"):
            self.expect("x")
        count = number(self.next())
        self.expect("x")
        part = self.type()
        self.expect(closing)
        return Type(count * part.size % MOST_SIZE, part.align, kind, (part,))

    def struct(self, is_packed):
        parts, offsets, size, align = [], [], 0, 1
        while not self.skips("}"):
            part = self.type()
            step = 1 if is_packed else part.align
            offsets.append(-(-size // step) * step)
            parts.append(part)
            size, align = (offsets[-1] + part.size) % MOST_SIZE, max(align, step)
            if self.peek() != "}":
                self.expect(",")
        return Type(-(-size // align) * align, align, "struct", tuple(parts), tuple(offsets))

    def typed(self):
        """A type and an operand of it."""
        return self.type(), self.operand()

    def operand(self):
        """The name of a value, or a number for a constant."""
        self.go_deeper()
        start = self.at
        if self.skips("getelementptr"):
            found = self.constant_address()
        elif self.peek() in CASTS and self.peek(1) == "(":
            self.at += 2
            found = self.typed()[1]
            self.skip_flags()       # `to`
            self.type()
            self.expect(")")
        elif self.peek() in CLOSING or self.peek(1) == "(":
            self.at += self.peek() not in CLOSING
            self.skip_group(self.peek())
            found = folded(" ".join(self.tokens[start:self.at]))
        else:
            found = self.word()
        self.depth -= 1
        return found

    def constant_address(self):
        """The address of an element of a global, after `getelementptr`."""
        self.skip_flags()
        self.expect("(")
        base, terms, offset = self.elements()
        self.expect(")")
        if not isinstance(base, int) or terms:
            raise NotUnderstood("a constant address has a value in it")
        return base + offset

    def elements(self):
        """What an address of an element is the sum of: a base, pairs of a value and what it counts, and a number."""
        found = self.type()
        self.expect(",")
        base = self.typed()[1]
        terms, offset, is_first = [], 0, True
        while self.peek() == "," and (is_type(self.peek(1)) or self.peek(1) == "inrange"):
            self.next()
            self.skips("inrange")
            index = self.typed()[1]
            if not is_first and found.kind == "struct":
                if not isinstance(index, int) or not 0 <= index < len(found.parts):
                    raise NotUnderstood("a struct has no such part")
                offset, found = offset + found.offsets[index], found.parts[index]
                continue
            if not is_first:
                if not found.parts:
                    raise NotUnderstood("a type has no elements")
                found = found.parts[0]
            is_first = False
            if isinstance(index, int):
                offset += index * found.size
            elif found.size:
                terms.append((index, found.size))
        return base, terms, offset

    def arguments(self):
        """The operands of a call, without their types and attributes."""
        self.expect("(")
        found, last = [], None
        while not self.skips(")"):
            if self.skips(","):
                found.append(last)
            elif self.peek() in CLOSING:
                start = self.at
                self.skip_group(self.peek())
                last = folded(" ".join(self.tokens[start:self.at]))
            else:
                last = self.word()
        return found if last is None else [*found, last]

    def word(self):
        """An operand of one token, or a number for what is none."""
        token = self.next()
        if token[0] == "%":
            return token
        if token[0] == "@":
            return self.module.address(token)
        if token.removeprefix("-").isdecimal():
            return number(token)
        return FIXED.get(token, folded(token))
