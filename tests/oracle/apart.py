"""Which operations are apart: whatever the memory is, their addresses differ. Worked out by the definition, pair by
pair."""
from functools import partial

from oracle.machine import COMPUTED, MASK


def source(ops, j, register):
    """The last operation before j that defines a register, or None."""
    return next((i for i in reversed(range(j)) if register in ops[i].defined), None)


def values_of(ops):
    """By operation what is known of its result: a base, which is the operation that gives it, or None; and the constant
    to be added to it."""
    values = []
    for j, op in enumerate(ops):
        values.append(result(j, op, [known(ops, values, j, register) for register in op.used]))
    return values


def known(ops, values, j, register):
    """What is known of a register before operation j."""
    i = source(ops, j, register)
    return (None, 0) if i is None else values[i]


def result(j, op, used):
    own, opcode = (j, 0), op.opcode.removesuffix("I")
    if op.opcode == "loadI":
        return None, op.constant & MASK
    if opcode not in COMPUTED:
        return own
    (base, left), (other, right) = (*used, (None, op.constant))[:2]
    word = COMPUTED[opcode](left, right & MASK) & MASK
    if base is other is None:
        return None, word
    if opcode == "add" and None in (base, other):
        return (other if base is None else base), word
    if opcode == "sub" and other in (None, base):
        return (None if other == base else base), word
    return own


def address(op, known_of):
    """What is known of the address that an operation reads or writes, as of a result, or None. `known_of` says it of a
    register."""
    if op.kind == "output":
        return None, op.constant & MASK
    if op.kind not in ("load", "store"):
        return None
    base, constant = known_of(op.used[-1])
    return base, (constant + (op.constant or 0)) & MASK


def addresses_of(ops):
    values = values_of(ops)
    return [address(op, partial(known, ops, values, j)) for j, op in enumerate(ops)]


def are_apart(address, other):
    return None not in (address, other) and address[0] == other[0] and address[1] != other[1]


def by_address(ops):
    """Whether two operations count by memory: all but those that are apart, and stores among themselves."""
    addresses = addresses_of(ops)
    return lambda i, j: ops[i].kind == ops[j].kind == "store" or not are_apart(addresses[i], addresses[j])
