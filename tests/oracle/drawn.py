"""Blocks that are drawn: of any operations, as students get them, and with addresses that are often the same."""
from language import FORMS, MAX_NUMBER, ROLES
from oracle.operations import Op

FREE = ("add", "sub", "mult", "lshift", "rshift")


def ops_of(chance, opcodes, registers, constants):
    """An operation of each of these opcodes, with some of so many registers and of these constants."""
    return [Op(opcode,
               [chance.choice(constants) if role == "c" else chance.randrange(registers) for role in ROLES[opcode]])
            for opcode in opcodes]


def made_block(chance):
    opcodes = chance.choices(sorted(FORMS), k=chance.randrange(25))
    return ops_of(chance, opcodes, chance.choice([2, 4, 9]), range(0, 256, 4))


def lab_block(chance):
    """A block that loads, computes, stores and outputs round address 1024; now and then a loaded word is an address."""
    registers = range(chance.choice([5, 8, 14]))
    addresses, values, ops = [], [], []

    def add(opcode, *numbers, fresh=None):
        op = Op(opcode, numbers)
        for known in (addresses, values):
            known[:] = [register for register in known if register not in op.defined]
        if fresh is not None:
            fresh += op.defined
        ops.append(op)

    for _ in range(chance.choice([2, 8, 16, 28])):
        target, place = chance.choice(registers), 4 * chance.randrange(6)
        drawn = chance.random()
        if len(addresses) < 2 or drawn < 0.08:
            add("loadI", 1024 + place, target, fresh=addresses)
        elif not values or drawn < 0.14:
            add("loadI", chance.choice([0, 1, 4, 7, 31, 1000, MAX_NUMBER]), target, fresh=values)
        elif drawn < 0.36:
            address = chance.choice(addresses if chance.random() < 0.96 else values)
            add(*chance.choice([("load", address), ("loadAI", address, place)]), target, fresh=values)
        elif drawn < 0.54:
            address = chance.choice(addresses if chance.random() < 0.96 else values)
            value = chance.choice(values[-3:])
            add(*chance.choice([("store", value, address), ("storeAI", value, address, place)]))
        elif drawn < 0.66:
            add("output", 1024 + place)
        elif drawn < 0.72:
            add(chance.choice(["addI", "subI"]), chance.choice(addresses), place, target, fresh=addresses)
        elif drawn < 0.82:
            constant = chance.choice([0, 1, 2, 4, 8, 33])
            add(chance.choice(FREE) + "I", chance.choice(values[-3:]), constant, target, fresh=values)
        else:
            add(chance.choice(FREE), chance.choice(values[-3:]), chance.choice(values), target, fresh=values)
    return [*ops, *(Op("output", [1024 + 4 * place]) for place in chance.sample(range(6), chance.randrange(4)))]


def aliasing_block(chance):
    """A block whose few addresses meet: constants, sums and loaded words, with constants added, also past 2 ** 32.
    Some blocks fault, and now and then a base is a register that nobody defined."""
    registers = range(chance.choice([3, 5, 8]))
    ops = chance.choice([[], [Op("loadI", [1024, 0]), Op("load", [0, 1])]])
    for _ in range(chance.choice([6, 12, 24])):
        base, value, target = (chance.choice(registers) for _ in range(3))
        place = 4 * chance.randrange(3) if chance.random() < 0.96 else chance.choice([2, MAX_NUMBER, MAX_NUMBER - 3])
        ops.append(Op(*chance.choices(
            [("loadI", [chance.choice([0, 4, 1024, 1028, MAX_NUMBER - 3, MAX_NUMBER - 7]), target]),
             (chance.choice(["addI", "subI"]), [base, place, target]),
             (chance.choice(FREE), [base, value, target]),
             (chance.choice(["multI", "lshiftI", "rshiftI"]), [base, chance.choice([0, 1, 2, 33]), target]),
             ("load", [base, target]), ("loadAI", [base, place, target]),
             ("store", [value, base]), ("storeAI", [value, base, place]),
             ("output", [chance.choice([0, 1024]) + place % 1024])],
            [3, 3, 1, 1, 2, 4, 2, 5, 3])[0]))
    return [*ops, *(Op("output", [place]) for place in chance.sample([0, 4, 8, 1024, 1028, 1032], chance.randrange(4)))]
