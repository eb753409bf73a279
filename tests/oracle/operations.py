"""Operations, by their opcodes and numbers."""
from language import ROLES, SPELLED

# By opcode the one that is to the machine the same; any other is its own.
KINDS = {"loadAI": "load", "storeAI": "store", "multI": "mult"}


class Op:
    def __init__(self, opcode, numbers):
        self.opcode, self.numbers, self.roles, self.kind = opcode, [*numbers], ROLES[opcode], KINDS.get(opcode, opcode)
        self.used, self.defined, constants = ([n for n, had in zip(numbers, self.roles) if had == role]
                                              for role in "udc")
        self.constant = constants[0] if constants else None

    def latency(self, latencies):
        return latencies.get(self.kind, 1)

    def with_numbers(self, change):
        """The operation with the number that `change` gives for each number and its role."""
        return Op(self.opcode, [change(n, role) for n, role in zip(self.numbers, self.roles)])

    def __str__(self):
        return SPELLED[self.opcode].format(*self.numbers)


def text_of(blocks):
    """The blocks as a file, named B1, B2 and so on."""
    return "".join(f"B{k}:\n" + "".join(f"{op}\n" for op in ops) for k, ops in enumerate(blocks, 1)).encode()


def words_for(latencies):
    """The options that ask for these latencies."""
    return [word for name, cycles in latencies.items() for word in (f"--{name}", str(cycles))]
