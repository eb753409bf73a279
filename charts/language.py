"""The tables of the language that crates/iloc_tables prints: for the scripts that read or write blocks and verdicts."""
import json
import os
import re

with open(os.path.join(os.path.dirname(os.path.realpath(__file__)), "tables.json"), encoding="ascii") as file:
    TABLES = json.load(file)
PASSING = [verdict for verdict, passes in TABLES["verdicts"].items() if passes]
USUAL = TABLES["latencies"]
MOST_BYTES, MOST_BLOCKS, MOST_OPERATIONS, MAX_NUMBER, WORDS, LONGEST_LATENCY = TABLES["limits"].values()


def form(operation):
    """How operands are written: u a register that is used, d the one that is defined, c a constant."""
    operands = operation["written"].partition(" ")[2].replace(f"r{operation['defines']}", "d")
    return re.sub(r"\d", "c", re.sub(r"r\d", "u", operands))


OPERATIONS = {operation["written"].split()[0]: operation for operation in TABLES["operations"]}
FORMS = {opcode: form(operation) for opcode, operation in OPERATIONS.items()}
ROLES = {opcode: re.findall("[udc]", form) for opcode, form in FORMS.items()}
SPELLED = {opcode: re.sub(r"(?<=[ r])\d", "{}", operation["written"]) for opcode, operation in OPERATIONS.items()}


def kind_of(opcode):
    return OPERATIONS[opcode]["kind"].lower() if opcode in OPERATIONS else "other"
