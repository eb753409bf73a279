"""What `trace` lists of rows, each value looked up among all that was issued before."""
from typing import NamedTuple

from language import WORDS
from oracle.machine import MASK, Fault, Machine, signed

LONGEST = 16        # cycles that a latency may have


class Sent(NamedTuple):
    due: int
    issued: int
    place: str
    word: int


class Issued:
    """An operation that is issued when this has arrived."""

    def __init__(self, op, cycle, latencies, arrived, start):
        self.op, self.arrived, self.start, self.sent, self.faults = op, arrived, start, None, False
        machine = Machine(lambda number: self.value(f"word {4 * number}"))
        machine.registers = {n: self.value(f"r{n}") for n in op.used}
        self.places = [f"r{n}" for n in dict.fromkeys(op.used)] + self.words_read(machine.registers)
        try:
            effect = machine.effect(op)
        except Fault:
            self.faults = True
            return
        if effect:
            holder, name, word = effect
            place = f"r{name}" if holder is machine.registers else f"word {4 * name}"
            self.sent = Sent(cycle + op.latency(latencies), cycle, place, word)

    def value(self, place):
        return held(self.arrived, place, self.start)

    def words_read(self, registers):
        """The word that the operation reads, where its address is good."""
        if self.op.kind not in ("load", "output"):
            return []
        address = (sum(registers[n] for n in self.op.used) + (self.op.constant or 0)) & MASK
        return [] if address % 4 or address >= 4 * WORDS else [f"word {address}"]

    def line(self, cycle, unit, log):
        reads = []
        for place in self.places:
            due = min((sent.due for sent in log if sent.place == place and sent.due > cycle), default=None)
            reads.append(f"{place} = {signed(self.value(place))}" + ("" if due is None else f" until {due}"))
        verb = "emits" if self.op.kind == "output" else "reads"
        more = f" {verb} {', '.join(reads)}" if reads else ""
        return f"{'fault' if self.faults else 'issue'} {cycle} unit {unit} {self.op}{more}"


def held(arrived, place, start):
    """What a place has: the result that was due last, and issued last of those."""
    found = [(sent.due, number, sent.word) for number, sent in enumerate(arrived) if sent.place == place]
    if found:
        return max(found)[2]
    return start(int(place.removeprefix("word ")) // 4) if place.startswith("word") else 0


def trace(rows, latencies, start):
    """The lines of a schedule on a memory."""
    log, lines = [], []
    for cycle in range(len(rows) + LONGEST):
        arrived = [sent for sent in log if sent.due < cycle]
        for sent in [sent for sent in log if sent.due == cycle]:
            was = signed(held(arrived, sent.place, start))
            lines.append(f"write {cycle} {sent.place} = {signed(sent.word)} was {was} from {sent.issued}")
            arrived.append(sent)
        row = rows[cycle] if cycle < len(rows) else (None, None)
        slots = [op and Issued(op, cycle, latencies, arrived, start) for op in row]
        for unit, slot in enumerate(slots):
            other = slots[1 - unit]
            if slot:
                lines.append(slot.line(cycle, unit, log + ([other.sent] if other and other.sent else [])))
        if any(slot and slot.faults for slot in slots):
            break
        log += [slot.sent for slot in slots if slot and slot.sent]
    return lines
